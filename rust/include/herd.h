/*
 * The calls of a proved contact tracing engine for dairy herds. Link with -lherd_ffi.
 *
 * A contact leaves one animal at a tick and arrives at another when the carry time is over. A
 * journey is a row of contacts, each leaving the animal that the one before it reached, no earlier
 * than it got there. A window is a first and a last tick, and a journey fits it when all its
 * contacts are at these ticks. Animals are numbered from 0, ticks from 1.
 *
 * Slices. Words of 32 bits are lent as a slice: a pointer and a length in words. A pointer is not
 * null and is aligned for a word; that of an empty slice may be any such pointer. Behind a pointer
 * to const the words are only read. Where a call writes one of its slices, no other slice of that
 * call may share a word with it, and no other thread may use these words meanwhile. A call reads
 * and writes the words lent to it and no others, and keeps none of the pointers.
 *
 * Tables. The length of a table for n animals is 1 + n*n*(ticks+1) words. herd_open and
 * herd_read_log write a table whatever its words were; all other calls take one that is open.
 *
 * Replies. The upper half of a reply says which answer it is, its lower half is the answer's
 * number. 0 is a refusal with its number, and every lent word is then as before; 1 and 2 are the
 * answers of the call, with 0 for a number where none is named. The number of an interval is
 * departure * 65536 + arrival.
 *
 * Words of logs and chains, by their bits; the bits that are not named are 0:
 *   opening       31-30: 2   25-18: animals - 1       17-10: carry time - 1   9-0: ticks - 1
 *   contact       31-30: 1   25-18: the animal left   17-10: the animal met   9-0: tick - 1
 *   end of a log  31-30: 3   25-0: the contacts of the log
 *
 * Refusals. Any words and any numbers may be given. Each call below names its refusals in the order
 * of its checks, and the first check that fails gives its number:
 *    1  the animals are not 1 to 256
 *    2  the ticks are not 1 to 1024
 *    3  the carry time is not 1 to 256
 *    4  the table has not the length for these numbers
 *    5  the table is empty, has no opening word first, or not the length for it
 *    6  some cell of the table is not well formed
 *    7  an animal is not below the number of animals
 *    8  both animals are the same
 *    9  a tick is not 1 to ticks; in herd_earliest and herd_latest, not 1 to ticks + carry time
 *   10  the buffer has fewer words than there are animals, less one
 *   11  the log has no opening word first, or no word behind it
 *   12  a word between the first and the last of the log is no contact word
 *   13  such a word's contact is not of two different animals of the log at one of its ticks
 *   14  the last word of the log is no end word with the number of the words between
 *   15  the buffer has fewer words than there are contacts held, and two
 *   17  the two tables have different opening words
 *   18  a record is no stay of an animal of the table in a pen from 0 to 63, at ticks of the table,
 *       the first not after the last; or the last record is incomplete
 *   19  both ticks of a window are in range, and its first is after its last
 *   20  the table lent for work has not the length of the first
 *   21  the table does not hold the contact
 */
#ifndef HERD_H
#define HERD_H

#include <stddef.h>
#include <stdint.h>

/* The length in words of a table for so many animals and ticks. */
#define HERD_TABLE_WORDS(n, ticks) (1 + (size_t)(n) * (size_t)(n) * ((size_t)(ticks) + 1))

/* Which answer a reply is, and the answer's number. */
#define HERD_ANSWER(reply) ((uint32_t)((uint64_t)(reply) >> 32))
#define HERD_NUMBER(reply) ((uint32_t)((uint64_t)(reply) & 0xFFFFFFFFu))

/* Both ends of the interval that herd_earliest or herd_latest found. */
#define HERD_DEPARTURE(reply) (HERD_NUMBER(reply) >> 16)
#define HERD_ARRIVAL(reply) (HERD_NUMBER(reply) & 0xFFFFu)

/* The answer of any call that is refused. */
#define HERD_REFUSED 0u
/* The answers of herd_add. */
#define HERD_NEW 1u
#define HERD_KNOWN 2u
/* The answers of herd_reach, herd_connected and herd_claimed. */
#define HERD_YES 1u
#define HERD_NO 2u
/* The answers of herd_earliest, herd_latest and herd_chain. */
#define HERD_FOUND 1u
#define HERD_NONE 2u
/* The answer of each other call. */
#define HERD_DONE 1u

#ifdef __cplusplus
extern "C" {
#endif

/* Opens a table: writes every word of it, each cell empty. 1: opened.
 * Refusals: 1, 2, 3, 4. */
uint64_t herd_open(uint32_t *table, size_t words, uint32_t animals, uint32_t ticks, uint32_t carry);

/* Adds the contact that leaves u for v at tick t. 1: new, 2: known before, each with how many cells
 * changed. Refusals: 5, 6, 7, 8, 9. */
uint64_t herd_add(uint32_t *table, size_t words, uint32_t u, uint32_t v, uint32_t t);

/* Adds the contacts that the second table holds to the first. 1: joined, with how many were new.
 * Refusals: 5, 6 for the first table and then for the second, 17. */
uint64_t herd_join(uint32_t *first, size_t first_words, const uint32_t *second,
                   size_t second_words);

/* Adds the contacts of animals in one pen at one tick, from records of four words: animal, pen,
 * first tick, last tick. 1: added, with how many contacts were new. Refusals: 5, 6, 18. */
uint64_t herd_stays(uint32_t *table, size_t words, const uint32_t *stays, size_t stay_words);

/* Removes a contact, with a second table of the same length for work; both are then the same.
 * 1: done. Refusals: 5, 6, 20, 7, 8, 9, 21. */
uint64_t herd_remove(uint32_t *table, size_t words, uint32_t *work, size_t work_words, uint32_t u,
                     uint32_t v, uint32_t t);

/* Opens the table as the log says and adds its contacts. 1: read, with how many different ones.
 * Refusals: 11, 4, for each word between first and last in turn 12, 13, and then 14. */
uint64_t herd_read_log(const uint32_t *log, size_t words, uint32_t *table, size_t room);

/* Writes the log of the contacts held to the front of the buffer. 1: written, with how many words.
 * Refusals: 5, 6, 15. */
uint64_t herd_write_log(const uint32_t *table, size_t words, uint32_t *buffer, size_t room);

/* Asks whether a journey from u to v fits the window. 1: yes, 2: no.
 * Refusals: 5, 6, 7, 8, 9, 19. */
uint64_t herd_reach(const uint32_t *table, size_t words, uint32_t u, uint32_t v, uint32_t first,
                    uint32_t last);

/* Asks for the interval of a journey from u to v with the earliest arrival, of those that depart at
 * or after first. 1: found, with the interval, 2: none. Refusals: 5, 6, 7, 8, 9. */
uint64_t herd_earliest(const uint32_t *table, size_t words, uint32_t u, uint32_t v, uint32_t first);

/* Asks for the interval of a journey from u to v with the latest departure, of those that arrive by
 * last. 1: found, with the interval, 2: none. Refusals: 5, 6, 7, 8, 9. */
uint64_t herd_latest(const uint32_t *table, size_t words, uint32_t u, uint32_t v, uint32_t last);

/* Asks whether a journey from each animal to each other one fits the window. 1: yes, 2: no.
 * Refusals: 5, 6, 9, 19. */
uint64_t herd_connected(const uint32_t *table, size_t words, uint32_t first, uint32_t last);

/* Writes the animals reached from u in the window, i as bit i % 32 of word i / 32 of eight, as many
 * words as have room. 1: a set, with how many animals it has. Refusals: 5, 6, 7, 9, 19. */
uint64_t herd_reached(const uint32_t *table, size_t words, uint32_t u, uint32_t first,
                      uint32_t last, uint32_t *set, size_t room);

/* Writes the contacts of a journey from u to v that fits the window to the front of the buffer.
 * 1: a chain, with how many contacts it has, 2: no journey. Refusals: 5, 6, 7, 8, 9, 19, 10. */
uint64_t herd_chain(const uint32_t *table, size_t words, uint32_t u, uint32_t v, uint32_t first,
                    uint32_t last, uint32_t *buffer, size_t room);

/* Asks whether the words of chain are contacts held, one or more, that form a journey from u to v
 * which fits the window. 1: yes, 2: no. Refusals: 5, 6, 7, 8, 9, 19. */
uint64_t herd_claimed(const uint32_t *table, size_t words, uint32_t u, uint32_t v, uint32_t first,
                      uint32_t last, const uint32_t *chain, size_t contacts);

#ifdef __cplusplus
}
#endif

#endif
