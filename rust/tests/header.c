/* Makes every call of herd.h on the session of document 01, and prints a line for each: its name,
 * which answer it gave, the answer's number, and the words lent for writing as they are then. */
#include "herd.h"

#include <inttypes.h>
#include <stdio.h>

/* The numbers of the session, and the length of its table. */
enum { ANIMALS = 4, TICKS = 6, CARRY = 1, WORDS = HERD_TABLE_WORDS(ANIMALS, TICKS) };

/* The session's log. */
static const uint32_t LOG[5] = {0x800C0005u, 0x40000400u, 0x40000401u, 0x40040C03u, 0xC0000003u};

static void print_reply(const char *name, uint64_t reply) {
    printf("%s %" PRIu32 " %" PRIu32, name, HERD_ANSWER(reply), HERD_NUMBER(reply));
}

static void print_words(const uint32_t *words, size_t length) {
    for (size_t place = 0; place < length; place++) {
        printf(" %08" PRIX32, words[place]);
    }
}

/* The line of a call that writes no word. */
static void asked(const char *name, uint64_t reply) {
    print_reply(name, reply);
    printf("\n");
}

/* The line of a question for an interval, with both ends where there is one. */
static void found(const char *name, uint64_t reply) {
    print_reply(name, reply);
    if (HERD_ANSWER(reply) == HERD_FOUND) {
        printf(" %" PRIu32 "-%" PRIu32, HERD_DEPARTURE(reply), HERD_ARRIVAL(reply));
    }
    printf("\n");
}

/* The line of a call that is lent these words for writing. */
static void wrote(const char *name, uint64_t reply, const uint32_t *words, size_t length) {
    print_reply(name, reply);
    print_words(words, length);
    printf("\n");
}

static void fill(uint32_t *words, size_t length) {
    for (size_t place = 0; place < length; place++) {
        words[place] = 9;
    }
}

/* Opens the table and adds the contacts of the session, without a line. */
static void session(uint32_t *table) {
    herd_open(table, WORDS, ANIMALS, TICKS, CARRY);
    herd_add(table, WORDS, 0, 1, 1);
    herd_add(table, WORDS, 0, 1, 2);
    herd_add(table, WORDS, 1, 3, 4);
}

static void openings(void) {
    uint32_t table[WORDS];
    fill(table, WORDS);
    wrote("herd_open", herd_open(table, WORDS, 0, TICKS, CARRY), table, WORDS);
    wrote("herd_open", herd_open(table, WORDS, ANIMALS, 1025, CARRY), table, WORDS);
    wrote("herd_open", herd_open(table, WORDS, ANIMALS, TICKS, 257), table, WORDS);
    wrote("herd_open", herd_open(table, WORDS - 1, ANIMALS, TICKS, CARRY), table, WORDS);
    wrote("herd_open", herd_open(table, WORDS, ANIMALS, TICKS, CARRY), table, WORDS);
}

static void adds(void) {
    uint32_t table[WORDS];
    herd_open(table, WORDS, ANIMALS, TICKS, CARRY);
    wrote("herd_add", herd_add(table, WORDS, 1, 3, 4), table, WORDS);
    wrote("herd_add", herd_add(table, WORDS, 0, 1, 1), table, WORDS);
    wrote("herd_add", herd_add(table, WORDS, 0, 1, 2), table, WORDS);
    wrote("herd_add", herd_add(table, WORDS, 0, 1, 1), table, WORDS);
    wrote("herd_add", herd_add(table, 0, 0, 1, 1), table, WORDS);
    wrote("herd_add", herd_add(table, WORDS, 0, 4, 1), table, WORDS);
    wrote("herd_add", herd_add(table, WORDS, 1, 1, 1), table, WORDS);
    wrote("herd_add", herd_add(table, WORDS, 0, 1, 7), table, WORDS);
    table[1] = 0;
    wrote("herd_add", herd_add(table, WORDS, 0, 1, 3), table, WORDS);
}

static void joins(void) {
    uint32_t first[WORDS], second[WORDS];
    session(first);
    herd_open(second, WORDS, ANIMALS, TICKS, CARRY);
    herd_add(second, WORDS, 0, 1, 2);
    herd_add(second, WORDS, 3, 2, 6);
    wrote("herd_join", herd_join(first, WORDS, second, WORDS), first, WORDS);
    wrote("herd_join", herd_join(first, WORDS, second, WORDS - 1), first, WORDS);
    herd_open(second, WORDS, ANIMALS, TICKS, CARRY + 1);
    wrote("herd_join", herd_join(first, WORDS, second, WORDS), first, WORDS);
}

static void stays(void) {
    static const uint32_t records[8] = {2, 63, 1, 3, 0, 63, 2, 5};
    uint32_t table[WORDS];
    session(table);
    wrote("herd_stays", herd_stays(table, WORDS, records, 0), table, WORDS);
    wrote("herd_stays", herd_stays(table, WORDS, records, 7), table, WORDS);
    wrote("herd_stays", herd_stays(table, WORDS, records, 8), table, WORDS);
}

/* The line of a removal on these two tables. */
static void removed(uint32_t *table, uint32_t *work, size_t work_words) {
    print_reply("herd_remove", herd_remove(table, WORDS, work, work_words, 1, 3, 4));
    print_words(table, WORDS);
    print_words(work, WORDS);
    printf("\n");
}

static void removals(void) {
    uint32_t table[WORDS], work[WORDS];
    session(table);
    fill(work, WORDS);
    removed(table, work, WORDS - 1);
    removed(table, work, WORDS);
    removed(table, work, WORDS);
}

/* The line of reading the session's log with another word at this place. */
static void read_with(size_t place, uint32_t word) {
    uint32_t log[5], table[WORDS];
    for (size_t at = 0; at < 5; at++) {
        log[at] = at == place ? word : LOG[at];
    }
    fill(table, WORDS);
    wrote("herd_read_log", herd_read_log(log, 5, table, WORDS), table, WORDS);
}

static void logs(void) {
    uint32_t table[WORDS], buffer[6];
    fill(table, WORDS);
    wrote("herd_read_log", herd_read_log(LOG, 1, table, WORDS), table, WORDS);
    wrote("herd_read_log", herd_read_log(LOG, 5, table, WORDS - 1), table, WORDS);
    wrote("herd_read_log", herd_read_log(LOG, 5, table, WORDS), table, WORDS);
    read_with(1, LOG[0]);
    read_with(2, 0x40000000u);
    read_with(4, LOG[4] + 1);
    fill(buffer, 6);
    wrote("herd_write_log", herd_write_log(table, WORDS, buffer, 4), buffer, 6);
    wrote("herd_write_log", herd_write_log(table, WORDS, buffer, 6), buffer, 6);
}

static void pairs(const uint32_t *table) {
    asked("herd_reach", herd_reach(table, WORDS, 0, 3, 1, 4));
    asked("herd_reach", herd_reach(table, WORDS, 0, 3, 1, 3));
    asked("herd_reach", herd_reach(table, WORDS, 0, 3, 1, 7));
    asked("herd_reach", herd_reach(table, WORDS, 0, 3, 4, 1));
    found("herd_earliest", herd_earliest(table, WORDS, 0, 3, 2));
    found("herd_earliest", herd_earliest(table, WORDS, 0, 3, 3));
    found("herd_earliest", herd_earliest(table, WORDS, 0, 3, 8));
    found("herd_latest", herd_latest(table, WORDS, 0, 3, 5));
    found("herd_latest", herd_latest(table, WORDS, 0, 3, 4));
    found("herd_latest", herd_latest(table, WORDS, 3, 3, 5));
}

static void sets(const uint32_t *table) {
    uint32_t alone[HERD_TABLE_WORDS(1, 1)], set[9];
    herd_open(alone, HERD_TABLE_WORDS(1, 1), 1, 1, 1);
    asked("herd_connected", herd_connected(alone, HERD_TABLE_WORDS(1, 1), 1, 1));
    asked("herd_connected", herd_connected(table, WORDS, 1, 6));
    asked("herd_connected", herd_connected(table, WORDS, 4, 1));
    fill(set, 9);
    wrote("herd_reached", herd_reached(table, WORDS, 4, 1, 6, set, 9), set, 9);
    wrote("herd_reached", herd_reached(table, WORDS, 0, 1, 6, set, 0), set, 9);
    wrote("herd_reached", herd_reached(table, WORDS, 0, 1, 6, set, 9), set, 9);
}

static void chains(const uint32_t *table) {
    uint32_t chain[4];
    fill(chain, 4);
    wrote("herd_chain", herd_chain(table, WORDS, 0, 3, 1, 6, chain, 2), chain, 4);
    wrote("herd_chain", herd_chain(table, WORDS, 3, 0, 1, 6, chain, 4), chain, 4);
    wrote("herd_chain", herd_chain(table, WORDS, 0, 3, 1, 6, chain, 4), chain, 4);
    asked("herd_claimed", herd_claimed(table, WORDS, 0, 3, 1, 6, chain, 2));
    asked("herd_claimed", herd_claimed(table, WORDS, 0, 3, 1, 6, chain, 0));
    asked("herd_claimed", herd_claimed(table, WORDS, 0, 3, 6, 1, chain, 2));
}

/* A line with the name and the value of each constant. */
static void constants(void) {
    printf("HERD_REFUSED %u\n", HERD_REFUSED);
    printf("HERD_NEW %u\n", HERD_NEW);
    printf("HERD_KNOWN %u\n", HERD_KNOWN);
    printf("HERD_YES %u\n", HERD_YES);
    printf("HERD_NO %u\n", HERD_NO);
    printf("HERD_FOUND %u\n", HERD_FOUND);
    printf("HERD_NONE %u\n", HERD_NONE);
    printf("HERD_DONE %u\n", HERD_DONE);
}

int main(void) {
    uint32_t table[WORDS];
    openings();
    adds();
    joins();
    stays();
    removals();
    logs();
    session(table);
    pairs(table);
    sets(table);
    chains(table);
    constants();
    return 0;
}
