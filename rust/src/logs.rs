//! Logs as bytes: four to a word, highest first.

use crate::calls::{self, Read as Loaded};
use crate::herd::memory;
use crate::words::{self, Opening, MOST_LOGGED};
use crate::{Error, Herd};
use std::io::{self, Read, Write};

/// The bytes that are read or written at a time.
const PIECE: usize = 1 << 16;
/// The words of the longest log that can be read: an opening word, the contacts and an end word.
const MOST_WORDS: usize = MOST_LOGGED + 2;

impl Herd {
    /// Reads a log: opens the herd as its first word says, and adds every contact of it. The log may be of any order, with
    /// repeats. It carries no checksum: a log whose contacts were changed to others is read without a word.
    ///
    /// The input is read in large pieces, so that a file needs no buffer around it. The first word says how large the table
    /// is, up to 269 million bytes, which are taken before the rest is judged.
    ///
    /// # Errors
    ///
    /// [`Error::NoOpeningWord`], [`Error::NothingBehindOpening`], [`Error::NoContactWord`], [`Error::ContactWord`],
    /// [`Error::WrongEnd`], [`Error::NotWholeWords`], [`Error::LogTooLong`], and [`Error::Io`] where the bytes cannot be
    /// read.
    ///
    /// ```
    /// use herd::{Contact, Herd};
    ///
    /// let bytes = b"\x80\x0C\x00\x05\x40\x00\x04\x01\x40\x04\x0C\x03\xC0\x00\x00\x02";
    /// let herd = Herd::read_log(&bytes[..])?;
    /// assert_eq!((herd.animals(), herd.ticks(), herd.carry()), (4, 6, 1));
    /// assert_eq!(herd.contacts()?, [Contact::new(0, 1, 2), Contact::new(1, 3, 4)]);
    ///
    /// let error = Herd::read_log(&bytes[..12]).unwrap_err();
    /// assert_eq!(error.number(), Some(14));
    /// # Ok::<(), herd::Error>(())
    /// ```
    pub fn read_log(input: impl Read) -> Result<Herd, Error> {
        let log = words_from(input)?;
        let opening = log.first().and_then(|&first| Opening::of_word(first));
        let opening = opening.ok_or(Error::NoOpeningWord)?;
        let mut table = memory(opening.table_words())?;
        match calls::read_log(&log, &mut table) {
            Loaded::Contacts(held) => Ok(Herd::over(opening, table, held as usize)),
            Loaded::Refused(number) => Err(refused(number, opening, &log)),
        }
    }

    /// Writes the herd's log: each contact once, by tick, then by the animal left, then by the animal met.
    ///
    /// Two herds that are opened alike and hold the same contacts write the same bytes.
    ///
    /// # Errors
    ///
    /// [`Error::Io`] where the bytes cannot be written.
    ///
    /// ```
    /// use herd::Herd;
    ///
    /// let mut herd = Herd::open(4, 6, 1)?;
    /// herd.extend([(1, 3, 4), (0, 1, 2)])?;
    /// let mut bytes = Vec::new();
    /// herd.write_log(&mut bytes)?;
    /// assert_eq!(bytes, b"\x80\x0C\x00\x05\x40\x00\x04\x01\x40\x04\x0C\x03\xC0\x00\x00\x02");
    /// assert_eq!(Herd::read_log(&bytes[..])?, herd);
    /// # Ok::<(), herd::Error>(())
    /// ```
    pub fn write_log(&self, mut output: impl Write) -> Result<(), Error> {
        let mut bytes = Vec::with_capacity(PIECE);
        for piece in self.log()?.chunks(PIECE / 4) {
            bytes.clear();
            bytes.extend(piece.iter().flat_map(|word| word.to_be_bytes()));
            output.write_all(&bytes)?;
        }
        output.flush()?;
        Ok(())
    }
}

/// The words of all bytes; where there are any, the first is an opening word. At most a piece more is read than the longest
/// log has.
fn words_from(mut input: impl Read) -> Result<Vec<u32>, Error> {
    let mut words: Vec<u32> = Vec::new();
    let mut piece = vec![0; PIECE];
    loop {
        let filled = fill(&mut input, &mut piece)?;
        let whole = piece[..filled].chunks_exact(4);
        let rest = whole.remainder().len();
        let count = words.len() + whole.len();
        if words.try_reserve(whole.len()).is_err() {
            return Err(Error::Memory { words: count });
        }
        words.extend(
            whole.map(|bytes| u32::from_be_bytes([bytes[0], bytes[1], bytes[2], bytes[3]])),
        );
        if words
            .first()
            .is_some_and(|&first| Opening::of_word(first).is_none())
        {
            return Err(Error::NoOpeningWord);
        }
        if rest > 0 {
            let bytes = 4 * words.len() as u64 + rest as u64;
            return Err(Error::NotWholeWords { bytes });
        }
        if words.len() > MOST_WORDS {
            return Err(Error::LogTooLong);
        }
        if filled < PIECE {
            return Ok(words);
        }
    }
}

/// Reads until the piece is full or the input ends, and says how many bytes of it are read.
fn fill(input: &mut impl Read, piece: &mut [u8]) -> io::Result<usize> {
    let mut filled = 0;
    while filled < piece.len() {
        match input.read(&mut piece[filled..]) {
            Ok(0) => break,
            Ok(bytes) => filled += bytes,
            Err(error) if error.kind() == io::ErrorKind::Interrupted => {}
            Err(error) => return Err(error),
        }
    }
    Ok(filled)
}

/// Why the engine refused a log that begins with this opening: the first word that is wrong.
fn refused(number: u32, opening: Opening, log: &[u32]) -> Error {
    let reason = match (number, log) {
        (11, [_]) => Some(Error::NothingBehindOpening),
        (12 | 13, [_, between @ .., _]) => {
            let judged = between.iter().enumerate();
            judged
                .map(|(before, &word)| (1 + before, word))
                .find_map(|(place, word)| wrong(opening, place, word))
        }
        (14, [_, between @ .., last]) => Some(Error::WrongEnd {
            word: *last,
            contacts: between.len(),
        }),
        _ => None,
    };
    reason
        .filter(|reason| reason.number() == Some(number))
        .unwrap_or(Error::Damaged(number))
}

/// What is wrong with a word between the first and the last, if anything.
fn wrong(opening: Opening, place: usize, word: u32) -> Option<Error> {
    if !words::is_contact(word) {
        return Some(Error::NoContactWord { place, word });
    }
    let contact = words::contact_of(word);
    let reason = opening.judge(contact).err()?;
    Some(Error::ContactWord {
        place,
        contact,
        reason: Box::new(reason),
    })
}
