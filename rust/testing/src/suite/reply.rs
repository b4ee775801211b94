//! What any of the calls answers, and which answers each of them has.

use crate::words::Interval;
use herd::calls::{Added, Answer, Chain, Done, Found, Joined, Opened};
use herd::calls::{Reached, Read, StaysAdded, Written};

/// The engine's calls.
#[derive(Clone, Copy, Debug, PartialEq, Eq, PartialOrd, Ord)]
pub enum Export {
    Open,
    ReadLog,
    Add,
    Join,
    Stays,
    Remove,
    WriteLog,
    Reach,
    Earliest,
    Latest,
    Connected,
    Reached,
    Chain,
    Claimed,
}

/// An answer of any call.
#[derive(Clone, Copy, Debug, PartialEq, Eq, PartialOrd, Ord)]
pub enum Reply {
    /// The refusal's number.
    Refused(u32),
    /// The table is open.
    Opened,
    /// So many different contacts.
    Read(u32),
    /// So many cells changed.
    New(u32),
    /// So many cells changed.
    Known(u32),
    /// So many contacts new to the first table.
    Joined(u32),
    /// So many contacts new to the table.
    StaysAdded(u32),
    /// It is done.
    Done,
    /// So many words.
    Written(u32),
    /// It is so.
    Yes,
    /// It is not so.
    No,
    /// The interval.
    At(Interval),
    /// There is no such interval.
    Nothing,
    /// So many animals.
    Animals(u32),
    /// So many contacts.
    Chain(u32),
    /// No journey is told.
    NoJourney,
}

impl Export {
    /// Every call.
    pub const ALL: [Export; 14] = [
        Export::Open,
        Export::ReadLog,
        Export::Add,
        Export::Join,
        Export::Stays,
        Export::Remove,
        Export::WriteLog,
        Export::Reach,
        Export::Earliest,
        Export::Latest,
        Export::Connected,
        Export::Reached,
        Export::Chain,
        Export::Claimed,
    ];

    /// The calls on an open table.
    pub const ON_OPEN_TABLES: [Export; 12] = [
        Export::Add,
        Export::Join,
        Export::Stays,
        Export::Remove,
        Export::WriteLog,
        Export::Reach,
        Export::Earliest,
        Export::Latest,
        Export::Connected,
        Export::Reached,
        Export::Chain,
        Export::Claimed,
    ];

    /// The kinds of its answers that are no refusals.
    pub fn kinds(self) -> &'static [&'static str] {
        match self {
            Export::Open => &["opened"],
            Export::ReadLog => &["read"],
            Export::Add => &["new", "known"],
            Export::Join => &["joined"],
            Export::Stays => &["stays added"],
            Export::Remove => &["done"],
            Export::WriteLog => &["written"],
            Export::Reach | Export::Connected | Export::Claimed => &["yes", "no"],
            Export::Earliest | Export::Latest => &["at", "nothing"],
            Export::Reached => &["animals"],
            Export::Chain => &["chain", "no journey"],
        }
    }

    /// The numbers of its refusals, in the order of its checks.
    pub fn refusals(self) -> &'static [u32] {
        match self {
            Export::Open => &[1, 2, 3, 4],
            Export::ReadLog => &[11, 4, 12, 13, 14],
            Export::Join => &[5, 6, 17],
            Export::Stays => &[5, 6, 18],
            Export::Remove => &[5, 6, 20, 7, 8, 9, 21],
            Export::WriteLog => &[5, 6, 15],
            Export::Connected => &[5, 6, 9, 19],
            Export::Reached => &[5, 6, 7, 9, 19],
            Export::Chain => &[5, 6, 7, 8, 9, 19, 10],
            Export::Reach | Export::Claimed => &[5, 6, 7, 8, 9, 19],
            Export::Add | Export::Earliest | Export::Latest => &[5, 6, 7, 8, 9],
        }
    }
}

impl Reply {
    /// The kind of the answer, without its number.
    pub fn kind(self) -> &'static str {
        match self {
            Reply::Refused(_) => "refused",
            Reply::Opened => "opened",
            Reply::Read(_) => "read",
            Reply::New(_) => "new",
            Reply::Known(_) => "known",
            Reply::Joined(_) => "joined",
            Reply::StaysAdded(_) => "stays added",
            Reply::Done => "done",
            Reply::Written(_) => "written",
            Reply::Yes => "yes",
            Reply::No => "no",
            Reply::At(_) => "at",
            Reply::Nothing => "nothing",
            Reply::Animals(_) => "animals",
            Reply::Chain(_) => "chain",
            Reply::NoJourney => "no journey",
        }
    }
}

impl From<Opened> for Reply {
    fn from(answer: Opened) -> Reply {
        match answer {
            Opened::Opened => Reply::Opened,
            Opened::Refused(number) => Reply::Refused(number),
        }
    }
}

impl From<Read> for Reply {
    fn from(answer: Read) -> Reply {
        match answer {
            Read::Contacts(contacts) => Reply::Read(contacts),
            Read::Refused(number) => Reply::Refused(number),
        }
    }
}

impl From<Added> for Reply {
    fn from(answer: Added) -> Reply {
        match answer {
            Added::New(cells) => Reply::New(cells),
            Added::Known(cells) => Reply::Known(cells),
            Added::Refused(number) => Reply::Refused(number),
        }
    }
}

impl From<Joined> for Reply {
    fn from(answer: Joined) -> Reply {
        match answer {
            Joined::New(contacts) => Reply::Joined(contacts),
            Joined::Refused(number) => Reply::Refused(number),
        }
    }
}

impl From<StaysAdded> for Reply {
    fn from(answer: StaysAdded) -> Reply {
        match answer {
            StaysAdded::New(contacts) => Reply::StaysAdded(contacts),
            StaysAdded::Refused(number) => Reply::Refused(number),
        }
    }
}

impl From<Done> for Reply {
    fn from(answer: Done) -> Reply {
        match answer {
            Done::Done => Reply::Done,
            Done::Refused(number) => Reply::Refused(number),
        }
    }
}

impl From<Written> for Reply {
    fn from(answer: Written) -> Reply {
        match answer {
            Written::Written(words) => Reply::Written(words),
            Written::Refused(number) => Reply::Refused(number),
        }
    }
}

impl From<Answer> for Reply {
    fn from(answer: Answer) -> Reply {
        match answer {
            Answer::Yes => Reply::Yes,
            Answer::No => Reply::No,
            Answer::Refused(number) => Reply::Refused(number),
        }
    }
}

impl From<Found> for Reply {
    fn from(answer: Found) -> Reply {
        match answer {
            Found::At(interval) => Reply::At(interval),
            Found::Nothing => Reply::Nothing,
            Found::Refused(number) => Reply::Refused(number),
        }
    }
}

impl From<Reached> for Reply {
    fn from(answer: Reached) -> Reply {
        match answer {
            Reached::Animals(animals) => Reply::Animals(animals),
            Reached::Refused(number) => Reply::Refused(number),
        }
    }
}

impl From<Chain> for Reply {
    fn from(answer: Chain) -> Reply {
        match answer {
            Chain::Contacts(contacts) => Reply::Chain(contacts),
            Chain::NoJourney => Reply::NoJourney,
            Chain::Refused(number) => Reply::Refused(number),
        }
    }
}
