//! Contacts, stays and intervals.

use std::fmt;
use std::slice;

/// One animal came near enough to another to pass something on: it leaves `from` at `tick` and arrives at `to` when the
/// carry time is over.
///
/// A contact goes one way. Where two animals met and either can have passed something on to the other, that is two
/// contacts. Contacts are ordered as in a log: by tick, then by `from`, then by `to`.
///
/// ```
/// use herd::Contact;
///
/// let contact = Contact::new(0, 1, 12);
/// assert_eq!(contact, Contact { from: 0, to: 1, tick: 12 });
/// assert_eq!(contact, (0, 1, 12).into());
/// assert_eq!(contact.back(), Contact::new(1, 0, 12));
/// assert_eq!(contact.to_string(), "0 -> 1 at tick 12");
/// assert!(contact < Contact::new(0, 2, 12) && Contact::new(9, 8, 11) < contact);
/// ```
#[derive(Clone, Copy, Debug, PartialEq, Eq, PartialOrd, Ord, Hash)]
pub struct Contact {
    /// The tick, from 1 on.
    pub tick: u32,
    /// The animal that it leaves, from 0 on.
    pub from: u32,
    /// The animal that it arrives at.
    pub to: u32,
}

impl Contact {
    /// The contact that leaves `from` for `to` at `tick`. Any numbers are taken; a [`Herd`](crate::Herd) refuses a contact
    /// that is not among its animals and ticks.
    pub const fn new(from: u32, to: u32, tick: u32) -> Contact {
        Contact { tick, from, to }
    }

    /// The contact the other way round, at the same tick.
    pub const fn back(self) -> Contact {
        Contact::new(self.to, self.from, self.tick)
    }

    /// The interval of the journey that is this contact alone: it departs at the contact's tick and arrives `carry` ticks
    /// later.
    ///
    /// ```
    /// use herd::{Contact, Interval};
    ///
    /// assert_eq!(Contact::new(0, 1, 12).interval(3), Interval::new(12, 15));
    /// ```
    pub const fn interval(self, carry: u32) -> Interval {
        Interval::new(self.tick, self.tick.saturating_add(carry))
    }
}

/// The contact (from, to, tick).
impl From<(u32, u32, u32)> for Contact {
    fn from((from, to, tick): (u32, u32, u32)) -> Contact {
        Contact::new(from, to, tick)
    }
}

impl fmt::Display for Contact {
    fn fmt(&self, f: &mut fmt::Formatter<'_>) -> fmt::Result {
        write!(f, "{} -> {} at tick {}", self.from, self.to, self.tick)
    }
}

/// The departure and the arrival of a journey; intervals are ordered by departure, then by arrival.
///
/// ```
/// use herd::Interval;
///
/// let interval = Interval::new(2, 5);
/// assert!(interval.within(Interval::new(1, 5)) && !interval.within(Interval::new(3, 5)));
/// assert_eq!(interval.to_string(), "2-5");
/// ```
#[derive(Clone, Copy, Debug, PartialEq, Eq, PartialOrd, Ord, Hash)]
pub struct Interval {
    /// The tick at which the first contact leaves.
    pub departure: u32,
    /// The tick at which the last contact arrives.
    pub arrival: u32,
}

impl Interval {
    /// The interval from the departure to the arrival.
    pub const fn new(departure: u32, arrival: u32) -> Interval {
        Interval { departure, arrival }
    }

    /// Whether this interval lies inside the other one or equals it.
    pub const fn within(self, other: Interval) -> bool {
        other.departure <= self.departure && self.arrival <= other.arrival
    }
}

impl fmt::Display for Interval {
    fn fmt(&self, f: &mut fmt::Formatter<'_>) -> fmt::Result {
        write!(f, "{}-{}", self.departure, self.arrival)
    }
}

/// A record of a gate reader: the animal was in the pen from the first tick to the last. Stays are ordered by their numbers.
///
/// ```
/// use herd::Stay;
///
/// let stay = Stay::new(7, 63, 1, 4);
/// assert_eq!(stay, Stay { animal: 7, pen: 63, first: 1, last: 4 });
/// assert_eq!(stay.to_string(), "animal 7 in pen 63 from tick 1 to tick 4");
/// assert_eq!(Stay::words(&[stay, stay]), [7, 63, 1, 4, 7, 63, 1, 4]);
/// ```
#[repr(C)]
#[derive(Clone, Copy, Debug, PartialEq, Eq, PartialOrd, Ord, Hash)]
pub struct Stay {
    /// The animal.
    pub animal: u32,
    /// The pen, 0 to 63.
    pub pen: u32,
    /// The first tick at which the animal was there.
    pub first: u32,
    /// The last tick at which it was there.
    pub last: u32,
}

impl Stay {
    /// The stay of the animal in the pen from the first tick to the last. Any numbers are taken; a [`Herd`](crate::Herd)
    /// refuses a stay that is not of its animals and ticks, or in a pen that there is not.
    pub const fn new(animal: u32, pen: u32, first: u32, last: u32) -> Stay {
        Stay {
            animal,
            pen,
            first,
            last,
        }
    }

    /// The list as the words that [`calls::stays`](crate::calls::stays) is lent: animal, pen, first and last tick of each.
    #[inline]
    pub fn words(list: &[Stay]) -> &[u32] {
        // SAFETY: a stay lies in memory as its four words in this order, and the words are borrowed with the list.
        unsafe { slice::from_raw_parts(list.as_ptr().cast(), 4 * list.len()) }
    }
}

/// The stay (animal, pen, first, last).
impl From<(u32, u32, u32, u32)> for Stay {
    fn from((animal, pen, first, last): (u32, u32, u32, u32)) -> Stay {
        Stay::new(animal, pen, first, last)
    }
}

impl fmt::Display for Stay {
    fn fmt(&self, f: &mut fmt::Formatter<'_>) -> fmt::Result {
        let (animal, pen) = (self.animal, self.pen);
        let (first, last) = (self.first, self.last);
        write!(
            f,
            "animal {animal} in pen {pen} from tick {first} to tick {last}"
        )
    }
}
