//! Tracing an animal through a whole herd, forwards and back.

use crate::{Contact, Error, Herd, Interval};
use std::cmp::Reverse;
use std::ops::RangeInclusive;

/// An animal that [`Herd::trace`] or [`Herd::trace_back`] found, and the chain that shows it.
#[derive(Clone, Debug, PartialEq, Eq)]
pub struct Traced {
    /// The animal.
    pub animal: u32,
    /// The departure and the arrival of the chain.
    pub interval: Interval,
    /// The contacts of one journey from the animal traced to this one, or back: from this one to the animal traced.
    pub chain: Vec<Contact>,
}

impl Traced {
    /// The animals between the two ends of the chain, in its order.
    pub fn through(&self) -> impl Iterator<Item = u32> + '_ {
        self.chain.iter().skip(1).map(|contact| contact.from)
    }
}

impl Herd {
    /// Every animal that `animal` can have reached in the window, by its earliest arrival there and then by its number, with
    /// the [`chain`](Herd::chain) that arrives so.
    ///
    /// It makes a call for each animal found, and each checks the whole table.
    ///
    /// # Errors
    ///
    /// As [`reached`](Herd::reached).
    ///
    /// ```
    /// use herd::{Herd, Interval};
    ///
    /// let mut herd = Herd::open(4, 6, 1)?;
    /// herd.extend([(0, 1, 1), (0, 1, 2), (1, 3, 4)])?;
    /// let traced = herd.trace(0, 1..=6)?;
    /// assert_eq!((traced[0].animal, traced[0].interval), (1, Interval::new(1, 2)));
    /// assert_eq!((traced[1].animal, traced[1].interval), (3, Interval::new(2, 5)));
    /// assert_eq!(traced[1].through().collect::<Vec<_>>(), [1]);
    /// # Ok::<(), herd::Error>(())
    /// ```
    pub fn trace(&self, animal: u32, window: RangeInclusive<u32>) -> Result<Vec<Traced>, Error> {
        let mut traced = Vec::new();
        for other in self.reached(animal, window.clone())? {
            let chain = self.chain(animal, other, window.clone())?;
            traced.push(self.traced(other, chain)?);
        }
        traced.sort_by_key(|found| (found.interval.arrival, found.animal));
        Ok(traced)
    }

    /// Every animal that can have reached `animal` in the window, by its latest departure from there, the last first, and
    /// then by its number, with a chain that departs so: of these it is one that arrives first, and it goes by the
    /// lowest-numbered animals.
    ///
    /// It makes a call for each animal and one more for each that is found, and each checks the whole table.
    ///
    /// # Errors
    ///
    /// As [`reached`](Herd::reached).
    ///
    /// ```
    /// use herd::{Herd, Interval};
    ///
    /// let mut herd = Herd::open(4, 6, 1)?;
    /// herd.extend([(0, 1, 1), (0, 1, 2), (1, 3, 4)])?;
    /// let traced = herd.trace_back(3, 1..=6)?;
    /// assert_eq!((traced[0].animal, traced[0].interval), (1, Interval::new(4, 5)));
    /// assert_eq!((traced[1].animal, traced[1].interval), (0, Interval::new(2, 5)));
    /// # Ok::<(), herd::Error>(())
    /// ```
    pub fn trace_back(
        &self,
        animal: u32,
        window: RangeInclusive<u32>,
    ) -> Result<Vec<Traced>, Error> {
        // The engine judges the animal and the window.
        self.reached(animal, window.clone())?;
        let (first, last) = window.into_inner();
        let mut traced = Vec::new();
        for other in (0..self.animals()).filter(|&other| other != animal) {
            let latest = self.latest(other, animal, last + self.carry())?;
            let Some(latest) = latest.filter(|latest| first <= latest.departure) else {
                continue;
            };
            let chain = self.chain(other, animal, latest.departure..=last)?;
            traced.push(self.traced(other, chain)?);
        }
        traced.sort_by_key(|found| (Reverse(found.interval.departure), found.animal));
        Ok(traced)
    }

    /// What was found of an animal, with its chain. An animal that is reached has one: it is never left out for want of it.
    fn traced(&self, animal: u32, chain: Option<Vec<Contact>>) -> Result<Traced, Error> {
        let chain = chain.unwrap_or_default();
        let (Some(first), Some(last)) = (chain.first(), chain.last()) else {
            return Err(Error::Damaged(0));
        };
        let arrival = last.interval(self.carry()).arrival;
        Ok(Traced {
            animal,
            interval: Interval::new(first.tick, arrival),
            chain,
        })
    }
}

#[cfg(test)]
mod tests {
    use crate::words::Opening;
    use crate::{calls, Error, Herd};

    /// A herd whose table says that 0 reaches 3, but holds no contact: no calls of a herd make such a table.
    fn without_contacts() -> Herd {
        let opening = Opening {
            animals: 4,
            ticks: 6,
            carry: 1,
        };
        let mut table = vec![0; opening.table_words()];
        assert_eq!(calls::open(&mut table, 4, 6, 1), calls::Opened::Opened);
        table[22..24].copy_from_slice(&[0xC000_0001, 0x4000_0805]);
        Herd::over(opening, table, 0)
    }

    #[test]
    fn an_animal_without_a_chain_is_not_left_out() {
        let herd = without_contacts();
        assert_eq!(herd.reached(0, 1..=6).unwrap(), [3]);
        assert_eq!(herd.chain(0, 3, 1..=6).unwrap(), None);
        for traced in [herd.trace(0, 1..=6), herd.trace_back(3, 1..=6)] {
            assert!(matches!(traced, Err(Error::Damaged(0))), "{traced:?}");
        }
        assert_eq!(herd.trace(1, 1..=6).unwrap(), []);
        assert_eq!(herd.trace_back(0, 1..=6).unwrap(), []);
    }
}
