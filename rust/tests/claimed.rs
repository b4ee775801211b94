//! The check of a claimed chain: what each word must be, and how they must follow each other.

use herd_testing::cases;
use herd_testing::random::Random;
use herd_testing::suite::{draws, Call, Export, Lent, Reply, Suite};
use herd_testing::words::{self, Contact, Interval, Opening, Window};
use std::collections::{BTreeMap, BTreeSet};

/// A journey of contacts that a table holds, and the window that it just fits.
struct Claim<'a> {
    lent: &'a Lent,
    journey: Vec<Contact>,
    window: Window,
}

impl<'a> Claim<'a> {
    /// A journey of the table between two different animals, where there is one.
    fn drawn(random: &mut Random, lent: &'a Lent, most: usize) -> Option<Claim<'a>> {
        let journey = lent.journey(random, most);
        let differ = journey.first()?.from != journey.last()?.to;
        let window = Window::around(&journey);
        differ.then_some(Claim {
            lent,
            journey,
            window,
        })
    }

    /// The first and the last animal.
    fn ends(&self) -> (u32, u32) {
        words::ends(&self.journey)
    }

    /// The words of the chain.
    fn words(&self) -> Vec<u32> {
        words::contact_words(&self.journey)
    }

    /// Claims the words for the pair and the window.
    fn call(&self, (u, v): (u32, u32), window: Window, chain: Vec<u32>) -> Call {
        Call::Claimed(u, v, window.first, window.last, chain)
    }

    /// A place in the chain.
    fn place(&self, random: &mut Random) -> usize {
        random.below(self.journey.len())
    }

    /// The chain with another contact at the place.
    fn with(&self, place: usize, contact: Contact) -> Vec<u32> {
        let mut chain = self.words();
        chain[place] = words::contact_word(contact);
        chain
    }
}

/// Words in place of a true chain, for which the answer is no; none where the claim has no place for them.
type Wrong = fn(&Claim, &mut Random) -> Option<Vec<u32>>;

/// Such words.
const WRONG: [(&str, Wrong); 16] = [
    ("no word", |_, _| Some(Vec::new())),
    ("a word of another kind", |claim, random| {
        let (mut chain, place) = (claim.words(), claim.place(random));
        chain[place] ^= random.between(1, 3) << 30;
        Some(chain)
    }),
    ("an unnamed bit", |claim, random| {
        let (mut chain, place) = (claim.words(), claim.place(random));
        chain[place] |= 1 << random.between(26, 29);
        Some(chain)
    }),
    ("zero", |claim, random| {
        let (mut chain, place) = (claim.words(), claim.place(random));
        chain[place] = 0;
        Some(chain)
    }),
    ("the opening word first", |claim, _| {
        Some([&claim.lent.words[..1], &claim.words()].concat())
    }),
    ("an end word behind", |claim, _| {
        let end = words::end_word(claim.journey.len() as u32);
        Some([claim.words(), vec![end]].concat())
    }),
    ("animal left, n or above", |claim, random| {
        let place = claim.place(random);
        let from = random.between(claim.lent.opening.animals, 255);
        let taken = claim.journey[place];
        Some(claim.with(place, Contact { from, ..taken }))
    }),
    ("animal met, n or above", |claim, random| {
        let place = claim.place(random);
        let to = random.between(claim.lent.opening.animals, 255);
        let taken = claim.journey[place];
        Some(claim.with(place, Contact { to, ..taken }))
    }),
    ("one animal with itself", |claim, random| {
        let place = claim.place(random);
        let taken = claim.journey[place];
        let to = taken.from;
        Some(claim.with(place, Contact { to, ..taken }))
    }),
    ("tick beyond the last", |claim, random| {
        let place = claim.place(random);
        let ticks = claim.lent.opening.ticks;
        let tick = random.one_of(&[ticks + 1, 1024]);
        let taken = claim.journey[place];
        (ticks < 1024).then(|| claim.with(place, Contact { tick, ..taken }))
    }),
    ("a contact that is not held", |claim, random| {
        let place = claim.place(random);
        let taken = claim.journey[place];
        let ticks = 1..=claim.lent.opening.ticks;
        let mut others = ticks.map(|tick| Contact { tick, ..taken });
        let other = others.find(|contact| !claim.lent.held.contains(contact))?;
        Some(claim.with(place, other))
    }),
    ("a contact left out", |claim, random| {
        let (mut chain, place) = (claim.words(), claim.place(random));
        chain.remove(place);
        Some(chain)
    }),
    ("a contact twice", |claim, random| {
        let (mut chain, place) = (claim.words(), claim.place(random));
        chain.insert(place, chain[place]);
        Some(chain)
    }),
    ("backwards", |claim, _| {
        let mut chain = claim.words();
        chain.reverse();
        (chain.len() > 1).then_some(chain)
    }),
    ("the whole twice", |claim, _| Some(claim.words().repeat(2))),
    ("departing before the arrival", |claim, random| {
        let place = claim.place(random);
        let (last, carry) = (claim.journey.last()?, claim.lent.opening.carry);
        let early = |c: &&Contact| c.from == last.to && c.tick < last.interval(carry).arrival;
        let next: Vec<Contact> = claim.lent.held.iter().filter(early).copied().collect();
        let next = next.get(place % next.len().max(1))?;
        Some([claim.words(), vec![words::contact_word(*next)]].concat())
    }),
];

/// Whether the words spell a journey between the same animals in the same window all the same.
fn is_true(claim: &Claim, chain: &[u32]) -> bool {
    let contacts: Option<Vec<Contact>> = chain.iter().map(|&w| words::read_contact(w)).collect();
    contacts.is_some_and(|contacts| {
        let held: BTreeSet<&Contact> = claim.lent.held.iter().collect();
        words::journey(claim.lent.opening.carry, &contacts).is_some()
            && contacts.iter().all(|contact| held.contains(contact))
            && contacts.iter().all(|&contact| claim.window.has(contact))
            && words::ends(&contacts) == claim.ends()
    })
}

#[test]
fn chosen_words_are_answered_no() {
    let mut random = Random::new(1_201);
    let mut suite = Suite::default();
    let mut met = BTreeMap::new();
    for _ in 0..1_500 {
        let lent = draws::built(&mut random);
        let Some(claim) = Claim::drawn(&mut random, &lent, 5) else {
            continue;
        };
        let call = claim.call(claim.ends(), claim.window, claim.words());
        suite.require(&lent, &call, Reply::Yes);
        for (name, wrong) in WRONG {
            let chain = wrong(&claim, &mut random).filter(|chain| !is_true(&claim, chain));
            let times = met.entry(name).or_insert(0);
            if let Some(chain) = chain {
                let call = claim.call(claim.ends(), claim.window, chain);
                suite.require(&lent, &call, Reply::No);
                *times += 1;
            }
        }
    }
    assert!(met.values().all(|&times| times > 100), "{met:?}");
}

#[test]
fn other_animals_and_narrower_windows_are_answered_no() {
    let mut random = Random::new(1_202);
    let mut suite = Suite::default();
    for round in 0..2_000 {
        let lent = match round % 2 {
            0 => draws::built(&mut random),
            _ => draws::stored(&mut random),
        };
        let Some(claim) = Claim::drawn(&mut random, &lent, 5) else {
            continue;
        };
        let (u, v) = claim.ends();
        let Window { first, last } = claim.window;
        let ticks = lent.opening.ticks;
        let mut ask = |pair, first, last, reply| {
            let call = claim.call(pair, Window::new(first, last), claim.words());
            suite.require(&lent, &call, reply);
        };
        ask((u, v), first, last, Reply::Yes);
        ask((u, v), 1, ticks, Reply::Yes);
        let narrower = |is_out| match (first < last, is_out) {
            (true, _) => Reply::No,
            (false, true) => Reply::Refused(9),
            (false, false) => Reply::Refused(19),
        };
        ask((u, v), first + 1, last, narrower(first == ticks));
        ask((u, v), first, last - 1, narrower(last == 1));
        if first < ticks {
            ask((u, v), first + 1, ticks, Reply::No);
        }
        if last > 1 {
            ask((u, v), 1, last - 1, Reply::No);
        }
        ask((v, u), first, last, Reply::No);
        for other in (0..lent.opening.animals).filter(|&other| other != u && other != v) {
            ask((u, other), first, last, Reply::No);
            ask((other, v), first, last, Reply::No);
        }
    }
    suite.at_least(500, &[Export::Claimed], &[19]);
}

#[test]
fn journeys_may_pass_an_animal_twice_and_be_long() {
    let mut random = Random::new(1_203);
    let mut suite = Suite::default();
    let (mut twice, mut long) = (0, 0);
    for (animals, ticks, carry) in [(2, 200, 1), (3, 90, 2), (5, 40, 1), (8, 40, 3)] {
        let opening = Opening::new(animals, ticks, carry);
        let contacts = cases::legal_contacts(opening);
        let some = contacts.into_iter().filter(|_| random.once_in(4));
        let lent = Lent::fresh(opening, some.collect());
        for most in [1, 2, 3, animals as usize, 2 * animals as usize, 40, 300] {
            for _ in 0..20 {
                let Some(claim) = Claim::drawn(&mut random, &lent, most) else {
                    continue;
                };
                let call = claim.call(claim.ends(), claim.window, claim.words());
                suite.require(&lent, &call, Reply::Yes);
                let mut met: Vec<u32> = claim.journey.iter().map(|c| c.to).collect();
                met.push(claim.ends().0);
                let different: BTreeSet<u32> = met.iter().copied().collect();
                twice += u32::from(different.len() < met.len());
                long += u32::from(claim.journey.len() > animals as usize - 1);
            }
        }
    }
    assert!(twice > 100 && long > 100, "{twice} {long}");
}

#[test]
fn chains_told_are_claimed_with_yes() {
    let mut random = Random::new(1_204);
    let mut suite = Suite::default();
    let mut contacts = 0;
    for round in 0..4_000 {
        let lent = match round % 2 {
            0 => draws::built(&mut random),
            _ => draws::stored(&mut random),
        };
        if lent.opening.animals < 2 {
            continue;
        }
        let (u, v) = cases::pair(&mut random, lent.opening);
        let (first, last) = (1, lent.opening.ticks);
        let mut buffer = vec![0; lent.opening.animals as usize];
        let told = herd::calls::chain(&lent.words, u, v, first, last, &mut buffer);
        if let herd::calls::Chain::Contacts(number) = told {
            let chain = buffer[..number as usize].to_vec();
            let call = Call::Claimed(u, v, first, last, chain);
            suite.require(&lent, &call, Reply::Yes);
            contacts += number;
        }
    }
    assert!(contacts > 1_000, "{contacts}");
}

#[test]
fn stored_intervals_that_no_contacts_make_are_no_chain() {
    let mut suite = Suite::default();
    let opening = Opening::new(3, 6, 1);
    let mut cells = vec![Vec::new(); opening.pairs()];
    cells[opening.pair(0, 2)].push(Interval::new(1, 4));
    let lent = Lent::stored(opening, &cells);
    let (u, v, first, last) = (0, 2, 1, 6);
    suite.require(&lent, &Call::Reach(u, v, first, last), Reply::Yes);
    for tick in 1..=6 {
        let chain = vec![words::contact_word(Contact::new(0, 2, tick))];
        let call = Call::Claimed(u, v, first, last, chain);
        suite.require(&lent, &call, Reply::No);
    }
    let interval = words::interval_word(Interval::new(1, 4));
    let chain = vec![interval];
    let call = Call::Claimed(u, v, first, last, chain);
    suite.require(&lent, &call, Reply::No);
}
