//! Claimed chains on drawn herds, true ones and such as were changed, compared with a plain search over contacts.

use crate::asked::Asked;
use crate::met::Met;
use herd::Contact;
use herd_testing::cases;
use herd_testing::check;
use herd_testing::model::Contacts;
use herd_testing::random::Random;
use herd_testing::suite::{draws, Lent};
use herd_testing::words::{self, Opening, Window};

/// A pair, a window and a chain claimed for them.
#[derive(Clone)]
struct Claim {
    pair: (u32, u32),
    window: Window,
    chain: Vec<Contact>,
}

/// What is done to a claim of a journey.
const CHANGES: [&str; 12] = [
    "nothing",
    "all contacts left out",
    "one contact left out",
    "one contact twice",
    "two contacts swapped",
    "one contact at another tick",
    "one contact of another animal",
    "one contact not held",
    "one contact held instead",
    "another pair",
    "first tick too late",
    "last tick too early",
];

/// The claim after the change, where it can be made.
fn changed(random: &mut Random, asked: &Asked, claim: &Claim, change: &str) -> Option<Claim> {
    let opening = asked.opening;
    let mut claim = claim.clone();
    let chain = &mut claim.chain;
    let (place, other) = (random.below(chain.len()), random.below(chain.len()));
    let any = cases::contact(random, opening);
    let held: Vec<Contact> = asked.journeys.contacts().iter().copied().collect();
    match change {
        "nothing" => (),
        "all contacts left out" => chain.clear(),
        "one contact left out" => drop(chain.remove(place)),
        "one contact twice" => chain.insert(place, chain[place]),
        "two contacts swapped" => chain.swap(place, other),
        "one contact at another tick" => chain[place].tick = any.tick,
        "one contact of another animal" if random.once_in(2) => chain[place].from = any.from,
        "one contact of another animal" => chain[place].to = any.to,
        "one contact not held" if held.contains(&any) => return None,
        "one contact not held" => chain[place] = any,
        "one contact held instead" => chain[place] = random.one_of(&held),
        "another pair" => claim.pair = cases::pair(random, opening),
        "first tick too late" => claim.window.first = chain[0].tick + 1,
        "last tick too early" => claim.window.last = chain[chain.len() - 1].tick - 1,
        _ => panic!("no such change: {change}"),
    }
    let legal = |c: &Contact| check::contact(opening, c.from, c.to, c.tick).is_ok();
    let Window { first, last } = claim.window;
    let asks = check::window(opening, first, last).is_ok();
    (asks && claim.chain.iter().all(legal)).then_some(claim)
}

/// A claim of a journey of held contacts from one animal to another one, in a window in which it lies, if one is drawn.
fn journey(random: &mut Random, opening: Opening, lent: &Lent) -> Option<Claim> {
    let most = random.one_of(&[1, 2, 3, 5, 12]);
    let chain = lent.journey(random, most);
    let pair = chain.first().map(|_| words::ends(&chain))?;
    let around = Window::around(&chain);
    let wide = Window::new(
        random.between(1, around.first),
        random.between(around.last, opening.ticks),
    );
    let window = random.one_of(&[around, wide]);
    (pair.0 != pair.1).then_some(Claim {
        pair,
        window,
        chain,
    })
}

#[test]
fn claims_with_one_thing_changed() {
    let mut random = Random::new(2_201);
    let mut met = Met::default();
    for _ in 0..400 {
        let opening = cases::opening_with_time(&mut random);
        let contacts: Contacts = draws::contacts(&mut random, opening).into_iter().collect();
        let lent = Lent::fresh(opening, contacts.clone());
        let asked = Asked::new(&mut random, opening, contacts);
        for change in CHANGES.into_iter().cycle().take(10 * CHANGES.len()) {
            let journey = journey(&mut random, opening, &lent);
            let claim = journey.and_then(|claim| changed(&mut random, &asked, &claim, change));
            if let Some(claim) = claim {
                let spells = asked.compare_claim(claim.pair, claim.window, &claim.chain);
                met.yes_or_no(change, spells);
            }
        }
    }
    met.answers(1_000, "nothing", &["yes"]);
    for change in &CHANGES[1..] {
        met.answers(500, change, &["no"]);
    }
    for change in [
        "one contact at another tick",
        "one contact of another animal",
        "one contact held instead",
        "another pair",
    ] {
        met.answers(200, change, &["yes"]);
    }
}

#[test]
fn the_chain_of_each_window_can_be_claimed_in_it() {
    let mut random = Random::new(2_202);
    let mut met = Met::default();
    for _ in 0..60 {
        let opening = cases::opening_with_time(&mut random);
        let contacts = draws::contacts(&mut random, opening);
        let asked = Asked::new(&mut random, opening, contacts.into_iter().collect());
        for window in cases::windows(opening) {
            let pair = cases::pair(&mut random, opening);
            let told = asked
                .herd
                .chain(pair.0, pair.1, window.first..=window.last)
                .unwrap();
            let Some(chain) = told else { continue };
            assert!(
                asked.compare_claim(pair, window, &chain),
                "{opening:?} {chain:?}"
            );
            met.answer("claimed", crate::asked::length(&chain));
            let back = (pair.1, pair.0);
            let yes = asked.compare_claim(back, window, &chain);
            met.yes_or_no("the other way round", yes);
        }
    }
    met.answers(100, "claimed", &["one contact", "several contacts"]);
    met.answers(300, "the other way round", &["no"]);
}
