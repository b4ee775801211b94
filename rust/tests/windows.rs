//! Windows: which journeys fit one, by a list of every journey of a small set, and which windows are refused.

use herd::calls::{Answer, Reached};
use herd_testing::cases;
use herd_testing::listing::Listing;
use herd_testing::random::Random;
use herd_testing::suite::{Call, Export, Lent, Outcome, Reply, Suite};
use herd_testing::words::{self, contacts, Contact, Interval, Opening, Window};
use std::collections::BTreeMap;

/// Animals, ticks and carry times of small tables; some carry times are as long as the ticks or longer.
const SMALL: [(u32, u32, u32); 14] = [
    (1, 3, 2),
    (2, 6, 1),
    (3, 5, 1),
    (4, 4, 1),
    (3, 6, 2),
    (4, 5, 2),
    (2, 7, 3),
    (3, 7, 3),
    (3, 8, 5),
    (4, 7, 5),
    (2, 3, 3),
    (3, 4, 4),
    (3, 2, 5),
    (2, 1, 1),
];

/// The calls that take a window.
const WITH_WINDOWS: [Export; 5] = [
    Export::Reach,
    Export::Connected,
    Export::Reached,
    Export::Chain,
    Export::Claimed,
];

/// Yes where it is so, no where it is not, and the refusal where no window was given.
fn answered(so: Result<bool, u32>) -> Reply {
    match so {
        Ok(true) => Reply::Yes,
        Ok(false) => Reply::No,
        Err(number) => Reply::Refused(number),
    }
}

/// The window of these ticks on a table with this opening; where they are none, 19 when a window would come of them in the
/// other order, and else 9.
fn legal(opening: Opening, first: u32, last: u32) -> Result<Window, u32> {
    let is_window = |first, last| 1 <= first && first <= last && last <= opening.ticks;
    match (is_window(first, last), is_window(last, first)) {
        (true, _) => Ok(Window::new(first, last)),
        (false, true) => Err(19),
        (false, false) => Err(9),
    }
}

/// A small table that adds built, and every journey of its contacts.
struct Listed {
    lent: Lent,
    listing: Listing,
}

impl Listed {
    /// The table of at most eight contacts.
    fn drawn(random: &mut Random, opening: Opening) -> Listed {
        let set = cases::few_contacts(random, opening, 8);
        let lent = Lent::built(random, opening, &set);
        let listing = Listing::new(opening, &lent.held.iter().copied().collect());
        Listed { lent, listing }
    }

    /// What a call with a window comes to by the list of journeys.
    fn expected(&self, call: &Call) -> Outcome {
        let listing = &self.listing;
        let window = |first, last| legal(self.lent.opening, first, last);
        let (reply, beside) = match *call {
            Call::Reach(u, v, first, last) => {
                let reaches = window(first, last).map(|w| listing.reaches(u, v, w));
                (answered(reaches), Vec::new())
            }
            Call::Connected(first, last) => {
                let connects = window(first, last).map(|w| listing.connects(w));
                (answered(connects), Vec::new())
            }
            Call::Reached(u, first, last, ref set) => match window(first, last) {
                Err(number) => (Reply::Refused(number), set.clone()),
                Ok(window) => {
                    let animals = listing.reached(u, window);
                    let number = Reply::Animals(animals.len() as u32);
                    (number, words::set(&animals).to_vec())
                }
            },
            Call::Chain(u, v, first, last, ref buffer) => {
                match window(first, last).map(|w| listing.chain(u, v, w)) {
                    Err(number) => (Reply::Refused(number), buffer.clone()),
                    Ok(None) => (Reply::NoJourney, buffer.clone()),
                    Ok(Some(chain)) => {
                        let mut after = buffer.clone();
                        after[..chain.len()].copy_from_slice(&words::contact_words(chain));
                        (Reply::Chain(chain.len() as u32), after)
                    }
                }
            }
            Call::Claimed(u, v, first, last, ref chain) => {
                let read = chain.iter().map(|&word| words::read_contact(word));
                let claim: Vec<Contact> = read.map(|c| c.expect("a contact word")).collect();
                let spelled = window(first, last).map(|w| listing.spells(u, v, w, &claim));
                (answered(spelled), chain.clone())
            }
            ref other => panic!("{other:?} has no window"),
        };
        Outcome {
            reply,
            table: self.lent.words.clone(),
            beside,
        }
    }

    /// Makes the call, compares it with what the list of journeys says, and counts its answer.
    #[track_caller]
    fn compare(&self, call: &Call, met: &mut Met) {
        let expected = self.expected(call);
        let (opening, held) = (self.lent.opening, &self.lent.held);
        assert_eq!(
            call.made(&self.lent.words),
            expected,
            "{call:?} on {opening:?} with {held:?}"
        );
        *met.entry((call.export(), expected.reply)).or_insert(0) += 1;
    }

    /// Makes every call with these ticks for a window, and compares; all journeys of a pair are claimed, and some others.
    #[track_caller]
    fn compare_all(&self, random: &mut Random, (first, last): (u32, u32), met: &mut Met) {
        let n = self.lent.opening.animals;
        self.compare(&Call::Connected(first, last), met);
        for u in 0..n {
            let set = random.words(words::SET_WORDS);
            self.compare(&Call::Reached(u, first, last, set), met);
        }
        for (u, v) in cases::every_two(0, n - 1).filter(|(u, v)| u != v) {
            self.compare(&Call::Reach(u, v, first, last), met);
            let buffer = random.words(n as usize);
            self.compare(&Call::Chain(u, v, first, last, buffer), met);
            for journey in self.listing.journeys() {
                if words::ends(journey) == (u, v) || random.once_in(20) {
                    let chain = words::contact_words(journey);
                    self.compare(&Call::Claimed(u, v, first, last, chain), met);
                }
            }
        }
    }
}

/// How often each call gave each answer.
type Met = BTreeMap<(Export, Reply), u32>;

/// Fails where one of the calls with a window gave one of its kinds of answers, or was refused with 9 or 19, less often.
#[track_caller]
fn at_least(times: u32, met: &Met) {
    let number = |export, is_such: &dyn Fn(Reply) -> bool| -> u32 {
        let such = met
            .iter()
            .filter(|((call, reply), _)| *call == export && is_such(*reply));
        such.map(|(_, times)| times).sum()
    };
    for export in WITH_WINDOWS {
        for kind in export.kinds() {
            let met = number(export, &|reply| reply.kind() == *kind);
            assert!(met >= times, "{export:?} {kind}: {met} times");
        }
        for refusal in [9, 19] {
            let met = number(export, &|reply| reply == Reply::Refused(refusal));
            assert!(met >= times, "{export:?} refused {refusal}: {met} times");
        }
    }
}

#[test]
fn every_window_is_answered_as_by_a_list_of_every_journey() {
    let mut random = Random::new(1_701);
    let mut met = Met::new();
    for (animals, ticks, carry) in SMALL {
        let opening = Opening::new(animals, ticks, carry);
        for _ in 0..40 {
            let listed = Listed::drawn(&mut random, opening);
            for window in cases::every_two(0, opening.last_arrival() + 2) {
                listed.compare_all(&mut random, window, &mut met);
            }
        }
    }
    at_least(1_000, &met);
}

#[test]
fn the_tightest_window_of_each_journey_fits_and_a_narrower_one_does_not() {
    let mut random = Random::new(1_702);
    let mut met = Met::new();
    let (mut by_another, mut by_none) = (0, 0);
    for (animals, ticks, carry) in SMALL.into_iter().filter(|&(animals, ..)| animals > 1) {
        let opening = Opening::new(animals, ticks, carry);
        for _ in 0..100 {
            let listed = Listed::drawn(&mut random, opening);
            for journey in listed.listing.journeys() {
                let (u, v) = words::ends(journey);
                if u == v {
                    continue;
                }
                let Window { first, last } = Window::around(journey);
                let chain = words::contact_words(journey);
                let mut ask = |first, last, claimed| {
                    let buffer = random.words(animals as usize);
                    let reach = Call::Reach(u, v, first, last);
                    listed.compare(&reach, &mut met);
                    listed.compare(&Call::Chain(u, v, first, last, buffer), &mut met);
                    let call = Call::Claimed(u, v, first, last, chain.clone());
                    assert_eq!(listed.expected(&call).reply, claimed, "{call:?}");
                    listed.compare(&call, &mut met);
                    listed.expected(&reach).reply
                };
                assert_eq!(ask(first, last, Reply::Yes), Reply::Yes);
                if first == last {
                    let turned = |is_out| Reply::Refused(if is_out { 9 } else { 19 });
                    ask(first + 1, last, turned(last == ticks));
                    ask(first, last - 1, turned(first == 1));
                    continue;
                }
                for (first, last) in [(first + 1, last), (first, last - 1)] {
                    let reach = ask(first, last, Reply::No);
                    by_another += u32::from(reach == Reply::Yes);
                    by_none += u32::from(reach == Reply::No);
                }
            }
        }
    }
    assert!(by_another > 500 && by_none > 500, "{by_another} {by_none}");
}

/// Makes each call with a pair and a window for the ends of a journey, and fails unless the answer is this one: yes, no or
/// a refusal.
#[track_caller]
fn require(
    suite: &mut Suite,
    lent: &Lent,
    journey: &[Contact],
    (first, last): (u32, u32),
    reply: Reply,
) {
    let (u, v) = words::ends(journey);
    suite.require(lent, &Call::Reach(u, v, first, last), reply);
    let call = Call::Claimed(u, v, first, last, words::contact_words(journey));
    suite.require(lent, &call, reply);
    let told = match reply {
        Reply::Yes => Reply::Chain(journey.len() as u32),
        Reply::No => Reply::NoJourney,
        refused => refused,
    };
    let buffer = vec![7; lent.opening.animals as usize];
    suite.require(lent, &Call::Chain(u, v, first, last, buffer), told);
    let mut set = [0; words::SET_WORDS];
    let is_in = match herd::calls::reached(&lent.words, u, first, last, &mut set) {
        Reached::Animals(_) => Ok(set[v as usize / 32] >> (v % 32) & 1 == 1),
        Reached::Refused(number) => Err(number),
    };
    assert_eq!(answered(is_in), reply, "{u} {v} {first} {last}");
}

#[test]
fn a_journey_fits_where_its_first_and_its_last_contact_lie_in_the_window() {
    let mut random = Random::new(1_703);
    let mut suite = Suite::default();
    for carry in [1, 2, 3, 5, 100, 256] {
        for (number, wait) in [(2, 0), (2, 1), (2, 4), (3, 0), (3, 1), (4, 0), (4, 3)] {
            let leaving = |i| Contact::new(i, i + 1, 3 + i * (carry + wait));
            let journey: Vec<Contact> = (0..number).map(leaving).collect();
            let Window { first, last } = Window::around(&journey);
            let ticks = last + 3;
            let opening = Opening::new(number + 1, ticks, carry);
            let lent = Lent::built(&mut random, opening, &journey);
            let arriving = Reply::At(Interval::new(first, last + carry));
            suite.require(&lent, &Call::Earliest(0, number, first), arriving);
            for window in [
                (first, last),
                (first - 1, last),
                (first, last + 1),
                (1, last),
                (first, ticks),
                (1, ticks),
            ] {
                require(&mut suite, &lent, &journey, window, Reply::Yes);
            }
            for window in [
                (first, first),
                (first, last - 1),
                (1, last - 1),
                (last, last),
                (first + 1, last),
                (first + 1, ticks),
                (1, first - 1),
                (last + 1, ticks),
            ] {
                require(&mut suite, &lent, &journey, window, Reply::No);
            }
            for window in [(first, ticks + 1), (0, last), (ticks + 1, last), (first, 0)] {
                require(&mut suite, &lent, &journey, window, Reply::Refused(9));
            }
            for window in [(last, first), (first, first - 1), (ticks, 1)] {
                require(&mut suite, &lent, &journey, window, Reply::Refused(19));
            }
        }
    }
    let asked = [Export::Reach, Export::Chain, Export::Claimed];
    suite.at_least(100, &asked, &[9, 19]);
}

#[test]
fn connected_in_the_windows_that_have_a_contact_each_way() {
    let mut random = Random::new(1_704);
    let mut suite = Suite::default();
    for (ticks, carry) in [(1, 1), (5, 1), (6, 2), (7, 3), (5, 5), (4, 9), (3, 256)] {
        let opening = Opening::new(2, ticks, carry);
        for (there, back) in cases::every_two(1, ticks) {
            let set = contacts([(0, 1, there), (1, 0, back)]);
            let lent = Lent::built(&mut random, opening, &set);
            let beyond = opening.last_arrival().min(12) + 2;
            for (first, last) in cases::every_two(0, beyond) {
                let has_both = |w: Window| set.into_iter().all(|contact| w.has(contact));
                let reply = answered(legal(opening, first, last).map(has_both));
                suite.require(&lent, &Call::Connected(first, last), reply);
            }
        }
    }
    suite.at_least(500, &[Export::Connected], &[9, 19]);
}

#[test]
fn windows_and_single_ticks_at_their_limits() {
    let mut random = Random::new(1_705);
    let mut suite = Suite::default();
    let mut accepted = 0;
    for (animals, ticks, carry) in [
        (2, 1, 1),
        (3, 1, 256),
        (3, 4, 2),
        (4, 6, 1),
        (3, 5, 5),
        (2, 3, 7),
        (2, 1024, 1),
        (3, 1024, 256),
    ] {
        let opening = Opening::new(animals, ticks, carry);
        let full = Lent::stored(opening, &cases::full_cells(opening));
        let (u, v) = cases::pair(&mut random, opening);
        for first in cases::window_edges(opening) {
            for last in cases::window_edges(opening) {
                let window = legal(opening, first, last);
                accepted += u32::from(window.is_ok());
                let reply = answered(window.map(|_| true));
                let leaving = [Contact::new(u, v, first.clamp(1, ticks))];
                require(&mut suite, &full, &leaving, (first, last), reply);
                suite.require(&full, &Call::Connected(first, last), reply);
                let mut set = random.words(8);
                let before = set.clone();
                let reached = herd::calls::reached(&full.words, u, first, last, &mut set);
                match window {
                    Ok(_) => assert_eq!(reached, Reached::Animals(animals - 1)),
                    Err(number) => assert_eq!((reached, set), (Reached::Refused(number), before)),
                }
            }
        }
        let end = opening.last_arrival();
        for tick in 1..=end {
            let leaving = |departure| Interval::new(departure, departure + carry);
            let earliest = (tick <= ticks).then(|| leaving(tick));
            let latest = (tick > carry).then(|| leaving(tick - carry));
            suite.require_at_tick(&full, (u, v), tick, earliest, latest);
        }
        for tick in cases::no_window_ticks(opening) {
            if tick < 1 || tick > end {
                suite.require(&full, &Call::Earliest(u, v, tick), Reply::Refused(9));
                suite.require(&full, &Call::Latest(u, v, tick), Reply::Refused(9));
            }
        }
    }
    assert!(accepted >= 3 * 8, "{accepted}");
    let refused = |reply| reply == Reply::Refused(9);
    for export in [
        Export::Reach,
        Export::Connected,
        Export::Chain,
        Export::Claimed,
    ] {
        assert!(suite.times(export, refused) > 500, "{export:?}");
    }
    for export in [Export::Earliest, Export::Latest] {
        assert!(suite.times(export, refused) >= 8 * 6, "{export:?}");
        assert!(suite.times(export, |reply| !refused(reply)) > 2_000);
    }
}

#[test]
fn a_tick_out_of_range_is_told_from_a_window_turned_round() {
    let mut random = Random::new(1_708);
    let mut suite = Suite::default();
    for (animals, ticks, carry) in [
        (2, 2, 1),
        (3, 5, 2),
        (4, 3, 7),
        (2, 40, 256),
        (3, 1024, 1),
        (2, 1024, 256),
    ] {
        let opening = Opening::new(animals, ticks, carry);
        let full = Lent::stored(opening, &cases::full_cells(opening));
        let (u, v) = cases::pair(&mut random, opening);
        let past = ticks + 1;
        let windows = [(1, 1), (ticks, ticks), (1, ticks)];
        let turned = [(2, 1), (ticks, 1), (ticks, ticks - 1)];
        let in_order = [(0, 0), (0, 1), (0, ticks), (1, past), (ticks, past)];
        let both_out = [(0, past), (past, 0), (past, past), (0, u32::MAX)];
        let out_and_turned = [(1, 0), (ticks, 0), (past, 1), (past, ticks), (u32::MAX, 1)];
        let out = [&in_order[..], &both_out, &out_and_turned].concat();
        for (asked, reply, short) in [
            (&windows[..], Reply::Yes, Reply::Refused(10)),
            (&turned, Reply::Refused(19), Reply::Refused(19)),
            (&out, Reply::Refused(9), Reply::Refused(9)),
        ] {
            for &(first, last) in asked {
                let leaving = [Contact::new(u, v, first.clamp(1, ticks))];
                require(&mut suite, &full, &leaving, (first, last), reply);
                suite.require(&full, &Call::Connected(first, last), reply);
                let buffer = random.words(animals as usize - 2);
                let call = Call::Chain(u, v, first, last, buffer);
                suite.require(&full, &call, short);
                for (v, number) in [(animals, 7), (u, 8)] {
                    let call = Call::Reach(u, v, first, last);
                    suite.require(&full, &call, Reply::Refused(number));
                }
                let call = Call::Reached(animals, first, last, random.words(8));
                suite.require(&full, &call, Reply::Refused(7));
            }
        }
    }
}

#[test]
fn earliest_and_latest_of_one_contact_at_every_tick() {
    let mut random = Random::new(1_706);
    let mut suite = Suite::default();
    for (ticks, carry) in [(1, 1), (6, 1), (7, 2), (6, 3), (5, 5), (4, 6), (9, 256)] {
        let opening = Opening::new(2, ticks, carry);
        for contact in 1..=ticks {
            let lent = Lent::built(&mut random, opening, &[Contact::new(0, 1, contact)]);
            let found = Interval::new(contact, contact + carry);
            for tick in 1..=opening.last_arrival() {
                let earliest = (tick <= contact).then_some(found);
                let latest = (tick >= contact + carry).then_some(found);
                suite.require_at_tick(&lent, (0, 1), tick, earliest, latest);
            }
        }
    }
    suite.at_least(100, &[Export::Earliest, Export::Latest], &[]);
}

#[test]
fn stored_intervals_fit_by_their_departure_and_their_arrival() {
    let mut suite = Suite::default();
    for (ticks, carry) in [(1, 1), (5, 1), (5, 2), (6, 3), (4, 5), (3, 3)] {
        let opening = Opening::new(2, ticks, carry);
        let end = opening.last_arrival();
        for departure in 1..=ticks {
            for arrival in departure + carry..=end {
                let mut cells = vec![Vec::new(); opening.pairs()];
                for pair in [(0, 1), (1, 0)] {
                    cells[opening.pair(pair.0, pair.1)].push(Interval::new(departure, arrival));
                }
                let lent = Lent::stored(opening, &cells);
                let is_contact = arrival == departure + carry;
                for (first, last) in cases::every_two(0, end + 2) {
                    let fits = |w: Window| w.first <= departure && arrival <= w.last + carry;
                    let fits = legal(opening, first, last).map(fits);
                    let reply = answered(fits);
                    suite.require(&lent, &Call::Reach(0, 1, first, last), reply);
                    suite.require(&lent, &Call::Connected(first, last), reply);
                    let number =
                        fits.map_or_else(Reply::Refused, |fits| Reply::Animals(u32::from(fits)));
                    let call = Call::Reached(0, first, last, vec![7; 8]);
                    suite.require(&lent, &call, number);
                    let told = match fits {
                        Ok(true) if is_contact => Reply::Chain(1),
                        Ok(_) => Reply::NoJourney,
                        Err(number) => Reply::Refused(number),
                    };
                    let call = Call::Chain(0, 1, first, last, vec![7; 1]);
                    suite.require(&lent, &call, told);
                    let chain = vec![words::contact_word(Contact::new(0, 1, departure))];
                    let claimed = answered(fits.map(|fits| fits && is_contact));
                    let call = Call::Claimed(0, 1, first, last, chain);
                    suite.require(&lent, &call, claimed);
                }
            }
        }
    }
    suite.at_least(50, &WITH_WINDOWS, &[9, 19]);
}

#[test]
fn claimed_contacts_fit_by_their_ticks_whatever_interval_is_stored() {
    let mut suite = Suite::default();
    for carry in [1, 2, 4] {
        let ticks = 2 * carry + 8;
        let opening = Opening::new(3, ticks, carry);
        let way = contacts([(0, 1, 2), (1, 2, 3 + carry)]);
        let Window { first, last } = Window::around(&way);
        let mut cells = vec![Vec::new(); opening.pairs()];
        for contact in way {
            let alone = contact.interval(carry);
            cells[opening.pair(contact.from, contact.to)].push(alone);
        }
        let late = last + 2;
        cells[opening.pair(0, 2)].push(Interval::new(first, late + carry));
        let lent = Lent::stored(opening, &cells);
        let chain = words::contact_words(&way);
        for ((first, last), reach, claimed) in [
            ((first, late), Reply::Yes, Reply::Yes),
            ((first, late - 1), Reply::No, Reply::Yes),
            ((first, last), Reply::No, Reply::Yes),
            ((first, last - 1), Reply::No, Reply::No),
            ((first + 1, late), Reply::No, Reply::No),
            ((1, ticks), Reply::Yes, Reply::Yes),
        ] {
            suite.require(&lent, &Call::Reach(0, 2, first, last), reach);
            let call = Call::Claimed(0, 2, first, last, chain.clone());
            suite.require(&lent, &call, claimed);
        }
    }
}

#[test]
fn the_last_tick_of_the_longest_calendar_with_the_longest_carry_time() {
    let mut random = Random::new(1_707);
    let mut suite = Suite::default();
    let opening = Opening::new(3, 1024, 256);
    let way = contacts([(0, 1, 768), (1, 2, 1024)]);
    let lent = Lent::built(&mut random, opening, &way);
    for ((first, last), whole, second) in [
        ((1, 1024), Reply::Yes, Reply::Yes),
        ((768, 1024), Reply::Yes, Reply::Yes),
        ((769, 1024), Reply::No, Reply::Yes),
        ((1024, 1024), Reply::No, Reply::Yes),
        ((768, 1023), Reply::No, Reply::No),
        ((1, 1023), Reply::No, Reply::No),
        ((1, 1025), Reply::Refused(9), Reply::Refused(9)),
        ((1025, 1025), Reply::Refused(9), Reply::Refused(9)),
        ((1, 1280), Reply::Refused(9), Reply::Refused(9)),
        ((1, 1281), Reply::Refused(9), Reply::Refused(9)),
        ((1025, 1024), Reply::Refused(9), Reply::Refused(9)),
        ((1024, 0), Reply::Refused(9), Reply::Refused(9)),
        ((1024, 1023), Reply::Refused(19), Reply::Refused(19)),
        ((1024, 1), Reply::Refused(19), Reply::Refused(19)),
    ] {
        require(&mut suite, &lent, &way, (first, last), whole);
        require(&mut suite, &lent, &way[1..], (first, last), second);
    }
    let each_way = contacts([(0, 1, 1024), (1, 0, 1024)]);
    let opening = Opening::new(2, 1024, 256);
    let table = Lent::built(&mut random, opening, &each_way).words;
    for (first, last, answer) in [
        (1, 1024, Answer::Yes),
        (1024, 1024, Answer::Yes),
        (1, 1023, Answer::No),
        (1, 1025, Answer::Refused(9)),
        (1025, 1, Answer::Refused(9)),
        (1024, 1, Answer::Refused(19)),
    ] {
        assert_eq!(herd::calls::connected(&table, first, last), answer);
    }
}
