//! The program that lends a tally and a list of question records, on commands made here. Every line that it writes is
//! compared with what a plain model says.

mod drawn;
mod met;
mod program;
mod session;

use herd_testing::cases;
use herd_testing::model::{self, Contacts};
use herd_testing::random::Random;
use herd_testing::words::{self, Contact, Opening};
use met::Kind::{Answer, Refusal};
use met::Met;
use session::{
    same_text, Question, Session, ADD, ASK, CLEAR, COMMAND_BYTES, FULL_TALLY, MOST_COMMANDS,
    MOST_RECORDS, MOST_TABLE, OPEN, RECORD, REMOVE, SHOW_WORK, TABLE, WORD, WORK,
};
use std::time::Duration;

/// A session on a table with contacts of this opening, each added and counted.
fn session_with_contacts(random: &mut Random, opening: Opening) -> Session {
    let mut session = Session::new();
    session.open(opening);
    let most = random.one_of(&[3, 30, 120]);
    for contact in cases::log_contacts(random, opening, most) {
        session.add((contact.from, contact.to, contact.tick));
    }
    session
}

/// The words of a well-formed table that need not be a closure.
fn any_table(random: &mut Random, opening: Opening) -> Vec<u32> {
    words::table(opening, &cases::cells(random, opening))
}

#[test]
fn session_of_document_01() {
    let mut session = Session::new();
    session.open(Opening::new(4, 6, 1));
    for contact in [(0, 1, 1), (0, 1, 2), (1, 3, 4), (0, 1, 1)] {
        session.add(contact);
    }
    for illegal in [(0, 4, 1), (2, 2, 1), (0, 1, 0), (0, 1, 7)] {
        session.add(illegal);
    }
    session.put_list(&[(0, 3, 1, 4), (0, 3, 2, 4), (0, 3, 1, 3), (0, 3, 3, 6)]);
    session.ask();
    session.put_list(&[(3, 0, 1, 6), (0, 4, 1, 6), (1, 1, 1, 6), (0, 3, 1, 7)]);
    session.record((0, 3, 4, 1));
    session.record((0, 3, 7, 1));
    session.record((0, 3, 1, 6));
    session.ask();
    session.put(112, 1);
    session.ask();
    session.remove((4, 4, 0), 112);
    session.put(112, 0);
    session.remove((0, 1, 3), 112);
    for contact in [
        (0, 1, 3),
        (0, 1, 2),
        (0, 1, 2),
        (0, 4, 2),
        (1, 1, 2),
        (0, 1, 7),
    ] {
        session.remove(contact, 113);
    }
    session.remove((0, 1, 1), 113);
    session.remove((1, 3, 4), 113);
    session.run(WORK, [4, 5, 0, 0]);
    session.show_work(10);
    let text = "\
        1 0\n\
        1 1 1 0 0 0\n1 1 2 0 0 0\n1 2 3 0 0 0\n2 0 3 1 0 0\n\
        0 7 3 1 1 0\n0 8 3 1 2 0\n0 9 3 1 3 0\n0 9 3 1 4 0\n\
        1 4\n0 3 1 4 1 0\n0 3 2 4 1 0\n0 3 1 3 2 0\n0 3 3 6 2 0\n\
        1 7\n3 0 1 6 2 0\n0 4 1 6 0 7\n1 1 1 6 0 8\n0 3 1 7 0 9\n0 3 4 1 0 19\n0 3 7 1 0 9\n0 3 1 6 1 0\n\
        0 6\n3 0 1 6 2 0\n0 4 1 6 0 7\n1 1 1 6 0 8\n0 3 1 7 0 9\n0 3 4 1 0 19\n0 3 7 1 0 9\n0 3 1 6 1 0\n\
        0 6 3 1 5 0\n0 20 3 1 6 0\n\
        0 21 3 1 7 0\n1 0 3 1 7 1\n0 21 3 1 8 1\n0 7 3 1 9 1\n0 8 3 1 10 1\n0 9 3 1 11 1\n\
        1 0 3 1 11 2\n1 0 3 1 11 3\n\
        2148270085 3221225472 0 0 5 0 0 0 3221225472 0\n";
    same_text(session.text(), text, "the model");
    session.compare("the program", &mut Met::default());
    for size in [1, 3, 4, 7, 19, 20, 21, 50] {
        let pause = Duration::from_millis(1);
        let found = program::written_for_pieces(session.input(), size, pause);
        same_text(&found, text, format!("pieces of {size}"));
    }
}

#[test]
fn lists_of_every_length() {
    let mut random = Random::new(1101);
    let mut met = Met::default();
    for _ in 0..60 {
        let opening = drawn::opening(&mut random);
        let mut session = session_with_contacts(&mut random, opening);
        let mut lengths: Vec<usize> = (0..=MOST_RECORDS).collect();
        random.shuffle(&mut lengths);
        for length in lengths {
            session.put_list(&drawn::questions(&mut random, opening, length));
            session.ask();
        }
        session.compare(opening, &mut met);
    }
    met.lists_of_every_length(60);
    met.at_least(ASK, &[(Answer(1), 3_900)]);
    met.at_least(RECORD, &[(Answer(1), 5_000), (Answer(2), 5_000)]);
    met.at_least(RECORD, &[(Refusal(7), 5_000), (Refusal(8), 5_000)]);
    met.at_least(RECORD, &[(Refusal(9), 5_000), (Refusal(19), 5_000)]);
}

#[test]
fn windows_at_and_past_their_ends() {
    let mut random = Random::new(1102);
    let mut met = Met::default();
    for _ in 0..60 {
        let opening = cases::opening_with_pairs(&mut random);
        let mut session = session_with_contacts(&mut random, opening);
        for _ in 0..4 {
            let pair = cases::pair(&mut random, opening);
            let edges = cases::window_edges(opening);
            ask_every(&mut random, &mut session, pair, &edges);
        }
        session.compare(opening, &mut met);
    }
    met.at_least(RECORD, &[(Answer(1), 100), (Answer(2), 100)]);
    met.at_least(RECORD, &[(Refusal(9), 1_000), (Refusal(19), 100)]);
}

/// Asks for the pair in every window of two of these ticks, in lists as long as there can be.
fn ask_every(random: &mut Random, session: &mut Session, (u, v): (u32, u32), ticks: &[u32]) {
    let mut list: Vec<Question> = Vec::new();
    for &first in ticks {
        list.extend(ticks.iter().map(|&last| (u, v, first, last)));
    }
    random.shuffle(&mut list);
    for some in list.chunks(MOST_RECORDS) {
        session.put_list(some);
        session.ask();
    }
}

#[test]
fn every_window_of_small_tables() {
    let mut random = Random::new(1111);
    let mut met = Met::default();
    for (animals, ticks, carry) in [
        (2, 1, 1),
        (3, 5, 1),
        (4, 6, 2),
        (3, 7, 3),
        (3, 8, 5),
        (2, 4, 4),
        (3, 3, 6),
    ] {
        let opening = Opening::new(animals, ticks, carry);
        let every_tick: Vec<u32> = (0..=opening.last_arrival() + 1).collect();
        for _ in 0..6 {
            let mut session = Session::new();
            session.open(opening);
            for contact in cases::few_contacts(&mut random, opening, 8) {
                session.add((contact.from, contact.to, contact.tick));
            }
            for pair in cases::every_two(0, animals - 1) {
                ask_every(&mut random, &mut session, pair, &every_tick);
            }
            session.compare(opening, &mut met);
        }
    }
    met.at_least(RECORD, &[(Answer(1), 500), (Answer(2), 500)]);
    met.at_least(RECORD, &[(Refusal(8), 5_000), (Refusal(9), 5_000)]);
    met.at_least(RECORD, &[(Refusal(19), 1_000)]);
}

#[test]
fn lists_asked_again() {
    let mut random = Random::new(1103);
    let mut met = Met::default();
    for _ in 0..150 {
        let opening = drawn::opening(&mut random);
        let mut session = session_with_contacts(&mut random, opening);
        let length = random.below(MOST_RECORDS + 1);
        session.put_list(&drawn::questions(&mut random, opening, length));
        session.ask();
        session.ask();
        for _ in 0..8 {
            session.add(drawn::contact(&mut random, opening));
            if session.records() < MOST_RECORDS {
                session.record(drawn::question(&mut random, opening));
            }
            session.ask();
        }
        session.compare(opening, &mut met);
    }
    met.at_least(ASK, &[(Answer(1), 1_500)]);
    met.at_least(RECORD, &[(Answer(1), 1_000), (Answer(2), 1_000)]);
}

#[test]
fn lists_on_damaged_tables() {
    let mut random = Random::new(1104);
    let mut met = Met::default();
    for _ in 0..120 {
        let opening = cases::opening_with_pairs(&mut random);
        let table = any_table(&mut random, opening);
        let mut session = Session::new();
        session.put_table(&table);
        let length = random.below(MOST_RECORDS);
        session.put_list(&drawn::questions(&mut random, opening, length));
        while session.records() < MOST_RECORDS && !random.once_in(10) {
            session.ask();
            drawn::damage(&mut random, &mut session);
            session.record(drawn::question(&mut random, opening));
            session.ask();
            session.put_table(&table);
        }
        session.compare(opening, &mut met);
    }
    met.at_least(ASK, &[(Answer(1), 500)]);
    met.at_least(ASK, &[(Refusal(5), 200), (Refusal(6), 200)]);
    met.at_least(RECORD, &[(Answer(1), 1_000), (Answer(2), 1_000)]);
    met.at_least(RECORD, &[(Answer(3), 400), (Refusal(7), 1_000)]);
}

#[test]
fn long_runs_of_counted_adds() {
    let mut random = Random::new(1105);
    let mut met = Met::default();
    for round in 0..30 {
        let mut opening = cases::opening_with_pairs(&mut random);
        if round == 0 {
            opening = Opening::new(8, 64, 3);
        }
        let mut session = Session::new();
        session.open(opening);
        let mut accepted = Contacts::new();
        for calls in 1..=1_000 {
            let (u, v, t) = contact_or_again(&mut random, opening, &accepted);
            let refused = session.tally()[2];
            session.add((u, v, t));
            if session.tally()[2] == refused {
                accepted.insert(Contact::new(u, v, t));
            }
            assert_eq!(session.tally()[0] as usize, accepted.len(), "{opening:?}");
            assert_eq!(session.tally().iter().sum::<u32>(), calls, "{opening:?}");
        }
        assert_eq!(session.tally()[3], 0, "{opening:?}");
        let fresh = model::fresh_table(opening, &accepted);
        assert_eq!(session.table(), fresh, "{opening:?}");
        session.show();
        session.compare(opening, &mut met);
    }
    met.at_least(ADD, &[(Answer(1), 2_000), (Answer(2), 10_000)]);
    met.at_least(ADD, &[(Refusal(7), 1_000), (Refusal(8), 1_000)]);
    met.at_least(ADD, &[(Refusal(9), 1_000)]);
}

#[test]
fn long_runs_of_counted_adds_and_removals() {
    let mut random = Random::new(1112);
    let mut met = Met::default();
    for round in 0..30 {
        let mut opening = cases::opening_with_pairs(&mut random);
        if round == 0 {
            opening = Opening::new(8, 64, 3);
        }
        let mut session = Session::new();
        session.open(opening);
        let more = MOST_TABLE.min(opening.table_words() + 1);
        session.put_work(&random.words(more));
        let mut held = Contacts::new();
        for calls in 1..=600 {
            let (u, v, t) = contact_or_again(&mut random, opening, &held);
            let [new, _, _, removed] = session.tally();
            if random.once_in(2) {
                session.add((u, v, t));
            } else {
                let words = drawn::work_words(&mut random, &session);
                session.remove((u, v, t), words);
            }
            if session.tally()[0] > new {
                assert!(held.insert(Contact::new(u, v, t)), "{opening:?}");
            }
            if session.tally()[3] > removed {
                assert!(held.remove(&Contact::new(u, v, t)), "{opening:?}");
            }
            let [new, known, refused, removed] = session.tally();
            let listed = drawn::held(&session);
            assert_eq!((new - removed) as usize, listed.len(), "{opening:?}");
            assert_eq!(new + known + refused + removed, calls, "{opening:?}");
            if random.once_in(20) {
                session.put_list(&drawn::questions(&mut random, opening, 4));
                session.ask();
                session.show();
                session.show_work(more);
            }
        }
        let fresh = model::fresh_table(opening, &held);
        assert_eq!(session.table(), fresh, "{opening:?}");
        session.show();
        session.show_work(more);
        session.compare(opening, &mut met);
    }
    met.at_least(ADD, &[(Answer(1), 1_500), (Answer(2), 1_500)]);
    met.at_least(REMOVE, &[(Answer(1), 1_500), (Refusal(20), 500)]);
    met.at_least(REMOVE, &[(Refusal(7), 500), (Refusal(8), 500)]);
    met.at_least(REMOVE, &[(Refusal(9), 200), (Refusal(21), 500)]);
}

/// One of the contacts held, or any numbers.
fn contact_or_again(random: &mut Random, opening: Opening, held: &Contacts) -> (u32, u32, u32) {
    if held.is_empty() || random.once_in(2) {
        return drawn::contact(random, opening);
    }
    let place = random.below(held.len());
    let again = held.iter().nth(place).expect("a contact held");
    (again.from, again.to, again.tick)
}

#[test]
fn adds_on_damaged_tables() {
    let mut random = Random::new(1106);
    let mut met = Met::default();
    for _ in 0..150 {
        let opening = cases::opening_with_pairs(&mut random);
        let table = any_table(&mut random, opening);
        let mut session = Session::new();
        session.put_table(&table);
        for _ in 0..6 {
            session.add(drawn::contact(&mut random, opening));
            drawn::damage(&mut random, &mut session);
            session.add(drawn::contact(&mut random, opening));
            session.show();
            session.put_table(&table);
        }
        session.compare(opening, &mut met);
    }
    met.at_least(ADD, &[(Answer(1), 200), (Answer(2), 100)]);
    met.at_least(ADD, &[(Refusal(5), 300), (Refusal(6), 300)]);
}

#[test]
fn removals_on_tables_set_up_word_by_word() {
    let mut random = Random::new(1113);
    let mut met = Met::default();
    for _ in 0..150 {
        let opening = cases::opening_with_pairs(&mut random);
        let table = any_table(&mut random, opening);
        let mut session = Session::new();
        for _ in 0..6 {
            session.put_table(&table);
            let held = drawn::held(&session);
            let second = match random.below(4) {
                0 => vec![0; table.len()],
                1 => table.clone(),
                2 => any_table(&mut random, opening),
                _ => random.words(table.len()),
            };
            session.put_work(&second);
            let damaged = random.once_in(2);
            if damaged {
                drawn::damage(&mut random, &mut session);
            }
            for _ in 0..2 {
                let mut contact = drawn::contact(&mut random, opening);
                if !held.is_empty() && !random.once_in(4) {
                    let Contact { from, to, tick } = random.one_of(&held);
                    contact = (from, to, tick);
                }
                let words = drawn::work_words(&mut random, &session);
                session.remove(contact, words);
                session.show();
                session.show_work(table.len());
            }
        }
        session.compare(opening, &mut met);
    }
    met.at_least(REMOVE, &[(Answer(1), 200), (Refusal(5), 200)]);
    met.at_least(REMOVE, &[(Refusal(6), 200), (Refusal(20), 100)]);
    met.at_least(REMOVE, &[(Refusal(7), 20), (Refusal(8), 20)]);
    met.at_least(REMOVE, &[(Refusal(9), 10), (Refusal(21), 100)]);
}

#[test]
fn the_second_memory_beside_the_words_lent_for_work() {
    let mut random = Random::new(1114);
    let mut met = Met::default();
    for opening in [Opening::new(2, 3, 1), Opening::new(4, 6, 1)] {
        let words = opening.table_words();
        let mut session = Session::new();
        session.open(opening);
        let behind = random.words(words + 9);
        session.put_work(&behind);
        for contact in [(0, 1, 2), (1, 0, 3)] {
            session.add(contact);
            session.remove(contact, words);
            session.show_work(words + 9);
            assert_eq!(session.second()[..words], *session.table());
            assert_eq!(session.second()[words..words + 9], behind[words..]);
            session.remove(contact, words);
            session.remove(contact, words + 9);
            session.remove(contact, 0);
            session.show_work(words + 9);
        }
        for words in [0, 1, MOST_TABLE - 1, MOST_TABLE] {
            session.show_work(words);
            session.remove((0, 1, 2), words);
        }
        session.compare(opening, &mut met);
    }
    met.at_least(
        REMOVE,
        &[(Answer(1), 4), (Refusal(20), 16), (Refusal(21), 4)],
    );
}

#[test]
fn tallies_at_and_near_the_full_one() {
    let mut random = Random::new(1107);
    let mut met = Met::default();
    for _ in 0..40 {
        let opening = cases::opening_with_pairs(&mut random);
        let mut session = session_with_contacts(&mut random, opening);
        for distance in 0..=8 {
            let near = FULL_TALLY + 4 - distance;
            let far = random.one_of(&[0, 1, 2 * FULL_TALLY, 3 * FULL_TALLY, 4 * FULL_TALLY]);
            for sum in [near, far] {
                session.put_tally(drawn::tally(&mut random, sum));
                for _ in 0..3 {
                    let contact = drawn::contact(&mut random, opening);
                    session.add(contact);
                    let words = drawn::work_words(&mut random, &session);
                    session.remove(contact, words);
                }
            }
        }
        session.show();
        session.show_work(opening.table_words());
        session.compare(opening, &mut met);
    }
    met.at_least(REMOVE, &[(Answer(1), 200), (Refusal(20), 50)]);
    met.at_least(REMOVE, &[(Refusal(7), 50), (Refusal(16), 1_000)]);
    met.at_least(ADD, &[(Answer(1), 200), (Answer(2), 200)]);
    met.at_least(ADD, &[(Refusal(7), 100), (Refusal(8), 100)]);
    met.at_least(ADD, &[(Refusal(9), 50), (Refusal(16), 1_000)]);
}

#[test]
fn tallies_with_one_number_at_its_end() {
    let mut met = Met::default();
    let mut session = Session::new();
    session.open(Opening::new(3, 4, 1));
    let words = session.table().len();
    let contacts = [(0, 1, 1), (0, 1, 1), (1, 2, 4), (0, 3, 1), (1, 1, 1)];
    for place in 0..4 {
        for high in [u32::MAX - 2, u32::MAX - 1, u32::MAX] {
            for other in [0, 1, u32::MAX] {
                let mut tally = [other; 4];
                tally[place] = high;
                session.put_tally(tally);
                for contact in contacts {
                    session.add(contact);
                }
                session.put_tally(tally);
                for contact in contacts {
                    session.remove(contact, words);
                }
            }
        }
    }
    session.compare("a number at its end", &mut met);
    met.at_least(ADD, &[(Answer(1), 8), (Answer(2), 4), (Refusal(16), 100)]);
    met.at_least(REMOVE, &[(Answer(1), 8), (Refusal(21), 4)]);
    met.at_least(REMOVE, &[(Refusal(16), 100)]);
}

#[test]
fn each_number_of_the_tally_is_summed() {
    let mut met = Met::default();
    let mut session = Session::new();
    session.open(Opening::new(2, 3, 1));
    let words = session.table().len();
    let parts = [0, 1, 1 << 30, 1 << 31, u32::MAX - 1];
    for place in 0..4 {
        for part in parts {
            for other in (0..4).filter(|&other| other != place) {
                for short in 0..=2 {
                    let mut tally = [0; 4];
                    tally[place] = part;
                    tally[other] = u32::MAX - part - short.min(u32::MAX - part);
                    session.put_tally(tally);
                    session.add((0, 1, 2));
                    session.remove((0, 1, 2), words);
                    session.show();
                }
            }
        }
    }
    session.compare("one number and another", &mut met);
    met.at_least(ADD, &[(Answer(1), 40), (Refusal(16), 40)]);
    met.at_least(REMOVE, &[(Answer(1), 40), (Refusal(16), 80)]);
}

#[test]
fn full_tally_is_refused_first() {
    let mut met = Met::default();
    let mut session = Session::new();
    for length in [0, 1, 113] {
        session.lend(length);
        add_over_full(&mut session);
    }
    session.open(Opening::new(4, 6, 1));
    add_over_full(&mut session);
    session.put(112, 1);
    add_over_full(&mut session);
    session.compare("refused tables", &mut met);
    met.at_least(ADD, &[(Refusal(5), 3), (Refusal(6), 1), (Refusal(7), 1)]);
    met.at_least(ADD, &[(Refusal(16), 10)]);
    met.at_least(REMOVE, &[(Refusal(5), 3), (Refusal(6), 1)]);
    met.at_least(REMOVE, &[(Refusal(20), 1), (Refusal(16), 10)]);
}

/// Adds and removes a contact that is not legal over a full tally, then over one that it fills.
fn add_over_full(session: &mut Session) {
    let others = session.table().len() + 1;
    session.put_tally([1, u32::MAX - 2, 0, 1]);
    session.add((4, 4, 0));
    session.remove((4, 4, 0), others);
    session.put_tally([0, 1, u32::MAX - 2, 0]);
    session.add((4, 4, 0));
    session.add((4, 4, 0));
    session.put_tally([0, 0, u32::MAX - 2, 1]);
    session.remove((4, 4, 0), others);
    session.remove((4, 4, 0), others);
}

#[test]
fn any_commands_in_any_order() {
    let mut random = Random::new(1108);
    let mut met = Met::default();
    for _ in 0..400 {
        let opening = cases::opening(&mut random);
        let mut session = Session::new();
        session.open(opening);
        for _ in 0..random.below(300) {
            any_command(&mut random, &mut session, opening);
        }
        session.compare(opening, &mut met);
    }
    met.at_least(OPEN, &[(Answer(1), 500), (Refusal(1), 100)]);
    met.at_least(ASK, &[(Answer(1), 1_000), (Refusal(5), 500)]);
    met.at_least(ASK, &[(Refusal(6), 100)]);
    met.at_least(REMOVE, &[(Answer(1), 200), (Refusal(5), 100)]);
    met.at_least(REMOVE, &[(Refusal(16), 50), (Refusal(20), 100)]);
}

/// A command that the program has, with numbers that it can often do something with.
fn any_command(random: &mut Random, session: &mut Session, opening: Opening) {
    let size = opening.table_words();
    let any = random.word();
    let numbers = [0; 4].map(|_| random.one_of(&[0, 1, 2, any]));
    match random.below(32) {
        0 => session.open(opening),
        1 => session.lend(random.one_of(&[0, 1, size - 1, size, size, size, size + 1])),
        2 => session.put(random.below(size + 1), numbers[0]),
        3 => session.run(OPEN, numbers),
        4 => session.put_tally(numbers),
        5 => session.run(CLEAR, numbers),
        6 => session.show(),
        7..=9 => session.ask(),
        10..=14 => session.add(drawn::contact(random, opening)),
        15..=20 => {
            let held = drawn::held(session).into_iter().collect();
            let contact = contact_or_again(random, opening, &held);
            let words = drawn::work_words(random, session);
            session.remove(contact, words);
        }
        21 => session.run(WORK, [random.below(size + 1) as u32, numbers[0], 0, 0]),
        22 => session.show_work(random.below(size + 1)),
        _ => session.record(drawn::question(random, opening)),
    }
}

#[test]
fn random_words() {
    let mut random = Random::new(1109);
    for _ in 0..200 {
        let mut session = Session::new();
        while !session.ended() {
            let any = random.word();
            let which = random.one_of(&[1, 2, 3, 4, 5, 6, 7, 8, 9, 10, 11, 12, 13, 0, any]);
            let below = random.one_of(&[3, 100, 5_000, u32::MAX]);
            session.run(which, [0; 4].map(|_| random.word() % below));
        }
        session.ask();
        session.compare(session.input(), &mut Met::default());
    }
}

#[test]
fn more_than_the_program_holds() {
    let most = MOST_TABLE as u32;
    for length in [most + 1, most + 2, 1 << 31, u32::MAX] {
        ends_with("too large", |session| session.run(TABLE, [length, 0, 0, 0]));
    }
    for place in [most, most + 1, 1 << 31, u32::MAX] {
        ends_with("too large", |session| session.run(WORD, [place, 1, 0, 0]));
    }
    for words in [most + 1, most + 2, 1 << 31, u32::MAX] {
        for numbers in [[0, 1, 1, words], [0, 0, 0, words]] {
            ends_with("too large", |session| session.run(REMOVE, numbers));
        }
        ends_with("too large", |session| {
            session.put_tally([u32::MAX; 4]);
            session.run(REMOVE, [0, 1, 1, words]);
        });
        ends_with("too large", |session| {
            session.run(SHOW_WORK, [words, 0, 0, 0])
        });
    }
    for place in [most, most + 1, 1 << 31, u32::MAX] {
        ends_with("too large", |session| session.run(WORK, [place, 1, 0, 0]));
    }
    let list = [(0, 1, 1, 1); MOST_RECORDS + 1];
    ends_with("too large", |session| session.put_list(&list));
    for which in [0, 13, 14, 1 << 8, 1 << 31, u32::MAX] {
        ends_with("no such command", |session| session.run(which, [1; 4]));
    }
}

/// The line ends the run where these commands stand between two asks.
#[track_caller]
fn ends_with(line: &str, commands: impl FnOnce(&mut Session)) {
    let mut session = Session::new();
    session.ask();
    commands(&mut session);
    session.ask();
    same_text(session.text(), &format!("0 5\n{line}\n"), "the model");
    session.compare("the program", &mut Met::default());
}

#[test]
fn all_that_the_program_holds() {
    let mut random = Random::new(1110);
    let mut met = Met::default();
    let mut session = Session::new();
    session.put_table(&random.words(MOST_TABLE));
    for length in [0, 1, MOST_TABLE - 1, MOST_TABLE] {
        session.lend(length);
        session.show();
    }
    session.put_work(&random.words(MOST_TABLE));
    session.show_work(MOST_TABLE);
    let opening = Opening::new(8, 64, 256);
    session.open(opening);
    for contact in cases::legal_contacts(opening) {
        session.add((contact.from, contact.to, contact.tick));
    }
    session.put_list(&drawn::questions(&mut random, opening, MOST_RECORDS));
    session.ask();
    session.show();
    for contact in [(7, 6, 64), (0, 1, 1), (3, 4, 32)] {
        session.remove(contact, MOST_TABLE);
        session.remove(contact, MOST_TABLE - 1);
    }
    session.show();
    session.show_work(MOST_TABLE);
    session.compare(opening, &mut met);
    met.at_least(ADD, &[(Answer(1), 3_584)]);
    met.at_least(REMOVE, &[(Answer(1), 3), (Refusal(20), 3)]);
}

#[test]
fn input_cut_short_at_every_byte() {
    let mut session = Session::new();
    cut_short_behind(&session);
    session.open(Opening::new(2, 3, 1));
    cut_short_behind(&session);
    session.add((0, 1, 2));
    cut_short_behind(&session);
    session.put_list(&[(0, 1, 1, 3)]);
    cut_short_behind(&session);
    session.ask();
    cut_short_behind(&session);
    session.remove((0, 1, 2), 17);
    cut_short_behind(&session);
}

/// Part of a command behind the session's is cut short.
fn cut_short_behind(session: &Session) {
    session.compare("whole commands", &mut Met::default());
    let mut more = Session::new();
    more.ask();
    for bytes in 1..COMMAND_BYTES {
        let input = [session.input(), &more.input()[..bytes]].concat();
        let expected = format!("{}cut short\n", session.text());
        same_text(&program::written(&input), &expected, bytes);
    }
}

#[test]
fn too_many_commands() {
    let mut session = Session::new();
    for _ in 1..MOST_COMMANDS {
        session.run(CLEAR, [0; 4]);
    }
    session.ask();
    session.compare("the most", &mut Met::default());
    let text = format!("{}too many\n", session.text());
    session.ask();
    same_text(&program::written(session.input()), &text, "one more");
}
