//! Random openings, contacts, logs, stays and well-formed cells.

use crate::model;
use crate::random::Random;
use crate::words::{count_word, Cells, Contact, Interval, Opening, Stay};
use crate::words::{Window, LAST_PEN};

/// A small opening, with a carry time above the ticks now and then.
pub fn opening(random: &mut Random) -> Opening {
    let animals = random.between(1, 7);
    let ticks = random.between(1, 12);
    let longest = random.one_of(&[2, 4, 14]);
    Opening::new(animals, ticks, random.between(1, longest))
}

/// A small opening with two animals or more.
pub fn opening_with_pairs(random: &mut Random) -> Opening {
    let drawn = opening(random);
    Opening {
        animals: drawn.animals.max(2),
        ..drawn
    }
}

/// A small opening with two animals or more, and often with time for several contacts.
pub fn opening_with_time(random: &mut Random) -> Opening {
    if random.once_in(2) {
        return opening_with_pairs(random);
    }
    let carry = random.one_of(&[1, 1, 2]);
    Opening::new(random.between(4, 8), random.between(7, 14), carry)
}

/// A longer opening with two animals or more, with a carry time above the ticks now and then.
pub fn longer_opening(random: &mut Random) -> Opening {
    let carries = [
        random.between(1, 2),
        random.between(1, 9),
        random.between(40, 256),
    ];
    let carry = random.one_of(&carries);
    Opening::new(random.between(2, 12), random.between(10, 40), carry)
}

/// An opening that differs from this one in one of its numbers, by one.
pub fn other_opening(random: &mut Random, opening: Opening) -> Opening {
    let mut other = opening;
    let (number, most) = match random.below(3) {
        0 => (&mut other.animals, 256),
        1 => (&mut other.ticks, 1024),
        _ => (&mut other.carry, 256),
    };
    let more = *number == 1 || *number < most && random.once_in(2);
    *number = if more { *number + 1 } else { *number - 1 };
    other
}

/// Every two numbers from the lowest to the highest, in either order, and each one twice.
pub fn every_two(lowest: u32, highest: u32) -> impl Iterator<Item = (u32, u32)> {
    (lowest..=highest).flat_map(move |one| (lowest..=highest).map(move |other| (one, other)))
}

/// Every window of a table with this opening.
pub fn windows(opening: Opening) -> Vec<Window> {
    let in_turn = every_two(1, opening.ticks).filter(|(first, last)| first <= last);
    in_turn
        .map(|(first, last)| Window::new(first, last))
        .collect()
}

/// Ticks that no window has: those next to its range, those next to the range of a single tick of a question, and such as
/// come into range when the carry time is added in 32 bits or when only some of their bits are looked at.
pub fn no_window_ticks(opening: Opening) -> [u32; 9] {
    let (ticks, end) = (opening.ticks, opening.last_arrival());
    let below_zero = 0u32.wrapping_sub(opening.carry);
    [
        0,
        ticks + 1,
        end,
        end + 1,
        ticks | 1 << 16,
        ticks | 1 << 31,
        below_zero,
        u32::MAX - 1,
        u32::MAX,
    ]
}

/// The first and the last tick of the window of all ticks, and ticks that no window has.
pub fn window_edges(opening: Opening) -> Vec<u32> {
    [&[1, opening.ticks], &no_window_ticks(opening)[..]].concat()
}

/// A legal contact; there are two animals or more.
pub fn contact(random: &mut Random, opening: Opening) -> Contact {
    let from = random.between(0, opening.animals - 1);
    let step = random.between(1, opening.animals - 1);
    let tick = random.between(1, opening.ticks);
    Contact::new(from, (from + step) % opening.animals, tick)
}

/// Every legal contact, in log order.
pub fn legal_contacts(opening: Opening) -> Vec<Contact> {
    let mut legal = Vec::new();
    for tick in 1..=opening.ticks {
        for from in 0..opening.animals {
            for to in (0..opening.animals).filter(|&to| to != from) {
                legal.push(Contact::new(from, to, tick));
            }
        }
    }
    legal
}

/// The contacts whose places in the list are bits of the number.
pub fn chosen(contacts: &[Contact], bits: usize) -> Vec<Contact> {
    let members = contacts.iter().enumerate();
    let members = members.filter(|(place, _)| bits >> place & 1 == 1);
    members.map(|(_, &contact)| contact).collect()
}

/// Every order of the items.
pub fn orders<T: Copy>(items: &[T]) -> Vec<Vec<T>> {
    let mut orders = vec![Vec::new()];
    for (number, &item) in items.iter().enumerate() {
        let mut longer = Vec::new();
        for order in &orders {
            for place in 0..=number {
                let mut one: Vec<T> = order.clone();
                one.insert(place, item);
                longer.push(one);
            }
        }
        orders = longer;
    }
    orders
}

/// Whether some interval is that of two contacts or more.
pub fn has_joined(opening: Opening, cells: &Cells) -> bool {
    let joined = |i: &Interval| i.arrival - i.departure > opening.carry;
    cells.iter().flatten().any(joined)
}

/// The word with another kind.
pub fn other_kind(random: &mut Random, word: u32) -> u32 {
    word ^ random.between(1, 3) << 30
}

/// The cells of the fresh table over every legal contact: each contact alone is minimal.
pub fn full_cells(opening: Opening) -> Cells {
    let mut cells = vec![Vec::new(); opening.pairs()];
    for contact in legal_contacts(opening) {
        cells[opening.pair(contact.from, contact.to)].push(contact.interval(opening.carry));
    }
    cells
}

/// Cells of a well-formed table that need not be a closure.
pub fn cells(random: &mut Random, opening: Opening) -> Cells {
    let sparse = random.between(1, 5) as usize;
    let slack = random.one_of(&[0, 1, 3, opening.ticks]);
    let mut cells = Cells::new();
    for u in 0..opening.animals {
        for v in 0..opening.animals {
            let mut departures: Vec<u32> = (1..=opening.ticks).collect();
            departures.retain(|_| u != v && random.once_in(sparse));
            cells.push(rising(random, opening, &departures, slack));
        }
    }
    cells
}

/// A row for each departure, with rising arrivals at most `slack` later than they must be.
fn rising(random: &mut Random, opening: Opening, departures: &[u32], slack: u32) -> Vec<Interval> {
    let mut rows = Vec::new();
    let mut latest = opening.last_arrival();
    for &departure in departures.iter().rev() {
        let least = departure + opening.carry;
        let arrival = random.between(least, latest.min(least + slack));
        rows.push(Interval::new(departure, arrival));
        latest = arrival - 1;
    }
    rows.reverse();
    rows
}

/// Cells with a row for each of the contacts alone, and with a few other rows where there are two animals or more.
pub fn lone_cells(random: &mut Random, opening: Opening, contacts: &[Contact]) -> Cells {
    let mut cells = vec![Vec::new(); opening.pairs()];
    for contact in contacts {
        let alone = contact.interval(opening.carry);
        insert(&mut cells, opening, (contact.from, contact.to), alone);
    }
    for _ in 0..random.below(5) * usize::from(opening.animals > 1) {
        let (u, v) = pair(random, opening);
        let other = interval(random, opening);
        insert(&mut cells, opening, (u, v), other);
    }
    cells
}

/// Contacts with few different ticks, in which animals are often met at once; none where there is one animal.
pub fn crowded_contacts(random: &mut Random, opening: Opening) -> Vec<Contact> {
    let most = random.one_of(&[10, 20, 60]);
    let number = random.below(most) * usize::from(opening.animals > 1);
    let step = random.between(1, 3);
    let draw = |_| {
        let mut contact = contact(random, opening);
        contact.tick -= (contact.tick - 1) % step;
        contact
    };
    (0..number).map(draw).collect()
}

/// Contacts of which each second one goes on from the last one met, so that there are long journeys; so many, and two
/// animals or more.
pub fn following_contacts(random: &mut Random, opening: Opening, number: usize) -> Vec<Contact> {
    let (mut met, mut tick) = (random.between(0, opening.animals - 1), 1);
    let mut contacts = Vec::new();
    for _ in 0..number {
        let mut drawn = contact(random, opening);
        if random.once_in(2) && drawn.to != met && tick <= opening.ticks {
            drawn = Contact::new(met, drawn.to, tick);
        } else if random.once_in(8) {
            drawn.tick = random.one_of(&[1, opening.ticks]);
        }
        met = drawn.to;
        tick = drawn.tick + opening.carry + random.between(0, 1);
        contacts.push(drawn);
    }
    random.shuffle(&mut contacts);
    contacts
}

/// A few contacts, at most so many, in half of the cases such as follow each other; none where there is one
/// animal.
pub fn few_contacts(random: &mut Random, opening: Opening, most: usize) -> Vec<Contact> {
    if opening.animals > 1 && random.once_in(2) {
        following_contacts(random, opening, most)
    } else {
        log_contacts(random, opening, most)
    }
}

/// Cells near a closure: some rows are gone, and some others came in. There are two animals or more.
pub fn cells_near_closure(random: &mut Random, opening: Opening) -> Cells {
    let listed = crowded_contacts(random, opening);
    let mut cells = model::minimal_intervals(opening, &listed.into_iter().collect());
    for _ in 0..random.below(2 * opening.pairs()) {
        let (u, v) = pair(random, opening);
        let cell = &mut cells[opening.pair(u, v)];
        if random.once_in(2) && !cell.is_empty() {
            cell.remove(random.below(cell.len()));
        } else {
            let other = interval(random, opening);
            insert(&mut cells, opening, (u, v), other);
        }
    }
    cells
}

/// Cells in which most animals have one arrival at one goal, and held contacts lead from one to another, back or nowhere;
/// and the goal. There are two animals or more.
pub fn planted_cells(random: &mut Random, opening: Opening) -> (Cells, u32) {
    let mut cells = vec![Vec::new(); opening.pairs()];
    let mut order: Vec<u32> = (0..opening.animals).collect();
    random.shuffle(&mut order);
    let goal = order.pop().expect("an animal");
    let latest = random.between(1.max(opening.ticks / 2), opening.ticks);
    let sparse = random.between(1, 4) as usize;
    let left_out = random.between(0, opening.animals);
    let mut departures: Vec<u32> = order.iter().map(|_| random.between(1, latest)).collect();
    departures.sort();
    if let Some(last) = departures.last_mut().filter(|_| !random.once_in(4)) {
        *last = latest;
    }
    for (i, (&x, &departure)) in order.iter().zip(&departures).enumerate() {
        let kept = Interval::new(departure, latest + opening.carry);
        if !random.once_in(8) {
            insert(&mut cells, opening, (x, goal), kept);
        }
        let held = Interval::new(departure, departure + opening.carry);
        for (j, &z) in order.iter().enumerate().filter(|&(j, _)| j != i) {
            let often = if j == i + 1 { 1 } else { sparse };
            if x != left_out && random.once_in(often) {
                insert(&mut cells, opening, (x, z), held);
            }
        }
    }
    for _ in 0..random.below(opening.pairs()) {
        let (u, v) = pair(random, opening);
        let other = interval(random, opening);
        insert(&mut cells, opening, (u, v), other);
    }
    (cells, goal)
}

/// Two different animals; there are two or more.
pub fn pair(random: &mut Random, opening: Opening) -> (u32, u32) {
    let contact = contact(random, opening);
    (contact.from, contact.to)
}

/// An interval that a cell may have.
fn interval(random: &mut Random, opening: Opening) -> Interval {
    let departure = random.between(1, opening.ticks);
    let arrival = random.between(departure + opening.carry, opening.last_arrival());
    Interval::new(departure, arrival)
}

/// Puts the interval into the cell of the pair where departures and arrivals stay strictly rising.
fn insert(cells: &mut Cells, opening: Opening, (u, v): (u32, u32), new: Interval) {
    let cell = &mut cells[opening.pair(u, v)];
    let apart = |i: &Interval| !i.within(new) && !new.within(*i);
    if cell.iter().all(apart) {
        cell.push(new);
        cell.sort();
    }
}

/// The contacts of a log, at most so many, in any order and with repeats; none where there is one animal.
pub fn log_contacts(random: &mut Random, opening: Opening, most: usize) -> Vec<Contact> {
    let mut contacts = Vec::new();
    if opening.animals == 1 {
        return contacts;
    }
    for _ in 0..random.below(most + 1) {
        let fresh = contacts.is_empty() || !random.once_in(4);
        contacts.push(if fresh {
            contact(random, opening)
        } else {
            random.one_of(&contacts)
        });
    }
    contacts
}

/// A legal stay in the pen, of one to so many ticks.
pub fn stay(random: &mut Random, opening: Opening, pen: u32, longest: u32) -> Stay {
    let animal = random.between(0, opening.animals - 1);
    let first = random.between(1, opening.ticks);
    let last = random.between(first, opening.ticks.min(first + longest - 1));
    Stay::new(animal, pen, first, last)
}

/// A list of legal stays of at most 12 ticks, at most so many, in any order: in few pens, about half of them like earlier
/// ones.
pub fn stays(random: &mut Random, opening: Opening, most: usize) -> Vec<Stay> {
    let any = random.between(0, LAST_PEN);
    let mut pens = [any, any ^ 1, any ^ 32, 0, 31, 32, LAST_PEN];
    random.shuffle(&mut pens);
    let pens = &pens[..random.between(1, 3) as usize];
    let longest = random.one_of(&[1, 3, 12]);
    let mut stays = Vec::new();
    for _ in 0..random.below(most + 1) {
        let pen = random.one_of(pens);
        let mut drawn = stay(random, opening, pen, longest);
        if random.once_in(2) && !stays.is_empty() {
            let earlier = random.one_of(&stays);
            drawn = alike(random, opening, earlier, drawn);
        }
        stays.push(drawn);
    }
    stays
}

/// A legal stay like this one: the same, in the pen or of the animal of another stay, or of that animal for one tick, when
/// this one ends or just after.
fn alike(random: &mut Random, opening: Opening, stay: Stay, other: Stay) -> Stay {
    let (animal, pen) = (other.animal, other.pen);
    let after = opening.ticks.min(stay.last + 1);
    match random.below(6) {
        0 => stay,
        1 | 2 => Stay { pen, ..stay },
        3 | 4 => Stay { animal, ..stay },
        _ => {
            let tick = random.one_of(&[stay.last, after]);
            Stay::new(animal, stay.pen, tick, tick)
        }
    }
}

/// Records that are no legal stays: this one with one of its numbers beyond its limit, or with first after last, or with
/// both ticks out of range.
pub fn illegal_stays(opening: Opening, stay: Stay) -> Vec<Stay> {
    let (n, ticks) = (opening.animals, opening.ticks);
    let Stay {
        animal,
        pen,
        first,
        last,
    } = stay;
    let mut illegal = Vec::new();
    for animal in [n, n + 1, animal | 1 << 8, animal | 1 << 31, u32::MAX] {
        illegal.push(Stay { animal, ..stay });
    }
    for pen in [64, 65, pen + 64, 255, pen | 1 << 8, pen | 1 << 31, u32::MAX] {
        illegal.push(Stay { pen, ..stay });
    }
    for first in [0, last + 1, ticks + 1, first | 1 << 16, u32::MAX] {
        illegal.push(Stay { first, ..stay });
    }
    for last in [
        first - 1,
        ticks + 1,
        opening.last_arrival(),
        last | 1 << 16,
        u32::MAX,
    ] {
        illegal.push(Stay { last, ..stay });
    }
    for tick in [0, ticks + 1, u32::MAX] {
        illegal.push(Stay::new(animal, pen, tick, tick));
    }
    illegal
}

/// The table, with something wrong for which it is refused with 5.
pub fn refused_5(random: &mut Random, table: &[u32]) -> Vec<u32> {
    let mut words = table.to_vec();
    match random.below(6) {
        0 => words.clear(),
        1 => words.truncate(1),
        2 => drop(words.pop()),
        3 => words.push(random.one_of(&[0, 0xC000_0000, u32::MAX])),
        4 => words[0] = other_kind(random, words[0]),
        _ => words[0] |= 1 << random.between(26, 29),
    }
    words
}

/// The table, with something wrong in one cell, for which it is refused with 6.
pub fn refused_6(random: &mut Random, opening: Opening, table: &[u32]) -> Vec<u32> {
    let mut words = table.to_vec();
    let mut animal = || random.between(0, opening.animals - 1);
    let (u, v) = (animal(), animal());
    let start = opening.cell_start(u, v);
    let row = start + random.between(1, opening.ticks) as usize;
    match random.below(5) {
        0 => words[start] = count_word(opening.ticks + 1),
        1 => words[start] ^= 1 << random.between(11, 29),
        2 => words[start] = other_kind(random, words[start]),
        3 => words[row] |= 1 << random.between(22, 29),
        _ => words[opening.cell_start(v, v)] = count_word(1),
    }
    words
}

/// The words with one to three of them changed, moved, left out or put in.
pub fn damaged(random: &mut Random, words: &[u32]) -> Vec<u32> {
    let mut damaged = words.to_vec();
    for _ in 0..random.between(1, 3) {
        damage(random, &mut damaged);
    }
    damaged
}

/// Changes, moves, leaves out or puts in one word.
fn damage(random: &mut Random, words: &mut Vec<u32>) {
    if words.is_empty() {
        return words.push(random.word());
    }
    let (place, other) = (random.below(words.len()), random.below(words.len()));
    let last = words.len() - 1;
    let step = random.one_of(&[1, 1 << 10, 1 << 18, u32::MAX]);
    let any_contact = 0x4000_0000 | random.word() & 0x03FF_FFFF;
    match random.below(7) {
        0 => words[place] ^= 1 << random.between(0, 31),
        1 => words.swap(place, other),
        2 => drop(words.remove(place)),
        3 => words.insert(place, words[other]),
        4 => words[place] = words[place].wrapping_add(step),
        5 => words[place] = random.one_of(&[0, 0x8000_0000, 0xC000_0000, any_contact]),
        _ => words[last] = words[last].wrapping_add(random.one_of(&[1, u32::MAX])),
    }
}
