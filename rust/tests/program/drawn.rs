//! Herds, windows and the options that name them, drawn at random.

use crate::told::Herd;
use herd_testing::cases;
use herd_testing::random::Random;
use herd_testing::words::{Contact, Opening, Window};

/// How large a drawn herd is.
#[derive(Clone, Copy, Debug, PartialEq, Eq)]
pub enum Size {
    /// At most 7 animals and 12 ticks, and now and then one animal or no contact.
    Small,
    /// 2 to 12 animals and 10 to 40 ticks.
    Middle,
    /// 13 to 60 animals and 41 to 300 ticks.
    Large,
}

/// A herd of the size.
pub fn herd(random: &mut Random, size: Size) -> Herd {
    let (opening, most) = match size {
        Size::Small => (cases::opening(random), 30),
        Size::Middle => (middle_opening(random), 80),
        Size::Large => (large_opening(random), random.one_of(&[60, 150, 300])),
    };
    let contacts = match size {
        Size::Large => cases::following_contacts(random, opening, most),
        _ => cases::few_contacts(random, opening, most),
    };
    Herd::new(opening, contacts)
}

/// An opening of some animals and ticks, with a short carry time in half of the cases.
fn middle_opening(random: &mut Random) -> Opening {
    let any = cases::longer_opening(random);
    let animals = random.between(4, 12);
    let long = Opening::new(animals, random.between(15, 40), random.between(1, 3));
    random.one_of(&[any, long])
}

/// An opening of many animals and ticks, with a carry time that leaves room for journeys in most cases.
fn large_opening(random: &mut Random) -> Opening {
    let short = random.between(1, 6);
    let any = random.between(1, 256);
    let carry = random.one_of(&[short, short, short, any]);
    Opening::new(random.between(13, 60), random.between(41, 300), carry)
}

/// So many sizes: of nine in a row four are small, four are middle and one is large.
pub fn sizes(number: usize) -> impl Iterator<Item = Size> {
    (1..=number).map(|place| match (place % 9, place % 2) {
        (0, _) => Size::Large,
        (_, 0) => Size::Middle,
        _ => Size::Small,
    })
}

/// The contacts of the herd in another order, some of them more than once.
pub fn mixed(random: &mut Random, herd: &Herd) -> Vec<Contact> {
    let mut mixed = herd.listed();
    for contact in herd.listed() {
        for _ in 0..random.one_of(&[0, 0, 0, 1, 3]) {
            mixed.push(contact);
        }
    }
    random.shuffle(&mut mixed);
    mixed
}

/// A window that is asked about, and the options that ask about it.
#[derive(Clone, Debug)]
pub struct Asked {
    pub window: Window,
    pub options: String,
}

/// A window of the calendar, with options that may leave out an end that it has in common with the calendar.
pub fn window(random: &mut Random, opening: Opening) -> Asked {
    let whole = Window::whole(opening);
    let (one, other) = (
        random.between(1, opening.ticks),
        random.between(1, opening.ticks),
    );
    let between = Window::new(one.min(other), one.max(other));
    let window = random.one_of(&[
        whole,
        whole,
        between,
        between,
        Window::new(1, between.last),
        Window::new(between.first, whole.last),
        Window::new(one, one),
    ]);
    let first = option(random, "--first", window.first, window.first == 1);
    let last = option(random, "--last", window.last, window.last == whole.last);
    let options = match random.once_in(2) {
        true => format!("{first} {last}"),
        false => format!("{last} {first}"),
    };
    Asked { window, options }
}

/// An option in one of its forms; where it may be left out it often is.
fn option(random: &mut Random, name: &str, value: u32, may_go: bool) -> String {
    if may_go && !random.once_in(3) {
        return String::new();
    }
    match random.once_in(2) {
        true => format!("{name} {value}"),
        false => format!("{name}={value}"),
    }
}
