//! The picture of a trace against the plain search: what is drawn is what was found, and it lies where it must.

use crate::drawing::{width, Drawing, Label, Line};
use crate::drawn::Asked;
use crate::run::Folder;
use crate::told::{Found, Herd, Way};
use herd_testing::words::{Contact, Window};
use std::collections::BTreeSet;

/// How far a place may lie beside the right one, as places are written with one digit behind the point.
const ROUNDED: f64 = 0.11;
/// The least distance of two lanes, in sizes of their letters.
const LANES_APART: f64 = 1.2;
/// How far from each other two lanes would lie, where there is only one.
const ALONE: f64 = 20.0;

/// A trace and the picture that was drawn of it.
pub struct Traced<'a> {
    herd: &'a Herd,
    way: Way,
    animal: u32,
    window: Window,
    pub found: Vec<Found>,
    pub drawing: Drawing,
}

/// Fails where two places are not the same.
#[track_caller]
fn same_place(place: f64, right: f64) {
    assert!((place - right).abs() <= ROUNDED, "{place}, not {right}");
}

impl<'a> Traced<'a> {
    /// Draws the trace of an animal by a call, and compares the table that is printed beside it.
    #[track_caller]
    pub fn draw(folder: &Folder, herd: &'a Herd, way: Way, animal: u32, asked: &Asked) -> Self {
        let (window, options) = (asked.window, &asked.options);
        folder.put("herd.log", herd.log());
        let call = format!(
            "{} herd.log {animal} {options} --svg out.svg",
            way.command()
        );
        let table = folder.answer(&call);
        assert_eq!(table, herd.table(way, animal, window), "{call}");
        let text = folder.bytes("out.svg");
        let printed = folder.run(&call.replace("out.svg", "-"));
        assert!(printed.bytes() == text, "{call}");
        Traced {
            herd,
            way,
            animal,
            window,
            found: herd.found(way, animal, window),
            drawing: Drawing::read(std::str::from_utf8(&text).expect("plain text")),
        }
    }

    /// Compares everything that is drawn.
    #[track_caller]
    pub fn compare(&self) {
        let found = self.found.len();
        let title = self.herd.title(self.way, self.animal, self.window, found);
        let labels = &self.drawing.labels;
        assert_eq!(self.drawing.title, title);
        assert!(labels.iter().any(|label| label.text == title));
        self.compare_lanes();
        self.compare_arrows();
        self.compare_axis();
        self.compare_legend();
        self.drawing.lies_inside();
    }

    /// The animals of the lanes from above: the one traced where arrows come from or go to, the others as in the table.
    fn order(&self) -> Vec<u32> {
        let others = self.found.iter().map(|found| found.animal);
        let mut order: Vec<u32> = [self.animal].into_iter().chain(others).collect();
        if self.way == Way::Back {
            order.reverse();
        }
        order
    }

    /// The broad line of the animal that is traced, which goes over all ticks.
    fn own_lane(&self) -> &Line {
        let order = self.order();
        let place = order.iter().position(|&animal| animal == self.animal);
        &self.drawing.lanes[place.expect("the animal that is traced")]
    }

    /// The width of one tick.
    fn scale(&self) -> f64 {
        let ticks = self.window.last + self.herd.opening.carry - self.window.first;
        (self.own_lane().x2 - self.own_lane().x1) / f64::from(ticks)
    }

    /// Where a tick lies.
    fn x(&self, tick: u32) -> f64 {
        self.own_lane().x1 + f64::from(tick - self.window.first) * self.scale()
    }

    /// The texts beside a lane.
    fn beside(&self, lane: &Line, apart: f64) -> Vec<&Label> {
        let y = lane.y1;
        let labels = self.drawing.labels.iter();
        let near = |label: &&Label| (label.y - y).abs() < apart / 2.0 && label.anchor != "middle";
        labels.filter(near).collect()
    }

    /// A lane for each animal, equally far apart, with its number and where it begins or ends.
    #[track_caller]
    fn compare_lanes(&self) {
        let (order, lanes) = (self.order(), &self.drawing.lanes);
        assert_eq!(lanes.len(), order.len());
        let apart = match &lanes[..] {
            [first, second, ..] => second.y1 - first.y1,
            _ => ALONE,
        };
        assert!(lanes
            .windows(2)
            .all(|two| (two[1].y1 - two[0].y1 - apart).abs() <= ROUNDED));
        for (lane, &animal) in lanes.iter().zip(&order) {
            let found = self.found.iter().find(|found| found.animal == animal);
            let (leaves, comes, shown) = self.extent(found);
            same_place(lane.x1, leaves);
            same_place(lane.x2, comes);
            same_place(lane.y1, lane.y2);
            let labels = self.beside(lane, apart);
            let texts: Vec<&str> = labels.iter().map(|label| label.text.as_str()).collect();
            assert_eq!(texts, [&[animal.to_string()], &shown[..]].concat());
            assert!(labels[0].x < self.own_lane().x1 && labels[0].anchor == "end");
            assert!(labels[1..].iter().all(|label| label.x > self.own_lane().x2));
            assert!(labels.iter().all(|label| apart >= LANES_APART * label.font));
        }
    }

    /// Where the lane of an animal begins and ends, and the number that stands beside it, if it was found.
    fn extent(&self, found: Option<&Found>) -> (f64, f64, Vec<String>) {
        let (left, right) = (self.own_lane().x1, self.own_lane().x2);
        match (found, self.way) {
            (None, _) => (left, right, Vec::new()),
            (Some(found), Way::Trace) => {
                let arrival = found.interval.arrival;
                (self.x(arrival), right, vec![arrival.to_string()])
            }
            (Some(found), Way::Back) => {
                let departure = found.interval.departure;
                (left, self.x(departure), vec![departure.to_string()])
            }
        }
    }

    /// An arrow for each contact of the chains, from its tick in one lane to its arrival in the other.
    #[track_caller]
    fn compare_arrows(&self) {
        let expected: BTreeSet<Contact> = self
            .found
            .iter()
            .flat_map(|found| found.chain.clone())
            .collect();
        let drawn: Vec<Contact> = self
            .drawing
            .arrows
            .iter()
            .map(|arrow| self.contact(arrow))
            .collect();
        assert_eq!(drawn.len(), expected.len());
        assert_eq!(drawn.into_iter().collect::<BTreeSet<_>>(), expected);
    }

    /// The contact of an arrow, known by the places of its ends.
    #[track_caller]
    fn contact(&self, arrow: &Line) -> Contact {
        let carry = self.herd.opening.carry;
        same_place(arrow.x2 - arrow.x1, f64::from(carry) * self.scale());
        let order = self.order();
        let lane = |y: f64| {
            let place = self.drawing.lanes.iter().position(|lane| lane.y1 == y);
            order[place.unwrap_or_else(|| panic!("{arrow:?} in no lane"))]
        };
        let ticks = (arrow.x1 - self.own_lane().x1) / self.scale();
        let tick = self.window.first + ticks.round() as u32;
        same_place(arrow.x1, self.x(tick));
        let (from, to) = (lane(arrow.y1), lane(arrow.y2));
        let title = format!(
            "{from} -> {to} at tick {tick}, arrives at tick {}",
            tick + carry
        );
        assert_eq!(arrow.title, title);
        Contact::new(from, to, tick)
    }

    /// Numbers of ticks above and below the lanes, each where its tick lies and none over another; and the window's end.
    #[track_caller]
    fn compare_axis(&self) {
        let end = self.window.last + self.herd.opening.carry;
        let (top, bottom) = (
            self.drawing.lanes[0].y1,
            self.drawing.lanes[self.found.len()].y1,
        );
        let numbers = self
            .drawing
            .labels
            .iter()
            .filter(|label| label.anchor == "middle");
        let (above, below): (Vec<&Label>, Vec<&Label>) = numbers.partition(|label| label.y < top);
        assert!(below.iter().all(|label| label.y > bottom));
        assert_eq!(above.len(), below.len());
        assert!(above.len() >= 2);
        for row in [above, below] {
            for label in &row {
                let tick = label.text.parse().expect("a tick");
                assert!((self.window.first..=end).contains(&tick), "{tick}");
                same_place(label.x, self.x(tick));
            }
            let clear =
                |two: &[&Label]| two[1].x - two[0].x > (width(two[0]) + width(two[1])) / 2.0;
            assert!(row.windows(2).all(clear));
        }
        assert_eq!(self.drawing.broken.len(), 1);
        same_place(self.drawing.broken[0].x1, self.x(self.window.last));
        same_place(self.drawing.broken[0].x2, self.x(self.window.last));
    }

    /// A legend of what each kind of line means.
    #[track_caller]
    fn compare_legend(&self) {
        let legend = &self.drawing.legend;
        let carry = self.herd.opening.carry;
        let carry = format!("{carry} {}", if carry == 1 { "tick" } else { "ticks" });
        let ends = match self.way {
            Way::Trace => "earliest arrival",
            Way::Back => "latest departure",
        };
        let parts: [&[&str]; 4] = [
            &["traced", &self.animal.to_string()],
            &[ends],
            &["contact", "carry time", &carry],
            &["window", &format!("tick {}", self.window.last)],
        ];
        assert_eq!(legend.len(), parts.len());
        for (label, parts) in legend.iter().zip(parts) {
            let said = parts.iter().all(|part| label.text.contains(part));
            assert!(said, "{parts:?} in {label:?}");
        }
        self.compare_colors();
    }

    /// Each line of the legend has the color of the lines that it explains.
    #[track_caller]
    fn compare_colors(&self) {
        let samples = self.drawing.samples.iter();
        let samples: Vec<&str> = samples.map(|line| line.color.as_str()).collect();
        let [own, found, contact, last] = samples[..] else {
            panic!("{samples:?}");
        };
        for (lane, animal) in self.drawing.lanes.iter().zip(self.order()) {
            let right = if animal == self.animal { own } else { found };
            assert_eq!(lane.color, right, "{animal}");
        }
        assert!(own != found && found != contact);
        let arrows = &self.drawing.arrows;
        assert!(arrows.iter().all(|arrow| arrow.color == contact));
        assert_eq!(self.drawing.broken[0].color, last);
    }
}
