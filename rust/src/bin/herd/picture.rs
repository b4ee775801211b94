//! A trace as a picture in SVG: a lane for each animal, ticks across, an arrow for each contact.

use crate::tracing::Way;
use herd::{Contact, Traced};
use std::collections::BTreeSet;
use std::fmt::{self, Write};
use std::ops::RangeInclusive;

/// The width that the ticks together are given, where each then has room enough and not too much.
const WIDTH: f64 = 960.0;
/// The least and the most width of one tick.
const TICK_WIDTHS: (f64, f64) = (4.0, 96.0);
/// The least distance of two numbers on the axis of ticks.
const NUMBERS_APART: f64 = 44.0;
/// The room to the left of the ticks, for the numbers of the animals.
const LEFT: f64 = 96.0;
/// The room to the right of the ticks, for the end that each animal was found by.
const RIGHT: f64 = 144.0;
/// The room above the lanes, for the title and the axis.
const TOP: f64 = 84.0;
/// The room below the lanes, for the axis and the legend.
const BOTTOM: f64 = 150.0;

/// The lane of the animal that is traced.
const TRACED: &str = "#d55e00";
/// The lanes of the animals found.
const FOUND: &str = "#56b4e9";
/// The arrows.
const ARROW: &str = "#1b2a41";

/// What is drawn.
pub struct Picture<'a> {
    pub way: Way,
    pub animal: u32,
    pub window: RangeInclusive<u32>,
    pub carry: u32,
    pub title: &'a str,
    pub found: &'a [Traced],
}

/// Where things lie.
struct Page {
    lanes: Vec<u32>,
    lane: f64,
    font: u32,
    first: u32,
    end: u32,
    tick: f64,
}

impl Picture<'_> {
    /// The text of the picture, or nothing where some contact is of an animal that has no lane.
    pub fn draw(&self) -> Option<String> {
        let mut svg = String::new();
        self.write(&mut svg).ok()?;
        Some(svg)
    }

    /// Writes the picture.
    fn write(&self, svg: &mut String) -> fmt::Result {
        let page = self.page();
        let (width, height) = (page.right() + RIGHT, page.bottom() + BOTTOM);
        let width = width.max(LEFT + 9.0 * self.title.len() as f64);
        writeln!(
            svg,
            r#"<svg xmlns="http://www.w3.org/2000/svg" width="{width:.0}" height="{height:.0}" viewBox="0 0 {width:.0} {height:.0}" font-family="sans-serif" font-size="{}">"#,
            page.font
        )?;
        writeln!(svg, "<title>{}</title>", self.title)?;
        writeln!(
            svg,
            r#"<defs><marker id="head" viewBox="0 0 8 8" refX="7.5" refY="4" markerWidth="7" markerHeight="7" orient="auto"><path d="M0,0.8 L8,4 L0,7.2 z" fill="{ARROW}"/></marker><marker id="tail" viewBox="0 0 6 6" refX="3" refY="3" markerWidth="4" markerHeight="4"><circle cx="3" cy="3" r="2.6" fill="{ARROW}"/></marker></defs>"#
        )?;
        writeln!(
            svg,
            r##"<rect width="100%" height="100%" fill="#ffffff"/>"##
        )?;
        writeln!(
            svg,
            r##"<text x="16" y="28" font-size="17" font-weight="bold" fill="#111111">{}</text>"##,
            self.title
        )?;
        self.write_axis(svg, &page)?;
        self.write_lanes(svg, &page)?;
        self.write_arrows(svg, &page)?;
        self.write_legend(svg, &page)?;
        writeln!(svg, "</svg>")
    }

    /// Where things lie: the animal traced is at the end from which the arrows come or to which they go, the others by the
    /// tick that they were found by.
    fn page(&self) -> Page {
        let mut lanes = vec![self.animal];
        lanes.extend(self.found.iter().map(|found| found.animal));
        if self.way == Way::Back {
            lanes.reverse();
        }
        let (lane, font) = match lanes.len() {
            0..=12 => (38.0, 14),
            13..=30 => (28.0, 13),
            _ => (21.0, 12),
        };
        let (first, end) = (*self.window.start(), self.window.end() + self.carry);
        let tick = WIDTH / f64::from(end - first);
        Page {
            lanes,
            lane,
            font,
            first,
            end,
            tick: tick.clamp(TICK_WIDTHS.0, TICK_WIDTHS.1),
        }
    }

    /// Writes the ticks, and where the window ends.
    fn write_axis(&self, svg: &mut String, page: &Page) -> fmt::Result {
        let (top, bottom) = (page.y(0) - page.lane / 2.0, page.bottom());
        let (last, right) = (page.x(*self.window.end()), page.right());
        writeln!(
            svg,
            r##"<rect x="{last:.1}" y="{top:.1}" width="{:.1}" height="{:.1}" fill="#f1f1f1"/>"##,
            right - last,
            bottom - top
        )?;
        writeln!(svg, r##"<g stroke="#dddddd" stroke-width="1">"##)?;
        for tick in page.numbered() {
            let x = page.x(tick);
            writeln!(
                svg,
                r#"<line x1="{x:.1}" y1="{top:.1}" x2="{x:.1}" y2="{bottom:.1}"/>"#
            )?;
        }
        writeln!(svg, r#"</g>"#)?;
        writeln!(
            svg,
            r##"<line x1="{last:.1}" y1="{top:.1}" x2="{last:.1}" y2="{bottom:.1}" stroke="#777777" stroke-width="1.5" stroke-dasharray="5 4"/>"##
        )?;
        writeln!(svg, r##"<g fill="#444444" text-anchor="middle">"##)?;
        for tick in page.numbered() {
            let x = page.x(tick);
            writeln!(
                svg,
                r#"<text x="{x:.1}" y="{:.1}">{tick}</text>"#,
                top - 8.0
            )?;
            writeln!(
                svg,
                r#"<text x="{x:.1}" y="{:.1}">{tick}</text>"#,
                bottom + 18.0
            )?;
        }
        writeln!(svg, "</g>")?;
        writeln!(
            svg,
            r##"<g fill="#444444" font-style="italic"><text x="16" y="{y:.1}">animal</text><text x="{x:.1}" y="{y:.1}">{}</text><text x="16" y="{:.1}">tick</text></g>"##,
            self.found_by(),
            bottom + 18.0,
            x = right + 12.0,
            y = top - 8.0
        )
    }

    /// What stands beside the lane of an animal that was found.
    fn found_by(&self) -> &'static str {
        match self.way {
            Way::Forward => "earliest arrival",
            Way::Back => "latest departure",
        }
    }

    /// Writes the lanes: each is broad where something from the animal traced can be there, or can still get to it.
    fn write_lanes(&self, svg: &mut String, page: &Page) -> fmt::Result {
        let (left, right) = (page.x(page.first), page.right());
        for (place, &animal) in page.lanes.iter().enumerate() {
            let y = page.y(place);
            writeln!(
                svg,
                r##"<line x1="{left:.1}" y1="{y:.1}" x2="{right:.1}" y2="{y:.1}" stroke="#bbbbbb" stroke-width="1"/>"##
            )?;
            let found = self.found.iter().find(|found| found.animal == animal);
            let (from, to, color) = match (found, self.way) {
                (None, _) => (left, right, TRACED),
                (Some(found), Way::Forward) => (page.x(found.interval.arrival), right, FOUND),
                (Some(found), Way::Back) => (left, page.x(found.interval.departure), FOUND),
            };
            writeln!(
                svg,
                r#"<line class="lane" x1="{from:.1}" y1="{y:.1}" x2="{to:.1}" y2="{y:.1}" stroke="{color}" stroke-width="6" stroke-linecap="round"/>"#
            )?;
            let weight = if found.is_none() {
                r#" font-weight="bold""#
            } else {
                ""
            };
            writeln!(
                svg,
                r##"<text x="{:.1}" y="{:.1}" text-anchor="end" fill="#111111"{weight}>{animal}</text>"##,
                LEFT - 24.0,
                y + 4.5
            )?;
            if let Some(found) = found {
                let end = match self.way {
                    Way::Forward => found.interval.arrival,
                    Way::Back => found.interval.departure,
                };
                writeln!(
                    svg,
                    r##"<text x="{:.1}" y="{:.1}" fill="#111111">{end}</text>"##,
                    right + 12.0,
                    y + 4.5
                )?;
            }
        }
        Ok(())
    }

    /// Writes an arrow for each contact of the chains, from its departure to its arrival; it fails where one has no place.
    fn write_arrows(&self, svg: &mut String, page: &Page) -> fmt::Result {
        let contacts: BTreeSet<Contact> = self
            .found
            .iter()
            .flat_map(|found| found.chain.iter().copied())
            .collect();
        writeln!(svg, r#"<g {}>"#, contact_stroke())?;
        for contact in contacts {
            let lanes = page.place(contact.from).zip(page.place(contact.to));
            let (from, to) = lanes.ok_or(fmt::Error)?;
            let arrival = contact.interval(self.carry).arrival;
            let (x1, x2) = (page.x(contact.tick), page.x(arrival));
            let (y1, y2) = (page.y(from), page.y(to));
            writeln!(
                svg,
                r#"<line class="contact" x1="{x1:.1}" y1="{y1:.1}" x2="{x2:.1}" y2="{y2:.1}"><title>{contact}, arrives at tick {arrival}</title></line>"#
            )?;
        }
        writeln!(svg, "</g>")
    }

    /// Writes what the lines mean.
    fn write_legend(&self, svg: &mut String, page: &Page) -> fmt::Result {
        let meaning = match self.way {
            Way::Forward => "from its earliest arrival on, something from the animal traced can be there",
            Way::Back => "until its latest departure, something from there can still get to the animal traced",
        };
        let carry = self.carry;
        let ticks = if carry == 1 { "tick" } else { "ticks" };
        let last = self.window.end();
        let rows = [
            (format!(r#"stroke="{TRACED}" stroke-width="6" stroke-linecap="round""#), format!("animal {}, which is traced", self.animal)),
            (format!(r#"stroke="{FOUND}" stroke-width="6" stroke-linecap="round""#), meaning.to_string()),
            (contact_stroke(), format!("a contact: it leaves at its tick and arrives {carry} {ticks} later, the carry time")),
            (r##"stroke="#777777" stroke-width="1.5" stroke-dasharray="5 4""##.to_string(), format!("tick {last}, the last of the window: no contact leaves after it")),
        ];
        writeln!(svg, r##"<g id="legend" font-size="13" fill="#222222">"##)?;
        for (place, (line, text)) in rows.iter().enumerate() {
            let y = page.bottom() + 50.0 + 24.0 * place as f64;
            writeln!(
                svg,
                r#"<line x1="20" y1="{y:.1}" x2="64" y2="{y:.1}" {line}/><text x="80" y="{:.1}">{text}</text>"#,
                y + 4.5
            )?;
        }
        writeln!(svg, "</g>")
    }
}

/// How the arrow of a contact is drawn.
fn contact_stroke() -> String {
    format!(
        r#"stroke="{ARROW}" stroke-width="1.6" marker-start="url(#tail)" marker-end="url(#head)""#
    )
}

impl Page {
    /// Where a tick lies.
    fn x(&self, tick: u32) -> f64 {
        LEFT + f64::from(tick - self.first) * self.tick
    }

    /// Where a lane lies.
    fn y(&self, place: usize) -> f64 {
        TOP + (place as f64 + 0.5) * self.lane
    }

    /// Where the ticks end.
    fn right(&self) -> f64 {
        self.x(self.end)
    }

    /// Where the lanes end.
    fn bottom(&self) -> f64 {
        TOP + self.lanes.len() as f64 * self.lane
    }

    /// The lane of an animal.
    fn place(&self, animal: u32) -> Option<usize> {
        self.lanes.iter().position(|&lane| lane == animal)
    }

    /// The ticks whose numbers have room.
    fn numbered(&self) -> impl Iterator<Item = u32> {
        let steps = [1, 2, 5, 10, 20, 50, 100, 200, 500];
        let roomy = |step: &u32| f64::from(*step) * self.tick >= NUMBERS_APART;
        let step = steps.into_iter().find(roomy).unwrap_or(1000);
        (self.first..=self.end).filter(move |tick| tick % step == 0)
    }
}

#[cfg(test)]
mod tests {
    use super::Picture;
    use crate::tracing::Way;
    use herd::{Contact, Interval, Traced};

    #[test]
    fn a_contact_without_a_lane_is_not_left_out() {
        let found = |through: u32| {
            [Traced {
                animal: 3,
                interval: Interval::new(2, 5),
                chain: vec![Contact::new(0, through, 2), Contact::new(through, 3, 4)],
            }]
        };
        let drawn = |found: &[Traced]| {
            let picture = Picture {
                way: Way::Forward,
                animal: 0,
                window: 1..=6,
                carry: 1,
                title: "a trace",
                found,
            };
            picture.draw()
        };
        assert_eq!(drawn(&found(1)), None);
        let svg = drawn(&found(3)).expect("a picture");
        assert_eq!(svg.matches("class=\"contact\"").count(), 2);
    }
}
