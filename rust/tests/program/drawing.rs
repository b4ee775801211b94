//! A picture taken apart: its lanes, arrows and texts, and where they lie.

use herd_testing::xml::{self, Element};

/// The name space of pictures.
const SVG: &str = "http://www.w3.org/2000/svg";

/// A line, its color, and what it is called where a pointer rests on it.
#[derive(Clone, Debug, Default)]
pub struct Line {
    pub x1: f64,
    pub y1: f64,
    pub x2: f64,
    pub y2: f64,
    pub color: String,
    pub title: String,
}

/// A text, the size of its letters, and which end of it lies at its place.
#[derive(Clone, Debug)]
pub struct Label {
    pub x: f64,
    pub y: f64,
    pub font: f64,
    pub anchor: String,
    pub bold: bool,
    pub text: String,
}

/// What an element has of those around it.
#[derive(Clone, Default)]
struct Style {
    font: f64,
    anchor: String,
    color: String,
    arrow: bool,
    legend: bool,
}

/// A picture.
#[derive(Default)]
pub struct Drawing {
    pub width: f64,
    pub height: f64,
    /// Its own title.
    pub title: String,
    /// The broad line of each animal, in the order of the text.
    pub lanes: Vec<Line>,
    /// The arrows of contacts.
    pub arrows: Vec<Line>,
    /// The broken line that stands outside the legend.
    pub broken: Vec<Line>,
    /// The texts outside the legend.
    pub labels: Vec<Label>,
    /// The texts of the legend.
    pub legend: Vec<Label>,
    /// The lines of the legend.
    pub samples: Vec<Line>,
    /// Every coordinate, with those that it must not go beyond.
    ends: Vec<(f64, f64)>,
}

/// The number of an attribute.
#[track_caller]
fn number(element: &Element, name: &str) -> f64 {
    let value = element.attribute(name);
    let number = value.and_then(|value| value.parse().ok());
    let number = number.filter(|number: &f64| number.is_finite());
    number.unwrap_or_else(|| panic!("{name} is {value:?}"))
}

impl Drawing {
    /// The drawing of a text, which must be a well formed picture.
    #[track_caller]
    pub fn read(text: &str) -> Drawing {
        let root = xml::parse(text).unwrap_or_else(|wrong| panic!("{wrong}: {text}"));
        assert_eq!(
            (root.name.as_str(), root.attribute("xmlns")),
            ("svg", Some(SVG))
        );
        let (width, height) = (number(&root, "width"), number(&root, "height"));
        let view = format!("0 0 {width} {height}");
        assert_eq!(root.attribute("viewBox"), Some(view.as_str()));
        let mut drawing = Drawing {
            width,
            height,
            ..Drawing::default()
        };
        drawing.visit(&root, &Style::default());
        refers_to_what_is_there(&root);
        drawing
    }

    /// Takes an element and all in it.
    fn visit(&mut self, element: &Element, around: &Style) {
        let mut style = around.clone();
        if element.attribute("font-size").is_some() {
            style.font = number(element, "font-size");
        }
        for (name, kept) in [
            ("text-anchor", &mut style.anchor),
            ("stroke", &mut style.color),
        ] {
            let own = element.attribute(name);
            *kept = own.map_or(kept.clone(), String::from);
        }
        style.arrow |= element.attribute("marker-end").is_some();
        style.legend |= element.attribute("id") == Some("legend");
        match element.name.as_str() {
            "svg" | "g" => {}
            "title" => self.title = element.text(),
            "line" => return self.line(element, &style),
            "text" => return self.label(element, &style),
            "rect" => return self.rectangle(element),
            "defs" => return,
            other => panic!("an element {other}"),
        }
        for inner in element.elements() {
            self.visit(inner, &style);
        }
    }

    /// Takes a line.
    fn line(&mut self, element: &Element, style: &Style) {
        let line = Line {
            x1: number(element, "x1"),
            y1: number(element, "y1"),
            x2: number(element, "x2"),
            y2: number(element, "y2"),
            color: style.color.clone(),
            title: element.elements().map(Element::text).collect(),
        };
        self.ends
            .extend([(line.x1, self.width), (line.x2, self.width)]);
        self.ends
            .extend([(line.y1, self.height), (line.y2, self.height)]);
        let broken = element.attribute("stroke-dasharray").is_some();
        match element.attribute("class") {
            _ if style.legend => self.samples.push(line),
            Some("lane") => self.lanes.push(line),
            Some("contact") => {
                assert!(style.arrow, "an arrow without a head");
                self.arrows.push(line);
            }
            Some(other) => panic!("a line of class {other}"),
            None if broken => self.broken.push(line),
            None => {}
        }
    }

    /// Takes a text.
    fn label(&mut self, element: &Element, style: &Style) {
        let label = Label {
            x: number(element, "x"),
            y: number(element, "y"),
            font: style.font,
            anchor: style.anchor.clone(),
            bold: element.attribute("font-weight") == Some("bold"),
            text: element.text(),
        };
        self.ends
            .extend([(label.x, self.width), (label.y, self.height)]);
        match style.legend {
            true => self.legend.push(label),
            false => self.labels.push(label),
        }
    }

    /// Takes a rectangle, of which one may cover the whole picture.
    fn rectangle(&mut self, element: &Element) {
        if element.attribute("width") == Some("100%") {
            assert_eq!(element.attribute("height"), Some("100%"));
            return;
        }
        let (x, y) = (number(element, "x"), number(element, "y"));
        let (right, bottom) = (x + number(element, "width"), y + number(element, "height"));
        self.ends.extend([(x, self.width), (right, self.width)]);
        self.ends.extend([(y, self.height), (bottom, self.height)]);
    }

    /// Fails where something lies outside the picture.
    #[track_caller]
    pub fn lies_inside(&self) {
        let outside = self
            .ends
            .iter()
            .find(|(place, end)| *place < 0.0 || place > end);
        assert_eq!(outside, None, "{}", self.title);
    }

    /// Fails where a text that a common font sets reaches beyond the picture.
    #[track_caller]
    pub fn texts_end_inside(&self) {
        for label in self.labels.iter().chain(&self.legend) {
            let width = width(label);
            let (left, right) = match label.anchor.as_str() {
                "end" => (label.x - width, label.x),
                "middle" => (label.x - width / 2.0, label.x + width / 2.0),
                _ => (label.x, label.x + width),
            };
            let inside = 0.0 <= left && right <= self.width;
            assert!(
                inside,
                "{left:.0} to {right:.0} of {}: {label:?}",
                self.width
            );
        }
    }
}

/// About how much room a text takes across: narrow letters take a third of their size, others three fifths.
pub fn width(label: &Label) -> f64 {
    let letter = |letter: char| {
        if "iljtfr .,:".contains(letter) {
            0.36
        } else {
            0.6
        }
    };
    let letters: f64 = label.text.chars().map(letter).sum();
    letters * label.font * if label.bold { 1.1 } else { 1.0 }
}

/// Fails where an attribute refers to an element that is not there.
#[track_caller]
fn refers_to_what_is_there(root: &Element) {
    let all = root.all();
    let names: Vec<&str> = all.iter().filter_map(|one| one.attribute("id")).collect();
    for value in all.iter().flat_map(|one| one.attributes.values()) {
        if let Some(name) = value.strip_prefix("url(#") {
            let there = names.contains(&name.trim_end_matches(')'));
            assert!(there, "{value} in {names:?}");
        }
    }
}
