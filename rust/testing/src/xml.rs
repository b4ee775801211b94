//! A small strict reader of XML: elements, attributes, texts, entities and comments. Declarations, processing instructions,
//! document types and character data sections are refused.

use std::collections::BTreeMap;

/// An element and what stands in it.
#[derive(Clone, Debug, PartialEq, Eq)]
pub struct Element {
    /// Its name.
    pub name: String,
    /// The values of its attributes, with entities replaced.
    pub attributes: BTreeMap<String, String>,
    /// What stands in it, in order.
    pub content: Vec<Node>,
}

/// Something that stands in an element.
#[derive(Clone, Debug, PartialEq, Eq)]
pub enum Node {
    /// Another element.
    Element(Element),
    /// A text, with entities replaced; it is not empty, and no other text stands next to it.
    Text(String),
}

impl Element {
    /// The value of an attribute, if the element has it.
    pub fn attribute(&self, name: &str) -> Option<&str> {
        self.attributes.get(name).map(String::as_str)
    }

    /// The elements that stand right in it.
    pub fn elements(&self) -> impl Iterator<Item = &Element> {
        self.content.iter().filter_map(|node| match node {
            Node::Element(element) => Some(element),
            Node::Text(_) => None,
        })
    }

    /// The element and all that stand in it however deep, in the order of the text.
    pub fn all(&self) -> Vec<&Element> {
        let mut all = vec![self];
        all.extend(self.elements().flat_map(Element::all));
        all
    }

    /// The texts that stand right in it.
    pub fn text(&self) -> String {
        let texts = self.content.iter().map(|node| match node {
            Node::Element(_) => "",
            Node::Text(text) => text,
        });
        texts.collect()
    }
}

/// The root of a text, or what is wrong with the text and at which byte.
pub fn parse(text: &str) -> Result<Element, String> {
    let mut reader = Reader { text, at: 0 };
    let read = reader.document();
    read.map_err(|wrong| format!("byte {}: {wrong}", reader.at))
}

/// A text that is read up to a place.
struct Reader<'a> {
    text: &'a str,
    at: usize,
}

impl<'a> Reader<'a> {
    /// Reads the whole text: one element, with blanks and comments around it.
    fn document(&mut self) -> Result<Element, String> {
        self.blanks_and_comments()?;
        if !self.rest().starts_with('<') {
            return Err("no root".into());
        }
        let root = self.element()?;
        self.blanks_and_comments()?;
        match self.rest() {
            "" => Ok(root),
            rest if rest.starts_with('<') => Err("something behind the root".into()),
            _ => Err("text outside the root".into()),
        }
    }

    /// What is not read yet.
    fn rest(&self) -> &'a str {
        &self.text[self.at..]
    }

    /// Reads these letters where they stand here.
    fn takes(&mut self, letters: &str) -> bool {
        let here = self.rest().starts_with(letters);
        self.at += if here { letters.len() } else { 0 };
        here
    }

    /// Reads these letters, which must stand here.
    fn needs(&mut self, letters: &str) -> Result<(), String> {
        let here = self.takes(letters);
        here.then_some(())
            .ok_or_else(|| format!("no {letters:?} here"))
    }

    /// Reads up to the first letter that is none of these, and gives what was read.
    fn while_is(&mut self, is: impl Fn(char) -> bool) -> &'a str {
        let rest = self.rest();
        let end = rest.find(|letter| !is(letter)).unwrap_or(rest.len());
        self.at += end;
        &rest[..end]
    }

    /// Reads blanks, and gives them.
    fn blanks(&mut self) -> &'a str {
        self.while_is(is_blank)
    }

    /// Reads blanks and comments.
    fn blanks_and_comments(&mut self) -> Result<(), String> {
        self.blanks();
        while self.comment()? {
            self.blanks();
        }
        Ok(())
    }

    /// Reads a comment where one begins here.
    fn comment(&mut self) -> Result<bool, String> {
        if !self.takes("<!--") {
            return Ok(false);
        }
        let end = self.rest().find("--").ok_or("a comment without an end")?;
        let inside = &self.rest()[..end];
        if !inside.chars().all(is_letter) {
            return Err("a letter that no text may have".into());
        }
        self.at += end;
        self.needs("-->")?;
        Ok(true)
    }

    /// Reads a name.
    fn name(&mut self) -> Result<&'a str, String> {
        let inside = |letter: char| letter.is_alphanumeric() || "_:-.".contains(letter);
        let begins = |letter: char| letter.is_alphabetic() || "_:".contains(letter);
        let name = self.while_is(inside);
        match name.starts_with(begins) {
            true => Ok(name),
            false => Err("no name here".into()),
        }
    }

    /// Reads an element.
    fn element(&mut self) -> Result<Element, String> {
        self.needs("<")?;
        let mut element = Element {
            name: self.name()?.to_string(),
            attributes: self.attributes()?,
            content: Vec::new(),
        };
        if self.takes("/>") {
            return Ok(element);
        }
        self.needs(">")?;
        element.content = self.content()?;
        self.needs("</")?;
        let name = self.name()?;
        if name != element.name {
            return Err(format!("</{name}> ends <{}>", element.name));
        }
        self.blanks();
        self.needs(">")?;
        Ok(element)
    }

    /// Reads the attributes of an element, up to the end of its tag.
    fn attributes(&mut self) -> Result<BTreeMap<String, String>, String> {
        let mut attributes = BTreeMap::new();
        loop {
            let apart = !self.blanks().is_empty();
            if self.rest().starts_with(['>', '/']) {
                return Ok(attributes);
            }
            if !apart {
                return Err("no blank before an attribute".into());
            }
            let name = self.name()?.to_string();
            self.blanks();
            self.needs("=")?;
            self.blanks();
            let value = self.value()?;
            if attributes.insert(name.clone(), value).is_some() {
                return Err(format!("{name} stands there twice"));
            }
        }
    }

    /// Reads the value of an attribute.
    fn value(&mut self) -> Result<String, String> {
        let quote = match self.rest().chars().next() {
            Some(quote @ ('"' | '\'')) => quote,
            _ => return Err("a value without quotes".into()),
        };
        self.at += 1;
        let mut value = String::new();
        loop {
            let plain = self.while_is(|letter| letter != quote && !"<&".contains(letter));
            value += &plain.replace(is_blank, " ");
            if self.rest().starts_with(quote) {
                self.at += 1;
                return checked(value);
            }
            value.push(self.entity()?);
        }
    }

    /// Reads what stands in an element, up to the tag that ends it.
    fn content(&mut self) -> Result<Vec<Node>, String> {
        let mut content = Vec::new();
        let mut text = String::new();
        loop {
            let plain = self.while_is(|letter| !"<&".contains(letter));
            if plain.contains("]]>") {
                return Err("]]> in a text".into());
            }
            text += plain;
            if self.rest().starts_with('&') {
                text.push(self.entity()?);
            } else if !self.comment()? {
                let before = std::mem::take(&mut text);
                content.extend(Some(Node::Text(checked(before)?)).filter(|node| !is_empty(node)));
                if self.rest().starts_with("</") {
                    return Ok(content);
                }
                content.push(Node::Element(self.element()?));
            }
        }
    }

    /// Reads an entity, and gives the letter that it stands for.
    fn entity(&mut self) -> Result<char, String> {
        self.needs("&")?;
        let end = self.rest().find(';').ok_or("an & that begins no entity")?;
        let name = &self.rest()[..end];
        let letter = named(name).or_else(|| numbered(name));
        self.at += end + 1;
        letter.ok_or_else(|| format!("there is no entity {name:?}"))
    }
}

/// The letter of an entity with a name.
fn named(name: &str) -> Option<char> {
    match name {
        "amp" => Some('&'),
        "lt" => Some('<'),
        "gt" => Some('>'),
        "quot" => Some('"'),
        "apos" => Some('\''),
        _ => None,
    }
}

/// The letter of an entity with a number.
fn numbered(name: &str) -> Option<char> {
    let digits = name.strip_prefix('#')?;
    let (digits, base) = match digits.strip_prefix('x') {
        Some(digits) => (digits, 16),
        None => (digits, 10),
    };
    let plain = digits.chars().all(|digit| digit.is_digit(base));
    let number = u32::from_str_radix(digits, base).ok().filter(|_| plain)?;
    char::from_u32(number).filter(|&letter| is_letter(letter))
}

/// The text, of which every letter must be one that a text may have.
fn checked(text: String) -> Result<String, String> {
    match text.chars().all(is_letter) {
        true => Ok(text),
        false => Err("a letter that no text may have".into()),
    }
}

/// Whether the node is a text of no letters.
fn is_empty(node: &Node) -> bool {
    matches!(node, Node::Text(text) if text.is_empty())
}

/// Whether the letter is a blank between parts of a tag.
fn is_blank(letter: char) -> bool {
    matches!(letter, ' ' | '\t' | '\n' | '\r')
}

/// Whether a text may have the letter.
fn is_letter(letter: char) -> bool {
    is_blank(letter) || letter >= ' ' && !matches!(letter, '\u{FFFE}' | '\u{FFFF}')
}

#[cfg(test)]
mod tests {
    use super::{parse, Element, Node};

    /// The element of this name with these attributes and this content.
    fn element(name: &str, attributes: &[(&str, &str)], content: Vec<Node>) -> Element {
        let owned = |&(name, value): &(&str, &str)| (name.to_string(), value.to_string());
        Element {
            name: name.into(),
            attributes: attributes.iter().map(owned).collect(),
            content,
        }
    }

    /// A text in an element.
    fn text(text: &str) -> Node {
        Node::Text(text.into())
    }

    #[test]
    fn good_texts() {
        let inner = element("b", &[("x", "1"), ("y", "a 'b'")], vec![]);
        let whole = "<a>one<b x='1' y = \"a 'b'\"/>two</a>";
        let content = vec![text("one"), Node::Element(inner), text("two")];
        assert_eq!(parse(whole), Ok(element("a", &[], content)));
        for (good, inside) in [
            ("<a/>", ""),
            ("<a></a>", ""),
            (" \n<!-- before --><a >text</a > <!-- behind -->\n", "text"),
            ("<a><!-- - --></a>", ""),
            ("<a>x<!-- apart -->y</a>", "xy"),
            ("<a>&lt;&gt;&amp;&quot;&apos;</a>", "<>&\"'"),
            ("<a>&#65;&#x42;&#x1F404; ></a>", "AB\u{1F404} >"),
            ("<a>0 -> 1</a>", "0 -> 1"),
        ] {
            let read = parse(good).unwrap_or_else(|wrong| panic!("{good}: {wrong}"));
            assert_eq!(read.text(), inside, "{good}");
            assert!(read.content.len() <= 1, "{good}");
        }
    }

    #[test]
    fn parts_of_good_texts() {
        let read = parse("<a><b k='&lt;&#9;\n&amp;'><c/>x</b><c>y</c></a>").expect("a good text");
        let names: Vec<&str> = read.all().iter().map(|one| one.name.as_str()).collect();
        assert_eq!(names, ["a", "b", "c", "c"]);
        assert_eq!(read.elements().count(), 2);
        let first = read.elements().next().expect("an element");
        assert_eq!(first.attribute("k"), Some("<\t &"));
        assert_eq!(first.attribute("l"), None);
        assert_eq!((first.text(), read.text()), ("x".into(), String::new()));
    }

    /// Texts that are refused, and what is said about each.
    const BAD: [(&str, &str); 37] = [
        ("", "no root"),
        ("text", "no root"),
        ("<!-- alone -->", "no root"),
        ("<a/>text", "text outside the root"),
        ("text<a/>", "no root"),
        ("<a/><b/>", "something behind the root"),
        ("<a></b>", "</b> ends <a>"),
        ("<a><b></a></b>", "</a> ends <b>"),
        ("<a>", "no \"<\""),
        ("<a", "no blank before"),
        ("<a b", "no \"=\""),
        ("<a b=1/>", "without quotes"),
        ("<a b='1/>", "no \"&\""),
        ("<a b='1'c='2'/>", "no blank before"),
        ("<a b='1' b='2'/>", "twice"),
        ("<a b='<'/>", "no \"&\""),
        ("<a b='x & y'/>", "begins no entity"),
        ("<a b='x & y;'/>", "no entity \" y\""),
        ("<a>x & y</a>", "begins no entity"),
        ("<a>x < y</a>", "no name"),
        ("<a>&nbsp;</a>", "no entity \"nbsp\""),
        ("<a>&#0;</a>", "no entity"),
        ("<a>&#xD800;</a>", "no entity"),
        ("<a>&#+65;</a>", "no entity"),
        ("<a>&#;</a>", "no entity"),
        ("<a>]]></a>", "]]>"),
        ("<a>\u{1}</a>", "no text may have"),
        ("<a b='\u{0}'/>", "no text may have"),
        ("<!-- \u{2} --><a/>", "no text may have"),
        ("<1a/>", "no name"),
        ("< a/>", "no name"),
        ("<a/ >", "no \">\""),
        ("<a><!-- - -- --></a>", "no \"-->\""),
        ("<a><!-- </a>", "without an end"),
        ("<?xml version='1.0'?><a/>", "no name"),
        ("<!DOCTYPE a><a/>", "no name"),
        ("<a><![CDATA[x]]></a>", "no name"),
    ];

    #[test]
    fn bad_texts() {
        for (bad, wrong) in BAD {
            let refused = parse(bad).expect_err(bad);
            assert!(refused.contains(wrong), "{bad}: {refused}");
        }
    }
}
