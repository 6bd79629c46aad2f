//! Reads the page of an SVG picture: whether it is well formed, and what stands where.

pub mod cases;

use std::collections::BTreeMap;

/// A picture's page.
pub struct Page {
    /// The page's own edges.
    pub edges: Frame,
    /// All elements, in their order.
    pub elements: Vec<Element>,
}

/// An element, with what it has from the elements around it.
#[derive(Clone, Debug, Default)]
pub struct Element {
    pub name: String,
    pub attributes: BTreeMap<String, String>,
    pub words: String,
    /// The names of the elements around it, the root first.
    pub around: Vec<String>,
    /// Where it stands, if it is drawn.
    pub frame: Option<Frame>,
}

/// A rectangle on the page.
#[derive(Clone, Copy, Debug, PartialEq)]
pub struct Frame {
    pub left: f64,
    pub top: f64,
    pub right: f64,
    pub bottom: f64,
}

impl Frame {
    pub fn width(&self) -> f64 {
        self.right - self.left
    }

    pub fn height(&self) -> f64 {
        self.bottom - self.top
    }

    pub fn area(&self) -> f64 {
        self.width() * self.height()
    }

    /// The area that two rectangles share.
    pub fn shared_area(&self, other: &Frame) -> f64 {
        let across = self.right.min(other.right) - self.left.max(other.left);
        let down = self.bottom.min(other.bottom) - self.top.max(other.top);
        across.max(0.0) * down.max(0.0)
    }

    pub fn is_within(&self, other: &Frame) -> bool {
        self.left >= other.left && self.right <= other.right && self.top >= other.top && self.bottom <= other.bottom
    }

    /// Whether a point lies inside.
    pub fn holds(&self, (x, y): Point) -> bool {
        x > self.left && x < self.right && y > self.top && y < self.bottom
    }

    pub fn middle(&self) -> Point {
        ((self.left + self.right) / 2.0, (self.top + self.bottom) / 2.0)
    }

    /// The rectangle made larger on all sides by some room.
    pub fn wider(&self, room: f64) -> Frame {
        Frame { left: self.left - room, top: self.top - room, right: self.right + room, bottom: self.bottom + room }
    }

    /// The least rectangle that holds some points. None if there are none.
    fn around(points: impl Iterator<Item = Point>) -> Option<Frame> {
        let frame = |(x, y): Point| Frame { left: x, top: y, right: x, bottom: y };
        points.map(frame).reduce(|one, other| Frame {
            left: one.left.min(other.left),
            top: one.top.min(other.top),
            right: one.right.max(other.right),
            bottom: one.bottom.max(other.bottom),
        })
    }

    fn moved(self, (x, y): Point) -> Frame {
        Frame { left: self.left + x, top: self.top + y, right: self.right + x, bottom: self.bottom + y }
    }
}

/// A point on the page: how far right and how far down.
pub type Point = (f64, f64);

/// A straight line on the page.
#[derive(Clone, Copy, Debug, PartialEq)]
pub struct Stroke {
    pub from: Point,
    pub to: Point,
}

impl Stroke {
    /// The rectangle around it.
    pub fn frame(&self) -> Frame {
        Frame::around([self.from, self.to].into_iter()).expect("there are two points")
    }

    fn moved(self, by: Point) -> Stroke {
        let moved = |(x, y): Point| (x + by.0, y + by.1);
        Stroke { from: moved(self.from), to: moved(self.to) }
    }
}

impl Page {
    /// Reads a picture; panics if it is not well formed.
    pub fn read(picture: &str) -> Page {
        let mut reader = Reader::default();
        for piece in picture.trim_end().split_inclusive('>') {
            let (words, tag) = piece.split_once('<').expect("a tag starts before it ends");
            reader.words(words);
            reader.tag(tag.strip_suffix('>').expect("a tag ends"));
        }
        assert!(reader.open.is_empty(), "{:?} stay open", reader.open);
        let mut elements = reader.elements;
        elements.iter_mut().for_each(|element| element.frame = element.frame());
        let sides: Vec<f64> = numbers(&elements[0].attributes["viewBox"]);
        Page { edges: Frame { left: sides[0], top: sides[1], right: sides[2], bottom: sides[3] }, elements }
    }

    /// All that is drawn, with where it stands.
    pub fn drawn(&self) -> impl Iterator<Item = (&Element, Frame)> {
        self.elements.iter().filter_map(|element| Some((element, element.frame?)))
    }

    /// All text with where it stands.
    pub fn texts(&self) -> Vec<(&str, Frame)> {
        let texts = self.drawn().filter(|(element, _)| element.name == "text");
        texts.map(|(element, frame)| (element.words.as_str(), frame)).collect()
    }

    /// The text that says something.
    pub fn text(&self, words: &str) -> Option<Frame> {
        self.texts().iter().find(|(said, _)| *said == words).map(|&(_, frame)| frame)
    }
}

/// Elements being read.
#[derive(Default)]
struct Reader {
    elements: Vec<Element>,
    /// The indices of the elements that are open, the root first.
    open: Vec<usize>,
}

impl Reader {
    /// Words between tags belong to the element that is open.
    fn words(&mut self, words: &str) {
        if let Some(&open) = self.open.last() {
            self.elements[open].words += &unescaped(words.trim_matches('\n'));
        } else {
            assert_eq!(words.trim(), "", "words outside the root");
        }
    }

    fn tag(&mut self, tag: &str) {
        if let Some(name) = tag.strip_prefix('/') {
            let closed = self.open.pop().map(|open| self.elements[open].name.clone());
            assert_eq!(closed.as_deref(), Some(name));
            return;
        }
        assert!(self.elements.is_empty() || !self.open.is_empty(), "<{tag}> outside the root");
        let (tag, is_whole) = tag.strip_suffix('/').map_or((tag, false), |tag| (tag, true));
        let (name, attributes) = tag.split_once(' ').unwrap_or((tag, ""));
        let mut element = self.open.last().map_or(Element::default(), |&open| self.elements[open].inherited());
        element.name = name.to_string();
        element.attributes.extend(read_attributes(attributes));
        if !is_whole {
            self.open.push(self.elements.len());
        }
        self.elements.push(element);
    }
}

/// The attributes of a tag, each with its value in quotation marks.
fn read_attributes(text: &str) -> BTreeMap<String, String> {
    let pieces: Vec<&str> = text.split('"').collect();
    let pairs = pieces.chunks_exact(2).map(|pair| {
        let name = pair[0].trim().strip_suffix('=').expect("a value follows a name");
        (name.to_string(), unescaped(pair[1]))
    });
    let attributes: BTreeMap<String, String> = pairs.collect();
    assert_eq!(attributes.len(), pieces.len() / 2, "an attribute stands twice in {text}");
    assert_eq!(pieces.last().map(|rest| rest.trim()), Some(""), "{text}");
    attributes
}

/// Text without escapes; panics where a sign that needs one lacks it.
fn unescaped(text: &str) -> String {
    let bare = text.replace("&lt;", "").replace("&gt;", "").replace("&amp;", "");
    assert!(!bare.contains(['&', '<', '>']), "{text}");
    text.replace("&lt;", "<").replace("&gt;", ">").replace("&amp;", "&")
}

impl Element {
    /// What an element within this one has from it.
    fn inherited(&self) -> Element {
        let passed = |name: &String| ["font-size", "font-weight", "text-anchor", "transform"].contains(&name.as_str());
        let attributes = self.attributes.clone().into_iter().filter(|(name, _)| passed(name)).collect();
        let around = [self.around.as_slice(), std::slice::from_ref(&self.name)].concat();
        Element { attributes, around, ..Element::default() }
    }

    fn number(&self, name: &str) -> f64 {
        self.attributes.get(name).map_or(0.0, |value| value.parse().expect("a number"))
    }

    fn frame(&self) -> Option<Frame> {
        if self.around.iter().any(|name| name == "defs") {
            return None;
        }
        let frame = match self.name.as_str() {
            "text" => self.text_frame(),
            "rect" => self.rect_frame(),
            "path" => return Frame::around(self.strokes().iter().flat_map(|stroke| [stroke.from, stroke.to])),
            _ => return None,
        };
        Some(frame.moved(self.moved()))
    }

    /// How far it is moved by the elements around it.
    fn moved(&self) -> Point {
        let moved = self.attributes.get("transform").map_or(vec![0.0, 0.0], |transform| numbers(transform));
        (moved[0], moved[1])
    }

    /// The lines of a path.
    pub fn strokes(&self) -> Vec<Stroke> {
        strokes(&self.attributes["d"]).into_iter().map(|stroke| stroke.moved(self.moved())).collect()
    }

    fn rect_frame(&self) -> Frame {
        let (left, top) = (self.number("x"), self.number("y"));
        Frame { left, top, right: left + self.number("width"), bottom: top + self.number("height") }
    }

    /// Text as it stands in a wide font: 0.64 em for a character, 0.7 em for a bold one; 0.75 em above its line.
    fn text_frame(&self) -> Frame {
        let (x, y, size) = (self.number("x"), self.number("y"), self.number("font-size"));
        let em = if self.attributes.contains_key("font-weight") { 0.7 } else { 0.64 };
        let width = em * size * self.words.chars().count() as f64;
        let left = match self.attributes.get("text-anchor").map(String::as_str) {
            Some("middle") => x - width / 2.0,
            Some("end") => x - width,
            _ => x,
        };
        Frame { left, top: y - 0.75 * size, right: left + width, bottom: y }
    }
}

/// The numbers in a text.
fn numbers(text: &str) -> Vec<f64> {
    let words = text.split(|sign: char| !(sign.is_ascii_digit() || "-.".contains(sign)));
    words.filter(|word| !word.is_empty()).map(|word| word.parse().expect("a number")).collect()
}

/// The lines of a path.
fn strokes(path: &str) -> Vec<Stroke> {
    let (mut x, mut y, mut start) = (0.0, 0.0, (0.0, 0.0));
    let mut strokes = Vec::new();
    let starts: Vec<usize> = path.match_indices(|sign: char| sign.is_ascii_alphabetic()).map(|(at, _)| at).collect();
    for (index, &at) in starts.iter().enumerate() {
        let end = starts.get(index + 1).copied().unwrap_or(path.len());
        let (from, steps) = ((x, y), numbers(&path[at + 1..end]));
        match (&path[at..=at], steps.as_slice()) {
            ("M" | "L", &[to_x, to_y]) => (x, y) = (to_x, to_y),
            ("m" | "l", &[by_x, by_y]) => (x, y) = (x + by_x, y + by_y),
            ("H", &[to]) => x = to,
            ("V", &[to]) => y = to,
            ("h", &[by]) => x += by,
            ("v", &[by]) => y += by,
            ("z", &[]) => (x, y) = start,
            (command, steps) => panic!("{command} {steps:?}"),
        }
        if path[at..=at].eq_ignore_ascii_case("m") {
            start = (x, y);
        } else {
            strokes.push(Stroke { from, to: (x, y) });
        }
    }
    strokes
}
