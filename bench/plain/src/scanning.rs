//! Reads the features of GeoJSON into a map straight from its bytes, by a parser of its own and without
//! a JSON value.

use crate::map::{Feature, Form, Id, Kind, Map, Pos};
use serde_json::Value;
use std::ops::Range;

/// Puts the features of a GeoJSON text into a layer.
pub fn scan(map: &mut Map, layer: &str, bytes: &[u8]) {
    let mut features = map.layers.remove(layer).unwrap_or_default();
    let mut text = Scanner { bytes, at: 0 };
    match text.type_ahead() {
        b"\"FeatureCollection\"" => map.scan_collection(&mut text, &mut features),
        b"\"Feature\"" => features.push(map.scan_feature(&mut text)),
        _ => {
            let (kind, parts) = map.scan_geometry(&mut text);
            let props = "{}".to_string();
            features.push(Feature {
                id: Id::None,
                props,
                kind,
                parts,
            });
        }
    }
    map.layers.insert(layer.to_string(), features);
}

/// A JSON text, and the place up to which it is read.
struct Scanner<'a> {
    bytes: &'a [u8],
    at: usize,
}

impl<'a> Scanner<'a> {
    /// The next byte that is no blank; 0 at the end.
    #[inline]
    fn peek(&mut self) -> u8 {
        loop {
            match self.bytes.get(self.at) {
                Some(b' ' | b'\n' | b'\r' | b'\t') => self.at += 1,
                Some(&byte) => return byte,
                None => return 0,
            }
        }
    }

    #[inline]
    fn eat(&mut self, byte: u8) {
        assert!(self.peek() == byte, "{} at {}", byte as char, self.at);
        self.at += 1;
    }

    /// Whether an item or a member follows, after so many others, of what ends with `close`.
    #[inline]
    fn more(&mut self, others: usize, close: u8) -> bool {
        if self.peek() == close {
            self.at += 1;
            return false;
        }
        if others > 0 {
            self.eat(b',');
        }
        true
    }

    /// A string as it is spelled, with its quotes.
    fn string(&mut self) -> &'a [u8] {
        let start = self.at;
        self.eat(b'"');
        loop {
            match self.bytes[self.at] {
                b'"' => break,
                b'\\' => self.at += 2,
                _ => self.at += 1,
            }
        }
        self.at += 1;
        let spelled = &self.bytes[start..self.at];
        let blanks = spelled.iter().take_while(|&&byte| byte != b'"').count();
        &spelled[blanks..]
    }

    fn key(&mut self) -> &'a [u8] {
        let key = self.string();
        self.eat(b':');
        key
    }

    #[inline]
    fn number(&mut self) -> i64 {
        let is_negative = self.peek() == b'-';
        self.at += is_negative as usize;
        let mut number: i64 = 0;
        while let Some(digit @ b'0'..=b'9') = self.bytes.get(self.at) {
            // negative, as there is one more of these
            number = number.wrapping_mul(10).wrapping_sub((digit - b'0') as i64);
            self.at += 1;
        }
        if is_negative {
            number
        } else {
            number.wrapping_neg()
        }
    }

    /// Passes over a value, and answers its bytes.
    fn skip(&mut self) -> &'a [u8] {
        self.peek();
        let start = self.at;
        let mut depth = 0;
        loop {
            match self.peek() {
                b'"' => {
                    self.string();
                }
                b'{' | b'[' => {
                    depth += 1;
                    self.at += 1;
                }
                b'}' | b']' => {
                    depth -= 1;
                    self.at += 1;
                }
                _ => self.skip_word(),
            }
            if depth == 0 {
                return &self.bytes[start..self.at];
            }
        }
    }

    /// Passes over a comma, a colon, a number or a name, up to a quote, a bracket or a blank, or over as
    /// much as stands before the comma, where it is no comma itself.
    fn skip_word(&mut self) {
        self.at += 1;
        while let Some(byte) = self.bytes.get(self.at) {
            match byte {
                b',' | b'"' | b'{' | b'}' | b'[' | b']' | b' ' | b'\n' | b'\r' | b'\t' => break,
                _ => self.at += 1,
            }
        }
    }

    /// The type of the object that follows, as it is spelled; nothing of it is read.
    fn type_ahead(&mut self) -> &'a [u8] {
        self.peek();
        let start = self.at;
        self.eat(b'{');
        let mut members = 0;
        while self.more(members, b'}') {
            if self.key() == b"\"type\"" {
                let spelled = self.skip();
                self.at = start;
                return spelled;
            }
            self.skip();
            members += 1;
        }
        panic!("a type is missing");
    }

    fn id(&mut self) -> Id {
        match self.peek() {
            b'n' => {
                self.skip();
                Id::None
            }
            b'"' => Id::Text(serde_json::from_slice(self.string()).expect("a string")),
            _ => Id::Number(self.number()),
        }
    }

    /// The compact text of an object, with its members sorted.
    fn properties(&mut self) -> String {
        let spelled = self.skip();
        if spelled == b"null" {
            return "{}".to_string();
        }
        if is_plain(spelled) {
            return std::str::from_utf8(spelled).expect("UTF-8").to_string();
        }
        let value: Value = serde_json::from_slice(spelled).expect("properties");
        value.to_string()
    }
}

/// Whether an object is compact, without escapes and lists, sorted, and its numbers are whole and short.
fn is_plain(object: &[u8]) -> bool {
    if object == b"{}" {
        return true;
    }
    let mut text = Scanner {
        bytes: object,
        at: 1,
    };
    let mut before: &[u8] = b"";
    loop {
        let key = match plain_string(&mut text) {
            Some(key) if before.is_empty() || before < key => key,
            _ => return false,
        };
        if object.get(text.at) != Some(&b':') {
            return false;
        }
        text.at += 1;
        if !skip_plain(&mut text) {
            return false;
        }
        text.at += 1;
        match object[text.at - 1] {
            b',' => before = key,
            last => return last == b'}',
        }
    }
}

/// What stands between quotes, up to the latter one.
fn plain_string<'a>(text: &mut Scanner<'a>) -> Option<&'a [u8]> {
    if text.bytes[text.at] != b'"' {
        return None;
    }
    let start = text.at + 1;
    text.at = start;
    while !matches!(text.bytes[text.at], b'"' | b'\\') {
        text.at += 1;
    }
    text.at += 1;
    Some(&text.bytes[start..text.at - 1]).filter(|_| text.bytes[text.at - 1] == b'"')
}

/// Passes over a string, a short whole number or a name.
fn skip_plain(text: &mut Scanner) -> bool {
    let start = text.at;
    match text.bytes[start] {
        b'"' => plain_string(text).is_some(),
        b'-' | b'0'..=b'9' => {
            text.at += 1;
            while text.bytes[text.at].is_ascii_digit() {
                text.at += 1;
            }
            text.at - start < 16 && text.bytes[start..text.at] != *b"-0"
        }
        b't' | b'f' | b'n' => {
            text.skip_word();
            true
        }
        _ => false,
    }
}

fn kind_of(spelled: &[u8]) -> Kind {
    match spelled {
        b"\"Point\"" => Kind::Point,
        b"\"MultiPoint\"" => Kind::MultiPoint,
        b"\"LineString\"" => Kind::Line,
        b"\"MultiLineString\"" => Kind::MultiLine,
        b"\"Polygon\"" => Kind::Polygon,
        b"\"MultiPolygon\"" => Kind::MultiPolygon,
        _ => panic!("unknown type {}", String::from_utf8_lossy(spelled)),
    }
}

impl Map {
    fn scan_collection(&mut self, text: &mut Scanner, features: &mut Vec<Feature>) {
        text.eat(b'{');
        let mut members = 0;
        while text.more(members, b'}') {
            if text.key() == b"\"features\"" {
                text.eat(b'[');
                let mut count = 0;
                while text.more(count, b']') {
                    features.push(self.scan_feature(text));
                    count += 1;
                }
            } else {
                text.skip();
            }
            members += 1;
        }
    }

    fn scan_feature(&mut self, text: &mut Scanner) -> Feature {
        let mut feature = Feature {
            id: Id::None,
            props: String::new(),
            kind: Kind::Null,
            parts: 0..0,
        };
        text.eat(b'{');
        let mut members = 0;
        while text.more(members, b'}') {
            match text.key() {
                b"\"id\"" => feature.id = text.id(),
                b"\"properties\"" => feature.props = text.properties(),
                b"\"geometry\"" if text.peek() == b'{' => {
                    let (kind, parts) = self.scan_geometry(text);
                    feature.kind = kind;
                    feature.parts = parts;
                }
                _ => {
                    text.skip();
                }
            }
            members += 1;
        }
        if feature.props.is_empty() {
            feature.props.push_str("{}");
        }
        feature
    }

    fn scan_geometry(&mut self, text: &mut Scanner) -> (Kind, Range<usize>) {
        let kind = kind_of(text.type_ahead());
        let start = self.parts.len();
        text.eat(b'{');
        let mut members = 0;
        while text.more(members, b'}') {
            if text.key() == b"\"coordinates\"" {
                self.scan_content(text, kind);
            } else {
                text.skip();
            }
            members += 1;
        }
        (kind, start..self.parts.len())
    }

    fn scan_content(&mut self, text: &mut Scanner, kind: Kind) {
        let lists = self.lists.len();
        match kind {
            Kind::Null => {}
            Kind::Point => {
                let position = self.scan_position(text);
                self.positions.push(position);
                self.end_points(1);
            }
            Kind::MultiPoint => {
                let start = self.positions.len();
                text.eat(b'[');
                while text.more(self.positions.len() - start, b']') {
                    let position = self.scan_position(text);
                    self.positions.push(position);
                }
                self.end_points(self.positions.len() - start);
            }
            Kind::Line => {
                self.scan_line(text);
                self.parts.push(lists..lists + 1);
            }
            Kind::MultiLine => self.scan_part(text, Form::Line),
            Kind::Polygon => self.scan_part(text, Form::Ring),
            Kind::MultiPolygon => {
                let mut polygons = 0;
                text.eat(b'[');
                while text.more(polygons, b']') {
                    self.scan_part(text, Form::Ring);
                    polygons += 1;
                }
            }
        }
    }

    fn scan_part(&mut self, text: &mut Scanner, form: Form) {
        let lists = self.lists.len();
        text.eat(b'[');
        while text.more(self.lists.len() - lists, b']') {
            match form {
                Form::Ring => self.scan_ring(text),
                _ => self.scan_line(text),
            }
        }
        self.parts.push(lists..self.lists.len());
    }

    fn scan_line(&mut self, text: &mut Scanner) {
        let places = self.scan_positions(text);
        self.end_list(Form::Line, places);
    }

    fn scan_ring(&mut self, text: &mut Scanner) {
        self.begin_ring();
        let closed = self.scan_positions(text);
        let places = self.turn_ring(closed);
        self.end_list(Form::Ring, places);
    }

    /// Reads a list of positions, equal neighbours as one.
    fn scan_positions(&mut self, text: &mut Scanner) -> Range<usize> {
        let start = self.positions.len();
        let mut count = 0;
        text.eat(b'[');
        while text.more(count, b']') {
            let position = self.scan_position(text);
            self.push_other(start, position);
            count += 1;
        }
        start..self.positions.len()
    }

    #[inline]
    fn scan_position(&self, text: &mut Scanner) -> Pos {
        text.eat(b'[');
        let x = text.number();
        text.eat(b',');
        let y = text.number();
        text.eat(b']');
        self.grid.to_grid(x, y)
    }
}
