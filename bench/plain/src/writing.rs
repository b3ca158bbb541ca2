//! The canonical text of a topology.

use crate::arcs::{Arc, Topology};
use crate::map::{Feature, Form, Id, Kind, Map, Pos};
use std::ops::Range;

struct Text(Vec<u8>);

/// The text of a layer's features as GeoJSON.
pub fn layer_text(map: &Map, topology: &Topology, features: &[Feature]) -> Vec<u8> {
    let mut text = Text(Vec::new());
    let mut stitched = Vec::new();
    text.put("{\"features\":[");
    for (place, feature) in features.iter().enumerate() {
        text.put(if place > 0 { "," } else { "" });
        text.feature(map, topology, feature, &mut stitched);
    }
    text.put("],\"type\":\"FeatureCollection\"}");
    text.0
}

/// The text of lines as a GeoJSON MultiLineString.
pub fn mesh_text(map: &Map, lines: &[Range<usize>]) -> Vec<u8> {
    let mut text = Text(Vec::new());
    text.put("{\"coordinates\":");
    text.list(lines, |text, line| {
        text.absolutes(map, &map.positions[line.clone()])
    });
    text.put(",\"type\":\"MultiLineString\"}");
    text.0
}

/// The text of lists of numbers.
pub fn lists_text(lists: &[Vec<u32>]) -> Vec<u8> {
    let mut text = Text(Vec::new());
    text.list(lists, |text, list| {
        text.list(list, |text, &number| text.number(number as i64))
    });
    text.0
}

pub fn text_of(map: &Map, topology: &Topology) -> Vec<u8> {
    let mut text = Text(Vec::new());
    text.put("{\"arcs\":");
    text.list(&topology.arcs, |text, arc| text.arc(map, arc));
    text.put(",");
    text.bbox(map);
    text.put("\"objects\":{");
    for (place, (name, features)) in map.layers.iter().enumerate() {
        text.put(if place > 0 { "," } else { "" });
        text.spelled(name);
        text.put(":{\"geometries\":");
        text.list(features, |text, feature| {
            text.geometry(map, topology, feature)
        });
        text.put(",\"type\":\"GeometryCollection\"}");
    }
    let (x, y) = (&map.grid.x, &map.grid.y);
    text.put("},\"transform\":{\"scale\":");
    text.pair(x.scale, y.scale);
    text.put(",\"translate\":");
    text.pair(x.translation, y.translation);
    text.put("},\"type\":\"Topology\"}");
    text.0
}

fn type_of(kind: Kind) -> &'static str {
    match kind {
        Kind::Null => "null",
        Kind::Point => "\"Point\"",
        Kind::MultiPoint => "\"MultiPoint\"",
        Kind::Line => "\"LineString\"",
        Kind::MultiLine => "\"MultiLineString\"",
        Kind::Polygon => "\"Polygon\"",
        Kind::MultiPolygon => "\"MultiPolygon\"",
    }
}

impl Text {
    fn put(&mut self, text: &str) {
        self.0.extend_from_slice(text.as_bytes());
    }

    fn number(&mut self, number: i64) {
        self.put(itoa::Buffer::new().format(number));
    }

    fn spelled(&mut self, text: &str) {
        serde_json::to_writer(&mut self.0, text).expect("a list takes all bytes");
    }

    fn pair(&mut self, x: i64, y: i64) {
        self.put("[");
        self.number(x);
        self.put(",");
        self.number(y);
        self.put("]");
    }

    fn list<T>(&mut self, items: impl IntoIterator<Item = T>, each: impl Fn(&mut Text, T)) {
        self.put("[");
        for (place, item) in items.into_iter().enumerate() {
            if place > 0 {
                self.put(",");
            }
            each(self, item);
        }
        self.put("]");
    }

    fn arc(&mut self, map: &Map, arc: &Arc) {
        let positions = &map.positions[arc.places.clone()];
        if arc.reversed {
            self.differences(positions.iter().rev());
        } else {
            self.differences(positions.iter());
        }
    }

    /// The first position as it is, each later one as the difference from the one before.
    fn differences<'a>(&mut self, positions: impl Iterator<Item = &'a Pos>) {
        let mut before = Pos { x: 0, y: 0 };
        self.put("[");
        for (place, &position) in positions.enumerate() {
            if place > 0 {
                self.put(",");
            }
            self.pair(position.x - before.x, position.y - before.y);
            before = position;
        }
        self.put("]");
    }

    fn bbox(&mut self, map: &Map) {
        let (x, y) = (&map.grid.x, &map.grid.y);
        let mut positions = map.positions.iter();
        if let Some(&first) = positions.next() {
            let (mut least, mut greatest) = (first, first);
            for position in positions {
                least = Pos {
                    x: least.x.min(position.x),
                    y: least.y.min(position.y),
                };
                greatest = Pos {
                    x: greatest.x.max(position.x),
                    y: greatest.y.max(position.y),
                };
            }
            let numbers = [
                x.to_absolute(least.x),
                y.to_absolute(least.y),
                x.to_absolute(greatest.x),
                y.to_absolute(greatest.y),
            ];
            self.put("\"bbox\":");
            self.list(numbers, Text::number);
            self.put(",");
        }
    }

    fn geometry(&mut self, map: &Map, topology: &Topology, feature: &Feature) {
        self.put("{");
        self.content(map, topology, feature);
        self.id(&feature.id);
        if feature.props != "{}" {
            self.put("\"properties\":");
            self.put(&feature.props);
            self.put(",");
        }
        self.put("\"type\":");
        self.put(type_of(feature.kind));
        self.put("}");
    }

    fn content(&mut self, map: &Map, topology: &Topology, feature: &Feature) {
        let parts = &map.parts[feature.parts.clone()];
        let positions = |part: &Range<usize>| map.positions_of(&map.lists[part.start]);
        let line = |text: &mut Text, list: usize| {
            text.list(topology.indexes(list), |text, &index| text.number(index))
        };
        let lines = |text: &mut Text, part: &Range<usize>| text.list(part.clone(), line);
        match feature.kind {
            Kind::Null => return,
            Kind::Point | Kind::MultiPoint => self.put("\"coordinates\":"),
            _ => self.put("\"arcs\":"),
        }
        match feature.kind {
            Kind::Null => {}
            Kind::Point => {
                let position = positions(&parts[0])[0];
                self.pair(position.x, position.y);
            }
            Kind::MultiPoint => self.list(positions(&parts[0]), |text, position| {
                text.pair(position.x, position.y)
            }),
            Kind::Line => line(self, parts[0].start),
            Kind::MultiLine | Kind::Polygon => lines(self, &parts[0]),
            Kind::MultiPolygon => self.list(parts, lines),
        }
        self.put(",");
    }

    fn id(&mut self, id: &Id) {
        match id {
            Id::None => {}
            Id::Number(number) => {
                self.put("\"id\":");
                self.number(*number);
                self.put(",");
            }
            Id::Text(text) => {
                self.put("\"id\":");
                self.spelled(text);
                self.put(",");
            }
        }
    }

    fn absolutes(&mut self, map: &Map, positions: &[Pos]) {
        self.list(positions, |text, &position| text.absolute(map, position));
    }

    fn absolute(&mut self, map: &Map, position: Pos) {
        let Pos { x, y } = map.grid.to_absolute(position);
        self.pair(x, y);
    }

    fn feature(
        &mut self,
        map: &Map,
        topology: &Topology,
        feature: &Feature,
        stitched: &mut Vec<Pos>,
    ) {
        self.put("{\"geometry\":");
        if feature.kind == Kind::Null {
            self.put("null,");
        } else {
            self.put("{\"coordinates\":");
            self.coordinates(map, topology, feature, stitched);
            self.put(",\"type\":");
            self.put(type_of(feature.kind));
            self.put("},");
        }
        self.id(&feature.id);
        self.put("\"properties\":");
        self.put(&feature.props);
        self.put(",\"type\":\"Feature\"}");
    }

    fn coordinates(
        &mut self,
        map: &Map,
        topology: &Topology,
        feature: &Feature,
        stitched: &mut Vec<Pos>,
    ) {
        let parts = &map.parts[feature.parts.clone()];
        let first = parts.first().cloned().unwrap_or(0..0);
        match feature.kind {
            Kind::Null => {}
            Kind::Point => self.absolute(map, map.positions_of(&map.lists[first.start])[0]),
            Kind::MultiPoint => self.absolutes(map, map.positions_of(&map.lists[first.start])),
            Kind::Line => self.stitched(map, topology, first.start, stitched),
            Kind::MultiLine | Kind::Polygon => self.all_stitched(map, topology, first, stitched),
            Kind::MultiPolygon => {
                self.put("[");
                for (place, part) in parts.iter().enumerate() {
                    self.put(if place > 0 { "," } else { "" });
                    self.all_stitched(map, topology, part.clone(), stitched);
                }
                self.put("]");
            }
        }
    }

    fn all_stitched(
        &mut self,
        map: &Map,
        topology: &Topology,
        lists: Range<usize>,
        stitched: &mut Vec<Pos>,
    ) {
        self.put("[");
        for list in lists.clone() {
            self.put(if list > lists.start { "," } else { "" });
            self.stitched(map, topology, list, stitched);
        }
        self.put("]");
    }

    /// The positions along a list's arcs, a ring's from its least rotation.
    fn stitched(&mut self, map: &Map, topology: &Topology, list: usize, stitched: &mut Vec<Pos>) {
        topology.stitch(map, topology.indexes(list), stitched);
        if map.lists[list].form == Form::Ring {
            let last = stitched.len() - 1;
            let start = (0..last).min_by_key(|&place| (stitched[place], stitched[place + 1]));
            stitched[..last].rotate_left(start.expect("a vertex"));
            stitched[last] = stitched[0];
        }
        self.absolutes(map, stitched);
    }
}
