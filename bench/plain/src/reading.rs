//! Reads the features of a JSON value into a map.

use crate::map::{Feature, Form, Id, Kind, Map, Pos};
use serde_json::Value;
use std::ops::Range;

/// Puts the features of a GeoJSON value into a layer.
pub fn read(map: &mut Map, layer: &str, mut root: Value) {
    let mut features = map.layers.remove(layer).unwrap_or_default();
    match text(&root["type"]) {
        "FeatureCollection" => {
            let members = match root["features"].take() {
                Value::Array(members) => members,
                _ => panic!("features are a list"),
            };
            features.reserve(members.len());
            // each member is given up once it is read
            for member in members {
                features.push(map.read_feature(&member));
            }
        }
        "Feature" => features.push(map.read_feature(&root)),
        _ => features.push(map.read_geometry(&root, Id::None, "{}".to_string())),
    }
    map.layers.insert(layer.to_string(), features);
}

pub fn text(value: &Value) -> &str {
    value.as_str().expect("a text")
}

pub fn list(value: &Value) -> &[Value] {
    value.as_array().expect("a list")
}

pub fn number(value: &Value) -> i64 {
    value.as_i64().expect("a whole number")
}

pub fn id_of(value: &Value) -> Id {
    match value {
        Value::Null => Id::None,
        Value::String(text) => Id::Text(text.clone()),
        other => Id::Number(number(other)),
    }
}

/// The compact text of the properties.
pub fn properties_of(value: &Value) -> String {
    match value {
        Value::Null => "{}".to_string(),
        members => members.to_string(),
    }
}

impl Map {
    fn read_feature(&mut self, value: &Value) -> Feature {
        let id = id_of(&value["id"]);
        let props = properties_of(&value["properties"]);
        match &value["geometry"] {
            Value::Null => Feature {
                id,
                props,
                kind: Kind::Null,
                parts: 0..0,
            },
            geometry => self.read_geometry(geometry, id, props),
        }
    }

    fn read_geometry(&mut self, value: &Value, id: Id, props: String) -> Feature {
        let content = &value["coordinates"];
        let start = self.parts.len();
        let kind = match text(&value["type"]) {
            "Point" => {
                let position = self.read_position(content);
                self.positions.push(position);
                self.end_points(1);
                Kind::Point
            }
            "MultiPoint" => {
                let positions = list(content);
                for position in positions {
                    let position = self.read_position(position);
                    self.positions.push(position);
                }
                self.end_points(positions.len());
                Kind::MultiPoint
            }
            "LineString" => {
                self.read_part(std::slice::from_ref(content), Form::Line);
                Kind::Line
            }
            "MultiLineString" => {
                self.read_part(list(content), Form::Line);
                Kind::MultiLine
            }
            "Polygon" => {
                self.read_part(list(content), Form::Ring);
                Kind::Polygon
            }
            "MultiPolygon" => {
                for polygon in list(content) {
                    self.read_part(list(polygon), Form::Ring);
                }
                Kind::MultiPolygon
            }
            other => panic!("unknown type {}", other),
        };
        Feature {
            id,
            props,
            kind,
            parts: start..self.parts.len(),
        }
    }

    fn read_position(&self, value: &Value) -> Pos {
        match list(value) {
            [x, y] => self.grid.to_grid(number(x), number(y)),
            _ => panic!("a position has two elements"),
        }
    }

    fn read_part(&mut self, lists: &[Value], form: Form) {
        let start = self.lists.len();
        for list in lists {
            let places = match form {
                Form::Ring => self.read_ring(list),
                _ => self.read_line(list),
            };
            self.end_list(form, places);
        }
        self.parts.push(start..self.lists.len());
    }

    /// Reads a list of positions, equal neighbours as one.
    fn read_line(&mut self, value: &Value) -> Range<usize> {
        let start = self.positions.len();
        for position in list(value) {
            let position = self.read_position(position);
            self.push_other(start, position);
        }
        start..self.positions.len()
    }

    fn read_ring(&mut self, value: &Value) -> Range<usize> {
        self.begin_ring();
        let closed = self.read_line(value);
        self.turn_ring(closed)
    }
}
