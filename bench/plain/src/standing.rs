//! Reads a topology from a JSON value. Its arcs and its features are taken as they stand.

use crate::arcs::{Arc, Topology};
use crate::map::{Axis, Feature, Form, Grid, Kind, Map, Pos};
use crate::reading::{id_of, list, number, properties_of, text};
use serde_json::Value;

/// Reads a topology. Each list of the map's lines and rings has no places, but indexes in the topology.
pub fn read(mut root: Value) -> (Map, Topology) {
    let mut reader = Reader {
        map: Map::new(grid_of(&root["transform"])),
        topology: Topology {
            arcs: Vec::new(),
            indexes: Vec::new(),
            of_lists: Vec::new(),
        },
    };
    match root["arcs"].take() {
        Value::Array(arcs) => {
            reader.topology.arcs.reserve(arcs.len());
            // each is given up once it is read
            for arc in arcs {
                reader.read_arc(&arc);
            }
        }
        _ => panic!("arcs are a list"),
    }
    match root["objects"].take() {
        Value::Object(layers) => {
            for (name, mut layer) in layers {
                let geometries = match layer["geometries"].take() {
                    Value::Array(geometries) => geometries,
                    _ => panic!("geometries are a list"),
                };
                let features = geometries.into_iter().map(|it| reader.read_geometry(&it));
                let features = features.collect();
                reader.map.layers.insert(name, features);
            }
        }
        _ => panic!("objects are members"),
    }
    (reader.map, reader.topology)
}

fn grid_of(transform: &Value) -> Grid {
    let axis = |place: usize| Axis {
        scale: number(&transform["scale"][place]),
        translation: number(&transform["translate"][place]),
    };
    Grid {
        x: axis(0),
        y: axis(1),
    }
}

fn pair(value: &Value) -> Pos {
    match list(value) {
        [x, y] => Pos {
            x: number(x),
            y: number(y),
        },
        _ => panic!("a position has two elements"),
    }
}

struct Reader {
    map: Map,
    topology: Topology,
}

impl Reader {
    fn read_arc(&mut self, value: &Value) {
        let start = self.map.positions.len();
        let mut last = Pos { x: 0, y: 0 };
        for difference in list(value) {
            let difference = pair(difference);
            last = Pos {
                x: last.x + difference.x,
                y: last.y + difference.y,
            };
            self.map.positions.push(last);
        }
        let places = start..self.map.positions.len();
        let arc = Arc::standing(&self.map, self.topology.arcs.len(), places);
        self.topology.arcs.push(arc);
    }

    fn read_geometry(&mut self, value: &Value) -> Feature {
        let start = self.map.parts.len();
        let arcs = &value["arcs"];
        let kind = match &value["type"] {
            Value::Null => Kind::Null,
            name => match text(name) {
                "Point" => {
                    self.map.positions.push(pair(&value["coordinates"]));
                    self.end_points(1);
                    Kind::Point
                }
                "MultiPoint" => {
                    let points = list(&value["coordinates"]);
                    self.map.positions.extend(points.iter().map(pair));
                    self.end_points(points.len());
                    Kind::MultiPoint
                }
                "LineString" => {
                    self.read_part(std::slice::from_ref(arcs), Form::Line);
                    Kind::Line
                }
                "MultiLineString" => {
                    self.read_part(list(arcs), Form::Line);
                    Kind::MultiLine
                }
                "Polygon" => {
                    self.read_part(list(arcs), Form::Ring);
                    Kind::Polygon
                }
                "MultiPolygon" => {
                    for polygon in list(arcs) {
                        self.read_part(list(polygon), Form::Ring);
                    }
                    Kind::MultiPolygon
                }
                other => panic!("unknown type {}", other),
            },
        };
        Feature {
            id: id_of(&value["id"]),
            props: properties_of(&value["properties"]),
            kind,
            parts: start..self.map.parts.len(),
        }
    }

    fn end_points(&mut self, count: usize) {
        self.map.end_points(count);
        let end = self.topology.indexes.len();
        self.topology.of_lists.push(end..end);
    }

    fn read_part(&mut self, lists: &[Value], form: Form) {
        let start = self.map.lists.len();
        for indexes in lists {
            let begun = self.topology.indexes.len();
            self.topology
                .indexes
                .extend(list(indexes).iter().map(number));
            self.topology
                .of_lists
                .push(begun..self.topology.indexes.len());
            self.map.end_list(form, 0..0);
        }
        self.map.parts.push(start..self.map.lists.len());
    }
}
