//! The arcs of a map, and the lists of them that its lines and rings are.

use crate::map::{Form, Map, Pos};
use std::collections::HashMap;
use std::hash::{BuildHasherDefault, Hasher};
use std::ops::Range;

/// A position and the next one.
pub type Step = (Pos, Pos);

/// An arc: places from its one end to its other end, both included, to be read backwards where it is
/// reversed.
pub struct Arc {
    /// Its first two positions: no other arc has these.
    first: Step,
    found: usize,
    pub places: Range<usize>,
    pub reversed: bool,
}

pub struct Topology {
    /// The arcs in their order.
    pub arcs: Vec<Arc>,
    /// The indexes of the arcs of all lists, one list after the other.
    pub indexes: Vec<i64>,
    /// For each list its indexes.
    pub of_lists: Vec<Range<usize>>,
}

impl Arc {
    /// The arc that stands at these places, under the next number.
    pub fn standing(map: &Map, found: usize, places: Range<usize>) -> Arc {
        Arc {
            first: map.step(places.start),
            found,
            places,
            reversed: false,
        }
    }
}

/// A hash for whole numbers. The tables take their places from its low bits, and a product is mixed
/// best in its high ones.
#[derive(Default)]
pub struct Mixer(u64);

impl Hasher for Mixer {
    fn write_i64(&mut self, number: i64) {
        let mixed = self.0.rotate_left(5) ^ number as u64;
        self.0 = mixed.wrapping_mul(0x9e37_79b9_7f4a_7c15);
    }

    fn write(&mut self, _: &[u8]) {
        unreachable!("positions are hashed alone");
    }

    fn finish(&self) -> u64 {
        self.0.rotate_left(26)
    }
}

pub type Table<K, V = u32> = HashMap<K, V, BuildHasherDefault<Mixer>>;

fn narrow(number: usize) -> u32 {
    u32::try_from(number).expect("places have 32 bits")
}

impl Map {
    /// The position at a place, and the next one.
    pub fn step(&self, place: usize) -> Step {
        (self.positions[place], self.positions[place + 1])
    }

    /// Turns a ring so that it begins at the vertex that now stands at `start`.
    pub fn turn(&mut self, places: &Range<usize>, start: usize) {
        self.positions[places.clone()].rotate_left(start - places.start);
        self.positions[places.start - 1] = self.positions[places.end - 1];
        self.positions[places.end] = self.positions[places.start];
    }

    /// Whether the vertex of two places has the same two neighbours there.
    fn is_same_visit(&self, one: usize, other: usize) -> bool {
        let visit = |place: usize| (self.positions[place - 1], self.positions[place + 1]);
        let (before, behind) = visit(other);
        one == other || visit(one) == (before, behind) || visit(one) == (behind, before)
    }

    /// Tells of each place whether a junction stands there: an end of a line, or a vertex whose
    /// neighbours differ from those at the place where it was first seen.
    fn junctions(&self) -> Vec<bool> {
        let count = self.positions.len();
        let mut seen = Table::with_capacity_and_hasher(count / 2, Default::default());
        let mut firsts: Vec<u32> = (0..narrow(count)).collect();
        let mut is_junction = vec![false; count];
        for list in self.lists.iter().filter(|list| list.form != Form::Points) {
            let is_line = list.form == Form::Line;
            for place in list.places.clone() {
                let first = *seen.entry(self.positions[place]).or_insert(narrow(place));
                firsts[place] = first;
                let first = first as usize;
                let is_end =
                    is_line && (place == list.places.start || place + 1 == list.places.end);
                is_junction[first] =
                    is_junction[first] || is_end || !self.is_same_visit(first, place);
            }
        }
        for place in 0..count {
            // a first place stands before the others of its vertex
            is_junction[place] = is_junction[firsts[place] as usize];
        }
        is_junction
    }

    /// Turns each ring that has junctions so that it begins at the least of its rotations from its
    /// least junction.
    fn begin_at_junctions(&mut self, is_junction: &mut [bool]) {
        for number in 0..self.lists.len() {
            if self.lists[number].form == Form::Ring {
                let places = self.lists[number].places.clone();
                let junctions = places.clone().filter(|&place| is_junction[place]);
                if let Some(start) = junctions.min_by_key(|&place| self.step(place)) {
                    is_junction[places.clone()].rotate_left(start - places.start);
                    is_junction[places.end] = true;
                    self.turn(&places, start);
                }
            }
        }
    }
}

/// The arcs found so far, by their first two positions.
struct Finder {
    numbers: Table<Step>,
    arcs: Vec<Arc>,
}

impl Finder {
    /// The index of the arc that runs over these places, by the number under which it was found.
    fn index(&mut self, map: &Map, places: Range<usize>) -> i64 {
        let ahead = map.step(places.start);
        let back = (map.positions[places.end - 1], map.positions[places.end - 2]);
        let (first, reversed) = if back < ahead {
            (back, true)
        } else {
            (ahead, false)
        };
        let arcs = &mut self.arcs;
        let number = *self.numbers.entry(first).or_insert_with(|| {
            let found = arcs.len();
            arcs.push(Arc {
                first,
                found,
                places,
                reversed,
            });
            narrow(found)
        });
        index_of(number as usize, reversed)
    }
}

fn index_of(number: usize, reversed: bool) -> i64 {
    if reversed {
        !(number as i64)
    } else {
        number as i64
    }
}

impl Topology {
    pub fn of(map: &mut Map) -> Topology {
        let mut is_junction = map.junctions();
        map.begin_at_junctions(&mut is_junction);
        let mut finder = Finder {
            numbers: Table::default(),
            arcs: Vec::new(),
        };
        let mut indexes = Vec::new();
        let mut of_lists = Vec::with_capacity(map.lists.len());
        for list in &map.lists {
            let begun = indexes.len();
            if list.form != Form::Points {
                let last = list.places.end - if list.form == Form::Line { 1 } else { 0 };
                let mut start = list.places.start;
                let cuts = (start + 1..=last).filter(|&place| is_junction[place] || place == last);
                for place in cuts {
                    indexes.push(finder.index(map, start..place + 1));
                    start = place;
                }
            }
            of_lists.push(begun..indexes.len());
        }
        let mut topology = Topology {
            arcs: finder.arcs,
            indexes,
            of_lists,
        };
        topology.sort_arcs();
        topology
    }

    /// Sorts the arcs, and puts their new numbers into all lists.
    fn sort_arcs(&mut self) {
        self.arcs.sort_unstable_by_key(|arc| arc.first);
        let mut numbers = vec![0; self.arcs.len()];
        for (number, arc) in self.arcs.iter().enumerate() {
            numbers[arc.found] = number as i64;
        }
        for index in &mut self.indexes {
            *index = if *index < 0 {
                !numbers[!*index as usize]
            } else {
                numbers[*index as usize]
            };
        }
    }

    /// The indexes of the arcs that a list is made of.
    pub fn indexes(&self, list: usize) -> &[i64] {
        &self.indexes[self.of_lists[list].clone()]
    }
}
