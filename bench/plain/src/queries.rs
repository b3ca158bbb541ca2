//! Questions to a topology: what is along arcs, which features are neighbours, and the mesh of borders.

use crate::arcs::{Table, Topology};
use crate::map::{Feature, Map, Pos};
use std::mem;
use std::ops::Range;

impl Topology {
    /// Puts the positions along arcs behind the others; of two that meet at the end of one arc and the
    /// beginning of the next, one.
    pub fn stitch(&self, map: &Map, indexes: &[i64], to: &mut Vec<Pos>) {
        to.clear();
        for &index in indexes {
            let number = if index < 0 { !index } else { index };
            let Range { start, end } = self.arcs[number as usize].places;
            let positions = &map.positions[start..end];
            let skipped = !to.is_empty() as usize;
            if index < 0 {
                to.extend(positions.iter().rev().skip(skipped));
            } else {
                to.extend_from_slice(&positions[skipped..]);
            }
        }
    }

    /// For each feature of a layer the numbers of those that share an arc with it.
    pub fn neighbors(&self, map: &Map, features: &[Feature]) -> Vec<Vec<u32>> {
        let mut uses = Vec::with_capacity(self.indexes.len());
        for (number, feature) in features.iter().enumerate() {
            for list in map.parts[feature.parts.clone()].iter().cloned().flatten() {
                for &index in self.indexes(list) {
                    let arc = if index < 0 { !index } else { index };
                    uses.push((arc as u32, number as u32));
                }
            }
        }
        uses.sort_unstable();
        uses.dedup();
        let mut lists = vec![Vec::new(); features.len()];
        let mut left = &uses[..];
        while let Some(first) = left.first() {
            let same = left.iter().take_while(|it| it.0 == first.0).count();
            for &(_, one) in &left[..same] {
                let others = left[..same].iter().map(|it| it.1);
                lists[one as usize].extend(others.filter(|&other| other != one));
            }
            left = &left[same..];
        }
        for list in &mut lists {
            list.sort_unstable();
            list.dedup();
        }
        lists
    }

    /// The arcs as lines that stop where other than two of them meet, each in its least direction,
    /// sorted: places of the map. Those that are joined of several arcs are put behind its positions.
    pub fn mesh(&self, map: &mut Map) -> Vec<Range<usize>> {
        let joints = Joints::of(self, map);
        let mut is_done = vec![false; self.arcs.len()];
        let mut lines = Vec::with_capacity(self.arcs.len());
        for number in 0..self.arcs.len() {
            let places = self.arcs[number].places.clone();
            let stops = [places.start, places.end - 1].map(|it| joints.stops(map.positions[it]));
            match stops {
                [true, true] => {
                    is_done[number] = true;
                    lines.push(places);
                }
                [true, false] if !is_done[number] => {
                    let line = joints.walk(self, map, number as i64, &mut is_done);
                    lines.push(line);
                }
                [false, true] if !is_done[number] => {
                    let line = joints.walk(self, map, !(number as i64), &mut is_done);
                    lines.push(line);
                }
                _ => {}
            }
        }
        for number in 0..self.arcs.len() {
            if !is_done[number] {
                let line = joints.walk(self, map, number as i64, &mut is_done);
                map.begin_at_least(&line);
                lines.push(line);
            }
        }
        let positions = &map.positions;
        lines.sort_unstable_by(|a, b| positions[a.clone()].cmp(&positions[b.clone()]));
        lines
    }
}

/// How many arcs end at each vertex, and which two end there where these are two: an index of the arc
/// that begins there.
struct Joints(Table<Pos, (u32, i64, i64)>);

impl Joints {
    fn of(topology: &Topology, map: &Map) -> Joints {
        let capacity = topology.arcs.len();
        let mut joints = Table::with_capacity_and_hasher(capacity, Default::default());
        for (number, arc) in topology.arcs.iter().enumerate() {
            let number = number as i64;
            for (place, index) in [(arc.places.start, number), (arc.places.end - 1, !number)] {
                let joint = joints.entry(map.positions[place]).or_insert((0, 0, 0));
                *joint = (joint.0 + 1, joint.2, index);
            }
        }
        Joints(joints)
    }

    fn stops(&self, vertex: Pos) -> bool {
        self.0[&vertex].0 != 2
    }

    /// The line that begins with an arc and goes on up to a stop, or round to its beginning, in its least
    /// direction.
    fn walk(
        &self,
        topology: &Topology,
        map: &mut Map,
        index: i64,
        done: &mut [bool],
    ) -> Range<usize> {
        let mut line = Vec::new();
        let mut part = Vec::new();
        let mut next = index;
        loop {
            let number = if next < 0 { !next } else { next } as usize;
            if mem::replace(&mut done[number], true) {
                break;
            }
            topology.stitch(map, &[next], &mut part);
            line.extend_from_slice(&part[!line.is_empty() as usize..]);
            let (count, one, other) = self.0[&line[line.len() - 1]];
            if count != 2 {
                break;
            }
            // the one of the two that isn't this arc read backwards
            next = if one == !next { other } else { one };
        }
        if line.iter().rev().lt(line.iter()) {
            line.reverse();
        }
        let start = map.positions.len();
        map.positions.append(&mut line);
        start..map.positions.len()
    }
}

impl Map {
    /// Lets a closed line begin at its least vertex, in its least direction.
    fn begin_at_least(&mut self, places: &Range<usize>) {
        let line = &mut self.positions[places.clone()];
        let last = line.len() - 1;
        let least = (0..last)
            .min_by_key(|&place| line[place])
            .expect("a vertex");
        line[..last].rotate_left(least);
        line[last] = line[0];
        if line[last - 1] < line[1] {
            line.reverse();
        }
    }
}
