//! A map: layers of features, whose positions all stand in one list.

use std::cmp::Ordering;
use std::collections::BTreeMap;
use std::ops::Range;

/// A position on the grid.
#[derive(Clone, Copy, PartialEq, Eq, PartialOrd, Ord, Hash)]
pub struct Pos {
    pub x: i64,
    pub y: i64,
}

/// The transform of one element.
pub struct Axis {
    pub scale: i64,
    pub translation: i64,
}

impl Axis {
    pub fn to_grid(&self, absolute: i64) -> i64 {
        (absolute - self.translation) / self.scale
    }

    pub fn to_absolute(&self, number: i64) -> i64 {
        number * self.scale + self.translation
    }
}

pub struct Grid {
    pub x: Axis,
    pub y: Axis,
}

impl Grid {
    pub fn to_grid(&self, x: i64, y: i64) -> Pos {
        Pos {
            x: self.x.to_grid(x),
            y: self.y.to_grid(y),
        }
    }

    pub fn to_absolute(&self, position: Pos) -> Pos {
        Pos {
            x: self.x.to_absolute(position.x),
            y: self.y.to_absolute(position.y),
        }
    }
}

/// In the order of ids: none, then numbers, then texts by their bytes.
#[derive(PartialEq, Eq, PartialOrd, Ord)]
pub enum Id {
    None,
    Number(i64),
    Text(String),
}

/// The type of a shape, in the order of types.
#[derive(Clone, Copy, PartialEq, Eq, PartialOrd, Ord)]
pub enum Kind {
    Null,
    Point,
    MultiPoint,
    Line,
    MultiLine,
    Polygon,
    MultiPolygon,
}

/// A feature. Its shape is `parts` of the map's parts: none for null, one part for each polygon of a
/// MultiPolygon, and otherwise one part.
pub struct Feature {
    pub id: Id,
    /// The compact text of the properties.
    pub props: String,
    pub kind: Kind,
    pub parts: Range<usize>,
}

#[derive(Clone, Copy, PartialEq, Eq)]
pub enum Form {
    Points,
    Line,
    Ring,
}

/// The places of a list of positions. A ring's vertices begin its least rotation; its last vertex
/// stands once more before them, and its first one after them, so the neighbours of a place are
/// those before it and behind it.
pub struct List {
    pub form: Form,
    pub places: Range<usize>,
}

pub struct Map {
    pub grid: Grid,
    pub positions: Vec<Pos>,
    pub lists: Vec<List>,
    /// Numbers of lists.
    pub parts: Vec<Range<usize>>,
    pub layers: BTreeMap<String, Vec<Feature>>,
}

impl Map {
    pub fn new(grid: Grid) -> Map {
        Map {
            grid,
            positions: Vec::new(),
            lists: Vec::new(),
            parts: Vec::new(),
            layers: BTreeMap::new(),
        }
    }

    /// The last positions, so many of them, are a part of points.
    pub fn end_points(&mut self, count: usize) {
        let end = self.positions.len();
        self.end_list(Form::Points, end - count..end);
        self.parts.push(self.lists.len() - 1..self.lists.len());
    }

    pub fn end_list(&mut self, form: Form, places: Range<usize>) {
        self.lists.push(List { form, places });
    }

    /// Puts a position behind the others of the list that begins at `start`, unless it is equal to the
    /// last of them.
    #[inline]
    pub fn push_other(&mut self, start: usize, position: Pos) {
        if self.positions.len() == start || self.positions.last() != Some(&position) {
            self.positions.push(position);
        }
    }

    /// Leaves the place where a ring's last vertex comes to stand.
    pub fn begin_ring(&mut self) {
        self.positions.push(Pos { x: 0, y: 0 });
    }

    /// Turns the last positions, which are closed, to their least rotation. As no segment is used twice,
    /// the first two vertices of a rotation tell it apart.
    pub fn turn_ring(&mut self, closed: Range<usize>) -> Range<usize> {
        let places = closed.start..closed.end - 1;
        let start = places
            .clone()
            .min_by_key(|&place| self.step(place))
            .expect("a vertex");
        self.turn(&places, start);
        places
    }

    /// The positions of a list.
    pub fn positions_of(&self, list: &List) -> &[Pos] {
        &self.positions[list.places.clone()]
    }

    /// Makes a set of each layer: features in their order, each once.
    pub fn sort_features(&mut self) {
        let mut layers = std::mem::take(&mut self.layers);
        for features in layers.values_mut() {
            features.sort_unstable_by(|a, b| self.compare(a, b));
            features.dedup_by(|a, b| self.compare(a, b) == Ordering::Equal);
        }
        self.layers = layers;
    }

    fn compare(&self, a: &Feature, b: &Feature) -> Ordering {
        a.id.cmp(&b.id)
            .then_with(|| a.props.cmp(&b.props))
            .then_with(|| a.kind.cmp(&b.kind))
            .then_with(|| self.compare_shapes(a, b))
    }

    fn compare_shapes(&self, a: &Feature, b: &Feature) -> Ordering {
        let positions = |a: &List, b: &List| self.positions_of(a).cmp(self.positions_of(b));
        let lists = |a: &Range<usize>, b: &Range<usize>| {
            compare_all(&self.lists[a.clone()], &self.lists[b.clone()], positions)
        };
        compare_all(
            &self.parts[a.parts.clone()],
            &self.parts[b.parts.clone()],
            lists,
        )
    }
}

/// By the first items that differ; a beginning is less.
fn compare_all<T>(a: &[T], b: &[T], each: impl Fn(&T, &T) -> Ordering) -> Ordering {
    let differ = |(a, b)| Some(each(a, b)).filter(|&order| order != Ordering::Equal);
    a.iter()
        .zip(b)
        .find_map(differ)
        .unwrap_or_else(|| a.len().cmp(&b.len()))
}
