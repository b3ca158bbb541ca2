//! Features of `noshinka`'s topologies as values of your own types, by serde, and what [`quality`](noshinka::quality()) finds. A crate
//! of its own, so that `noshinka` needs no other.
//!
//! ```
//! use noshinka::{build, Grid};
//! use noshinka_serde::{Feature, Geometry, Id, TypedFeatures};
//!
//! #[derive(serde::Deserialize)]
//! struct Town {
//!     name: String,
//!     people: Option<u64>,
//! }
//!
//! let towns = br#"{"type":"Feature","id":7,"properties":{"name":"Ulm"},"geometry":{"type":"Point","coordinates":[3,4]}}"#;
//! let map = build(Grid::WHOLE, &[("towns", towns)])?;
//! for town in map.layer("towns")?.features_as() {
//!     let town: Feature<Town> = town?;
//!     assert_eq!((town.id, town.geometry), (Some(Id::Number(7)), Some(Geometry::Point([3, 4]))));
//!     assert_eq!((town.properties.name.as_str(), town.properties.people), ("Ulm", None));
//! }
//! # Ok::<(), Box<dyn std::error::Error>>(())
//! ```
#![forbid(unsafe_code)]
#![warn(missing_docs)]

use noshinka::FeatureCollection;
use serde::Deserialize;

/// A feature, whose properties are of your own type.
#[derive(Clone, PartialEq, Eq, Debug, Deserialize)]
pub struct Feature<P> {
    /// The id, if it has one.
    #[serde(default)]
    pub id: Option<Id>,
    /// The properties.
    pub properties: P,
    /// The geometry, in whole numbers; `None` if it is null.
    pub geometry: Option<Geometry>,
}

/// An id.
#[derive(Clone, PartialEq, Eq, PartialOrd, Ord, Hash, Debug, Deserialize)]
#[serde(untagged)]
pub enum Id {
    /// A number.
    Number(i64),
    /// A text.
    Text(String),
}

/// x and y.
pub type Position = [i64; 2];

/// A geometry of GeoJSON.
#[derive(Clone, PartialEq, Eq, Debug, Deserialize)]
#[serde(tag = "type", content = "coordinates")]
pub enum Geometry {
    /// A point.
    Point(Position),
    /// Points.
    MultiPoint(Vec<Position>),
    /// A line.
    LineString(Vec<Position>),
    /// Lines.
    MultiLineString(Vec<Vec<Position>>),
    /// The outer ring, and holes.
    Polygon(Vec<Vec<Position>>),
    /// Polygons.
    MultiPolygon(Vec<Vec<Vec<Position>>>),
}

/// What [`quality`](noshinka::quality()) found.
///
/// ```
/// use noshinka::{build, quality, Grid, QualityOptions};
/// use noshinka_serde::Quality;
///
/// let map = build(Grid::WHOLE, &[("towns", br#"{"type":"MultiPoint","coordinates":[[3,4],[5,6]]}"#)])?;
/// let found = Quality::of_answer(&quality(&map, &QualityOptions { ids: true, near: 1, ..Default::default() })?)?;
/// assert!(found.canonical && !found.is_good());
/// assert_eq!(found.ids.unwrap()[0].missing, [0]);
/// assert_eq!(found.near.unwrap().count, 0);
/// # Ok::<(), Box<dyn std::error::Error>>(())
/// ```
#[derive(Clone, PartialEq, Eq, Debug, Deserialize)]
pub struct Quality {
    /// Whether the text is canonical.
    pub canonical: bool,
    /// What is wrong with the ids of each layer; `None` if they weren't asked for.
    pub ids: Option<Vec<LayerIds>>,
    /// The vertices that are near each other; `None` if they weren't asked for.
    pub near: Option<Near>,
}

impl Quality {
    /// The value of an answer of [`quality`](noshinka::quality()).
    ///
    /// # Errors
    /// If the text is none.
    pub fn of_answer(answer: &[u8]) -> Result<Quality, serde_json::Error> {
        serde_json::from_slice(answer)
    }

    /// Whether the text is canonical, and nothing that was asked for is wrong.
    pub fn is_good(&self) -> bool {
        let is_right = |it: &LayerIds| it.missing.is_empty() && it.repeated.is_empty();
        let is_apart = |it: &Near| it.count == 0;
        self.canonical && self.ids.iter().flatten().all(is_right) && self.near.iter().all(is_apart)
    }
}

/// The ids of a layer that are missing, and those that are repeated.
#[derive(Clone, PartialEq, Eq, Debug, Deserialize)]
pub struct LayerIds {
    /// The name of the layer.
    pub layer: String,
    /// The numbers, from 0, of the features without an id.
    pub missing: Vec<usize>,
    /// The numbers of the features whose id occurs more than once, those of one id side by side.
    pub repeated: Vec<usize>,
}

/// The pairs of vertices that are near each other.
#[derive(Clone, PartialEq, Eq, Debug, Deserialize)]
pub struct Near {
    /// How many there are.
    pub count: u64,
    /// The positions of the first of them.
    pub pairs: Vec<[Position; 2]>,
}

/// The features of a collection as values.
pub trait TypedFeatures {
    /// Each feature in order, as a value: a [`Feature`], or any other type that takes a GeoJSON feature.
    fn features_as<'a, T: Deserialize<'a> + 'a>(
        &'a self,
    ) -> impl Iterator<Item = Result<T, serde_json::Error>> + 'a;
}

impl TypedFeatures for FeatureCollection {
    fn features_as<'a, T: Deserialize<'a> + 'a>(
        &'a self,
    ) -> impl Iterator<Item = Result<T, serde_json::Error>> + 'a {
        self.features().map(serde_json::from_slice)
    }
}
