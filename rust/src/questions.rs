//! What is asked of topologies.
use crate::calls::{self, answer, lent_name};
use crate::text::FeatureCollection;
use crate::Error;

/// Which borders [`mesh`] returns.
#[derive(Clone, Copy, PartialEq, Eq, Debug)]
pub enum Edges<'a> {
    /// All of them.
    All,
    /// Those between two features.
    Interior,
    /// Those of one feature alone.
    Exterior,
    /// Those between features whose values of this property differ.
    By(&'a str),
}

/// What [`neighbors`] returns.
#[derive(Clone, Copy, PartialEq, Eq, Debug)]
pub enum Lists {
    /// A list for each feature, in the order of [`feature`], with the places of others from 0.
    Places,
    /// The same with ids, which each feature then needs.
    Ids,
    /// An object with a list of ids for each id, none of which may be that of two features.
    KeyedIds,
}

/// How [`info`] and [`diff`] are written.
#[derive(Clone, Copy, PartialEq, Eq, Debug)]
pub enum Form {
    /// As a JSON object.
    Json,
    /// As lines for people.
    Lines,
}

/// The features of a layer.
///
/// # Errors
/// [`Error::Fault`], [`NoLayer`](crate::FaultKind::NoLayer) if there is no such layer; [`Error::OutOfMemory`].
pub fn feature(text: &[u8], layer: &str) -> Result<FeatureCollection, Error> {
    // SAFETY: as in `remove`.
    let features = answer(text.len().saturating_mul(3) + 1024, |room| unsafe {
        calls::noshinka_feature(
            text.as_ptr(),
            text.len(),
            layer.as_ptr(),
            layer.len(),
            room.as_mut_ptr(),
            room.len(),
        )
    })?;
    Ok(FeatureCollection(features))
}

/// Borders of a layer, or of all layers, as a GeoJSON MultiLineString, each stretch once.
///
/// # Errors
/// [`Error::Fault`], [`NoLayer`](crate::FaultKind::NoLayer) if there is no such layer; [`Error::OutOfMemory`].
pub fn mesh(text: &[u8], layer: Option<&str>, edges: Edges<'_>) -> Result<Vec<u8>, Error> {
    let (edges, property) = match edges {
        Edges::All => (0, None),
        Edges::Interior => (1, None),
        Edges::Exterior => (2, None),
        Edges::By(property) => (3, Some(property)),
    };
    let c_options = calls::CMeshOptions {
        size: calls::size::<calls::CMeshOptions>(),
        layer: lent_name(layer),
        property: lent_name(property),
        scope: u32::from(layer.is_some()),
        edges,
    };
    // SAFETY: as in `remove`; `c_options` and the names are there until the call returns.
    answer(text.len().saturating_mul(2) + 1024, |room| unsafe {
        calls::noshinka_mesh(
            &c_options,
            text.as_ptr(),
            text.len(),
            room.as_mut_ptr(),
            room.len(),
        )
    })
}

/// Which features of a layer share a border, as JSON: all, or with `by` those whose values of this property differ.
///
/// # Errors
/// [`Error::Fault`], [`NoLayer`](crate::FaultKind::NoLayer) if there is no such layer; [`Error::Usage`] if ids are asked for and a
/// feature has none, or keys and two features have one id; [`Error::OutOfMemory`].
pub fn neighbors(
    text: &[u8],
    layer: &str,
    by: Option<&str>,
    lists: Lists,
) -> Result<Vec<u8>, Error> {
    let c_options = calls::CNeighborsOptions {
        size: calls::size::<calls::CNeighborsOptions>(),
        property: lent_name(by),
        kind: u32::from(by.is_some()),
        lists: lists as u32,
    };
    // SAFETY: as in `mesh`.
    answer(text.len() + 1024, |room| unsafe {
        calls::noshinka_neighbors(
            &c_options,
            text.as_ptr(),
            text.len(),
            layer.as_ptr(),
            layer.len(),
            room.as_mut_ptr(),
            room.len(),
        )
    })
}

/// Which features were removed, added and changed from one topology to another on the same grid, as `topotool diff` prints
/// it: of one layer or of all. Features pair by their ids, or by the value of the property `key`.
///
/// # Errors
/// [`Error::Fault`], [`OtherGrid`](crate::FaultKind::OtherGrid) if the grids differ, [`NoLayer`](crate::FaultKind::NoLayer) if
/// neither has such a layer; [`Error::OutOfMemory`].
pub fn diff(
    text: &[u8],
    other: &[u8],
    layer: Option<&str>,
    key: Option<&str>,
    form: Form,
) -> Result<Vec<u8>, Error> {
    let c_options = calls::CDiffOptions {
        size: calls::size::<calls::CDiffOptions>(),
        layer: lent_name(layer),
        key: lent_name(key),
        scope: u32::from(layer.is_some()),
        pairing: u32::from(key.is_some()),
        json: u32::from(form == Form::Json),
    };
    // SAFETY: as in `mesh`.
    answer(text.len() + other.len() + 1024, |room| unsafe {
        calls::noshinka_diff(
            &c_options,
            text.as_ptr(),
            text.len(),
            other.as_ptr(),
            other.len(),
            room.as_mut_ptr(),
            room.len(),
        )
    })
}

/// The grid, the bounding box and counts of a topology.
///
/// # Errors
/// [`Error::Fault`]; [`Error::OutOfMemory`].
pub fn info(text: &[u8], form: Form) -> Result<Vec<u8>, Error> {
    let json = u32::from(form == Form::Json);
    // SAFETY: as in `remove`.
    answer(4096, |room| unsafe {
        calls::noshinka_info(
            text.as_ptr(),
            text.len(),
            json,
            room.as_mut_ptr(),
            room.len(),
        )
    })
}

/// What [`quality`] looks for beside the canonical text. The default asks for nothing, and lists ten pairs at most.
///
/// ```
/// let options = noshinka::QualityOptions { ids: true, near: 1, ..Default::default() };
/// assert_eq!(options.listed, 10);
/// ```
#[derive(Clone, Copy, PartialEq, Eq, Debug)]
pub struct QualityOptions {
    /// Whether features are looked for that have no id, or one that occurs more than once in their layer.
    pub ids: bool,
    /// How many grid steps apart vertices are at most that are near each other, 1 to 100; 0 looks for none. One feature has only the
    /// one of them, and another only the other, as where a border was drawn twice.
    pub near: u32,
    /// How many pairs of such vertices are listed at most.
    pub listed: u32,
}

impl Default for QualityOptions {
    fn default() -> QualityOptions {
        QualityOptions {
            ids: false,
            near: 0,
            listed: 10,
        }
    }
}

/// Whether a topology's text is canonical, and what else was asked for, as a JSON object: for each layer the numbers, from 0, of the
/// features without an id and of those whose id is repeated; how many pairs of vertices are near each other, and the positions of the
/// first. What wasn't asked for is null. `noshinka-serde` makes a value of it.
///
/// ```
/// use noshinka::{build, quality, Grid, QualityOptions};
///
/// let map = build(Grid::WHOLE, &[("towns", br#"{"type":"MultiPoint","coordinates":[[3,4],[5,6]]}"#)])?;
/// let options = QualityOptions { ids: true, ..Default::default() };
/// let found = quality(&map, &options)?;
/// assert_eq!(found, br#"{"canonical":true,"ids":[{"layer":"towns","missing":[0],"repeated":[]}],"near":null}"#);
/// # Ok::<(), noshinka::Error>(())
/// ```
///
/// # Errors
/// [`Error::Fault`]; [`Error::Usage`] if the steps are more than 100; [`Error::OutOfMemory`].
pub fn quality(text: &[u8], options: &QualityOptions) -> Result<Vec<u8>, Error> {
    let c_options = calls::CQualityOptions {
        size: calls::size::<calls::CQualityOptions>(),
        ids: u32::from(options.ids),
        near: options.near,
        listed: options.listed,
    };
    // SAFETY: as in `mesh`.
    answer(4096, |room| unsafe {
        calls::noshinka_quality(
            &c_options,
            text.as_ptr(),
            text.len(),
            room.as_mut_ptr(),
            room.len(),
        )
    })
}
