//! TopoJSON topologies built, merged and queried in memory, by the library `noshinka`, which is proved.
//!
//! ```
//! use noshinka::{build, merge, neighbors, Grid, Lists};
//!
//! let west = br#"{"type":"Polygon","coordinates":[[[0,0],[1,0],[1,1],[0,1],[0,0]]]}"#;
//! let east = br#"{"type":"Polygon","coordinates":[[[1,0],[2,0],[2,1],[1,1],[1,0]]]}"#;
//! let one = build(Grid::WHOLE, &[("districts", west)])?;
//! let two = build(Grid::WHOLE, &[("districts", east)])?;
//! let country = merge(&[&two, &one])?;
//! assert_eq!(country, build(Grid::WHOLE, &[("districts", west), ("districts", east)])?);
//! assert_eq!(neighbors(&country, "districts", None, Lists::Places)?, b"[[1],[0]]");
//! # Ok::<(), noshinka::Error>(())
//! ```
//!
//! Every call takes texts and returns a text, or an [`Error`]; none panics. Texts are bytes: GeoJSON with whole numbers on the
//! grid for [`build`], GeoJSON in decimal numbers and topologies of any tool for [`round`], topologies in whole numbers for all
//! others. [`back`] leads back to decimal numbers. A call keeps nothing, and may be made from any number of threads; none may be made
//! from a signal handler, nor in the child of a fork of a process that had threads. It wants 512 KiB of stack.
//!
//! What is proved is the library below. That this crate calls it rightly is not: its `unsafe` blocks say why they do.
#![forbid(unsafe_op_in_unsafe_fn)]
#![warn(missing_docs)]

mod back;
mod calls;
mod error;
mod questions;
mod rounding;
mod text;

pub use back::{back, BackOptions, Numbers, Transform};
use calls::{answer, ended, length_of, lent, lent_each, sources_of, Change, Outcome};
pub use error::{Error, Fault, FaultKind};
pub use questions::{
    diff, feature, info, mesh, neighbors, quality, Edges, Form, Lists, QualityOptions,
};
pub use rounding::{
    round, round_features, round_with_report, Collapsed, Fix, Reals, Rewind, RoundOptions, Scale,
};
pub use text::{FeatureCollection, Features, Topology};

/// The scales and translations of a grid, as TopoJSON's transform: scales from 1 to 1,000,000, translations from
/// -1,000,000,000,000 to 1,000,000,000,000. A coordinate is a whole number times the scale, plus the translation.
#[repr(C)]
#[derive(Clone, Copy, PartialEq, Eq, Debug)]
pub struct Grid {
    /// The scale of x.
    pub scale_x: i64,
    /// The scale of y.
    pub scale_y: i64,
    /// The translation of x.
    pub translate_x: i64,
    /// The translation of y.
    pub translate_y: i64,
}

impl Grid {
    /// The grid of all whole numbers.
    pub const WHOLE: Grid = Grid {
        scale_x: 1,
        scale_y: 1,
        translate_x: 0,
        translate_y: 0,
    };
}

/// The topology of GeoJSON texts, each behind the name of the layer that its features are put into.
///
/// # Errors
/// [`Error::Fault`] for the first text that is refused; [`Error::Usage`] if the grid is outside its limits;
/// [`Error::OutOfMemory`].
pub fn build(grid: Grid, sources: &[(&str, &[u8])]) -> Result<Topology, Error> {
    let list = sources_of(sources);
    // SAFETY: `list` has `list.len()` elements, whose pointers are those of slices that stay borrowed for the call.
    let text = answer(length_of(sources) + 1024, |room| unsafe {
        calls::noshinka_build(
            &grid,
            list.as_ptr(),
            list.len(),
            room.as_mut_ptr(),
            room.len(),
        )
    })?;
    Ok(Topology::new(text))
}

/// The topology of all features of topologies. Neither their order nor one that comes twice makes a difference.
///
/// # Errors
/// [`Error::Fault`] for the first text that is refused, [`OtherGrid`](FaultKind::OtherGrid) for one on another grid, and
/// [`BadPlan`](FaultKind::BadPlan) where there is no text; [`Error::OutOfMemory`].
pub fn merge(texts: &[&[u8]]) -> Result<Topology, Error> {
    let list = lent_each(texts);
    let size = texts.iter().map(|text| text.len()).sum::<usize>() + 1024;
    // SAFETY: as in `build`.
    let text = answer(size, |room| unsafe {
        calls::noshinka_merge(list.as_ptr(), list.len(), room.as_mut_ptr(), room.len())
    })?;
    Ok(Topology::new(text))
}

/// A topology without the features of another one, on the same grid. The texts have the places 0 and 1 in errors.
///
/// # Errors
/// [`Error::Fault`], [`OtherGrid`](FaultKind::OtherGrid) if the grids differ; [`Error::OutOfMemory`].
pub fn remove(text: &[u8], removed: &[u8]) -> Result<Topology, Error> {
    // SAFETY: the pointers are those of slices that stay borrowed for the call.
    let text = answer(text.len() + 1024, |room| unsafe {
        calls::noshinka_remove(
            text.as_ptr(),
            text.len(),
            removed.as_ptr(),
            removed.len(),
            room.as_mut_ptr(),
            room.len(),
        )
    })?;
    Ok(Topology::new(text))
}

/// A change of a topology, by another one on the same grid.
#[derive(Clone, Copy, PartialEq, Eq, Debug)]
pub enum Edit<'a> {
    /// The features of the topology of this text are added.
    Add(&'a [u8]),
    /// They are taken out.
    Take(&'a [u8]),
}

/// A topology after changes, one after the other: what [`merge`] and [`remove`] would return in turn. The text, which may be
/// large, is read and written once. It has the place 0 in errors, the edits those from 1.
///
/// # Errors
/// [`Error::Fault`], [`OtherGrid`](FaultKind::OtherGrid) for a text on another grid; [`Error::OutOfMemory`].
pub fn edit(text: &[u8], edits: &[Edit<'_>]) -> Result<Topology, Error> {
    let change = |edit: &Edit<'_>| match *edit {
        Edit::Add(text) => Change {
            text: lent(text),
            kind: 0,
        },
        Edit::Take(text) => Change {
            text: lent(text),
            kind: 1,
        },
    };
    let list: Vec<Change> = edits.iter().map(change).collect();
    let added = edits.iter().map(|edit| match edit {
        Edit::Add(text) => text.len(),
        Edit::Take(_) => 0,
    });
    let size = text.len() + added.sum::<usize>() + 1024;
    // SAFETY: as in `build` and `remove`.
    let text = answer(size, |room| unsafe {
        calls::noshinka_edit(
            text.as_ptr(),
            text.len(),
            list.as_ptr(),
            list.len(),
            room.as_mut_ptr(),
            room.len(),
        )
    })?;
    Ok(Topology::new(text))
}

/// Whether a topology's text is canonical: byte for byte what [`merge`] of it alone returns.
///
/// # Errors
/// [`Error::Fault`]; [`Error::OutOfMemory`].
pub fn check(text: &[u8]) -> Result<bool, Error> {
    // SAFETY: as in `remove`.
    let call = |room: &mut [u8]| -> Outcome {
        unsafe { calls::noshinka_check(text.as_ptr(), text.len(), room.as_mut_ptr(), room.len()) }
    };
    Ok(ended(1024, call)?.is_done)
}

/// All faults of a text, as a JSON list of objects, `[]` if there are none: of a topology's text, or with a grid of a GeoJSON
/// text on it. The members of a fault are `line` and `column`, both from 1, `number`, `name` and `path`; where the fault is
/// in a feature with an id, `id`; and for a number in properties that is no integer (13), the `member`.
///
/// ```
/// use noshinka::{faults, Grid};
///
/// let list = faults(br#"{"type":"Point","coordinates":[1,0.5]}"#, Some(Grid::WHOLE))?;
/// assert_eq!(list, br#"[{"column":34,"line":1,"name":"NotWhole","number":5,"path":"$/coordinates/1"}]"#);
/// # Ok::<(), noshinka::Error>(())
/// ```
///
/// # Errors
/// [`Error::Usage`] if the grid is outside its limits; [`Error::OutOfMemory`].
pub fn faults(text: &[u8], grid: Option<Grid>) -> Result<Vec<u8>, Error> {
    let format = u32::from(grid.is_some());
    let grid = grid.unwrap_or(Grid::WHOLE);
    // SAFETY: as in `remove`; the grid stays borrowed for the call too.
    answer(4096, |room| unsafe {
        calls::noshinka_faults(
            text.as_ptr(),
            text.len(),
            format,
            &grid,
            room.as_mut_ptr(),
            room.len(),
        )
    })
}

/// The name of the error with a number, as the library has it: that of its [`FaultKind`].
///
/// # Errors
/// [`Error::Usage`] if the number is not from 1 to 21; [`Error::OutOfMemory`].
pub fn fault_name(number: u32) -> Result<String, Error> {
    // SAFETY: the room is one of the call's own.
    let name = answer(64, |room| unsafe {
        calls::noshinka_fault_name(number, room.as_mut_ptr(), room.len())
    })?;
    Ok(String::from_utf8_lossy(&name).into_owned())
}
