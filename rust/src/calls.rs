//! The calls of `c/noshinka.h`, and the rooms that they answer in.
use crate::error::{Error, Fault, FaultKind};
use crate::Grid;
use std::mem::size_of;

/// Bytes that are lent for a call.
#[repr(C)]
#[derive(Clone, Copy)]
pub(crate) struct Bytes {
    at: *const u8,
    length: usize,
}

/// A text behind its layer's name.
#[repr(C)]
pub(crate) struct Source {
    layer: Bytes,
    text: Bytes,
}

/// A property, and how many zeros the power of ten has that its numbers are multiplied by.
#[repr(C)]
pub(crate) struct Scaled {
    pub(crate) property: Bytes,
    pub(crate) zeros: u32,
}

/// A topology, and whether its features are added (0) or taken out (1).
#[repr(C)]
pub(crate) struct Change {
    pub(crate) text: Bytes,
    pub(crate) kind: u32,
}

#[repr(C)]
pub(crate) struct CRoundOptions {
    pub(crate) size: usize,
    pub(crate) step: Bytes,
    pub(crate) unit: Bytes,
    pub(crate) layer: Bytes,
    pub(crate) id: Bytes,
    pub(crate) scales: *const Scaled,
    pub(crate) scale_count: usize,
    pub(crate) snap: u32,
    pub(crate) scope: u32,
    pub(crate) ids: u32,
    pub(crate) reals: u32,
    pub(crate) number: u32,
    pub(crate) unclosed: u32,
    pub(crate) heights: u32,
    pub(crate) folded: u32,
    pub(crate) collections: u32,
    pub(crate) collapsed: u32,
    pub(crate) rewind: u32,
    pub(crate) sequences: u32,
    pub(crate) renames: u32,
    pub(crate) format: u32,
    pub(crate) report: u32,
}

#[repr(C)]
pub(crate) struct CBackOptions {
    pub(crate) size: usize,
    pub(crate) unit: Bytes,
    pub(crate) like: Bytes,
    pub(crate) properties: *const Bytes,
    pub(crate) property_count: usize,
    pub(crate) scales: *const Scaled,
    pub(crate) scale_count: usize,
    pub(crate) count: u64,
    pub(crate) numbers: u32,
    pub(crate) transform: u32,
    pub(crate) rewind: u32,
}

#[repr(C)]
pub(crate) struct CQualityOptions {
    pub(crate) size: usize,
    pub(crate) ids: u32,
    pub(crate) near: u32,
    pub(crate) listed: u32,
}

#[repr(C)]
pub(crate) struct CMeshOptions {
    pub(crate) size: usize,
    pub(crate) layer: Bytes,
    pub(crate) property: Bytes,
    pub(crate) scope: u32,
    pub(crate) edges: u32,
}

#[repr(C)]
pub(crate) struct CNeighborsOptions {
    pub(crate) size: usize,
    pub(crate) property: Bytes,
    pub(crate) kind: u32,
    pub(crate) lists: u32,
}

#[repr(C)]
pub(crate) struct CDiffOptions {
    pub(crate) size: usize,
    pub(crate) layer: Bytes,
    pub(crate) key: Bytes,
    pub(crate) scope: u32,
    pub(crate) pairing: u32,
    pub(crate) json: u32,
}

/// How a call ended.
#[repr(C)]
pub(crate) struct Outcome {
    status: u32,
    fault: u32,
    place: usize,
    length: usize,
}

#[rustfmt::skip]
extern "C" {
    fn noshinka_version() -> u32;
    pub(crate) fn noshinka_build(grid: *const Grid, sources: *const Source, count: usize, room: *mut u8, size: usize) -> Outcome;
    pub(crate) fn noshinka_round(options: *const CRoundOptions, sources: *const Source, count: usize, room: *mut u8, size: usize) -> Outcome;
    pub(crate) fn noshinka_merge(texts: *const Bytes, count: usize, room: *mut u8, size: usize) -> Outcome;
    pub(crate) fn noshinka_remove(text: *const u8, length: usize, removed: *const u8, removed_length: usize, room: *mut u8, size: usize) -> Outcome;
    pub(crate) fn noshinka_edit(text: *const u8, length: usize, changes: *const Change, count: usize, room: *mut u8, size: usize) -> Outcome;
    pub(crate) fn noshinka_back(options: *const CBackOptions, text: *const u8, length: usize, room: *mut u8, size: usize) -> Outcome;
    pub(crate) fn noshinka_check(text: *const u8, length: usize, room: *mut u8, size: usize) -> Outcome;
    pub(crate) fn noshinka_quality(options: *const CQualityOptions, text: *const u8, length: usize, room: *mut u8, size: usize) -> Outcome;
    pub(crate) fn noshinka_faults(text: *const u8, length: usize, format: u32, grid: *const Grid, room: *mut u8, size: usize) -> Outcome;
    pub(crate) fn noshinka_feature(text: *const u8, length: usize, layer: *const u8, layer_length: usize, room: *mut u8, size: usize) -> Outcome;
    pub(crate) fn noshinka_mesh(options: *const CMeshOptions, text: *const u8, length: usize, room: *mut u8, size: usize) -> Outcome;
    pub(crate) fn noshinka_neighbors(options: *const CNeighborsOptions, text: *const u8, length: usize, layer: *const u8, layer_length: usize, room: *mut u8, size: usize) -> Outcome;
    pub(crate) fn noshinka_diff(options: *const CDiffOptions, text: *const u8, length: usize, other: *const u8, other_length: usize, room: *mut u8, size: usize) -> Outcome;
    pub(crate) fn noshinka_info(text: *const u8, length: usize, json: u32, room: *mut u8, size: usize) -> Outcome;
    pub(crate) fn noshinka_fault_name(fault: u32, room: *mut u8, size: usize) -> Outcome;
}

/// The version of the calls that these declarations are of.
const VERSION: u32 = 1;

/// What a struct of options begins with.
pub(crate) const fn size<T>() -> usize {
    size_of::<T>()
}

pub(crate) fn lent(bytes: &[u8]) -> Bytes {
    Bytes {
        at: bytes.as_ptr(),
        length: bytes.len(),
    }
}

pub(crate) fn lent_each(texts: &[&[u8]]) -> Vec<Bytes> {
    texts.iter().map(|text| lent(text)).collect()
}

/// The bytes of a name, and no bytes where there is none.
pub(crate) fn lent_name(name: Option<&str>) -> Bytes {
    lent(name.unwrap_or("").as_bytes())
}

pub(crate) fn sources_of(sources: &[(&str, &[u8])]) -> Vec<Source> {
    let lend = |(layer, text): &(&str, &[u8])| Source {
        layer: lent(layer.as_bytes()),
        text: lent(text),
    };
    sources.iter().map(lend).collect()
}

/// How many bytes sources have together.
pub(crate) fn length_of(sources: &[(&str, &[u8])]) -> usize {
    let lengths = sources.iter().map(|(layer, text)| layer.len() + text.len());
    lengths.sum()
}

/// How a call ended that was not refused.
pub(crate) struct Ended {
    pub(crate) is_done: bool,
    pub(crate) text: Vec<u8>,
}

/// A room of this size, all zero. It is a new one, so nothing lent is in it.
fn new_room(size: usize) -> Result<Vec<u8>, Error> {
    let mut room = Vec::new();
    room.try_reserve_exact(size)
        .map_err(|_| Error::OutOfMemory)?;
    room.resize(size, 0);
    Ok(room)
}

/// What is wrong with a text, of which the room has the path.
fn refusal(fault: u32, place: usize, path: &[u8]) -> Error {
    let Some(kind) = FaultKind::of_number(fault) else {
        return Error::WrongLibrary;
    };
    let path = String::from_utf8_lossy(path).into_owned();
    Error::Fault(Fault { kind, place, path })
}

/// Calls with a room of this size, and once more if it is too small.
pub(crate) fn ended(mut size: usize, call: impl Fn(&mut [u8]) -> Outcome) -> Result<Ended, Error> {
    // SAFETY: it takes nothing and returns a number.
    if unsafe { noshinka_version() } != VERSION {
        return Err(Error::WrongLibrary);
    }
    loop {
        let mut room = new_room(size)?;
        let Outcome {
            status,
            fault,
            place,
            length,
        } = call(&mut room);
        if (status == 4 || status == 6) && length > size {
            size = length;
            continue;
        }
        room.truncate(length);
        return match status {
            0 | 1 => Ok(Ended {
                is_done: status == 0,
                text: room,
            }),
            2 => Err(Error::Usage),
            4 => Err(refusal(fault, place, &room)),
            5 => Err(Error::OutOfMemory),
            _ => Err(Error::WrongLibrary),
        };
    }
}

/// The text of a call's answer.
pub(crate) fn answer(size: usize, call: impl Fn(&mut [u8]) -> Outcome) -> Result<Vec<u8>, Error> {
    Ok(ended(size, call)?.text)
}
