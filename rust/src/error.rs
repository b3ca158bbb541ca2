//! Why a call gives no answer.
use std::fmt;

/// Why a call gives no answer.
#[derive(Clone, PartialEq, Eq, Debug)]
#[non_exhaustive]
pub enum Error {
    /// A number of a grid or of options is outside its limits; or ids are asked for and a feature has none, or keys and two features
    /// have one id.
    Usage,
    /// A text is refused.
    Fault(Fault),
    /// Memory was refused.
    OutOfMemory,
    /// The library that is linked has other calls than this crate declares.
    WrongLibrary,
}

/// What is wrong with a text.
#[derive(Clone, PartialEq, Eq, Debug)]
#[non_exhaustive]
pub struct Fault {
    /// Which error it is.
    pub kind: FaultKind,
    /// The place of the text in what was passed, from 0.
    pub place: usize,
    /// The way to what is wrong, as `$/features/3/geometry`; empty for the numbers 17 to 19.
    pub path: String,
}

/// The errors that docs/FAULTS.md lists, each by its number there.
#[derive(Clone, Copy, PartialEq, Eq, PartialOrd, Ord, Hash, Debug)]
#[non_exhaustive]
#[repr(u32)]
#[rustfmt::skip]
pub enum FaultKind {
    /// The text is no JSON.
    NotJson = 1,
    /// A required member is missing.
    Missing = 2,
    /// A value has the wrong JSON type.
    WrongKind = 3,
    /// The `type` is none of those that are allowed there.
    UnknownType = 4,
    /// A coordinate, a scale, a translation, an arc's index or an id is no integer of 64 bits.
    NotWhole = 5,
    /// A number is outside its limits.
    OutOfRange = 6,
    /// A coordinate is not on the grid.
    OffGrid = 7,
    /// A line has fewer than two different positions, or a ring fewer than three.
    TooShort = 8,
    /// The last position of a ring is not its first.
    NotClosed = 9,
    /// A line or ring uses a segment twice.
    Revisit = 10,
    /// A geometry names an arc that doesn't exist.
    NoArc = 11,
    /// The arcs of a line or a ring are not connected.
    Broken = 12,
    /// A number in the properties has a fraction or an exponent, or is past 64 bits.
    PropertyNumber = 13,
    /// The properties are nested more than 64 deep.
    PropertyDepth = 14,
    /// The topology has no `transform`.
    NoTransform = 15,
    /// A position, a scale or a translation has other than two numbers.
    NotTwo = 16,
    /// The topologies of a call are on different grids.
    OtherGrid = 17,
    /// A merge of no text.
    BadPlan = 18,
    /// There is no layer of that name.
    NoLayer = 19,
    /// Memory was refused.
    OutOfMemory = 20,
    /// Writing failed.
    Write = 21,
}

impl FaultKind {
    /// All errors, by their numbers.
    #[rustfmt::skip]
    pub const ALL: [FaultKind; 21] = [
        FaultKind::NotJson, FaultKind::Missing, FaultKind::WrongKind, FaultKind::UnknownType, FaultKind::NotWhole,
        FaultKind::OutOfRange, FaultKind::OffGrid, FaultKind::TooShort, FaultKind::NotClosed, FaultKind::Revisit,
        FaultKind::NoArc, FaultKind::Broken, FaultKind::PropertyNumber, FaultKind::PropertyDepth, FaultKind::NoTransform,
        FaultKind::NotTwo, FaultKind::OtherGrid, FaultKind::BadPlan, FaultKind::NoLayer, FaultKind::OutOfMemory,
        FaultKind::Write,
    ];

    /// The error with a number.
    pub fn of_number(number: u32) -> Option<FaultKind> {
        Self::ALL.into_iter().find(|it| it.number() == number)
    }

    /// The number, from 1 to 21.
    pub fn number(self) -> u32 {
        self as u32
    }
}

/// The name, as `NotJson`.
impl fmt::Display for FaultKind {
    fn fmt(&self, f: &mut fmt::Formatter<'_>) -> fmt::Result {
        fmt::Debug::fmt(self, f)
    }
}

impl fmt::Display for Fault {
    fn fmt(&self, f: &mut fmt::Formatter<'_>) -> fmt::Result {
        let Fault { kind, place, path } = self;
        write!(f, "text {place}: {} {kind}", kind.number())?;
        if path.is_empty() {
            return Ok(());
        }
        write!(f, " {path}")
    }
}

impl fmt::Display for Error {
    fn fmt(&self, f: &mut fmt::Formatter<'_>) -> fmt::Result {
        match self {
            Error::Usage => f.write_str(
                "a number of a grid or of options is outside its limits, or a feature has no id of its own",
            ),
            Error::Fault(fault) => fault.fmt(f),
            Error::OutOfMemory => f.write_str("out of memory"),
            Error::WrongLibrary => f.write_str("libnoshinka.a is of another version"),
        }
    }
}

impl std::error::Error for Error {}
