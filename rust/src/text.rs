//! Texts that the library answers, and the features in them.
use crate::{feature, Error};
use std::fmt;
use std::ops::Deref;

/// The text of a topology. It derefs to its bytes, so every call takes `&topology` for a text.
///
/// ```
/// use noshinka::{build, Grid};
///
/// let map = build(Grid::WHOLE, &[("towns", br#"{"type":"Feature","id":7,"geometry":{"type":"Point","coordinates":[3,4]}}"#)])?;
/// for feature in &map.layer("towns")? {
///     assert_eq!(feature, br#"{"geometry":{"coordinates":[3,4],"type":"Point"},"id":7,"properties":{},"type":"Feature"}"#);
/// }
/// # Ok::<(), noshinka::Error>(())
/// ```
///
/// The crate `noshinka-serde` (`rust/serde`) makes values of your own of the features.
#[derive(Clone, PartialEq, Eq, Hash)]
pub struct Topology(Vec<u8>);

impl Topology {
    /// A topology of its text, which is read and refused only by a call.
    pub fn new(text: impl Into<Vec<u8>>) -> Topology {
        Topology(text.into())
    }

    /// The text.
    pub fn text(&self) -> &[u8] {
        &self.0
    }

    /// The text, without a copy.
    pub fn into_text(self) -> Vec<u8> {
        self.0
    }

    /// The features of a layer, in order.
    ///
    /// # Errors
    /// Those of [`feature`](crate::feature()).
    pub fn layer(&self, name: &str) -> Result<FeatureCollection, Error> {
        feature(&self.0, name)
    }
}

/// A GeoJSON FeatureCollection: the features of a layer, or of texts.
#[derive(Clone, PartialEq, Eq, Hash)]
pub struct FeatureCollection(pub(crate) Vec<u8>);

impl FeatureCollection {
    /// The text.
    pub fn text(&self) -> &[u8] {
        &self.0
    }

    /// The text, without a copy.
    pub fn into_text(self) -> Vec<u8> {
        self.0
    }

    /// The texts of the features, in order: a JSON object each.
    pub fn features(&self) -> Features<'_> {
        Features(self.0.strip_prefix(b"{\"features\":[").unwrap_or(&[]))
    }
}

impl<'a> IntoIterator for &'a FeatureCollection {
    type Item = &'a [u8];
    type IntoIter = Features<'a>;

    fn into_iter(self) -> Features<'a> {
        self.features()
    }
}

/// The texts of the features that are still to come. Made by [`FeatureCollection::features`].
#[derive(Clone, Debug)]
pub struct Features<'a>(&'a [u8]);

impl<'a> Iterator for Features<'a> {
    type Item = &'a [u8];

    fn next(&mut self) -> Option<&'a [u8]> {
        let text = self.0.strip_prefix(b",").unwrap_or(self.0);
        let (feature, rest) = text.split_at(object_length(text)?);
        self.0 = rest;
        Some(feature)
    }
}

/// The length of the JSON object that a text begins with, if it begins with a whole one.
fn object_length(text: &[u8]) -> Option<usize> {
    let (mut depth, mut is_string, mut is_escaped) = (0_usize, false, false);
    for (at, byte) in text.iter().enumerate() {
        match byte {
            _ if is_escaped => is_escaped = false,
            b'\\' if is_string => is_escaped = true,
            b'"' => is_string = !is_string,
            b'{' if !is_string => depth += 1,
            b'}' if !is_string => depth = depth.checked_sub(1)?,
            _ => {}
        }
        if depth == 0 {
            return if *byte == b'}' { Some(at + 1) } else { None };
        }
    }
    None
}

macro_rules! is_a_text {
    ($name:ident) => {
        impl Deref for $name {
            type Target = [u8];

            fn deref(&self) -> &[u8] {
                &self.0
            }
        }

        impl AsRef<[u8]> for $name {
            fn as_ref(&self) -> &[u8] {
                &self.0
            }
        }

        impl From<$name> for Vec<u8> {
            fn from(text: $name) -> Vec<u8> {
                text.0
            }
        }

        impl fmt::Debug for $name {
            fn fmt(&self, f: &mut fmt::Formatter<'_>) -> fmt::Result {
                let text = String::from_utf8_lossy(&self.0);
                f.debug_tuple(stringify!($name)).field(&text).finish()
            }
        }
    };
}

is_a_text!(Topology);
is_a_text!(FeatureCollection);
