//! From decimal numbers to a grid: what `togrid` does.
use crate::calls::{self, answer, length_of, lent, lent_name, sources_of, Bytes, Scaled};
use crate::text::{FeatureCollection, Topology};
use crate::Error;

/// A property whose numbers are multiplied by a power of ten and rounded, and by [`back`](crate::back()) divided by it.
#[derive(Clone, Copy, PartialEq, Eq, Debug)]
pub struct Scale<'a> {
    /// The property, a member of `properties` itself.
    pub property: &'a str,
    /// How many zeros the power of ten has, at most 12: 3 for thousandths.
    pub zeros: u32,
}

/// What becomes of numbers in properties that are not scaled.
#[derive(Clone, Copy, PartialEq, Eq, Default, Debug)]
pub enum Reals {
    /// Whole ones become integers however they are written, others texts.
    #[default]
    Whole,
    /// All that are written with a fraction or an exponent become texts.
    Text,
    /// Those that are not whole are refused.
    Refuse,
}

/// Whether something is fixed, or the text is refused for it.
#[derive(Clone, Copy, PartialEq, Eq, Default, Debug)]
pub enum Fix {
    /// It is fixed.
    #[default]
    Yes,
    /// The text is refused.
    No,
}

/// What becomes of a feature of which no line or ring is left.
#[derive(Clone, Copy, PartialEq, Eq, Default, Debug)]
pub enum Collapsed {
    /// Its geometry is null.
    #[default]
    Null,
    /// It is dropped.
    Drop,
    /// The text is refused.
    Refuse,
}

/// How rings are turned.
#[derive(Clone, Copy, PartialEq, Eq, Default, Debug)]
pub enum Rewind {
    /// Not at all.
    #[default]
    Keep,
    /// Outer rings counterclockwise and holes clockwise, as RFC 7946 wants them.
    Rfc7946,
    /// The other way round, as d3-geo wants them.
    D3,
}

/// The options of [`round`], as docs/TOGRID.md has those of `togrid`. The default is what `togrid` does if nothing is said:
///
/// ```
/// let options = noshinka::RoundOptions { step: Some("0.01"), snap: 2, ..Default::default() };
/// ```
#[derive(Clone, PartialEq, Eq, Default, Debug)]
pub struct RoundOptions<'a> {
    /// The size of a step, a decimal number without a sign such as `0.25` or `1e-6`. `None` stands for degrees: steps of 0.000001,
    /// and numbers beyond 180 and 90 are refused.
    pub step: Option<&'a str>,
    /// What 1 is in the result, such a number too; `None` is 0.000001.
    pub unit: Option<&'a str>,
    /// The only object of topologies that is read.
    pub layer: Option<&'a str>,
    /// The property that becomes the id.
    pub id: Option<&'a str>,
    /// The properties that are scaled. Of one name the first counts.
    pub scales: &'a [Scale<'a>],
    /// How many steps apart nearly shared vertices are joined, 1 to 10; 0 joins none.
    pub snap: u32,
    /// What becomes of other numbers.
    pub reals: Reals,
    /// Whether each feature without an id gets its number in its text.
    pub number: bool,
    /// Whether open rings are closed.
    pub unclosed: Fix,
    /// Whether heights are dropped.
    pub heights: Fix,
    /// Whether lines and rings that use a segment twice are split.
    pub folded: Fix,
    /// Whether GeometryCollections are split.
    pub collections: Fix,
    /// What becomes of features of which nothing is left.
    pub collapsed: Collapsed,
    /// How rings are turned.
    pub rewind: Rewind,
    /// Whether each text is a sequence of GeoJSON texts, lines or behind the byte 30.
    pub sequences: bool,
    /// Whether a topology's only object gets the name of its source. Else objects keep their names.
    pub renames: bool,
}

pub(crate) fn scaled(scales: &[Scale<'_>]) -> Vec<Scaled> {
    let lend = |scale: &Scale<'_>| Scaled {
        property: lent(scale.property.as_bytes()),
        zeros: scale.zeros,
    };
    scales.iter().map(lend).collect()
}

/// A decimal number, which has to have a digit: no text stands for none.
pub(crate) fn decimal(word: Option<&str>) -> Result<Bytes, Error> {
    match word {
        Some("") => Err(Error::Usage),
        _ => Ok(lent_name(word)),
    }
}

/// What the library answers: a topology (0) or features (1), behind a report if that is asked for.
fn rounded(
    sources: &[(&str, &[u8])],
    options: &RoundOptions<'_>,
    format: u32,
    has_report: bool,
) -> Result<Vec<u8>, Error> {
    let (list, scales) = (sources_of(sources), scaled(options.scales));
    let c_options = calls::CRoundOptions {
        size: calls::size::<calls::CRoundOptions>(),
        step: decimal(options.step)?,
        unit: decimal(options.unit)?,
        layer: lent_name(options.layer),
        id: lent_name(options.id),
        scales: scales.as_ptr(),
        scale_count: scales.len(),
        snap: options.snap,
        scope: u32::from(options.layer.is_some()),
        ids: u32::from(options.id.is_some()),
        reals: options.reals as u32,
        number: u32::from(options.number),
        unclosed: options.unclosed as u32,
        heights: options.heights as u32,
        folded: options.folded as u32,
        collections: options.collections as u32,
        collapsed: options.collapsed as u32,
        rewind: options.rewind as u32,
        sequences: u32::from(options.sequences),
        renames: u32::from(options.renames),
        format,
        report: u32::from(has_report),
    };
    let size = length_of(sources).saturating_mul(2).saturating_add(4096);
    // SAFETY: `c_options`, `list` and `scales` are there until the call returns, with as many elements as the lengths say, and what
    // they point to stays borrowed.
    answer(size, |room| unsafe {
        calls::noshinka_round(
            &c_options,
            list.as_ptr(),
            list.len(),
            room.as_mut_ptr(),
            room.len(),
        )
    })
}

/// The topology of GeoJSON texts in decimal numbers and of topologies of any tool, rounded to steps and fixed: what
/// `togrid --build` prints. Each text is behind the name of its layer; topologies name their layers themselves, unless
/// [`RoundOptions::renames`] is set. The grid has the scale step / unit.
///
/// ```
/// let place = br#"{"type":"Feature","id":1.0,"geometry":{"type":"Point","coordinates":[7.4386325,46.9510827,540.0]}}"#;
/// let map = noshinka::round(&[("places", place)], &Default::default())?;
/// assert!(map.starts_with(br#"{"arcs":[],"bbox":[7438633,46951083,7438633,46951083],"objects":{"places":"#));
/// # Ok::<(), noshinka::Error>(())
/// ```
///
/// # Errors
/// [`Error::Fault`] for the first text that is refused; [`Error::Usage`] if an option is outside its limits;
/// [`Error::OutOfMemory`].
pub fn round(sources: &[(&str, &[u8])], options: &RoundOptions<'_>) -> Result<Topology, Error> {
    Ok(Topology::new(rounded(sources, options, 0, false)?))
}

/// The topology of [`round`], and the report on what became of the texts: a JSON object, whose members `c/noshinka.h` lists.
///
/// # Errors
/// Those of [`round`].
pub fn round_with_report(
    sources: &[(&str, &[u8])],
    options: &RoundOptions<'_>,
) -> Result<(Topology, Vec<u8>), Error> {
    let mut report = rounded(sources, options, 0, true)?;
    // The report ends at the first newline, of which the topology has none.
    let end = report.iter().position(|byte| *byte == b'\n');
    let text = match end {
        Some(end) => report.split_off(end + 1),
        None => return Err(Error::WrongLibrary),
    };
    report.pop();
    Ok((Topology::new(text), report))
}

/// The features of texts, rounded and fixed as by [`round`], in order: what `togrid` prints.
///
/// # Errors
/// Those of [`round`].
pub fn round_features(
    sources: &[(&str, &[u8])],
    options: &RoundOptions<'_>,
) -> Result<FeatureCollection, Error> {
    Ok(FeatureCollection(rounded(sources, options, 1, false)?))
}
