//! From a grid to decimal numbers again: what `togrid --back` does.
use crate::calls::{self, answer, lent, lent_each};
use crate::rounding::{decimal, scaled};
use crate::{Error, Rewind, Scale};

/// The transform that [`back`] writes on.
#[derive(Clone, Copy, PartialEq, Eq, Default, Debug)]
pub enum Transform<'a> {
    /// That of the topology.
    #[default]
    Own,
    /// That of the topology of this text, such as the source of the map. The text may have decimal numbers; only its transform is
    /// looked at.
    Like(&'a [u8]),
    /// One with so many numbers along each axis, 2 to 2^40.
    Count(u64),
}

/// The properties whose decimal texts [`back`] makes numbers.
#[derive(Clone, Copy, PartialEq, Eq, Default, Debug)]
pub enum Numbers<'a> {
    /// None.
    #[default]
    Stay,
    /// All that are columns of numbers in their layer: each value is null, a whole number or a decimal text, and one such text has a
    /// point or an exponent.
    Columns,
    /// Those of these names, whatever else they have.
    Named(&'a [&'a str]),
}

/// The options of [`back`], as docs/TOGRID.md has those of `togrid --back`. The default is what that does if nothing is said:
///
/// ```
/// let options = noshinka::BackOptions { transform: noshinka::Transform::Count(10_000), ..Default::default() };
/// assert_eq!(options.rewind, noshinka::Rewind::D3);
/// ```
#[derive(Clone, PartialEq, Eq, Debug)]
pub struct BackOptions<'a> {
    /// What 1 is in the topology, a decimal number without a sign such as `0.25` or `1e-6`; `None` is 0.000001.
    pub unit: Option<&'a str>,
    /// The transform.
    pub transform: Transform<'a>,
    /// The texts that become numbers.
    pub numbers: Numbers<'a>,
    /// The properties whose whole numbers are divided. Of one name the first counts.
    pub scales: &'a [Scale<'a>],
    /// How rings are turned.
    pub rewind: Rewind,
}

impl Default for BackOptions<'_> {
    fn default() -> Self {
        BackOptions {
            unit: None,
            transform: Transform::Own,
            numbers: Numbers::Stay,
            scales: &[],
            rewind: Rewind::D3,
        }
    }
}

/// A topology in the unit of the map again, for other tools: what `togrid --back` prints. Its numbers may have fractions, so
/// [`round`](crate::round()) alone takes it.
///
/// ```
/// use noshinka::{back, round};
///
/// let places = round(&[("places", br#"{"type":"Point","coordinates":[7.4386325,46.9510827]}"#)], &Default::default())?;
/// let text = back(&places, &Default::default())?;
/// assert!(text.starts_with(br#"{"type":"Topology","transform":{"scale":[0.000001,0.000001],"translate":[0,0]},"bbox":[7.438633,46.951083,"#));
/// assert_eq!(round(&[("", &text)], &Default::default())?, places);
/// # Ok::<(), noshinka::Error>(())
/// ```
///
/// # Errors
/// [`Error::Fault`] with the place 0 if the text is refused, and 1 if that of [`Transform::Like`] is; [`Error::Usage`] if an option is
/// outside its limits, or the unit has too many digits; [`Error::OutOfMemory`].
pub fn back(text: &[u8], options: &BackOptions<'_>) -> Result<Vec<u8>, Error> {
    let (transform, like, count): (_, &[u8], _) = match options.transform {
        Transform::Own => (0, b"", 0),
        Transform::Like(like) => (1, like, 0),
        Transform::Count(count) => (2, b"", count),
    };
    let (numbers, names): (_, &[&str]) = match options.numbers {
        Numbers::Stay => (0, &[]),
        Numbers::Columns => (1, &[]),
        Numbers::Named(names) => (2, names),
    };
    let names: Vec<&[u8]> = names.iter().map(|name| name.as_bytes()).collect();
    let (properties, scales) = (lent_each(&names), scaled(options.scales));
    let c_options = calls::CBackOptions {
        size: calls::size::<calls::CBackOptions>(),
        unit: decimal(options.unit)?,
        like: lent(like),
        properties: properties.as_ptr(),
        property_count: properties.len(),
        scales: scales.as_ptr(),
        scale_count: scales.len(),
        count,
        numbers,
        transform,
        rewind: options.rewind as u32,
    };
    let size = text.len().saturating_mul(2).saturating_add(1024);
    // SAFETY: `c_options`, `properties` and `scales` are there until the call returns, with as many elements as the lengths say, and
    // what they point to stays borrowed.
    answer(size, |room| unsafe {
        calls::noshinka_back(
            &c_options,
            text.as_ptr(),
            text.len(),
            room.as_mut_ptr(),
            room.len(),
        )
    })
}
