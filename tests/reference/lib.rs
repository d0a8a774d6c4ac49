//! An independent decoder of the GRIB edition 2 files that the reader takes, written from the rules alone.
//!
//! Its answers are compared with the reader's, so it shares no code with it and prefers plain steps to fast ones.
//! Every size and place is a whole number that cannot wrap, and no step depends on floating-point arithmetic.
#![forbid(unsafe_code)]

mod bitmap;
mod calendar;
mod description;
mod exact;
mod listing;
mod nearness;
mod octets;
mod packing;
mod picture;
mod sections;
#[cfg(test)]
mod tests;
mod tiling;

pub use calendar::Time;
pub use description::{Degrees, Description, Grid, GridKind, GridPoint, IntervalKind, Lambert, Level, Product, SectionStarts};
pub use exact::rebuild;
pub use listing::listing;
pub use nearness::near_enough;

use bitmap::Presence;
use packing::Packing;
use tiling::Field;

/// Why a question is refused: the refusal's number and the file place it names.
#[derive(Clone, Copy, PartialEq, Eq, Debug)]
pub struct Refusal {
    pub number: u32,
    pub place: u32,
}

impl Refusal {
    /// The one 64-bit number that answers a refused call.
    pub fn code(self) -> u64 {
        (1 << 63) + (u64::from(self.number) << 32) + u64::from(self.place)
    }

    /// A refusal that names no place in the file.
    fn without_place(number: u32) -> Refusal {
        Refusal { number, place: 0 }
    }
}

/// How many messages and how many fields a whole file holds.
#[derive(Clone, Copy, PartialEq, Eq, Debug)]
pub struct Counts {
    pub messages: u32,
    pub fields: u32,
}

impl Counts {
    /// The one 64-bit number that answers a check.
    pub fn code(self) -> u64 {
        (u64::from(self.messages) << 32) + u64::from(self.fields)
    }
}

/// A field that has passed refusals 1 to 14.
struct OpenField<'a> {
    description: Description,
    presence: Presence<'a>,
    packing: Packing<'a>,
}

/// Judges the sections in force for one field, from 9 to 14, lowest first.
fn open<'a>(field: &Field<'a>) -> Result<OpenField<'a>, Refusal> {
    let refused_by = |number: u32, section: usize| Refusal { number, place: field.sections[section].start };
    let identification = sections::identification(field.sections[1]).ok_or_else(|| refused_by(9, 1))?;
    let grid = sections::grid(field.sections[3]).ok_or_else(|| refused_by(10, 3))?;
    let product = sections::product(field.sections[4], identification.reference_time).ok_or_else(|| refused_by(11, 4))?;
    let representation = packing::representation(field.sections[5]).ok_or_else(|| refused_by(12, 5))?;
    let presence = bitmap::presence(field, grid.points()).ok_or_else(|| refused_by(13, 6))?;
    if presence.present_points() != u64::from(representation.n) {
        return Err(refused_by(13, 6));
    }
    let packing = packing::packing(field.sections[7], representation).ok_or_else(|| refused_by(14, 7))?;
    let description = Description::of(field, identification, grid, product, representation);
    Ok(OpenField { description, presence, packing })
}

/// Opens field k of a file, after the whole file has been tiled.
fn open_in_file(file: &[u8], k: u64) -> Result<OpenField<'_>, Refusal> {
    open(&tiling::find(file, k)?)
}

/// Counts the messages and fields of a file.
pub fn check(file: &[u8]) -> Result<Counts, Refusal> {
    tiling::tile(file, &mut |_| ())
}

/// Describes field k, counted from 0 over all messages.
pub fn describe(file: &[u8], k: u64) -> Result<Description, Refusal> {
    Ok(open_in_file(file, k)?.description)
}

/// Gives the latitude and longitude of point n of field k, in millionths of a degree. A Lambert grid has no such places.
pub fn place(file: &[u8], k: u64, n: u64) -> Result<(i64, u32), Refusal> {
    let grid = open_in_file(file, k)?.description.grid;
    match grid.kind {
        GridKind::Degrees(degrees) => column_and_row(&grid, n).map(|(column, row)| grid.place(degrees, column, row)),
        GridKind::Lambert(_) => Err(Refusal::without_place(20)),
    }
}

/// Gives how far point n of field k lies to the right of the first point and below it, in thousandths of a metre on the sheet of a Lambert grid.
pub fn sheet(file: &[u8], k: u64, n: u64) -> Result<(i64, i64), Refusal> {
    let grid = open_in_file(file, k)?.description.grid;
    match grid.kind {
        GridKind::Lambert(lambert) => column_and_row(&grid, n).map(|(column, row)| lambert.place(column, row)),
        GridKind::Degrees(_) => Err(Refusal::without_place(20)),
    }
}

/// The column and the row of point n, if the grid has so many points.
fn column_and_row(grid: &Grid, n: u64) -> Result<(u64, u64), Refusal> {
    if n >= grid.points() {
        return Err(Refusal::without_place(17));
    }
    Ok((n % u64::from(grid.ni), n / u64::from(grid.ni)))
}

/// Puts the numbers of a description at the start of a run, and answers how many they are.
pub fn describe_into(file: &[u8], k: u64, numbers: &mut [i64]) -> Result<u64, Refusal> {
    put_numbers(&describe(file, k)?.numbers(), numbers)
}

/// Puts the latitude and the longitude of a point at the start of a run, and answers how many numbers these are.
pub fn place_into(file: &[u8], k: u64, n: u64, position: &mut [i64]) -> Result<u64, Refusal> {
    let (latitude, longitude) = place(file, k, n)?;
    put_numbers(&[latitude, i64::from(longitude)], position)
}

/// Puts how far a point lies to the right and downward on the sheet at the start of a run, and answers how many numbers these are.
pub fn sheet_into(file: &[u8], k: u64, n: u64, sheet_place: &mut [i64]) -> Result<u64, Refusal> {
    let (right, down) = sheet(file, k, n)?;
    put_numbers(&[right, down], sheet_place)
}

/// Puts numbers at the start of a run, unless it has no room for all of them. What lies behind them stays.
fn put_numbers(numbers: &[i64], run: &mut [i64]) -> Result<u64, Refusal> {
    if run.len() < numbers.len() {
        return Err(Refusal::without_place(15));
    }
    run[..numbers.len()].copy_from_slice(numbers);
    Ok(numbers.len() as u64)
}

/// Gives the value of point n of field k, or nothing where the point is missing.
pub fn point(file: &[u8], k: u64, n: u64) -> Result<Option<f64>, Refusal> {
    let mut value = [0.0];
    let is_present = point_into(file, k, n, &mut value)? == 1;
    Ok(if is_present { Some(value[0]) } else { None })
}

/// Puts the value of point n of field k into the first element of a run, or +0 where the point is missing, and answers whether it is present, 1 or 0.
///
/// The point's own X has as many before it as the bitmap has ones before n. It and those are judged, and no X behind it; of a missing point none is.
pub fn point_into(file: &[u8], k: u64, n: u64, value: &mut [f64]) -> Result<u64, Refusal> {
    let OpenField { presence, packing, .. } = open_in_file(file, k)?;
    if n >= presence.points {
        return Err(Refusal::without_place(17));
    }
    let element = value.first_mut().ok_or(Refusal::without_place(15))?;
    if !presence.is_present(n) {
        *element = 0.0;
        return Ok(0);
    }
    *element = packing.value(packing.integer_behind(presence.present_before(n))?);
    Ok(1)
}

/// Draws field k into the start of a run, and answers how many octets its picture has. What lies behind the picture stays.
pub fn picture_into(file: &[u8], k: u64, run: &mut [u8]) -> Result<u64, Refusal> {
    let OpenField { description, presence, packing } = open_in_file(file, k)?;
    let length = picture::length(&description.grid);
    if (run.len() as u64) < length {
        return Err(Refusal::without_place(15));
    }
    let integers = packing.integers()?;
    let largest = integers.iter().copied().max().unwrap_or(0);
    let drawn = picture::octets(&description.grid, &presence, &integers, largest);
    run[..drawn.len()].copy_from_slice(&drawn);
    Ok(drawn.len() as u64)
}

/// Gives every X of field k, over its present points in scan order.
pub fn integers(file: &[u8], k: u64) -> Result<Vec<u32>, Refusal> {
    open_in_file(file, k)?.packing.integers()
}

/// Gives 1 for each present point of field k and 0 for each missing one.
pub fn presence(file: &[u8], k: u64) -> Result<Vec<u8>, Refusal> {
    let presence = open_in_file(file, k)?.presence;
    Ok((0..presence.points).map(|point| u8::from(presence.is_present(point))).collect())
}

/// Fills the field's stretch of both runs from the start index on, and answers with the point count.
///
/// Every X is known to be in range before the first element is written, so a refused call writes nothing.
pub fn decode(file: &[u8], k: u64, start: u64, values: &mut [f64], presence: &mut [u8]) -> Result<u32, Refusal> {
    let field = open_in_file(file, k)?;
    let end = u128::from(start) + u128::from(field.presence.points);
    if end > values.len() as u128 || end > presence.len() as u128 {
        return Err(Refusal::without_place(15));
    }
    let mut integers = field.packing.integers()?.into_iter();
    let stretch = start as usize..end as usize;
    let elements = values[stretch.clone()].iter_mut().zip(presence[stretch].iter_mut());
    for (point, (value, present)) in (0..).zip(elements) {
        let integer = if field.presence.is_present(point) { integers.next() } else { None };
        *present = u8::from(integer.is_some());
        *value = integer.map_or(0.0, |x| field.packing.value(x));
    }
    Ok(field.presence.points as u32)
}
