//! A field as a grey picture, in the raw form of the format PGM.

use crate::bitmap::Presence;
use crate::description::Grid;

/// What a missing point is drawn as. No point that is present is drawn so.
const MISSING: u8 = 0;
/// The grey of the smallest X, and how far above it that of the largest is.
const DARKEST: u64 = 1;
const GREYS_ABOVE: u64 = 254;
/// The octets before the greys that are the same in every picture: the format's name, the largest grey, a space and three newlines.
const FIXED_OCTETS: u64 = 9;

/// How many octets the picture of a grid has.
pub fn length(grid: &Grid) -> u64 {
    FIXED_OCTETS + digits(grid.ni) + digits(grid.nj) + grid.points()
}

fn digits(number: u32) -> u64 {
    if number < 10 {
        1
    } else {
        1 + digits(number / 10)
    }
}

/// The whole picture, of the X of the points present in their order and the largest of these: what stands before the greys, then one grey a point, row by row.
pub fn octets(grid: &Grid, presence: &Presence<'_>, integers: &[u32], largest: u32) -> Vec<u8> {
    let mut octets = format!("P5\n{} {}\n255\n", grid.ni, grid.nj).into_bytes();
    let mut following = integers.iter();
    for point in 0..presence.points {
        let integer = if presence.is_present(point) { following.next() } else { None };
        octets.push(integer.map_or(MISSING, |x| grey(*x, largest)));
    }
    octets
}

/// The grey of a present point by its X and the largest X of those present. Where all X are 0, all are as dark as can be.
fn grey(x: u32, largest: u32) -> u8 {
    let above = if largest == 0 { 0 } else { GREYS_ABOVE * u64::from(x) / u64::from(largest) };
    (DARKEST + above) as u8
}
