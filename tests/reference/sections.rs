//! The sections in force: identification (1), grid (3) and product (4). A section that breaks a rule gives no answer.

use crate::calendar::{seconds_in_unit, Time};
use crate::description::{Degrees, Grid, GridKind, GridPoint, IntervalKind, Lambert, Level, Product};
use crate::octets::{require, Section};

const ALL_ONES_IN_4_OCTETS: u64 = 0xFFFF_FFFF;
const LARGEST_31_BITS: u64 = 2_147_483_647;
const MOST_POINTS: u64 = 16_777_216;
pub const FULL_TURN: i64 = 360_000_000;
const RADIUS_OF_EARTH_CODE_6: u64 = 6_371_229;

/// What section 1 tells.
#[derive(Clone, Copy)]
pub struct Identification {
    pub status: u8,
    pub reference_time: Time,
}

pub fn identification(section: Section<'_>) -> Option<Identification> {
    require(section.length() == 21)?;
    require(section.unsigned(6, 7) == 34)?;
    require(section.octet(12) == 1)?;
    let reference_time = Time::read(section, 13)?;
    let status = section.octet(20);
    require(status <= 1)?;
    Some(Identification { status, reference_time })
}

/// The grid: a length goes with one template only.
pub fn grid(section: Section<'_>) -> Option<Grid> {
    match (section.length(), section.unsigned(13, 14)) {
        (72, 0) => grid_in_degrees(section),
        (81, 30) => lambert_grid(section),
        _ => None,
    }
}

fn grid_in_degrees(section: Section<'_>) -> Option<Grid> {
    let first = grid_point(section, 47)?;
    let last = grid_point(section, 56)?;
    let (di, dj) = (section.unsigned(64, 67), section.unsigned(68, 71));
    let grid = grid_of_kind(section, first, GridKind::Degrees(Degrees { last, di: di as u32, dj: dj as u32 }))?;
    require(section.unsigned(39, 42) == 0 && section.unsigned(43, 46) == ALL_ONES_IN_4_OCTETS)?;
    require(section.octet(55) == 0x30 && section.octet(72) == 0)?;
    require(span_fits(span_east(first, last), grid.ni, di))?;
    require(first.latitude >= last.latitude)?;
    require(span_fits(first.latitude - last.latitude, grid.nj, dj))?;
    Some(grid)
}

fn lambert_grid(section: Section<'_>) -> Option<Grid> {
    require(section.octet(47) == 0x08)?;
    let (stated_latitude, upright_meridian) = (latitude(section, 48)?, longitude(section, 52)?);
    let (dx, dy) = (section.unsigned(56, 59), section.unsigned(60, 63));
    require((1..=LARGEST_31_BITS).contains(&dx))?;
    require((1..=LARGEST_31_BITS).contains(&dy))?;
    require(section.octet(64) == 0)?;
    require(section.octet(65) == 0)?;
    let cutting_latitudes = [latitude(section, 66)?, latitude(section, 70)?];
    let lambert = Lambert { stated_latitude, upright_meridian, dx: dx as u32, dy: dy as u32, cutting_latitudes };
    grid_of_kind(section, grid_point(section, 39)?, GridKind::Lambert(lambert))
}

/// The grid with what both templates have in the same octets, and with what its own template has.
fn grid_of_kind(section: Section<'_>, first: GridPoint, kind: GridKind) -> Option<Grid> {
    require(section.octet(6) == 0 && section.octet(11) == 0 && section.octet(12) == 0)?;
    let radius = radius(section)?;
    let (ni, nj) = (section.unsigned(31, 34), section.unsigned(35, 38));
    require((1..=65_535).contains(&ni) && (1..=65_535).contains(&nj))?;
    require(section.unsigned(7, 10) == ni * nj && ni * nj <= MOST_POINTS)?;
    Some(Grid { earth_code: section.octet(15), radius: radius as u32, ni: ni as u32, nj: nj as u32, first, kind })
}

/// The earth's radius in metres: stated with code 1, fixed with code 6.
fn radius(section: Section<'_>) -> Option<u64> {
    match section.octet(15) {
        1 => {
            let stated = section.unsigned(17, 20);
            require(section.octet(16) == 0 && stated != 0 && stated != ALL_ONES_IN_4_OCTETS)?;
            Some(stated)
        }
        6 => Some(RADIUS_OF_EARTH_CODE_6),
        _ => None,
    }
}

/// The latitude in four octets from the given one on, and the longitude in the next four.
fn grid_point(section: Section<'_>, octet: usize) -> Option<GridPoint> {
    Some(GridPoint { latitude: latitude(section, octet)?, longitude: longitude(section, octet + 4)? })
}

fn latitude(section: Section<'_>, octet: usize) -> Option<i64> {
    let latitude = section.sign_and_size(octet, octet + 3);
    require((-90_000_000..=90_000_000).contains(&latitude))?;
    Some(latitude)
}

fn longitude(section: Section<'_>, octet: usize) -> Option<u32> {
    let longitude = section.unsigned(octet, octet + 3);
    require(longitude <= 359_999_999)?;
    Some(longitude as u32)
}

/// How far the last longitude lies east of the first.
pub fn span_east(first: GridPoint, last: GridPoint) -> i64 {
    let difference = i64::from(last.longitude) - i64::from(first.longitude);
    if difference < 0 {
        difference + FULL_TURN
    } else {
        difference
    }
}

/// Whether a span differs from that of so many steps by at most one millionth a step.
fn span_fits(span: i64, count: u32, step: u64) -> bool {
    let steps = i128::from(count) - 1;
    (i128::from(span) - steps * i128::from(step)).abs() <= steps
}

/// What section 4 tells.
#[derive(Clone, Copy)]
pub struct ProductDefinition {
    pub category: u8,
    pub parameter: u8,
    pub process_kind: u8,
    pub first_surface_type: u8,
    pub level: Option<Level>,
    pub product: Product,
    pub valid_time: Time,
}

pub fn product(section: Section<'_>, reference_time: Time) -> Option<ProductDefinition> {
    require(section.length() >= 34)?;
    require(section.unsigned(6, 7) == 0)?;
    let template = section.unsigned(8, 9);
    require(matches!((template, section.length()), (0, 34) | (8, 58)))?;
    let forecast = section.unsigned(19, 22);
    require(forecast <= LARGEST_31_BITS)?;
    let valid_time = reference_time.later(forecast * seconds_in_unit(section.octet(18))?)?;
    require(section.octet(23) != 255)?;
    let level = level(section)?;
    require(section.unsigned(29, 34) == 0xFFFF_FFFF_FFFF)?;
    let product = if template == 8 { interval(section, valid_time)? } else { Product::Instant };
    Some(ProductDefinition {
        category: section.octet(10),
        parameter: section.octet(11),
        process_kind: section.octet(12),
        first_surface_type: section.octet(23),
        level,
        product,
        valid_time,
    })
}

/// The level, or none where its factor and scaled level are both all ones; the outer answer is absent where only one is.
fn level(section: Section<'_>) -> Option<Option<Level>> {
    let no_factor = section.octet(24) == 255;
    let scaled_level = section.unsigned(25, 28);
    let no_scaled_level = scaled_level == ALL_ONES_IN_4_OCTETS;
    if no_factor && no_scaled_level {
        return Some(None);
    }
    require(!no_factor && !no_scaled_level && scaled_level <= LARGEST_31_BITS)?;
    Some(Some(Level { factor: section.sign_and_size(24, 24), scaled_level: scaled_level as u32 }))
}

/// The interval that starts at the valid time.
fn interval(section: Section<'_>, valid_time: Time) -> Option<Product> {
    require(section.octet(42) == 1)?;
    let kind = match section.octet(47) {
        0 => IntervalKind::Mean,
        1 => IntervalKind::Sum,
        _ => return None,
    };
    let end = Time::read(section, 35)?;
    let length = section.unsigned(50, 53) * seconds_in_unit(section.octet(49))?;
    require(valid_time.later(length)? == end)?;
    Some(Product::Interval { end, kind })
}
