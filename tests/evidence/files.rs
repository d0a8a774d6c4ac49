//! Valid files: at random over the whole range of the rules, and a few small ones octet by octet.

mod bases;
mod calendar;
mod groups;
mod past;
mod pictures;

use crate::make::{
    bitmap, section6, section7, Interval, Level, Message, Point, Scaling, Section1, Section3, Section3Lambert, Section4, Section5, Signed, Time, LARGEST,
};
use crate::random::Random;
pub use bases::small_bases;
use calendar::{days_of_month, last_second, seconds_of, time_at, SECONDS_OF_UNIT};
pub use pictures::pictures;

const MOST_EAST: i64 = 359_999_999;
const POLE: i64 = 90_000_000;

/// A file of one message or some, and now and then of up to forty.
pub fn valid(random: &mut Random) -> Vec<u8> {
    let messages = if random.chance(1, 120) { random.between(10, 40) } else { *random.choose(&[1, 1, 1, 1, 1, 1, 1, 1, 1, 1, 2, 2, 3]) };
    (0..messages).flat_map(|_| message(random)).collect()
}

/// A file of few octets whose one field has more points than any run that is lent for it, up to the most that a grid may have and just past it:
/// all are present, and each takes 0 bits.
pub fn vast(random: &mut Random) -> Vec<u8> {
    let taken = [(65_535, 256), (256, 65_535), (4_096, 4_096), (65_535, 1), (1, 65_535), (65_535, 2), (5_000, 1), (16_384, 1_024)];
    let refused = [(65_536, 256), (65_536, 1), (1, 65_536), (4_096, 4_097), (65_535, 257), (257, 65_281), (65_535, 65_535)];
    let (ni, nj) = if random.chance(2, 3) { *random.choose(&taken) } else { *random.choose(&refused) };
    let section5 = Section5 { count: ni * nj, scaling: scaling(random), bits: 0, groups: None };
    one_field(random, (ni, nj), [section5.octets(), section6(255, &[]), section7(&[], 0, 0)])
}

/// A file at a limit or one step past it, and otherwise consistent.
pub fn at_a_limit(random: &mut Random) -> Vec<u8> {
    let parts = [past::grid, past::lambert, past::time, past::packing, past::groups, past::bitmaps];
    random.choose(&parts)(random)
}

/// A file whose one field is refused by 16 and by nothing else.
pub fn straying(random: &mut Random) -> Vec<u8> {
    let (ni, nj) = (random.between(1, 7) as u32, random.between(2, 4) as u32);
    let (scaling, points) = (scaling(random), (ni * nj) as usize);
    let (section6, count) = match section_of_presence(random, points, &mut None) {
        (_, 0..=1) => (section6(255, &[]), points),
        presence => presence,
    };
    let (section5, section7) = groups::straying_sections(random, scaling, count);
    one_field(random, (ni, nj), [section5, section6, section7])
}

/// One field, given by its sections 5 to 7.
fn one_field(random: &mut Random, (ni, nj): (u32, u32), [section5, section6, section7]: [Vec<u8>; 3]) -> Vec<u8> {
    let reference = reference_second(random);
    let grid = vec![section1(random, reference), section3(random, ni, nj)];
    Message::of([grid, vec![section4(random, reference), section5, section6, section7]].concat()).octets()
}

fn message(random: &mut Random) -> Vec<u8> {
    let reference = reference_second(random);
    let mut sections = vec![section1(random, reference)];
    for _ in 0..*random.choose(&[1, 1, 1, 1, 1, 1, 1, 1, 2, 2, 3]) {
        sections.extend(grid(random, reference));
    }
    Message { reserved: [random.octet(), random.octet()], discipline: random.octet(), sections }.octets()
}

/// Section 3 and the fields on it. A bitmap of one grid is not seen from another.
fn grid(random: &mut Random, reference: u64) -> Vec<Vec<u8>> {
    let (ni, nj) = shape(random);
    let mut sections = vec![section3(random, ni, nj)];
    let mut latest = None;
    for _ in 0..*random.choose(&[1, 1, 1, 1, 1, 1, 2, 2, 3, 4]) {
        sections.push(section4(random, reference));
        let (section6, count) = section_of_presence(random, (ni * nj) as usize, &mut latest);
        let (section5, section7) = data(random, count);
        sections.extend(vec![section5, section6, section7]);
    }
    sections
}

// ---- times

/// A reference time in seconds: any, or near the end of a day, a month, a February, a year, or of all years.
fn reference_second(random: &mut Random) -> u64 {
    let any_year = random.between(1900, 2399) as u16;
    let any_month = random.between(1, 12) as u8;
    let (hour, minute, second) = *random.choose(&[(23, 59, 59), (23, 30, 0), (0, 0, 0), (18, 0, 0), (21, 7, 31)]);
    let end_of_month = |year, month| seconds_of(Time { year, month, day: days_of_month(year, month), hour, minute, second });
    match random.below(8) {
        0 => 0,
        1 => last_second() - random.below(3),
        2 => end_of_month(any_year, 12),
        3 => end_of_month(*random.choose(&[1900, 1904, 2000, 2016, 2017, 2100, 2396, 2399]), 2),
        4 | 5 => end_of_month(any_year, any_month),
        _ => random.below(last_second() + 1),
    }
}

/// How many of a unit, so that a time is not passed: none, a few, very many, or all that there are.
fn duration(random: &mut Random, seconds_left: u64, unit: u8) -> u64 {
    let most = seconds_left / SECONDS_OF_UNIT[usize::from(unit)];
    match random.below(8) {
        0 => 0,
        1 => most,
        2 => random.below(most + 1),
        3 => random.below(most.min(50_000) + 1),
        _ => random.below(most.min(100) + 1),
    }
}

fn section1(random: &mut Random, reference: u64) -> Vec<u8> {
    let tables = (random.any() as u32).to_be_bytes();
    let (reference, status, kind_of_data) = (time_at(reference), random.below(2) as u8, random.octet());
    Section1 { tables, reference, status, kind_of_data, ..Section1::default() }.octets()
}

// ---- grids

/// Ni and Nj.
fn shape(random: &mut Random) -> (u32, u32) {
    let mut to = |most: i64| random.between(1, most) as u32;
    let (few, some, many) = (to(6), to(40), to(300));
    let (small, other) = (to(5), to(3));
    match random.below(40) {
        0 => (many, other),
        1 => (other, many),
        2..=4 => (1, 1),
        5..=8 => (some, 1),
        9..=12 => (1, some),
        _ => (few, small),
    }
}

/// The span over so many steps and the length of one step, which may miss the span by as much as one for each step. A row or column of one
/// point has no span, and its step is free.
fn span_and_step(random: &mut Random, steps: u32, limit: i64) -> (i64, u32) {
    if steps == 0 {
        return (0, random.any() as u32);
    }
    let steps = i64::from(steps);
    let degree = limit.min(steps * 1_000_000);
    let any = random.between(0, limit);
    let few = random.between(0, limit.min(3 * steps));
    let span = *random.choose(&[degree, degree, any, any, any - any % steps, any - any % steps, few, 0, limit]);
    let step = span / steps;
    let off_by_one = if span % steps == 0 { *random.choose(&[step, (step - 1).max(0), step + 1]) } else { step + 1 };
    (span, *random.choose(&[step, off_by_one]) as u32)
}

fn latitude(random: &mut Random, value: i64) -> Signed {
    if value == 0 && random.chance(1, 2) {
        Signed::MINUS_ZERO
    } else {
        value.into()
    }
}

/// The first latitude, so that the last is still on the earth: often a pole or the equator at either end.
fn first_latitude(random: &mut Random, span: i64) -> i64 {
    let any = random.between(span - POLE, POLE);
    (*random.choose(&[any, any, any, POLE, span - POLE, 0, span])).clamp(span - POLE, POLE)
}

/// Section 3 of either kind.
fn section3(random: &mut Random, ni: u32, nj: u32) -> Vec<u8> {
    if random.chance(2, 5) {
        return lambert(random, ni, nj);
    }
    in_degrees(random, ni, nj)
}

/// The earth's code, and octets 16 to 30 for it.
fn earth(random: &mut Random) -> (u8, [u8; 15]) {
    let without_rule = random.octets(15);
    let any_radius = random.between(1, 0xffff_fffe) as u32;
    let radius = *random.choose(&[6_371_000, 1, 0xffff_fffe, any_radius]);
    let mut earth = Section3::earth_of_radius(radius, &without_rule);
    if random.chance(1, 2) {
        return (1, earth);
    }
    earth.copy_from_slice(&without_rule);
    (6, earth)
}

fn in_degrees(random: &mut Random, ni: u32, nj: u32) -> Vec<u8> {
    let (east, di) = span_and_step(random, ni - 1, MOST_EAST);
    let (south, dj) = span_and_step(random, nj - 1, 2 * POLE);
    let north = first_latitude(random, south);
    let any = random.between(0, MOST_EAST);
    let west = *random.choose(&[any, any, 0, MOST_EAST, MOST_EAST - east, (MOST_EAST + 1 - east) % (MOST_EAST + 1)]);
    let first = Point { latitude: latitude(random, north), longitude: west as u32 };
    let last = Point { latitude: latitude(random, north - south), longitude: ((west + east) % (MOST_EAST + 1)) as u32 };
    let (earth_code, earth) = earth(random);
    Section3 { earth_code, earth, ni, nj, first, last, di, dj }.octets()
}

/// Any latitude, often a pole, the equator or the Agency's.
fn any_latitude(random: &mut Random) -> Signed {
    let any = random.between(-POLE, POLE);
    let value = *random.choose(&[any, any, POLE, -POLE, 0, 30_000_000]);
    latitude(random, value)
}

fn any_longitude(random: &mut Random) -> u32 {
    let any = random.between(0, MOST_EAST);
    *random.choose(&[any, any, 0, MOST_EAST, 140_000_000]) as u32
}

/// A length on the sheet: any, the shortest, the longest, or the Agency's.
fn any_length(random: &mut Random) -> u32 {
    let any = random.between(1, LARGEST as i64) as u32;
    *random.choose(&[any, any, 1, LARGEST as u32, 5_000_000])
}

/// The numbers of a Lambert grid need not fit one another: no rule ties them.
fn lambert(random: &mut Random, ni: u32, nj: u32) -> Vec<u8> {
    let (earth_code, earth) = earth(random);
    let first = Point { latitude: any_latitude(random), longitude: any_longitude(random) };
    let (stated_latitude, upright_meridian) = (any_latitude(random), any_longitude(random));
    let (dx, dy) = (any_length(random), any_length(random));
    let cutting_latitudes = [any_latitude(random), any_latitude(random)];
    let pole = random.any().to_be_bytes();
    let own = Section3Lambert { stated_latitude, upright_meridian, dx, dy, cutting_latitudes, pole, ..Section3Lambert::default() };
    Section3Lambert { earth_code, earth, ni, nj, first, ..own }.octets()
}

// ---- products

fn level(random: &mut Random) -> Option<Level> {
    if random.chance(1, 4) {
        return None;
    }
    let any = Signed::from(random.between(-126, 127));
    let factor = *random.choose(&[any, any, 0.into(), Signed::MINUS_ZERO, 1.into(), (-2).into(), 127.into(), (-126).into()]);
    Some(Level { factor, scaled: groups::of_bits(random, 31) as u32 })
}

/// An interval that starts so many seconds from the start of 1900.
fn interval(random: &mut Random, start: u64) -> Interval {
    let unit = random.below(3) as u8;
    let length = duration(random, last_second() - start, unit);
    let end = time_at(start + length * SECONDS_OF_UNIT[usize::from(unit)]);
    let missing = (random.any() as u32).to_be_bytes();
    let [a, b, c, d, e, ..] = random.any().to_be_bytes();
    Interval { end, missing, kind: random.below(2) as u8, increments: random.octet(), unit, length: length as u32, increment: [a, b, c, d, e] }
}

fn section4(random: &mut Random, reference: u64) -> Vec<u8> {
    let unit = random.below(3) as u8;
    let forecast = duration(random, last_second() - reference, unit);
    let start = reference + forecast * SECONDS_OF_UNIT[usize::from(unit)];
    let interval = if random.chance(2, 5) { Some(interval(random, start)) } else { None };
    let [a, b, c, d, e, category, parameter, process] = random.any().to_be_bytes();
    let surface = random.below(255) as u8;
    Section4 { category, parameter, process, processing: [a, b, c, d, e], unit, forecast: forecast as u32, surface, level: level(random), interval }.octets()
}

// ---- presence and data

fn marks(random: &mut Random, points: usize) -> Vec<bool> {
    let density = *random.choose(&[0, 1, 3, 4, 5, 6, 7, 7, 8]);
    (0..points).map(|_| random.chance(density, 8)).collect()
}

/// Section 6 and the number of points present. The latest bitmap is the one that 254 uses.
fn section_of_presence(random: &mut Random, points: usize, latest: &mut Option<Vec<bool>>) -> (Vec<u8>, usize) {
    let present = |marks: &[bool]| marks.iter().filter(|mark| **mark).count();
    let indicator = *random.choose(&[0, 0, 254, 254, 255]);
    match (indicator, &latest) {
        (254, Some(marks)) => (section6(254, &[]), present(marks)),
        (255, _) => (section6(255, &[]), points),
        _ => {
            let marks = marks(random, points);
            let made = (section6(0, &bitmap(&marks, random.octet())), present(&marks));
            *latest = Some(marks);
            made
        }
    }
}

/// R is any finite single, often zero of either sign, the smallest, the smallest normal or the largest.
fn scaling(random: &mut Random) -> Scaling {
    let sign = (random.below(2) as u32) << 31;
    let any = random.below(0x7f80_0000) as u32;
    let ordinary = random.between(0x3000_0000, 0x5000_0000) as u32;
    let r = *random.choose(&[any, any, ordinary, ordinary, 0, 1, 0x007f_ffff, 0x0080_0000, 0x7f7f_ffff]) | sign;
    let (e, d) = (power(random, 127), power(random, 22));
    Scaling { r, e, d }
}

fn power(random: &mut Random, limit: i64) -> Signed {
    let (any, small) = (Signed::from(random.between(-limit, limit)), Signed::from(random.between(-4, 4)));
    *random.choose(&[any, any, small, small, limit.into(), (-limit).into(), Signed::MINUS_ZERO])
}

/// Sections 5 and 7 for so many values.
fn data(random: &mut Random, count: usize) -> (Vec<u8>, Vec<u8>) {
    let scaling = scaling(random);
    if count >= 2 && random.chance(3, 5) {
        return groups::sections(random, scaling, count);
    }
    let any = random.between(0, 31) as u8;
    let bits = *random.choose(&[any, any, any, 0, 12, 31]);
    let values: Vec<u64> = (0..count).map(|_| groups::of_bits(random, bits).min(LARGEST)).collect();
    let section5 = Section5 { count: count as u32, scaling, bits, groups: None };
    (section5.octets(), section7(&values, bits, random.octet()))
}
