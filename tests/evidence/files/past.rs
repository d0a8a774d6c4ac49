//! Files that are one step past a limit and otherwise consistent: a reader that lacks the one rule would take them. Beside them stand a few
//! that look wrong and are taken.

use super::calendar::{days_of_month, last_second, time_at};
use crate::make::{
    bitmap, section, section6, section7, Groups, Interval, Message, PackedRun, Point, Scaling, Section1, Section3, Section3Lambert, Section4, Section5,
    Section7Groups, Signed, Time,
};
use crate::random::Random;

/// A row of so many points.
fn row(ni: u32) -> Section3 {
    let (first, last) = (Point::at(36_000_000, 135_000_000), Point::at(36_000_000, 135_000_000 + 1_000 * (ni - 1)));
    Section3 { ni, nj: 1, first, last, di: 1_000, ..Section3::default() }
}

fn simple(count: u32, scaling: Scaling, bits: u8) -> Vec<u8> {
    Section5 { count, scaling, bits, groups: None }.octets()
}

fn field(section5: Vec<u8>, section6: Vec<u8>, section7: Vec<u8>) -> Vec<Vec<u8>> {
    vec![Section4::default().octets(), section5, section6, section7]
}

/// A message of one grid.
fn file(section1: Section1, section3: Vec<u8>, fields: Vec<Vec<u8>>) -> Vec<u8> {
    Message::of([vec![section1.octets(), section3], fields].concat()).octets()
}

/// A message of one grid and a field of no bits on it.
fn file_of_grid(section3: Vec<u8>, points: u32) -> Vec<u8> {
    file(Section1::default(), section3, field(simple(points, Scaling::of(1.0, 0, 0), 0), section6(255, &[]), section7(&[], 0, 0)))
}

/// Octets 16 to 30 of earth code 1, with a radius at a limit, or with an octet before it that is not 0.
fn earth(random: &mut Random) -> [u8; 15] {
    let radius = *random.choose(&[0, 1, 0xffff_fffe, 0xffff_ffff]);
    let mut earth = Section3::earth_of_radius(radius, &[255; 10]);
    earth[0] = *random.choose(&[0, 0, 1]);
    earth
}

/// A grid at or past a limit of latitudes, longitudes, the tolerance or the radius, and a field of no bits on it. One is so wide that its steps
/// come to more than a full turn.
pub fn grid(random: &mut Random) -> Vec<u8> {
    let steps = random.between(1, 5) as u32;
    let (latitude, longitude) = *random.choose(&[(90_000_001, 0), (-90_000_001, 0), (0, 360_000_000)]);
    let off = *random.choose(&[steps, steps + 1]);
    let point = Point::at(latitude, longitude);
    let whole = row(steps + 1);
    let east = Point { longitude: whole.last.longitude + off, ..whole.last };
    let column = Section3 { ni: 1, nj: steps + 1, dj: 7, ..row(1) };
    let south = |span: u32| Point::at(36_000_000 - i64::from(span), 135_000_000);
    let earth = earth(random);
    let turns = *random.choose(&[7, 11, 13]);
    let grid = match random.below(6) {
        0 => Section3 { first: point, last: point, ..row(1) },
        1 => Section3 { last: east, ..whole },
        2 => Section3 { last: south(7 * steps + off), ..column },
        3 => Section3 { last: Point::at(36_000_000 + random.below(u64::from(steps) + 1) as i64, 135_000_000), dj: 0, ..column },
        4 => Section3 { first: Point::at(0, 359_999_999), last: Point::at(0, 359_999_998), di: 359_999_999 / turns + 1, ..row(turns + 1) },
        _ => Section3 { earth_code: 1, earth, ..whole },
    };
    file_of_grid(grid.octets(), grid.ni * grid.nj)
}

/// A Lambert grid at or past a limit of its angles, its lengths or the radius, or with an octet that is not as it has to be.
fn lambert_at_a_limit(random: &mut Random) -> Section3Lambert {
    let own = || Section3Lambert { ni: 3, nj: 2, ..Section3Lambert::default() };
    let latitude: Signed = (*random.choose(&[90_000_000, 90_000_001, -90_000_000, -90_000_001])).into();
    let longitude = *random.choose(&[359_999_999, 360_000_000]);
    let length = *random.choose(&[0, 1, 0x7fff_ffff, 0x8000_0000, 0xffff_ffff]);
    let ordinary: Signed = 30_000_000.into();
    match random.below(12) {
        0 => Section3Lambert { first: Point { latitude, ..own().first }, ..own() },
        1 => Section3Lambert { first: Point { longitude, ..own().first }, ..own() },
        2 => Section3Lambert { stated_latitude: latitude, ..own() },
        3 => Section3Lambert { upright_meridian: longitude, ..own() },
        4 => Section3Lambert { cutting_latitudes: [latitude, ordinary], ..own() },
        5 => Section3Lambert { cutting_latitudes: [ordinary, latitude], ..own() },
        6 => Section3Lambert { dx: length, ..own() },
        7 => Section3Lambert { dy: length, ..own() },
        8 => Section3Lambert { flags: *random.choose(&[0, 0x09, 0x38]), ..own() },
        9 => Section3Lambert { centre: *random.choose(&[1, 0x80]), ..own() },
        10 => Section3Lambert { scanning: *random.choose(&[1, 0x40, 0x80]), ..own() },
        _ => Section3Lambert { earth: earth(random), ..own() },
    }
}

/// A grid with the template of one kind and the length of the other, or with a length that no kind has.
fn grid_of_another_length(random: &mut Random) -> Vec<u8> {
    let lengths = [72, 80, 82, 90];
    let mut grid = if random.chance(1, 2) { Section3Lambert { ni: 3, nj: 2, ..Section3Lambert::default() }.octets() } else { row(6).octets() };
    let length = if grid.len() == 81 { *random.choose(&lengths) } else { 81 };
    grid.resize(length, 0);
    grid[..4].copy_from_slice(&(length as u32).to_be_bytes());
    grid
}

pub fn lambert(random: &mut Random) -> Vec<u8> {
    let grid = if random.chance(1, 8) { grid_of_another_length(random) } else { lambert_at_a_limit(random).octets() };
    file_of_grid(grid, 6)
}

/// A reference time that is not in the calendar, or just is.
fn reference(random: &mut Random) -> Time {
    let year = *random.choose(&[1899, 1900, 2000, 2017, 2100, 2399, 2400]);
    let month = *random.choose(&[2, 2, 4, 12]);
    let day = days_of_month(year, month) + random.below(2) as u8;
    let (hour, minute, second) = *random.choose(&[(0, 0, 0), (23, 59, 59), (24, 0, 0), (23, 60, 0), (23, 59, 60)]);
    Time { year, month, day, hour, minute, second }
}

/// A reference time near the end of 2399, and an instant or an interval's end a minute later.
fn last_moments(random: &mut Random) -> (Time, Section4) {
    let start = last_second() - random.between(58, 62) as u64;
    let later = time_at(start + 60);
    let end = Time { second: (later.second + *random.choose(&[0, 0, 1])) % 60, ..later };
    let forecast = random.below(2) as u32;
    let interval = Interval { end, unit: 0, length: 1 - forecast, ..Interval::default() };
    let interval = if random.chance(2, 3) { Some(interval) } else { None };
    (time_at(start), Section4 { unit: 0, forecast, interval, ..Section4::default() })
}

pub fn time(random: &mut Random) -> Vec<u8> {
    let (reference, product) = if random.chance(1, 2) { (reference(random), Section4::default()) } else { last_moments(random) };
    let data = vec![product.octets(), simple(3, Scaling::of(0.0, 0, 0), 4), section6(255, &[]), section7(&[1, 2, 3], 4, 0)];
    file(Section1 { reference, ..Section1::default() }, row(3).octets(), data)
}

/// R, E, D or the bits of 5.0 at their limits and past them.
pub fn packing(random: &mut Random) -> Vec<u8> {
    let ordinary = Scaling::of(1.5, 1, 0);
    let r = *random.choose(&[0x7f7f_ffff, 0x7f80_0000, 0xff80_0000, 0x7fc0_0000]);
    let (e, d) = *random.choose(&[(127, 22), (-127, -22), (128, 0), (-128, 0), (0, 23), (0, -23)]);
    let bits = *random.choose(&[31, 32, 33]);
    let (scaling, bits) = match random.below(3) {
        0 => (Scaling { r, ..ordinary }, 12),
        1 => (Scaling { e: Signed::from(e), d: Signed::from(d), ..ordinary }, 12),
        _ => (ordinary, bits),
    };
    let data = field(simple(3, scaling, bits), section6(255, &[]), section7(&[4095, 0, 1], bits, 0));
    file(Section1::default(), row(3).octets(), data)
}

/// What section 5 says of the groups, and what section 7 stores for the first of them; for the others it stores zeros.
struct Plan {
    groups: Groups,
    bits: u8,
    stored_width: u64,
    stored_length: u64,
}

/// Two groups of two values whose numbers take as many bits or octets as there may be or one more, with a group of no values beside them, or with
/// a length that is right only if it wraps at 2^32.
fn plan(random: &mut Random) -> Plan {
    let groups = Groups { count: 2, width_reference: 2, length_reference: 2, last_length: 2, ..Groups::default() };
    let mut plan = Plan { groups, bits: 1, stored_width: 0, stored_length: 0 };
    let over = random.below(2) as u8;
    let groups = &mut plan.groups;
    match random.below(9) {
        0 => plan.bits = 31 + over,
        1 => (groups.width_reference, groups.width_bits, plan.stored_width) = (31, 1, u64::from(over)),
        2 => groups.width_reference = 31 + over,
        3 => groups.width_bits = 31 + over,
        4 => groups.length_bits = 31 + over,
        5 => groups.extra_octets = 4 + over,
        6 => (groups.length_reference, groups.last_length) = (4, 0),
        7 => (groups.count, groups.length_reference, groups.length_increment, groups.length_bits, plan.stored_length) = (3, 0, 2, 1, 1),
        _ => {
            (groups.length_increment, groups.length_bits, plan.stored_length) = (random.octet(), 31, random.below(1 << 31));
            groups.length_reference = 2_u64.wrapping_sub(u64::from(groups.length_increment) * plan.stored_length) as u32;
        }
    }
    plan
}

pub fn groups(random: &mut Random) -> Vec<u8> {
    let Plan { groups, bits, stored_width, stored_length } = plan(random);
    let width = |stored: u64| groups.width_reference + stored as u8;
    let first_of_all = |stored: u64| -> Vec<u64> { (0..groups.count).map(|group| if group == 0 { stored } else { 0 }).collect() };
    let data = Section7Groups {
        extra_octets: groups.extra_octets,
        first: 5,
        second: 7,
        zmin: (-1).into(),
        references: PackedRun::of(&first_of_all(0), bits),
        widths: PackedRun::of(&first_of_all(stored_width), groups.width_bits),
        lengths: PackedRun::of(&first_of_all(stored_length), groups.length_bits),
        values: vec![PackedRun::of(&[0, 0], width(stored_width)), PackedRun::of(&[3, 1], width(0))],
        spare: [0; 4],
    };
    let section5 = Section5 { count: 4, scaling: Scaling::of(0.0, 0, 0), bits, groups: Some(groups) };
    file(Section1::default(), row(4).octets(), field(section5.octets(), section6(255, &[]), data.octets()))
}

/// Fields that a bitmap is right for, by indicator 0 or 254.
fn under(section6: Vec<u8>, count: u32) -> Vec<Vec<u8>> {
    field(simple(count, Scaling::of(2.0, 0, 0), 0), section6, section7(&[], 0, 0))
}

/// A bitmap and later 254, and between them what may or may not change the bitmap that 254 uses.
pub fn bitmaps(random: &mut Random) -> Vec<u8> {
    let points = random.between(8, 17) as u32;
    let mut marks = || -> Vec<bool> { (0..points).map(|_| random.chance(2, 3)).collect() };
    let (marks, other_marks) = (marks(), marks());
    let present = |marks: &[bool]| marks.iter().filter(|mark| **mark).count() as u32;
    let (own, other) = (bitmap(&marks, 0), bitmap(&other_marks, 0));
    let (count, other_count) = (present(&marks), present(&other_marks));
    let start = vec![Section1::default().octets(), row(points).octets()];
    let first = [start.clone(), under(section6(0, &own), count)].concat();
    let (between, count) = match random.below(7) {
        0 => (under(section6(0, &other[1..]), count), count),
        1 => (under(section6(0, &[]), count), count),
        2 => (under(section(6, &[]), count), count),
        3 => (under(section6(*random.choose(&[1, 253, 255]), &other), count), count),
        4 => (field(simple(9, Scaling::of(2.0, 0, 0), 32), section6(0, &other), section7(&[], 0, 0)), other_count),
        5 => (under(section6(255, &[]), points), count),
        _ => (vec![], count),
    };
    let last = under(section6(254, &[]), count);
    match random.below(4) {
        0 => [Message::of([first, between].concat()).octets(), Message::of([start, last].concat()).octets()].concat(),
        1 => Message::of([first, between, start[1..].to_vec(), last].concat()).octets(),
        _ => Message::of([first, between, last].concat()).octets(),
    }
}
