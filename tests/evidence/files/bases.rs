//! Small valid files, octet by octet the same each time, for the tests that change every one of their octets.

use crate::make::{
    section6, section7, Groups, Interval, Level, Message, PackedRun, Point, Scaling, Section1, Section3, Section3Lambert, Section4, Section5, Section7Groups,
    Signed, Time, LARGEST,
};

const POLE: i64 = 90_000_000;

fn simple(count: u32, scaling: Scaling, bits: u8) -> Vec<u8> {
    Section5 { count, scaling, bits, groups: None }.octets()
}

fn grouped(count: u32, scaling: Scaling, bits: u8, groups: Groups) -> Vec<u8> {
    Section5 { count, scaling, bits, groups: Some(groups) }.octets()
}

fn time(year: u16, month: u8, day: u8, hour: u8) -> Time {
    Time { year, month, day, hour, minute: 0, second: 0 }
}

fn dated(reference: Time) -> Vec<u8> {
    Section1 { reference, ..Section1::default() }.octets()
}

fn file(parts: &[&[Vec<u8>]]) -> Vec<u8> {
    Message::of(parts.concat()).octets()
}

/// The rules' file of 276 octets: a bitmap and then 254, 12-bit values, a temperature and a sum of rain.
fn two_fields() -> Vec<u8> {
    let level = Some(Level { factor: 0.into(), scaled: 10 });
    let temperature = Section4 { surface: 103, level, forecast: 1, ..Section4::default() };
    let rain = Section4 { category: 1, parameter: 8, interval: Some(Interval::default()), ..Section4::default() };
    let first = [temperature.octets(), simple(2, Scaling::of(0.0, 0, 0), 12), section6(0, &[0xa0]), section7(&[291, 2748], 12, 0)];
    let second = [rain.octets(), simple(2, Scaling::of(0.0, 0, 1), 12), section6(254, &[]), section7(&[5, 7], 12, 0)];
    file(&[&[Section1::default().octets(), Section3::default().octets()], &first, &second])
}

/// Three groups over ten of twelve points, on a sphere with a radius of its own, across 360 degrees and with steps off by the tolerance. What is
/// stored for the last group's length is not its length.
fn groups_under_a_bitmap() -> Vec<u8> {
    let (first, last) = (Point::at(36_000_000, 358_000_000), Point::at(33_999_998, 1_000_003));
    let earth = Section3::earth_of_radius(6_371_000, &[255; 10]);
    let grid = Section3 { earth_code: 1, earth, ni: 4, nj: 3, first, last, ..Section3::default() };
    let product = Section4 { unit: 0, forecast: 90, surface: 100, level: Some(Level { factor: (-2).into(), scaled: 850 }), ..Section4::default() };
    let plan = Groups { count: 3, width_reference: 1, width_bits: 2, length_reference: 1, last_length: 3, length_bits: 4, ..Groups::default() };
    let data = Section7Groups {
        extra_octets: 2,
        first: 60,
        second: 57,
        zmin: (-8).into(),
        references: PackedRun::of(&[4, 6, 9], 7),
        widths: PackedRun::of(&[1, 2, 0], 2),
        lengths: PackedRun::of(&[2, 3, 9], 4),
        values: vec![PackedRun::of(&[3, 0, 2], 2), PackedRun::of(&[7, 0, 5, 2], 3), PackedRun::of(&[0, 1, 1], 1)],
        spare: [0x55; 4],
    };
    let field = [product.octets(), grouped(10, Scaling::of(-100.0, -3, 1), 7, plan), section6(0, &[0xbb, 0xfa]), data.octets()];
    file(&[&[dated(time(2016, 2, 29, 18)), grid.octets()], &field])
}

/// First value, second value and Zmin in four octets each, at their limits; widths of 31 bits and of none. The span of the five rows is no
/// multiple of four.
fn four_octets() -> Vec<u8> {
    let (first, last) = (Point::at(POLE - 3, 0), Point::at(-POLE, 0));
    let grid = Section3 { ni: 1, nj: 5, first, last, di: 0xffff_ffff, dj: 45_000_000, ..Section3::default() };
    let plan =
        Groups { count: 2, width_bits: 5, length_reference: 4, length_increment: 0, last_length: 1, length_bits: 1, extra_octets: 4, ..Groups::default() };
    let data = Section7Groups {
        extra_octets: 4,
        first: LARGEST,
        second: LARGEST,
        zmin: (-(LARGEST as i64)).into(),
        references: PackedRun::of(&[0, LARGEST], 31),
        widths: PackedRun::of(&[31, 0], 5),
        lengths: PackedRun::of(&[1, 1], 1),
        values: vec![PackedRun::of(&[1, LARGEST, LARGEST, LARGEST - 9], 31), PackedRun::of(&[0], 0)],
        spare: [0xff; 4],
    };
    let field =
        [Section4 { unit: 2, forecast: 366, ..Section4::default() }.octets(), grouped(5, Scaling::of(0.5, 2, -3), 31, plan), section6(255, &[]), data.octets()];
    file(&[&[dated(time(2000, 1, 1, 0)), grid.octets()], &field])
}

/// Two messages: a test product and an operational one; the second has a bitmap of its own.
fn two_messages() -> Vec<u8> {
    let point = Point::at(0, 359_999_999);
    let grid = Section3 { ni: 1, nj: 1, first: point, last: Point { latitude: Signed::MINUS_ZERO, ..point }, ..Section3::default() };
    let test = Section1 { status: 1, ..Section1::default() };
    let first = [Section4::default().octets(), simple(1, Scaling::of(1.5, 1, 0), 2), section6(255, &[]), section7(&[3], 2, 0x3f)];
    let second = [Section4::default().octets(), simple(3, Scaling::of(-2.0, -1, -1), 5), section6(0, &[0xd0]), section7(&[31, 0, 17], 5, 0)];
    let messages = [file(&[&[test.octets(), grid.octets()], &first]), file(&[&[Section1::default().octets(), Section3::default().octets()], &second])];
    messages.concat()
}

/// Two grids in one message: a bitmap and then 254 on the first, a bitmap of another length on the second. The span of the
/// second's nine columns is no multiple of eight.
fn two_grids() -> Vec<u8> {
    let wide = Section3 { ni: 9, nj: 1, last: Point::at(36_000_000, 143_000_005), ..Section3::default() };
    let section4 = || Section4::default().octets();
    let scaling = Scaling::of(0.0, 0, 0);
    let first = [section4(), simple(3, scaling, 3), section6(0, &[0x70]), section7(&[1, 2, 7], 3, 0)];
    let later = [section4(), simple(3, scaling, 4), section6(254, &[]), section7(&[9, 10, 15], 4, 0)];
    let second = [section4(), simple(3, scaling, 1), section6(0, &[0x81, 0xff]), section7(&[1, 0, 1], 1, 0)];
    file(&[&[Section1::default().octets(), Section3::default().octets()], &first, &later, &[wide.octets()], &second])
}

/// A mean over 36 hours from the end of February in a year that is not a leap year.
fn mean() -> Vec<u8> {
    let interval = Interval { end: time(1900, 3, 2, 6), kind: 0, unit: 0, length: 2_160, ..Interval::default() };
    let product =
        Section4 { category: 2, parameter: 3, unit: 1, forecast: 6, surface: 103, level: Some(Level { factor: 1.into(), scaled: 15 }), ..Section4::default() };
    let product = Section4 { interval: Some(interval), ..product };
    let field = [product.octets(), simple(4, Scaling::of(273.15, -4, 2), 9), section6(255, &[]), section7(&[0, 511, 256, 1], 9, 0)];
    file(&[&[dated(time(1900, 2, 28, 12)), Section3::default().octets()], &field])
}

/// A field with no point present, and one whose values take no bits.
fn no_values() -> Vec<u8> {
    let nothing = [Section4::default().octets(), simple(0, Scaling::of(7.0, 0, 0), 12), section6(0, &[0x0f]), section7(&[], 12, 0)];
    let constant = [Section4::default().octets(), simple(4, Scaling::of(-1013.25, 127, 22), 0), section6(255, &[]), section7(&[], 0, 0)];
    file(&[&[Section1::default().octets(), Section3::default().octets()], &nothing, &constant])
}

/// Numbers at their limits: 31 bits, the largest single, E, D, the last second, the largest level.
fn limits() -> Vec<u8> {
    let reference = Time { year: 2399, month: 12, day: 31, hour: 23, minute: 59, second: 59 };
    let (first, last) = (Point::at(POLE, 1), Point::at(POLE, 0));
    let earth = Section3::earth_of_radius(0xffff_fffe, &[0; 10]);
    let grid = Section3 { earth_code: 1, earth, ni: 3, nj: 1, first, last, di: 179_999_999, dj: 0 };
    let level = Some(Level { factor: (-126).into(), scaled: LARGEST as u32 });
    let field = [
        Section4 { unit: 2, surface: 254, level, ..Section4::default() }.octets(),
        simple(3, Scaling::of(-f32::MAX, -127, -22), 31),
        section6(255, &[]),
        section7(&[LARGEST, 0, LARGEST - 1], 31, 0x7f),
    ];
    file(&[&[dated(reference), grid.octets()], &field])
}

/// 5.3 with as few values as there may be, each in a group of its own, and minus zero for Zmin; then the example with first 5, second 7, Zmin -1.
fn few_in_groups() -> Vec<u8> {
    let plan = Groups { count: 2, length_reference: 1, last_length: 1, extra_octets: 1, ..Groups::default() };
    let few = Section7Groups {
        extra_octets: 1,
        first: 255,
        second: 0,
        zmin: Signed::MINUS_ZERO,
        references: PackedRun::of(&[0, 0], 0),
        widths: PackedRun::of(&[0, 0], 0),
        lengths: PackedRun::of(&[0, 0], 0),
        values: vec![],
        spare: [0; 4],
    };
    let example = Section7Groups {
        first: 5,
        second: 7,
        zmin: (-1).into(),
        references: PackedRun::of(&[0], 1),
        values: vec![PackedRun::of(&[0, 0, 3, 1], 2)],
        widths: PackedRun::of(&[0], 0),
        lengths: PackedRun::of(&[0], 0),
        ..few
    };
    let whole = Groups { count: 1, width_reference: 2, last_length: 4, extra_octets: 1, ..Groups::default() };
    let scaling = Scaling::of(0.0, 0, 0);
    let first = [Section4::default().octets(), grouped(2, scaling, 0, plan), section6(0, &[0x30]), few.octets()];
    let second = [Section4::default().octets(), grouped(4, scaling, 1, whole), section6(255, &[]), example.octets()];
    file(&[&[Section1::default().octets(), Section3::default().octets()], &first, &second])
}

/// Five of six points on the Agency's cone: two rows of three points each, further apart to the right than downward.
fn on_a_sheet() -> Vec<u8> {
    let grid = Section3Lambert { ni: 3, nj: 2, ..Section3Lambert::default() };
    let level = Some(Level { factor: 0.into(), scaled: 1 });
    let product = Section4 { category: 2, parameter: 2, unit: 0, forecast: 180, surface: 118, level, ..Section4::default() };
    let field = [product.octets(), simple(5, Scaling::of(-200.0, -6, 0), 14), section6(0, &[0xd8]), section7(&[16_383, 0, 8_192, 1, 12_800], 14, 0x2a)];
    file(&[&[Section1::default().octets(), grid.octets()], &field])
}

/// Both kinds of grid in one message. The Lambert grid has its numbers at their limits, and its last column lies further right than 32 bits can tell.
fn both_kinds_of_grid() -> Vec<u8> {
    let cone = Section3Lambert { stated_latitude: Signed::MINUS_ZERO, upright_meridian: 359_999_999, dx: LARGEST as u32, dy: 1, ..Section3Lambert::default() };
    let first = Point::at(-POLE, 359_999_999);
    let limits = Section3Lambert { earth_code: 6, ni: 4, nj: 2, first, cutting_latitudes: [POLE.into(), (-POLE).into()], pole: [0x5a; 8], ..cone };
    let on_sheet = [Section4::default().octets(), simple(3, Scaling::of(1.5, 1, 0), 5), section6(0, &[0x91]), section7(&[0, 31, 16], 5, 1)];
    let in_degrees = [Section4::default().octets(), simple(4, Scaling::of(0.0, 0, 1), 3), section6(255, &[]), section7(&[1, 7, 0, 5], 3, 0)];
    file(&[&[Section1::default().octets(), Section3::default().octets()], &in_degrees, &[limits.octets()], &on_sheet])
}

/// Each with a name.
pub fn small_bases() -> Vec<(&'static str, Vec<u8>)> {
    vec![
        ("two fields", two_fields()),
        ("groups under a bitmap", groups_under_a_bitmap()),
        ("four octets", four_octets()),
        ("two messages", two_messages()),
        ("two grids", two_grids()),
        ("mean", mean()),
        ("no values", no_values()),
        ("limits", limits()),
        ("few in groups", few_in_groups()),
        ("on a sheet", on_a_sheet()),
        ("both kinds of grid", both_kinds_of_grid()),
    ]
}
