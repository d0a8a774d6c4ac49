//! The rules' own examples, every refusal with its place, and both sides of every limit, on files built octet by octet.

use crate::exact::rounded;
use crate::octets::{octets_for, sign_and_size};
use crate::*;

const ALL_ONES: [u8; 4] = [0xFF; 4];

/// A section of the given length and number, with nothing else in it.
fn blank(length: usize, number: u8) -> Vec<u8> {
    let mut section = vec![0; length];
    section[..4].copy_from_slice(&(length as u32).to_be_bytes());
    section[4] = number;
    section
}

/// Puts octets into a section from the octet given on, counted from 1.
fn put(section: &mut [u8], first: usize, octets: &[u8]) {
    section[first - 1..first - 1 + octets.len()].copy_from_slice(octets);
}

/// A section whose octets from the sixth on are given.
fn section(number: u8, octets: &[u8]) -> Vec<u8> {
    let mut whole = blank(5 + octets.len(), number);
    put(&mut whole, 6, octets);
    whole
}

/// The octets of a signed number, sign in the top bit.
fn signed_octets(number: i64) -> [u8; 4] {
    (number.unsigned_abs() as u32 | u32::from(number < 0) << 31).to_be_bytes()
}

fn signed_pair(number: i64) -> [u8; 2] {
    (number.unsigned_abs() as u16 | u16::from(number < 0) << 15).to_be_bytes()
}

/// Seven octets: two of the year and one of each smaller unit.
fn time_octets(year: u16, rest: [u8; 5]) -> [u8; 7] {
    let [high, low] = year.to_be_bytes();
    [high, low, rest[0], rest[1], rest[2], rest[3], rest[4]]
}

fn message(discipline: u8, sections: &[Vec<u8>]) -> Vec<u8> {
    let inside = sections.concat();
    let length = inside.len() as u64 + 20;
    let head = [b'G', b'R', b'I', b'B', 0, 0, discipline, 2];
    [&head[..], &length.to_be_bytes()[..], &inside[..], b"7777"].concat()
}

/// Reference time 2017-05-15 12:00:00.
fn section_1() -> Vec<u8> {
    let mut section = blank(21, 1);
    put(&mut section, 6, &[0, 34]);
    put(&mut section, 12, &[1]);
    put(&mut section, 13, &time_octets(2017, [5, 15, 12, 0, 0]));
    section
}

/// The numbers of a grid, as a file states them.
#[derive(Clone, Copy)]
struct StatedGrid {
    ni: u32,
    nj: u32,
    points: u32,
    first: (i64, u32),
    last: (i64, u32),
    di: u32,
    dj: u32,
}

/// A grid whose last point is exactly where its steps lead.
fn stated_grid(ni: u32, nj: u32, first: (i64, u32), di: u32, dj: u32) -> StatedGrid {
    let latitude = first.0 - i64::from(nj - 1) * i64::from(dj);
    let longitude = (u64::from(first.1) + u64::from(ni - 1) * u64::from(di)) % 360_000_000;
    StatedGrid { ni, nj, points: ni.wrapping_mul(nj), first, last: (latitude, longitude as u32), di, dj }
}

/// All points at one place, so that only the counts matter.
fn flat_grid(ni: u32, nj: u32) -> StatedGrid {
    stated_grid(ni, nj, (0, 0), 0, 0)
}

fn small_grid() -> StatedGrid {
    stated_grid(2, 2, (36_000_000, 135_000_000), 62_500, 50_000)
}

fn section_3(grid: StatedGrid) -> Vec<u8> {
    let mut section = blank(72, 3);
    put(&mut section, 7, &grid.points.to_be_bytes());
    put(&mut section, 15, &[6]);
    put(&mut section, 31, &grid.ni.to_be_bytes());
    put(&mut section, 35, &grid.nj.to_be_bytes());
    put(&mut section, 43, &ALL_ONES);
    put(&mut section, 47, &signed_octets(grid.first.0));
    put(&mut section, 51, &grid.first.1.to_be_bytes());
    put(&mut section, 55, &[0x30]);
    put(&mut section, 56, &signed_octets(grid.last.0));
    put(&mut section, 60, &grid.last.1.to_be_bytes());
    put(&mut section, 64, &grid.di.to_be_bytes());
    put(&mut section, 68, &grid.dj.to_be_bytes());
    section
}

/// The numbers of a Lambert grid, as a file states them.
#[derive(Clone, Copy)]
struct StatedLambert {
    ni: u32,
    nj: u32,
    points: u32,
    first: (i64, u32),
    stated_latitude: i64,
    upright_meridian: u32,
    dx: u32,
    dy: u32,
    cutting_latitudes: (i64, i64),
}

/// So many columns and rows, 5 km apart to the right and 4 km downward.
fn stated_lambert(ni: u32, nj: u32) -> StatedLambert {
    StatedLambert {
        ni,
        nj,
        points: ni.wrapping_mul(nj),
        first: (44_137_789, 102_008_758),
        stated_latitude: 30_000_000,
        upright_meridian: 140_000_000,
        dx: 5_000_000,
        dy: 4_000_000,
        cutting_latitudes: (60_000_000, 30_000_000),
    }
}

fn section_3_lambert(grid: StatedLambert) -> Vec<u8> {
    let mut section = blank(81, 3);
    put(&mut section, 7, &grid.points.to_be_bytes());
    put(&mut section, 14, &[30, 6]);
    put(&mut section, 31, &grid.ni.to_be_bytes());
    put(&mut section, 35, &grid.nj.to_be_bytes());
    put(&mut section, 39, &signed_octets(grid.first.0));
    put(&mut section, 43, &grid.first.1.to_be_bytes());
    put(&mut section, 47, &[0x08]);
    put(&mut section, 48, &signed_octets(grid.stated_latitude));
    put(&mut section, 52, &grid.upright_meridian.to_be_bytes());
    put(&mut section, 56, &grid.dx.to_be_bytes());
    put(&mut section, 60, &grid.dy.to_be_bytes());
    put(&mut section, 66, &signed_octets(grid.cutting_latitudes.0));
    put(&mut section, 70, &signed_octets(grid.cutting_latitudes.1));
    section
}

/// Temperature at 10 m, so many hours ahead.
fn section_4_instant(hours: u32) -> Vec<u8> {
    let mut section = blank(34, 4);
    put(&mut section, 12, &[2]);
    put(&mut section, 18, &[1]);
    put(&mut section, 19, &hours.to_be_bytes());
    put(&mut section, 23, &[103, 0, 0, 0, 0, 10]);
    put(&mut section, 29, &[0xFF; 6]);
    section
}

/// Rain at the ground, summed over the first hour after the reference time.
fn section_4_interval() -> Vec<u8> {
    let mut section = blank(58, 4);
    put(&mut section, 9, &[8, 1, 8, 2]);
    put(&mut section, 18, &[1]);
    put(&mut section, 23, &[1]);
    put(&mut section, 24, &[0xFF; 11]);
    put(&mut section, 35, &time_octets(2017, [5, 15, 13, 0, 0]));
    put(&mut section, 42, &[1]);
    put(&mut section, 47, &[1, 2, 1]);
    put(&mut section, 50, &1u32.to_be_bytes());
    section
}

/// Template 5.0 with R, E and D zero.
fn section_5_simple(n: u32, bits: u8) -> Vec<u8> {
    let mut section = blank(21, 5);
    put(&mut section, 6, &n.to_be_bytes());
    put(&mut section, 20, &[bits]);
    section
}

/// The numbers of template 5.3 that the tests vary.
#[derive(Clone, Copy)]
struct StatedGroups {
    n: u32,
    reference_bits: u8,
    count: u32,
    width_reference: u8,
    width_bits: u8,
    length_reference: u32,
    length_increment: u8,
    last_length: u32,
    scaled_length_bits: u8,
    value_octets: u8,
}

/// Four values in one group of two bits each, nothing stored about the group.
const ONE_GROUP: StatedGroups = StatedGroups {
    n: 4,
    reference_bits: 0,
    count: 1,
    width_reference: 2,
    width_bits: 0,
    length_reference: 0,
    length_increment: 0,
    last_length: 4,
    scaled_length_bits: 0,
    value_octets: 1,
};
/// First 5, second 7, Zmin -1, packed 0, 0, 3, 1.
const ONE_GROUP_DATA: [u8; 4] = [5, 7, 0x81, 0b0000_1101];

/// Groups of three values of three bits and two values of five bits, each run ending in spare bits.
const TWO_GROUPS: StatedGroups = StatedGroups {
    n: 5,
    reference_bits: 4,
    count: 2,
    width_reference: 3,
    width_bits: 2,
    length_reference: 1,
    length_increment: 2,
    last_length: 2,
    scaled_length_bits: 3,
    value_octets: 2,
};
/// First 100, second 102, Zmin -3, references 1 and 2, widths 0 and 2, scaled lengths 1 and 7, packed 7, 7, 2, 4, 9.
const TWO_GROUPS_DATA: [u8; 12] = [0, 100, 0, 102, 0x80, 3, 0x12, 0b0010_0000, 0b0011_1100, 0b1111_1101, 0b0001_0001, 0b0010_0000];

fn section_5_grouped(groups: StatedGroups) -> Vec<u8> {
    let mut section = blank(49, 5);
    put(&mut section, 6, &groups.n.to_be_bytes());
    put(&mut section, 10, &[0, 3]);
    put(&mut section, 20, &[groups.reference_bits, 0, 1, 0]);
    put(&mut section, 32, &groups.count.to_be_bytes());
    put(&mut section, 36, &[groups.width_reference, groups.width_bits]);
    put(&mut section, 38, &groups.length_reference.to_be_bytes());
    put(&mut section, 42, &[groups.length_increment]);
    put(&mut section, 43, &groups.last_length.to_be_bytes());
    put(&mut section, 47, &[groups.scaled_length_bits, 2, groups.value_octets]);
    section
}

/// The sections of a message with one field; the places of their starts depend on their lengths.
#[derive(Clone)]
struct OneField {
    sections: Vec<Vec<u8>>,
}

impl OneField {
    /// An instant of four values of twelve bits: 0x123, 0xABC, 0, 1.
    fn simple() -> OneField {
        let sections = vec![
            section_1(),
            section_3(small_grid()),
            section_4_instant(1),
            section_5_simple(4, 12),
            section(6, &[255]),
            section(7, &[0x12, 0x3A, 0xBC, 0, 0, 1]),
        ];
        OneField { sections }
    }

    fn interval() -> OneField {
        OneField::simple().with(4, section_4_interval())
    }

    fn grouped(groups: StatedGroups, data: &[u8]) -> OneField {
        let grid = stated_grid(groups.n, 1, (0, 0), 0, 0);
        OneField::simple().with(3, section_3(grid)).with(5, section_5_grouped(groups)).with(7, section(7, data))
    }

    /// All points present, of 0 bits each.
    fn on_grid(grid: StatedGrid) -> OneField {
        OneField::simple().with(3, section_3(grid)).with(5, section_5_simple(grid.points, 0)).with(7, section(7, &[]))
    }

    /// The same four values as the simple field has, on a Lambert grid.
    fn lambert() -> OneField {
        OneField::simple().with(3, section_3_lambert(stated_lambert(2, 2)))
    }

    /// All points present on a Lambert grid, of 0 bits each.
    fn on_lambert(grid: StatedLambert) -> OneField {
        OneField::simple().with(3, section_3_lambert(grid)).with(5, section_5_simple(grid.points, 0)).with(7, section(7, &[]))
    }

    fn index(number: usize) -> usize {
        if number == 1 {
            0
        } else {
            number - 2
        }
    }

    /// The same field with another section of that number.
    fn with(&self, number: usize, section: Vec<u8>) -> OneField {
        let mut changed = self.clone();
        changed.sections[OneField::index(number)] = section;
        changed
    }

    /// The same field with other octets in one section.
    fn altered(&self, number: usize, first: usize, octets: &[u8]) -> OneField {
        let mut changed = self.clone();
        put(&mut changed.sections[OneField::index(number)], first, octets);
        changed
    }

    /// The same field with one section cut or filled up to a length, which it states.
    fn resized(&self, number: usize, length: usize) -> OneField {
        let mut changed = self.clone();
        let section = &mut changed.sections[OneField::index(number)];
        section.resize(length, 0);
        put(section, 1, &(length as u32).to_be_bytes());
        changed
    }

    fn start(&self, number: usize) -> u32 {
        16 + self.sections[..OneField::index(number)].concat().len() as u32
    }

    fn file(&self) -> Vec<u8> {
        message(0, &self.sections)
    }

    fn passes(&self) -> bool {
        describe(&self.file(), 0).is_ok()
    }

    /// Asserts that describe, decode, place, sheet, point, presence and integers all refuse by this number, at that section, also where a run has no room.
    fn refused_by(&self, number: u32, section: usize, what: &str) {
        let file = self.file();
        let refusal = Refusal { number, place: self.start(section) };
        assert_eq!(check(&file), Ok(Counts { messages: 1, fields: 1 }), "{}", what);
        assert_eq!(describe(&file, 0), Err(refusal), "{}", what);
        assert_eq!(decode(&file, 0, 0, &mut [], &mut []), Err(refusal), "{}", what);
        assert_eq!(place(&file, 0, u64::MAX), Err(refusal), "{}", what);
        assert_eq!(describe_into(&file, 0, &mut []), Err(refusal), "{}", what);
        assert_eq!(place_into(&file, 0, u64::MAX, &mut []), Err(refusal), "{}", what);
        assert_eq!(sheet(&file, 0, u64::MAX), Err(refusal), "{}", what);
        assert_eq!(sheet_into(&file, 0, u64::MAX, &mut []), Err(refusal), "{}", what);
        assert_eq!(point(&file, 0, u64::MAX), Err(refusal), "{}", what);
        assert_eq!(point_into(&file, 0, u64::MAX, &mut []), Err(refusal), "{}", what);
        assert_eq!(presence(&file, 0), Err(refusal), "{}", what);
        assert_eq!(integers(&file, 0), Err(refusal), "{}", what);
    }
}

/// One altered run of octets in a section, and whether the field still passes.
type Row<'a> = (usize, &'a [u8], bool);

/// Asserts each row on its own against the unaltered field.
fn judge(field: &OneField, section: usize, number: u32, rows: &[Row<'_>]) {
    assert!(field.passes());
    for (first, octets, passes) in rows {
        let altered = field.altered(section, *first, octets);
        let what = format!("section {} octet {} as {:?}", section, first, octets);
        if *passes {
            assert_eq!(describe(&altered.file(), 0).err(), None, "{}", what);
        } else {
            altered.refused_by(number, section, &what);
        }
    }
}

/// The file of the listing example.
fn sample() -> Vec<u8> {
    let sections = [
        section_1(),
        section_3(small_grid()),
        section_4_instant(1),
        section_5_simple(2, 12),
        section(6, &[0, 0xA0]),
        section(7, &[0x12, 0x3A, 0xBC]),
        section_4_interval(),
        section_5_simple(2, 12),
        section(6, &[254]),
        section(7, &[0x00, 0x70, 0x09]),
    ];
    message(0, &sections)
}

fn refused(number: u32, place: u32) -> Refusal {
    Refusal { number, place }
}

#[test]
fn codes_of_answers_and_refusals() {
    assert_eq!(refused(14, 0x0102_0304).code(), 0x8000_000E_0102_0304);
    assert_eq!(Counts { messages: 3, fields: 5 }.code(), 0x0000_0003_0000_0005);
}

#[test]
fn example_signed_numbers() {
    assert_eq!(sign_and_size(&[0x80, 0x01]), -1);
    assert_eq!(sign_and_size(&[0x80, 0x00]), 0);
    assert_eq!(sign_and_size(&[0x82]), -2);
    assert_eq!(sign_and_size(&[0xFF, 0xFF, 0xFF, 0xFF]), -2_147_483_647);
    assert_eq!(sign_and_size(&[0x7F]), 127);
}

#[test]
fn example_section_lengths() {
    assert_eq!(6 + octets_for(1_514_461), 189_314);
    assert_eq!(5 + octets_for(349_363 * 12), 524_050);
    let points = 1261 * 1201;
    let field = OneField::on_grid(flat_grid(1261, 1201)).with(6, section(6, &[0; 189_309])).altered(5, 6, &[0; 4]);
    assert_eq!(presence(&field.file(), 0).map(|present| present.len()), Ok(points));
    field.resized(6, 189_313).refused_by(13, 6, "bitmap too short");
    field.resized(6, 189_315).refused_by(13, 6, "bitmap too long");
    let values = OneField::on_grid(flat_grid(203, 1721)).with(5, section_5_simple(349_363, 12)).resized(7, 524_050);
    assert_eq!(integers(&values.file(), 0).map(|all| all.len()), Ok(349_363));
    values.resized(7, 524_049).refused_by(14, 7, "values too short");
    values.resized(7, 524_051).refused_by(14, 7, "values too long");
}

#[test]
fn example_simple_packing() {
    assert_eq!(integers(&OneField::simple().file(), 0), Ok(vec![291, 2748, 0, 1]));
}

#[test]
fn example_second_order_differences() {
    assert_eq!(integers(&OneField::grouped(ONE_GROUP, &ONE_GROUP_DATA).file(), 0), Ok(vec![5, 7, 11, 15]));
    assert_eq!(integers(&OneField::grouped(TWO_GROUPS, &TWO_GROUPS_DATA).file(), 0), Ok(vec![100, 102, 104, 109, 122]));
}

#[test]
fn example_doubles() {
    assert_eq!(rebuild(1.5f32.to_bits(), 1, 0, 3), Ok(7.5));
    assert_eq!(rebuild(0, 0, 1, 1).map(f64::to_bits), Ok(0x3FB9_9999_9999_999A));
    assert_eq!(rebuild(0x8000_0000, 0, 0, 0).map(f64::to_bits), Ok(0));
    assert_eq!(rebuild((-3.0f32).to_bits(), 0, 5, 3).map(f64::to_bits), Ok(0));
}

#[test]
fn example_valid_time() {
    let told = describe(&OneField::simple().with(4, section_4_instant(84)).file(), 0);
    let expected = Time { year: 2017, month: 5, day: 19, hour: 0, minute: 0, second: 0 };
    assert_eq!(told.map(|description| description.valid_time), Ok(expected));
}

/// The same grid with another last point.
fn ending_at(last: (i64, u32), grid: StatedGrid) -> StatedGrid {
    StatedGrid { last, ..grid }
}

/// The longitudes of the points in the first row.
fn longitudes(grid: StatedGrid) -> Vec<u32> {
    let file = OneField::on_grid(grid).file();
    (0..grid.ni).map(|column| place(&file, 0, u64::from(column)).expect("a point of the grid").1).collect()
}

/// The latitudes of the points in the first column.
fn latitudes(grid: StatedGrid) -> Vec<i64> {
    let file = OneField::on_grid(grid).file();
    (0..grid.nj).map(|row| place(&file, 0, u64::from(grid.ni * row)).expect("a point of the grid").0).collect()
}

#[test]
fn example_place() {
    let grid = ending_at((35_974_747, 160_030_303), stated_grid(1422, 2, (36_000_000, 116_969_697), 30_303, 25_253));
    let file = OneField::on_grid(grid).file();
    assert_eq!(place(&file, 0, 1), Ok((36_000_000, 117_000_000)));
    assert_eq!(place(&file, 0, 16), Ok((36_000_000, 117_454_545)));
    assert_eq!(place(&file, 0, 17), Ok((36_000_000, 117_484_849)));
    assert_eq!(place(&file, 0, 1421), Ok((36_000_000, 160_030_303)));
    assert_eq!(place(&file, 0, 1422), Ok((35_974_747, 116_969_697)));
    assert_eq!(place(&file, 0, 2843), Ok((35_974_747, 160_030_303)));
    assert_eq!(place(&file, 0, 2844), Err(refused(17, 0)));
    assert_eq!(place(&file, 0, u64::MAX), Err(refused(17, 0)));
}

#[test]
fn places_turn_past_the_zero_meridian() {
    assert_eq!(longitudes(stated_grid(3, 1, (0, 359_999_000), 1000, 0)), [359_999_000, 0, 1000]);
    assert_eq!(longitudes(ending_at((0, 1), stated_grid(3, 1, (0, 359_999_998), 1, 0))), [359_999_998, 0, 1]);
    assert_eq!(longitudes(ending_at((0, 0), stated_grid(3, 1, (0, 1), 179_999_999, 0))), [1, 180_000_001, 0]);
}

#[test]
fn both_ends_are_reached_where_steps_are_off() {
    let grid = stated_grid(3, 4, (10_000_000, 10_000_000), 1000, 2000);
    let short = ending_at((9_994_003, 10_001_998), grid);
    assert_eq!(longitudes(short), [10_000_000, 10_000_999, 10_001_998]);
    assert_eq!(latitudes(short), [10_000_000, 9_998_001, 9_996_002, 9_994_003]);
    let long = ending_at((9_993_997, 10_002_002), grid);
    assert_eq!(longitudes(long), [10_000_000, 10_001_001, 10_002_002]);
    assert_eq!(latitudes(long), [10_000_000, 9_997_999, 9_995_998, 9_993_997]);
    assert_eq!(latitudes(ending_at((-90_000_000, 0), stated_grid(1, 3, (-89_999_000, 0), 0, 501))), [-89_999_000, -89_999_500, -90_000_000]);
}

#[test]
fn halves_go_east_and_south() {
    let between = |first: i64, last: i64| ending_at((last, 7_002_001), stated_grid(3, 3, (first, 7_000_000), 1000, 500));
    assert_eq!(longitudes(between(0, -1001)), [7_000_000, 7_001_001, 7_002_001]);
    assert_eq!(latitudes(between(10_000_000, 9_998_999)), [10_000_000, 9_999_499, 9_998_999]);
    assert_eq!(latitudes(between(-10_000_000, -10_001_001)), [-10_000_000, -10_000_501, -10_001_001]);
    assert_eq!(latitudes(between(500, -501)), [500, -1, -501]);
    let quarters = ending_at((-2, 2), flat_grid(5, 5));
    assert_eq!(longitudes(quarters), [0, 1, 1, 2, 2]);
    assert_eq!(latitudes(quarters), [0, -1, -1, -2, -2]);
}

#[test]
fn thirds_go_to_the_nearest() {
    assert_eq!(longitudes(ending_at((-1, 1), flat_grid(4, 4))), [0, 0, 1, 1]);
    assert_eq!(latitudes(ending_at((-1, 1), flat_grid(4, 4))), [0, 0, -1, -1]);
    assert_eq!(longitudes(ending_at((-2, 2), flat_grid(4, 4))), [0, 1, 1, 2]);
    assert_eq!(latitudes(ending_at((-2, 2), flat_grid(4, 4))), [0, -1, -1, -2]);
}

#[test]
fn places_of_one_column_or_one_row() {
    let first = (-7, 359_999_999);
    let point = stated_grid(1, 1, first, u32::MAX, u32::MAX);
    assert_eq!((latitudes(point), longitudes(point)), (vec![-7], vec![359_999_999]));
    let column = ending_at((-10, 359_999_999), stated_grid(1, 3, first, u32::MAX, 2));
    assert_eq!((latitudes(column), longitudes(column)), (vec![-7, -9, -10], vec![359_999_999]));
    let row = ending_at((-7, 2), stated_grid(3, 1, first, 2, u32::MAX));
    assert_eq!((latitudes(row), longitudes(row)), (vec![-7], vec![359_999_999, 1, 2]));
}

#[test]
fn places_of_the_most_columns_and_rows() {
    let wide = OneField::on_grid(ending_at((0, 0), stated_grid(65_535, 1, (0, 1), 5493, 0))).file();
    for (column, longitude) in [(0, 1), (1, 5494), (32_767, 180_000_001), (65_533, 359_994_507), (65_534, 0)] {
        assert_eq!(place(&wide, 0, column), Ok((0, longitude)), "column {}", column);
    }
    let high = OneField::on_grid(ending_at((-90_000_000, 0), stated_grid(1, 65_535, (90_000_000, 0), 0, 2747))).file();
    for (row, latitude) in [(0, 90_000_000), (1, 89_997_253), (32_767, 0), (65_533, -89_997_253), (65_534, -90_000_000)] {
        assert_eq!(place(&high, 0, row), Ok((latitude, 0)), "row {}", row);
    }
}

#[test]
fn places_never_step_back_or_pass_the_last() {
    for span in 0..=40 {
        let grid = ending_at((-i64::from(span), span), stated_grid(9, 9, (0, 0), span / 8, span / 8));
        let (longitudes, latitudes) = (longitudes(grid), latitudes(grid));
        assert!(longitudes.windows(2).all(|pair| pair[0] <= pair[1]), "{:?}", longitudes);
        assert!(latitudes.windows(2).all(|pair| pair[0] >= pair[1]), "{:?}", latitudes);
        assert_eq!((longitudes[0], longitudes[8], latitudes[0], latitudes[8]), (0, span, 0, -i64::from(span)));
    }
}

/// How far the points lie to the right and downward, point by point.
fn sheet_places(grid: StatedLambert) -> Vec<(i64, i64)> {
    let file = OneField::on_lambert(grid).file();
    (0..u64::from(grid.points)).map(|n| sheet(&file, 0, n).expect("a point of the grid")).collect()
}

#[test]
fn places_on_the_sheet() {
    let grid = StatedLambert { dx: 7, dy: 100, ..stated_lambert(3, 2) };
    assert_eq!(sheet_places(grid), [(0, 0), (7, 0), (14, 0), (0, 100), (7, 100), (14, 100)]);
    assert_eq!(sheet_places(StatedLambert { dx: 7, dy: 100, ..stated_lambert(2, 3) }), [(0, 0), (7, 0), (0, 100), (7, 100), (0, 200), (7, 200)]);
    assert_eq!(sheet_places(stated_lambert(1, 1)), [(0, 0)]);
    let file = OneField::on_lambert(stated_lambert(817, 661)).file();
    assert_eq!(sheet(&file, 0, 816), Ok((4_080_000_000, 0)));
    assert_eq!(sheet(&file, 0, 817), Ok((0, 4_000_000)));
    assert_eq!(sheet(&file, 0, 540_036), Ok((4_080_000_000, 2_640_000_000)));
    assert_eq!(sheet(&file, 0, 540_037), Err(refused(17, 0)));
    assert_eq!(sheet(&file, 0, u64::MAX), Err(refused(17, 0)));
}

#[test]
fn places_on_the_sheet_do_not_depend_on_where_it_lies() {
    let grid = StatedLambert { dx: 7, dy: 100, ..stated_lambert(3, 2) };
    let south = StatedLambert { first: (-90_000_000, 359_999_999), cutting_latitudes: (-90_000_000, -45_000_000), ..grid };
    assert_eq!(sheet_places(StatedLambert { stated_latitude: -1, upright_meridian: 0, ..south }), sheet_places(grid));
}

#[test]
fn places_on_the_largest_sheets() {
    let longest = StatedLambert { dx: 2_147_483_647, dy: 2_147_483_647, ..stated_lambert(65_535, 256) };
    let wide = OneField::on_lambert(longest).file();
    assert_eq!(sheet(&wide, 0, 65_534), Ok((140_733_193_322_498, 0)));
    assert_eq!(sheet(&wide, 0, 16_776_959), Ok((140_733_193_322_498, 547_608_329_985)));
    let high = OneField::on_lambert(StatedLambert { ni: 256, nj: 65_535, ..longest }).file();
    assert_eq!(sheet(&high, 0, 16_776_959), Ok((547_608_329_985, 140_733_193_322_498)));
    let shortest = StatedLambert { dx: 1, dy: 1, ..stated_lambert(2, 2) };
    assert_eq!(sheet_places(shortest), [(0, 0), (1, 0), (0, 1), (1, 1)]);
}

#[test]
fn a_grid_of_the_other_kind_has_no_such_places() {
    let (degrees, lambert) = (OneField::simple().file(), OneField::lambert().file());
    for n in [0, 3, 4, u64::MAX] {
        assert_eq!((place(&lambert, 0, n), sheet(&degrees, 0, n)), (Err(refused(20, 0)), Err(refused(20, 0))), "point {}", n);
        for length in 0..=3 {
            let mut run = untouched(length);
            assert_eq!((place_into(&lambert, 0, n, &mut run), &run), (Err(refused(20, 0)), &untouched(length)), "point {}", n);
            assert_eq!((sheet_into(&degrees, 0, n, &mut run), &run), (Err(refused(20, 0)), &untouched(length)), "point {}", n);
        }
    }
    assert_eq!((place(&lambert, 1, 0), sheet(&degrees, 1, 0)), (Err(refused(8, 0)), Err(refused(8, 0))));
    assert_eq!((place(&degrees, 0, 3), sheet(&lambert, 0, 3)), (Ok((35_950_000, 135_062_500)), Ok((5_000_000, 4_000_000))));
    let both = [degrees, lambert].concat();
    let numbers = |answer: Result<u64, Refusal>| answer.map_err(|refusal| refusal.number);
    let (mut position, mut sheet_place) = ([0; 2], [0; 2]);
    assert_eq!([0, 1].map(|k| numbers(place_into(&both, k, 3, &mut position))), [Ok(2), Err(20)]);
    assert_eq!([0, 1].map(|k| numbers(sheet_into(&both, k, 3, &mut sheet_place))), [Err(20), Ok(2)]);
    assert_eq!((position, sheet_place), ([35_950_000, 135_062_500], [5_000_000, 4_000_000]));
}

#[test]
fn example_presence() {
    assert_eq!(presence(&sample(), 0), Ok(vec![1, 0, 1, 0]));
    assert_eq!(presence(&sample(), 1), Ok(vec![1, 0, 1, 0]));
}

#[test]
fn example_92_fields_over_one_bitmap() {
    let mut bitmap = vec![0xFF; 43_671];
    bitmap[43_670] = 0b1110_0000;
    bitmap.resize(47_404, 0);
    let mut sections = vec![section_1(), section_3(flat_grid(601, 631))];
    for k in 0..92u32 {
        let bitmap_section = if k == 0 { section(6, &[vec![0], bitmap.clone()].concat()) } else { section(6, &[254]) };
        sections.extend([section_4_instant(k), section_5_simple(349_363, 12), bitmap_section, section(7, &vec![k as u8; 524_045])]);
    }
    let file = message(0, &sections);
    assert_eq!(file.len(), 48_265_729);
    assert_eq!(check(&file), Ok(Counts { messages: 1, fields: 92 }));
    let expected: Vec<u32> = (0..349_363).map(|n| if n % 2 == 0 { 0x5B5 } else { 0xB5B }).collect();
    assert_eq!(integers(&file, 91), Ok(expected));
    assert_eq!(presence(&file, 91).map(|all| all.iter().filter(|present| **present == 1).count()), Ok(349_363));
    assert_eq!(describe(&file, 92), Err(refused(8, 0)));
}

#[test]
fn listing_of_the_sample() {
    let file = sample();
    assert_eq!(file.len(), 276);
    assert_eq!(listing(&file), "2 fields\n0 0/0/0 103 2x2 20170515130000 2\n1 0/1/8 1 2x2 20170515130000 2\n");
}

#[test]
fn listing_of_refused_fields_and_inputs() {
    let with_bad_bitmap = [OneField::simple().altered(6, 6, &[1]).file(), OneField::simple().file()].concat();
    assert_eq!(listing(&with_bad_bitmap), "2 fields\n0 refused 13 at 164\n1 0/0/0 103 2x2 20170515130000 4\n");
    assert_eq!(listing(&OneField::simple().file()), "1 fields\n0 0/0/0 103 2x2 20170515130000 4\n");
    let lambert = [OneField::on_lambert(stated_lambert(817, 661)), OneField::lambert().altered(3, 47, &[0])].map(|field| field.file()).concat();
    assert_eq!(listing(&lambert), "2 fields\n0 0/0/0 103 817x661 20170515130000 540037\n1 refused 10 at 225\n");
    assert_eq!(listing(&[]), "refused 2 at 0\n");
    assert_eq!(listing(&[0; 65_536]), "refused 4 at 0\n");
    assert_eq!(listing(&[0; 65_537]), "refused 18 at 65536\n");
}

/// What both fields of the sample say up to their grid, and what only one of them says after it.
fn sample_numbers(rest: [i64; 34]) -> Vec<i64> {
    let before = [0, 0, 2017, 5, 15, 12, 0, 0];
    let grid = [6, 6_371_229, 2, 2, 4, 36_000_000, 135_000_000, 35_950_000, 135_062_500, 62_500, 50_000];
    [&before[..], &grid[..], &rest[..]].concat()
}

#[test]
fn description_of_the_sample() {
    let numbers = |k: u64| describe(&sample(), k).map(|description| description.numbers());
    let first = [
        [0, 0, 2, 103, 1, 0, 10, 0, 0, 0, 0, 0, 0, 0, 0, 2017, 5],
        [15, 13, 0, 0, 2, 0, 0, 0, 12, 0, 0, 16, 37, 109, 143, 164, 171],
    ];
    let second = [
        [1, 8, 2, 1, 0, 0, 0, 8, 2017, 5, 15, 13, 0, 0, 1, 2017, 5],
        [15, 12, 0, 0, 2, 0, 0, 0, 12, 0, 254, 16, 37, 179, 237, 258, 264],
    ];
    let in_one_run = |rows: [[i64; 17]; 2]| std::array::from_fn(|index| rows[index / 17][index % 17]);
    assert_eq!(numbers(0), Ok(sample_numbers(in_one_run(first))));
    assert_eq!(numbers(1), Ok(sample_numbers(in_one_run(second))));
    assert_eq!(numbers(2), Err(refused(8, 0)));
    assert_eq!(numbers(u64::MAX), Err(refused(8, 0)));
}

#[test]
fn description_tells_each_octet_in_its_own_number() {
    let grid = stated_grid(5, 1, (20_000_000, 30_000_000), 400, 500);
    let grouped = OneField::grouped(TWO_GROUPS, &TWO_GROUPS_DATA).with(3, section_3(grid)).altered(3, 15, &[1, 0, 0, 0, 1, 2]);
    let timed = grouped.altered(1, 13, &time_octets(2031, [10, 9, 8, 7, 6])).altered(1, 20, &[1]);
    let field = timed.altered(4, 10, &[21, 22, 23]).altered(4, 18, &[0, 0, 0, 0, 61]).altered(4, 23, &[24, 25, 0, 0, 1, 4]);
    let packed = field.altered(5, 12, &[0x41, 0x42, 0x43, 0x44, 0, 26, 0, 17]);
    let numbers = describe(&message(27, &packed.sections), 0).map(|description| description.numbers()).unwrap_or_default();
    assert_eq!(numbers.len(), 53);
    assert_eq!(numbers[..8], [27, 1, 2031, 10, 9, 8, 7, 6]);
    assert_eq!(numbers[8..19], [1, 258, 5, 1, 5, 20_000_000, 30_000_000, 20_000_000, 30_001_600, 400, 500]);
    assert_eq!(numbers[19..26], [21, 22, 23, 24, 1, 25, 260]);
    assert_eq!(numbers[26..40], [0, 0, 0, 0, 0, 0, 0, 0, 2031, 10, 9, 9, 8, 6]);
    assert_eq!(numbers[40..47], [5, 0x4142_4344, 26, 17, 4, 3, 255]);
    assert_eq!(numbers[47..], [16, 37, 109, 143, 192, 198]);
}

#[test]
fn description_of_a_lambert_grid() {
    let lengths = StatedLambert { dx: 13, dy: 14, ..stated_lambert(5, 2) };
    let grid = StatedLambert { stated_latitude: 11, upright_meridian: 12, cutting_latitudes: (15, 16), first: (17, 18), ..lengths };
    let field = OneField::on_lambert(grid).altered(3, 15, &[1, 0, 0, 0, 1, 2]);
    let numbers = describe(&field.file(), 0).map(|description| description.numbers()).unwrap_or_default();
    let in_degrees = OneField::on_grid(flat_grid(5, 2)).file();
    let others = describe(&in_degrees, 0).map(|description| description.numbers()).unwrap_or_default();
    assert_eq!((numbers.len(), others.len()), (60, 53));
    assert_eq!((&numbers[..8], &numbers[19..47]), (&others[..8], &others[19..47]));
    assert_eq!(numbers[8..19], [1, 258, 5, 2, 10, 17, 18, 0, 0, 0, 0]);
    assert_eq!(numbers[47..53], [16, 37, 118, 152, 173, 179]);
    assert_eq!(numbers[53..], [30, 11, 12, 13, 14, 15, 16]);
}

#[test]
fn description_of_signs_on_a_lambert_grid() {
    let south = StatedLambert { first: (-1, 359_999_999), stated_latitude: -2, cutting_latitudes: (-3, -4), ..stated_lambert(2, 2) };
    let numbers = |field: OneField| describe(&field.file(), 0).map(|description| description.numbers()).unwrap_or_default();
    let told = numbers(OneField::on_lambert(south));
    assert_eq!((&told[13..15], &told[53..56], &told[58..]), (&[-1, 359_999_999][..], &[30, -2, 140_000_000][..], &[-3, -4][..]));
    let minus_zero = [39, 48, 66, 70].iter().fold(OneField::on_lambert(south), |field, octet| field.altered(3, *octet, &[0x80, 0, 0, 0]));
    let told = numbers(minus_zero);
    assert_eq!((told[13], told[54], &told[58..]), (0, 0, &[0, 0][..]));
    let longest = numbers(OneField::on_lambert(StatedLambert { dx: 2_147_483_647, dy: 1, ..south }));
    assert_eq!(longest[56..58], [2_147_483_647, 1]);
}

#[test]
fn description_of_signs() {
    let south = OneField::on_grid(stated_grid(2, 2, (-36_000_000, 0), 5, 7)).altered(4, 24, &[0x82]);
    let field = south.altered(5, 12, &(-1.5f32).to_bits().to_be_bytes()).altered(5, 16, &signed_pair(-3)).altered(5, 18, &signed_pair(-4));
    let numbers = describe(&field.file(), 0).map(|description| description.numbers()).unwrap_or_default();
    assert_eq!(numbers.len(), 53);
    assert_eq!(numbers[13..17], [-36_000_000, 0, -36_000_007, 5]);
    assert_eq!(numbers[23..26], [1, -2, 10]);
    assert_eq!(numbers[41..44], [0xBFC0_0000, -3, -4]);
    let minus_zero = OneField::on_grid(flat_grid(2, 2)).altered(3, 47, &[0x80, 0, 0, 0]).altered(3, 56, &[0x80, 0, 0, 0]).altered(4, 24, &[0x80]);
    let field = minus_zero.altered(5, 16, &[0x80, 0, 0x80, 0]);
    let numbers = describe(&field.file(), 0).map(|description| description.numbers()).unwrap_or_default();
    assert_eq!(numbers[13..17], [0; 4]);
    assert_eq!(numbers[23..26], [1, 0, 10]);
    assert_eq!(numbers[41..44], [0; 3]);
}

#[test]
fn description_counts_points_and_not_values() {
    let numbers = describe(&sample(), 0).map(|description| description.numbers()).unwrap_or_default();
    assert_eq!((numbers[10], numbers[11], numbers[12], numbers[40]), (2, 2, 4, 2));
    let wide = describe(&OneField::on_grid(flat_grid(4096, 4096)).file(), 0).map(|description| description.numbers()).unwrap_or_default();
    assert_eq!(wide[10..13], [4096, 4096, 16_777_216]);
}

/// What a run of so many elements holds before a call in these tests.
fn untouched(length: usize) -> Vec<i64> {
    vec![-77; length]
}

#[test]
fn describe_fills_the_start_of_its_run_only() {
    for (k, told) in (0..).zip([describe(&sample(), 0), describe(&sample(), 1)]) {
        let told = told.map(|description| description.numbers()).unwrap_or_default();
        for length in 0..=60 {
            let mut run = untouched(length);
            let answer = describe_into(&sample(), k, &mut run);
            if length < 53 {
                assert_eq!((answer, run), (Err(refused(15, 0)), untouched(length)));
            } else {
                assert_eq!((answer, run), (Ok(53), [&told[..], &untouched(length - 53)].concat()));
            }
        }
    }
}

#[test]
fn describe_of_a_lambert_grid_needs_60_numbers() {
    let file = [OneField::lambert().file(), OneField::simple().file()].concat();
    let told = describe(&file, 0).map(|description| description.numbers()).unwrap_or_default();
    for length in 0..=66 {
        let mut run = untouched(length);
        let answer = describe_into(&file, 0, &mut run);
        if length < 60 {
            assert_eq!((answer, run), (Err(refused(15, 0)), untouched(length)));
        } else {
            assert_eq!((answer, run), (Ok(60), [&told[..], &untouched(length - 60)].concat()));
        }
        let of_degrees = describe_into(&file, 1, &mut untouched(length));
        assert_eq!(of_degrees, if length < 53 { Err(refused(15, 0)) } else { Ok(53) });
    }
}

#[test]
fn sheet_fills_the_start_of_its_run_only() {
    let file = OneField::on_lambert(StatedLambert { dx: 5, dy: 9, ..stated_lambert(3, 2) }).file();
    for length in 0..=5 {
        let mut run = untouched(length);
        let answer = sheet_into(&file, 0, 5, &mut run);
        if length < 2 {
            assert_eq!((answer, run), (Err(refused(15, 0)), untouched(length)));
        } else {
            assert_eq!((answer, run), (Ok(2), [&[10, 9], &untouched(length - 2)[..]].concat()));
        }
        let mut run = untouched(length);
        assert_eq!((sheet_into(&file, 0, 6, &mut run), run), (Err(refused(17, 0)), untouched(length)));
    }
}

#[test]
fn place_fills_the_start_of_its_run_only() {
    let file = OneField::on_grid(stated_grid(3, 2, (-36_000_000, 7), 5, 9)).file();
    for length in 0..=5 {
        let mut run = untouched(length);
        let answer = place_into(&file, 0, 4, &mut run);
        if length < 2 {
            assert_eq!((answer, run), (Err(refused(15, 0)), untouched(length)));
        } else {
            assert_eq!((answer, run), (Ok(2), [&[-36_000_009, 12], &untouched(length - 2)[..]].concat()));
        }
        let mut run = untouched(length);
        assert_eq!((place_into(&file, 0, 6, &mut run), run), (Err(refused(17, 0)), untouched(length)));
    }
}

#[test]
fn sizes_of_files() {
    assert_eq!(check(&vec![0; 268_435_457]), Err(refused(1, 0)));
    assert_eq!(check(&vec![0; 268_435_456]), Err(refused(4, 0)));
    assert_eq!(check(&[]), Err(refused(2, 0)));
    assert_eq!(describe(&[], 0), Err(refused(2, 0)));
}

/// The good file twice, with octets of the second copy replaced; the counts or the refusal of the whole.
fn check_second(change: impl Fn(&mut Vec<u8>)) -> Result<Counts, Refusal> {
    let mut second = OneField::simple().file();
    change(&mut second);
    check(&[OneField::simple().file(), second].concat())
}

#[test]
fn tiling_of_messages() {
    let length = OneField::simple().file().len();
    let start = length as u32;
    let stated = |length: u64| move |file: &mut Vec<u8>| file[8..16].copy_from_slice(&length.to_be_bytes());
    assert_eq!(check_second(|_| ()), Ok(Counts { messages: 2, fields: 2 }));
    assert_eq!(check_second(|file| file.truncate(15)), Err(refused(3, start)));
    assert_eq!(check_second(|file| file.truncate(1)), Err(refused(3, start)));
    assert_eq!(check_second(|file| file.truncate(16)), Err(refused(3, start)));
    for octet in [0, 1, 2, 3, 7] {
        assert_eq!(check_second(|file| file[octet] ^= 1), Err(refused(4, start)));
    }
    for edition in [0, 1, 3, 255] {
        assert_eq!(check_second(|file| file[7] = edition), Err(refused(4, start)));
    }
    for octet in [4, 5, 6] {
        assert_eq!(check_second(|file| file[octet] = 0xFF), Ok(Counts { messages: 2, fields: 2 }));
    }
    assert_eq!(check_second(stated(19)), Err(refused(5, start)));
    assert_eq!(check_second(stated(20)), Err(refused(7, start)));
    assert_eq!(check_second(stated(length as u64 + 1)), Err(refused(3, start)));
    assert_eq!(check_second(stated(length as u64 + (1 << 32))), Err(refused(3, start)));
    assert_eq!(check_second(stated(u64::MAX)), Err(refused(3, start)));
    assert_eq!(check_second(|file| file[length - 1] = b'8'), Err(refused(7, start)));
    assert_eq!(check_second(|file| file.push(0)), Err(refused(3, 2 * start)));
    assert_eq!(check_second(|file| file.extend([0; 16])), Err(refused(4, 2 * start)));
}

#[test]
fn tiling_of_sections() {
    let good = OneField::simple();
    let section_8 = good.file().len() as u32 - 4;
    let stated_7 = |length: u32| check(&good.altered(7, 1, &length.to_be_bytes()).file());
    assert_eq!(stated_7(4), Err(refused(5, good.start(7))));
    assert_eq!(stated_7(0), Err(refused(5, good.start(7))));
    assert_eq!(stated_7(11), Ok(Counts { messages: 1, fields: 1 }));
    assert_eq!(stated_7(12), Err(refused(5, good.start(7))));
    assert_eq!(stated_7(u32::MAX), Err(refused(5, good.start(7))));
    assert_eq!(stated_7(10), Err(refused(5, section_8 - 1)));
    assert_eq!(stated_7(7), Err(refused(5, section_8 - 4)));
    assert_eq!(check(&good.altered(7, 1, &[0, 0, 0, 4, 9]).file()), Err(refused(5, good.start(7))));
    assert_eq!(check(&message(0, &[])), Err(refused(6, 16)));
    for number in [1, 3, 4, 5, 6, 7] {
        let cut: Vec<Vec<u8>> = good.sections[..OneField::index(number)].to_vec();
        assert_eq!(check(&message(0, &cut)), Err(refused(6, good.start(number))), "ends before section {}", number);
        for other in (0..=9).chain([255]).filter(|other| usize::from(*other) != number) {
            let outcome = check(&good.altered(number, 5, &[other]).file());
            assert_eq!(outcome, Err(refused(6, good.start(number))), "section {} numbered {}", number, other);
        }
    }
}

#[test]
fn sections_after_a_finished_field() {
    let field = &OneField::simple().sections;
    let followed_by = |more: &[Vec<u8>]| check(&message(0, &[field.clone(), more.to_vec()].concat()));
    let end = 16 + field.concat().len() as u32;
    assert_eq!(followed_by(&field[2..]), Ok(Counts { messages: 1, fields: 2 }));
    assert_eq!(followed_by(&field[1..]), Ok(Counts { messages: 1, fields: 2 }));
    assert_eq!(followed_by(&field[..]), Err(refused(6, end)));
    for number in [0, 2, 5, 6, 7, 8] {
        assert_eq!(followed_by(&[section(number, &[])]), Err(refused(6, end)), "section {}", number);
    }
    assert_eq!(followed_by(&field[1..2]), Err(refused(6, end + 72)));
}

#[test]
fn tiling_faults_come_in_file_order_and_before_8() {
    let good = OneField::simple().file();
    let mut unfinished = good.clone();
    unfinished[good.len() - 1] = 0;
    let mut unknown = good.clone();
    unknown[0] = 0;
    assert_eq!(check(&[unfinished.clone(), unknown.clone()].concat()), Err(refused(7, 0)));
    let late_fault = [good.clone(), unknown].concat();
    assert_eq!(describe(&late_fault, 0), Err(refused(4, good.len() as u32)));
    assert_eq!(describe(&late_fault, 9), Err(refused(4, good.len() as u32)));
    let bad_section = OneField::simple().altered(1, 12, &[0]).file();
    assert_eq!(describe(&bad_section, 1), Err(refused(8, 0)));
    assert_eq!(describe(&bad_section, 0), Err(refused(9, 16)));
}

#[test]
fn limits_of_section_1() {
    let field = OneField::simple();
    field.resized(1, 20).refused_by(9, 1, "length 20");
    field.resized(1, 22).refused_by(9, 1, "length 22");
    field.resized(1, 5).refused_by(9, 1, "length 5");
    let time = |year: u16, rest: [u8; 5]| time_octets(year, rest);
    judge(&field, 1, 9, &[(6, &[0, 33], false), (6, &[0, 35], false), (6, &[1, 34], false), (12, &[0], false), (12, &[2], false)]);
    judge(&field, 1, 9, &[(20, &[1], true), (20, &[2], false), (8, &[0xFF; 4], true), (21, &[0xFF], true)]);
    judge(&field, 1, 9, &[(13, &time(1899, [12, 31, 0, 0, 0]), false), (13, &time(1900, [1, 1, 0, 0, 0]), true)]);
    judge(&field, 1, 9, &[(13, &time(2399, [12, 31, 0, 0, 0]), true), (13, &time(2400, [1, 1, 0, 0, 0]), false)]);
    judge(&field, 1, 9, &[(15, &[0], false), (15, &[1], true), (15, &[12], true), (15, &[13], false), (16, &[0], false), (16, &[1], true)]);
    judge(&field, 1, 9, &[(17, &[23], true), (17, &[24], false), (18, &[59], true), (18, &[60], false), (19, &[59], true), (19, &[60], false)]);
    for (month, days) in (1u8..).zip([31u8, 28, 31, 30, 31, 30, 31, 31, 30, 31, 30, 31]) {
        judge(&field, 1, 9, &[(15, &[month, days], true), (15, &[month, days + 1], false)]);
    }
    for (year, has_leap_day) in [(1900, false), (2000, true), (2016, true), (2100, false), (2396, true)] {
        judge(&field, 1, 9, &[(13, &time(year, [2, 29, 0, 0, 0]), has_leap_day), (13, &time(year, [2, 30, 0, 0, 0]), false)]);
    }
}

#[test]
fn limits_of_single_octets_in_section_3() {
    let field = OneField::simple();
    field.resized(3, 71).refused_by(10, 3, "length 71");
    field.resized(3, 73).refused_by(10, 3, "length 73");
    field.resized(3, 5).refused_by(10, 3, "length 5");
    judge(&field, 3, 10, &[(6, &[1], false), (11, &[1], false), (12, &[1], false), (13, &[1, 0], false), (14, &[1], false)]);
    judge(&field, 3, 10, &[(15, &[0], false), (15, &[2], false), (15, &[5], false), (15, &[7], false), (16, &[0xFF; 5], true)]);
    judge(&field, 3, 10, &[(15, &[1, 0, 0, 0, 0, 1], true), (15, &[1, 0, 0, 0, 0, 0], false), (15, &[1, 1, 0, 0, 0, 1], false)]);
    judge(&field, 3, 10, &[(15, &[1, 0, 0xFF, 0xFF, 0xFF, 0xFE], true), (15, &[1, 0, 0xFF, 0xFF, 0xFF, 0xFF], false)]);
    judge(&field, 3, 10, &[(21, &[0xFF; 10], true), (42, &[1], false), (43, &[0x7F], false), (46, &[0xFE], false)]);
    judge(&field, 3, 10, &[(55, &[0x20], false), (55, &[0x31], false), (72, &[0x40], false), (10, &[3], false), (10, &[5], false), (7, &[1], false)]);
    let told = describe(&field.altered(3, 15, &[1, 0, 0, 97, 40, 0]).file(), 0);
    assert_eq!(told.map(|description| (description.grid.earth_code, description.grid.radius)), Ok((1, 6_367_232)));
}

#[test]
fn limits_of_counts_in_section_3() {
    for (ni, nj, passes) in [
        (65_535, 1, true),
        (65_536, 1, false),
        (1, 65_535, true),
        (1, 65_536, false),
        (0, 1, false),
        (1, 0, false),
        (4096, 4096, true),
        (65_535, 256, true),
        (65_535, 257, false),
        (4097, 4096, false),
        (65_536, 65_536, false),
    ] {
        let grid = StatedGrid { ni, nj, points: ni.wrapping_mul(nj), ..flat_grid(1, 1) };
        let field = OneField::on_grid(grid);
        if passes {
            assert!(field.passes(), "{} x {}", ni, nj);
        } else {
            field.refused_by(10, 3, &format!("{} x {}", ni, nj));
        }
    }
}

/// Asserts whether a grid passes, or is refused by 10.
fn judge_grid(grid: StatedGrid, passes: bool, what: &str) {
    if passes {
        assert_eq!(describe(&OneField::on_grid(grid).file(), 0).err(), None, "{}", what);
    } else {
        OneField::on_grid(grid).refused_by(10, 3, what);
    }
}

#[test]
fn limits_of_spans_in_section_3() {
    let grid = stated_grid(3, 4, (10_000_000, 10_000_000), 1000, 2000);
    for (east, passes) in [(1997, false), (1998, true), (2000, true), (2002, true), (2003, false)] {
        judge_grid(StatedGrid { last: (grid.last.0, 10_000_000 + east), ..grid }, passes, &format!("east {}", east));
    }
    for (south, passes) in [(5996, false), (5997, true), (6003, true), (6004, false)] {
        judge_grid(StatedGrid { last: (10_000_000 - south, grid.last.1), ..grid }, passes, &format!("south {}", south));
    }
    let across = stated_grid(3, 1, (0, 359_999_000), 1000, 0);
    judge_grid(across, true, "across the zero meridian");
    judge_grid(StatedGrid { last: (0, 1003), ..across }, false, "across the zero meridian, too far");
    let one_column = StatedGrid { di: u32::MAX, dj: u32::MAX, ..flat_grid(1, 1) };
    judge_grid(one_column, true, "free steps with one column and one row");
    judge_grid(StatedGrid { last: (0, 1), ..one_column }, false, "a span with one column");
    judge_grid(StatedGrid { last: (-1, 0), ..one_column }, false, "a span with one row");
    judge_grid(StatedGrid { last: (1, 0), ..flat_grid(2, 2) }, false, "first below last, within the tolerance");
    judge_grid(StatedGrid { last: (-1, 0), ..flat_grid(2, 2) }, true, "first above last, within the tolerance");
    judge_grid(StatedGrid { di: 360_000_000, ..flat_grid(2, 1) }, false, "a full turn between equal longitudes");
    judge_grid(StatedGrid { di: u32::MAX, ..flat_grid(65_535, 1) }, false, "the largest steps");
}

#[test]
fn limits_of_corners_in_section_3() {
    let at = |first: (i64, u32), last: (i64, u32), nj: u32, dj: u32| StatedGrid { first, last, dj, ..flat_grid(1, nj) };
    judge_grid(at((90_000_000, 0), (-90_000_000, 0), 2, 180_000_000), true, "pole to pole");
    judge_grid(at((90_000_001, 0), (90_000_001, 0), 1, 0), false, "first too far north");
    judge_grid(at((90_000_001, 0), (90_000_000, 0), 2, 1), false, "only first too far north");
    judge_grid(at((-90_000_000, 0), (-90_000_001, 0), 2, 1), false, "only last too far south");
    judge_grid(at((0, 359_999_999), (0, 359_999_999), 1, 0), true, "the last longitude");
    judge_grid(at((0, 360_000_000), (0, 360_000_000), 1, 0), false, "a longitude too far");
    let wide = StatedGrid { first: (0, 359_999_999), last: (0, 360_000_000), di: 1, ..flat_grid(2, 1) };
    judge_grid(wide, false, "only the last longitude too far");
}

#[test]
fn lengths_go_with_templates_in_section_3() {
    let (degrees, lambert) = (OneField::simple(), OneField::lambert());
    for length in [5, 38, 72, 80, 82] {
        lambert.resized(3, length).refused_by(10, 3, &format!("template 30 of length {}", length));
    }
    degrees.resized(3, 81).refused_by(10, 3, "template 0 of length 81");
    degrees.altered(3, 14, &[30]).refused_by(10, 3, "a grid in degrees that says template 30");
    judge(&lambert, 3, 10, &[(14, &[0], false), (14, &[29], false), (14, &[31], false), (13, &[1, 30], false), (13, &[30, 0], false)]);
}

#[test]
fn limits_of_single_octets_in_a_lambert_section_3() {
    let field = OneField::lambert();
    judge(&field, 3, 10, &[(6, &[1], false), (6, &[255], false), (11, &[1], false), (11, &[255], false), (12, &[1], false), (12, &[255], false)]);
    judge(&field, 3, 10, &[(15, &[0], false), (15, &[2], false), (15, &[5], false), (15, &[7], false), (16, &[0xFF; 5], true), (21, &[0xFF; 10], true)]);
    judge(&field, 3, 10, &[(15, &[1, 0, 0, 0, 0, 1], true), (15, &[1, 0, 0, 0, 0, 0], false), (15, &[1, 1, 0, 0, 0, 1], false)]);
    judge(&field, 3, 10, &[(15, &[1, 0, 0xFF, 0xFF, 0xFF, 0xFE], true), (15, &[1, 0, 0xFF, 0xFF, 0xFF, 0xFF], false)]);
    judge(&field, 3, 10, &[(47, &[0], false), (47, &[0x07], false), (47, &[0x09], false), (47, &[0x30], false), (47, &[0x38], false), (47, &[0x88], false)]);
    judge(&field, 3, 10, &[(64, &[1], false), (64, &[0x80], false), (65, &[1], false), (65, &[0x40], false), (65, &[0x80], false), (65, &[255], false)]);
    judge(&field, 3, 10, &[(74, &[0xFF; 8], true), (74, &[0x80, 0, 0, 1], true), (78, &[0x7F; 4], true)]);
    judge(&field, 3, 10, &[(10, &[3], false), (10, &[5], false), (7, &[1], false)]);
    let told = describe(&field.altered(3, 15, &[1, 0, 0, 97, 40, 0]).file(), 0);
    assert_eq!(told.map(|description| (description.grid.earth_code, description.grid.radius)), Ok((1, 6_367_232)));
    let told = describe(&field.altered(3, 16, &[0, 0, 0, 0, 9]).file(), 0);
    assert_eq!(told.map(|description| (description.grid.earth_code, description.grid.radius)), Ok((6, 6_371_229)));
}

/// Asserts whether a Lambert grid passes, or is refused by 10.
fn judge_lambert(grid: StatedLambert, passes: bool, what: &str) {
    let field = OneField::on_lambert(grid);
    if passes {
        assert_eq!(describe(&field.file(), 0).err(), None, "{}", what);
    } else {
        field.refused_by(10, 3, what);
    }
}

#[test]
fn limits_of_counts_in_a_lambert_section_3() {
    for (ni, nj, passes) in [
        (65_535, 1, true),
        (65_536, 1, false),
        (1, 65_535, true),
        (1, 65_536, false),
        (0, 1, false),
        (1, 0, false),
        (4096, 4096, true),
        (65_535, 256, true),
        (65_535, 257, false),
        (4097, 4096, false),
        (65_536, 65_536, false),
    ] {
        judge_lambert(stated_lambert(ni, nj), passes, &format!("{} x {}", ni, nj));
    }
    judge_lambert(StatedLambert { points: 7, ..stated_lambert(2, 3) }, false, "seven points");
}

#[test]
fn limits_of_angles_in_a_lambert_section_3() {
    let grid = stated_lambert(2, 2);
    for (latitude, passes) in [(90_000_000, true), (90_000_001, false), (-90_000_000, true), (-90_000_001, false), (2_147_483_647, false), (0, true)] {
        let what = format!("latitude {}", latitude);
        judge_lambert(StatedLambert { first: (latitude, 0), ..grid }, passes, &what);
        judge_lambert(StatedLambert { stated_latitude: latitude, ..grid }, passes, &what);
        judge_lambert(StatedLambert { cutting_latitudes: (latitude, 30_000_000), ..grid }, passes, &what);
        judge_lambert(StatedLambert { cutting_latitudes: (30_000_000, latitude), ..grid }, passes, &what);
    }
    for (longitude, passes) in [(0, true), (359_999_999, true), (360_000_000, false), (0x8000_0000, false), (u32::MAX, false)] {
        let what = format!("longitude {}", longitude);
        judge_lambert(StatedLambert { first: (0, longitude), ..grid }, passes, &what);
        judge_lambert(StatedLambert { upright_meridian: longitude, ..grid }, passes, &what);
    }
    judge_lambert(StatedLambert { cutting_latitudes: (30_000_000, 60_000_000), ..grid }, true, "the cutting latitudes in the other order");
    judge_lambert(StatedLambert { cutting_latitudes: (45_000_000, 45_000_000), ..grid }, true, "one cutting latitude");
    judge_lambert(StatedLambert { cutting_latitudes: (30_000_000, -30_000_000), ..grid }, true, "cutting latitudes on either side of the equator");
}

#[test]
fn limits_of_lengths_in_a_lambert_section_3() {
    for (length, passes) in [(0, false), (1, true), (2_147_483_647, true), (2_147_483_648, false), (u32::MAX, false)] {
        judge_lambert(StatedLambert { dx: length, ..stated_lambert(2, 2) }, passes, &format!("Dx {}", length));
        judge_lambert(StatedLambert { dy: length, ..stated_lambert(2, 2) }, passes, &format!("Dy {}", length));
        judge_lambert(StatedLambert { dx: length, dy: length, ..stated_lambert(1, 1) }, passes, &format!("Dx and Dy {} of one point", length));
    }
}

#[test]
fn limits_of_section_4() {
    let field = OneField::simple();
    for length in [5, 33, 35, 56, 58] {
        field.resized(4, length).refused_by(11, 4, &format!("instant of length {}", length));
    }
    for length in [5, 34, 56, 57, 59] {
        OneField::interval().resized(4, length).refused_by(11, 4, &format!("interval of length {}", length));
    }
    judge(&field, 4, 11, &[(6, &[1], false), (7, &[4], false), (8, &[1], false), (9, &[1], false), (9, &[8], false), (10, &[0xFF; 8], true)]);
    judge(&field, 4, 11, &[(18, &[0], true), (18, &[1], true), (18, &[2], true), (18, &[3], false), (18, &[13], false), (18, &[255], false)]);
    judge(&field, 4, 11, &[(18, &[0, 0x80, 0, 0, 0], false), (18, &[0, 0x7F, 0xFF, 0xFF, 0xFF], false), (23, &[254], true), (23, &[255], false)]);
    judge(&field, 4, 11, &[(24, &[0xFF; 5], true), (24, &[0xFF], false), (25, &[0xFF; 4], false), (24, &[0xFE], true), (24, &[0x80], true)]);
    judge(&field, 4, 11, &[(25, &[0x7F, 0xFF, 0xFF, 0xFF], true), (25, &[0x80, 0, 0, 0], false), (25, &[0xFF, 0xFF, 0xFF, 0xFE], false)]);
    judge(&field, 4, 11, &[(24, &[0xFF, 0, 0, 0, 0], false), (29, &[0xFE], false), (30, &[0], false), (34, &[0x7F], false)]);
    let level = |octets: &[u8]| describe(&field.altered(4, 24, octets).file(), 0).map(|told| told.level);
    assert_eq!(level(&[0xFF; 5]), Ok(None));
    assert_eq!(level(&[0xFE, 0, 0, 0, 9]), Ok(Some(Level { factor: -126, scaled_level: 9 })));
}

#[test]
fn times_end_with_2399() {
    let last_day = OneField::simple().altered(1, 13, &time_octets(2399, [12, 31, 22, 59, 59]));
    judge(&last_day, 4, 11, &[(18, &[1, 0, 0, 0, 1], true), (18, &[1, 0, 0, 0, 2], false), (18, &[2, 0, 0, 0, 1], false)]);
    judge(&last_day, 4, 11, &[(18, &[0, 0, 0, 0, 60], true), (18, &[0, 0, 0, 0, 61], false)]);
    let first_day = OneField::simple().altered(1, 13, &time_octets(1900, [1, 1, 0, 0, 0]));
    let told = describe(&first_day.altered(4, 18, &[2, 0, 2, 0xC9, 0x5C]).file(), 0);
    let expected = Time { year: 2399, month: 12, day: 31, hour: 0, minute: 0, second: 0 };
    assert_eq!(told.map(|description| description.valid_time), Ok(expected));
    judge(&first_day, 4, 11, &[(18, &[2, 0, 2, 0xC9, 0x5C], true), (18, &[2, 0, 2, 0xC9, 0x5D], false), (18, &[2, 0x7F, 0xFF, 0xFF, 0xFF], false)]);
}

#[test]
fn limits_of_an_interval() {
    let field = OneField::interval();
    judge(&field, 4, 11, &[(42, &[0], false), (42, &[2], false), (47, &[0], true), (47, &[1], true), (47, &[2], false), (47, &[255], false)]);
    judge(&field, 4, 11, &[(43, &[0xFF; 4], true), (48, &[0xFF], true), (54, &[0xFF; 5], true), (49, &[2], false), (49, &[3], false)]);
    judge(&field, 4, 11, &[(50, &[0, 0, 0, 0], false), (50, &[0, 0, 0, 2], false), (50, &[0xFF; 4], false), (40, &[1], false), (41, &[1], false)]);
    judge(&field, 4, 11, &[(49, &[0, 0, 0, 0, 60], true), (49, &[0, 0, 0, 0, 61], false), (19, &[0, 0, 0, 1], false), (37, &[0], false)]);
    let empty = field.altered(4, 50, &[0; 4]).altered(4, 35, &time_octets(2017, [5, 15, 12, 0, 0]));
    judge(&empty, 4, 11, &[(39, &[13], false), (41, &[60], false)]);
    let later = field.altered(4, 19, &[0, 0, 0, 23]).altered(4, 35, &time_octets(2017, [5, 16, 12, 0, 0]));
    let told = describe(&later.file(), 0);
    let end = Time { year: 2017, month: 5, day: 16, hour: 12, minute: 0, second: 0 };
    let start = Time { hour: 11, ..end };
    let expected = (Product::Interval { end, kind: IntervalKind::Sum }, start);
    assert_eq!(told.map(|description| (description.product, description.valid_time)), Ok(expected));
    assert_eq!(listing(&later.file()), "1 fields\n0 0/1/8 1 2x2 20170516120000 4\n");
}

#[test]
fn limits_of_section_5() {
    let field = OneField::simple();
    for length in [5, 20, 22, 49] {
        field.resized(5, length).refused_by(12, 5, &format!("length {}", length));
    }
    judge(&field, 5, 12, &[(10, &[1], false), (11, &[1], false), (11, &[2], false), (11, &[3], false), (11, &[40], false)]);
    judge(&field, 5, 12, &[(12, &[0x7F, 0x7F, 0xFF, 0xFF], true), (12, &[0x7F, 0x80, 0, 0], false), (12, &[0x7F, 0xC0, 0, 0], false)]);
    judge(&field, 5, 12, &[(12, &[0xFF, 0x7F, 0xFF, 0xFF], true), (12, &[0xFF, 0x80, 0, 0], false), (12, &[0xFF, 0x80, 0, 1], false)]);
    judge(&field, 5, 12, &[(16, &[0, 127], true), (16, &[0, 128], false), (16, &[0x80, 127], true), (16, &[0x80, 128], false), (16, &[0xFF, 0xFF], false)]);
    judge(&field, 5, 12, &[(18, &[0, 22], true), (18, &[0, 23], false), (18, &[0x80, 22], true), (18, &[0x80, 23], false), (18, &[0xFF, 0xFF], false)]);
    judge(&field, 5, 12, &[(20, &[32], false), (20, &[255], false), (21, &[1], false)]);
    assert!(field.altered(5, 20, &[31]).resized(7, 21).passes());
    field.altered(5, 20, &[32]).resized(7, 21).refused_by(12, 5, "32 bits");
    assert!(field.altered(5, 20, &[0]).resized(7, 5).passes());
}

#[test]
fn limits_of_groups_in_section_5() {
    let field = OneField::grouped(TWO_GROUPS, &TWO_GROUPS_DATA);
    for length in [5, 21, 47, 48, 50] {
        field.resized(5, length).refused_by(12, 5, &format!("length {}", length));
    }
    judge(&field, 5, 12, &[(11, &[0], false), (11, &[2], false), (21, &[1], false)]);
    judge(&field, 5, 12, &[(22, &[0], false), (22, &[2], false), (23, &[1], false), (23, &[2], false)]);
    judge(&field, 5, 12, &[(24, &[0xFF; 8], true), (32, &[0, 0, 0, 0], false), (32, &[0, 0, 0, 6], false), (32, &[1, 0, 0, 2], false)]);
    judge(&field, 5, 12, &[(36, &[32], false), (37, &[32], false), (47, &[32], false), (20, &[32], false)]);
    judge(&field, 5, 12, &[(48, &[1], false), (48, &[3], false), (49, &[0], false), (49, &[5], false)]);
    for octet in [36, 37, 47, 20] {
        field.altered(5, octet, &[31]).refused_by(14, 7, &format!("octet {} at its limit", octet));
    }
    let of_no_bits = StatedGroups { width_reference: 0, ..ONE_GROUP };
    let no_bits = |n: u32, count: u32, last_length: u32| OneField::grouped(StatedGroups { n, count, last_length, ..of_no_bits }, &[0; 3]);
    assert!(no_bits(2, 1, 2).passes());
    no_bits(1, 1, 1).refused_by(12, 5, "N 1");
    OneField::grouped(ONE_GROUP, &ONE_GROUP_DATA).altered(5, 6, &[0; 4]).refused_by(12, 5, "N 0");
    let one_each = |count: u32| OneField::grouped(StatedGroups { count, length_reference: 1, last_length: 1, ..of_no_bits }, &[0; 3]);
    assert!(one_each(4).passes());
    one_each(5).refused_by(12, 5, "more groups than values");
    one_each(3).refused_by(14, 7, "groups of three values in all");
}

#[test]
fn limits_of_section_6() {
    let field = OneField::simple();
    field.with(6, section(6, &[])).refused_by(13, 6, "no indicator");
    for indicator in [1, 2, 253, 254] {
        field.with(6, section(6, &[indicator])).refused_by(13, 6, &format!("indicator {}", indicator));
    }
    field.with(6, section(6, &[255, 0])).refused_by(13, 6, "all present, length 7");
    field.with(6, section(6, &[0])).refused_by(13, 6, "bitmap of no octet");
    field.with(6, section(6, &[0, 0xF0, 0])).refused_by(13, 6, "bitmap of two octets");
    assert!(field.with(6, section(6, &[0, 0xF0])).passes());
    assert!(field.with(6, section(6, &[0, 0xFF])).passes());
    field.with(6, section(6, &[0, 0xE0])).refused_by(13, 6, "three points present");
    field.with(6, section(6, &[0, 0xEF])).refused_by(13, 6, "three points present, spare bits set");
    field.with(5, section_5_simple(3, 12)).refused_by(13, 6, "N one less");
    field.with(5, section_5_simple(u32::MAX, 31)).refused_by(13, 6, "the largest N");
    let none = field.with(5, section_5_simple(0, 12)).with(6, section(6, &[0, 0x0F])).resized(7, 5);
    assert_eq!(integers(&none.file(), 0), Ok(vec![]));
    assert_eq!(presence(&none.file(), 0), Ok(vec![0; 4]));
}

/// A field of points of 0 bits with its own section 6.
fn field_with_bitmap(n: u32, bitmap: Vec<u8>) -> Vec<Vec<u8>> {
    vec![section_4_instant(1), section_5_simple(n, 0), bitmap, section(7, &[])]
}

/// A grid of the given columns and one row, then its fields.
fn grid_with_fields(ni: u32, fields: &[Vec<Vec<u8>>]) -> Vec<Vec<u8>> {
    [vec![section_3(flat_grid(ni, 1))], fields.concat()].concat()
}

fn message_of_grids(grids: &[Vec<Vec<u8>>]) -> Vec<u8> {
    message(0, &[vec![section_1()], grids.concat()].concat())
}

#[test]
fn earlier_bitmaps() {
    let own = |octet: u8| field_with_bitmap(octet.count_ones(), section(6, &[0, octet]));
    let earlier = |n: u32| field_with_bitmap(n, section(6, &[254]));
    let present = |file: &[u8], k: u64| presence(file, k).map_err(|refusal| refusal.number);
    let latest = message_of_grids(&[grid_with_fields(8, &[own(0x01), own(0xC0), earlier(2), field_with_bitmap(8, section(6, &[255])), earlier(2)])]);
    assert_eq!(present(&latest, 2), Ok(vec![1, 1, 0, 0, 0, 0, 0, 0]));
    assert_eq!(present(&latest, 3), Ok(vec![1; 8]));
    assert_eq!(present(&latest, 4), Ok(vec![1, 1, 0, 0, 0, 0, 0, 0]));
    let other_grid = message_of_grids(&[grid_with_fields(8, &[own(0xC0)]), grid_with_fields(8, &[earlier(2)])]);
    assert_eq!(present(&other_grid, 1), Err(13));
    let lambert = |fields: &[Vec<Vec<u8>>]| [vec![section_3_lambert(stated_lambert(8, 1))], fields.concat()].concat();
    let other_kind = message_of_grids(&[grid_with_fields(8, &[own(0xC0)]), lambert(&[earlier(2)]), lambert(&[own(0x03), earlier(2)])]);
    assert_eq!([1, 2, 3].map(|k| present(&other_kind, k)), [Err(13), Ok(vec![0, 0, 0, 0, 0, 0, 1, 1]), Ok(vec![0, 0, 0, 0, 0, 0, 1, 1])]);
    let one = message_of_grids(&[grid_with_fields(8, &[own(0xC0)])]);
    let other_message = [one.clone(), message_of_grids(&[grid_with_fields(8, &[earlier(2)])])].concat();
    let start = one.len() as u32 + 16 + 21 + 72 + 34 + 21;
    assert_eq!(presence(&other_message, 1), Err(refused(13, start)));
    let too_late = message_of_grids(&[grid_with_fields(8, &[earlier(2), own(0xC0)])]);
    assert_eq!(present(&too_late, 0), Err(13));
    let too_long = message_of_grids(&[grid_with_fields(8, &[own(0xC0), field_with_bitmap(2, section(6, &[0, 0xC0, 0])), earlier(2)])]);
    assert_eq!(present(&too_long, 2), Err(13));
    let differing_n = message_of_grids(&[grid_with_fields(8, &[own(0x01), field_with_bitmap(9, section(6, &[0, 0xC0])), earlier(2)])]);
    assert_eq!(present(&differing_n, 1), Err(13));
    assert_eq!(present(&differing_n, 2), Ok(vec![1, 1, 0, 0, 0, 0, 0, 0]));
    let no_indicator = message_of_grids(&[grid_with_fields(8, &[own(0xC0), field_with_bitmap(2, section(6, &[])), earlier(2)])]);
    assert_eq!(present(&no_indicator, 1), Err(13));
    assert_eq!(present(&no_indicator, 2), Ok(vec![1, 1, 0, 0, 0, 0, 0, 0]));
}

#[test]
fn limits_of_section_7() {
    let simple = OneField::simple();
    simple.resized(7, 10).refused_by(14, 7, "simple, one octet less");
    simple.resized(7, 12).refused_by(14, 7, "simple, one octet more");
    let field = OneField::grouped(TWO_GROUPS, &TWO_GROUPS_DATA);
    for length in (5..17).chain(18..20) {
        field.resized(7, length).refused_by(14, 7, &format!("grouped, length {}", length));
    }
    let spare_bits = field.altered(7, 13, &[0b0010_1111, 0b0011_1111]).altered(7, 17, &[0b0011_1111]);
    assert_eq!(integers(&spare_bits.file(), 0), Ok(vec![100, 102, 104, 109, 122]));
    let not_used = field.altered(7, 14, &[0b0010_0000]).altered(7, 15, &[0b0000_0001]);
    assert_eq!(integers(&not_used.file(), 0), Ok(vec![100, 102, 104, 109, 122]));
}

#[test]
fn limits_of_the_group_plan() {
    let with = |groups: StatedGroups, packed_octets: usize| OneField::grouped(groups, &TWO_GROUPS_DATA).resized(7, 14 + packed_octets);
    assert!(with(TWO_GROUPS, 3).passes());
    with(StatedGroups { last_length: 1, ..TWO_GROUPS }, 2).refused_by(14, 7, "lengths of 4 in all");
    with(StatedGroups { last_length: 3, ..TWO_GROUPS }, 3).refused_by(14, 7, "lengths of 6 in all");
    with(StatedGroups { last_length: u32::MAX, ..TWO_GROUPS }, 3).refused_by(14, 7, "the longest last group");
    with(StatedGroups { length_reference: u32::MAX, length_increment: 255, ..TWO_GROUPS }, 3).refused_by(14, 7, "the longest group");
    with(StatedGroups { length_reference: 3, last_length: 0, ..TWO_GROUPS }, 2).refused_by(14, 7, "an empty last group");
    with(StatedGroups { length_reference: 0, length_increment: 0, last_length: 5, ..TWO_GROUPS }, 4).refused_by(14, 7, "an empty first group");
    assert!(with(StatedGroups { length_reference: 2, last_length: 1, ..TWO_GROUPS }, 3).passes());
    assert!(with(StatedGroups { length_reference: 1, length_increment: 0, last_length: 4, ..TWO_GROUPS }, 3).passes());
    let wide = StatedGroups { n: 2, width_reference: 31, width_bits: 1, last_length: 2, ..ONE_GROUP };
    let data = |stored_width: u8, packed_octets: usize| [vec![0, 0, 0, stored_width << 7], vec![0xFF; packed_octets]].concat();
    assert_eq!(integers(&OneField::grouped(wide, &data(0, 8)).file(), 0), Ok(vec![0, 0]));
    OneField::grouped(wide, &data(1, 8)).refused_by(14, 7, "width 32");
    let huge = StatedGroups { n: 16_777_216, count: 16_777_216, length_reference: u32::MAX, last_length: u32::MAX, width_reference: 0, ..ONE_GROUP };
    OneField::grouped(huge, &[0; 3]).with(3, section_3(flat_grid(4096, 4096))).refused_by(14, 7, "lengths past 2^55 in all");
}

/// Values of four octets each and one group of the given length, of no bits and reference 0.
fn plain_differences(n: u32, first: u32, second: u32, z_min: i64) -> OneField {
    let groups = StatedGroups { n, width_reference: 0, last_length: n, value_octets: 4, ..ONE_GROUP };
    OneField::grouped(groups, &[first.to_be_bytes(), second.to_be_bytes(), signed_octets(z_min)].concat())
}

#[test]
fn range_of_integers() {
    let limit = 2_147_483_647;
    let refused_by_16 = |field: OneField| {
        assert_eq!(integers(&field.file(), 0), Err(refused(16, field.start(7))));
        assert_eq!(decode(&field.file(), 0, 0, &mut [0.0; 4], &mut [0; 4]), Err(refused(16, field.start(7))));
        assert!(field.passes());
    };
    assert_eq!(integers(&plain_differences(2, limit, limit, -5).file(), 0), Ok(vec![limit, limit]));
    refused_by_16(plain_differences(2, limit + 1, 0, 0));
    refused_by_16(plain_differences(2, 0, limit + 1, 0));
    refused_by_16(plain_differences(2, u32::MAX, u32::MAX, 0));
    assert_eq!(integers(&plain_differences(3, 1, 1, -1).file(), 0), Ok(vec![1, 1, 0]));
    refused_by_16(plain_differences(3, 0, 0, -1));
    assert_eq!(integers(&plain_differences(3, 0, 0, 2_147_483_647).file(), 0), Ok(vec![0, 0, limit]));
    assert_eq!(integers(&plain_differences(3, 1, limit, -2_147_483_646).file(), 0), Ok(vec![1, limit, limit]));
    refused_by_16(plain_differences(3, 1, limit, -2_147_483_645));
    refused_by_16(plain_differences(4, 5, 3, -1));
}

#[test]
fn decode_fills_its_stretch_only() {
    let mut values = [9.0; 7];
    let mut marks = [9; 8];
    assert_eq!(decode(&sample(), 0, 2, &mut values, &mut marks), Ok(4));
    assert_eq!(values.map(f64::to_bits), [9.0, 9.0, 291.0, 0.0, 2748.0, 0.0, 9.0].map(f64::to_bits));
    assert_eq!(marks, [9, 9, 1, 0, 1, 0, 9, 9]);
    assert_eq!(decode(&sample(), 1, 0, &mut values[..4], &mut marks[..4]), Ok(4));
    assert_eq!(values, [7.0, 0.0, 9.0, 0.0, 2748.0, 0.0, 9.0]);
    assert_eq!(marks, [1, 0, 1, 0, 1, 0, 9, 9]);
}

#[test]
fn decode_is_the_same_on_a_lambert_grid() {
    let bitmap = |field: &OneField| field.with(5, section_5_simple(2, 12)).with(6, section(6, &[0, 0xA0])).with(7, section(7, &[0x12, 0x3A, 0xBC]));
    let decoded = |field: &OneField| {
        let (mut values, mut marks) = ([9.0; 6], [9; 6]);
        let answer = decode(&field.file(), 0, 1, &mut values, &mut marks).map_err(|refusal| refusal.number);
        (answer, values.map(f64::to_bits), marks)
    };
    let (degrees, lambert) = (OneField::simple(), OneField::lambert());
    assert_eq!(decoded(&lambert), (Ok(4), [9.0, 291.0, 2748.0, 0.0, 1.0, 9.0].map(f64::to_bits), [9, 1, 1, 1, 1, 9]));
    assert_eq!(decoded(&bitmap(&lambert)), (Ok(4), [9.0, 291.0, 0.0, 2748.0, 0.0, 9.0].map(f64::to_bits), [9, 1, 0, 1, 0, 9]));
    assert_eq!((decoded(&lambert), decoded(&bitmap(&lambert))), (decoded(&degrees), decoded(&bitmap(&degrees))));
    let grouped = OneField::grouped(TWO_GROUPS, &TWO_GROUPS_DATA).with(3, section_3_lambert(stated_lambert(5, 1)));
    assert_eq!(integers(&grouped.file(), 0), Ok(vec![100, 102, 104, 109, 122]));
    assert_eq!(decode(&lambert.file(), 0, 0, &mut [0.0; 3], &mut [0; 4]), Err(refused(15, 0)));
    let out_of_range = plain_differences(4, 0, 0, -1).with(3, section_3_lambert(stated_lambert(4, 1)));
    assert_eq!(decode(&out_of_range.file(), 0, 0, &mut [0.0; 4], &mut [0; 4]), Err(refused(16, out_of_range.start(7))));
}

#[test]
fn decode_needs_room() {
    let refusal = Err(refused(15, 0));
    let too_short = [(0, 3, 4), (0, 4, 3), (1, 4, 5), (1, 5, 4), (4, 4, 4), (u64::MAX, 9, 9), (u64::MAX - 3, 9, 9), (1 << 32, 9, 9)];
    for (start, values_length, presence_length) in too_short {
        let mut values = vec![9.0; values_length];
        let mut marks = vec![9; presence_length];
        assert_eq!(decode(&sample(), 0, start, &mut values, &mut marks), refusal);
        assert_eq!((values, marks), (vec![9.0; values_length], vec![9; presence_length]));
    }
    let out_of_range = plain_differences(4, 0, 0, -1).file();
    assert_eq!(decode(&out_of_range, 0, 0, &mut [0.0; 3], &mut [0; 4]), refusal);
    let mut values = [9.0; 4];
    let mut marks = [9; 4];
    assert_eq!(decode(&out_of_range, 0, 0, &mut values, &mut marks).map_err(|refusal| refusal.number), Err(16));
    assert_eq!((values, marks), ([9.0; 4], [9; 4]));
    let huge = OneField::on_grid(flat_grid(4096, 4096)).file();
    assert!(huge.len() < 200);
    assert_eq!(decode(&huge, 0, 0, &mut values, &mut marks), refusal);
}

/// What point answers for each point of a grid of so many: its value, nothing where it is missing, or the number of its refusal.
fn points_of(field: &OneField, count: u64) -> Vec<Result<Option<f64>, u32>> {
    (0..count).map(|n| point(&field.file(), 0, n).map_err(|refusal| refusal.number)).collect()
}

/// The same field under a bitmap of eight points.
fn under_bitmap(field: &OneField, bitmap: u8) -> OneField {
    field.with(3, section_3(flat_grid(8, 1))).with(6, section(6, &[0, bitmap]))
}

#[test]
fn points_of_the_sample() {
    let told = |k| (0..5).map(|n| point(&sample(), k, n)).collect::<Vec<_>>();
    assert_eq!(told(0), [Ok(Some(291.0)), Ok(None), Ok(Some(2748.0)), Ok(None), Err(refused(17, 0))]);
    assert_eq!(told(1), [Ok(Some(7.0)), Ok(None), Ok(Some(9.0)), Ok(None), Err(refused(17, 0))]);
    assert_eq!(told(2), [Err(refused(8, 0)); 5]);
    assert_eq!(point(&sample(), 0, u64::MAX), Err(refused(17, 0)));
    assert_eq!(points_of(&OneField::lambert(), 4), [Ok(Some(291.0)), Ok(Some(2748.0)), Ok(Some(0.0)), Ok(Some(1.0))]);
}

#[test]
fn point_fills_its_first_element_only() {
    let asked = |n, length| {
        let mut run = vec![9.0; length];
        (point_into(&sample(), 0, n, &mut run), run.into_iter().map(f64::to_bits).collect::<Vec<_>>())
    };
    let bits = |run: &[f64]| run.iter().map(|value| value.to_bits()).collect::<Vec<_>>();
    assert_eq!(asked(0, 1), (Ok(1), bits(&[291.0])));
    assert_eq!(asked(2, 3), (Ok(1), bits(&[2748.0, 9.0, 9.0])));
    assert_eq!(asked(1, 1), (Ok(0), bits(&[0.0])));
    assert_eq!(asked(3, 2), (Ok(0), bits(&[0.0, 9.0])));
    assert_eq!(asked(4, 2), (Err(refused(17, 0)), bits(&[9.0, 9.0])));
    assert_eq!((asked(0, 0), asked(1, 0)), ((Err(refused(15, 0)), vec![]), (Err(refused(15, 0)), vec![])));
    assert_eq!(asked(4, 0), (Err(refused(17, 0)), vec![]));
}

#[test]
fn points_are_as_decode_has_them() {
    let grouped = OneField::grouped(TWO_GROUPS, &TWO_GROUPS_DATA);
    let no_point = OneField::simple().with(5, section_5_simple(0, 12)).with(6, section(6, &[0, 0])).with(7, section(7, &[]));
    let fields = [
        (OneField::simple(), 4),
        (OneField::lambert(), 4),
        (OneField::on_grid(flat_grid(7, 3)), 21),
        (no_point, 4),
        (grouped.clone(), 5),
        (under_bitmap(&grouped, 0b1011_0101), 8),
        (under_bitmap(&grouped, 0b0001_1111), 8),
        (under_bitmap(&grouped, 0b1111_1000), 8),
    ];
    for (field, count) in fields {
        let (mut values, mut marks) = (vec![9.0; count], vec![9; count]);
        assert_eq!(decode(&field.file(), 0, 0, &mut values, &mut marks), Ok(count as u32));
        let decoded: Vec<_> = values.iter().zip(marks).map(|(value, mark)| Ok(if mark == 1 { Some(*value) } else { None })).collect();
        assert_eq!(points_of(&field, count as u64), decoded);
    }
}

#[test]
fn point_judges_integers_up_to_its_own() {
    let (limit, given) = (2_147_483_647, |x: u32| Ok(Some(f64::from(x))));
    assert_eq!(points_of(&plain_differences(5, 5, 3, -1), 5), [given(5), given(3), given(0), Err(16), Err(16)]);
    assert_eq!(points_of(&plain_differences(4, limit - 1, limit, 0), 4), [given(limit - 1), given(limit), Err(16), Err(16)]);
    assert_eq!(points_of(&plain_differences(2, limit + 1, 0, 0), 2), [Err(16), Err(16)]);
    assert_eq!(points_of(&plain_differences(2, 7, limit + 1, 0), 2), [given(7), Err(16)]);
    let out_of_range = plain_differences(4, 0, 0, -1);
    assert_eq!(point(&out_of_range.file(), 0, 2), Err(refused(16, out_of_range.start(7))));
    let mut run = [9.0; 2];
    assert_eq!(point_into(&out_of_range.file(), 0, 3, &mut run), Err(refused(16, out_of_range.start(7))));
    assert_eq!(run, [9.0; 2]);
}

#[test]
fn missing_points_are_not_judged() {
    let field = under_bitmap(&plain_differences(4, 6, 2_147_483_648, 0), 0b0101_0110);
    let (missing, out) = (Ok(None), Err(16));
    assert_eq!(points_of(&field, 8), [missing, Ok(Some(6.0)), missing, out, missing, out, out, missing]);
    let first = under_bitmap(&plain_differences(4, 2_147_483_648, 6, 0), 0b0101_0110);
    assert_eq!(points_of(&first, 8), [missing, out, missing, out, missing, out, out, missing]);
}

#[test]
fn point_tries_17_then_15_then_16() {
    let field = under_bitmap(&plain_differences(4, 6, 2_147_483_648, 0), 0b0101_0110);
    let asked = |n, length| point_into(&field.file(), 0, n, &mut vec![9.0; length]).map_err(|refusal| (refusal.number, refusal.place));
    assert_eq!((asked(3, 1), asked(3, 0)), (Err((16, field.start(7))), Err((15, 0))));
    assert_eq!((asked(0, 1), asked(0, 0)), (Ok(0), Err((15, 0))));
    assert_eq!((asked(8, 1), asked(8, 0), asked(1 << 32, 0)), (Err((17, 0)), Err((17, 0)), Err((17, 0))));
}

/// What picture answers in a run of so many octets, each of which was 9, and the run.
fn drawn(file: &[u8], k: u64, length: usize) -> (Result<u64, Refusal>, Vec<u8>) {
    let mut run = vec![9; length];
    (picture_into(file, k, &mut run), run)
}

/// The whole picture of a file's first field, in a run that just fits.
fn picture_of(field: &OneField, length: usize) -> Vec<u8> {
    let (answer, run) = drawn(&field.file(), 0, length);
    assert_eq!(answer, Ok(length as u64));
    run
}

#[test]
fn pictures_of_the_sample() {
    assert_eq!(drawn(&sample(), 0, 15), (Ok(15), b"P5\n2 2\n255\n\x1b\x00\xff\x00".to_vec()));
    assert_eq!(drawn(&sample(), 1, 15), (Ok(15), b"P5\n2 2\n255\n\xc6\x00\xff\x00".to_vec()));
    assert_eq!(drawn(&sample(), 2, 15), (Err(refused(8, 0)), vec![9; 15]));
    assert_eq!(picture_of(&OneField::simple(), 15), b"P5\n2 2\n255\n\x1b\xff\x01\x01");
    assert_eq!(picture_of(&OneField::lambert(), 15), b"P5\n2 2\n255\n\x1b\xff\x01\x01");
    assert_eq!(picture_of(&OneField::grouped(ONE_GROUP, &ONE_GROUP_DATA), 15), b"P5\n4 1\n255\n\x55\x77\xbb\xff");
}

#[test]
fn picture_fills_the_start_of_its_run_only() {
    let picture = b"P5\n2 2\n255\n\x1b\x00\xff\x00";
    assert_eq!(drawn(&sample(), 0, 18), (Ok(15), [&picture[..], &[9; 3]].concat()));
    for length in 0..15 {
        assert_eq!(drawn(&sample(), 0, length), (Err(refused(15, 0)), vec![9; length]));
    }
}

#[test]
fn greys_go_from_1_to_255() {
    let two_of_31_bits = |one: u32, other: u32| {
        let packed = (u64::from(one) << 33 | u64::from(other) << 2).to_be_bytes();
        let field = OneField::simple().with(3, section_3(flat_grid(2, 1))).with(5, section_5_simple(2, 31)).with(7, section(7, &packed));
        picture_of(&field, 13)[11..].to_vec()
    };
    let limit = 2_147_483_647;
    let told = [
        (0, 0, [1, 1]),
        (0, 1, [1, 255]),
        (1, 1, [255, 255]),
        (1, 2, [128, 255]),
        (1, 254, [2, 255]),
        (253, 254, [254, 255]),
        (1, 255, [1, 255]),
        (2, 255, [2, 255]),
        (254, 255, [254, 255]),
        (1, limit, [1, 255]),
        (limit - 1, limit, [254, 255]),
        (8_454_660, limit, [1, 255]),
        (8_454_661, limit, [2, 255]),
        (limit / 2, limit, [127, 255]),
        (limit / 2 + 1, limit, [128, 255]),
    ];
    for (x, largest, greys) in told {
        assert_eq!(two_of_31_bits(x, largest), greys, "{} of {}", x, largest);
        assert_eq!(two_of_31_bits(largest, x), [greys[1], greys[0]], "{} of {}", x, largest);
    }
}

#[test]
fn missing_points_are_black() {
    let grouped = OneField::grouped(TWO_GROUPS, &TWO_GROUPS_DATA);
    let head = b"P5\n8 1\n255\n";
    let greys = |field: &OneField| {
        let picture = picture_of(field, 19);
        assert_eq!(picture[..11], head[..]);
        picture[11..].to_vec()
    };
    assert_eq!(picture_of(&grouped, 16), b"P5\n5 1\n255\n\xd1\xd5\xd9\xe3\xff");
    assert_eq!(greys(&under_bitmap(&grouped, 0b1011_0101)), [209, 0, 213, 217, 0, 227, 0, 255]);
    assert_eq!(greys(&under_bitmap(&grouped, 0b0001_1111)), [0, 0, 0, 209, 213, 217, 227, 255]);
    assert_eq!(greys(&under_bitmap(&grouped, 0b1111_1000)), [209, 213, 217, 227, 255, 0, 0, 0]);
    let one = OneField::simple().with(5, section_5_simple(1, 12)).with(7, section(7, &[0x12, 0x30]));
    assert_eq!(greys(&under_bitmap(&one, 0b0000_0100)), [0, 0, 0, 0, 0, 255, 0, 0]);
    let none = OneField::simple().with(5, section_5_simple(0, 12)).with(7, section(7, &[]));
    assert_eq!(greys(&under_bitmap(&none, 0)), [0; 8]);
    let of_no_bits = OneField::simple().with(5, section_5_simple(3, 0)).with(7, section(7, &[]));
    assert_eq!(greys(&under_bitmap(&of_no_bits, 0b1000_0011)), [1, 0, 0, 0, 0, 0, 1, 1]);
}

#[test]
fn sizes_of_pictures_have_one_to_five_digits() {
    let shapes = [(1, 1), (9, 10), (10, 9), (99, 1), (100, 2), (1, 999), (3, 1000), (9999, 1), (1, 10_000), (65_535, 1), (1, 65_535), (65_535, 2)];
    for (ni, nj) in shapes {
        let head = format!("P5\n{} {}\n255\n", ni, nj).into_bytes();
        let length = head.len() + (ni * nj) as usize;
        for field in [OneField::on_grid(flat_grid(ni, nj)), OneField::on_lambert(stated_lambert(ni, nj))] {
            assert_eq!(picture_of(&field, length), [&head[..], &vec![1; (ni * nj) as usize]].concat());
            assert_eq!(drawn(&field.file(), 0, length - 1).0, Err(refused(15, 0)));
        }
    }
    let most = OneField::on_grid(flat_grid(4096, 4096)).file();
    assert_eq!((drawn(&most, 0, 16_777_233).0, drawn(&most, 0, 16_777_232).0), (Ok(16_777_233), Err(refused(15, 0))));
}

#[test]
fn picture_tries_15_then_16() {
    let field = plain_differences(4, 0, 0, -1);
    assert_eq!(drawn(&field.file(), 0, 15), (Err(refused(16, field.start(7))), vec![9; 15]));
    assert_eq!(drawn(&field.file(), 0, 14), (Err(refused(15, 0)), vec![9; 14]));
    assert_eq!(drawn(&field.file(), 1, 14), (Err(refused(8, 0)), vec![9; 14]));
    assert_eq!(drawn(&field.altered(5, 20, &[32]).file(), 0, 14).0, Err(refused(12, field.start(5))));
    let second = under_bitmap(&plain_differences(2, 7, 2_147_483_648, 0), 0b0001_0100);
    assert_eq!(drawn(&second.file(), 0, 30), (Err(refused(16, second.start(7))), vec![9; 30]));
}

#[test]
fn limits_of_rebuild() {
    let refusal = Err(refused(19, 0));
    for (r, e, d, x) in [(0x7F80_0000, 0, 0, 0), (0xFF80_0000, 0, 0, 0), (0x7FC0_0000, 0, 0, 0), (0, 128, 0, 0), (0, -128, 0, 0), (0, i64::MIN, 0, 0)] {
        assert_eq!(rebuild(r, e, d, x), refusal);
    }
    for (r, e, d, x) in [(0, 0, 23, 0), (0, 0, -23, 0), (0, 0, i64::MAX, 0), (0, 0, 0, -1), (0, 0, 0, 2_147_483_648), (0, 0, 0, i64::MIN)] {
        assert_eq!(rebuild(r, e, d, x), refusal);
    }
    for (r, e, d, x) in [(0x7F7F_FFFF, 127, 22, 2_147_483_647), (0xFF7F_FFFF, -127, -22, 0), (1, 127, -22, 2_147_483_647), (0x8000_0001, -127, 22, 1)] {
        assert!(rebuild(r, e, d, x).is_ok());
    }
}

/// A fixed sequence of numbers that look random, so that every run asks the same questions.
struct Sequence(u64);

impl Sequence {
    fn next(&mut self) -> u64 {
        self.0 ^= self.0 << 13;
        self.0 ^= self.0 >> 7;
        self.0 ^= self.0 << 17;
        self.0.wrapping_mul(0x2545_F491_4F6C_DD1D) >> 8
    }

    /// A single near or far from zero, an E, a D and an X of any size.
    fn question(&mut self) -> (u32, i64, i64, u32) {
        let r = match self.next() % 3 {
            0 => ((self.next() as u32) % 0x7F80_0000) | ((self.next() as u32) << 31),
            1 => (self.next() as u32) & 0x8000_000F,
            _ => (100 + self.next() as u32 % 60) << 23 | self.next() as u32 & 0x807F_FFFF,
        };
        let e = (self.next() % 255) as i64 - 127;
        let d = (self.next() % 45) as i64 - 22;
        let x = (self.next() as u32 & 0x7FFF_FFFF) >> (self.next() % 32);
        (r, e, d, x)
    }
}

/// The same value by the machine's own doubles: all three operands are exact, so each operation rounds once.
fn by_machine(r: u32, e: i64, d: i64, x: u32) -> f64 {
    let power_of_two = f64::from_bits(((1023 + e) as u64) << 52);
    let power_of_ten: f64 = format!("1e{}", d.unsigned_abs()).parse().unwrap_or(f64::NAN);
    let sum = f64::from(f32::from_bits(r)) + f64::from(x) * power_of_two;
    let value = if d < 0 { sum * power_of_ten } else { sum / power_of_ten };
    value + 0.0
}

#[test]
fn rebuild_agrees_with_the_machine_and_with_demand_3() {
    let mut sequence = Sequence(20_170_515);
    for _ in 0..100_000 {
        let (r, e, d, x) = sequence.question();
        let expected = by_machine(r, e, d, x);
        let what = format!("R {:08X} E {} D {} X {}", r, e, d, x);
        assert_eq!(rebuild(r, e, d, i64::from(x)).map(f64::to_bits), Ok(expected.to_bits()), "{}", what);
        assert!(near_enough(expected, r, e, d, x), "{}", what);
        if expected != 0.0 {
            assert!(!near_enough(f64::from_bits(expected.to_bits() + 8), r, e, d, x), "{}", what);
            assert!(!near_enough(f64::from_bits(expected.to_bits() - 8), r, e, d, x), "{}", what);
            assert!(!near_enough(-expected, r, e, d, x), "{}", what);
        }
    }
}

#[test]
fn rebuild_cancels_and_ties() {
    for (r, e, x) in [(-8.0f32, 0, 8), (-8.0, 1, 4), (-0.5, -1, 1), (-8.0, 0, 7), (-8.0, 0, 9)] {
        let expected = f64::from(r) + f64::from(x) * f64::powi(2.0, e);
        assert_eq!(rebuild(r.to_bits(), i64::from(e), 0, i64::from(x)).map(f64::to_bits), Ok(expected.to_bits()));
    }
    let one = 1.0f32.to_bits();
    let with_x = |x: i64| rebuild(one, -53, 0, x).map(f64::to_bits);
    let steps = [with_x(1), with_x(2), with_x(3), with_x(5), with_x(6)].map(|bits| bits.map(|b| b - 1.0f64.to_bits()));
    assert_eq!(steps, [Ok(0), Ok(1), Ok(2), Ok(2), Ok(3)]);
    let two_to_43 = (43 + 127) << 23;
    let above = |x: i64| rebuild(two_to_43, -40, 0, x).map(|double| double.to_bits() - 8_796_093_022_208.0f64.to_bits());
    assert_eq!([above((1 << 30) - 1), above(1 << 30), above((1 << 30) + 1)], [Ok(0), Ok(0), Ok(1)]);
}

#[test]
fn rounding_below_the_normal_range() {
    assert_eq!(rounded(false, 1, -1074, false), 1);
    assert_eq!(rounded(true, 1, -1074, false), 0x8000_0000_0000_0001);
    assert_eq!(rounded(false, 1, -1075, false), 0);
    assert_eq!(rounded(true, 1, -1075, false), 0);
    assert_eq!(rounded(false, 1, -1075, true), 1);
    assert_eq!(rounded(false, 3, -1075, false), 2);
    assert_eq!(rounded(false, 5, -1075, false), 2);
    assert_eq!(rounded(false, 5, -1076, false), 1);
    assert_eq!(rounded(false, u128::MAX, -1202, false), 1);
    assert_eq!(rounded(false, u128::MAX, -1203, true), 0);
    assert_eq!(rounded(false, (1 << 53) - 1, -1075, false), 1 << 52);
    assert_eq!(rounded(false, (1 << 54) - 1, 970, false), 0x7FF0_0000_0000_0000);
    assert_eq!(rounded(false, (1 << 53) - 1, 971, false), f64::MAX.to_bits());
    assert_eq!(rounded(true, 1, 1024, false), f64::NEG_INFINITY.to_bits());
    assert_eq!(rounded(true, 0, 0, false), 0);
}

#[test]
fn near_enough_stops_at_its_bound() {
    let one = 1.0f64.to_bits();
    let near_one = |bits: u64| near_enough(f64::from_bits(bits), 1.0f32.to_bits(), 0, 0, 0);
    assert!(near_one(one) && near_one(one + 2) && near_one(one - 4));
    assert!(!near_one(one + 3) && !near_one(one - 5));
    assert!(near_enough(0.0, 0, 3, 5, 0) && near_enough(0.0, 0x8000_0000, 0, 0, 0) && near_enough(0.0, (-4.0f32).to_bits(), 2, -3, 1));
    assert!(!near_enough(f64::from_bits(1), 0, 3, 5, 0) && !near_enough(-0.0, 0, 0, 0, 0) && !near_enough(0.0, 1, 0, 0, 0));
    for double in [f64::NAN, f64::INFINITY, f64::NEG_INFINITY, f64::MAX, f64::MIN] {
        assert!(!near_enough(double, 1.0f32.to_bits(), 0, 0, 0) && !near_enough(double, 0x7F7F_FFFF, 127, 22, 0x7FFF_FFFF));
        assert!(!near_enough(double, 0x7F7F_FFFF, 127, -22, 0x7FFF_FFFF));
    }
    assert!(!near_enough(1.0, 0x7F80_0000, 0, 0, 0) && !near_enough(1.0, 0x3F80_0000, 128, 0, 0) && !near_enough(1.0, 0x3F80_0000, 0, 23, 0));
    assert!(!near_enough(2_147_483_648.0, 0, 0, 0, 1 << 31) && near_enough(2_147_483_647.0, 0, 0, 0, (1 << 31) - 1));
    assert!(!near_enough(1.0, 0x3F80_0000, i64::MIN, i64::MIN, 0));
}

#[test]
fn lowest_refusal_is_given() {
    for good in [OneField::simple(), OneField::lambert()] {
        let all_wrong = good.altered(1, 12, &[0]).altered(3, 15, &[0]).altered(4, 23, &[255]).altered(5, 20, &[32]);
        let mut field = all_wrong.with(6, section(6, &[9])).with(7, section(7, &[]));
        let mends: [(u32, usize, usize, u8); 5] = [(9, 1, 12, 1), (10, 3, 15, 6), (11, 4, 23, 103), (12, 5, 20, 12), (13, 6, 6, 255)];
        for (number, section, octet, right) in mends {
            field.refused_by(number, section, "the lowest of those left");
            field = field.altered(section, octet, &[right]);
        }
        field.refused_by(14, 7, "the last one left");
    }
}

/// Answers every question about arbitrary octets; what matters is that each comes back.
fn ask_everything(file: &[u8]) -> u64 {
    let mut values = [0.0; 8];
    let mut marks = [0; 8];
    let mut octets = [0; 20];
    let answers = [
        check(file).map_or_else(Refusal::code, Counts::code),
        describe(file, 0).map_or_else(Refusal::code, |told| told.numbers().len() as u64),
        place(file, 0, 3).map_or_else(Refusal::code, |(_, longitude)| u64::from(longitude)),
        sheet(file, 0, 3).map_or_else(Refusal::code, |(right, _)| right as u64),
        point(file, 0, 2).map_or_else(Refusal::code, |value| value.map_or(0, f64::to_bits)),
        picture_into(file, 0, &mut octets).map_or_else(Refusal::code, |drawn| drawn + u64::from(octets[12])),
        decode(file, 0, 1, &mut values, &mut marks).map_or_else(Refusal::code, u64::from),
        listing(file).len() as u64,
    ];
    answers.iter().fold(0, |all, answer| all.rotate_left(7) ^ answer)
}

#[test]
fn damaged_files_are_answered() {
    let mut sequence = Sequence(88);
    let grouped = [OneField::grouped(TWO_GROUPS, &TWO_GROUPS_DATA).file(), OneField::grouped(ONE_GROUP, &ONE_GROUP_DATA).file()];
    let files = [&[sample(), OneField::lambert().file()], &grouped[..]].concat();
    let mut differing = 0;
    for round in 0..60_000 {
        let mut file = files[round % files.len()].clone();
        let good = ask_everything(&file);
        for _ in 0..=sequence.next() % 3 {
            let place = sequence.next() as usize % file.len();
            file[place] = if sequence.next() % 2 == 0 { sequence.next() as u8 } else { file[place] ^ 1 << (sequence.next() % 8) };
        }
        differing += usize::from(ask_everything(&file) != good);
    }
    assert!(differing > 30_000, "{} damaged files were told apart", differing);
}

#[test]
fn every_shortened_file_is_refused() {
    let file = sample();
    for length in 1..file.len() {
        assert_eq!(check(&file[..length]), Err(refused(3, 0)), "{} octets", length);
        assert_eq!(describe_into(&file[..length], 0, &mut [0; 52]), Err(refused(3, 0)), "{} octets", length);
        assert_eq!(place_into(&file[..length], 0, 9, &mut [0]), Err(refused(3, 0)), "{} octets", length);
        assert_eq!(sheet_into(&file[..length], 0, 9, &mut [0]), Err(refused(3, 0)), "{} octets", length);
        assert_eq!(point_into(&file[..length], 0, 9, &mut []), Err(refused(3, 0)), "{} octets", length);
        assert_eq!(picture_into(&file[..length], 0, &mut []), Err(refused(3, 0)), "{} octets", length);
    }
}
