//! Files for pictures, the same each time: the first X of each grey and the last before it, for largest X of every size; points missing at either end and
//! between; and grids whose columns and rows have one to five digits.

use crate::make::{
    bitmap, section6, section7, Groups, Message, PackedRun, Point, Scaling, Section1, Section3, Section3Lambert, Section4, Section5, Section7Groups, LARGEST,
};

/// The largest X of a field: few for 254 greys, as many, more, and on either side of 2^28, up to the largest of all.
const LARGEST_X: [u64; 16] = [0, 1, 2, 253, 254, 255, 256, 508, 65_535, 16_777_217, (1 << 28) - 1, 1 << 28, (1 << 28) + 1, 1 << 30, LARGEST - 1, LARGEST];
/// So many points of a field in groups, which are more than one block has.
const POINTS_OF_SLOPE: u64 = 61;

/// X in so many bits by simple packing, or in two groups by complex packing.
#[derive(Clone, Copy)]
enum Packing {
    Simple(u8),
    Groups,
}

/// Sections 5 and 7.
fn packed(integers: &[u64], packing: Packing) -> (Vec<u8>, Vec<u8>) {
    let (count, scaling) = (integers.len() as u32, Scaling::of(0.0, 0, 0));
    match packing {
        Packing::Simple(bits) => (Section5 { count, scaling, bits, groups: None }.octets(), section7(integers, bits, 0x2a)),
        Packing::Groups => (Section5 { count, scaling, bits: 0, groups: Some(plan(count)) }.octets(), in_groups(integers)),
    }
}

/// A group of 7 values, and one of the others.
fn plan(count: u32) -> Groups {
    Groups { count: 2, width_reference: 2, length_reference: 7, last_length: count - 7, extra_octets: 4, ..Groups::default() }
}

/// Section 7 for integers each of which is at most 1 away from the straight line through the two before it.
fn in_groups(integers: &[u64]) -> Vec<u8> {
    let second_differences = integers.windows(3).map(|x| x[2] + x[0] + 1 - 2 * x[1]);
    let values: Vec<u64> = [3, 3].into_iter().chain(second_differences).collect();
    let (references, widths, lengths) = (PackedRun::of(&[0, 0], 0), PackedRun::of(&[0, 0], 0), PackedRun::of(&[0, 0], 0));
    let (first, second, zmin, values) = (integers[0], integers[1], (-1).into(), vec![PackedRun::of(&values, 2)]);
    Section7Groups { extra_octets: 4, first, second, zmin, references, widths, lengths, values, spare: [0; 4] }.octets()
}

fn section3(ni: u32, nj: u32, is_lambert: bool) -> Vec<u8> {
    if is_lambert {
        return Section3Lambert { ni, nj, ..Section3Lambert::default() }.octets();
    }
    let (first, last) = (Point::at(30_000_000, 100_000_000), Point::at(30_000_000 - 1000 * i64::from(nj - 1), 100_000_000 + 1000 * (ni - 1)));
    Section3 { ni, nj, first, last, di: 1000, dj: 1000, ..Section3::default() }.octets()
}

/// A file of one field on a grid of its own.
fn file(section3: Vec<u8>, section6: Vec<u8>, (section5, section7): (Vec<u8>, Vec<u8>)) -> Vec<u8> {
    Message::of(vec![Section1::default().octets(), section3, Section4::default().octets(), section5, section6, section7]).octets()
}

/// A row in which all points are present.
fn whole_row(integers: &[u64], packing: Packing, is_lambert: bool) -> Vec<u8> {
    file(section3(integers.len() as u32, 1, is_lambert), section6(255, &[]), packed(integers, packing))
}

/// A row under a bitmap: so many marks, of which those that are set belong to the integers in their order.
fn marked_row(marks: &[bool], integers: &[u64], packing: Packing, is_lambert: bool) -> Vec<u8> {
    file(section3(marks.len() as u32, 1, is_lambert), section6(0, &bitmap(marks, 0xff)), packed(integers, packing))
}

/// Marks for so many points that are present: the first and the last are missing, and some between.
fn marks_around(present: usize) -> Vec<bool> {
    let mut marks = vec![false, false];
    for number in 0..present {
        marks.extend([vec![true], vec![false; if number % 5 == 2 { number % 3 } else { 0 }]].concat());
    }
    marks.push(false);
    marks
}

/// The first X of each grey and the last one before it, in their order, up to the largest X.
fn edges(largest: u64) -> Vec<u64> {
    let first_of = |grey: u64| (grey * largest + 253) / 254;
    let mut found: Vec<u64> = (0..=254).flat_map(|grey| [first_of(grey).saturating_sub(1), first_of(grey)]).collect();
    found.sort_unstable();
    found.dedup();
    found
}

/// From 0 to the largest X in even steps.
fn slope(largest: u64) -> Vec<u64> {
    (0..POINTS_OF_SLOPE).map(|number| number * largest / (POINTS_OF_SLOPE - 1)).collect()
}

/// Fields with one largest X: it is the last one, the first one, or between.
fn of_largest(largest: u64, is_lambert: bool) -> Vec<Vec<u8>> {
    let (rising, slope) = (edges(largest), slope(largest));
    let falling: Vec<u64> = rising.iter().rev().copied().collect();
    let falling_slope: Vec<u64> = slope.iter().rev().copied().collect();
    let ridge = [&rising[..], &falling[1..]].concat();
    let fewest_bits = (64 - largest.leading_zeros()) as u8;
    vec![
        whole_row(&rising, Packing::Simple(fewest_bits), is_lambert),
        whole_row(&ridge, Packing::Simple(31), !is_lambert),
        marked_row(&marks_around(falling.len()), &falling, Packing::Simple(31), is_lambert),
        whole_row(&slope, Packing::Groups, !is_lambert),
        marked_row(&marks_around(falling_slope.len()), &falling_slope, Packing::Groups, is_lambert),
    ]
}

/// Fields with no point present, and with one: the first, the last, and one between.
fn few_present(is_lambert: bool) -> Vec<Vec<u8>> {
    let points = 13;
    let none = marked_row(&vec![false; points], &[], Packing::Simple(12), is_lambert);
    let one_of = |place: usize, x: u64| {
        let marks: Vec<bool> = (0..points).map(|point| point == place).collect();
        marked_row(&marks, &[x], Packing::Simple(12), is_lambert)
    };
    let one = [0, 5, points - 1].into_iter().flat_map(|place| [0, 1, 4095].map(|x| one_of(place, x)));
    std::iter::once(none).chain(one).collect()
}

/// A field of so many columns and rows, whose greys tell the points of a small one apart.
fn of_shape(ni: u32, nj: u32, is_lambert: bool) -> Vec<u8> {
    let integers: Vec<u64> = (0..u64::from(ni * nj)).map(|point| point % 251).collect();
    file(section3(ni, nj, is_lambert), section6(255, &[]), packed(&integers, Packing::Simple(8)))
}

/// Columns and rows on either side of each number of digits.
fn shapes(is_lambert: bool) -> Vec<Vec<u8>> {
    let sizes = [1, 9, 10, 99, 100, 999, 1000, 9999, 10_000, 65_535];
    let rows = sizes.iter().flat_map(|size| [(*size, 1), (1, *size)]);
    rows.chain([(12, 3), (3, 12), (101, 7), (2, 9_999)]).map(|(ni, nj)| of_shape(ni, nj, is_lambert)).collect()
}

/// All of them, each of which has one field.
pub fn pictures() -> Vec<Vec<u8>> {
    let of_every_largest = LARGEST_X.iter().enumerate().flat_map(|(number, largest)| of_largest(*largest, number % 2 == 1));
    let on_both = [false, true].into_iter().flat_map(|is_lambert| [few_present(is_lambert), shapes(is_lambert)].concat());
    of_every_largest.chain(on_both).collect()
}
