//! Files on either side of the largest size that is taken, 268,435,456 octets. They are zero but for the heads of their sections, and for the last octet of
//! each section 7, so that the last value of a field is not like the others.
use crate::cases::{described, pointed, Case, Question};
use crate::make::{number, section6, Point, Scaling, Section1, Section3, Section3Lambert, Section4, Section5};
use std::rc::Rc;

const MOST_OCTETS: usize = 268_435_456;
const HEADER: usize = 16;
const END: &[u8] = b"7777";
/// The points of the first field, which are as many as a field can have, and of the last.
const LARGEST_FIELD: u64 = 4096 * 4096;
/// The octets of its picture, with four digits for each of its sizes.
const LARGEST_PICTURE: u64 = 17 + LARGEST_FIELD;
const LAST_POINTS: u32 = 8;
const LAST_OCTET: u8 = 0x5a;

/// The sections of one field on a grid of its own, but for the octets of section 7 behind its first five.
struct Field {
    heads: Vec<u8>,
    packed: usize,
}

fn in_degrees(ni: u32, nj: u32, bits: u8) -> Field {
    let (first, last) = (Point::at(30_000_000, 100_000_000), Point::at(30_000_000 - 1000 * i64::from(nj - 1), 100_000_000 + 1000 * (ni - 1)));
    field(Section3 { ni, nj, first, last, di: 1000, dj: 1000, ..Section3::default() }.octets(), ni * nj, bits)
}

fn on_a_sheet(ni: u32, nj: u32, bits: u8) -> Field {
    field(Section3Lambert { ni, nj, ..Section3Lambert::default() }.octets(), ni * nj, bits)
}

fn field(grid: Vec<u8>, count: u32, bits: u8) -> Field {
    let five = Section5 { count, scaling: Scaling::of(1.5, -3, 2), bits, groups: None };
    let packed = (count as usize * usize::from(bits) + 7) / 8;
    let seven = [number(5 + packed as u64, 4), vec![7]].concat();
    Field { heads: [grid, Section4::default().octets(), five.octets(), section6(255, &[]), seven].concat(), packed }
}

fn length_of(fields: &[Field]) -> usize {
    fields.iter().map(|field| field.heads.len() + field.packed).sum()
}

/// Fields that fill so many octets to the last: large ones, a row as long as still fits, and one whose bits make up what is left. The row is on a grid in
/// degrees, and what comes after it on a sheet.
fn fields_of(room: usize) -> Vec<Field> {
    let mut fields: Vec<Field> = [in_degrees, on_a_sheet, in_degrees, on_a_sheet].iter().map(|on_grid| on_grid(4096, 4096, 31)).collect();
    fields.push(in_degrees(4096, 2000, 8));
    let heads = length_of(&[in_degrees(1, 1, 0), on_a_sheet(1, 1, 0)]);
    let left = room - length_of(&fields) - heads;
    fields.push(in_degrees((left / 3) as u32, 1, 24));
    fields.push(on_a_sheet(LAST_POINTS, 1, (left % 3) as u8));
    fields
}

/// A message of so many octets, with the number of its fields.
fn message(length: usize) -> (Vec<u8>, u64) {
    let one = Section1::default().octets();
    let fields = fields_of(length - HEADER - one.len() - END.len());
    let mut file = vec![0; length];
    let mut place = 0;
    let mut put = |octets: &[u8], packed: usize| {
        file[place..place + octets.len()].copy_from_slice(octets);
        place += octets.len() + packed;
        if packed > 0 {
            file[place - 1] = LAST_OCTET;
        }
    };
    put(&[b"GRIB\xff\xff\x00\x02", &number(length as u64, 8)[..], &one].concat(), 0);
    fields.iter().for_each(|field| put(&field.heads, field.packed));
    put(END, 0);
    (file, fields.len() as u64)
}

/// The largest file that is taken, with its first and its last two fields, the picture of the first, and points at both ends of it; the same with an octet
/// behind it; and zeros of both lengths.
pub fn largest(take: &mut dyn FnMut(Case) -> bool) {
    let (taken, fields) = message(MOST_OCTETS);
    let mut over = taken.clone();
    over.push(0);
    let files = [Rc::new(taken), Rc::new(over), Rc::new(vec![0; MOST_OCTETS]), Rc::new(vec![0; MOST_OCTETS + 1])];
    let room = u64::from(LAST_POINTS) + 4;
    let decode = |k| Question::Decode { k, start: 3, values_length: room, presence_length: room };
    for file in &files {
        let decodes = [0, fields - 1, fields].map(decode);
        let numbers = [fields - 2, fields - 1].into_iter().flat_map(|k| [described(k)].into_iter().chain(pointed(k, 1)));
        let points = [0, 1, LARGEST_FIELD - 1, LARGEST_FIELD].map(|n| Question::Point { k: 0, n, length: 1 });
        let pictures = [(0, LARGEST_PICTURE), (0, LARGEST_PICTURE - 1), (fields - 1, room + 10)].map(|(k, length)| Question::Picture { k, length });
        for question in [Question::Check].into_iter().chain(numbers).chain(points).chain(pictures).chain(decodes) {
            take(Case { kind: "the largest size", file: Rc::clone(file), question });
        }
    }
}
