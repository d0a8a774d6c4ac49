//! Tiling a file: messages end to end, and the sections of each message.

use crate::octets::{unsigned, Section};
use crate::{Counts, Refusal};

const LARGEST_FILE: usize = 268_435_456;
const SECTION_0_LENGTH: usize = 16;
const SECTION_8: &[u8] = b"7777";
const SHORTEST_MESSAGE: u64 = 20;
const SECTION_HEAD_LENGTH: usize = 5;

/// One field with the sections in force for it, kept under their own numbers.
#[derive(Clone, Copy)]
pub struct Field<'a> {
    pub discipline: u8,
    pub sections: [Section<'a>; 8],
    /// The latest section 6 with indicator 0 since the last section 3, whatever else is wrong with it.
    pub latest_bitmap: Option<Section<'a>>,
}

impl<'a> Field<'a> {
    /// Puts the next section of the message in force.
    fn take(&mut self, number: u8, section: Section<'a>) {
        self.sections[usize::from(number)] = section;
        if number == 3 {
            self.latest_bitmap = None;
        }
        if number == 6 && section.length() >= 6 && section.octet(6) == 0 {
            self.latest_bitmap = Some(section);
        }
    }
}

fn refusal(number: u32, place: usize) -> Refusal {
    Refusal { number, place: place as u32 }
}

/// Tiles the whole file and shows every finished field, in file order, as it is met.
pub fn tile<'a>(file: &'a [u8], show: &mut dyn FnMut(&Field<'a>)) -> Result<Counts, Refusal> {
    if file.len() > LARGEST_FILE {
        return Err(refusal(1, 0));
    }
    if file.is_empty() {
        return Err(refusal(2, 0));
    }
    let mut counts = Counts { messages: 0, fields: 0 };
    let mut place = 0;
    while place < file.len() {
        let end = message_end(file, place)?;
        counts.fields += tile_message(file, place, end, show)?;
        counts.messages += 1;
        place = end;
    }
    Ok(counts)
}

/// Finds field k of a file that tiles as a whole.
pub fn find(file: &[u8], k: u64) -> Result<Field<'_>, Refusal> {
    let mut found = None;
    let mut index = 0;
    tile(file, &mut |field| {
        if index == k {
            found = Some(*field);
        }
        index += 1;
    })?;
    found.ok_or_else(|| Refusal::without_place(8))
}

/// Judges a message as a whole (rules a to e) and gives the place just after it.
fn message_end(file: &[u8], start: usize) -> Result<usize, Refusal> {
    let left = &file[start..];
    if left.len() < SECTION_0_LENGTH {
        return Err(refusal(3, start));
    }
    if &left[..4] != b"GRIB" || left[7] != 2 {
        return Err(refusal(4, start));
    }
    let stated_length = unsigned(&left[8..16]);
    if stated_length < SHORTEST_MESSAGE {
        return Err(refusal(5, start));
    }
    if stated_length > left.len() as u64 {
        return Err(refusal(3, start));
    }
    let message = &left[..stated_length as usize];
    if !message.ends_with(SECTION_8) {
        return Err(refusal(7, start));
    }
    Ok(start + message.len())
}

/// Walks the sections of one message (rule f) and counts its fields.
fn tile_message<'a>(file: &'a [u8], start: usize, end: usize, show: &mut dyn FnMut(&Field<'a>)) -> Result<u32, Refusal> {
    let section_8 = end - SECTION_8.len();
    let mut field = Field { discipline: file[start + 6], sections: [Section::default(); 8], latest_bitmap: None };
    let mut fields = 0;
    let mut number_before = 0;
    let mut place = start + SECTION_0_LENGTH;
    while place < section_8 {
        let section = section_at(&file[..section_8], place)?;
        let number = section.octet(5);
        if !may_follow(number_before, number) {
            return Err(refusal(6, place));
        }
        field.take(number, section);
        if number == 7 {
            show(&field);
            fields += 1;
        }
        number_before = number;
        place += section.octets.len();
    }
    if number_before != 7 {
        return Err(refusal(6, section_8));
    }
    Ok(fields)
}

/// Cuts out the section at a place; the octets given end where section 8 starts.
fn section_at(before_section_8: &[u8], place: usize) -> Result<Section<'_>, Refusal> {
    let left = &before_section_8[place..];
    if left.len() < SECTION_HEAD_LENGTH {
        return Err(refusal(5, place));
    }
    let length = unsigned(&left[..4]);
    if length < SECTION_HEAD_LENGTH as u64 || length > left.len() as u64 {
        return Err(refusal(5, place));
    }
    Ok(Section { start: place as u32, octets: &left[..length as usize] })
}

/// Section 1 once, then grids: a section 3 and one or more fields of sections 4, 5, 6, 7. The number before the first is 0.
fn may_follow(number_before: u8, number: u8) -> bool {
    matches!((number_before, number), (0, 1) | (1, 3) | (3, 4) | (4, 5) | (5, 6) | (6, 7) | (7, 3) | (7, 4))
}
