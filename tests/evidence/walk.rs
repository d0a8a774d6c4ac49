//! Finds messages and sections in a file that may be damaged, without judging it: it goes as far as the lengths lead.

pub struct Section {
    pub number: u8,
    pub start: usize,
    pub end: usize,
}

pub struct Message {
    pub start: usize,
    pub end: usize,
    pub sections: Vec<Section>,
}

/// The number in so many octets at a place.
pub fn number_at(file: &[u8], place: usize, octets: usize) -> u64 {
    file[place..place + octets].iter().fold(0, |number, octet| number << 8 | u64::from(*octet))
}

/// The sections one after another, as long as their lengths stay within the end.
fn sections(file: &[u8], first: usize, end: usize) -> Vec<Section> {
    let mut found = Vec::new();
    let mut start = first;
    while end - start >= 5 {
        let length = number_at(file, start, 4) as usize;
        if length < 5 || length > end - start {
            break;
        }
        found.push(Section { number: file[start + 4], start, end: start + length });
        start += length;
    }
    found
}

/// The message at a place. One that states more than is left is taken to reach to the end of the file.
fn message_at(file: &[u8], start: usize) -> Option<Message> {
    let left = file.len() - start;
    if left < 20 || file[start..start + 4] != *b"GRIB" {
        return None;
    }
    let stated = number_at(file, start + 8, 8);
    if stated < 20 {
        return None;
    }
    let end = start + stated.min(left as u64) as usize;
    Some(Message { start, end, sections: sections(file, start + 16, end - 4) })
}

pub fn messages(file: &[u8]) -> Vec<Message> {
    let mut found = Vec::new();
    let mut start = 0;
    while let Some(message) = message_at(file, start) {
        start = message.end;
        found.push(message);
    }
    found
}

/// For each field the point count that octets 7 to 10 of its section 3 state, and 0 where there are none.
pub fn point_counts(file: &[u8]) -> Vec<u64> {
    let mut points = 0;
    let mut found = Vec::new();
    for section in messages(file).iter().flat_map(|message| &message.sections) {
        match section.number {
            3 if section.end - section.start >= 10 => points = number_at(file, section.start + 6, 4),
            7 => found.push(points),
            _ => {}
        }
    }
    found
}

/// For each field the length of its picture by the columns and rows that octets 31 to 38 of its section 3 state, and 0 where there are none.
pub fn picture_lengths(file: &[u8]) -> Vec<u64> {
    let mut length = 0;
    let mut found = Vec::new();
    for section in messages(file).iter().flat_map(|message| &message.sections) {
        match section.number {
            3 if section.end - section.start >= 38 => {
                let (columns, rows) = (number_at(file, section.start + 30, 4), number_at(file, section.start + 34, 4));
                length = format!("P5\n{} {}\n255\n", columns, rows).len() as u64 + columns * rows;
            }
            7 => found.push(length),
            _ => {}
        }
    }
    found
}
