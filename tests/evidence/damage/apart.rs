//! A file taken apart into its messages and sections, to be put together again with the message lengths put right.

use crate::make::number;
use crate::random::Random;
use crate::walk;

pub struct Apart {
    pub messages: Vec<ApartMessage>,
    /// What is left behind the last message that could be found.
    rest: Vec<u8>,
}

pub struct ApartMessage {
    head: Vec<u8>,
    pub sections: Vec<Vec<u8>>,
    tail: Vec<u8>,
}

impl Apart {
    pub fn of(file: &[u8]) -> Apart {
        let found = walk::messages(file);
        let end = found.last().map_or(0, |message| message.end);
        let messages = found.iter().map(|message| ApartMessage::of(file, message)).collect();
        Apart { messages, rest: file[end..].to_vec() }
    }

    pub fn together(&self) -> Vec<u8> {
        let messages = self.messages.iter().flat_map(ApartMessage::together);
        messages.chain(self.rest.iter().copied()).collect()
    }

    /// One of the sections that have one of these numbers, by the number of its message and by its own place among that message's sections.
    pub fn pick(&self, random: &mut Random, numbers: &[u8]) -> Option<(usize, usize)> {
        let mut found = Vec::new();
        for (number_of_message, message) in self.messages.iter().enumerate() {
            let wanted = (0..message.sections.len()).filter(|place| numbers.contains(&message.sections[*place][4]));
            found.extend(wanted.map(|place| (number_of_message, place)));
        }
        if found.is_empty() {
            return None;
        }
        Some(*random.choose(&found))
    }
}

impl ApartMessage {
    fn of(file: &[u8], message: &walk::Message) -> ApartMessage {
        let end = message.sections.last().map_or(message.start + 16, |section| section.end);
        let sections = message.sections.iter().map(|section| file[section.start..section.end].to_vec()).collect();
        ApartMessage { head: file[message.start..message.start + 16].to_vec(), sections, tail: file[end..message.end].to_vec() }
    }

    fn together(&self) -> Vec<u8> {
        let body = self.sections.concat();
        let length = number((16 + body.len() + self.tail.len()) as u64, 8);
        [&self.head[..8], &length, &body, &self.tail].concat()
    }
}

/// A change of a section's octets, or None where there is nothing to change.
pub type Change = fn(&mut Random, &mut Vec<u8>) -> Option<()>;

/// The file with one section changed, one that has one of these numbers. The change may lengthen or shorten it; only the message's length is put right.
pub fn with_section_changed(random: &mut Random, file: &[u8], numbers: &[u8], change: Change) -> Option<Vec<u8>> {
    let mut apart = Apart::of(file);
    let (message, section) = apart.pick(random, numbers)?;
    change(random, &mut apart.messages[message].sections[section])?;
    Some(apart.together())
}

/// Writes a section's own length into it.
pub fn put_length_right(section: &mut [u8]) {
    let length = number(section.len() as u64, 4);
    section[..4].copy_from_slice(&length);
}
