//! Damage that mostly breaks the tiling: cuts, splices, lengths, numbers of sections, marks.

use super::apart::{put_length_right, with_section_changed, Apart};
use crate::make::number;
use crate::random::Random;
use crate::walk;

/// A place from 0 to a length, both included; often at a message's or a section's start or end, or one beside it.
fn place(random: &mut Random, file: &[u8]) -> usize {
    let any = random.below(file.len() as u64 + 1) as usize;
    let messages = walk::messages(file);
    if messages.is_empty() || random.chance(1, 2) {
        return any;
    }
    let message = random.choose(&messages);
    let mut near = vec![message.start, message.start + 16, message.end - 4, message.end];
    near.extend(message.sections.iter().map(|section| section.end));
    let near = random.choose(&near) + random.below(3) as usize;
    near.saturating_sub(1).min(file.len())
}

/// A stretch that is not empty, mostly short.
fn stretch(random: &mut Random, file: &[u8]) -> Option<(usize, usize)> {
    if file.is_empty() {
        return None;
    }
    let start = place(random, file).min(file.len() - 1);
    let most = *random.choose(&[1, 4, 8, 40, 200]);
    let length = 1 + random.below(most) as usize;
    Some((start, (start + length).min(file.len())))
}

/// No octet at all, or fewer than a message's head has.
pub fn nothing_left(random: &mut Random, base: &[u8], _: &[u8]) -> Option<Vec<u8>> {
    let left = if random.chance(3, 4) { 0 } else { random.below(20) as usize };
    Some(base[..left.min(base.len())].to_vec())
}

pub fn cut_off(random: &mut Random, base: &[u8], _: &[u8]) -> Option<Vec<u8>> {
    Some(base[..place(random, base)].to_vec())
}

pub fn octets_put_in(random: &mut Random, base: &[u8], _: &[u8]) -> Option<Vec<u8>> {
    let place = place(random, base);
    let count = 1 + random.below(8) as usize;
    Some([&base[..place], &random.octets(count), &base[place..]].concat())
}

pub fn octets_taken_out(random: &mut Random, base: &[u8], _: &[u8]) -> Option<Vec<u8>> {
    let (start, end) = stretch(random, base)?;
    Some([&base[..start], &base[end..]].concat())
}

/// Octets after the last message: too few for another, or another's head and no more.
pub fn octets_behind(random: &mut Random, base: &[u8], other: &[u8]) -> Option<Vec<u8>> {
    let count = 1 + random.below(24) as usize;
    let behind = [random.octets(count), vec![0; count], other[..count.min(other.len())].to_vec()];
    Some([base, &random.choose(&behind)[..]].concat())
}

/// Octets between the last section and "7777", with the message's length put right.
pub fn octets_before_the_end_mark(random: &mut Random, base: &[u8], _: &[u8]) -> Option<Vec<u8>> {
    let mut apart = Apart::of(base);
    if apart.messages.is_empty() {
        return None;
    }
    let message = random.below(apart.messages.len() as u64) as usize;
    let count = 1 + random.below(7) as usize;
    let (any, zeros) = (random.octets(count), vec![0; count]);
    apart.messages[message].sections.push(random.choose(&[any, zeros]).clone());
    Some(apart.together())
}

pub fn stretch_of_one_octet(random: &mut Random, base: &[u8], _: &[u8]) -> Option<Vec<u8>> {
    let (start, end) = stretch(random, base)?;
    let mut file = base.to_vec();
    file[start..end].fill(*random.choose(&[0, 255]));
    Some(file)
}

pub fn stretch_of_another_file(random: &mut Random, base: &[u8], other: &[u8]) -> Option<Vec<u8>> {
    let (start, end) = stretch(random, base)?;
    let (from, to) = stretch(random, other)?;
    let count = (end - start).min(to - from);
    let mut file = base.to_vec();
    file[start..start + count].copy_from_slice(&other[from..from + count]);
    Some(file)
}

/// The start of one file and the end of another, all lengths left as they are.
pub fn spliced_inside(random: &mut Random, base: &[u8], other: &[u8]) -> Option<Vec<u8>> {
    let (end, start) = (place(random, base), place(random, other));
    Some([&base[..end], &other[start..]].concat())
}

/// A transfer cut inside one message, with the next message, or another file, following directly.
pub fn transfer_cut(random: &mut Random, base: &[u8], other: &[u8]) -> Option<Vec<u8>> {
    let messages = walk::messages(base);
    if messages.is_empty() {
        return None;
    }
    let message = random.choose(&messages);
    let cut = message.start + 1 + random.below((message.end - message.start - 1) as u64) as usize;
    let next = if message.end < base.len() { &base[message.end..] } else { other };
    Some([&base[..cut], next].concat())
}

/// A length of so many octets, at the limits that lengths have.
fn wrong_length(random: &mut Random, right: u64, left: u64, octets: usize) -> Vec<u8> {
    let small = [0, 1, 4, 5, 6, 15, 16, 19, 20, 21];
    let near = [right.wrapping_sub(1), right + 1, left, left.wrapping_sub(1), left + 1, left.wrapping_sub(4), left.wrapping_sub(3)];
    let large = [1 << 31, (1 << 31) + right, u64::from(u32::MAX), (1 << 32) + right, 1 << 63, (1 << 63) + right, u64::MAX, u64::MAX - 3];
    let value = match random.below(8) {
        0 | 1 => *random.choose(&small),
        2..=4 => *random.choose(&near),
        5 => random.below(left + 40),
        _ => *random.choose(&large),
    };
    value.to_be_bytes()[8 - octets..].to_vec()
}

pub fn message_length(random: &mut Random, base: &[u8], _: &[u8]) -> Option<Vec<u8>> {
    let messages = walk::messages(base);
    if messages.is_empty() {
        return None;
    }
    let message = random.choose(&messages);
    let (right, left) = (message.end - message.start, base.len() - message.start);
    let mut file = base.to_vec();
    file[message.start + 8..message.start + 16].copy_from_slice(&wrong_length(random, right as u64, left as u64, 8));
    Some(file)
}

pub fn section_length(random: &mut Random, base: &[u8], _: &[u8]) -> Option<Vec<u8>> {
    let messages = walk::messages(base);
    let all: Vec<(usize, &walk::Section)> = messages.iter().flat_map(|message| message.sections.iter().map(move |section| (message.end, section))).collect();
    if all.is_empty() {
        return None;
    }
    let (end, section) = random.choose(&all);
    let (right, left) = (section.end - section.start, end - section.start);
    let mut file = base.to_vec();
    file[section.start..section.start + 4].copy_from_slice(&wrong_length(random, right as u64, left as u64, 4));
    Some(file)
}

pub fn section_number(random: &mut Random, base: &[u8], _: &[u8]) -> Option<Vec<u8>> {
    with_section_changed(random, base, &[1, 3, 4, 5, 6, 7], |random, section| {
        let any = random.octet();
        section[4] = *random.choose(&[0, 1, 2, 3, 4, 5, 6, 7, 8, any]);
        Some(())
    })
}

pub fn sections_swapped(random: &mut Random, base: &[u8], _: &[u8]) -> Option<Vec<u8>> {
    let mut apart = Apart::of(base);
    let (message, section) = apart.pick(random, &[1, 3, 4, 5, 6, 7])?;
    let count = apart.messages[message].sections.len();
    let next = (section + 1) % count;
    let any = random.below(count as u64) as usize;
    apart.messages[message].sections.swap(section, *random.choose(&[next, any]));
    Some(apart.together())
}

pub fn section_repeated(random: &mut Random, base: &[u8], _: &[u8]) -> Option<Vec<u8>> {
    let mut apart = Apart::of(base);
    let (message, section) = apart.pick(random, &[1, 3, 4, 5, 6, 7])?;
    let again = apart.messages[message].sections[section].clone();
    apart.messages[message].sections.insert(section, again);
    Some(apart.together())
}

pub fn section_left_out(random: &mut Random, base: &[u8], _: &[u8]) -> Option<Vec<u8>> {
    let mut apart = Apart::of(base);
    let (message, section) = apart.pick(random, &[1, 3, 4, 5, 6, 7])?;
    apart.messages[message].sections.remove(section);
    Some(apart.together())
}

/// A message with all sections left out, or all from one on, and now and then with a section of 5 octets in their place.
pub fn no_sections(random: &mut Random, base: &[u8], _: &[u8]) -> Option<Vec<u8>> {
    let mut apart = Apart::of(base);
    let (message, section) = apart.pick(random, &[1, 3, 4, 5, 6, 7])?;
    let kept = *random.choose(&[0, section]);
    apart.messages[message].sections.truncate(kept);
    if random.chance(1, 4) {
        let mut bare = [number(0, 4), vec![random.below(9) as u8]].concat();
        put_length_right(&mut bare);
        apart.messages[message].sections.push(bare);
    }
    Some(apart.together())
}

/// One octet of "7777" changed.
pub fn end_mark(random: &mut Random, base: &[u8], _: &[u8]) -> Option<Vec<u8>> {
    let messages = walk::messages(base);
    if messages.is_empty() {
        return None;
    }
    let place = random.choose(&messages).end - 1 - random.below(4) as usize;
    let mut file = base.to_vec();
    file[place] = file[place].wrapping_add(1 + random.below(255) as u8);
    Some(file)
}

/// One octet of "GRIB" or the edition changed.
pub fn start_mark_or_edition(random: &mut Random, base: &[u8], _: &[u8]) -> Option<Vec<u8>> {
    let messages = walk::messages(base);
    if messages.is_empty() {
        return None;
    }
    let place = random.choose(&messages).start + random.choose(&[0, 1, 2, 3, 7, 7]);
    let mut file = base.to_vec();
    let (lower_case, next, any) = (file[place] ^ 0x20, file[place].wrapping_add(1), random.octet());
    file[place] = *random.choose(&[lower_case, next, 1, 3, any]);
    Some(file)
}
