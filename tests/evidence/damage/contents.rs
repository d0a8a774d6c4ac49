//! Damage that keeps the tiling and breaks a section, or what two sections say of one another.

use super::apart::{put_length_right, with_section_changed, Apart};
use crate::make::number;
use crate::random::Random;
use crate::walk::number_at;

/// The numbers that the rules name: the section, how many octets, and the first octets counted from 1. Section 3 has some in one of its templates only.
const NUMBERS: [(u8, usize, &[usize]); 12] = [
    (1, 1, &[12, 15, 16, 17, 18, 19, 20]),
    (1, 2, &[6, 13]),
    (3, 1, &[6, 11, 12, 15, 16, 47, 55, 64, 65, 72]),
    (3, 2, &[13]),
    (3, 4, &[7, 17, 31, 35, 39, 43, 47, 48, 51, 52, 56, 60, 64, 66, 68, 70]),
    (4, 1, &[18, 23, 24, 29, 30, 37, 38, 39, 40, 41, 42, 47, 49]),
    (4, 2, &[6, 8, 35]),
    (4, 4, &[19, 25, 31, 50]),
    (5, 1, &[20, 21, 22, 23, 36, 37, 42, 47, 48, 49]),
    (5, 2, &[10, 16, 18]),
    (5, 4, &[6, 12, 32, 38, 43]),
    (6, 1, &[6]),
];

/// The numbers of section 5 that say how section 7 is laid out.
const PLAN: [(usize, usize); 9] = [(20, 1), (32, 4), (36, 1), (37, 1), (38, 4), (42, 1), (43, 4), (47, 1), (49, 1)];

/// The limits that the rules name, and what lies on their other side, for numbers of 1, 2 and 4 octets.
const LIMITS_OF_1: [u64; 16] = [0, 1, 2, 4, 5, 12, 13, 23, 24, 28, 29, 31, 32, 59, 60, 254];
const LIMITS_OF_2: [u64; 15] = [0, 22, 23, 30, 127, 128, 0x8016, 0x8017, 0x807f, 0x8080, 0x8000, 1899, 1900, 2399, 2400];
const LIMITS_OF_4: [[u64; 4]; 4] = [
    [0, 1, 65_535, 65_536],
    [16_777_216, 16_777_217, 359_999_999, 360_000_000],
    [90_000_000, 90_000_001, 0x8000_0000 + 90_000_000, 0x8000_0000 + 90_000_001],
    [0x7f7f_ffff, 0x7f80_0000, 0xff80_0000, 0x7fc0_0000],
];

fn limit(random: &mut Random, octets: usize) -> u64 {
    match octets {
        1 => *random.choose(&LIMITS_OF_1),
        2 => *random.choose(&LIMITS_OF_2),
        _ => LIMITS_OF_4[random.below(4) as usize][random.below(4) as usize],
    }
}

/// Another number in so many octets: one more, one less, the sign flipped, a limit, all ones, any.
fn another(random: &mut Random, value: u64, octets: usize) -> u64 {
    let all_ones = u64::MAX >> (64 - 8 * octets);
    let sign = 1 << (8 * octets - 1);
    let other = match random.below(10) {
        0 | 1 => value.wrapping_add(1),
        2 | 3 => value.wrapping_sub(1),
        4 => value ^ sign,
        5 => *random.choose(&[all_ones, sign, sign - 1, sign + 1]),
        6 => random.any(),
        7 => random.below(40),
        _ => limit(random, octets),
    };
    other & all_ones
}

/// Writes another number over the one at an octet, counted from 1.
fn change_number(random: &mut Random, section: &mut [u8], octet: usize, octets: usize) -> Option<()> {
    let start = octet - 1;
    if section.len() < start + octets {
        return None;
    }
    let other = another(random, number_at(section, start, octets), octets);
    section[start..start + octets].copy_from_slice(&other.to_be_bytes()[8 - octets..]);
    Some(())
}

fn flip_a_bit(random: &mut Random, section: &mut [u8], start: usize, end: usize) -> Option<()> {
    if start >= end || end > section.len() {
        return None;
    }
    let place = start + random.below((end - start) as u64) as usize;
    section[place] ^= 1 << random.below(8);
    Some(())
}

/// One octet of a section's body set to a limit or to anything.
pub fn octet_of_a_section(random: &mut Random, base: &[u8], _: &[u8]) -> Option<Vec<u8>> {
    let number_of_section = *random.choose(&[1, 3, 4, 5, 6, 7]);
    with_section_changed(random, base, &[number_of_section], |random, section| {
        if section.len() == 5 {
            return None;
        }
        let place = 5 + random.below(section.len() as u64 - 5) as usize;
        let (before, any) = (section[place], random.octet());
        section[place] = *random.choose(&[0, 1, 0x7f, 0x80, 0xff, any, any, before.wrapping_add(1), before.wrapping_sub(1), before ^ 0x80]);
        Some(())
    })
}

pub fn number_of_a_section(random: &mut Random, base: &[u8], _: &[u8]) -> Option<Vec<u8>> {
    let (number_of_section, octets, first) = *random.choose(&NUMBERS);
    let octet = *random.choose(first);
    let mut apart = Apart::of(base);
    let (message, section) = apart.pick(random, &[number_of_section])?;
    change_number(random, &mut apart.messages[message].sections[section], octet, octets)?;
    Some(apart.together())
}

/// A section longer or shorter, with its own length and the message's put right.
pub fn section_resized(random: &mut Random, base: &[u8], _: &[u8]) -> Option<Vec<u8>> {
    let number_of_section = *random.choose(&[1, 3, 4, 5, 6, 6, 7, 7]);
    with_section_changed(random, base, &[number_of_section], |random, section| {
        let change = *random.choose(&[1, 1, 1, 2, 4, 9, 24, 28]);
        let shorter = section.len().saturating_sub(change).max(5);
        let any = random.octet();
        let length = *random.choose(&[section.len() + change, shorter, shorter, 5, 6]);
        section.resize(length, *random.choose(&[0, 255, any]));
        put_length_right(section);
        Some(())
    })
}

/// A section replaced by one with the same number from another file.
pub fn section_of_another_file(random: &mut Random, base: &[u8], other: &[u8]) -> Option<Vec<u8>> {
    let (mut apart, others) = (Apart::of(base), Apart::of(other));
    let number_of_section = *random.choose(&[1, 3, 3, 4, 5, 6, 7]);
    let ((message, section), (other_message, other_section)) = (apart.pick(random, &[number_of_section])?, others.pick(random, &[number_of_section])?);
    apart.messages[message].sections[section] = others.messages[other_message].sections[other_section].clone();
    Some(apart.together())
}

/// A time, or how long after it another time is, at the limits of the calendar.
pub fn time(random: &mut Random, base: &[u8], _: &[u8]) -> Option<Vec<u8>> {
    with_section_changed(random, base, &[1, 4, 4], |random, section| {
        let start = if section[4] == 1 { 12 } else { 34 };
        if section.len() < start + 7 || (section[4] == 4 && random.chance(1, 3)) {
            let (octet, octets) = *random.choose(&[(18, 1), (19, 4), (49, 1), (50, 4)]);
            return change_number(random, section, octet, octets);
        }
        let year = *random.choose(&[1899_u16, 1900, 1999, 2000, 2015, 2016, 2100, 2399, 2400]);
        let (month, day) = *random.choose(&[(2, 28), (2, 29), (2, 30), (4, 30), (4, 31), (12, 31), (12, 32), (1, 0)]);
        match random.below(6) {
            0 => section[start..start + 2].copy_from_slice(&year.to_be_bytes()),
            1 => section[start + 2] = *random.choose(&[0, 1, 2, 12, 13]),
            2 => section[start + 2..start + 4].copy_from_slice(&[month, day]),
            3 => section[start + 4] = *random.choose(&[0, 23, 24]),
            4 => section[start + 5 + random.below(2) as usize] = *random.choose(&[0, 59, 60]),
            _ => section[start + 6] = section[start + 6].wrapping_add(1),
        }
        Some(())
    })
}

/// N, most often by one.
pub fn count_of_values(random: &mut Random, base: &[u8], _: &[u8]) -> Option<Vec<u8>> {
    with_section_changed(random, base, &[5], |random, section| change_number(random, section, 6, 4))
}

/// The bitmap's indicator, with the section's length put right for it or left as it is.
pub fn indicator(random: &mut Random, base: &[u8], _: &[u8]) -> Option<Vec<u8>> {
    with_section_changed(random, base, &[6], |random, section| {
        let any = random.octet();
        section.resize(section.len().max(6), 0);
        section[5] = *random.choose(&[0, 254, 254, 254, 255, 255, 1, 253, any]);
        if section[5] >= 254 && random.chance(3, 4) {
            section.truncate(6);
        }
        put_length_right(section);
        Some(())
    })
}

pub fn bitmap(random: &mut Random, base: &[u8], _: &[u8]) -> Option<Vec<u8>> {
    with_section_changed(random, base, &[6], |random, section| {
        let end = section.len();
        flip_a_bit(random, section, 6, end)
    })
}

/// All groups but the last longer, and the last shorter by as much, so that they add up to N again if a sum wraps at 2^32.
fn wrap_lengths(random: &mut Random, section5: &mut [u8]) -> Option<()> {
    if section5.len() != 49 {
        return None;
    }
    let (others, reference, last) = (number_at(section5, 31, 4).checked_sub(1)?, number_at(section5, 37, 4), number_at(section5, 42, 4));
    let longer = random.below(3) + *random.choose(&[last, last, 1 << 31]);
    section5[37..41].copy_from_slice(&(reference.wrapping_add(longer) as u32).to_be_bytes());
    section5[42..46].copy_from_slice(&(last.wrapping_sub(others.wrapping_mul(longer)) as u32).to_be_bytes());
    Some(())
}

pub fn group_plan_in_section_5(random: &mut Random, base: &[u8], _: &[u8]) -> Option<Vec<u8>> {
    with_section_changed(random, base, &[5], |random, section| {
        if random.chance(1, 5) {
            return wrap_lengths(random, section);
        }
        let (octet, octets) = *random.choose(&PLAN);
        change_number(random, section, octet, octets)
    })
}

/// w, and where in section 7 the references and the packed values start, counted from 0.
struct Layout {
    w: usize,
    references: usize,
    values: usize,
}

fn layout(section5: &[u8]) -> Option<Layout> {
    if section5.len() != 49 || section5[10] != 3 || !(1..=4).contains(&section5[48]) {
        return None;
    }
    let (count, w) = (number_at(section5, 31, 4), usize::from(section5[48]));
    let octets = |bits: u8| ((count * u64::from(bits) + 7) / 8) as usize;
    let references = 5 + 3 * w;
    Some(Layout { w, references, values: references + octets(section5[19]) + octets(section5[36]) + octets(section5[46]) })
}

/// A section 7 that follows a section 5 by template 5.3, changed at a stretch that the layout tells.
fn with_groups_changed(random: &mut Random, base: &[u8], change: impl FnOnce(&mut Random, &mut [u8], &Layout) -> Option<()>) -> Option<Vec<u8>> {
    let mut apart = Apart::of(base);
    let (message, section) = apart.pick(random, &[7])?;
    let sections = &mut apart.messages[message].sections;
    let layout = layout(sections.get(section.checked_sub(2)?)?)?;
    if sections[section].len() < layout.references {
        return None;
    }
    change(random, &mut sections[section], &layout)?;
    Some(apart.together())
}

/// What is stored of references, widths and lengths.
pub fn group_plan_in_section_7(random: &mut Random, base: &[u8], _: &[u8]) -> Option<Vec<u8>> {
    with_groups_changed(random, base, |random, section, layout| flip_a_bit(random, section, layout.references, layout.values))
}

/// The first or second value all ones, over 2,147,483,647 where it has four octets, or anything.
pub fn first_or_second_value(random: &mut Random, base: &[u8], _: &[u8]) -> Option<Vec<u8>> {
    with_groups_changed(random, base, |random, section, layout| {
        let start = *random.choose(&[5, 5 + layout.w]);
        let value = &mut section[start..start + layout.w];
        match random.below(6) {
            0 | 1 => value.fill(255),
            2 => value.fill(0),
            3 | 4 => value[0] ^= 0x80,
            _ => value.copy_from_slice(&random.octets(layout.w)),
        }
        Some(())
    })
}

/// Zmin with its sign flipped, one more or less, the least or the greatest that there is, or anything.
pub fn zmin(random: &mut Random, base: &[u8], _: &[u8]) -> Option<Vec<u8>> {
    with_groups_changed(random, base, |random, section, layout| {
        let octet = 6 + 2 * layout.w;
        let own = &mut section[octet - 1..octet - 1 + layout.w];
        match random.below(4) {
            0 => own[0] ^= 0x80,
            1 => own.fill(255),
            2 => own.copy_from_slice(&number(*random.choose(&[0, (1 << (8 * layout.w - 1)) - 1]), layout.w)),
            _ => return change_number(random, section, octet, layout.w),
        }
        Some(())
    })
}

pub fn packed_values(random: &mut Random, base: &[u8], _: &[u8]) -> Option<Vec<u8>> {
    with_groups_changed(random, base, |random, section, layout| {
        let end = section.len();
        flip_a_bit(random, section, layout.values, end)
    })
}
