//! Sections 5 and 7: how the integers X are packed, and unpacking them.

use crate::exact;
use crate::octets::{octets_for, require, sign_and_size, unsigned, Section};
use crate::Refusal;

const LARGEST_X: i64 = 2_147_483_647;
const MOST_BITS: u8 = 31;
const SECTION_HEAD_LENGTH: u64 = 5;

/// What section 5 tells; `r` is the single's four octets as a number, `bits` is octet 20.
#[derive(Clone, Copy)]
pub struct Representation {
    pub n: u32,
    pub r: u32,
    pub e: i64,
    pub d: i64,
    pub bits: u8,
    pub data_template: u16,
    groups: Option<GroupRules>,
}

/// How template 5.3 states the group plan.
#[derive(Clone, Copy)]
struct GroupRules {
    count: u64,
    width_reference: u8,
    width_bits: u8,
    length_reference: u64,
    length_increment: u64,
    last_length: u64,
    scaled_length_bits: u8,
    value_octets: usize,
}

pub fn representation(section: Section<'_>) -> Option<Representation> {
    require(section.length() >= 21)?;
    let data_template = section.unsigned(10, 11) as u16;
    require(matches!((data_template, section.length()), (0, 21) | (3, 49)))?;
    let n = section.unsigned(6, 9);
    let r = section.unsigned(12, 15) as u32;
    let (e, d) = (section.sign_and_size(16, 17), section.sign_and_size(18, 19));
    let bits = section.octet(20);
    require(exact::takes(r, e, d))?;
    require(section.octet(21) == 0 && bits <= MOST_BITS)?;
    let groups = if data_template == 3 { Some(group_rules(section, n)?) } else { None };
    Some(Representation { n: n as u32, r, e, d, bits, data_template, groups })
}

fn group_rules(section: Section<'_>, n: u64) -> Option<GroupRules> {
    require(section.octet(22) == 1 && section.octet(23) == 0)?;
    let count = section.unsigned(32, 35);
    require(n >= 2 && count >= 1 && count <= n)?;
    let (width_reference, width_bits, scaled_length_bits) = (section.octet(36), section.octet(37), section.octet(47));
    require(width_reference <= MOST_BITS && width_bits <= MOST_BITS && scaled_length_bits <= MOST_BITS)?;
    let value_octets = usize::from(section.octet(49));
    require(section.octet(48) == 2 && (1..=4).contains(&value_octets))?;
    Some(GroupRules {
        count,
        width_reference,
        width_bits,
        length_reference: section.unsigned(38, 41),
        length_increment: section.unsigned(42, 42),
        last_length: section.unsigned(43, 46),
        scaled_length_bits,
        value_octets,
    })
}

/// A section 7 whose length and group plan are as its section 5 demands.
#[derive(Clone, Copy)]
pub struct Packing<'a> {
    representation: Representation,
    section: Section<'a>,
    form: Form<'a>,
}

#[derive(Clone, Copy)]
enum Form<'a> {
    Simple { values: PackedRun<'a> },
    Grouped(GroupedData<'a>),
}

pub fn packing<'a>(section: Section<'a>, representation: Representation) -> Option<Packing<'a>> {
    let form = match representation.groups {
        None => simple(section, representation)?,
        Some(rules) => Form::Grouped(grouped(section, representation, rules)?),
    };
    Some(Packing { representation, section, form })
}

fn simple(section: Section<'_>, representation: Representation) -> Option<Form<'_>> {
    let bits = u64::from(representation.n) * u64::from(representation.bits);
    require(section.length() == SECTION_HEAD_LENGTH + octets_for(bits))?;
    Some(Form::Simple { values: PackedRun::new(section.octets_from(6)) })
}

/// The parts of a section 7 of template 7.3.
#[derive(Clone, Copy)]
struct GroupedData<'a> {
    first_value: i64,
    second_value: i64,
    z_min: i64,
    groups: Groups<'a>,
    packed: PackedRun<'a>,
}

/// Cuts the section into its runs, then judges every group and the section's end.
fn grouped(section: Section<'_>, representation: Representation, rules: GroupRules) -> Option<GroupedData<'_>> {
    let mut rest = section.octets_from(6);
    let value_octets = rules.value_octets as u64;
    let first_value = unsigned(cut(&mut rest, value_octets)?) as i64;
    let second_value = unsigned(cut(&mut rest, value_octets)?) as i64;
    let z_min = sign_and_size(cut(&mut rest, value_octets)?);
    let mut cut_run = |bits: u8| cut(&mut rest, octets_for(rules.count * u64::from(bits))).map(PackedRun::new);
    let references = cut_run(representation.bits)?;
    let widths = cut_run(rules.width_bits)?;
    let scaled_lengths = cut_run(rules.scaled_length_bits)?;
    let groups = Groups { rules, reference_bits: representation.bits, index: 0, references, widths, scaled_lengths };
    let packed_bits = packed_bits(groups, u64::from(representation.n))?;
    require(rest.len() as u64 == octets_for(packed_bits))?;
    Some(GroupedData { first_value, second_value, z_min, groups, packed: PackedRun::new(rest) })
}

/// Takes so many octets from the front, if they are there.
fn cut<'a>(rest: &mut &'a [u8], count: u64) -> Option<&'a [u8]> {
    require(count <= rest.len() as u64)?;
    let (front, back) = rest.split_at(count as usize);
    *rest = back;
    Some(front)
}

/// The bits that all packed values take, if every width and length is allowed and the lengths add up to N.
fn packed_bits(groups: Groups<'_>, n: u64) -> Option<u64> {
    let mut values_left = n;
    let mut bits = 0;
    for group in groups {
        require(group.width <= u64::from(MOST_BITS))?;
        require(group.length >= 1 && group.length <= values_left)?;
        values_left -= group.length;
        bits += group.width * group.length;
    }
    require(values_left == 0)?;
    Some(bits)
}

/// One group as its plan states it, before any rule on it is tried.
struct Group {
    reference: i64,
    width: u64,
    length: u64,
}

/// Reads the three runs of the group plan side by side, one group at a time.
#[derive(Clone, Copy)]
struct Groups<'a> {
    rules: GroupRules,
    reference_bits: u8,
    index: u64,
    references: PackedRun<'a>,
    widths: PackedRun<'a>,
    scaled_lengths: PackedRun<'a>,
}

impl Iterator for Groups<'_> {
    type Item = Group;

    fn next(&mut self) -> Option<Group> {
        require(self.index < self.rules.count)?;
        self.index += 1;
        let reference = i64::from(self.references.read(self.reference_bits));
        let width = u64::from(self.rules.width_reference) + u64::from(self.widths.read(self.rules.width_bits));
        let scaled_length = u64::from(self.scaled_lengths.read(self.rules.scaled_length_bits));
        let length = if self.index == self.rules.count {
            self.rules.last_length
        } else {
            self.rules.length_reference + self.rules.length_increment * scaled_length
        };
        Some(Group { reference, width, length })
    }
}

impl Packing<'_> {
    /// Every X in order, or 16 where one is out of range.
    pub fn integers(&self) -> Result<Vec<u32>, Refusal> {
        match self.form {
            Form::Simple { mut values } => Ok((0..self.representation.n).map(|_| values.read(self.representation.bits)).collect()),
            Form::Grouped(data) => self.grouped_integers(data).ok_or_else(|| self.out_of_range()),
        }
    }

    /// The X that has so many others before it, or 16 where it or one of those is out of range. Those behind it are not judged.
    pub fn integer_behind(&self, others: u64) -> Result<u32, Refusal> {
        match self.form {
            Form::Simple { values } => Ok(values.behind(others, self.representation.bits).read(self.representation.bits)),
            Form::Grouped(data) => grouped_integer_behind(data, others).ok_or_else(|| self.out_of_range()),
        }
    }

    fn out_of_range(&self) -> Refusal {
        Refusal { number: 16, place: self.section.start }
    }

    fn grouped_integers(&self, data: GroupedData<'_>) -> Option<Vec<u32>> {
        let mut integers = Vec::with_capacity(self.representation.n as usize);
        undo_differences(data, |x| {
            integers.push(x);
            true
        })?;
        Some(integers)
    }

    /// The double that one X stands for.
    pub fn value(&self, x: u32) -> f64 {
        exact::value(self.representation.r, self.representation.e, self.representation.d, x)
    }
}

/// Undoes the second-order differences one by one, and hands on each X that is in range, for as long as another is wanted. The first two packed values are
/// passed over.
fn undo_differences(mut data: GroupedData<'_>, mut is_another_wanted: impl FnMut(u32) -> bool) -> Option<()> {
    let (mut before_last, mut last, mut undone) = (0, 0, 0u64);
    for group in data.groups {
        for _ in 0..group.length {
            let y = i64::from(data.packed.read(group.width as u8)) + group.reference + data.z_min;
            let x = match undone {
                0 => data.first_value,
                1 => data.second_value,
                _ => y + 2 * last - before_last,
            };
            require((0..=LARGEST_X).contains(&x))?;
            if !is_another_wanted(x as u32) {
                return Some(());
            }
            before_last = last;
            last = x;
            undone += 1;
        }
    }
    Some(())
}

/// The X of a grouped section 7 that has so many others before it, if it and all of those are in range.
fn grouped_integer_behind(data: GroupedData<'_>, others: u64) -> Option<u32> {
    let (mut found, mut left) = (None, others);
    undo_differences(data, |x| {
        let is_another_wanted = left > 0;
        found = Some(x);
        left = left.saturating_sub(1);
        is_another_wanted
    })?;
    found
}

/// A packed run, read in order from its first bit.
#[derive(Clone, Copy)]
struct PackedRun<'a> {
    octets: &'a [u8],
    bit_place: u64,
}

impl<'a> PackedRun<'a> {
    fn new(octets: &'a [u8]) -> PackedRun<'a> {
        PackedRun { octets, bit_place: 0 }
    }

    /// The same run behind so many numbers of so many bits.
    fn behind(self, numbers: u64, bits: u8) -> PackedRun<'a> {
        PackedRun { bit_place: self.bit_place + numbers * u64::from(bits), ..self }
    }

    /// Reads at most 31 bits: with the bits before them in their first octet, they lie within five octets.
    fn read(&mut self, bits: u8) -> u32 {
        let first_octet = (self.bit_place / 8) as usize;
        let window = (first_octet..first_octet + 5)
            .fold(0u64, |window, index| (window << 8) | u64::from(self.octets.get(index).copied().unwrap_or(0)));
        let bits_after = 40 - self.bit_place % 8 - u64::from(bits);
        self.bit_place += u64::from(bits);
        ((window >> bits_after) & ((1 << bits) - 1)) as u32
    }
}
