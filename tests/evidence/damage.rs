//! Files damaged in one of many ways: some break the tiling, some keep it and break a section.

mod apart;
mod contents;
mod tiling;

use crate::random::Random;

/// A way of damaging: the file, another file to take octets from, and None where this file has nothing to damage in this way.
type Damage = fn(&mut Random, &[u8], &[u8]) -> Option<Vec<u8>>;

struct Kind {
    name: &'static str,
    /// How often, beside the other kinds.
    weight: u64,
    damage: Damage,
}

static KINDS: [Kind; 32] = [
    Kind { name: "nothing left", weight: 8, damage: tiling::nothing_left },
    Kind { name: "cut off", weight: 8, damage: tiling::cut_off },
    Kind { name: "octets put in", weight: 6, damage: tiling::octets_put_in },
    Kind { name: "octets taken out", weight: 6, damage: tiling::octets_taken_out },
    Kind { name: "octets behind", weight: 5, damage: tiling::octets_behind },
    Kind { name: "octets before the end mark", weight: 5, damage: tiling::octets_before_the_end_mark },
    Kind { name: "stretch of one octet", weight: 8, damage: tiling::stretch_of_one_octet },
    Kind { name: "stretch of another file", weight: 8, damage: tiling::stretch_of_another_file },
    Kind { name: "spliced inside", weight: 6, damage: tiling::spliced_inside },
    Kind { name: "transfer cut", weight: 8, damage: tiling::transfer_cut },
    Kind { name: "message length", weight: 10, damage: tiling::message_length },
    Kind { name: "section length", weight: 10, damage: tiling::section_length },
    Kind { name: "section number", weight: 6, damage: tiling::section_number },
    Kind { name: "sections swapped", weight: 4, damage: tiling::sections_swapped },
    Kind { name: "section repeated", weight: 4, damage: tiling::section_repeated },
    Kind { name: "section left out", weight: 4, damage: tiling::section_left_out },
    Kind { name: "no sections", weight: 2, damage: tiling::no_sections },
    Kind { name: "end mark", weight: 8, damage: tiling::end_mark },
    Kind { name: "start mark or edition", weight: 6, damage: tiling::start_mark_or_edition },
    Kind { name: "octet of a section", weight: 60, damage: contents::octet_of_a_section },
    Kind { name: "number of a section", weight: 80, damage: contents::number_of_a_section },
    Kind { name: "section resized", weight: 32, damage: contents::section_resized },
    Kind { name: "section of another file", weight: 25, damage: contents::section_of_another_file },
    Kind { name: "time", weight: 15, damage: contents::time },
    Kind { name: "N", weight: 12, damage: contents::count_of_values },
    Kind { name: "indicator", weight: 12, damage: contents::indicator },
    Kind { name: "bitmap", weight: 12, damage: contents::bitmap },
    Kind { name: "group plan in section 5", weight: 28, damage: contents::group_plan_in_section_5 },
    Kind { name: "group plan in section 7", weight: 32, damage: contents::group_plan_in_section_7 },
    Kind { name: "first or second value", weight: 24, damage: contents::first_or_second_value },
    Kind { name: "Zmin", weight: 36, damage: contents::zmin },
    Kind { name: "packed values", weight: 20, damage: contents::packed_values },
];

fn kind(random: &mut Random) -> &'static Kind {
    let mut left = random.below(KINDS.iter().map(|kind| kind.weight).sum());
    let mut kinds = KINDS.iter();
    loop {
        match kinds.next() {
            Some(kind) if left < kind.weight => return kind,
            Some(kind) => left -= kind.weight,
            None => unreachable!("a number below the sum of all weights is below one of their sums"),
        }
    }
}

/// A damaged file and the name of what was done to it. The empty file and one without sections can still have octets put in.
pub fn damaged_by_kind(random: &mut Random, base: &[u8], other: &[u8]) -> (&'static str, Vec<u8>) {
    loop {
        let kind = kind(random);
        if let Some(file) = (kind.damage)(random, base, other) {
            return (kind.name, file);
        }
    }
}

pub fn damaged(random: &mut Random, base: &[u8], other: &[u8]) -> Vec<u8> {
    damaged_by_kind(random, base, other).1
}
