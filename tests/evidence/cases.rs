//! Cases: a file and a question about it. Some are the same each time, the others come at random from a seed.

use crate::damage::{damaged, damaged_by_kind};
use crate::files::{at_a_limit, pictures, small_bases, straying, valid, vast};
use crate::random::Random;
use crate::walk::{picture_lengths, point_counts};
use std::rc::Rc;

#[derive(Clone, Debug)]
pub enum Question {
    Check,
    Describe { k: u64, length: u64 },
    Place { k: u64, n: u64, length: u64 },
    Sheet { k: u64, n: u64, length: u64 },
    Point { k: u64, n: u64, length: u64 },
    Picture { k: u64, length: u64 },
    Decode { k: u64, start: u64, values_length: u64, presence_length: u64 },
}

/// Consecutive cases about the same file share it.
pub struct Case {
    pub kind: &'static str,
    pub file: Rc<Vec<u8>>,
    pub question: Question,
}

/// How many numbers describe a field, on a grid in degrees and on a Lambert grid, and how many tell a place, in degrees and on a sheet.
pub const DESCRIPTION: u64 = 53;
pub const DESCRIPTION_LAMBERT: u64 = 60;
pub const POSITION: u64 = 2;
pub const SHEET_PLACE: u64 = 2;
/// The most points of a field that runs are lent for. A damaged file may state many more: then the runs are too short.
const MOST_POINTS: u64 = 4_000;
/// The longest picture that a run is lent for, likewise. It has room for the widest grid of one row.
const LONGEST_PICTURE: u64 = 70_000;

/// Asks each question in turn. False where no more are wanted.
fn ask(kind: &'static str, file: &Rc<Vec<u8>>, questions: Vec<Question>, take: &mut dyn FnMut(Case) -> bool) -> bool {
    questions.into_iter().all(|question| take(Case { kind, file: Rc::clone(file), question }))
}

// ---- the same each time

/// Numbers on either side of where sums and products of 29, 32, 61, 63 and 64 bits would wrap.
fn far() -> Vec<u64> {
    let either_side = |bits: u32| (0..6).map(move |below| (1_u64 << bits) - below).chain((1..3).map(move |above| (1_u64 << bits) + above));
    let wrapping = (0..10).map(|below| u64::MAX - below);
    [29, 31, 32, 61, 63].iter().flat_map(|bits| either_side(*bits)).chain(wrapping).collect()
}

/// A whole field two elements from the start of its runs, with some elements to spare.
fn whole(k: u64, points: u64) -> Question {
    let fitting = 2 + points.min(MOST_POINTS);
    Question::Decode { k, start: 2, values_length: fitting + 1, presence_length: fitting + 2 }
}

/// Describe, with a number to spare in the run even where the grid is a Lambert grid.
pub fn described(k: u64) -> Question {
    Question::Describe { k, length: DESCRIPTION_LAMBERT + 1 }
}

/// Where a point lies, in degrees and on a sheet, of which a grid has one: with a number to spare in each run.
pub fn placed(k: u64, n: u64) -> [Question; 2] {
    [Question::Place { k, n, length: POSITION + 1 }, Question::Sheet { k, n, length: SHEET_PLACE + 1 }]
}

/// The value of a point, with a double to spare in the run, and where it lies.
pub fn pointed(k: u64, n: u64) -> impl Iterator<Item = Question> {
    std::iter::once(Question::Point { k, n, length: 2 }).chain(placed(k, n))
}

/// Pictures that need so many octets: in runs with some to spare, just fitting, one octet short, empty, and with room for a few octets.
pub fn drawn(k: u64, needed: u64) -> impl Iterator<Item = Question> {
    let needed = needed.clamp(1, LONGEST_PICTURE);
    [needed + 2, needed, needed - 1, 0, needed.min(11)].into_iter().map(move |length| Question::Picture { k, length })
}

/// Check, and decode of the field whose turn it is.
fn check_and_decode(points: &[u64], turn: usize) -> Vec<Question> {
    let k = turn % points.len();
    vec![Question::Check, whole(k as u64, points[k])]
}

fn whole_file(file: &[u8], take: &mut dyn FnMut(Case) -> bool) -> bool {
    let fields = (0..).zip(point_counts(file));
    let each = fields.flat_map(|(k, points)| [described(k), whole(k, points)].into_iter().chain((0..points).flat_map(move |n| pointed(k, n))));
    let pictures = (0..).zip(picture_lengths(file)).flat_map(|(k, needed)| drawn(k, needed));
    ask("small base", &Rc::new(file.to_vec()), std::iter::once(Question::Check).chain(each).chain(pictures).collect(), take)
}

fn prefixes(file: &[u8], take: &mut dyn FnMut(Case) -> bool) -> bool {
    let points = point_counts(file);
    (0..file.len()).all(|length| ask("prefix", &Rc::new(file[..length].to_vec()), check_and_decode(&points, length), take))
}

/// The length of a run for a description: in one turn of eight it has no room, in another only for a grid in degrees, and in the others for any.
pub fn length_in_turn(turn: u64) -> u64 {
    match turn % 8 {
        0 => turn / 8 % DESCRIPTION,
        1 => DESCRIPTION + turn / 8 % (DESCRIPTION_LAMBERT - DESCRIPTION),
        spare => DESCRIPTION_LAMBERT + (spare - 2) % 5,
    }
}

/// Every octet set to each of the 255 other values. The runs suffice for the points of the file as it was.
fn octet_changes(file: &[u8], take: &mut dyn FnMut(Case) -> bool) -> bool {
    let (points, pictures) = (point_counts(file), picture_lengths(file));
    (0..255 * file.len()).all(|number| {
        let mut changed = file.to_vec();
        changed[number / 255] = changed[number / 255].wrapping_add((number % 255) as u8 + 1);
        let (changed, k, turn) = (Rc::new(changed), number % points.len(), number / points.len());
        let one_point = point_in_turn(k as u64, points[k], turn as u64);
        let picture = picture_in_turn(k as u64, pictures[k], turn as u64);
        ask("octet changed", &changed, check_and_decode(&points, number), take)
            && ask("octet changed, described", &changed, vec![Question::Describe { k: k as u64, length: length_in_turn(number as u64) }], take)
            && ask("octet changed, one point", &changed, vec![one_point], take)
            && ask("octet changed, drawn", &changed, vec![picture], take)
    })
}

/// The value of one point after another, and of the one behind the last. In one turn of sixteen there is no room, and in half of the others some to spare.
fn point_in_turn(k: u64, points: u64, turn: u64) -> Question {
    let length = if turn % 16 == 0 { 0 } else { 1 + turn / 16 % 2 };
    Question::Point { k, n: turn % (points + 1), length }
}

/// A picture that needs so many octets. In one turn of sixteen the run is empty, in one it is an octet short, in some it just fits, and in others it is
/// longer.
fn picture_in_turn(k: u64, needed: u64, turn: u64) -> Question {
    let length = match turn % 16 {
        0 => 0,
        1 => needed - 1,
        2..=6 => needed,
        more => needed + more - 6,
    };
    Question::Picture { k, length }
}

/// Runs on either side of what a field needs from a start on, and a few other lengths.
fn lengths_around(start: u64, points: u64) -> Vec<u64> {
    let needed = start.saturating_add(points).min(MOST_POINTS);
    let mut lengths: Vec<u64> = vec![0, 1, points.saturating_sub(1), points, points + 1, needed.saturating_sub(1), needed, needed + 1, needed + 2];
    lengths.sort_unstable();
    lengths.dedup();
    lengths
}

/// Every start near 0 and where sums wrap, with every pair of lengths around every limit.
fn rooms(k: u64, points: u64) -> Vec<Question> {
    let near: Vec<u64> = (0..4).chain([points, points + 1, 100]).collect();
    let wrapping = far().into_iter().map(|start| (start, vec![0, 1, points, points + 1, points + 9]));
    let starts: Vec<(u64, Vec<u64>)> = near.into_iter().map(|start| (start, lengths_around(start, points))).chain(wrapping).collect();
    let mut found = Vec::new();
    for (start, lengths) in &starts {
        let pairs = lengths.iter().flat_map(|values_length| lengths.iter().map(move |presence_length| (*values_length, *presence_length)));
        found.extend(pairs.map(|(values_length, presence_length)| Question::Decode { k, start: *start, values_length, presence_length }));
    }
    found
}

/// Field numbers at and past the count, points at and past theirs.
fn numbers_past(points: &[u64], pictures: &[u64]) -> Vec<Question> {
    let fields = points.len() as u64;
    let mut found = Vec::new();
    for k in (0..fields + 3).chain(far()) {
        found.extend([described(k), whole(k, points[0]), Question::Picture { k, length: pictures[0] + 1 }]);
        found.extend(pointed(k, 0));
    }
    for (k, points) in (0..).zip(points) {
        let near = (0..points + 3).chain(far());
        found.extend(near.flat_map(|n| pointed(k, n)));
    }
    found
}

/// Describe of field k, and place, sheet and point of points at and past their count, in runs of every length on either side of what is needed.
fn lengths_of_numbers(k: u64, points: u64) -> Vec<Question> {
    let mut found: Vec<Question> = (0..=DESCRIPTION_LAMBERT + 7).map(|length| Question::Describe { k, length }).collect();
    for n in [0, points - 1, points, u64::MAX] {
        found.extend((0..=POSITION + 3).map(|length| Question::Place { k, n, length }));
        found.extend((0..=SHEET_PLACE + 3).map(|length| Question::Sheet { k, n, length }));
        found.extend((0..=3).map(|length| Question::Point { k, n, length }));
    }
    found
}

/// The picture of field k in runs of every length on either side of what is needed.
fn lengths_of_pictures(k: u64, needed: u64) -> impl Iterator<Item = Question> {
    (0..=needed + 3).map(move |length| Question::Picture { k, length })
}

fn limits_of_questions(file: &[u8], take: &mut dyn FnMut(Case) -> bool) -> bool {
    let (points, pictures) = (point_counts(file), picture_lengths(file));
    let file = Rc::new(file.to_vec());
    let rooms = (0..).zip(&points).flat_map(|(k, points)| rooms(k, *points)).collect();
    let past = (points.len() as u64, 1);
    let lengths = (0..).zip(points.iter().copied()).chain([past]).flat_map(|(k, points)| lengths_of_numbers(k, points)).collect();
    let rooms_to_draw = (0..).zip(&pictures).flat_map(|(k, needed)| lengths_of_pictures(k, *needed)).collect();
    ask("rooms", &file, rooms, take)
        && ask("runs of every length", &file, lengths, take)
        && ask("pictures in runs of every length", &file, rooms_to_draw, take)
        && ask("numbers past", &file, numbers_past(&points, &pictures), take)
}

/// Pictures of fields that are made for them, in runs of several lengths.
fn pictures_for_greys(take: &mut dyn FnMut(Case) -> bool) -> bool {
    pictures().into_iter().all(|file| {
        let asked = drawn(0, picture_lengths(&file)[0]).collect();
        ask("pictures", &Rc::new(file), asked, take)
    })
}

/// Pictures of fields that are made for them, every question about every small base, questions around all their limits, every prefix, and every octet
/// changed to every other value. The cases are the same each time; they end by themselves, or as soon as `take` answers false.
pub fn systematic(take: &mut dyn FnMut(Case) -> bool) {
    type Part = fn(&[u8], &mut dyn FnMut(Case) -> bool) -> bool;
    let parts: [Part; 4] = [whole_file, limits_of_questions, prefixes, octet_changes];
    let bases = small_bases();
    if !pictures_for_greys(take) {
        return;
    }
    for part in parts {
        if !bases.iter().all(|(_, file)| part(file, take)) {
            return;
        }
    }
}

// ---- at random

/// Runs for a field: from a small start on, with elements to spare, exactly fitting, or one too short.
fn decode(random: &mut Random, k: u64, points: u64) -> Question {
    let start = if random.chance(1, 100) { *random.choose(&far()) } else { random.below(6) };
    let needed = start.saturating_add(points).min(MOST_POINTS);
    let (short, spare, other_spare) = (needed.saturating_sub(1), needed + random.below(5), needed + random.below(5));
    let (values_length, presence_length) = match random.below(16) {
        0 => (short, spare),
        1 => (spare, short),
        2 | 3 => (needed, needed),
        4 => (needed, spare),
        5 => (spare, needed),
        _ => (spare, other_spare),
    };
    Question::Decode { k, start, values_length, presence_length }
}

/// The length of a run for so many numbers: with some to spare, exactly fitting, or too short.
fn length_for(random: &mut Random, numbers: u64) -> u64 {
    match random.below(8) {
        0 => random.below(numbers),
        1 => numbers - 1,
        2..=4 => numbers,
        _ => numbers + random.below(6),
    }
}

/// The number of a point: any, the last, one past it, or one far past it.
fn point(random: &mut Random, points: u64) -> u64 {
    match random.below(12) {
        0 => *random.choose(&far()),
        1 => *random.choose(&[points, points + 1]),
        2 => points.saturating_sub(1),
        _ => random.below(points.max(1)),
    }
}

/// The value of a point: the first or the second, one near the end of a block of 56 or of a word of the bitmap, or any of those above.
fn value_of_point(random: &mut Random, k: u64, points: u64) -> Question {
    let near = *random.choose(&[0, 1, 55, 56, 57, 63, 64, 65, 111, 112, 113]);
    let n = if random.chance(1, 3) && near < points { near } else { point(random, points) };
    Question::Point { k, n, length: length_for(random, 1) }
}

/// A picture that needs so many octets.
fn picture(random: &mut Random, k: u64, needed: u64) -> Question {
    let length = if random.chance(1, 20) { 0 } else { length_for(random, needed.clamp(1, LONGEST_PICTURE)) };
    Question::Picture { k, length }
}

/// All questions about field k. Of the two kinds of grid it has one, and the run for its description is of a length for either.
fn about_field(random: &mut Random, k: u64, points: u64, needed: u64) -> Vec<Question> {
    let description_length = *random.choose(&[DESCRIPTION, DESCRIPTION_LAMBERT]);
    let description = Question::Describe { k, length: length_for(random, description_length) };
    let place = Question::Place { k, n: point(random, points), length: length_for(random, POSITION) };
    let sheet = Question::Sheet { k, n: point(random, points), length: length_for(random, SHEET_PLACE) };
    let (one, other) = (value_of_point(random, k, points), value_of_point(random, k, points));
    vec![description, decode(random, k, points), one, other, place, sheet, picture(random, k, needed)]
}

/// All questions about every field, and about one past the last or far past it.
fn about_every_field(random: &mut Random, file: &[u8]) -> Vec<Question> {
    let points = point_counts(file);
    let past = if random.chance(3, 4) { points.len() as u64 } else { *random.choose(&far()) };
    let fields = (0..).zip(points.into_iter().zip(picture_lengths(file))).chain([(past, (9, 20))]);
    let each: Vec<Question> = fields.flat_map(|(k, (points, needed))| about_field(random, k, points, needed)).collect();
    std::iter::once(Question::Check).chain(each).collect()
}

/// Check, and all questions about a few fields of a damaged file; now and then about one past the last.
fn about_some_fields(random: &mut Random, file: &[u8]) -> Vec<Question> {
    let (points, pictures) = (point_counts(file), picture_lengths(file));
    let count = points.len() as u64;
    let mut asked: Vec<u64> = if count <= 3 { (0..count.max(1)).collect() } else { (0..3).map(|_| random.below(count)).collect() };
    if random.chance(1, 8) {
        asked.push(count);
    }
    let mut found = vec![Question::Check];
    for k in asked {
        let of_field = |numbers: &[u64], otherwise: u64| numbers.get(k as usize).copied().unwrap_or(otherwise);
        found.extend(about_field(random, k, of_field(&points, 9), of_field(&pictures, 20)));
    }
    found
}

/// A file damaged once, or more often.
fn damaged_some(random: &mut Random, base: &[u8], other: &[u8]) -> (&'static str, Vec<u8>) {
    let (kind, once) = damaged_by_kind(random, base, other);
    if random.chance(7, 8) {
        return (kind, once);
    }
    let twice = damaged(random, &once, other);
    ("damaged twice", if random.chance(1, 3) { damaged(random, &twice, other) } else { twice })
}

/// Two files one after another, which make a valid file again if both are, and one with a damaged one on either side.
fn joined(random: &mut Random, file: &[u8], other: &[u8]) -> (&'static str, Vec<u8>) {
    let broken = damaged(random, other, file);
    match random.below(3) {
        0 => ("files joined", [file, other].concat()),
        1 => ("damaged file behind", [file, &broken[..]].concat()),
        _ => ("damaged file before", [&broken[..], file].concat()),
    }
}

/// A file to start from: valid at random most often.
fn base(random: &mut Random) -> (&'static str, Vec<u8>) {
    match random.below(24) {
        0 => ("small base", random.choose(&small_bases()).1.clone()),
        1 => ("vast grid", vast(random)),
        2 => ("integers that stray", straying(random)),
        3..=7 => ("at a limit", at_a_limit(random)),
        _ => ("valid", valid(random)),
    }
}

/// The cases that one file gives rise to, beside another.
fn round(random: &mut Random, (kind, file): (&'static str, Vec<u8>), other: &[u8], take: &mut dyn FnMut(Case) -> bool) -> bool {
    let file = Rc::new(file);
    let questions = about_every_field(random, &file);
    if !ask(kind, &file, questions, take) {
        return false;
    }
    for number in 0..8 {
        let (kind, made) = match number {
            0 => joined(random, &file, other),
            _ => damaged_some(random, &file, other),
        };
        let questions = about_some_fields(random, &made);
        if !ask(kind, &Rc::new(made), questions, take) {
            return false;
        }
    }
    true
}

/// Valid files, files damaged and files joined, the same for the same seed. It goes on until `take` answers false.
pub fn at_random(seed: u64, take: &mut dyn FnMut(Case) -> bool) {
    let mut random = Random::new(seed);
    let mut other = valid(&mut random);
    loop {
        let (kind, file) = base(&mut random);
        if !round(&mut random, (kind, file.clone()), &other, take) {
            return;
        }
        other = file;
    }
}
