//! Vectors for programs that run on the interpreter and compiled with checks: what they read, and what they have to print.
use crate::answers::{untouched_numbers, untouched_runs, Answer};
use crate::answers_of;
use crate::cases::{length_in_turn, Case, Question};
use crate::corpus::Corpus;
use crate::programs::{random_rebuild, record, MOST_OCTETS};
use crate::random::Random;
use crate::walk::picture_lengths;
use std::fs;
use std::io;
use std::path::Path;
use std::rc::Rc;

/// The program has room for runs of so many elements, and for so many octets of a picture.
const ROOM: u64 = 64;
const PICTURE_ROOM: u64 = 96;
const REBUILDS: usize = 1000;
/// The steps that __main__.py gives the interpreter are enough for a few more than so many files.
const FILES: u64 = 90;

fn hexadecimal(octets: &[u8]) -> String {
    octets.iter().map(|octet| format!("{:02x}", octet)).collect()
}

/// The questions that the program puts about one file: those of decode, describe, place, sheet, point and picture, about the same field. Place, sheet and
/// point are asked about the same point, in runs of the same length.
struct Asked {
    decode: Case,
    describe: Case,
    place: Case,
    sheet: Case,
    point: Case,
    picture: Case,
}

/// The length of a run for the picture of field k: one octet short, just fitting, or longer, as far as there is room.
fn picture_length(file: &[u8], k: u64, turn: u64) -> u64 {
    let needed = picture_lengths(file).get(k as usize).copied().unwrap_or(0);
    (needed.min(PICTURE_ROOM) + turn % 4).saturating_sub(1).min(PICTURE_ROOM)
}

/// The others beside a question to decode, in runs whose lengths, and of a point whose number, change from turn to turn.
fn asked(decode: &Case, k: u64, turn: u64) -> Asked {
    let about_file = |question: Question| Case { kind: decode.kind, file: Rc::clone(&decode.file), question };
    Asked {
        decode: about_file(decode.question.clone()),
        describe: about_file(Question::Describe { k, length: length_in_turn(turn) }),
        place: about_file(Question::Place { k, n: turn % 7, length: turn % 5 }),
        sheet: about_file(Question::Sheet { k, n: turn % 7, length: turn % 5 }),
        point: about_file(Question::Point { k, n: turn % 7, length: turn % 5 }),
        picture: about_file(Question::Picture { k, length: picture_length(&decode.file, k, turn) }),
    }
}

/// The octets of the questions as the program reads them, if they are small enough.
fn octets_of(asked: &Asked) -> Option<Vec<u8>> {
    let file = &asked.decode.file;
    match (&asked.decode.question, &asked.describe.question, &asked.place.question, &asked.picture.question) {
        (
            Question::Decode { k, start, values_length, presence_length },
            Question::Describe { length: numbers_length, .. },
            Question::Place { n, length: position_length, .. },
            Question::Picture { length: picture_length, .. },
        ) if *k < 256 && *start < 256 && *values_length <= ROOM && *presence_length <= ROOM && file.len() < 1000 => {
            let numbers = [k, start, values_length, presence_length, numbers_length, n, position_length, picture_length].map(|number| *number as u8);
            Some([&numbers[..], &(file.len() as u16).to_be_bytes(), file].concat())
        }
        _ => None,
    }
}

/// The answer of decode and every element of both runs, or of point or of picture and every element of its run, untouched where it is refused.
fn words_of_runs(answer: Answer, values_length: u64, presence_length: u64) -> Vec<String> {
    let mut words = vec![hexadecimal(&answer.octets[..8])];
    let (values, presence) = untouched_runs(values_length, presence_length);
    let runs = if answer.written.is_some() { answer.octets } else { Answer::of_runs(0, &values, &presence).octets };
    let (doubles, marks) = runs[8..].split_at(8 * values_length as usize);
    for octets in doubles.chunks(8) {
        let bits = octets.try_into().map(u64::from_ne_bytes).expect("eight octets");
        words.push(format!("{:016x}", bits));
    }
    words.extend(marks.iter().map(|mark| format!("{:02x}", mark)));
    words
}

/// The answer of describe, place or sheet and every number of the run, likewise.
fn words_of_numbers(answer: Answer, length: u64) -> Vec<String> {
    let mut words = vec![hexadecimal(&answer.octets[..8])];
    let run = if answer.written.is_some() { answer.octets } else { Answer::of_numbers(0, &untouched_numbers(length)).octets };
    for octets in run[8..].chunks(8) {
        let number = octets.try_into().map(i64::from_ne_bytes).expect("eight octets");
        words.push(format!("{}{:016x}", if number < 0 { "-" } else { "" }, number.unsigned_abs()));
    }
    words
}

/// The line that the program has to print: check's answer, and each other answer with its runs.
fn line(asked: &Asked) -> String {
    let by_reference = answers_of!(reference);
    let check = Case { kind: asked.decode.kind, file: Rc::clone(&asked.decode.file), question: Question::Check };
    let mut words = vec![hexadecimal(&by_reference(&check).octets)];
    for case in [&asked.decode, &asked.describe, &asked.place, &asked.sheet, &asked.point, &asked.picture] {
        words.extend(match case.question {
            Question::Decode { values_length, presence_length, .. } => words_of_runs(by_reference(case), values_length, presence_length),
            Question::Describe { length, .. } | Question::Place { length, .. } | Question::Sheet { length, .. } => words_of_numbers(by_reference(case), length),
            Question::Point { length, .. } => words_of_runs(by_reference(case), length, 0),
            Question::Picture { length, .. } => words_of_runs(by_reference(case), 0, length),
            Question::Check => vec![],
        });
    }
    words.join(" ") + "\n"
}

/// As many cases of the seed as the program's input holds, and as the interpreter has steps for.
fn questions(seed: u64) -> (Vec<u8>, String) {
    let (mut input, mut output, mut turn) = (Vec::new(), String::new(), 0);
    Corpus { rules: None, seed, most: u64::MAX }.go_through(&mut |_, case| {
        if let Question::Decode { k, .. } = case.question {
            let asked = asked(case, k, turn);
            if let Some(octets) = octets_of(&asked) {
                if turn == FILES || input.len() + octets.len() > MOST_OCTETS {
                    return false;
                }
                output += &line(&asked);
                input.extend(octets);
                turn += 1;
            }
        }
        true
    });
    (input, output)
}

/// Questions that rebuild a double, for the program `tests_ask`.
fn rebuilds(seed: u64) -> (Vec<u8>, String) {
    let random = &mut Random::new(seed);
    let (mut input, mut output) = (Vec::new(), String::new());
    for _ in 0..REBUILDS {
        let question = random_rebuild(random);
        let (octets, line) = record(&question, random.chance(1, 2));
        input.extend(octets);
        output += &(line + "\n");
    }
    (input, output)
}

/// Writes what a program reads and has to print, by its name, into a folder, under the names that `rt try --cases` looks for.
pub fn write(name: &str, seed: u64, folder: &str) -> io::Result<bool> {
    let (input, output) = match name {
        "vectors" => questions(seed),
        "tests_ask" => rebuilds(seed),
        _ => {
            println!("no vectors are made for a program {}", name);
            return Ok(false);
        }
    };
    fs::write(Path::new(folder).join("questions"), input)?;
    fs::write(Path::new(folder).join("questions.stdout"), &output)?;
    println!("seed {}: {} vectors for {}", seed, output.lines().count(), name);
    Ok(true)
}
