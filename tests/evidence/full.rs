//! A field at the Agency's full size: the independent decoder has to find the integers that were packed, and proved code has to answer as it does.
use crate::answers_of;
use crate::cases::{described, pointed, Case, Question};
use crate::lender::Lender;
use crate::walk::picture_lengths;
use std::fs;
use std::io;
use std::rc::Rc;

/// Where the field lies in its runs, and how many elements are behind it.
const START: u64 = 3;
const SPARE: u64 = 2;

/// The integers of a file that holds nothing else, each in four octets.
fn integers_of(path: &str) -> io::Result<Vec<u32>> {
    let octets = fs::read(path)?;
    Ok(octets.chunks_exact(4).map(|octets| octets.iter().fold(0, |number, octet| number << 8 | u32::from(*octet))).collect())
}

/// Every question about the one field of a file: the whole field, the same with a run that is one element too short, its picture likewise, its first points,
/// some at the ends of a group and of a block, and its last.
fn questions(points: u64, picture: u64) -> Vec<Question> {
    let decode = |spare: u64| Question::Decode { k: 0, start: START, values_length: START + points + spare - 1, presence_length: START + points };
    let near_ends = [0, 1, 31, 32, 55, 56, 57, points / 2, points - 1, points].into_iter().flat_map(|n| pointed(0, n));
    let pictures = [picture - 1, picture, picture + SPARE].map(|length| Question::Picture { k: 0, length });
    [Question::Check, described(0), decode(0), decode(SPARE)].into_iter().chain(pictures).chain(near_ends).collect()
}

/// Is every X of the file's field the one that was packed, and does the lender answer every question as the independent decoder does?
pub fn full(path: &str, integers: &str, command: &[String]) -> io::Result<bool> {
    let (file, packed) = (Rc::new(fs::read(path)?), integers_of(integers)?);
    let are_found = reference::integers(&file, 0).map_or(false, |found| found == packed);
    let by_reference = answers_of!(reference);
    let mut lender = Lender::start(command)?;
    for (number, question) in (0..).zip(questions(packed.len() as u64, picture_lengths(&file)[0])) {
        let case = Case { kind: "full size", file: Rc::clone(&file), question };
        if lender.put(number, &case, by_reference(&case)).is_err() {
            break;
        }
    }
    let outcome = lender.finish();
    outcome.differences.iter().for_each(|difference| println!("question {} about {}: {}", difference.number, path, difference.what));
    let said = if are_found { "all found" } else { "NOT all found" };
    println!("a field of {} points: its integers are {}; {} questions, {} differ", packed.len(), said, outcome.compared, outcome.differences.len());
    Ok(are_found && outcome.differences.is_empty() && !packed.is_empty())
}
