//! What a decoder answers to a case, in one form for all questions: octets that can be compared, recorded and told apart.
use crate::walk::number_at;
use std::io::{self, Read};

/// What every octet of a lent run holds before a call. No presence is that, and no double or number of a field is made of it. A grey may be that, and no
/// picture is made of it alone.
const UNTOUCHED: u8 = 0xa5;

/// The answer's code in eight octets; where elements were written, every element of each run behind it.
pub struct Answer {
    pub octets: Vec<u8>,
    /// How many elements of each run were written, where the question has runs and is not refused.
    pub written: Option<u64>,
}

impl Answer {
    /// The answer of check, or a refusal.
    pub fn of_code(code: u64) -> Answer {
        Answer { octets: code.to_be_bytes().to_vec(), written: None }
    }

    /// The answer of decode, with both runs as they lie in memory.
    pub fn of_runs(points: u64, values: &[f64], presence: &[u8]) -> Answer {
        let mut octets = points.to_be_bytes().to_vec();
        octets.extend(values.iter().flat_map(|value| value.to_ne_bytes()));
        octets.extend(presence);
        Answer { octets, written: Some(points) }
    }

    /// The answer of describe, place or sheet, with the run as it lies in memory.
    pub fn of_numbers(put: u64, run: &[i64]) -> Answer {
        let mut octets = put.to_be_bytes().to_vec();
        octets.extend(run.iter().flat_map(|number| number.to_ne_bytes()));
        Answer { octets, written: Some(put) }
    }

    /// The answer of point, which writes one element whether the point is present or missing, with the run as it lies in memory.
    pub fn of_value(is_present: u64, run: &[f64]) -> Answer {
        Answer { written: Some(1), ..Answer::of_runs(is_present, run, &[]) }
    }

    /// The answer of picture, with the run as it lies in memory.
    pub fn of_octets(drawn: u64, run: &[u8]) -> Answer {
        Answer::of_runs(drawn, &[], run)
    }

    pub fn code(&self) -> u64 {
        code(&self.octets)
    }
}

/// The first number of an answer.
pub fn code(octets: &[u8]) -> u64 {
    number_at(octets, 0, 8)
}

/// The next number of those that programs and scripts write, each in eight octets.
pub fn read_number(from: &mut impl Read) -> io::Result<u64> {
    let mut octets = [0; 8];
    from.read_exact(&mut octets)?;
    Ok(code(&octets))
}

/// The number of a refusal, or 0 where there is none.
pub fn refusal_number(code: u64) -> usize {
    if code >> 63 == 1 {
        (code >> 32 & 0x7fff_ffff) as usize
    } else {
        0
    }
}

/// An answer's octets as one number, for records of many answers.
pub fn digest(octets: &[u8]) -> u64 {
    octets.iter().fold(0xcbf2_9ce4_8422_2325, |sum, octet| (sum ^ u64::from(*octet)).wrapping_mul(0x0100_0000_01b3))
}

/// Runs as they are lent.
pub fn untouched_runs(values_length: u64, presence_length: u64) -> (Vec<f64>, Vec<u8>) {
    let value = f64::from_ne_bytes([UNTOUCHED; 8]);
    (vec![value; values_length as usize], vec![UNTOUCHED; presence_length as usize])
}

pub fn untouched_numbers(length: u64) -> Vec<i64> {
    vec![i64::from_ne_bytes([UNTOUCHED; 8]); length as usize]
}

/// A function from cases to the answers of the decoder that the named crate holds. The independent decoder and its faulty copies are different
/// crates, whose types have the same names.
#[macro_export]
macro_rules! answers_of {
    ($decoder:ident) => {
        |case: &$crate::cases::Case| -> $crate::answers::Answer {
            use $crate::answers::Answer;
            use $crate::cases::Question;
            let file: &[u8] = &case.file;
            let answer = match case.question {
                Question::Check => $decoder::check(file).map(|counts| Answer::of_code(counts.code())),
                Question::Describe { k, length } => {
                    let mut numbers = $crate::answers::untouched_numbers(length);
                    $decoder::describe_into(file, k, &mut numbers).map(|put| Answer::of_numbers(put, &numbers))
                }
                Question::Place { k, n, length } => {
                    let mut position = $crate::answers::untouched_numbers(length);
                    $decoder::place_into(file, k, n, &mut position).map(|put| Answer::of_numbers(put, &position))
                }
                Question::Sheet { k, n, length } => {
                    let mut sheet_place = $crate::answers::untouched_numbers(length);
                    $decoder::sheet_into(file, k, n, &mut sheet_place).map(|put| Answer::of_numbers(put, &sheet_place))
                }
                Question::Point { k, n, length } => {
                    let (mut value, _) = $crate::answers::untouched_runs(length, 0);
                    $decoder::point_into(file, k, n, &mut value).map(|is_present| Answer::of_value(is_present, &value))
                }
                Question::Picture { k, length } => {
                    let (_, mut octets) = $crate::answers::untouched_runs(0, length);
                    $decoder::picture_into(file, k, &mut octets).map(|drawn| Answer::of_octets(drawn, &octets))
                }
                Question::Decode { k, start, values_length, presence_length } => {
                    let (mut values, mut presence) = $crate::answers::untouched_runs(values_length, presence_length);
                    $decoder::decode(file, k, start, &mut values, &mut presence)
                        .map(|points| Answer::of_runs(u64::from(points), &values, &presence))
                }
            };
            answer.unwrap_or_else(|refusal| Answer::of_code(refusal.code()))
        }
    };
}
