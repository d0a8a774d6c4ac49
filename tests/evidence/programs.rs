//! The programs that read standard input: `listing`, and `tests_ask`, which rebuilds doubles.
use crate::damage::damaged;
use crate::files::{small_bases, valid};
use crate::make::Signed;
use crate::random::Random;
use std::io::{self, Write};
use std::process::{Command, Stdio};
use std::thread;

/// The most octets that the listing program takes.
pub const MOST_OCTETS: usize = 65_536;
/// A question to `tests_ask`, and the most of them that one run takes.
const RECORD: usize = 32;
const RECORDS_A_RUN: u64 = (MOST_OCTETS / RECORD) as u64;
const MOST_SHOWN: u64 = 5;

/// What a program prints about an input. A program that stops reading early is no fault here.
fn printed(command: &[String], input: &[u8]) -> io::Result<Vec<u8>> {
    let mut process = Command::new(&command[0]).args(&command[1..]).stdin(Stdio::piped()).stdout(Stdio::piped()).spawn()?;
    let mut pipe = process.stdin.take().unwrap();
    let input = input.to_vec();
    let writing = thread::spawn(move || pipe.write_all(&input).is_ok());
    let output = process.wait_with_output()?;
    writing.join().expect("the writing thread");
    if !output.status.success() {
        return Err(io::Error::new(io::ErrorKind::Other, format!("{} ended with {}", command[command.len() - 1], output.status)));
    }
    Ok(output.stdout)
}

/// Inputs at the program's limit: valid files one behind the other up to its length, cut there, and one octet more; and the same in zeros.
fn at_the_limit(random: &mut Random) -> Vec<Vec<u8>> {
    let mut long = Vec::new();
    while long.len() < MOST_OCTETS + 2 {
        long.extend(valid(random));
    }
    let lengths = [MOST_OCTETS - 1, MOST_OCTETS, MOST_OCTETS + 1, MOST_OCTETS + 2];
    let mut found: Vec<Vec<u8>> = lengths.iter().map(|length| long[..*length].to_vec()).collect();
    found.extend(lengths.iter().map(|length| vec![0; *length]));
    found.push(Vec::new());
    found
}

fn inputs(seed: u64, count: u64) -> Vec<Vec<u8>> {
    let random = &mut Random::new(seed);
    let mut found = at_the_limit(random);
    found.extend(small_bases().into_iter().map(|(_, file)| file));
    while (found.len() as u64) < count {
        let (base, other) = (valid(random), valid(random));
        found.push(damaged(random, &base, &other));
        found.push(base);
    }
    found
}

/// The listing program against the independent decoder.
pub fn listing(seed: u64, count: u64, command: &[String]) -> io::Result<bool> {
    let (mut asked, mut wrong, mut refused) = (0, 0, 0);
    for input in inputs(seed, count) {
        let (expected, found) = (reference::listing(&input), printed(command, &input)?);
        asked += 1;
        refused += u64::from(expected.starts_with("refused"));
        if found != expected.as_bytes() {
            wrong += 1;
            if wrong <= MOST_SHOWN {
                println!("input {} of seed {}, {} octets:\nexpected\n{}found\n{}", asked - 1, seed, input.len(), expected, String::from_utf8_lossy(&found));
            }
        }
    }
    println!("seed {}: {} inputs listed, {} of them refused whole, {} differ", seed, asked, refused, wrong);
    Ok(wrong == 0)
}

pub struct Rebuild {
    r: u32,
    e: i64,
    d: i64,
    x: i64,
}

/// Mostly inside the limits; zeros, subnormals, infinities and the limits' neighbours among them, and sums that are zero or nearly.
pub fn random_rebuild(random: &mut Random) -> Rebuild {
    let special = [0, 0x8000_0000, 1, 0x8000_0001, 0x007f_ffff, 0x7f7f_ffff, 0xff7f_ffff, 0x7f80_0000, 0xff80_0000, 0x7fc0_0000];
    let mut r = if random.chance(1, 6) { *random.choose(&special) } else { random.below(1 << 32) as u32 };
    let e = if random.chance(1, 10) { random.between(-32_767, 32_767) } else { random.between(-128, 128) };
    let d = if random.chance(1, 10) { random.between(-32_767, 32_767) } else { random.between(-23, 23) };
    let limits = [0, 1, 2_147_483_647, 2_147_483_648, -1, i64::MAX];
    let size = random.between(1, 31) as u32;
    let x = if random.chance(1, 10) { *random.choose(&limits) } else { random.below(1 << size) as i64 };
    let exponent = e + 63 - i64::from(x.leading_zeros());
    if random.chance(1, 6) && x > 0 && x < 1 << 24 && exponent >= -126 && exponent <= 127 {
        let fraction = (x << (23 - (63 - x.leading_zeros()))) - (1 << 23);
        r = 1 << 31 | ((exponent + 127) as u32) << 23 | fraction as u32;
        r ^= random.below(2) as u32;
    }
    Rebuild { r, e, d, x }
}

/// The question as `tests_ask` reads it, and the line that it has to print.
pub fn record(question: &Rebuild, minus_zero: bool) -> (Vec<u8>, String) {
    let signed = |value: i64| if value == 0 && minus_zero { Signed::MINUS_ZERO } else { value.into() };
    let mut octets = [&[1], &question.r.to_be_bytes()[..]].concat();
    octets.extend([signed(question.e).octets(2), signed(question.d).octets(2), signed(question.x).octets(8)].concat());
    octets.resize(RECORD, 0);
    let line = match reference::rebuild(question.r, question.e, question.d, question.x) {
        Ok(double) => format!("double {:016x}", double.to_bits()),
        Err(refusal) => format!("refused {} at {}", refusal.number, refusal.place),
    };
    (octets, line)
}

/// One run of `tests_ask`. Answers how many doubles it gave, and how many answers differ, the bound of demand 3 among what is compared.
fn rebuild_many(random: &mut Random, seed: u64, count: u64, command: &[String]) -> io::Result<(u64, u64)> {
    let questions: Vec<Rebuild> = (0..count).map(|_| random_rebuild(random)).collect();
    let records: Vec<(Vec<u8>, String)> = questions.iter().map(|question| record(question, random.chance(1, 2))).collect();
    let found = printed(command, &records.iter().flat_map(|(octets, _)| octets.clone()).collect::<Vec<u8>>())?;
    let lines: Vec<String> = String::from_utf8_lossy(&found).lines().map(str::to_string).collect();
    let (mut doubles, mut wrong) = (0, u64::from(lines.len() != records.len()));
    for ((question, (_, expected)), line) in questions.iter().zip(&records).zip(&lines) {
        let double = line.strip_prefix("double ").and_then(|digits| u64::from_str_radix(digits, 16).ok()).map(f64::from_bits);
        let near = double.map_or(true, |double| reference::near_enough(double, question.r, question.e, question.d, question.x as u32));
        doubles += u64::from(double.is_some());
        if line != expected || !near {
            wrong += 1;
            let Rebuild { r, e, d, x } = question;
            println!("seed {}: R {:08x}, E {}, D {}, X {}: expected {}, found {}, near enough: {}", seed, r, e, d, x, expected, line, near);
        }
    }
    Ok((doubles, wrong))
}

/// Doubles one by one, bit for bit, and each within demand 3's bound.
pub fn rebuild(seed: u64, count: u64, command: &[String]) -> io::Result<bool> {
    let random = &mut Random::new(seed);
    let (mut asked, mut doubles, mut wrong) = (0, 0, 0);
    while asked < count && wrong == 0 {
        let now = RECORDS_A_RUN.min(count - asked);
        let (given, different) = rebuild_many(random, seed, now, command)?;
        asked += now;
        doubles += given;
        wrong += different;
    }
    println!("seed {}: {} rebuilds, {} of them doubles, {} differ", seed, asked, doubles, wrong);
    Ok(wrong == 0 && doubles > 0)
}
