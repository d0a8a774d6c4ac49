//! The independent decoder on the command line: one question a call, about the file on standard input.

use std::io::Read;
use std::process::exit;

use reference::{Description, Refusal};

const USAGE: &str = "usage: reference check | describe K | place K N | sheet K N | point K N | decode K START VALUES_LENGTH PRESENCE_LENGTH
                | picture K LENGTH | rebuild R_HEX E D X | list
Every question but rebuild reads a file on standard input.";

/// What stays in an element that the decoder leaves alone, so that the print shows it.
const UNTOUCHED_VALUE: u64 = 0xDEAD_BEEF_DEAD_BEEF;
const UNTOUCHED_OCTET: u8 = 0xA5;

fn main() {
    let arguments: Vec<String> = std::env::args().skip(1).collect();
    let words: Vec<&str> = arguments.iter().map(String::as_str).collect();
    match answer(&words) {
        Ok(text) => print!("{}", text),
        Err(complaint) => {
            eprintln!("{}", complaint);
            exit(2);
        }
    }
}

/// The text to print, or what is wrong with the call itself.
fn answer(words: &[&str]) -> Result<String, String> {
    match words {
        ["check"] => Ok(check(&standard_input()?)),
        ["describe", k] => Ok(describe(&standard_input()?, number(k)?)),
        ["place", k, n] => Ok(place(&standard_input()?, number(k)?, number(n)?)),
        ["sheet", k, n] => Ok(sheet(&standard_input()?, number(k)?, number(n)?)),
        ["point", k, n] => Ok(point(&standard_input()?, number(k)?, number(n)?)),
        ["decode", k, start, values_length, presence_length] => {
            decode(&standard_input()?, number(k)?, number(start)?, number(values_length)?, number(presence_length)?)
        }
        ["picture", k, length] => picture(&standard_input()?, number(k)?, number(length)?),
        ["rebuild", r, e, d, x] => rebuild(r, signed(e)?, signed(d)?, signed(x)?),
        ["list"] => Ok(reference::listing(&standard_input()?)),
        _ => Err(USAGE.to_string()),
    }
}

fn standard_input() -> Result<Vec<u8>, String> {
    let mut file = Vec::new();
    std::io::stdin().read_to_end(&mut file).map_err(|fault| format!("standard input cannot be read: {}", fault))?;
    Ok(file)
}

fn number(word: &str) -> Result<u64, String> {
    word.parse().map_err(|_| format!("{} is not a whole number from 0 to 2^64 - 1", word))
}

fn signed(word: &str) -> Result<i64, String> {
    word.parse().map_err(|_| format!("{} is not a whole number of 64 bits", word))
}

fn refused(refusal: Refusal) -> String {
    format!("refused {} at {}\n", refusal.number, refusal.place)
}

fn check(file: &[u8]) -> String {
    match reference::check(file) {
        Ok(counts) => format!("{} messages, {} fields\n", counts.messages, counts.fields),
        Err(refusal) => refused(refusal),
    }
}

fn describe(file: &[u8], k: u64) -> String {
    match reference::describe(file, k) {
        Ok(description) => described(&description),
        Err(refusal) => refused(refusal),
    }
}

/// The description in words, then its numbers on one line.
fn described(description: &Description) -> String {
    let numbers: Vec<String> = description.numbers().iter().map(i64::to_string).collect();
    format!("{:#?}\nnumbers {}\n", description, numbers.join(" "))
}

fn place(file: &[u8], k: u64, n: u64) -> String {
    match reference::place(file, k, n) {
        Ok((latitude, longitude)) => format!("latitude {} longitude {}\n", latitude, longitude),
        Err(refusal) => refused(refusal),
    }
}

fn sheet(file: &[u8], k: u64, n: u64) -> String {
    match reference::sheet(file, k, n) {
        Ok((right, down)) => format!("right {} down {}\n", right, down),
        Err(refusal) => refused(refusal),
    }
}

fn point(file: &[u8], k: u64, n: u64) -> String {
    match reference::point(file, k, n) {
        Ok(Some(value)) => format!("value {:016X} {:e}\n", value.to_bits(), value),
        Ok(None) => "missing\n".to_string(),
        Err(refusal) => refused(refusal),
    }
}

/// Decodes into runs of the lengths asked for and prints every element of both, touched or not.
fn decode(file: &[u8], k: u64, start: u64, values_length: u64, presence_length: u64) -> Result<String, String> {
    let mut values = run(f64::from_bits(UNTOUCHED_VALUE), values_length)?;
    let mut presence = run(UNTOUCHED_OCTET, presence_length)?;
    Ok(match reference::decode(file, k, start, &mut values, &mut presence) {
        Err(refusal) => refused(refusal),
        Ok(points) => {
            let value_lines = values.iter().enumerate().map(|(index, value)| format!("value {} {:016X} {:e}\n", index, value.to_bits(), value));
            let presence_lines = presence.iter().enumerate().map(|(index, present)| format!("presence {} {}\n", index, present));
            format!("{} points\n{}", points, value_lines.chain(presence_lines).collect::<String>())
        }
    })
}

/// Draws into a run of the length asked for, and prints every octet of it in hexadecimal, touched or not.
fn picture(file: &[u8], k: u64, length: u64) -> Result<String, String> {
    let mut octets = run(UNTOUCHED_OCTET, length)?;
    Ok(match reference::picture_into(file, k, &mut octets) {
        Err(refusal) => refused(refusal),
        Ok(drawn) => {
            let digits: String = octets.iter().map(|octet| format!("{:02X}", octet)).collect();
            format!("{} octets\n{}\n", drawn, digits)
        }
    })
}

/// A run of so many equal elements, unless there is no room for it.
fn run<Element: Clone>(element: Element, length: u64) -> Result<Vec<Element>, String> {
    let no_room = || format!("no room for a run of {} elements", length);
    let length = usize::try_from(length).map_err(|_| no_room())?;
    let mut elements = Vec::new();
    elements.try_reserve_exact(length).map_err(|_| no_room())?;
    elements.resize(length, element);
    Ok(elements)
}

fn rebuild(r: &str, e: i64, d: i64, x: i64) -> Result<String, String> {
    let bits = u32::from_str_radix(r, 16).map_err(|_| format!("{} is not a single's bits in hexadecimal", r))?;
    Ok(match reference::rebuild(bits, e, d, x) {
        Ok(double) => format!("{:016X} {:e}\n", double.to_bits(), double),
        Err(refusal) => refused(refusal),
    })
}
