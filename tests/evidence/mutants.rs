//! Faulty copies of the independent decoder against what proved code answered, as the record of a comparison has it: each fault has to show in
//! some case, or the corpus would miss it in a reader too.
//!
//!   mutants RULES SEED COUNT RECORD
//!
//! A copy without a fault goes along, and must differ nowhere. The exit status is 1 where a fault is not caught.
mod answers;
mod cases;
mod corpus;
mod damage;
mod files;
mod largest;
mod make;
mod random;
mod rules;
mod walk;

use answers::{digest, Answer};
use cases::Case;
use corpus::Corpus;
use std::fs;
use std::panic::{catch_unwind, set_hook, AssertUnwindSafe};
use std::process::exit;

/// A decoder's name and its answers; what the fault is.
struct Mutant {
    fault: &'static str,
    answer: fn(&Case) -> Answer,
    caught: Option<String>,
}

fn mutant(fault: &'static str, answer: fn(&Case) -> Answer) -> Mutant {
    Mutant { fault, answer, caught: None }
}

fn mutants() -> Vec<Mutant> {
    include!(env!("MUTANTS"))
}

/// The digests of a record, in the order of the cases.
fn record(path: &str) -> Vec<u64> {
    let octets = fs::read(path).unwrap_or_else(|fault| {
        eprintln!("mutants: {}: {}", path, fault);
        exit(2)
    });
    octets.chunks(8).map(answers::code).collect()
}

/// How a mutant's answer to a case shows its fault, if it does.
fn fault_shown(mutant: &Mutant, case: &Case, expected: u64) -> Option<&'static str> {
    match catch_unwind(AssertUnwindSafe(|| digest(&(mutant.answer)(case).octets))) {
        Ok(found) if found == expected => None,
        Ok(_) => Some("another answer"),
        Err(_) => Some("no answer"),
    }
}

fn main() {
    let words: Vec<String> = std::env::args().skip(1).collect();
    let (rules, seed, most, record) = match &words[..] {
        [rules, seed, most, path] => (rules::read(rules), seed.parse(), most.parse(), record(path)),
        _ => exit(2),
    };
    let corpus = Corpus { rules: Some(rules.expect("the rules")), seed: seed.expect("a seed"), most: most.expect("a count") };
    set_hook(Box::new(|_| ()));
    let mut mutants = mutants();
    let mut control = mutant("none", answers_of!(reference));
    corpus.go_through(&mut |number, case| {
        let expected = record[number as usize];
        for mutant in mutants.iter_mut().chain([&mut control]).filter(|mutant| mutant.caught.is_none()) {
            let how = fault_shown(mutant, case, expected);
            mutant.caught = how.map(|how| format!("case {}, {}: {}", number, case.kind, how));
        }
        true
    });
    for mutant in &mutants {
        println!("  {}: {}", mutant.fault, mutant.caught.as_deref().unwrap_or("NOT CAUGHT"));
    }
    let caught = mutants.iter().filter(|mutant| mutant.caught.is_some()).count();
    let sound = control.caught.is_none();
    println!("{} faults, {} caught; a copy without a fault differs {}", mutants.len(), caught, if sound { "nowhere" } else { "too" });
    exit(if caught == mutants.len() && sound { 0 } else { 1 });
}
