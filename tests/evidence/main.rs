//! Compares proved code with the independent decoder, case by case.
//!
//!   evidence told RULES                                          the independent decoder against what the rules say in words
//!   evidence compare RULES SEED COUNT RECORD -- LENDER..         the whole corpus, COUNT cases of it from the seed; what is answered is recorded
//!   evidence soak MINUTES SEED -- LENDER..                       fresh seeds, one after the other, from SEED on
//!   evidence repeat RULES SEED NUMBER FILE -- LENDER..           one case again, shown in words; its file is written to FILE
//!   evidence listing SEED COUNT -- PROGRAM..                     what the listing program prints
//!   evidence rebuild SEED COUNT -- PROGRAM..                     doubles one by one
//!   evidence full FILE INTEGERS -- LENDER..                      a field at the Agency's full size, into which these integers were packed
//!   evidence eccodes FILE SEED COUNT -- PROGRAM..                FILE and valid files of the seed, as ecCodes reads them
//!   evidence vectors NAME SEED FOLDER                            what the program NAME reads and has to print, for the interpreter
//!
//! RULES is a file of rules, or "none" for the cases of the seed alone. LENDER and the like are commands. The exit status is 1 where anything differs.
mod answers;
mod cases;
mod corpus;
mod damage;
mod eccodes;
mod files;
mod full;
mod largest;
mod lender;
mod make;
mod programs;
mod random;
mod rules;
mod vectors;
mod walk;

use answers::Answer;
use cases::Case;
use corpus::{shown, Corpus};
use lender::{Difference, Lender};
use std::collections::BTreeMap;
use std::fs;
use std::io::{self, Write};
use std::process::exit;
use std::time::{Duration, Instant};

/// How many cases a seed gives before a soak goes on to the next.
const CASES_A_SEED: u64 = 1_000_000;
/// The refusals that the corpus has to reach: all that the library's questions about a file give.
const REFUSALS: [usize; 18] = [1, 2, 3, 4, 5, 6, 7, 8, 9, 10, 11, 12, 13, 14, 15, 16, 17, 20];

/// What a run has compared so far.
#[derive(Default)]
struct Tally {
    kinds: BTreeMap<&'static str, u64>,
    refusals: BTreeMap<usize, u64>,
    compared: u64,
    digests: Vec<(u64, u64)>,
}

/// Puts every case of the corpus, or the one that is asked for by its number. Answers what differed.
fn compare(corpus: &Corpus, only: Option<u64>, command: &[String], tally: &mut Tally) -> io::Result<Vec<Difference>> {
    let by_reference = answers_of!(reference);
    let mut lender = Lender::start(command)?;
    corpus.go_through(&mut |number, case| {
        if only.map_or(false, |wanted| wanted != number) {
            return only > Some(number);
        }
        let answer = by_reference(case);
        count(tally, case, &answer);
        lender.put(number, case, answer).is_ok()
    });
    let outcome = lender.finish();
    tally.compared += outcome.compared;
    tally.digests.extend(outcome.digests);
    Ok(outcome.differences)
}

fn count(tally: &mut Tally, case: &Case, answer: &Answer) {
    *tally.kinds.entry(case.kind).or_insert(0) += 1;
    *tally.refusals.entry(answers::refusal_number(answer.code())).or_insert(0) += 1;
}

fn report(corpus: &Corpus, differences: &[Difference]) {
    for Difference { number, what } in differences {
        println!("case {} of seed {} differs: {}", number, corpus.seed, what);
        println!("  to repeat it: python3 -m tests.evidence repeat {} {} {}", corpus.part(), corpus.seed, number);
    }
}

/// What was compared, by kind of case and by what was answered. Answers the refusals that no case reached.
fn show(tally: &Tally) -> Vec<usize> {
    for (kind, count) in &tally.kinds {
        println!("  {:>8}  {}", count, kind);
    }
    let numbers = |(number, count): (&usize, &u64)| if *number == 0 { format!("answered {}", count) } else { format!("{}: {}", number, count) };
    println!("  by answer, and by the number of the refusal: {}", tally.refusals.iter().map(numbers).collect::<Vec<_>>().join(", "));
    REFUSALS.into_iter().filter(|number| !tally.refusals.contains_key(number)).collect()
}

fn whole_corpus(corpus: &Corpus, record: &str, command: &[String]) -> io::Result<bool> {
    let started = Instant::now();
    let mut tally = Tally::default();
    let differences = compare(corpus, None, command, &mut tally)?;
    report(corpus, &differences);
    let missed = show(&tally);
    if !missed.is_empty() {
        println!("no case is refused by {:?}", missed);
    }
    tally.digests.sort_unstable();
    fs::write(record, tally.digests.iter().flat_map(|(_, digest)| digest.to_be_bytes()).collect::<Vec<u8>>())?;
    println!("seed {}: {} cases in {:.0} seconds, {} differ", corpus.seed, tally.compared, started.elapsed().as_secs_f64(), differences.len());
    Ok(differences.is_empty() && missed.is_empty())
}

fn soak(minutes: u64, first_seed: u64, command: &[String]) -> io::Result<bool> {
    let (started, time) = (Instant::now(), Duration::from_secs(60 * minutes));
    let mut tally = Tally::default();
    let mut corpus = Corpus { rules: None, seed: first_seed, most: CASES_A_SEED };
    while started.elapsed() < time {
        let differences = compare(&corpus, None, command, &mut tally)?;
        tally.digests.clear();
        report(&corpus, &differences);
        if !differences.is_empty() {
            return Ok(false);
        }
        let passed = started.elapsed().as_secs_f64() / 60.0;
        println!("{:6.1} of {} minutes: {} cases, the last of seed {}, none differs", passed, minutes, tally.compared, corpus.seed);
        io::stdout().flush()?;
        corpus.seed += 1;
    }
    show(&tally);
    Ok(true)
}

fn repeat(corpus: &Corpus, number: u64, file: &str, command: &[String]) -> io::Result<bool> {
    let by_reference = answers_of!(reference);
    let mut found = false;
    corpus.go_through(&mut |at, case| {
        if at == number {
            found = true;
            println!("case {}, of the kind \"{}\": {}, of a file of {} octets, written to {}", number, case.kind, shown(&case.question), case.file.len(), file);
            println!("the independent decoder answers {:#018x}", by_reference(case).code());
            fs::write(file, &*case.file).expect("the file of the case");
        }
        at < number
    });
    let differences = compare(corpus, Some(number), command, &mut Tally::default())?;
    report(corpus, &differences);
    if found && differences.is_empty() {
        println!("proved code answers the same");
    }
    Ok(found && differences.is_empty())
}

fn corpus_of(rules: &str, seed: &str, most: u64) -> io::Result<Corpus> {
    let rules = if rules == "none" { None } else { Some(rules::read(rules)?) };
    Ok(Corpus { rules, seed: number(seed), most })
}

/// The words up to the next "--", and the rest behind it.
fn split(words: &[String]) -> (Vec<String>, &[String]) {
    let end = words.iter().position(|word| word == "--").unwrap_or(words.len());
    (words[..end].to_vec(), words.get(end + 1..).unwrap_or(&[]))
}

fn number(word: &str) -> u64 {
    word.parse().unwrap_or_else(|_| {
        eprintln!("evidence: {} is no number", word);
        exit(2)
    })
}

fn run(words: &[String]) -> io::Result<bool> {
    let (given, command) = split(words);
    let given: Vec<&str> = given.iter().map(String::as_str).collect();
    match given[..] {
        ["told", rules] => Ok(rules::hold(&rules::read(rules)?)),
        ["compare", rules, seed, most, record] => whole_corpus(&corpus_of(rules, seed, number(most))?, record, command),
        ["soak", minutes, seed] => soak(number(minutes), number(seed), command),
        ["repeat", rules, seed, case, file] => repeat(&corpus_of(rules, seed, u64::MAX)?, number(case), file, command),
        ["listing", seed, most] => programs::listing(number(seed), number(most), command),
        ["rebuild", seed, most] => programs::rebuild(number(seed), number(most), command),
        ["full", file, integers] => full::full(file, integers, command),
        ["eccodes", file, seed, most] => eccodes::eccodes(file, number(seed), number(most), command),
        ["vectors", name, seed, folder] => vectors::write(name, number(seed), folder),
        _ => Err(io::Error::new(io::ErrorKind::InvalidInput, "no such command")),
    }
}

fn main() {
    let words: Vec<String> = std::env::args().skip(1).collect();
    match run(&words) {
        Ok(true) => (),
        Ok(false) => exit(1),
        Err(fault) => {
            eprintln!("evidence: {}", fault);
            exit(2);
        }
    }
}
