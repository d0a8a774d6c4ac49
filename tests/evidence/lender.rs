//! Talks with a program that puts cases to proved code: cases go out in one thread, and answers are compared in another as they come back.
use crate::answers::{digest, Answer};
use crate::cases::{Case, Question};
use std::io::{self, BufReader, BufWriter, Read, Write};
use std::process::{Child, ChildStdin, Command, ExitStatus, Stdio};
use std::rc::Rc;
use std::sync::mpsc::{sync_channel, Receiver, SyncSender};
use std::thread::{self, JoinHandle};

/// Stands for the file of the question before, and for no elements that are to be written.
const NONE: u64 = u64::MAX;
/// Files above this size are sent without their stretches of zeros, in at most so many patches.
const PATCHED: usize = 1 << 20;
const BLOCK: usize = 4096;
const MOST_PATCHES: usize = 64;
/// How many answers may be awaited. It is more than the questions and answers that fit in the buffers between, or both sides would wait.
const AWAITED: usize = 8192;
/// The comparison ends with so many differences.
const MOST_DIFFERENCES: usize = 5;

struct Awaited {
    number: u64,
    answer: Answer,
}

pub struct Difference {
    pub number: u64,
    pub what: String,
}

/// How a conversation went, with a digest of what the program answered to each case.
#[derive(Default)]
pub struct Outcome {
    pub compared: u64,
    pub differences: Vec<Difference>,
    pub digests: Vec<(u64, u64)>,
}

pub struct Lender {
    process: Child,
    input: BufWriter<ChildStdin>,
    awaited: SyncSender<Awaited>,
    comparing: JoinHandle<Outcome>,
    file: Option<Rc<Vec<u8>>>,
}

impl Lender {
    pub fn start(command: &[String]) -> io::Result<Lender> {
        let mut process = Command::new(&command[0]).args(&command[1..]).stdin(Stdio::piped()).stdout(Stdio::piped()).spawn()?;
        let input = BufWriter::with_capacity(1 << 16, process.stdin.take().unwrap());
        let output = BufReader::with_capacity(1 << 16, process.stdout.take().unwrap());
        let (awaited, expected) = sync_channel(AWAITED);
        let comparing = thread::spawn(move || compare(output, expected));
        Ok(Lender { process, input, awaited, comparing, file: None })
    }

    /// Puts a case, to be answered as given. An error means that the program has ended.
    pub fn put(&mut self, number: u64, case: &Case, answer: Answer) -> io::Result<()> {
        let question = match case.question {
            Question::Check => [1, 0, 0, 0, 0, 0],
            Question::Decode { k, start, values_length, presence_length } => [2, k, 0, start, values_length, presence_length],
            Question::Describe { k, length } => [3, k, 0, 0, length, 0],
            Question::Place { k, n, length } => [4, k, n, 0, length, 0],
            Question::Sheet { k, n, length } => [5, k, n, 0, length, 0],
            Question::Point { k, n, length } => [6, k, n, 0, length, 0],
            Question::Picture { k, length } => [7, k, 0, 0, 0, length],
        };
        self.write_numbers(&question)?;
        self.write_numbers(&[answer.written.unwrap_or(NONE)])?;
        self.write_file(&case.file)?;
        self.awaited.send(Awaited { number, answer }).map_err(|_| io::Error::from(io::ErrorKind::BrokenPipe))
    }

    fn write_numbers(&mut self, numbers: &[u64]) -> io::Result<()> {
        numbers.iter().try_for_each(|number| self.input.write_all(&number.to_be_bytes()))
    }

    fn write_file(&mut self, file: &Rc<Vec<u8>>) -> io::Result<()> {
        if self.file.as_ref().map_or(false, |before| Rc::ptr_eq(before, file)) {
            return self.write_numbers(&[NONE]);
        }
        self.file = Some(Rc::clone(file));
        self.write_numbers(&[file.len() as u64])?;
        let patches = patches(file);
        self.write_numbers(&[patches.len() as u64])?;
        for (start, end) in patches {
            self.write_numbers(&[start as u64, (end - start) as u64])?;
            self.input.write_all(&file[start..end])?;
        }
        Ok(())
    }

    /// Ends the conversation. A program that does not end well differs, in the first case that it left unanswered.
    pub fn finish(self) -> Outcome {
        let Lender { mut process, input, awaited, comparing, .. } = self;
        let flushed = input.into_inner();
        drop(flushed);
        drop(awaited);
        let mut outcome = comparing.join().expect("the comparing thread");
        let ended = process.wait();
        let is_well = ended.as_ref().map_or(false, ExitStatus::success);
        let how = ended.map_or_else(|fault| fault.to_string(), |status| status.to_string());
        if let (false, Some(last)) = (is_well, outcome.differences.last_mut()) {
            last.what += &format!("; the program's end: {}", how);
        } else if !is_well {
            outcome.differences.push(Difference { number: 0, what: format!("every case is answered; the program's end: {}", how) });
        }
        outcome
    }
}

/// The stretches of a file that have to be sent: all of it, or what is not zero of a large one.
fn patches(file: &[u8]) -> Vec<(usize, usize)> {
    if file.len() < PATCHED {
        return vec![(0, file.len())];
    }
    let mut found: Vec<(usize, usize)> = Vec::new();
    for (index, block) in file.chunks(BLOCK).enumerate() {
        if block.iter().any(|octet| *octet != 0) {
            let start = index * BLOCK;
            match found.last_mut() {
                Some(last) if last.1 == start => last.1 += block.len(),
                _ => found.push((start, start + block.len())),
            }
        }
    }
    if found.len() > MOST_PATCHES {
        vec![(0, file.len())]
    } else {
        found
    }
}

fn read(output: &mut impl Read, length: usize) -> io::Result<Vec<u8>> {
    let mut octets = vec![0; length];
    output.read_exact(&mut octets)?;
    Ok(octets)
}

fn compare(mut output: BufReader<impl Read>, expected: Receiver<Awaited>) -> Outcome {
    let mut outcome = Outcome::default();
    for Awaited { number, answer } in expected {
        let octets = match read(&mut output, answer.octets.len()) {
            Ok(octets) => octets,
            Err(fault) => {
                outcome.differences.push(Difference { number, what: format!("no answer came: {}", fault) });
                return outcome;
            }
        };
        outcome.compared += 1;
        outcome.digests.push((number, digest(&octets)));
        if octets != answer.octets {
            outcome.differences.push(Difference { number, what: difference(&answer.octets, &octets) });
        }
        if outcome.differences.len() == MOST_DIFFERENCES {
            return outcome;
        }
    }
    let mut rest = Vec::new();
    if output.read_to_end(&mut rest).is_err() || !rest.is_empty() {
        outcome.differences.push(Difference { number: 0, what: "the program wrote more than it was asked for".to_string() });
    }
    outcome
}

/// In words, where two answers first differ.
fn difference(expected: &[u8], found: &[u8]) -> String {
    let at = expected.iter().zip(found).take_while(|(one, other)| one == other).count() / 8 * 8;
    let shown = |octets: &[u8]| octets[at.min(octets.len())..(at + 8).min(octets.len())].iter().map(|octet| format!("{:02x}", octet)).collect::<String>();
    format!("octets {} to {} of the answer: {} expected, {} found", at, at + 7, shown(expected), shown(found))
}
