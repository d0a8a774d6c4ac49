//! Files on either side of each rule, each with what the rules say of it in words, and points and pictures that are told in words. They are made and judged by
//! hand in the tests in Python, and come here as a file, so that the independent decoder is held to them too.
use crate::answers::{read_number, Answer};
use crate::answers_of;
use crate::cases::{described, drawn, pointed, Case, Question, DESCRIPTION, DESCRIPTION_LAMBERT, POSITION, SHEET_PLACE};
use crate::walk::picture_lengths;
use std::fs;
use std::io::{self, Read};
use std::rc::Rc;

/// What is told of a question that is answered, where the answer is not told.
const TAKEN: u64 = u64::MAX;
const CHECK: u64 = 1;
const DESCRIBE: u64 = 2;
const POINT: u64 = 4;
const PICTURE: u64 = 5;
/// Runs that hold the fields which the rules are shown on. Some of the grids are larger, and 15 is due.
const ROOM: u64 = 20;

pub struct Rule {
    question: Question,
    /// The code that answers, or that the question is taken.
    told: u64,
    /// The octets that are put for a point or a picture, as they lie in memory.
    put: Vec<u8>,
    file: Rc<Vec<u8>>,
}

fn decode(k: u64) -> Question {
    Question::Decode { k, start: 1, values_length: ROOM, presence_length: ROOM + 1 }
}

/// The next octets, which have their length before them.
fn octets(from: &mut impl Read) -> io::Result<Vec<u8>> {
    let mut found = vec![0; read_number(from)? as usize];
    from.read_exact(&mut found)?;
    Ok(found)
}

/// The next rule: the kind of its question, k, n, what is told, the octets that are put, and its file.
fn rule(from: &mut impl Read) -> io::Result<Rule> {
    let (kind, k, n, told) = (read_number(from)?, read_number(from)?, read_number(from)?, read_number(from)?);
    let (put, file) = (octets(from)?, octets(from)?);
    let question = match kind {
        CHECK => Question::Check,
        DESCRIBE => described(k),
        POINT => Question::Point { k, n, length: 1 },
        PICTURE => Question::Picture { k, length: told },
        _ => decode(k),
    };
    Ok(Rule { question, told, put, file: Rc::new(file) })
}

pub fn read(path: &str) -> io::Result<Vec<Rule>> {
    let octets = fs::read(path)?;
    let mut rest = &octets[..];
    let mut found = Vec::new();
    while !rest.is_empty() {
        found.push(rule(&mut rest)?);
    }
    Ok(found)
}

fn is_as_told(answer: &Answer, rule: &Rule) -> bool {
    if let (Question::Point { .. } | Question::Picture { .. }, true) = (&rule.question, answer.written.is_some()) {
        return answer.code() == rule.told && answer.octets[8..] == rule.put;
    }
    if rule.told == TAKEN {
        answer.written.is_some()
    } else {
        answer.code() == rule.told
    }
}

/// Is the independent decoder's answer to each rule the one that is told?
pub fn hold(rules: &[Rule]) -> bool {
    let by_reference = answers_of!(reference);
    let mut wrong = 0;
    for (index, rule) in rules.iter().enumerate() {
        let answer = by_reference(&Case { kind: "rule", file: Rc::clone(&rule.file), question: rule.question.clone() });
        if !is_as_told(&answer, rule) {
            println!("rule {}: {:#018x} is told, and the independent decoder answers {:#018x}", index, rule.told, answer.code());
            wrong += 1;
        }
    }
    let asked = rules.len();
    println!("the independent decoder on either side of each rule, of points and of pictures: {} questions, {} answered otherwise than told", asked, wrong);
    wrong == 0 && !rules.is_empty()
}

/// Every question about the file of a rule, of its field k, with room and without.
fn questions(k: u64, file: &[u8]) -> Vec<Question> {
    let mut found = vec![Question::Check, described(k), decode(k)];
    found.extend(pointed(k, 1));
    found.extend([DESCRIPTION - 1, DESCRIPTION_LAMBERT - 1].map(|length| Question::Describe { k, length }));
    found.extend([Question::Place { k, n: 1, length: POSITION - 1 }, Question::Sheet { k, n: 1, length: SHEET_PLACE - 1 }]);
    found.extend([(0, 1), (2, 1), (3, 1), (4, 1), (1, 0), (4, 0)].map(|(n, length)| Question::Point { k, n, length }));
    found.extend(drawn(k, picture_lengths(file).get(k as usize).copied().unwrap_or(ROOM)));
    found
}

/// Every question about the file of each rule. Of a point or a picture that is told it alone is asked for, with room and without.
pub fn cases(rules: &[Rule], take: &mut dyn FnMut(Case) -> bool) {
    for rule in rules {
        let asked = match rule.question {
            Question::Point { k, n, .. } => (0..3).map(|length| Question::Point { k, n, length }).collect(),
            Question::Picture { k, length } => drawn(k, length).collect(),
            Question::Describe { k, .. } | Question::Decode { k, .. } => questions(k, &rule.file),
            _ => questions(0, &rule.file),
        };
        for question in asked {
            take(Case { kind: "either side of a rule", file: Rc::clone(&rule.file), question });
        }
    }
}
