//! The cases in their order, each with its number: first those that are the same in every run, then those that a seed gives.
use crate::cases::{at_random, systematic, Case, Question};
use crate::largest::largest;
use crate::rules::{self, Rule};

pub struct Corpus {
    /// The rules whose files come first; where there are none, the corpus is the seed's cases alone.
    pub rules: Option<Vec<Rule>>,
    pub seed: u64,
    /// How many cases come from the seed.
    pub most: u64,
}

impl Corpus {
    /// Hands each case with its number to `take`, until that answers false.
    pub fn go_through(&self, take: &mut dyn FnMut(u64, &Case) -> bool) {
        let mut number = 0;
        let mut wanted = true;
        let mut numbered = |case: Case| {
            wanted = wanted && take(number, &case);
            number += 1;
            wanted
        };
        if let Some(rules) = &self.rules {
            rules::cases(rules, &mut numbered);
            systematic(&mut numbered);
            largest(&mut numbered);
        }
        let mut left = self.most;
        at_random(self.seed, &mut |case| {
            let is_wanted = left > 0 && numbered(case);
            left = left.saturating_sub(1);
            is_wanted
        });
    }

    /// How a case is named to the script that repeats it.
    pub fn part(&self) -> &'static str {
        if self.rules.is_some() {
            "all"
        } else {
            "random"
        }
    }
}

/// A question in words.
pub fn shown(question: &Question) -> String {
    match question {
        Question::Check => "check".to_string(),
        Question::Describe { k, length } => format!("describe field {} in {} numbers", k, length),
        Question::Place { k, n, length } => format!("place of point {} in field {} in {} numbers", n, k, length),
        Question::Sheet { k, n, length } => format!("place of point {} in field {} on its sheet in {} numbers", n, k, length),
        Question::Point { k, n, length } => format!("value of point {} in field {} in {} doubles", n, k, length),
        Question::Picture { k, length } => format!("picture of field {} in {} octets", k, length),
        Question::Decode { k, start, values_length, presence_length } => {
            format!("decode field {} from {} on into {} doubles and {} marks", k, start, values_length, presence_length)
        }
    }
}
