//! Counts of the answers that each kind of call reached.

use crate::call::{answer_text, Call, Kind};
use crate::pool::MOST_WORDS;
use std::collections::{BTreeMap, BTreeSet};

/// How often each kind of call got each answer.
#[derive(Default)]
pub struct Answers(BTreeMap<(Kind, u32), u64>);

/// The answers, and how often some things happened that no answer tells.
#[derive(Default)]
pub struct Tally {
    answers: Answers,
    happenings: BTreeMap<&'static str, u64>,
    field_counts: BTreeSet<usize>,
    result_counts: BTreeSet<usize>,
}

/// Whether the rules make an answer of this kind of call possible.
fn possible(kind: Kind, code: u32) -> bool {
    match kind {
        Kind::Open => matches!(code, 0 | 101 | 109),
        Kind::Put => matches!(code, 0 | 101..=105 | 113 | 114 | 107 | 108),
        Kind::Find(_) => matches!(code, 0..=8 | 101..=105 | 113 | 114 | 107 | 106),
    }
}

/// All answers, refusals in the order of their table.
fn codes() -> impl Iterator<Item = u32> {
    let refusals = [101, 102, 103, 104, 105, 113, 114, 107, 106, 108, 109];
    (0..=8).chain(refusals)
}

/// The answers that the rules make possible of this kind of call.
pub fn answers_of(kind: Kind) -> impl Iterator<Item = (Kind, u32)> {
    let codes = codes().filter(move |code| possible(kind, *code));
    codes.map(move |code| (kind, code))
}

impl Answers {
    pub fn add(&mut self, kind: Kind, code: u32) {
        *self.0.entry((kind, code)).or_default() += 1;
    }

    /// As if one had not come.
    #[cfg(test)]
    pub fn take_one(&mut self, kind: Kind, code: u32) {
        *self.0.entry((kind, code)).or_default() -= 1;
    }

    pub fn of(&self, kind: Kind, code: u32) -> u64 {
        *self.0.get(&(kind, code)).unwrap_or(&0)
    }

    pub fn sum(&self, such: impl Fn(Kind, u32) -> bool) -> u64 {
        let answers = self.0.iter().filter(|((kind, code), _)| such(*kind, *code));
        answers.map(|(_, count)| count).sum()
    }

    pub fn calls(&self) -> u64 {
        self.sum(|_, _| true)
    }

    /// Those of the wanted that never came.
    pub fn never(&self, wanted: impl Iterator<Item = (Kind, u32)>) -> Vec<String> {
        wanted
            .filter(|(kind, code)| self.of(*kind, *code) == 0)
            .map(|(kind, code)| format!("{}: {}", kind.word(), answer_text(kind, code)))
            .collect()
    }
}

impl Tally {
    pub fn count(&mut self, call: &Call, code: u32) {
        let kind = call.kind();
        self.answers.add(kind, code);
        if kind != Kind::Open {
            self.field_counts.insert(call.input().len());
        }
        if matches!(kind, Kind::Find(_)) {
            self.result_counts.insert(call.result_len());
        }
    }

    pub fn happened(&mut self, what: &'static str) {
        *self.happenings.entry(what).or_default() += 1;
    }

    pub fn calls(&self) -> u64 {
        self.answers.calls()
    }

    /// How many calls of this kind were made.
    pub fn calls_of(&self, kind: Kind) -> u64 {
        self.answers.sum(|made, _| made == kind)
    }

    /// The table of counts, a `-` where the rules allow no such answer.
    pub fn table(&self) -> String {
        let mut text = format!("  {:<12}", "answer");
        for kind in Kind::ALL {
            text.push_str(&format!("{:>10}", kind.word()));
        }
        text.push('\n');
        for code in codes() {
            let name = match code {
                0 => "done or none".to_string(),
                _ => answer_text(Kind::LOOK, code),
            };
            text.push_str(&format!("  {name:<12}"));
            for kind in Kind::ALL {
                let cell = match possible(kind, code) {
                    true => self.answers.of(kind, code).to_string(),
                    false => "-".to_string(),
                };
                text.push_str(&format!("{cell:>10}"));
            }
            text.push('\n');
        }
        for (what, count) in &self.happenings {
            text.push_str(&format!("  {what}: {count}\n"));
        }
        text
    }

    /// Fails on a possible answer never reached, an impossible one reached, and anything of
    /// `expected` that never happened.
    pub fn check(&self, expected: &[&'static str]) -> Result<String, String> {
        let wanted = Kind::ALL.into_iter().flat_map(answers_of);
        let mut missing = self.answers.never(wanted);
        missing.extend(
            expected
                .iter()
                .filter(|what| !self.happenings.contains_key(*what))
                .map(|what| what.to_string()),
        );
        for count in 0..=MOST_WORDS {
            if !self.field_counts.contains(&count) {
                missing.push(format!("{count} fields"));
            }
            if !self.result_counts.contains(&count) {
                missing.push(format!("{count} result words"));
            }
        }
        if !missing.is_empty() {
            return Err(format!("never reached: {}", missing.join(", ")));
        }
        for (kind, code) in self.answers.0.keys() {
            if !possible(*kind, *code) {
                let answer = answer_text(*kind, *code);
                return Err(format!("{} answered {answer}", kind.word()));
            }
        }
        Ok(format!(
            "{} calls, every answer, 0 to {MOST_WORDS} fields and result words reached",
            self.calls()
        ))
    }
}
