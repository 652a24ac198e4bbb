//! Refusals 13, 14 and 7 against the one that they were: with 13 and 14 read as 7, a call answers
//! what it would if they were not told apart and all else were as it is, and leaves the same words.

use crate::call::{Call, Kind, FOR_NAMES};
use crate::earlier::{self, Comparison};
use crate::partition_0;
use crate::pool::Mix;
use crate::report::Report;
use crate::space::Space;
use crate::tally::{answers_of, Answers};
use reference::Variant;

/// How often each answer came.
#[derive(Default)]
struct Counts {
    answers: Answers,
    of_0: partition_0::Counts,
}

impl Comparison for Counts {
    const NAME: &'static str = "told apart";
    const RULES: Variant = Variant::OneRefusalForNames;
    const SEED: u64 = 4_401;
    const SPACES: u64 = 40_000;
    const MIXES: [Mix; 3] = [
        Mix::of(35, 20, 20, 0),
        Mix::of(35, 20, 20, 20),
        Mix::of(35, 20, 20, 60),
    ];

    /// The partitions that the party holds.
    type Seen = u64;

    fn see(call: &Call, space: &[u64]) -> u64 {
        partition_0::held_by_party(call, space)
    }

    fn is_due(_held: &u64, now: u32, then: u32) -> bool {
        match FOR_NAMES.contains(&now) {
            true => then == 107,
            false => then == now,
        }
    }

    fn add(&mut self, call: &Call, held: u64, code: u32) {
        self.answers.add(call.kind(), code);
        self.of_0.add(call, code, held);
    }

    /// Every answer that the rules make possible must have come.
    fn finish(&self) -> Result<String, String> {
        let wanted = Kind::ALL.into_iter().flat_map(answers_of);
        let missing = self.answers.never(wanted);
        if !missing.is_empty() {
            return Err(format!("never: {}", missing.join(", ")));
        }
        let calls = self.answers.calls();
        let told_apart = Kind::ALL[1..].iter().map(|kind| {
            let [by_13, by_14, by_7] = FOR_NAMES.map(|code| self.answers.of(*kind, code));
            let word = kind.word();
            format!("{word} by 13 {by_13}, by 14 {by_14}, by 7 {by_7}")
        });
        let told_apart: Vec<String> = told_apart.collect();
        Ok(format!(
            "{calls} calls alike; of 7 before: {}; {}",
            told_apart.join("; "),
            self.of_0.finish()?
        ))
    }
}

/// Holds a system's calls against the table with one refusal for all names.
pub fn check(report: &mut Report, who: &str, system: &mut dyn Space) {
    earlier::check::<Counts>(report, who, system, "one refusal for all names");
}

/// Whatever refuses other calls than before must be caught, and whatever doesn't tell names apart.
pub fn check_variants(report: &mut Report) {
    let wrong = [
        Variant::LookNeedsNoNames,
        Variant::OneHeldIsEnough,
        Variant::OneOfSeveralIsForgiven,
        Variant::ReadSetAloneHeld,
        Variant::TakeSetAloneHeld,
        Variant::ReadKeyAloneHeld,
        Variant::TakeKeyAloneHeld,
        Variant::AtMostNamesPartition,
        Variant::TestsLimitBeforeNames,
        Variant::GivesReadSet,
        Variant::OneRefusalForNames,
        Variant::AllNamesBy13,
        Variant::NamesOfPutBy7,
        Variant::NamesOfLookBy7,
    ];
    let wrong = [&wrong[..], &Variant::RESULT_SLIPS].concat();
    earlier::check_variants::<Counts>(report, &wrong);
}
