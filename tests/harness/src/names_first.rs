//! The names that a look, a receive or a take uses come before its result words: held against the
//! table in which 6 stood before 13, 14 and 7.

use crate::call::{Call, Kind, FOR_NAMES};
use crate::earlier::{self, Comparison};
use crate::missing::{due, lacked};
use crate::pool::Mix;
use crate::report::Report;
use crate::sets::in_range;
use crate::space::Space;
use crate::tally::{answers_of, Answers};
use reference::names::{MOST_FIELDS, PARTIES};
use reference::table::broken_clause;
use reference::{Field, Variant};

/// Calls of each kind that were refused by 6 and now are by 13, by 14 and by 7, and such as still
/// are by 6.
const FEWEST: u64 = 500;

/// The refusal for a name of a call that 6 was due to: it passes tests 1 to 5, lends fewer result
/// words than it has fields, and lacks a name.
fn in_place_of_6(call: &Call, space: &[u64]) -> Option<u32> {
    let Call::Find(_, query) = call else {
        return None;
    };
    let count = query.fields.len();
    let passes_2_to_5 = (query.party as usize) < PARTIES
        && (1..=MOST_FIELDS).contains(&count)
        && in_range(&query.pair)
        && query
            .fields
            .iter()
            .all(|word| Field::from_word(*word).is_some());
    if !passes_2_to_5 || query.result_len >= count || broken_clause(space).is_some() {
        return None;
    }
    let lacked = lacked(call, space);
    (lacked > 0).then(|| due(lacked))
}

/// How often each answer came: in the place of 6, and as before.
#[derive(Default)]
struct Counts {
    changed: Answers,
    kept: Answers,
}

impl Comparison for Counts {
    const NAME: &'static str = "names first";
    const RULES: Variant = Variant::TestsResultBeforeNames;
    const SEED: u64 = 4_601;
    const SPACES: u64 = 40_000;
    const MIXES: [Mix; 3] = [
        Mix::of(16, 28, 28, 20),
        Mix::of(16, 28, 28, 90),
        Mix::of(16, 28, 28, 90),
    ];

    /// What is due in the place of 6.
    type Seen = Option<u32>;

    fn see(call: &Call, space: &[u64]) -> Option<u32> {
        in_place_of_6(call, space)
    }

    fn is_due(in_place: &Option<u32>, now: u32, then: u32) -> bool {
        match in_place {
            Some(due) => (now, then) == (*due, 106),
            None => now == then,
        }
    }

    fn add(&mut self, call: &Call, in_place: Option<u32>, code: u32) {
        let answers = match in_place {
            Some(_) => &mut self.changed,
            None => &mut self.kept,
        };
        answers.add(call.kind(), code);
    }

    /// Every answer that the rules make possible must also have come as before.
    fn finish(&self) -> Result<String, String> {
        let mut fewest = u64::MAX;
        let of_kinds = Kind::FINDS.map(|kind| {
            let [by_13, by_14, by_7] = FOR_NAMES.map(|code| self.changed.of(kind, code));
            let by_6 = self.kept.of(kind, 106);
            fewest = fewest.min(by_13).min(by_14).min(by_7).min(by_6);
            let word = kind.word();
            format!("{word} now by 13 {by_13}, by 14 {by_14}, by 7 {by_7}, still by 6 {by_6}")
        });
        let (kept, changed) = (self.kept.calls(), self.changed.calls());
        let of_kinds = of_kinds.join("; ");
        let text = format!("{kept} calls alike, {changed} were refused by 6: {of_kinds}");
        let wanted = Kind::ALL.into_iter().flat_map(answers_of);
        let missing = self.kept.never(wanted);
        match missing.is_empty() && fewest >= FEWEST {
            true => Ok(text),
            false => Err(format!("too seldom: {text}, never: {}", missing.join(", "))),
        }
    }
}

/// Holds a system's calls against the table with 6 before the names.
pub fn check(report: &mut Report, who: &str, system: &mut dyn Space) {
    earlier::check::<Counts>(report, who, system, "6 before 13, 14 and 7");
}

/// Whatever has another order must be caught, the one that was among them, and whatever refuses
/// other calls.
pub fn check_variants(report: &mut Report) {
    let wrong = [
        Variant::TestsResultLate,
        Variant::OneRefusalForNames,
        Variant::AllNamesBy13,
        Variant::NamesOfLookBy7,
        Variant::KeysBeforePartitions,
        Variant::CarriedBeforeKeys,
        Variant::CarriedFirst,
        Variant::LookNeedsNoNames,
        Variant::OneHeldIsEnough,
        Variant::GivesReadSet,
    ];
    let wrong = [&Variant::RESULT_SLIPS[..], &wrong].concat();
    earlier::check_variants::<Counts>(report, &wrong);
}

#[cfg(test)]
mod tests {
    use super::*;
    use crate::call::Query;
    use reference::{Operation, Pair, Reference};

    /// By a party that holds partition 5 and key 0: {5} is 32, {0, 5} is 33.
    #[test]
    fn where_6_was_due() {
        let mut space = vec![0; reference::table::WORDS];
        let mut roster = [0; 16];
        roster[0] = 32;
        Reference::correct().open(&mut space, &roster);
        let of = |space: &[u64], party, set, key, field: u64, result_len| {
            let query = Query {
                party,
                pair: Pair { set, key },
                fields: vec![1, field],
                result_len,
            };
            in_place_of_6(&Call::Find(Operation::Look, query), space)
        };
        let carried = Field::Key(1).word();
        for (set, key, field, due) in [
            (32, 0, 1, None),
            (33, 0, 1, Some(113)),
            (32, 1, 1, Some(114)),
            (32, 0, carried, Some(107)),
            (33, 1, carried, Some(113)),
            (32, 1, carried, Some(114)),
            // Refused before.
            (0, 1, carried, None),
            (33, 32, carried, None),
            (33, 1, 6 << 32, None),
        ] {
            assert_eq!(of(&space, 0, set, key, field, 0), due);
            assert_eq!(of(&space, 0, set, key, field, 1), due);
            assert_eq!(of(&space, 0, set, key, field, 2), None);
            assert_eq!(of(&space, 8, set, key, field, 1), None);
            assert_eq!(of(&space[1..], 0, set, key, field, 1), None);
        }
    }

    /// Just enough of everything.
    fn enough() -> Counts {
        let mut counts = Counts::default();
        for _ in 0..FEWEST {
            for kind in Kind::FINDS {
                for code in FOR_NAMES {
                    counts.changed.add(kind, code);
                }
            }
            let all = Kind::ALL.into_iter().flat_map(answers_of);
            all.for_each(|(kind, code)| counts.kept.add(kind, code));
        }
        counts
    }

    #[test]
    fn every_count_counts() {
        assert!(enough().finish().is_ok());
        for kind in Kind::FINDS {
            for code in FOR_NAMES {
                let mut counts = enough();
                counts.changed.take_one(kind, code);
                assert!(counts.finish().is_err(), "{kind:?} {code}");
            }
            let mut counts = enough();
            counts.kept.take_one(kind, 106);
            assert!(counts.finish().is_err(), "{kind:?}");
        }
    }

    #[test]
    fn what_is_due() {
        for (in_place, now, then, due) in [
            (Some(113), 113, 106, true),
            (Some(113), 106, 106, false),
            (Some(113), 114, 106, false),
            (Some(113), 113, 113, false),
            (None, 106, 106, true),
            (None, 113, 106, false),
            (None, 0, 0, true),
        ] {
            assert_eq!(Counts::is_due(&in_place, now, then), due);
        }
    }
}
