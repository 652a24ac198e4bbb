//! The harness itself is tested: each wrong variant of the reference must be caught.

use crate::differential::{differing_rounds, first_difference};
use crate::report::Report;
use crate::space::Space;
use reference::{Clause, Reference, Variant};

/// So many rounds of each part are made with each slip about the defaults.
const ROUNDS: u64 = 100;

/// Compares every wrong variant with the right reference.
pub fn check(report: &mut Report) {
    let wrong = Variant::BLUNDERS
        .into_iter()
        .chain(Variant::SLIPS)
        .chain(Variant::OPERATION_SLIPS)
        .chain(Variant::BOUND_SLIPS)
        .chain(Variant::SET_SLIPS)
        .chain(Variant::NAME_SLIPS)
        .chain(Variant::RESULT_SLIPS)
        .chain(Variant::DEFAULT_SLIPS)
        .chain(Variant::ROW_SLIPS)
        .chain(Variant::skipped_clauses());
    for variant in wrong {
        let in_damage = variant.is_about_soundness();
        let outcome = match first_difference(&mut Reference::with(variant), in_damage) {
            Some((calls, _)) => Ok(format!("after {calls} calls alike")),
            None => Err("not caught".to_string()),
        };
        report.check(&format!("differential catches {variant:?}"), outcome);
    }
}

/// In how many rounds each slip about the defaults shows; one at least.
pub fn check_defaults(report: &mut Report) {
    let no_key_0 = Variant::Skips(Clause::DefaultKey);
    for variant in Variant::DEFAULT_SLIPS.into_iter().chain([no_key_0]) {
        let shown = differing_rounds(variant, ROUNDS);
        let all: u64 = shown.iter().map(|(_, rounds)| rounds).sum();
        let texts: Vec<String> = shown
            .iter()
            .map(|(part, rounds)| format!("{part} {rounds}"))
            .collect();
        let text = format!("of {ROUNDS} rounds each: {}", texts.join(", "));
        let outcome = match all {
            0 => Err(text),
            _ => Ok(text),
        };
        report.check(&format!("differential shows {variant:?}"), outcome);
    }
}

/// Each of these must be caught by a comparison, which says how.
pub fn check_shown<T>(
    report: &mut Report,
    shows: &str,
    wrong: &[Variant],
    compare: impl Fn(&mut dyn Space) -> Result<T, String>,
) {
    for variant in wrong {
        let outcome = match compare(&mut Reference::with(*variant)) {
            Err(how) => Ok(how),
            Ok(_) => Err("not caught".to_string()),
        };
        report.check(&format!("{shows} {variant:?}"), outcome);
    }
}

/// How something was caught: by a difference, with so many rounds before it.
pub fn by_difference((alike, _): (u64, String)) -> String {
    format!("after {alike} alike")
}

/// How many files or lists were alike before a difference, wherever one was looked for.
pub fn caught(found: &[(&str, Option<usize>)]) -> Result<String, String> {
    let texts: Result<Vec<String>, String> = found
        .iter()
        .map(|(what, alike)| match alike {
            Some(number) => Ok(format!("{what} after {number} alike")),
            None => Err(format!("{what} not caught")),
        })
        .collect();
    texts.map(|texts| texts.join(", "))
}
