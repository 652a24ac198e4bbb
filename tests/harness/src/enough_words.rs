//! Refusal 6 is about the result words and nothing else. A look, a receive or a take that is refused
//! by 6 isn't refused, on the same space, with as many words as fields or more; and one that isn't
//! refused is refused by 6 with any smaller number.

use crate::both::Desk;
use crate::call::{answer_text, is_refusal, Call, Kind, Query};
use crate::looks::some_space;
use crate::pool::{Maker, Mix, Pool, ALL_PARTIES, MOST_WORDS};
use crate::report::Report;
use crate::rng::Rng;
use crate::space::Space;
use crate::tally::Answers;
use crate::variants::{by_difference, check_shown};
use reference::{Operation, Variant};

const SEED: u64 = 4_602;
const SPACES: u64 = 10_000;
const CALLS_ON_EACH: usize = 6;
const MIX: Mix = Mix::of(0, 33, 33, 30);
/// Calls of each kind that find something, and such as find nothing.
const FEWEST: u64 = 1_000;

/// What calls answered with enough words that had been refused by 6, and what those answered that
/// were refused by 6 with fewer.
#[derive(Default)]
struct Counts {
    enlarged: Answers,
    shortened: Answers,
}

impl Counts {
    fn finish(&self) -> Result<String, String> {
        let mut fewest = u64::MAX;
        let mut of_kinds = |answers: &Answers| {
            let texts = Kind::FINDS.map(|kind| {
                let found = answers.sum(|of, code| of == kind && code > 0);
                let none = answers.of(kind, 0);
                fewest = fewest.min(found).min(none);
                format!("{} found {found}, none {none}", kind.word())
            });
            texts.join(", ")
        };
        let (enlarged, shortened) = (of_kinds(&self.enlarged), of_kinds(&self.shortened));
        let text = format!("6, then with enough words: {enlarged}; with fewer by 6: {shortened}");
        match fewest < FEWEST {
            true => Err(format!("too seldom: {text}")),
            false => Ok(text),
        }
    }
}

/// Asks a system the same with any number of result words, each time on a copy of the space.
struct Asker<'a> {
    system: &'a mut dyn Space,
    desk: Desk,
}

impl Asker<'_> {
    fn ask(&mut self, space: &[u64], call: &Call, rng: &mut Rng) -> u32 {
        let result: Vec<u64> = (0..call.result_len()).map(|_| rng.word()).collect();
        self.desk.space.set(space);
        self.desk.lay_out(call, &result);
        self.desk.make(call, self.system)
    }

    /// Asks with so many words, and then with more or with fewer.
    fn compare(
        &mut self,
        space: &[u64],
        (operation, query): (Operation, Query),
        rng: &mut Rng,
        counts: &mut Counts,
    ) -> Result<(), String> {
        let kind = Kind::Find(operation);
        let needed = query.fields.len();
        let with = |words| {
            let mut query = query.clone();
            query.result_len = words;
            Call::Find(operation, query)
        };
        let first = self.ask(space, &with(query.result_len), rng);
        let others = match first {
            106 => vec![needed, rng.between(needed, MOST_WORDS)],
            _ if is_refusal(first) => return Ok(()),
            _ => (0..needed).collect(),
        };
        for words in others {
            let again = self.ask(space, &with(words), rng);
            let (answers, due) = match first {
                106 => (&mut counts.enlarged, !is_refusal(again)),
                _ => (&mut counts.shortened, again == 106),
            };
            if !due {
                let [first, again] = [first, again].map(|code| answer_text(kind, code));
                let text = format!("{first}, and with {words} words {again}");
                return Err(format!("{:?}\n    {text}", with(query.result_len)));
            }
            // Of the two the one that is no refusal.
            answers.add(kind, first.min(again));
        }
        Ok(())
    }

    /// Some calls on any space, half of them with no more words than fields.
    fn round(&mut self, rng: &mut Rng, counts: &mut Counts) -> Result<(), String> {
        let pool = Pool::random(rng, 4, 2);
        let (sound, space) = some_space(rng, &pool);
        let maker = Maker {
            pool: &pool,
            parties: &ALL_PARTIES,
            mix: MIX,
        };
        for _ in 0..CALLS_ON_EACH {
            let Call::Find(operation, mut query) = maker.call(rng, &sound) else {
                unreachable!("no puts are made");
            };
            if rng.percent(50) {
                query.result_len = rng.between(0, query.fields.len());
            }
            self.compare(&space, (operation, query), rng, counts)?;
        }
        Ok(())
    }
}

/// Gives the counts, or what isn't so and after how many spaces.
fn compare_calls(system: &mut dyn Space) -> Result<Counts, (u64, String)> {
    let desk = Desk::new();
    let mut asker = Asker { system, desk };
    let mut counts = Counts::default();
    for number in 0..SPACES {
        asker
            .round(&mut Rng::new(SEED, number), &mut counts)
            .map_err(|text| (number, format!("seed {SEED}, space {number}, {text}")))?;
    }
    Ok(counts)
}

/// Asks a system again with more words, or with fewer.
pub fn check(report: &mut Report, who: &str, system: &mut dyn Space) {
    let counts = compare_calls(system).map_err(|(_, text)| text);
    let outcome = counts.and_then(|counts| counts.finish());
    report.check(
        &format!("enough words, {who}: the same calls with more and with fewer"),
        outcome.map(|text| format!("seed {SEED}, {SPACES} spaces: {text}")),
    );
}

/// The harness itself is tested: whatever refuses by 6 too soon must be caught, and too late.
pub fn check_variants(report: &mut Report) {
    let wrong = [&Variant::RESULT_SLIPS[..], &[Variant::TestsResultLate]].concat();
    check_shown(report, "enough words show", &wrong, |system| {
        compare_calls(system).map_err(by_difference)
    });
}

#[cfg(test)]
mod tests {
    use super::*;

    /// Just enough of everything.
    fn enough() -> Counts {
        let mut counts = Counts::default();
        for kind in Kind::FINDS {
            for code in [0, 8] {
                for _ in 0..FEWEST {
                    counts.enlarged.add(kind, code);
                    counts.shortened.add(kind, code);
                }
            }
        }
        counts
    }

    #[test]
    fn every_count_counts() {
        assert!(enough().finish().is_ok());
        for kind in Kind::FINDS {
            for code in [0, 8] {
                let mut counts = enough();
                counts.enlarged.take_one(kind, code);
                assert!(counts.finish().is_err(), "{kind:?} {code}");
                let mut counts = enough();
                counts.shortened.take_one(kind, code);
                assert!(counts.finish().is_err(), "{kind:?} {code}");
            }
        }
    }
}
