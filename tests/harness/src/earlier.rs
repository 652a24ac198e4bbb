//! Any calls on any spaces, of a system and of the reference with the rules as they were.

use crate::both::Both;
use crate::call::Call;
use crate::looks::some_space;
use crate::pool::{broken_roster, Maker, Mix, Pool, ALL_PARTIES};
use crate::report::Report;
use crate::rng::Rng;
use crate::space::Space;
use crate::variants::{by_difference, check_shown};
use reference::{Reference, Variant};

const CALLS_ON_EACH: usize = 6;

/// A comparison with earlier rules, and what is counted in it.
pub trait Comparison: Default {
    const NAME: &'static str;
    const RULES: Variant;
    const SEED: u64;
    const SPACES: u64;
    const MIXES: [Mix; 3];

    /// What has to be known of a call before it is made.
    type Seen;
    fn see(call: &Call, space: &[u64]) -> Self::Seen;

    /// Whether a call may get this answer now that got the other one then.
    fn is_due(seen: &Self::Seen, now: u32, then: u32) -> bool;

    fn add(&mut self, call: &Call, seen: Self::Seen, code: u32);

    /// The counts, or what came up too seldom.
    fn finish(&self) -> Result<String, String>;
}

/// Some calls on any space: sound, damaged, or of another length.
fn round<C: Comparison>(both: &mut Both, rng: &mut Rng, counts: &mut C) -> Result<(), String> {
    let pool = Pool::random(rng, 4, 2);
    let (sound, space) = some_space(rng, &pool);
    let maker = Maker {
        pool: &pool,
        parties: &ALL_PARTIES,
        mix: rng.pick(&C::MIXES),
    };
    both.set_space(&space);
    for _ in 0..CALLS_ON_EACH {
        let call = match rng.below(100) {
            0..3 => an_opening(rng, &pool),
            _ => maker.call(rng, &sound),
        };
        let seen = C::see(&call, both.space());
        let code = both.call(&call, &call, rng, |[now, then]| C::is_due(&seen, now, then))?;
        counts.add(&call, seen, code);
    }
    Ok(())
}

fn an_opening(rng: &mut Rng, pool: &Pool) -> Call {
    let roster = pool.roster(rng, 80);
    let roster = match rng.percent(30) {
        true => broken_roster(rng, roster),
        false => roster,
    };
    Call::Open { roster }
}

/// Gives the counts, or what differs first and after how many spaces.
fn compare<C: Comparison>(system: &mut dyn Space) -> Result<C, (u64, String)> {
    let mut both = Both::new(system, Reference::with(C::RULES));
    let mut counts = C::default();
    for number in 0..C::SPACES {
        round(&mut both, &mut Rng::new(C::SEED, number), &mut counts)
            .map_err(|text| (number, format!("seed {}, space {number}, {text}", C::SEED)))?;
    }
    Ok(counts)
}

/// Holds a system's calls against the rules as they were.
pub fn check<C: Comparison>(report: &mut Report, who: &str, system: &mut dyn Space, against: &str) {
    let counts = compare::<C>(system).map_err(|(_, text)| text);
    let outcome = counts.and_then(|counts| counts.finish());
    report.check(
        &format!("{}, {who}: held against {against}", C::NAME),
        outcome.map(|text| format!("seed {}, {} spaces: {text}", C::SEED, C::SPACES)),
    );
}

/// The harness itself is tested: each of these must be caught, by a difference or by the counts.
pub fn check_variants<C: Comparison>(report: &mut Report, wrong: &[Variant]) {
    let shows = format!("{} shows", C::NAME);
    check_shown(report, &shows, wrong, |system| {
        compare::<C>(system).map_err(by_difference)?.finish()
    });
}
