//! A roster that lists partition 0 for all eight: every call then answers what it did while the
//! opening gave that partition to everybody, and leaves the same words.

use crate::both::{same, Both};
use crate::call::{Call, Kind};
use crate::pool::{broken_roster, Maker, Mix, Pool, ALL_PARTIES};
use crate::report::Report;
use crate::rng::Rng;
use crate::space::Space;
use crate::tally::{answers_of, Answers};
use crate::variants::{by_difference, check_shown};
use reference::names::{partition_bit, PARTIES};
use reference::table::WORDS;
use reference::{Reference, Variant};

const SEED: u64 = 4_501;
const CONTROL_SEED: u64 = 4_502;
const RUNS: u64 = 1_500;
const CONTROL_RUNS: u64 = 300;
const MIXES: [Mix; 3] = [
    Mix::of(35, 15, 15, 10),
    Mix::of(84, 5, 5, 10),
    Mix::of(50, 10, 10, 10),
];

/// Every answer must have come but refusal 1: the space is a table, and stays sound.
fn finish(answers: &Answers) -> Result<String, String> {
    let wanted = Kind::ALL.into_iter().flat_map(answers_of);
    let missing = answers.never(wanted.filter(|(_, code)| *code != 101));
    let calls = answers.calls();
    match missing.is_empty() {
        true => Ok(format!("{calls} calls alike, every answer but refusal 1")),
        false => Err(format!("{calls} calls, never: {}", missing.join(", "))),
    }
}

/// The system, with partition 0 listed for so many parties, and the reference of the rules as they
/// were, with the roster as it is.
struct Runs<'a> {
    both: Both<'a>,
    listed: usize,
}

impl Runs<'_> {
    fn new(system: &mut dyn Space, listed: usize) -> Runs<'_> {
        Runs {
            both: Both::new(system, Reference::with(Variant::FreePartition0)),
            listed,
        }
    }

    /// The call as the system gets it: only the roster is another.
    fn with_0_listed(&self, call: &Call) -> Call {
        let mut call = call.clone();
        if let Call::Open { roster } = &mut call {
            let partitions = roster.iter_mut().take(PARTIES).take(self.listed);
            partitions.for_each(|word| *word |= partition_bit(0));
        }
        call
    }

    /// An opening and some calls, seldom with another opening among them.
    fn run(&mut self, rng: &mut Rng, answers: &mut Answers) -> Result<(), String> {
        let pool = Pool::random(rng, 4, 2);
        let maker = Maker {
            pool: &pool,
            parties: &ALL_PARTIES,
            mix: rng.pick(&MIXES),
        };
        let junk: Vec<u64> = (0..WORDS).map(|_| rng.word()).collect();
        self.both.set_space(&junk);
        let steps = rng.pick(&[30, 100, 180, 300]);
        for number in 0..=steps {
            let roster = pool.roster(rng, 70);
            let call = match rng.below(100) {
                _ if number == 0 => Call::Open { roster },
                0 => Call::Open { roster },
                1 => Call::Open {
                    roster: broken_roster(rng, roster),
                },
                _ => maker.call(rng, self.both.space()),
            };
            let listed = self.with_0_listed(&call);
            let code = self.both.call(&listed, &call, rng, same)?;
            answers.add(call.kind(), code);
        }
        Ok(())
    }
}

/// Gives the answers, or what differs first and after how many runs.
fn compare_runs(system: &mut dyn Space) -> Result<Answers, (u64, String)> {
    let mut runs = Runs::new(system, PARTIES);
    let mut answers = Answers::default();
    for number in 0..RUNS {
        runs.run(&mut Rng::new(SEED, number), &mut answers)
            .map_err(|text| (number, format!("seed {SEED}, run {number}, {text}")))?;
    }
    Ok(answers)
}

/// How many runs differ if partition 0 is listed for this many parties, fewer than all.
fn differing_runs(system: &mut dyn Space, listed: usize) -> Result<String, String> {
    let mut runs = Runs::new(system, listed);
    let differs = |number: &u64| {
        let mut rng = Rng::new(CONTROL_SEED, *number);
        runs.run(&mut rng, &mut Answers::default()).is_err()
    };
    let differing = (0..CONTROL_RUNS).filter(differs).count();
    let text = format!("seed {CONTROL_SEED}, {differing} of {CONTROL_RUNS} runs differ");
    match differing {
        0 => Err(text),
        _ => Ok(text),
    }
}

/// Holds a system's calls, with partition 0 listed for all, against the rules as they were; and
/// shows that it has to be listed for all.
pub fn check(report: &mut Report, who: &str, system: &mut dyn Space) {
    let answers = compare_runs(system).map_err(|(_, text)| text);
    let outcome = answers.and_then(|answers| finish(&answers));
    report.check(
        &format!("partition 0 listed for all, {who}: held against partition 0 for everybody"),
        outcome.map(|text| format!("seed {SEED}, {RUNS} runs: {text}")),
    );
    for listed in [0, PARTIES - 1] {
        let outcome = differing_runs(system, listed);
        let name = format!("partition 0 listed for all, {who}: control, for {listed} of {PARTIES}");
        report.check(&name, outcome);
    }
}

/// The harness itself is tested: whatever the listing doesn't make up for must be caught.
pub fn check_variants(report: &mut Report) {
    let wrong = [
        Variant::OpensWithoutPartition0,
        Variant::OpensWithoutKey0,
        Variant::DefaultPartitionMatchesAll,
        Variant::GivesNamesOfTemplate,
        Variant::OneHeldIsEnough,
    ];
    let shows = "partition 0 listed for all shows";
    check_shown(report, shows, &wrong, |system| {
        compare_runs(system).map_err(by_difference)
    });
}
