//! Rule M7: with sets of one partition all is as if pairs named partitions, compared for equality.
//! The same runs, by sets with a system and by numbers with the reference of those rules.

use crate::both::{difference_text, same, Both};
use crate::call::{is_refusal, Call, Kind};
use crate::partition_0;
use crate::pool::{Maker, Mix, Pool, ALL_PARTIES};
use crate::report::Report;
use crate::rng::Rng;
use crate::space::Space;
use crate::tally::{answers_of, Answers};
use crate::variants::{by_difference, check_shown};
use reference::names::{partition_bit, partitions_of, LAST_PARTITION};
use reference::table::{row_start, LIVE, READ_SET, TAKE_SET, WORDS};
use reference::{Pair, Reference, Variant};
use std::collections::BTreeSet;

const SEED: u64 = 4_301;
const RUNS: u64 = 1_000;
const MIXES: [Mix; 3] = [
    Mix::of(35, 15, 15, 8),
    Mix::of(84, 5, 5, 8),
    Mix::of(50, 10, 10, 8),
];

/// The same call by sets of one partition, and by the numbers of those partitions.
struct Named {
    by_sets: Call,
    by_numbers: Call,
}

impl Named {
    /// Of a call with any sets; where one is empty, there is any partition.
    fn of(rng: &mut Rng, mut call: Call) -> Named {
        let mut by_numbers = call.clone();
        let sets = pairs_of(&mut call).into_iter();
        for (pair, number) in sets.zip(pairs_of(&mut by_numbers)) {
            let any = rng.below(LAST_PARTITION as usize + 1) as u32;
            let partitions: Vec<u32> = partitions_of(pair.set).collect();
            let partition = match partitions.is_empty() {
                true => any,
                false => rng.pick(&partitions),
            };
            pair.set = partition_bit(partition);
            number.set = partition.into();
        }
        Named {
            by_sets: call,
            by_numbers,
        }
    }
}

fn pairs_of(call: &mut Call) -> Vec<&mut Pair> {
    match call {
        Call::Open { .. } => Vec::new(),
        Call::Put { read, take, .. } => vec![read, take],
        Call::Find(_, query) => vec![&mut query.pair],
    }
}

/// How often which answer came, and which partitions were named without a refusal.
#[derive(Default)]
struct Counts {
    answers: Answers,
    partitions: BTreeSet<u64>,
    of_0: partition_0::Counts,
}

impl Counts {
    fn add(&mut self, named: &mut Named, code: u32, held: u64) {
        let kind = named.by_sets.kind();
        self.of_0.add(&named.by_sets, code, held);
        self.answers.add(kind, code);
        if !is_refusal(code) {
            let pairs = pairs_of(&mut named.by_numbers).into_iter();
            self.partitions.extend(pairs.map(|pair| pair.set));
        }
    }

    /// No refusal by 1 can come, since the space stays sound.
    fn finish(&self) -> Result<String, String> {
        let wanted = Kind::ALL[1..].iter().copied().flat_map(answers_of);
        let missing = self.answers.never(wanted.filter(|(_, code)| *code != 101));
        let partitions = self.partitions.len();
        if !missing.is_empty() || partitions <= LAST_PARTITION as usize {
            let missing = missing.join(", ");
            return Err(format!("{partitions} partitions named, never: {missing}"));
        }
        let all = |such: fn(u32) -> bool| {
            let answers = &self.answers;
            answers.sum(|kind, code| kind != Kind::Put && such(code))
        };
        Ok(format!(
            "{} calls alike, {} found, {} none, each of {partitions} partitions named, {}",
            self.answers.calls(),
            all(|code| (1..=8).contains(&code)),
            all(|code| code == 0),
            self.of_0.finish()?
        ))
    }
}

/// A space by numbers as it is by sets: partitions stand otherwise in live rows.
fn by_sets(by_numbers: &[u64]) -> Vec<u64> {
    let mut space = by_numbers.to_vec();
    for row in 0..space[LIVE] as usize {
        for place in [READ_SET, TAKE_SET].map(|place| row_start(row) + place) {
            space[place] = partition_bit(space[place] as u32);
        }
    }
    space
}

/// Makes the call of both. Gives the answer, or what differs.
fn call(both: &mut Both, named: &Named, rng: &mut Rng) -> Result<u32, String> {
    let answers = both.make(&named.by_sets, &named.by_numbers, rng);
    let due = by_sets(both.space());
    let mut differences = both.systems.differences_from(&due, "space");
    let result = &both.references.result;
    differences.extend(both.systems.result.differences(result, "result"));
    match same(answers) && differences.is_empty() {
        true => Ok(answers[0]),
        false => Err(difference_text(&named.by_sets, answers, &differences)),
    }
}

fn run(both: &mut Both, rng: &mut Rng, counts: &mut Counts) -> Result<(), String> {
    let pool = Pool::random(rng, 4, 2);
    let maker = Maker {
        pool: &pool,
        parties: &ALL_PARTIES,
        mix: rng.pick(&MIXES),
    };
    both.set_space(&[0; WORDS]);
    let roster = pool.roster(rng, 80);
    let opening = Named::of(rng, Call::Open { roster });
    call(both, &opening, rng)?;
    for _ in 0..rng.pick(&[30, 100, 180, 300]) {
        let space = both.systems.space.lent();
        let any = maker.call(rng, space);
        let mut named = Named::of(rng, any);
        let held = partition_0::held_by_party(&named.by_sets, space);
        let code = call(both, &named, rng)?;
        counts.add(&mut named, code, held);
    }
    Ok(())
}

/// Gives the counts, or what differs first and after how many runs.
fn compare_runs(system: &mut dyn Space) -> Result<Counts, (u64, String)> {
    let mut both = Both::new(system, Reference::with(Variant::SinglePartitions));
    let mut counts = Counts::default();
    for number in 0..RUNS {
        let mut rng = Rng::new(SEED, number);
        run(&mut both, &mut rng, &mut counts)
            .map_err(|text| (number, format!("seed {SEED}, run {number}, {text}")))?;
    }
    Ok(counts)
}

/// Holds a system's calls with sets of one partition against calls with partitions.
pub fn check(report: &mut Report, who: &str, system: &mut dyn Space) {
    let counts = compare_runs(system).map_err(|(_, text)| text);
    let outcome = counts.and_then(|counts| counts.finish());
    report.check(
        &format!("sets of one partition, {who}: held against partitions"),
        outcome.map(|text| format!("seed {SEED}, {RUNS} runs: {text}")),
    );
}

/// The harness itself is tested: whatever takes a set of one wrongly must be caught, and whatever
/// tells wrongly which name isn't held.
pub fn check_variants(report: &mut Report) {
    let wrong = [
        Variant::DefaultPartitionMatchesAll,
        Variant::WildcardsMatchPartition,
        Variant::BoundedMatchesAllPartitions,
        Variant::SharedBelow32,
        Variant::Partition63IsNotShared,
        Variant::TakeTestsReadSet,
        Variant::PutsReadSetTwice,
        Variant::HeldBelow32IsEnough,
        Variant::HeldByAnybodyIsEnough,
        Variant::GivesReadSet,
        Variant::RefusesPartition63,
        Variant::RefusesWordsAbove63,
        Variant::RefusesNoneBelow32,
        Variant::Partition63InRowIsUnsound,
        Variant::WordAbove63InRowIsUnsound,
        Variant::NoneBelow32InRowIsUnsound,
        Variant::OneRefusalForNames,
        Variant::KeysBeforePartitions,
        Variant::NamesPairByPair,
        Variant::OpensWithPartition0,
        Variant::OpensWithoutPartition0,
        Variant::WantsPartition0,
        Variant::Partition0IsHeldInPairs,
        Variant::Partition0IsHeldInFields,
    ];
    check_shown(report, "sets of one partition show", &wrong, |system| {
        compare_runs(system).map_err(by_difference)
    });
}
