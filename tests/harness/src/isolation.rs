//! Isolation, run for real: two runs in which a watched group makes the same calls, while others
//! do as they like out of its grasp, must look the same to the group.

use crate::bounds;
use crate::call::{answer_text, found_fields, is_refusal, Call, Kind};
use crate::partition_0;
use crate::pool::{lacks_name_in, Maker, Mix, Pool, ALL_PARTIES};
use crate::report::Report;
use crate::rng::Rng;
use crate::sets::{is_of_several, named_pairs, share};
use crate::space::Space;
use reference::names::{has_partition, key_bit, partition_bit, partitions_of, PARTIES};
use reference::table::{live_rows, KEYS, PARTITIONS, READ_SET, WORDS, WRITER};
use reference::{co_key, Operation, Pair, Reference, Variant};
use std::cell::Cell;
use std::collections::BTreeMap;

const SEED: u64 = 5_001;
const CONTROL_SEED: u64 = 5_002;
const VARIANT_SEED: u64 = 5_003;
const PAIRS: u64 = 3_000;
const CONTROL_PAIRS: u64 = 800;

/// Whether the premise is kept, and if not, what breaks it.
#[derive(Clone, Copy, Debug, PartialEq, Eq)]
enum Premise {
    Kept,
    PutsInGrasp,
    TakesInGrasp,
    UnequalHoldings,
    /// A set is taken to be in the grasp only if all of it is among the group's names.
    GraspOfWholeSets,
    /// Only if its smallest partition is.
    GraspBySmallest,
    /// Partition 0 is left out of the grasp, though a member has it.
    GraspWithout0,
}

/// Names of a group, as words of holdings.
#[derive(Clone, Copy, Debug)]
struct Names {
    partitions: u64,
    keys: u64,
}

impl Names {
    /// Whether these contain a partition of the pair's set, and the co-key of its key.
    fn grasp(self, premise: Premise, pair: Pair) -> bool {
        let among = |partition: u32| has_partition(self.partitions, partition);
        let mut partitions = partitions_of(pair.set);
        let reached = match premise {
            Premise::GraspOfWholeSets => partitions.all(among),
            Premise::GraspBySmallest => partitions.next().is_some_and(among),
            Premise::GraspWithout0 => partitions.filter(|at| *at > 0).any(among),
            _ => partitions.any(among),
        };
        reached && self.have_co_key(pair.key)
    }

    fn have_co_key(self, key: i32) -> bool {
        self.keys & key_bit(co_key(key)) != 0
    }

    /// Whether the pair is in the grasp, by one of several partitions alone.
    fn grasp_by_one(self, pair: Pair) -> bool {
        let partitions = partitions_of(pair.set);
        let among = partitions.filter(|partition| has_partition(self.partitions, *partition));
        among.count() == 1 && is_of_several(pair.set) && self.have_co_key(pair.key)
    }

    /// Whether the pair's set has something of these and something else, and the pair is out of
    /// the grasp, by its key.
    fn spared_by_key(self, pair: Pair) -> bool {
        let in_part = share(pair.set, self.partitions) && share(pair.set, !self.partitions);
        in_part && !self.have_co_key(pair.key)
    }

    fn have_0(self) -> bool {
        has_partition(self.partitions, 0)
    }

    /// Whether the pair is out of the grasp, and would be in it if these had partition 0.
    fn spared_by_0(self, pair: Pair) -> bool {
        let with_0 = Names {
            partitions: self.partitions | partition_bit(0),
            ..self
        };
        with_0.grasp(Premise::Kept, pair) && !self.grasp(Premise::Kept, pair)
    }

    fn contain(self, partitions: u64, keys: u64) -> bool {
        partitions & !self.partitions == 0 && keys & !self.keys == 0
    }
}

/// The parties of the group and the others, with the names the group has at opening.
#[derive(Clone, Debug)]
struct Group {
    members: Vec<u32>,
    others: Vec<u32>,
    names: Names,
}

impl Group {
    /// Mostly one to four parties, sometimes none or all.
    fn choose(rng: &mut Rng) -> Group {
        let mut parties = ALL_PARTIES.to_vec();
        rng.shuffle(&mut parties);
        let usual = rng.between(1, 4);
        let any = rng.between(0, PARTIES);
        let mut others = parties.split_off(rng.pick(&[usual, usual, usual, any]));
        if others.is_empty() {
            // Only calls with a party above 7 are from elsewhere then.
            others.push(8);
        }
        Group {
            members: parties,
            others,
            names: Names {
                partitions: 0,
                keys: key_bit(0),
            },
        }
    }

    fn has(&self, party: Option<u32>) -> bool {
        party.is_some_and(|party| self.members.contains(&party))
    }

    /// Adds what the roster lists for members: with key 0, that is all that they hold once the
    /// space is opened.
    fn add_names(&mut self, roster: &[u64]) {
        for member in &self.members {
            self.names.partitions |= roster[*member as usize];
            self.names.keys |= roster[PARTIES + *member as usize];
        }
    }

    /// Whether an unrefused call from elsewhere is a put or a take in the group's grasp.
    fn grasps(&self, premise: Premise, call: &Call) -> bool {
        let mut pairs = premise_pairs(call).into_iter();
        pairs.any(|pair| self.names.grasp(premise, pair))
    }

    /// Whether a call from elsewhere that got this answer is as the premise asks.
    fn allows(&self, premise: Premise, call: &Call, code: u32) -> bool {
        let broken_on_purpose = match call.kind() {
            Kind::Put => premise == Premise::PutsInGrasp,
            Kind::TAKE => premise == Premise::TakesInGrasp,
            _ => false,
        };
        broken_on_purpose || is_refusal(code) || !self.grasps(premise, call)
    }

    /// Whether an unrefused call would be in the grasp only by one of several partitions of a set.
    fn grasps_by_one(&self, call: &Call, code: u32) -> bool {
        let reached = |pair: &Pair| self.names.grasp(Premise::Kept, *pair);
        let by_one = |pair: Pair| self.names.grasp_by_one(pair);
        let mut pairs = premise_pairs(call).into_iter().filter(reached).peekable();
        !is_refusal(code) && pairs.peek().is_some() && pairs.all(by_one)
    }

    /// Whether a set of an unrefused call overlaps the group's names in part, and its key keeps it
    /// out of the grasp.
    fn spares_by_key(&self, call: &Call, code: u32) -> bool {
        let mut pairs = premise_pairs(call).into_iter();
        !is_refusal(code) && pairs.any(|pair| self.names.spared_by_key(pair))
    }

    /// The pairs of an unrefused call that would be in the grasp if the group had partition 0; none
    /// if one is in the grasp anyway.
    fn spared_by_0(&self, call: &Call, code: u32) -> Vec<Pair> {
        let pairs: Vec<Pair> = named_pairs(call)
            .into_iter()
            .map(|(_, pair)| pair)
            .collect();
        let reached = |pair: &Pair| self.names.grasp(Premise::Kept, *pair);
        if is_refusal(code) || pairs.iter().any(reached) {
            return Vec::new();
        }
        let spared = pairs
            .into_iter()
            .filter(|pair| self.names.spared_by_0(*pair));
        spared.collect()
    }
}

/// The pairs of a call from elsewhere that the premise is about.
fn premise_pairs(call: &Call) -> Vec<Pair> {
    match call {
        Call::Put { read, take, .. } => vec![*read, *take],
        Call::Find(Operation::Take, query) => vec![query.pair],
        Call::Find(..) | Call::Open { .. } => Vec::new(),
    }
}

/// One run: the opening's roster and the calls after it.
#[derive(Clone, Debug)]
struct Run {
    roster: Vec<u64>,
    calls: Vec<Call>,
}

/// Two runs with the same calls of the group.
struct Twins {
    group: Group,
    premise: Premise,
    runs: [Run; 2],
    /// Calls from elsewhere that were not made, since they were in the grasp by one partition.
    left_out_by_one: u64,
}

/// Builds runs call by call, looking at what the reference makes of them.
struct Builder<'a> {
    pool: &'a Pool,
    group: &'a Group,
    premise: Premise,
    mix: Mix,
    left_out_by_one: Cell<u64>,
}

impl Builder<'_> {
    fn maker<'a>(&'a self, parties: &'a [u32]) -> Maker<'a> {
        Maker {
            pool: self.pool,
            parties,
            mix: self.mix,
        }
    }

    /// A run in which calls from elsewhere stand around the group's calls, which `next` gives.
    fn run(
        &self,
        rng: &mut Rng,
        roster: Vec<u64>,
        mut next: impl FnMut(&mut Rng, &[u64]) -> Option<Call>,
    ) -> Run {
        let mut space = vec![0; WORDS];
        let opened = Reference::correct().open(&mut space, &roster);
        assert_eq!(opened.code(), 0, "the roster is good");
        let mut calls = Vec::new();
        let crowd = rng.pick(&[0, 2, 4, 8]);
        loop {
            for _ in 0..rng.between(0, crowd) {
                if let Some(call) = self.foreign_call(rng, &space) {
                    expect(&call, &mut space);
                    calls.push(call);
                }
            }
            let Some(call) = next(rng, &space) else {
                break;
            };
            expect(&call, &mut space);
            calls.push(call);
        }
        Run { roster, calls }
    }

    /// A call from elsewhere that the premise allows, if a few draws give one.
    fn foreign_call(&self, rng: &mut Rng, space: &[u64]) -> Option<Call> {
        for _ in 0..8 {
            let call = self.maker(&self.group.others).call(rng, space);
            let code = expect(&call, &mut space.to_vec());
            let foreign = !self.group.has(call.party());
            if foreign && self.group.allows(self.premise, &call, code) {
                return Some(call);
            }
            let by_one = foreign && self.group.grasps_by_one(&call, code);
            let left_out = self.left_out_by_one.get() + u64::from(by_one);
            self.left_out_by_one.set(left_out);
        }
        None
    }

    /// A call by a member.
    fn group_call(&self, rng: &mut Rng, space: &[u64]) -> Call {
        loop {
            let call = self.maker(&self.group.members).call(rng, space);
            if self.group.has(call.party()) {
                return call;
            }
        }
    }
}

/// Makes a call with result words that hold `junk` before; gives the answer and those words.
fn make(system: &mut dyn Space, call: &Call, space: &mut [u64], junk: u64) -> (u32, Vec<u64>) {
    let mut result = vec![junk; call.result_len()];
    let code = call.make(system, space, call.input(), &mut result);
    (code, result)
}

/// What the right reference answers.
fn expect(call: &Call, space: &mut [u64]) -> u32 {
    make(&mut Reference::correct(), call, space, 0).0
}

fn build_twins(rng: &mut Rng, premise: Premise) -> Twins {
    let pool = Pool::random(rng, 4, 3);
    let mut group = Group::choose(rng);
    let rosters = rosters(rng, &pool, &group, premise);
    group.add_names(&rosters[0]);
    let builder = Builder {
        pool: &pool,
        group: &group,
        premise,
        mix: Mix {
            puts: rng.pick(&[35, 50, 70]),
            looks: 10,
            receives: 10,
            broken: 4,
        },
        left_out_by_one: Cell::default(),
    };
    let [first_roster, second_roster] = rosters;
    let mut left = match group.members.is_empty() {
        true => 0,
        false => rng.between(0, 60),
    };
    let first = builder.run(rng, first_roster, |rng, space| {
        left = usize::checked_sub(left, 1)?;
        Some(builder.group_call(rng, space))
    });
    let mut groups = first.calls.iter().filter(|call| group.has(call.party()));
    let second = builder.run(rng, second_roster, |_, _| groups.next().cloned());
    Twins {
        premise,
        left_out_by_one: builder.left_out_by_one.get(),
        runs: [first, second],
        group,
    }
}

/// Two rosters with equal holdings of each member, and others as they come. In more than half of
/// them no member has partition 0, but for the control that is about it.
fn rosters(rng: &mut Rng, pool: &Pool, group: &Group, premise: Premise) -> [Vec<u64>; 2] {
    let mut first = pool.roster(rng, 75);
    let mut second = pool.roster(rng, 75);
    let without_0 = premise != Premise::GraspWithout0 && rng.percent(50);
    for member in &group.members {
        let member = *member as usize;
        let (mut partitions, keys) = pool.holdings(rng, 45);
        if without_0 {
            partitions &= !partition_bit(0);
        }
        if partitions == 0 && rng.percent(80) {
            // Who has no partition is refused everything.
            partitions = partition_bit(rng.pick(&pool.partitions[1..]));
        }
        for roster in [&mut first, &mut second] {
            (roster[member], roster[PARTIES + member]) = (partitions, keys);
        }
    }
    if premise == Premise::UnequalHoldings && !group.members.is_empty() {
        let member = rng.pick(&group.members) as usize;
        second[member] ^= partition_bit(rng.pick(&pool.partitions));
    }
    [first, second]
}

/// What the group sees, after the opening, after each of its calls and at the end.
#[derive(Clone, Debug, PartialEq, Eq)]
struct Sight {
    answer: u32,
    fields: Vec<u64>,
    entries: Vec<Vec<u64>>,
    holdings: Vec<(u64, u64)>,
}

/// What the group saw in a run, and the first name of a member that isn't the group's.
struct Watched {
    sights: Vec<Sight>,
    more_names: Option<String>,
}

/// What came of watching a pair of runs.
enum Outcome {
    Alike,
    Different(String),
    /// The group sees the same, but a member holds what isn't among the group's names.
    MoreNames(String),
    /// The system answered calls from elsewhere so that the premise isn't met.
    PremiseNotMet(String),
}

/// How often what happened.
#[derive(Default)]
struct Counts(BTreeMap<&'static str, u64>);

impl Counts {
    fn add(&mut self, what: &'static str) {
        *self.0.entry(what).or_default() += 1;
    }

    fn add_if(&mut self, what: &'static str, happened: bool) {
        if happened {
            self.add(what);
        }
    }

    fn of(&self, what: &'static str) -> u64 {
        *self.0.get(what).unwrap_or(&0)
    }
}

const ROWS_DIFFER: &str = "pairs with the group's entries in different rows at the end";
const SPARED_BY_KEY: &str =
    "runs with a set from elsewhere that overlaps the group's in part, spared by its key";
const LEFT_OUT_BY_ONE: &str =
    "calls from elsewhere left out, in the grasp by one of several partitions";
const WITHOUT_0: &str = "pairs in which no member has partition 0";
const WITH_0: &str = "pairs in which a member has partition 0";
const GROUP_LACKS_0: &str = "calls of the group refused by 13 for partition 0 alone";
const GAINED_0: &str = "receives from elsewhere that gained partition 0, which no member has";
/// Unrefused calls from elsewhere that are out of the grasp because the group lacks partition 0: of
/// which kind, whether in {0}, and for other than puts only those that found something.
const BY_0: [(Kind, bool, &str); 8] = [
    (Kind::Put, true, "by 0, which no member has: puts in {0}"),
    (
        Kind::LOOK,
        true,
        "by 0, which no member has: looks in {0} found",
    ),
    (
        Kind::RECEIVE,
        true,
        "by 0, which no member has: receives in {0} found",
    ),
    (
        Kind::TAKE,
        true,
        "by 0, which no member has: takes in {0} found",
    ),
    (
        Kind::Put,
        false,
        "by 0, which no member has: puts in 0 and others",
    ),
    (
        Kind::LOOK,
        false,
        "by 0, which no member has: looks in 0 and others found",
    ),
    (
        Kind::RECEIVE,
        false,
        "by 0, which no member has: receives in 0 and others found",
    ),
    (
        Kind::TAKE,
        false,
        "by 0, which no member has: takes in 0 and others found",
    ),
];
/// Looks and receives: whether they are the group's.
const FOUND_BY_ANOTHER: [(bool, &str); 2] = [
    (true, "looks and receives of the group found by another set"),
    (
        false,
        "looks and receives from elsewhere found by another set",
    ),
];
const REFUSED: [(bool, &str); 2] = [
    (true, "calls of the group refused"),
    (false, "calls from elsewhere refused"),
];

/// Calls that were refused for a name: whether they are the group's, and the answer.
const LACKING: [(bool, u32, &str); 6] = [
    (true, 113, "calls of the group refused by 13"),
    (true, 114, "calls of the group refused by 14"),
    (true, 107, "calls of the group refused by 7"),
    (false, 113, "calls from elsewhere refused by 13"),
    (false, 114, "calls from elsewhere refused by 14"),
    (false, 107, "calls from elsewhere refused by 7"),
];

/// Unrefused calls: whether they are the group's, of which kind, and whether they found something.
const OUTCOMES: [(bool, Kind, bool, &str); 14] = [
    (true, Kind::Put, false, "puts of the group done"),
    (true, Kind::LOOK, true, "looks of the group found"),
    (true, Kind::LOOK, false, "looks of the group none"),
    (true, Kind::RECEIVE, true, "receives of the group found"),
    (true, Kind::RECEIVE, false, "receives of the group none"),
    (true, Kind::TAKE, true, "takes of the group found"),
    (true, Kind::TAKE, false, "takes of the group none"),
    (false, Kind::Put, false, "puts from elsewhere done"),
    (false, Kind::LOOK, true, "looks from elsewhere found"),
    (false, Kind::LOOK, false, "looks from elsewhere none"),
    (false, Kind::RECEIVE, true, "receives from elsewhere found"),
    (false, Kind::RECEIVE, false, "receives from elsewhere none"),
    (false, Kind::TAKE, true, "takes from elsewhere found"),
    (false, Kind::TAKE, false, "takes from elsewhere none"),
];

/// Looks that would have gained a name if they had been receives: whether they are the group's.
const NAMES_LOOKED_AT: [(bool, &str); 2] = [
    (true, "looks of the group that found names they didn't gain"),
    (
        false,
        "looks from elsewhere that found names they didn't gain",
    ),
];

/// Nothing keeps others from looking at the group's entries and receiving what they carry.
const ENTRIES_OF_GROUP: [(Operation, &str); 2] = [
    (
        Operation::Look,
        "looks from elsewhere that found an entry of the group",
    ),
    (
        Operation::Receive,
        "receives from elsewhere that found an entry of the group",
    ),
];

/// Unrefused calls with a bound in the template: whether they are the group's and found something.
const BOUNDED: [(bool, bool, &str); 4] = [
    (true, true, "bounded calls of the group found"),
    (true, false, "bounded calls of the group none"),
    (false, true, "bounded calls from elsewhere found"),
    (false, false, "bounded calls from elsewhere none"),
];

impl Counts {
    /// Notes the answer to a call of the group, or to one from elsewhere.
    fn answered(&mut self, of_group: bool, call: &Call, code: u32) {
        let outcome = (!is_refusal(code)).then_some(code > 0);
        let bounded = bounds::is_bounded(call);
        for (groups, what) in REFUSED {
            self.add_if(what, groups == of_group && outcome.is_none());
        }
        for (groups, refusal, what) in LACKING {
            self.add_if(what, (groups, refusal) == (of_group, code));
        }
        for (groups, kind, found, what) in OUTCOMES {
            let such = (groups, kind, Some(found)) == (of_group, call.kind(), outcome);
            self.add_if(what, such);
        }
        for (groups, found, what) in BOUNDED {
            let such = (groups, Some(found)) == (of_group, outcome);
            self.add_if(what, bounded && such);
        }
    }

    fn unrefused_foreign(&self) -> u64 {
        OUTCOMES
            .iter()
            .filter(|(of_group, ..)| !of_group)
            .map(|(.., what)| self.of(what))
            .sum()
    }
}

impl Twins {
    fn watch(&self, system: &mut dyn Space, rng: &mut Rng, counts: &mut Counts) -> Outcome {
        let mut seen = Vec::new();
        let mut rows = Vec::new();
        let mut more_names = None;
        for number in 0..2 {
            let mut space = vec![0; WORDS];
            match self.watch_run(system, rng, number, &mut space, counts) {
                Ok(watched) => {
                    more_names = more_names.or(watched.more_names);
                    seen.push(watched.sights);
                }
                Err(outcome) => return outcome,
            }
            rows.push(self.group_rows(&space));
        }
        counts.add_if(ROWS_DIFFER, rows[0] != rows[1]);
        let members = !self.group.members.is_empty();
        counts.add_if(WITHOUT_0, members && !self.group.names.have_0());
        counts.add_if(WITH_0, self.group.names.have_0());
        *counts.0.entry(LEFT_OUT_BY_ONE).or_default() += self.left_out_by_one;
        match (first_difference(&seen[0], &seen[1]), more_names) {
            (Some(text), _) => Outcome::Different(text),
            (None, Some(text)) => Outcome::MoreNames(text),
            (None, None) => Outcome::Alike,
        }
    }

    fn watch_run(
        &self,
        system: &mut dyn Space,
        rng: &mut Rng,
        number: usize,
        space: &mut [u64],
        counts: &mut Counts,
    ) -> Result<Watched, Outcome> {
        let run = &self.runs[number];
        let opened = system.open(space, &run.roster);
        let mut sights = vec![self.sight(space, opened, &[])];
        let mut spared = false;
        let mut more_names = self.more_names(number, 0, space);
        for (index, call) in run.calls.iter().enumerate() {
            let held = partition_0::held_by_party(call, space);
            // What the result held before is free, so it is different in every run.
            let (code, result) = make(system, call, space, rng.word());
            more_names = more_names.or_else(|| self.more_names(number, index + 1, space));
            let of_group = self.group.has(call.party());
            let fields = found_fields(call.kind(), code, &result);
            counts.answered(of_group, call, code);
            self.note_found(counts, call, space, fields);
            if of_group {
                sights.push(self.sight(space, code, fields));
                let lacks_0 = code == 113 && partition_0::lacks_it_alone(call, held);
                counts.add_if(GROUP_LACKS_0, lacks_0);
            } else {
                self.check_premise(number, index + 1, call, code)?;
                spared |= self.group.spares_by_key(call, code);
                let gained = partition_0::held_by_party(call, space) & !held;
                self.note_by_0(counts, call, code, gained);
            }
        }
        counts.add_if(SPARED_BY_KEY, spared);
        sights.push(self.sight(space, 0, &[]));
        Ok(Watched { sights, more_names })
    }

    /// Notes what a call from elsewhere did by partition 0, and whether it gained it, while no
    /// member has it.
    fn note_by_0(&self, counts: &mut Counts, call: &Call, code: u32, gained: u64) {
        let pairs = self.group.spared_by_0(call, code);
        for (kind, alone, what) in BY_0 {
            let such = |pair: &Pair| (pair.set == partition_bit(0)) == alone;
            let done = kind == Kind::Put || code > 0;
            let of_kind = kind == call.kind() && done;
            counts.add_if(what, of_kind && pairs.iter().any(such));
        }
        let gained = has_partition(gained, 0) && call.kind() == Kind::RECEIVE;
        counts.add_if(GAINED_0, gained && !self.group.names.have_0());
    }

    /// Notes which names a look has found, and whose entry a look or a receive, and by which set.
    /// Neither changes a row, so that the space afterwards tells it.
    fn note_found(&self, counts: &mut Counts, call: &Call, space: &[u64], fields: &[u64]) {
        let Call::Find(operation, query) = call else {
            return;
        };
        if fields.is_empty() {
            return;
        }
        let of_group = self.group.has(call.party());
        let not_gained = lacks_name_in(space, query.party, fields);
        for (groups, what) in NAMES_LOOKED_AT {
            let such = (groups, Operation::Look) == (of_group, *operation);
            counts.add_if(what, such && not_gained);
        }
        let found = Reference::correct().matching_row(*operation, space, query.of(&query.fields));
        let groups_entry = found.is_some_and(|index| self.group_rows(space).contains(&index));
        for (kind, what) in ENTRIES_OF_GROUP {
            counts.add_if(what, !of_group && kind == *operation && groups_entry);
        }
        let mut rows = live_rows(space);
        let entrys = found
            .and_then(|index| rows.nth(index))
            .map(|row| row[READ_SET]);
        let other_set = entrys.is_some_and(|set| set != query.pair.set);
        for (groups, what) in FOUND_BY_ANOTHER {
            let such = groups == of_group && *operation != Operation::Take;
            counts.add_if(what, such && other_set);
        }
    }

    fn sight(&self, space: &[u64], answer: u32, fields: &[u64]) -> Sight {
        Sight {
            answer,
            fields: fields.to_vec(),
            entries: live_rows(space)
                .filter(|row| self.writes(row))
                .map(<[u64]>::to_vec)
                .collect(),
            holdings: self
                .group
                .members
                .iter()
                .map(|member| holdings(space, *member as usize))
                .collect(),
        }
    }

    fn writes(&self, row: &[u64]) -> bool {
        self.group.has(u32::try_from(row[WRITER]).ok())
    }

    fn group_rows(&self, space: &[u64]) -> Vec<usize> {
        live_rows(space)
            .enumerate()
            .filter(|(_, row)| self.writes(row))
            .map(|(index, _)| index)
            .collect()
    }

    /// What a member holds that isn't among the group's names; none may, at any point of the run.
    fn more_names(&self, number: usize, calls: usize, space: &[u64]) -> Option<String> {
        let mut members = self.group.members.iter();
        members.find_map(|member| {
            let (partitions, keys) = holdings(space, *member as usize);
            let more = !self.group.names.contain(partitions, keys);
            more.then(|| {
                format!(
                    "run {number}, after {calls} calls: member {member} holds {partitions:#x} and \
                     {keys:#x}, more than the group's {:x?}",
                    self.group.names
                )
            })
        })
    }

    fn check_premise(
        &self,
        number: usize,
        calls: usize,
        call: &Call,
        code: u32,
    ) -> Result<(), Outcome> {
        if self.group.allows(self.premise, call, code) {
            return Ok(());
        }
        Err(Outcome::PremiseNotMet(format!(
            "run {number}, call {calls} from elsewhere is in the grasp: {call:?} {}",
            answer_text(call.kind(), code)
        )))
    }
}

fn holdings(space: &[u64], party: usize) -> (u64, u64) {
    (space[PARTITIONS + party], space[KEYS + party])
}

fn first_difference(first: &[Sight], second: &[Sight]) -> Option<String> {
    let place =
        (0..first.len().max(second.len())).find(|place| first.get(*place) != second.get(*place))?;
    Some(format!(
        "the group's call {place} (0 is the opening, the last is the end):\n    {:?}\n    {:?}",
        first.get(place),
        second.get(place)
    ))
}

/// Compares pairs that meet the premise.
fn isolation(system: &mut dyn Space) -> Result<String, String> {
    let mut counts = Counts::default();
    for number in 0..PAIRS {
        let mut rng = Rng::new(SEED, number);
        let twins = build_twins(&mut rng, Premise::Kept);
        match twins.watch(system, &mut rng, &mut counts) {
            Outcome::Alike => {}
            Outcome::Different(text) | Outcome::MoreNames(text) | Outcome::PremiseNotMet(text) => {
                return Err(format!("seed {SEED}, pair {number}, {text}"));
            }
        }
    }
    for (what, count) in &counts.0 {
        println!("  {what}: {count}");
    }
    let expected = OUTCOMES
        .map(|(.., what)| what)
        .into_iter()
        .chain(BOUNDED.map(|(.., what)| what))
        .chain(REFUSED.map(|(_, what)| what))
        .chain(LACKING.map(|(.., what)| what))
        .chain(NAMES_LOOKED_AT.map(|(_, what)| what))
        .chain(ENTRIES_OF_GROUP.map(|(_, what)| what))
        .chain(FOUND_BY_ANOTHER.map(|(_, what)| what))
        .chain(BY_0.map(|(.., what)| what))
        .chain([ROWS_DIFFER, SPARED_BY_KEY, LEFT_OUT_BY_ONE])
        .chain([WITHOUT_0, WITH_0, GROUP_LACKS_0, GAINED_0]);
    for what in expected {
        if counts.of(what) == 0 {
            return Err(format!("seed {SEED}: never happened: {what}"));
        }
    }
    Ok(format!(
        "seed {SEED}, {PAIRS} pairs alike, {} unrefused calls from elsewhere",
        counts.unrefused_foreign()
    ))
}

/// How many pairs with this premise differ, of `CONTROL_PAIRS`.
fn differing_pairs(system: &mut dyn Space, seed: u64, premise: Premise) -> Result<String, String> {
    let mut counts = Counts::default();
    let (mut differing, mut more_names) = (0, 0);
    for number in 0..CONTROL_PAIRS {
        let mut rng = Rng::new(seed, number);
        let twins = build_twins(&mut rng, premise);
        match twins.watch(system, &mut rng, &mut counts) {
            Outcome::Different(_) => differing += 1,
            Outcome::MoreNames(_) => more_names += 1,
            Outcome::Alike | Outcome::PremiseNotMet(_) => {}
        }
    }
    let text = format!(
        "seed {seed}, {differing} of {CONTROL_PAIRS} pairs differ, {more_names} more by names held"
    );
    match differing {
        0 => Err(text),
        _ => Ok(text),
    }
}

/// Isolation of a system, and controls in which the premise is broken on purpose.
pub fn check(report: &mut Report, who: &str, system: &mut dyn Space) {
    report.check(&format!("isolation, {who}"), isolation(system));
    for premise in [
        Premise::PutsInGrasp,
        Premise::TakesInGrasp,
        Premise::UnequalHoldings,
        Premise::GraspOfWholeSets,
        Premise::GraspBySmallest,
        Premise::GraspWithout0,
    ] {
        let outcome = differing_pairs(system, CONTROL_SEED, premise);
        report.check(&format!("isolation, {who}: control {premise:?}"), outcome);
    }
}

/// Blunders that let the group see what it mustn't; the comparison has to show it.
pub fn check_variants(report: &mut Report) {
    for variant in [
        Variant::ComparesKeyNotCoKey,
        Variant::DefaultPartitionMatchesAll,
        Variant::WildcardsMatchPartition,
        Variant::GivesCoKeyToo,
        Variant::LookRemoves,
        Variant::LookNeedsNoNames,
        Variant::ReceiveRemoves,
        Variant::BoundedMatchesAllPartitions,
        Variant::OneHeldIsEnough,
        Variant::SmallestHeldIsEnough,
        Variant::HeldBelow32IsEnough,
        Variant::HeldByAnybodyIsEnough,
        Variant::OneOfSeveralIsForgiven,
        Variant::OpensWithPartition0,
        Variant::FreePartition0,
        Variant::Partition0IsHeldInPairs,
    ] {
        let mut system = Reference::with(variant);
        let outcome = differing_pairs(&mut system, VARIANT_SEED, Premise::Kept);
        report.check(&format!("isolation shows {variant:?}"), outcome);
    }
}

#[cfg(test)]
mod tests {
    use super::*;

    /// Of party 1 with partition 5 in the roster, and with 0 and 5.
    #[test]
    fn partition_0_is_in_the_grasp_only_if_listed() {
        let names_of = |partitions| {
            let mut group = Group {
                members: vec![1],
                others: vec![0, 2, 3, 4, 5, 6, 7],
                names: Names {
                    partitions: 0,
                    keys: key_bit(0),
                },
            };
            let mut roster = [0; 16];
            (roster[1], roster[2]) = (partitions, u64::MAX);
            group.add_names(&roster);
            group.names
        };
        let grasp = |names: Names, set| names.grasp(Premise::Kept, Pair { set, key: 0 });
        let (without, with) = (names_of(32), names_of(33));
        // {0}, {0, 9} and {5}, and then {0, 5}.
        for (set, by_5) in [(1, false), (513, false), (32, true), (33, true)] {
            assert_eq!(grasp(without, set), by_5, "{set}");
            assert!(grasp(with, set), "{set}");
            let spared = without.spared_by_0(Pair { set, key: 0 });
            assert_eq!(spared, !by_5, "{set}");
        }
        // Key 4, whose co-key the group hasn't.
        assert!(!without.spared_by_0(Pair { set: 1, key: 4 }));
    }
}
