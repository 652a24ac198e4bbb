//! What came of the calls by the sets of partitions that they name.

use crate::call::{is_refusal, Call, Query};
use crate::pool::{held_of, holds_key, holds_pair, lacks_name_in};
use reference::names::{has_partition, key_in_range, partitions_of, stored_key};
use reference::table::{
    row_fields, FIELD_COUNT, READ_KEY, READ_SET, ROW_WORDS, TAKE_KEY, TAKE_SET,
};
use reference::{co_key, Field, Operation, Pair};

/// What is counted, for looks, receives and takes.
type Three = [&'static str; 3];
/// For the two pairs of a put, and for looks, receives and takes.
pub type Five = [&'static str; 5];

const FOUND_BY_ANOTHER: Three = [
    "sets: look found by another set",
    "sets: receive found by another set",
    "sets: take found by another set",
];
/// The template's is neither within the entry's nor the entry's within the template's.
const FOUND_BY_OVERLAP: Three = [
    "sets: look found, neither set within the other",
    "sets: receive found, neither set within the other",
    "sets: take found, neither set within the other",
];
const FOUND_BY_UPPER: Three = [
    "sets: look found by partitions above 31 alone",
    "sets: receive found by partitions above 31 alone",
    "sets: take found by partitions above 31 alone",
];
const FOUND_BY_63: Three = [
    "sets: look found by partition 63 alone",
    "sets: receive found by partition 63 alone",
    "sets: take found by partition 63 alone",
];
/// A row that agrees in everything else.
const NONE_BY_SET: Three = [
    "sets: look none, a row kept away by its set alone",
    "sets: receive none, a row kept away by its set alone",
    "sets: take none, a row kept away by its set alone",
];
/// An older row that agrees in everything else.
const PASSED_OVER: Three = [
    "sets: look found, an older row kept away by its set alone",
    "sets: receive found, an older row kept away by its set alone",
    "sets: take found, an older row kept away by its set alone",
];
const KEPT_BY_SEVERAL: Three = [
    "sets: look, a row kept away by sets of several",
    "sets: receive, a row kept away by sets of several",
    "sets: take, a row kept away by sets of several",
];
/// With nothing else that is lacking.
const HELD_IN_PART: Five = [
    "sets: put refused by 13, the read set held in part",
    "sets: put refused by 13, the take set held in part",
    "sets: look refused by 13, the set held in part",
    "sets: receive refused by 13, the set held in part",
    "sets: take refused by 13, the set held in part",
];
/// With nothing else in the pairs that is out of range.
const EMPTY: Five = [
    "sets: put refused by 4, the read set empty",
    "sets: put refused by 4, the take set empty",
    "sets: look refused by 4, the set empty",
    "sets: receive refused by 4, the set empty",
    "sets: take refused by 4, the set empty",
];
const SEVERAL: Five = [
    "sets: put done, several in the read set",
    "sets: put done, several in the take set",
    "sets: look of several, not refused",
    "sets: receive of several, not refused",
    "sets: take of several, not refused",
];
const WITH_63: Five = [
    "sets: put done, 63 in the read set",
    "sets: put done, 63 in the take set",
    "sets: look with 63, not refused",
    "sets: receive with 63, not refused",
    "sets: take with 63, not refused",
];
const ALL_64: Five = [
    "sets: put done, all partitions in the read set",
    "sets: put done, all partitions in the take set",
    "sets: look of all partitions, not refused",
    "sets: receive of all partitions, not refused",
    "sets: take of all partitions, not refused",
];

/// All that has to happen.
pub fn all() -> Vec<&'static str> {
    let threes = [
        FOUND_BY_ANOTHER,
        FOUND_BY_OVERLAP,
        FOUND_BY_UPPER,
        FOUND_BY_63,
        NONE_BY_SET,
        PASSED_OVER,
        KEPT_BY_SEVERAL,
    ];
    let fives = [HELD_IN_PART, EMPTY, SEVERAL, WITH_63, ALL_64];
    [threes.concat(), fives.concat()].concat()
}

/// Whether two sets share a partition.
pub fn share(set: u64, other: u64) -> bool {
    partitions_of(set).any(|partition| has_partition(other, partition))
}

pub fn is_of_several(set: u64) -> bool {
    partitions_of(set).nth(1).is_some()
}

/// The set and the stored key of the pair of a row that counts.
pub fn pair_that_counts(operation: Operation, row: &[u64]) -> (u64, u64) {
    match operation {
        Operation::Take => (row[TAKE_SET], row[TAKE_KEY]),
        Operation::Look | Operation::Receive => (row[READ_SET], row[READ_KEY]),
    }
}

/// A space before a call: its words, its live rows, and the row that was found in it.
pub struct Before<'a> {
    pub words: &'a [u64],
    pub rows: &'a [u64],
    pub found: Option<&'a [u64]>,
}

/// What happened in a call that got this answer.
pub fn happenings(call: &Call, code: u32, before: &Before) -> Vec<&'static str> {
    let mut all = Vec::new();
    let pairs = named_pairs(call);
    for (place, pair) in &pairs {
        let happened = |what: Five, such: bool| such.then_some(what[*place]);
        let others = pairs.iter().filter(|(other, _)| other != place);
        let mut others = others.map(|(_, pair)| pair);
        match code {
            104 => {
                let alone = key_in_range(pair.key) && others.all(in_range);
                all.extend(happened(EMPTY, pair.set == 0 && alone));
            }
            113 => {
                let party = call.party().unwrap_or_default();
                let (held, lacking) = held_of(before.words, party, pair.set);
                let alone = holds_key(before.words, party, pair.key)
                    && others.all(|other| holds_pair(before.words, party, *other))
                    && !lacks_name_in(before.words, party, call.input());
                all.extend(happened(HELD_IN_PART, held > 0 && lacking > 0 && alone));
            }
            _ if is_refusal(code) => {}
            _ => {
                all.extend(happened(SEVERAL, is_of_several(pair.set)));
                all.extend(happened(WITH_63, has_partition(pair.set, 63)));
                all.extend(happened(ALL_64, pair.set == u64::MAX));
            }
        }
    }
    if let (Call::Find(operation, query), false) = (call, is_refusal(code)) {
        all.extend(searched(*operation, query, before));
    }
    all
}

/// The pairs of a call, with their places in `Five`.
pub fn named_pairs(call: &Call) -> Vec<(usize, Pair)> {
    match call {
        Call::Open { .. } => Vec::new(),
        Call::Put { read, take, .. } => vec![(0, *read), (1, *take)],
        Call::Find(operation, query) => vec![(2 + *operation as usize, query.pair)],
    }
}

pub fn in_range(pair: &Pair) -> bool {
    pair.set != 0 && key_in_range(pair.key)
}

fn searched(operation: Operation, query: &Query, before: &Before) -> Vec<&'static str> {
    let mut all = Vec::new();
    let mut happened = |what: Three, such: bool| {
        if such {
            all.push(what[operation as usize]);
        }
    };
    let templates = query.pair.set;
    if let Some(row) = before.found {
        let (entrys, _) = pair_that_counts(operation, row);
        let shared: Vec<u32> = partitions_of(entrys)
            .filter(|partition| has_partition(templates, *partition))
            .collect();
        let within = |set: u64| shared.len() == partitions_of(set).count();
        happened(FOUND_BY_ANOTHER, entrys != templates);
        happened(FOUND_BY_OVERLAP, !within(entrys) && !within(templates));
        happened(
            FOUND_BY_UPPER,
            shared.iter().all(|partition| *partition > 31),
        );
        happened(FOUND_BY_63, shared == [63]);
    }
    // The first that shares a partition is the one that is found.
    let rows = before.rows.chunks_exact(ROW_WORDS);
    let kept_away: Vec<u64> = rows
        .filter(|row| agrees_but_for_set(operation, query, row))
        .map(|row| pair_that_counts(operation, row).0)
        .take_while(|entrys| !share(*entrys, templates))
        .collect();
    let of_several = |entrys: &u64| is_of_several(*entrys) && is_of_several(templates);
    let kept = !kept_away.is_empty();
    happened(NONE_BY_SET, kept && before.found.is_none());
    happened(PASSED_OVER, kept && before.found.is_some());
    happened(KEPT_BY_SEVERAL, kept_away.iter().any(of_several));
    all
}

/// Whether a row matches a template, but perhaps for the sets.
fn agrees_but_for_set(operation: Operation, query: &Query, row: &[u64]) -> bool {
    let (_, key) = pair_that_counts(operation, row);
    let agrees = |(templates, entrys): (&u64, &u64)| {
        let fields = (Field::from_word(*templates), Field::from_word(*entrys));
        matches!(fields, (Some(template), Some(entry)) if template.agrees(entry))
    };
    row[FIELD_COUNT] == query.fields.len() as u64
        && key == stored_key(co_key(query.pair.key))
        && query.fields.iter().zip(row_fields(row)).all(agrees)
}
