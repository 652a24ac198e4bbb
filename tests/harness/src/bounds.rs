//! What came of the calls with bounds, told apart by the kind of the bound.

use crate::call::{is_refusal, Call, Query};
use crate::sets::{pair_that_counts, share};
use reference::names::{may_be_put, stored_key};
use reference::table::{row_fields, FIELD_COUNT, ROW_WORDS};
use reference::{co_key, Field, Operation};

/// What is counted, for at least and for at most.
type Both = [&'static str; 2];

const FOUND: Both = ["at least: found", "at most: found"];
const EQUAL: Both = [
    "at least: found the very number",
    "at most: found the very number",
];
const NONE: Both = ["at least: none", "at most: none"];
const FIRST: Both = ["at least 0", "at most 0"];
const LAST: Both = ["at least 4294967295", "at most 4294967295"];
/// A row that agrees in every other place.
const MISSED: Both = [
    "at least: a row missed by a message alone",
    "at most: a row missed by a message alone",
];
const MISSED_BY_ONE: Both = [
    "at least: a row missed by a message one too low",
    "at most: a row missed by a message one too high",
];
/// The number of the name is in range, so that only its kind keeps the row from a match.
const MISSED_PARTITION: Both = [
    "at least: a row missed by the kind of a partition alone",
    "at most: a row missed by the kind of a partition alone",
];
const MISSED_KEY: Both = [
    "at least: a row missed by the kind of a key alone",
    "at most: a row missed by the kind of a key alone",
];
/// With nothing else in the put that is bad.
const REFUSED: Both = ["at least: refused in a put", "at most: refused in a put"];

/// All that has to happen.
pub const ALL: [Both; 10] = [
    FOUND,
    EQUAL,
    NONE,
    FIRST,
    LAST,
    MISSED,
    MISSED_BY_ONE,
    MISSED_PARTITION,
    MISSED_KEY,
    REFUSED,
];

/// The number of a bound, and where its kind stands in `Both`.
fn bound(word: u64) -> Option<(usize, u32)> {
    match Field::from_word(word)? {
        Field::AtLeast(number) => Some((0, number)),
        Field::AtMost(number) => Some((1, number)),
        _ => None,
    }
}

/// Whether a look, a receive or a take has a bound in its template.
pub fn is_bounded(call: &Call) -> bool {
    matches!(call, Call::Find(_, query) if query.fields.iter().any(|word| bound(*word).is_some()))
}

/// What happened in a call that got this answer and this result, with the live rows before it.
pub fn happenings(call: &Call, code: u32, result: &[u64], rows: &[u64]) -> Vec<&'static str> {
    let mut all = match call {
        Call::Put { fields, .. } if code == 105 => refused(fields),
        Call::Find(operation, query) if !is_refusal(code) => {
            let mut all = searched(&query.fields, code, result);
            if is_bounded(call) {
                let rows = rows.chunks_exact(ROW_WORDS);
                all.extend(rows.flat_map(|row| missed(*operation, query, row)));
            }
            all
        }
        _ => Vec::new(),
    };
    // A call counts once, whatever the number of its bounds and rows.
    all.sort_unstable();
    all.dedup();
    all
}

/// A put whose bad words are all bounds of one kind.
fn refused(fields: &[u64]) -> Vec<&'static str> {
    let kinds: Option<Vec<usize>> = fields
        .iter()
        .filter(|word| !may_be_put(**word))
        .map(|word| bound(*word).map(|(kind, _)| kind))
        .collect();
    match kinds.as_deref() {
        Some([kind, others @ ..]) if others.iter().all(|other| other == kind) => {
            vec![REFUSED[*kind]]
        }
        _ => Vec::new(),
    }
}

fn searched(fields: &[u64], code: u32, result: &[u64]) -> Vec<&'static str> {
    let mut all = Vec::new();
    for (place, word) in fields.iter().enumerate() {
        let Some((kind, number)) = bound(*word) else {
            continue;
        };
        all.push(if code > 0 { FOUND } else { NONE }[kind]);
        if code > 0 && result[place] == u64::from(number) {
            all.push(EQUAL[kind]);
        }
        match number {
            0 => all.push(FIRST[kind]),
            u32::MAX => all.push(LAST[kind]),
            _ => {}
        }
    }
    all
}

/// Why a row isn't found, if one place with a bound is all that keeps it from a match.
fn missed(operation: Operation, query: &Query, row: &[u64]) -> Vec<&'static str> {
    let (set, key) = pair_that_counts(operation, row);
    let count = query.fields.len() as u64;
    if (key, row[FIELD_COUNT]) != (stored_key(co_key(query.pair.key)), count)
        || !share(set, query.pair.set)
    {
        return Vec::new();
    }
    let mut apart = query
        .fields
        .iter()
        .zip(row_fields(row))
        .filter_map(|(templates, entrys)| {
            let template = Field::from_word(*templates)?;
            let entry = Field::from_word(*entrys)?;
            (!template.agrees(entry)).then_some((*templates, entry))
        });
    let (Some((word, entry)), None) = (apart.next(), apart.next()) else {
        return Vec::new();
    };
    let Some((kind, number)) = bound(word) else {
        return Vec::new();
    };
    let in_range = |low: u32| match kind {
        0 => low >= number,
        _ => low <= number,
    };
    match entry {
        Field::Message(message) if message.abs_diff(number) == 1 => {
            vec![MISSED[kind], MISSED_BY_ONE[kind]]
        }
        Field::Message(_) => vec![MISSED[kind]],
        Field::Partition(partition) if in_range(partition) => vec![MISSED_PARTITION[kind]],
        Field::Key(key) if in_range(stored_key(key) as u32) => vec![MISSED_KEY[kind]],
        _ => Vec::new(),
    }
}
