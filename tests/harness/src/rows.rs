//! Row by row: each of the 128 is written, found, taken away and damaged.

use crate::call::{answer_text, Call, Kind, Query};
use crate::differential::refused_as_unsound;
use crate::duel::Duel;
use crate::pool::Pool;
use crate::report::Report;
use crate::rng::Rng;
use crate::space::Space;
use reference::names::{
    co_key, set_of, stored_key, LAST_KEY, LAST_PARTITION, LAST_STORED_KEY, MOST_FIELDS, PARTIES,
};
use reference::table::{
    row_start, FIELDS, FIELD_COUNT, KEYS, LIVE, PARTITIONS, READ_KEY, READ_SET, ROWS, ROW_WORDS,
    TAKE_KEY, TAKE_SET, WORDS, WRITER,
};
use reference::{Field, Operation, Pair, Reference, Step, Variant};

const SEED: u64 = 4_201;
/// By how many words a start may be wrong: by one, and by a whole row.
const OFFSETS: [isize; 4] = [-1, 1, -(ROW_WORDS as isize), ROW_WORDS as isize];

/// The first row, one in the middle and the last.
const WATCHED: [usize; 3] = [0, 64, 127];
const PUT: [&str; 3] = ["puts into row 0", "puts into row 64", "puts into row 127"];
const LOOKED: [&str; 3] = [
    "looks that found row 0",
    "looks that found row 64",
    "looks that found row 127",
];
const RECEIVED: [&str; 3] = [
    "receives that found row 0",
    "receives that found row 64",
    "receives that found row 127",
];
const TAKEN: [&str; 3] = ["takes of row 0", "takes of row 64", "takes of row 127"];
/// From a table with all rows live, so that row 127 is the one that is freed.
const TAKEN_OF_ALL: [&str; 3] = [
    "takes of row 0 with 128 live rows",
    "takes of row 64 with 128 live rows",
    "takes of row 127 with 128 live rows",
];

/// All that has to happen in the random calls.
pub const ALL: [[&str; 3]; 5] = [PUT, LOOKED, RECEIVED, TAKEN, TAKEN_OF_ALL];

/// What happened in a call that wrote or found this row, with so many rows live before it.
pub fn happenings(kind: Kind, row: usize, live: usize) -> impl Iterator<Item = &'static str> {
    let place = WATCHED.iter().position(|watched| *watched == row);
    let all: &[[&str; 3]] = match kind {
        Kind::Open => &[],
        Kind::Put => &[PUT],
        Kind::LOOK => &[LOOKED],
        Kind::RECEIVE => &[RECEIVED],
        Kind::TAKE if live == ROWS => &[TAKEN, TAKEN_OF_ALL],
        Kind::TAKE => &[TAKEN],
    };
    place
        .into_iter()
        .flat_map(|place| all.iter().map(move |names| names[place]))
}

/// The entry of a row. Every word but the field count differs from that of the rows beside it.
struct Entry {
    row: usize,
    party: u32,
    read: Pair,
    take: Pair,
    fields: [u64; MOST_FIELDS],
}

/// How far the pair for taking is from that for reading.
const TAKEN_FROM: usize = 32;

fn partition(number: usize) -> u32 {
    (number % (LAST_PARTITION as usize + 1)) as u32
}

impl Entry {
    fn of(row: usize) -> Entry {
        let pair = |number: usize| Pair {
            set: set_of([0, 1, 21].map(|step| partition(number + step))),
            key: (number % (2 * LAST_KEY as usize + 1)) as i32 - LAST_KEY,
        };
        Entry {
            row,
            party: (row % PARTIES) as u32,
            read: pair(row),
            take: pair(row + TAKEN_FROM),
            fields: std::array::from_fn(|place| (1_000 + MOST_FIELDS * row + place) as u64),
        }
    }

    fn words(&self) -> [u64; ROW_WORDS] {
        let mut row = [0; ROW_WORDS];
        row[WRITER] = self.party.into();
        row[READ_SET] = self.read.set;
        row[READ_KEY] = stored_key(self.read.key);
        row[TAKE_SET] = self.take.set;
        row[TAKE_KEY] = stored_key(self.take.key);
        row[FIELD_COUNT] = MOST_FIELDS as u64;
        row[FIELDS..].copy_from_slice(&self.fields);
        row
    }

    fn put(&self) -> Call {
        Call::Put {
            party: self.party,
            read: self.read,
            take: self.take,
            fields: self.fields.to_vec(),
        }
    }

    /// With a template that no other row matches, and one partition of the row's set.
    fn find(&self, operation: Operation) -> Call {
        let (pair, number) = match operation {
            Operation::Take => (self.take, self.row + TAKEN_FROM),
            Operation::Look | Operation::Receive => (self.read, self.row),
        };
        let mut fields = [Field::Wildcard.word(); MOST_FIELDS];
        fields[0] = self.fields[0];
        let query = Query {
            party: self.party,
            pair: Pair::of_one(partition(number), co_key(pair.key)),
            fields: fields.to_vec(),
            result_len: MOST_FIELDS,
        };
        Call::Find(operation, query)
    }
}

/// A table with so many live rows in which everybody holds every name.
fn table(live: usize) -> Vec<u64> {
    let mut space = vec![0; WORDS];
    space[LIVE] = live as u64;
    space[PARTITIONS..PARTITIONS + PARTIES].fill(u64::MAX);
    space[KEYS..KEYS + PARTIES].fill(u64::MAX >> 1);
    for row in 0..live {
        let start = row_start(row);
        space[start..start + ROW_WORDS].copy_from_slice(&Entry::of(row).words());
    }
    space
}

fn due(duel: &mut Duel, rng: &mut Rng, call: &Call, code: u32) -> Result<(), String> {
    let got = duel.call(call, rng)?;
    if got == code {
        return Ok(());
    }
    let [got, due] = [got, code].map(|code| answer_text(call.kind(), code));
    Err(format!("{call:?}: {got}, due is {due}"))
}

fn found_and_taken(duel: &mut Duel, rng: &mut Rng, entry: &Entry) -> Result<(), String> {
    for operation in [Operation::Look, Operation::Receive, Operation::Take] {
        due(duel, rng, &entry.find(operation), MOST_FIELDS as u32)?;
    }
    Ok(())
}

/// A row as the newest, then among all, then damaged.
fn round(duel: &mut Duel, row: usize) -> Result<(), String> {
    let mut rng = Rng::new(SEED, row as u64);
    let entry = Entry::of(row);
    duel.set_space(&table(row));
    // Two writers: a writer 0 that is left when the row is freed is no difference.
    for newest in (row..ROWS).take(2).map(Entry::of) {
        due(duel, &mut rng, &newest.put(), 0)?;
        found_and_taken(duel, &mut rng, &newest)?;
    }
    // As the last row it moves up when the oldest is taken.
    duel.set_space(&table(row + 1));
    found_and_taken(duel, &mut rng, &Entry::of(0))?;
    duel.set_space(&table(ROWS));
    found_and_taken(duel, &mut rng, &entry)?;
    // The later rows have moved up, so this one becomes the last.
    due(duel, &mut rng, &entry.put(), 0)?;
    for live in [0, row] {
        damaged(duel, &mut rng, row, &table(live), |_| 1)?;
    }
    damaged(duel, &mut rng, row, &table(ROWS), bad_word)
}

/// Each word of the row in its turn gets the word for its place; then every call is refused by 1.
fn damaged(
    duel: &mut Duel,
    rng: &mut Rng,
    row: usize,
    sound: &[u64],
    word: fn(usize) -> u64,
) -> Result<(), String> {
    let pool = Pool::random(rng, 3, 2);
    for place in 0..ROW_WORDS {
        let mut unsound = sound.to_vec();
        unsound[row_start(row) + place] = word(place);
        refused_as_unsound(duel, rng, &pool, sound, &unsound)
            .map_err(|text| format!("word {place} damaged, {text}"))?;
    }
    Ok(())
}

/// A word that no sound row has in this place.
fn bad_word(place: usize) -> u64 {
    match place {
        WRITER => PARTIES as u64,
        READ_SET | TAKE_SET => 0,
        READ_KEY | TAKE_KEY => LAST_STORED_KEY + 1,
        FIELD_COUNT => MOST_FIELDS as u64 + 1,
        _ => Field::Wildcard.word(),
    }
}

/// Compares a system with the reference row by row.
pub fn compare(report: &mut Report, who: &str, system: &mut dyn Space) {
    let mut duel = Duel::new(system);
    let outcome = (0..ROWS).try_for_each(|row| {
        round(&mut duel, row).map_err(|text| format!("seed {SEED}, row {row}, {text}"))
    });
    report.check(
        &format!("rows, {who}: each written, found, taken and damaged"),
        outcome.map(|()| format!("{ROWS} rows, {} calls alike", duel.tally.calls())),
    );
}

/// Each row with its start wrong by so many words, in each step and in all, if it is still inside
/// the space.
fn misplaced(offset: isize) -> Vec<(usize, Variant)> {
    let steps = [&[None], &Step::ALL.map(Some)[..]].concat();
    (0..ROWS)
        .filter_map(|row| Some((row, row_start(row).checked_add_signed(offset)?)))
        .filter(|(_, start)| start + ROW_WORDS <= WORDS)
        .flat_map(|(row, start)| {
            let wrong = move |step| (row, Variant::Misplaces { row, start, step });
            steps.clone().into_iter().map(wrong)
        })
        .collect()
}

/// The harness itself is tested: each wrong start must be caught by what is done with its row.
pub fn check_variants(report: &mut Report) {
    for offset in OFFSETS {
        let all = misplaced(offset);
        let missed = all.iter().find(|(row, variant)| {
            let mut wrong = Reference::with(*variant);
            round(&mut Duel::new(&mut wrong), *row).is_ok()
        });
        let outcome = match missed {
            Some((_, variant)) => Err(format!("{variant:?} not caught")),
            None if all.is_empty() => Err("none".to_string()),
            None => Ok(format!("{} wrong starts caught", all.len())),
        };
        report.check(
            &format!("rows catch starts that are {offset} words off"),
            outcome,
        );
    }
}
