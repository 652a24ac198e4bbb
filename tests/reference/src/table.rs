//! The 1,809 words of a space: what stands where, and when they are sound.

use crate::names::{key_bit, may_be_put, LAST_STORED_KEY, MOST_FIELDS, PARTIES};

/// The length of a space.
pub const WORDS: usize = 1_809;
/// The word with the number of live entries.
pub const LIVE: usize = 0;
/// The first of the words with the partitions held, one for each party.
pub const PARTITIONS: usize = 1;
/// The first of the words with the keys held, one for each party.
pub const KEYS: usize = 9;
/// The length of a roster, laid out as words 1 to 16 of a space.
pub const ROSTER_WORDS: usize = 16;
/// The first word of the oldest row.
pub const FIRST_ROW: usize = 17;
/// The number of rows, live or not.
pub const ROWS: usize = 128;
/// The length of a row.
pub const ROW_WORDS: usize = 14;
/// No writer has more live rows than this.
pub const LIMIT: usize = 16;

// Where things stand in a row.
pub const WRITER: usize = 0;
pub const READ_SET: usize = 1;
pub const READ_KEY: usize = 2;
pub const TAKE_SET: usize = 3;
pub const TAKE_KEY: usize = 4;
pub const FIELD_COUNT: usize = 5;
pub const FIELDS: usize = 6;

const BIT_63: u64 = 1 << 63;

/// The place of a row's first word.
pub fn row_start(index: usize) -> usize {
    FIRST_ROW + index * ROW_WORDS
}

/// Where the rows start: as `row_start` says, but for one row of a reference with a blunder.
#[derive(Clone, Copy, Debug)]
pub struct Starts {
    misplaced: Option<(usize, usize)>,
}

impl Starts {
    pub const RIGHT: Starts = Starts { misplaced: None };

    /// With this row at this word, from which there is room for a row.
    pub fn with(row: usize, start: usize) -> Starts {
        Starts {
            misplaced: Some((row, start)),
        }
    }

    pub fn of(self, index: usize) -> usize {
        match self.misplaced {
            Some((row, start)) if row == index => start,
            _ => row_start(index),
        }
    }

    /// The words of a row.
    pub fn row(self, space: &[u64], index: usize) -> &[u64] {
        let start = self.of(index);
        &space[start..start + ROW_WORDS]
    }

    /// The live rows, oldest first.
    pub fn live_rows(self, space: &[u64]) -> impl Iterator<Item = &[u64]> {
        let live = space[LIVE].min(ROWS as u64) as usize;
        (0..live).map(move |index| self.row(space, index))
    }

    /// How many live rows name this party as writer.
    pub fn rows_of_writer(self, space: &[u64], party: usize) -> usize {
        self.live_rows(space)
            .filter(|row| row[WRITER] == party as u64)
            .count()
    }

    /// Whether all rows after the live ones are 0.
    pub fn clear_past_live(self, space: &[u64]) -> bool {
        (space[LIVE] as usize..ROWS)
            .all(|index| self.row(space, index).iter().all(|word| *word == 0))
    }
}

/// The live rows, oldest first.
pub fn live_rows(space: &[u64]) -> impl Iterator<Item = &[u64]> {
    Starts::RIGHT.live_rows(space)
}

/// A row's field words in use.
pub fn row_fields(row: &[u64]) -> &[u64] {
    let count = (row[FIELD_COUNT] as usize).min(MOST_FIELDS);
    &row[FIELDS..FIELDS + count]
}

/// How many live rows name this party as writer.
pub fn rows_of_writer(space: &[u64], party: usize) -> usize {
    Starts::RIGHT.rows_of_writer(space, party)
}

/// Whether a key word has the bit that no key stands for.
pub fn has_bit_63(word: u64) -> bool {
    word & BIT_63 != 0
}

/// The clauses of "sound", in an order in which each may rely on those before it.
#[derive(Clone, Copy, Debug, PartialEq, Eq)]
pub enum Clause {
    Length,
    LiveCount,
    DefaultKey,
    KeyBit63,
    Writer,
    ReadSet,
    ReadKey,
    TakeSet,
    TakeKey,
    FieldCount,
    FieldWords,
    UnusedFieldWords,
    LimitOfWriter,
    RowsPastLive,
}

impl Clause {
    pub const ALL: [Clause; 14] = [
        Clause::Length,
        Clause::LiveCount,
        Clause::DefaultKey,
        Clause::KeyBit63,
        Clause::Writer,
        Clause::ReadSet,
        Clause::ReadKey,
        Clause::TakeSet,
        Clause::TakeKey,
        Clause::FieldCount,
        Clause::FieldWords,
        Clause::UnusedFieldWords,
        Clause::LimitOfWriter,
        Clause::RowsPastLive,
    ];

    /// Whether the clause holds of a space of which the clauses before it hold.
    pub fn holds(self, space: &[u64]) -> bool {
        self.holds_by(Starts::RIGHT, space)
    }

    /// The same with rows that start there.
    pub fn holds_by(self, starts: Starts, space: &[u64]) -> bool {
        let live_rows = || starts.live_rows(space);
        match self {
            Clause::Length => space.len() == WORDS,
            Clause::LiveCount => space[LIVE] <= ROWS as u64,
            Clause::DefaultKey => key_words(space).iter().all(|held| held & key_bit(0) != 0),
            Clause::KeyBit63 => key_words(space).iter().all(|held| !has_bit_63(*held)),
            Clause::Writer => live_rows().all(|row| row[WRITER] < PARTIES as u64),
            Clause::ReadSet => all_words(starts, space, READ_SET, has_some),
            Clause::ReadKey => live_rows().all(|row| row[READ_KEY] <= LAST_STORED_KEY),
            Clause::TakeSet => all_words(starts, space, TAKE_SET, has_some),
            Clause::TakeKey => live_rows().all(|row| row[TAKE_KEY] <= LAST_STORED_KEY),
            Clause::FieldCount => {
                live_rows().all(|row| (1..=MOST_FIELDS as u64).contains(&row[FIELD_COUNT]))
            }
            Clause::FieldWords => all_field_words(starts, space, may_be_put),
            Clause::UnusedFieldWords => live_rows().all(|row| {
                let used = row_fields(row).len();
                row[FIELDS + used..].iter().all(|word| *word == 0)
            }),
            Clause::LimitOfWriter => {
                (0..PARTIES).all(|party| starts.rows_of_writer(space, party) <= LIMIT)
            }
            Clause::RowsPastLive => starts.clear_past_live(space),
        }
    }
}

/// Whether a set has a partition: the empty one is 0.
pub fn has_some(set: u64) -> bool {
    set > 0
}

/// Whether the words at this place of all live rows are such.
pub fn all_words(starts: Starts, space: &[u64], at: usize, such: impl Fn(u64) -> bool) -> bool {
    starts.live_rows(space).all(|row| such(row[at]))
}

/// Whether all field words in use are such.
pub fn all_field_words(starts: Starts, space: &[u64], such: impl Fn(u64) -> bool) -> bool {
    starts
        .live_rows(space)
        .all(|row| row_fields(row).iter().all(|word| such(*word)))
}

fn key_words(space: &[u64]) -> &[u64] {
    &space[KEYS..KEYS + PARTIES]
}

/// The first clause that doesn't hold; none if the space is sound.
pub fn broken_clause(space: &[u64]) -> Option<Clause> {
    Clause::ALL.into_iter().find(|clause| !clause.holds(space))
}
