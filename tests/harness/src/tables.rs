//! Tables that no run need have made: sound ones, and ones damaged in one known way.

use crate::partition_0;
use crate::pool::Pool;
use crate::rng::Rng;
use reference::names::{
    key_bit, stored_key, LAST_PARTITION, LAST_STORED_KEY, MOST_FIELDS, PARTIES,
};
use reference::table::{
    row_start, rows_of_writer, FIELDS, FIELD_COUNT, FIRST_ROW, KEYS, LIMIT, LIVE, PARTITIONS,
    READ_KEY, READ_SET, ROWS, ROW_WORDS, TAKE_KEY, TAKE_SET, WORDS, WRITER,
};
use reference::{Clause, Field};

/// A sound table; nobody need hold the names in it.
pub fn sound_table(rng: &mut Rng, pool: &Pool) -> Vec<u64> {
    let mut space = vec![0; WORDS];
    for party in 0..PARTIES {
        let (partitions, keys) = match rng.below(8) {
            0 => (u64::MAX, u64::MAX >> 1),
            1 => (rng.word(), rng.word() >> 1),
            _ => pool.holdings(rng, 70),
        };
        space[PARTITIONS + party] = partitions;
        space[KEYS + party] = keys | key_bit(0);
    }
    partition_0::spread(rng, &mut space[PARTITIONS..PARTITIONS + PARTIES]);
    let some = rng.between(3, ROWS - 2);
    let live = rng.pick(&[0, 1, 2, some, some, ROWS - 1, ROWS]);
    for (index, writer) in writers(rng).into_iter().take(live).enumerate() {
        let start = row_start(index);
        fill_row(rng, pool, writer, &mut space[start..start + ROW_WORDS]);
    }
    space[LIVE] = live as u64;
    space
}

/// Every party as often as its limit allows, mixed or party by party.
fn writers(rng: &mut Rng) -> Vec<u64> {
    let mut writers: Vec<u64> = (0..ROWS).map(|index| (index / LIMIT) as u64).collect();
    match rng.below(3) {
        0 => {}
        1 => writers.reverse(),
        _ => rng.shuffle(&mut writers),
    }
    writers
}

fn fill_row(rng: &mut Rng, pool: &Pool, writer: u64, row: &mut [u64]) {
    let read = pool.pair(rng);
    let take = pool.pair(rng);
    let count = pool.count(rng);
    row[WRITER] = writer;
    row[READ_SET] = read.set;
    row[READ_KEY] = stored_key(read.key);
    row[TAKE_SET] = take.set;
    row[TAKE_KEY] = stored_key(take.key);
    row[FIELD_COUNT] = count as u64;
    for word in &mut row[FIELDS..FIELDS + count] {
        *word = pool.field(rng);
    }
}

/// Ways to break one clause of "sound", and all but one of them no other.
#[derive(Clone, Copy, Debug, PartialEq, Eq)]
pub enum Damage {
    LiveAbove128,
    LiveOneTooMany,
    LiveOneTooFew,
    NoDefaultKey,
    KeyBit63,
    Writer,
    ReadSetEmpty,
    ReadKey,
    TakeSetEmpty,
    TakeKey,
    FieldCountZero,
    FieldCountHigh,
    FieldKindHigh,
    FieldPartitionHigh,
    FieldKeyHigh,
    FieldWildcard,
    FieldWildcardWithValue,
    FieldAtLeast,
    FieldAtMost,
    UnusedField,
    SeventeenRows,
    RowPastLive,
    LastWord,
}

impl Damage {
    pub const ALL: [Damage; 23] = [
        Damage::LiveAbove128,
        Damage::LiveOneTooMany,
        Damage::LiveOneTooFew,
        Damage::NoDefaultKey,
        Damage::KeyBit63,
        Damage::Writer,
        Damage::ReadSetEmpty,
        Damage::ReadKey,
        Damage::TakeSetEmpty,
        Damage::TakeKey,
        Damage::FieldCountZero,
        Damage::FieldCountHigh,
        Damage::FieldKindHigh,
        Damage::FieldPartitionHigh,
        Damage::FieldKeyHigh,
        Damage::FieldWildcard,
        Damage::FieldWildcardWithValue,
        Damage::FieldAtLeast,
        Damage::FieldAtMost,
        Damage::UnusedField,
        Damage::SeventeenRows,
        Damage::RowPastLive,
        Damage::LastWord,
    ];

    /// The first clause that this breaks: the only one, but that a row of zeros which counts as
    /// live has empty sets and no field.
    pub fn clause(self) -> Clause {
        match self {
            Damage::LiveAbove128 => Clause::LiveCount,
            Damage::LiveOneTooMany => Clause::ReadSet,
            Damage::LiveOneTooFew => Clause::RowsPastLive,
            Damage::NoDefaultKey => Clause::DefaultKey,
            Damage::KeyBit63 => Clause::KeyBit63,
            Damage::Writer => Clause::Writer,
            Damage::ReadSetEmpty => Clause::ReadSet,
            Damage::ReadKey => Clause::ReadKey,
            Damage::TakeSetEmpty => Clause::TakeSet,
            Damage::TakeKey => Clause::TakeKey,
            Damage::FieldCountZero | Damage::FieldCountHigh => Clause::FieldCount,
            Damage::FieldKindHigh
            | Damage::FieldPartitionHigh
            | Damage::FieldKeyHigh
            | Damage::FieldWildcard
            | Damage::FieldWildcardWithValue
            | Damage::FieldAtLeast
            | Damage::FieldAtMost => Clause::FieldWords,
            Damage::UnusedField => Clause::UnusedFieldWords,
            Damage::SeventeenRows => Clause::LimitOfWriter,
            Damage::RowPastLive | Damage::LastWord => Clause::RowsPastLive,
        }
    }

    /// Damages a sound table; false, and the table as it was, if it doesn't lend itself to it.
    pub fn apply(self, rng: &mut Rng, space: &mut [u64]) -> bool {
        match self {
            Damage::LiveAbove128
            | Damage::LiveOneTooMany
            | Damage::LiveOneTooFew
            | Damage::RowPastLive
            | Damage::LastWord => self.damage_count(rng, space),
            Damage::NoDefaultKey | Damage::KeyBit63 => self.damage_holdings(rng, space),
            Damage::SeventeenRows => add_seventeenth_row(rng, space),
            _ if space[LIVE] == 0 => false,
            _ => {
                let start = row_start(some_live_row(rng, space));
                self.damage_row(rng, &mut space[start..start + ROW_WORDS])
            }
        }
    }

    fn damage_count(self, rng: &mut Rng, space: &mut [u64]) -> bool {
        let live = space[LIVE] as usize;
        match self {
            Damage::LiveAbove128 if live == ROWS => space[LIVE] = above(rng, ROWS as u64),
            Damage::LiveOneTooMany if live < ROWS && rows_of_writer(space, 0) < LIMIT => {
                space[LIVE] += 1;
            }
            Damage::LiveOneTooFew if live > 0 => space[LIVE] -= 1,
            Damage::RowPastLive if live < ROWS => {
                space[rng.between(row_start(live), WORDS - 1)] = nonzero(rng);
            }
            Damage::LastWord if live < ROWS => space[WORDS - 1] = nonzero(rng),
            _ => return false,
        }
        true
    }

    fn damage_holdings(self, rng: &mut Rng, space: &mut [u64]) -> bool {
        let party = rng.below(PARTIES);
        match self {
            Damage::NoDefaultKey => space[KEYS + party] &= !key_bit(0),
            _ => space[KEYS + party] |= 1 << 63,
        }
        true
    }

    fn damage_row(self, rng: &mut Rng, row: &mut [u64]) -> bool {
        let count = row[FIELD_COUNT] as usize;
        let used = FIELDS + rng.below(count);
        let kind_and_more = |kind: u64, low: u64| (kind << 32) | (low & u64::from(u32::MAX));
        match self {
            Damage::Writer => row[WRITER] = above(rng, PARTIES as u64 - 1),
            Damage::ReadSetEmpty => row[READ_SET] = 0,
            Damage::ReadKey => row[READ_KEY] = above(rng, LAST_STORED_KEY),
            Damage::TakeSetEmpty => row[TAKE_SET] = 0,
            Damage::TakeKey => row[TAKE_KEY] = above(rng, LAST_STORED_KEY),
            Damage::FieldCountZero => row[FIELD_COUNT..].fill(0),
            Damage::FieldCountHigh => row[FIELD_COUNT] = above(rng, MOST_FIELDS as u64),
            Damage::FieldKindHigh => {
                let kinds = [6, 7, 256, 257, 260, 1 << 31, u64::from(u32::MAX)];
                let low = rng.pick(&[0, 5, 62, u64::from(u32::MAX)]);
                row[used] = kind_and_more(rng.pick(&kinds), low);
            }
            Damage::FieldPartitionHigh => {
                row[used] = kind_and_more(1, high_value(rng, u64::from(LAST_PARTITION)));
            }
            Damage::FieldKeyHigh => row[used] = kind_and_more(2, high_value(rng, LAST_STORED_KEY)),
            Damage::FieldWildcard => row[used] = Field::Wildcard.word(),
            Damage::FieldWildcardWithValue => row[used] = kind_and_more(3, high_value(rng, 0)),
            Damage::FieldAtLeast => row[used] = Field::AtLeast(bound(rng, row[used])).word(),
            Damage::FieldAtMost => row[used] = Field::AtMost(bound(rng, row[used])).word(),
            Damage::UnusedField if count < MOST_FIELDS => {
                row[FIELDS + rng.between(count, MOST_FIELDS - 1)] = nonzero(rng);
            }
            _ => return false,
        }
        true
    }
}

/// A table damaged in this way and no other, with the sound one it was.
pub fn damaged_table(rng: &mut Rng, pool: &Pool, damage: Damage) -> (Vec<u64>, Vec<u64>) {
    loop {
        let sound = sound_table(rng, pool);
        let mut damaged = sound.clone();
        if damage.apply(rng, &mut damaged) {
            return (sound, damaged);
        }
    }
}

/// The oldest, the newest, or any.
fn some_live_row(rng: &mut Rng, space: &[u64]) -> usize {
    let live = space[LIVE] as usize;
    let any = rng.below(live);
    rng.pick(&[0, live - 1, any])
}

/// A word above this one: just above, or equal to one in range but for its high bits.
fn above(rng: &mut Rng, last: u64) -> u64 {
    let inside = rng.below(last as usize + 1) as u64;
    let wraps = u64::MAX / ROW_WORDS as u64 + 1 + inside;
    rng.pick(&[
        last + 1,
        last + 2,
        last + 256,
        (1 << 8) + inside,
        (1 << 32) + inside,
        (1 << 63) + inside,
        wraps,
        u64::MAX,
    ])
}

/// A field value of 32 bits above this one.
fn high_value(rng: &mut Rng, last: u64) -> u64 {
    let inside = rng.below(last as usize + 1) as u64;
    rng.pick(&[last + 1, 256 + inside, (1 << 31) + inside, u32::MAX.into()])
}

/// The number of a bound: the one in this word, one of either end, or any.
fn bound(rng: &mut Rng, word: u64) -> u32 {
    let any = rng.word() as u32;
    rng.pick(&[word as u32, 0, u32::MAX, any])
}

fn nonzero(rng: &mut Rng) -> u64 {
    rng.pick(&[1, 1 << 32, Field::Wildcard.word(), 1 << 63, u64::MAX])
}

/// Makes a row of another writer one of a writer that is at the limit.
fn add_seventeenth_row(rng: &mut Rng, space: &mut [u64]) -> bool {
    let live = space[LIVE] as usize;
    let at_limit: Vec<u64> = (0..PARTIES)
        .filter(|party| rows_of_writer(space, *party) == LIMIT)
        .map(|party| party as u64)
        .collect();
    if at_limit.is_empty() {
        return false;
    }
    let writer = rng.pick(&at_limit);
    let others: Vec<usize> = (0..live)
        .map(|index| row_start(index) + WRITER)
        .filter(|place| space[*place] != writer)
        .collect();
    if others.is_empty() {
        return false;
    }
    space[rng.pick(&others)] = writer;
    true
}

/// Changes a few words anywhere, above all where it matters; the table may stay sound.
pub fn damage_at_random(rng: &mut Rng, space: &mut [u64]) {
    for _ in 0..rng.between(1, 3) {
        let live = (space[LIVE] as usize).min(ROWS);
        let any = rng.below(WORDS);
        let head = rng.below(FIRST_ROW);
        let used = rng.below(row_start(live));
        let edge = rng.between(row_start(live.max(1) - 1), WORDS - 1);
        let place = rng.pick(&[any, LIVE, head, used, used, edge]);
        let other = space[rng.below(WORDS)];
        let old = space[place];
        let flipped = old ^ (1 << rng.below(64));
        let high = above(rng, ROWS as u64);
        space[place] = rng.pick(&[
            0,
            1,
            old.wrapping_add(1),
            old.wrapping_sub(1),
            flipped,
            other,
            high,
            u64::MAX,
        ]);
    }
}

#[cfg(test)]
mod tests {
    use super::*;
    use reference::table::broken_clause;

    #[test]
    fn sound_tables_are_sound() {
        for run in 0..500 {
            let mut rng = Rng::new(1, run);
            let pool = Pool::random(&mut rng, 3, 2);
            assert_eq!(broken_clause(&sound_table(&mut rng, &pool)), None);
        }
    }

    #[test]
    fn partition_0_is_held_by_all_some_or_nobody() {
        let mut holders = [0; PARTIES + 1];
        for run in 0..500 {
            let mut rng = Rng::new(3, run);
            let pool = Pool::random(&mut rng, 3, 2);
            let table = sound_table(&mut rng, &pool);
            let words = table[PARTITIONS..PARTITIONS + PARTIES].iter();
            holders[words.filter(|word| *word & 1 == 1).count()] += 1;
        }
        assert!(holders.iter().all(|tables| *tables > 0), "{holders:?}");
    }

    #[test]
    fn damage_breaks_its_clause() {
        for damage in Damage::ALL {
            for run in 0..200 {
                let mut rng = Rng::new(2, run);
                let pool = Pool::random(&mut rng, 3, 2);
                let (_, damaged) = damaged_table(&mut rng, &pool, damage);
                let broken: Vec<Clause> = Clause::ALL
                    .into_iter()
                    .filter(|clause| !clause.holds(&damaged))
                    .collect();
                let due: &[Clause] = match damage {
                    Damage::LiveOneTooMany => {
                        &[Clause::ReadSet, Clause::TakeSet, Clause::FieldCount]
                    }
                    _ => &[damage.clause()],
                };
                assert_eq!(broken, due, "{damage:?}");
            }
        }
    }

    #[test]
    fn every_clause_but_the_length_has_a_damage() {
        for clause in Clause::ALL {
            assert!(
                clause == Clause::Length
                    || Damage::ALL.iter().any(|damage| damage.clause() == clause)
            );
        }
    }
}
