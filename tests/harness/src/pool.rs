//! Small pools of names, and random calls made from them that often match.

use crate::call::{Call, Kind, Query};
use crate::missing;
use crate::partition_0;
use crate::rng::Rng;
use crate::sets::pair_that_counts;
use reference::names::{
    has_partition, key_bit, key_of_stored, partition_bit, partitions_of, LAST_KEY, LAST_PARTITION,
    MOST_FIELDS, PARTIES,
};
use reference::table::{row_fields, row_start, KEYS, LIVE, PARTITIONS, ROSTER_WORDS, ROW_WORDS};
use reference::{co_key, Field, Operation, Pair};

/// Field and result counts go up to this.
pub const MOST_WORDS: usize = 20;
/// Every party.
pub const ALL_PARTIES: [u32; PARTIES] = [0, 1, 2, 3, 4, 5, 6, 7];

/// The names and messages of a run. Few of each, so that calls meet.
#[derive(Clone, Debug)]
pub struct Pool {
    pub partitions: Vec<u32>,
    pub keys: Vec<i32>,
    messages: Vec<u32>,
    field_count: usize,
}

impl Pool {
    /// Partition 0 with another or more, and key 0: this many partitions and pairs of key and co-key
    /// at most.
    pub fn random(rng: &mut Rng, most_partitions: usize, most_keys: usize) -> Pool {
        let mut partitions = vec![0];
        for _ in 0..rng.between(1, most_partitions) {
            let any = rng.between(1, LAST_PARTITION as usize) as u32;
            partitions.push(rng.pick(&[1, 31, 32, LAST_PARTITION, any]));
        }
        let mut keys = vec![0];
        for _ in 0..rng.between(0, most_keys) {
            let any = rng.between(1, LAST_KEY as usize) as i32;
            let key = rng.pick(&[1, LAST_KEY, any]);
            keys.extend([key, co_key(key)]);
        }
        Pool {
            partitions,
            keys,
            messages: vec![0, 1, rng.word() as u32, u32::MAX],
            field_count: rng.between(1, MOST_FIELDS),
        }
    }

    /// Partitions and keys to hold, each name of the pool with this chance in a hundred.
    pub fn holdings(&self, rng: &mut Rng, chance: usize) -> (u64, u64) {
        let mut partitions = 0;
        for partition in &self.partitions {
            if rng.percent(chance) {
                partitions |= partition_bit(*partition);
            }
        }
        let mut keys = 0;
        for key in &self.keys {
            if rng.percent(chance) {
                keys |= key_bit(*key);
            }
        }
        (partitions, keys)
    }

    /// A good roster of such holdings, often with partition 0 for others than by this chance.
    pub fn roster(&self, rng: &mut Rng, chance: usize) -> Vec<u64> {
        let mut roster = vec![0; ROSTER_WORDS];
        for party in 0..PARTIES {
            (roster[party], roster[PARTIES + party]) = self.holdings(rng, chance);
        }
        partition_0::spread(rng, &mut roster[..PARTIES]);
        roster
    }

    /// Mostly the run's own field count.
    pub fn count(&self, rng: &mut Rng) -> usize {
        if rng.percent(85) {
            self.field_count
        } else {
            rng.between(1, MOST_FIELDS)
        }
    }

    /// Any field of the pool that a put may carry.
    pub fn field(&self, rng: &mut Rng) -> u64 {
        match rng.below(3) {
            0 => Field::Message(rng.pick(&self.messages)),
            1 => Field::Partition(rng.pick(&self.partitions)),
            _ => Field::Key(rng.pick(&self.keys)),
        }
        .word()
    }

    /// One partition of the pool or some; seldom with others that hardly anybody holds.
    pub fn set(&self, rng: &mut Rng) -> u64 {
        let one = partition_bit(rng.pick(&self.partitions));
        match rng.below(100) {
            0..50 => one,
            50..92 => one | self.holdings(rng, 50).0,
            92..96 => one | some_set(rng),
            _ => some_set(rng),
        }
    }

    pub fn pair(&self, rng: &mut Rng) -> Pair {
        Pair {
            set: self.set(rng),
            key: rng.pick(&self.keys),
        }
    }
}

/// Any set but the empty one, and above all such as stand at an end of something.
fn some_set(rng: &mut Rng) -> u64 {
    let one = partition_bit(any_partition(rng));
    let other = partition_bit(any_partition(rng));
    let any = one | rng.word();
    rng.pick(&[
        one,
        one,
        one | other,
        one | other,
        any,
        u64::MAX,
        !one,
        1 << 63,
    ])
}

fn any_partition(rng: &mut Rng) -> u32 {
    rng.below(LAST_PARTITION as usize + 1) as u32
}

/// How often which calls are made, in a hundred.
#[derive(Clone, Copy, Debug)]
pub struct Mix {
    pub puts: usize,
    pub looks: usize,
    pub receives: usize,
    /// Calls with an argument broken on purpose; some of these with a second one, and so on.
    pub broken: usize,
}

impl Mix {
    pub const fn of(puts: usize, looks: usize, receives: usize, broken: usize) -> Mix {
        Mix {
            puts,
            looks,
            receives,
            broken,
        }
    }

    /// The kind for a number below a hundred.
    fn kind(self, dice: usize) -> Kind {
        let looks = self.puts + self.looks;
        match dice {
            _ if dice < self.puts => Kind::Put,
            _ if dice < looks => Kind::LOOK,
            _ if dice < looks + self.receives => Kind::RECEIVE,
            _ => Kind::TAKE,
        }
    }
}

/// Makes calls that fit a sound space.
pub struct Maker<'a> {
    pub pool: &'a Pool,
    pub parties: &'a [u32],
    pub mix: Mix,
}

impl Maker<'_> {
    /// A put, look, receive or take that fits this sound space more often than not.
    pub fn call(&self, rng: &mut Rng, space: &[u64]) -> Call {
        let kind = self.mix.kind(rng.below(100));
        self.call_of_kind(rng, space, kind)
    }

    /// The same, of a given kind other than an opening.
    pub fn call_of_kind(&self, rng: &mut Rng, space: &[u64], kind: Kind) -> Call {
        let mut call = match kind {
            Kind::Open => unreachable!("openings are made elsewhere"),
            Kind::Put => self.put(rng, space),
            Kind::Find(operation) => Call::Find(operation, self.query(rng, space, operation)),
        };
        while rng.percent(self.mix.broken) {
            break_argument(rng, space, &mut call);
            if rng.percent(50) {
                break;
            }
        }
        call
    }

    fn put(&self, rng: &mut Rng, space: &[u64]) -> Call {
        let party = rng.pick(self.parties);
        let read = self.held_pair(rng, space, party);
        let take = match rng.percent(50) {
            true => read,
            false => self.held_pair(rng, space, party),
        };
        let fields = (0..self.pool.count(rng))
            .map(|_| self.held_field(rng, space, party))
            .collect();
        Call::Put {
            party,
            read,
            take,
            fields,
        }
    }

    fn query(&self, rng: &mut Rng, space: &[u64], operation: Operation) -> Query {
        let live = space[LIVE] as usize;
        if live == 0 || rng.percent(20) {
            return self.random_query(rng, space);
        }
        let start = row_start(rng.below(live));
        let row = &space[start..start + ROW_WORDS];
        self.query_for_row(rng, space, operation, row)
    }

    fn random_query(&self, rng: &mut Rng, space: &[u64]) -> Query {
        let party = rng.pick(self.parties);
        let fields: Vec<u64> = (0..self.pool.count(rng))
            .map(|_| match rng.below(100) {
                0..50 => Field::Wildcard.word(),
                50..65 => {
                    let field = self.pool.field(rng);
                    bound_at(rng, field)
                }
                _ => self.held_field(rng, space, party),
            })
            .collect();
        Query {
            party,
            pair: self.held_pair(rng, space, party),
            result_len: rng.between(fields.len(), MOST_WORDS),
            fields,
        }
    }

    /// A template that matches this row, or nearly so.
    fn query_for_row(&self, rng: &mut Rng, space: &[u64], op: Operation, row: &[u64]) -> Query {
        let (set, stored) = pair_that_counts(op, row);
        let pair = Pair {
            set: self.template_set(rng, set),
            key: co_key(key_of_stored(stored).expect("a sound row stores a key")),
        };
        let party = self.party_that_holds(rng, space, pair);
        let fields: Vec<u64> = row_fields(row)
            .iter()
            .map(|word| self.template_field(rng, space, party, *word))
            .collect();
        Query {
            party,
            pair,
            result_len: rng.between(fields.len(), MOST_WORDS),
            fields,
        }
    }

    /// The row's set, or another that mostly shares a partition with it.
    fn template_set(&self, rng: &mut Rng, entrys: u64) -> u64 {
        let partitions: Vec<u32> = partitions_of(entrys).collect();
        let one = partition_bit(rng.pick(&partitions));
        match rng.below(100) {
            0..40 => entrys,
            40..60 => one,
            60..80 => one | self.pool.set(rng),
            80..88 => one | entrys & rng.word(),
            // Of the pool, but nothing that the row has, if there is such a set.
            88..94 => match self.pool.set(rng) & !entrys {
                0 => one,
                others => others,
            },
            _ => self.pool.set(rng),
        }
    }

    fn template_field(&self, rng: &mut Rng, space: &[u64], party: u32, word: u64) -> u64 {
        let holds = holds_names_of(space, party, word);
        let message = matches!(Field::from_word(word), Some(Field::Message(_)));
        match rng.below(100) {
            // Few against names, with which no bound agrees.
            0..4 => bound_at(rng, word),
            4..30 if message => bound_at(rng, word),
            4..60 => Field::Wildcard.word(),
            60..63 => self.pool.field(rng),
            63..98 if !holds => Field::Wildcard.word(),
            _ => word,
        }
    }

    /// Mostly one that holds the pair, if there is one.
    fn party_that_holds(&self, rng: &mut Rng, space: &[u64], pair: Pair) -> u32 {
        let holders: Vec<u32> = self
            .parties
            .iter()
            .copied()
            .filter(|party| holds_pair(space, *party, pair))
            .collect();
        if holders.is_empty() || rng.percent(8) {
            rng.pick(self.parties)
        } else {
            rng.pick(&holders)
        }
    }

    /// Mostly a pair of the pool that the party holds.
    fn held_pair(&self, rng: &mut Rng, space: &[u64], party: u32) -> Pair {
        for _ in 0..6 {
            let pair = self.pool.pair(rng);
            if holds_pair(space, party, pair) {
                return pair;
            }
        }
        let all = 0..=LAST_PARTITION;
        let held: Vec<u32> = all
            .filter(|at| holds_partition(space, party, *at))
            .collect();
        match held.is_empty() || rng.percent(20) {
            true => self.pool.pair(rng),
            false => Pair::of_one(rng.pick(&held), 0),
        }
    }

    /// Mostly a message, or a name that the party holds.
    fn held_field(&self, rng: &mut Rng, space: &[u64], party: u32) -> u64 {
        let field = self.pool.field(rng);
        if holds_names_of(space, party, field) || rng.percent(4) {
            field
        } else {
            u64::from(rng.pick(&self.pool.messages))
        }
    }
}

fn holds_partition(space: &[u64], party: u32, partition: u32) -> bool {
    (party as usize) < PARTIES && has_partition(space[PARTITIONS + party as usize], partition)
}

pub fn holds_key(space: &[u64], party: u32, key: i32) -> bool {
    (party as usize) < PARTIES && space[KEYS + party as usize] & key_bit(key) != 0
}

/// How many partitions of a set a party holds, and how many it doesn't.
pub fn held_of(space: &[u64], party: u32, set: u64) -> (usize, usize) {
    let held = partitions_of(set).filter(|partition| holds_partition(space, party, *partition));
    let held = held.count();
    (held, partitions_of(set).count() - held)
}

/// Whether a party holds every partition of the set, and the key.
pub fn holds_pair(space: &[u64], party: u32, pair: Pair) -> bool {
    holds_key(space, party, pair.key) && held_of(space, party, pair.set).1 == 0
}

fn holds_names_of(space: &[u64], party: u32, word: u64) -> bool {
    match Field::from_word(word) {
        Some(Field::Partition(partition)) => holds_partition(space, party, partition),
        Some(Field::Key(key)) => holds_key(space, party, key),
        _ => true,
    }
}

/// The names in these fields that the party doesn't hold.
pub fn lacked_names_in<'a>(
    space: &'a [u64],
    party: u32,
    fields: &'a [u64],
) -> impl Iterator<Item = Field> + 'a {
    let lacked = move |word: &&u64| !holds_names_of(space, party, **word);
    let fields = fields.iter().filter(lacked);
    fields.filter_map(|word| Field::from_word(*word))
}

/// Whether these fields carry a name that the party doesn't hold.
pub fn lacks_name_in(space: &[u64], party: u32, fields: &[u64]) -> bool {
    lacked_names_in(space, party, fields).next().is_some()
}

/// A bound at the number in this word or just beside it, at either end, or anywhere.
fn bound_at(rng: &mut Rng, word: u64) -> u64 {
    let at = word as u32;
    let beside = [at.saturating_sub(1), at.saturating_add(1)];
    let any = rng.word() as u32;
    let number = rng.pick(&[at, at, beside[0], beside[1], 0, u32::MAX, any]);
    match rng.percent(50) {
        true => Field::AtLeast(number).word(),
        false => Field::AtMost(number).word(),
    }
}

/// Breaks one argument: out of range, at an end of its type, or a name perhaps not held.
fn break_argument(rng: &mut Rng, space: &[u64], call: &mut Call) {
    match rng.below(9) {
        0 => break_party(rng, call),
        1 => break_count(rng, call),
        2 => break_pair(rng, call),
        3 => break_field(rng, call),
        4 => break_result(rng, call),
        5 => *some_pair(rng, call) = any_pair(rng),
        6 => set_some_field(rng, call, any_name),
        _ => lack_names(rng, space, call),
    }
}

/// Names that a party doesn't hold, some of each.
struct Unheld {
    partitions: Vec<u32>,
    keys: Vec<i32>,
}

impl Unheld {
    /// Of a party that holds all partitions or all keys there are none.
    fn of(space: &[u64], party: u32) -> Option<Unheld> {
        let partitions = (0..=LAST_PARTITION).filter(|at| !holds_partition(space, party, *at));
        let keys = (-LAST_KEY..=LAST_KEY).filter(|key| !holds_key(space, party, *key));
        let unheld = Unheld {
            partitions: partitions.collect(),
            keys: keys.collect(),
        };
        (!unheld.partitions.is_empty() && !unheld.keys.is_empty()).then_some(unheld)
    }

    /// Such a partition, often the smallest: that is 0 if it isn't held.
    fn partition(&self, rng: &mut Rng) -> u32 {
        let any = rng.pick(&self.partitions);
        rng.pick(&[self.partitions[0], any, any])
    }

    /// Puts such names into a pair; the set may keep the others that it has.
    fn lack_in_pair(&self, rng: &mut Rng, pair: &mut Pair, in_set: bool, in_key: bool) {
        if in_set {
            let others = rng.pick(&[0, pair.set]);
            pair.set = others | partition_bit(self.partition(rng));
        }
        if in_key {
            pair.key = rng.pick(&self.keys);
        }
    }
}

/// Puts names that the party doesn't hold into any combination of places, if there are such names.
/// Half of the calls that lend a result then have a short one besides, so that two tests apply.
fn lack_names(rng: &mut Rng, space: &[u64], call: &mut Call) {
    let party = call.party().filter(|party| (*party as usize) < PARTIES);
    let Some(unheld) = party.and_then(|party| Unheld::of(space, party)) else {
        return;
    };
    let combinations: Vec<u32> = missing::combinations(call.kind()).collect();
    let lacked = rng.pick(&combinations);
    let has = |place: u32| lacked & place > 0;
    let (in_set, in_key) = (has(missing::READ_SET), has(missing::READ_KEY));
    match call {
        Call::Open { .. } => {}
        Call::Put { read, take, .. } => {
            unheld.lack_in_pair(rng, read, in_set, in_key);
            let (in_set, in_key) = (has(missing::TAKE_SET), has(missing::TAKE_KEY));
            unheld.lack_in_pair(rng, take, in_set, in_key);
        }
        Call::Find(_, query) => unheld.lack_in_pair(rng, &mut query.pair, in_set, in_key),
    }
    if has(missing::PARTITION_IN_FIELD) {
        set_some_field(rng, call, |rng| {
            Field::Partition(unheld.partition(rng)).word()
        });
    }
    if has(missing::KEY_IN_FIELD) {
        set_some_field(rng, call, |rng| Field::Key(rng.pick(&unheld.keys)).word());
    }
    if rng.percent(50) {
        break_result(rng, call);
    }
}

fn break_party(rng: &mut Rng, call: &mut Call) {
    let any = rng.word() as u32;
    let bad = rng.pick(&[8, 9, 15, 256, 257, 65_536, 1 << 31, u32::MAX, any]);
    match call {
        Call::Open { .. } => {}
        Call::Put { party, .. } => *party = bad,
        Call::Find(_, query) => query.party = bad,
    }
}

fn break_count(rng: &mut Rng, call: &mut Call) {
    let count = match rng.percent(40) {
        true => 0,
        false => rng.between(MOST_FIELDS + 1, MOST_WORDS),
    };
    let word = rng.pick(&[0, 1, Field::Wildcard.word(), u64::MAX]);
    fields_of(call).resize(count, word);
    if let Call::Find(_, query) = call {
        query.result_len = rng.between(0, MOST_WORDS);
    }
}

fn break_pair(rng: &mut Rng, call: &mut Call) {
    let any = rng.word();
    let pair = some_pair(rng, call);
    if rng.percent(50) {
        pair.set = 0;
    } else {
        let ends = [i32::MIN, i32::MIN + 1, i32::MAX, any as i32];
        let near = [-33, -32, 32, 33, 63, 64, -64, 256, -256, 65_536];
        pair.key = match rng.percent(50) {
            true => rng.pick(&ends),
            false => rng.pick(&near),
        };
    }
}

fn break_field(rng: &mut Rng, call: &mut Call) {
    set_some_field(rng, call, |rng| {
        let any = rng.word();
        let bound = bound_at(rng, any);
        rng.pick(&[
            Field::Partition(64).word(),
            Field::Partition(u32::MAX).word(),
            Field::Key(0).word() + 32,
            Field::Key(0).word() | u64::from(u32::MAX),
            Field::Wildcard.word(),
            Field::Wildcard.word() + 1,
            Field::Wildcard.word() | u64::from(u32::MAX),
            // As the wildcard, bad only in a put.
            bound,
            bound,
            6 << 32,
            (6 << 32) + 5,
            7 << 32,
            (256 << 32) + Field::AtMost(5).word(),
            1 << 63,
            (1 << 63) | Field::Partition(0).word(),
            (1 << 63) | Field::AtLeast(0).word(),
            u64::MAX,
            any,
        ])
    });
}

fn break_result(rng: &mut Rng, call: &mut Call) {
    if let Call::Find(_, query) = call {
        query.result_len = rng.below(query.fields.len().max(1));
    }
}

fn any_key(rng: &mut Rng) -> i32 {
    rng.below(2 * LAST_KEY as usize + 1) as i32 - LAST_KEY
}

fn any_pair(rng: &mut Rng) -> Pair {
    Pair {
        set: some_set(rng),
        key: any_key(rng),
    }
}

fn any_name(rng: &mut Rng) -> u64 {
    match rng.percent(50) {
        true => Field::Partition(any_partition(rng)).word(),
        false => Field::Key(any_key(rng)).word(),
    }
}

fn some_pair<'a>(rng: &mut Rng, call: &'a mut Call) -> &'a mut Pair {
    match call {
        Call::Open { .. } => unreachable!("an opening has no pair"),
        Call::Put { read, take, .. } => match rng.percent(50) {
            true => read,
            false => take,
        },
        Call::Find(_, query) => &mut query.pair,
    }
}

fn fields_of(call: &mut Call) -> &mut Vec<u64> {
    match call {
        Call::Open { .. } => unreachable!("an opening has no fields"),
        Call::Put { fields, .. } => fields,
        Call::Find(_, query) => &mut query.fields,
    }
}

fn set_some_field(rng: &mut Rng, call: &mut Call, word: impl Fn(&mut Rng) -> u64) {
    let count = fields_of(call).len();
    if count > 0 {
        let place = rng.below(count);
        fields_of(call)[place] = word(rng);
    }
}

/// A roster that an opening turns away.
pub fn broken_roster(rng: &mut Rng, mut roster: Vec<u64>) -> Vec<u64> {
    if rng.percent(50) {
        let lengths = [0, 1, 8, 15, 17, 20];
        roster.resize(rng.pick(&lengths), 0);
    } else {
        roster[rng.between(PARTIES, ROSTER_WORDS - 1)] |= 1 << 63;
    }
    roster
}
