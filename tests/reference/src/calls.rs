//! The five calls: open, put, look, receive and take.

use crate::answer::Answer;
use crate::missing::Used;
use crate::names::{
    co_key, has_partition, key_bit, key_in_range, key_of_stored, may_be_put, partition_bit,
    stored_key, Field, Pair, MOST_FIELDS, PARTIES,
};
use crate::sets::Place;
use crate::table::{
    all_field_words, all_words, has_bit_63, row_fields, row_start, Clause, FIELDS, FIELD_COUNT,
    KEYS, LIMIT, LIVE, PARTITIONS, READ_KEY, READ_SET, ROSTER_WORDS, ROWS, ROW_WORDS, TAKE_KEY,
    TAKE_SET, WORDS, WRITER,
};
use crate::variant::{Step, Variant};

/// What is done with the entry that is found: it is only looked at, its names are received as
/// well, or it is also taken away.
#[derive(Clone, Copy, Debug, PartialEq, Eq, PartialOrd, Ord)]
pub enum Operation {
    Look,
    Receive,
    Take,
}

/// What a look, a receive or a take names: the party and the template.
#[derive(Clone, Copy, Debug)]
pub struct Query<'a> {
    pub party: u32,
    pub pair: Pair,
    pub fields: &'a [u64],
}

/// The reference, right or with a blunder.
#[derive(Clone, Debug)]
pub struct Reference {
    pub(crate) variant: Variant,
    /// Used only by the blunders about charges; the right charge is counted from the rows.
    charges: [usize; PARTIES],
}

impl Reference {
    pub fn correct() -> Reference {
        Reference::with(Variant::Correct)
    }

    pub fn with(variant: Variant) -> Reference {
        Reference {
            variant,
            charges: [0; PARTIES],
        }
    }

    /// Empties the space; each party then holds what the roster lists, and key 0.
    pub fn open(&mut self, space: &mut [u64], roster: &[u64]) -> Answer {
        if space.len() != WORDS {
            return Answer::Refused(1);
        }
        if roster.len() != ROSTER_WORDS || roster[PARTIES..].iter().any(|word| has_bit_63(*word)) {
            return Answer::Refused(9);
        }
        space.fill(0);
        for party in 0..PARTIES {
            space[PARTITIONS + party] = self.variant.partitions_opened(roster[party]);
            space[KEYS + party] = self.variant.keys_opened(roster[PARTIES + party]);
        }
        self.charges = [0; PARTIES];
        Answer::Done
    }

    /// Adds the newest entry, charged to the party.
    pub fn put(
        &mut self,
        space: &mut [u64],
        party: u32,
        read: Pair,
        take: Pair,
        fields: &[u64],
    ) -> Answer {
        if let Some(number) = self.put_refusal(space, party, read, take, fields) {
            return Answer::Refused(number);
        }
        let live = space[LIVE] as usize;
        if live == ROWS {
            // Only a blunder about charges gets here: with every row live, all are at the limit.
            return Answer::Refused(8);
        }
        let start = self.variant.starts(Step::Put).of(live);
        let row = &mut space[start..start + ROW_WORDS];
        row[WRITER] = u64::from(party);
        row[READ_SET] = read.set;
        row[READ_KEY] = stored_key(read.key);
        row[TAKE_SET] = match self.variant {
            Variant::PutsReadSetTwice => read.set,
            _ => take.set,
        };
        row[TAKE_KEY] = stored_key(take.key);
        row[FIELD_COUNT] = fields.len() as u64;
        row[FIELDS..FIELDS + fields.len()].copy_from_slice(fields);
        space[LIVE] += 1;
        self.charges[party as usize] += 1;
        Answer::Done
    }

    /// Looks, receives or takes: finds the oldest match, and does with it what the operation says.
    pub fn find(
        &mut self,
        operation: Operation,
        space: &mut [u64],
        query: Query,
        result: &mut [u64],
    ) -> Answer {
        if let Some(number) = self.find_refusal(operation, space, query, result.len()) {
            return Answer::Refused(number);
        }
        let Some(index) = self.matching_row(operation, space, query) else {
            return Answer::None;
        };
        let start = row_start(index);
        let (writer, set) = (space[start + WRITER] as usize, space[start + READ_SET]);
        let found = row_fields(self.variant.starts(Step::Fields).row(space, index)).to_vec();
        if result.len() < found.len() {
            // Only a blunder gets here: TestsResultLate, or fields that are another row's.
            return Answer::Refused(6);
        }
        result[..found.len()].copy_from_slice(&found);
        let party = query.party as usize;
        if self.gives_names(operation) {
            match self.variant {
                Variant::GivesNamesOfTemplate => {
                    self.give_names(operation, space, party, query.fields);
                }
                _ => self.give_names(operation, space, party, &found),
            }
            if self.variant == Variant::GivesReadSet {
                space[PARTITIONS + party] |= set;
            }
        }
        if self.removes(operation) {
            self.remove_row(space, index);
            self.lower_charge(writer, party);
        }
        Answer::Found(found.len())
    }

    /// The refusals that come first for every call but an opening.
    fn first_refusal(
        &self,
        operation: Option<Operation>,
        space: &[u64],
        party: u32,
        fields: &[u64],
    ) -> Option<u32> {
        if !self.sound(operation, space) || !self.variant.has_wanted_partition_0(space, party) {
            return Some(1);
        }
        if party as usize >= PARTIES {
            return Some(2);
        }
        if fields.is_empty() || fields.len() > MOST_FIELDS {
            return Some(3);
        }
        None
    }

    /// The refusals of a put, in the order of the rules' table.
    fn put_refusal(
        &self,
        space: &[u64],
        party: u32,
        read: Pair,
        take: Pair,
        fields: &[u64],
    ) -> Option<u32> {
        if let Some(number) = self.first_refusal(None, space, party, fields) {
            return Some(number);
        }
        if !self.in_range(Place::Read, read) || !self.in_range(Place::Take, take) {
            return Some(4);
        }
        if !fields.iter().all(|word| self.may_be_put(*word)) {
            return Some(5);
        }
        let party = party as usize;
        let used = Used {
            operation: None,
            party,
            pairs: &[read, take],
            fields,
            result_len: None,
        };
        let lacking = self.last_refusal(space, used);
        let full = (self.charge(space, party) >= self.limit()).then_some(8);
        match self.variant {
            Variant::TestsLimitBeforeNames => full.or(lacking),
            _ => lacking.or(full),
        }
    }

    /// The refusals of a look, a receive or a take, in the order of the rules' table.
    fn find_refusal(
        &self,
        operation: Operation,
        space: &[u64],
        query: Query,
        result_len: usize,
    ) -> Option<u32> {
        let Query {
            party,
            pair,
            fields,
        } = query;
        if let Some(number) = self.first_refusal(Some(operation), space, party, fields) {
            return Some(number);
        }
        if !self.in_range(Place::Template, pair) {
            return Some(4);
        }
        if fields
            .iter()
            .any(|word| self.template_field(*word).is_none())
        {
            return Some(5);
        }
        let used = Used {
            operation: Some(operation),
            party: party as usize,
            pairs: &[pair],
            fields,
            result_len: Some(result_len),
        };
        self.last_refusal(space, used)
    }

    /// Whether a pair that a call names there is in range.
    fn in_range(&self, place: Place, pair: Pair) -> bool {
        self.variant.may_name(place, pair.set) && key_in_range(pair.key)
    }

    fn sound(&self, operation: Option<Operation>, space: &[u64]) -> bool {
        let starts = self.variant.starts(Step::Sound);
        let sets_at = |at: usize| {
            let such = |word| self.variant.may_be_set_in_row(word);
            all_words(starts, space, at, such)
        };
        Clause::ALL
            .into_iter()
            .filter(|clause| !self.skips(operation, *clause))
            .all(|clause| match clause {
                Clause::ReadSet => sets_at(READ_SET),
                Clause::TakeSet => sets_at(TAKE_SET),
                Clause::FieldWords => {
                    all_field_words(starts, space, |word| self.may_be_in_row(word))
                }
                Clause::RowsPastLive => clause.holds_by(self.variant.starts(Step::PastLive), space),
                _ => clause.holds_by(starts, space),
            })
    }

    /// Whether a slip leaves this clause of soundness out; without the length there would be no
    /// table to look at.
    fn skips(&self, operation: Option<Operation>, clause: Clause) -> bool {
        match self.variant {
            Variant::Skips(skipped) => clause == skipped,
            Variant::LookTrustsSpace => {
                operation == Some(Operation::Look) && clause != Clause::Length
            }
            _ => false,
        }
    }

    fn may_be_put(&self, word: u64) -> bool {
        match (self.variant, Field::from_word(word)) {
            (Variant::PutsAtLeast, Some(Field::AtLeast(_))) => true,
            (Variant::PutsAtMost, Some(Field::AtMost(_))) => true,
            _ => may_be_put(word),
        }
    }

    fn may_be_in_row(&self, word: u64) -> bool {
        match (self.variant, Field::from_word(word)) {
            (Variant::AtLeastInRowIsSound, Some(Field::AtLeast(_))) => true,
            (Variant::AtMostInRowIsSound, Some(Field::AtMost(_))) => true,
            _ => may_be_put(word),
        }
    }

    /// The field that a word of a template stands for.
    fn template_field(&self, word: u64) -> Option<Field> {
        match self.variant {
            Variant::KindSixIsWildcard if word >> 32 == 6 => Some(Field::Wildcard),
            _ => Field::from_word(word),
        }
    }

    /// The row of the oldest match in a sound space.
    pub fn matching_row(&self, operation: Operation, space: &[u64], query: Query) -> Option<usize> {
        let starts = self.variant.starts(Step::Search);
        let mut rows = starts
            .live_rows(space)
            .enumerate()
            .filter(|(_, row)| self.matches(operation, row, query))
            .map(|(index, _)| index);
        match (self.variant, operation) {
            (Variant::NewestFirst, _) | (Variant::LookFindsNewest, Operation::Look) => rows.last(),
            _ => rows.next(),
        }
    }

    /// The four conditions of a match.
    fn matches(&self, operation: Operation, row: &[u64], query: Query) -> bool {
        let (set, key) = match self.goes_by_take_pair(operation) {
            true if self.variant == Variant::TakeTestsReadSet => (row[READ_SET], row[TAKE_KEY]),
            true => (row[TAKE_SET], row[TAKE_KEY]),
            false => (row[READ_SET], row[READ_KEY]),
        };
        row[FIELD_COUNT] == query.fields.len() as u64
            && self.key_agrees(key, query.pair.key)
            && self.fields_agree(row_fields(row), query.fields)
            && self.sets_agree(set, query.pair.set, query.fields)
    }

    /// Only a take goes by the take pair.
    fn goes_by_take_pair(&self, operation: Operation) -> bool {
        match (self.variant, operation) {
            (Variant::TakeTestsReadPair, Operation::Take) => false,
            (Variant::LookTestsTakePair, Operation::Look) => true,
            (Variant::ReceiveTestsTakePair, Operation::Receive) => true,
            _ => operation == Operation::Take,
        }
    }

    /// Only a look gives no names.
    fn gives_names(&self, operation: Operation) -> bool {
        match (self.variant, operation) {
            (Variant::LookGivesNames, Operation::Look) => true,
            (Variant::ReceiveGivesNoNames, Operation::Receive) => false,
            (Variant::TakeGivesNoNames, Operation::Take) => false,
            _ => operation != Operation::Look,
        }
    }

    /// Only a take removes the entry.
    fn removes(&self, operation: Operation) -> bool {
        match (self.variant, operation) {
            (Variant::LookRemoves, Operation::Look) => true,
            (Variant::ReceiveRemoves, Operation::Receive) => true,
            _ => operation == Operation::Take,
        }
    }

    fn fields_agree(&self, entrys: &[u64], template: &[u64]) -> bool {
        entrys
            .iter()
            .zip(template)
            .all(|(entrys, templates)| self.field_agrees(*entrys, *templates))
    }

    fn field_agrees(&self, entrys: u64, templates: u64) -> bool {
        let fields = (self.template_field(templates), Field::from_word(entrys));
        let (Some(template), Some(entry)) = fields else {
            // Only a slip that takes a row with a bad word for sound gets here.
            return false;
        };
        self.bound_slip(template, entry)
            .unwrap_or_else(|| template.agrees(entry))
    }

    /// Whether a template's bound agrees with an entry's field, where a slip says it.
    fn bound_slip(&self, template: Field, entry: Field) -> Option<bool> {
        use Field::{AtLeast, AtMost, Key, Message, Partition};
        Some(match (self.variant, template, entry) {
            (Variant::AtLeastIsMoreThan, AtLeast(number), Message(message)) => message > number,
            (Variant::AtMostIsLessThan, AtMost(number), Message(message)) => message < number,
            (Variant::BoundsExchanged, AtLeast(number), Message(message)) => message <= number,
            (Variant::BoundsExchanged, AtMost(number), Message(message)) => message >= number,
            (Variant::AtLeastIsSigned, AtLeast(number), Message(message)) => {
                message as i32 >= number as i32
            }
            (Variant::AtMostIsSigned, AtMost(number), Message(message)) => {
                message as i32 <= number as i32
            }
            (Variant::AtLeastAgreesWithPartition, AtLeast(number), Partition(partition)) => {
                partition >= number
            }
            (Variant::AtMostAgreesWithPartition, AtMost(number), Partition(partition)) => {
                partition <= number
            }
            (Variant::AtLeastAgreesWithKey, AtLeast(number), Key(key)) => {
                stored_key(key) >= number.into()
            }
            (Variant::AtMostAgreesWithKey, AtMost(number), Key(key)) => {
                stored_key(key) <= number.into()
            }
            _ => return None,
        })
    }

    fn sets_agree(&self, entrys: u64, templates: u64, template: &[u64]) -> bool {
        let blunder = match self.variant {
            Variant::DefaultPartitionMatchesAll => has_partition(templates, 0),
            Variant::WildcardsMatchPartition => template.iter().all(|word| is_wildcard(*word)),
            Variant::BoundedMatchesAllPartitions => template.iter().any(|word| is_bound(*word)),
            _ => false,
        };
        blunder || self.variant.sets_agree(entrys, templates)
    }

    fn key_agrees(&self, entrys_stored: u64, templates: i32) -> bool {
        let entrys = key_of_stored(entrys_stored);
        match self.variant {
            Variant::ComparesKeyNotCoKey => entrys == Some(templates),
            _ => entrys.map(co_key) == Some(templates),
        }
    }

    /// The party gains the names that these fields carry.
    fn give_names(&self, operation: Operation, space: &mut [u64], party: usize, fields: &[u64]) {
        for word in fields {
            match Field::from_word(*word) {
                Some(Field::Partition(partition))
                    if self.variant.gives_partition(operation, partition) =>
                {
                    space[PARTITIONS + party] |= partition_bit(partition);
                }
                Some(Field::Key(key)) => {
                    space[KEYS + party] |= key_bit(key);
                    if self.variant == Variant::GivesCoKeyToo {
                        space[KEYS + party] |= key_bit(co_key(key));
                    }
                }
                _ => {}
            }
        }
    }

    /// The rows after it close up, and the last one is cleared.
    fn remove_row(&self, space: &mut [u64], index: usize) {
        let starts = self.variant.starts(Step::Removal);
        let live = space[LIVE] as usize;
        let (start, last) = (starts.of(index), starts.of(live - 1));
        let moved = match self.variant {
            Variant::LeavesLastRow | Variant::LosesLastRow => start + ROW_WORDS..last,
            _ => start + ROW_WORDS..last + ROW_WORDS,
        };
        if !moved.is_empty() {
            space.copy_within(moved, start);
        }
        let freed = self.variant.starts(Step::Freed).of(live - 1);
        let cleared = match self.variant {
            Variant::LeavesFreedRow | Variant::LeavesLastRow => freed..freed,
            Variant::ClearsTwoRows if live > 1 => freed - ROW_WORDS..freed + ROW_WORDS,
            _ => freed..freed + ROW_WORDS,
        };
        space[cleared].fill(0);
        space[LIVE] -= 1;
    }

    fn charge(&self, space: &[u64], party: usize) -> usize {
        if self.variant.keeps_charges() {
            self.charges[party]
        } else {
            let starts = self.variant.starts(Step::Sound);
            starts.rows_of_writer(space, party)
        }
    }

    fn limit(&self) -> usize {
        match self.variant {
            Variant::LimitOneTooHigh => LIMIT + 1,
            _ => LIMIT,
        }
    }

    /// Of no effect on the right reference, which counts rows.
    fn lower_charge(&mut self, writer: usize, taker: usize) {
        if !self.variant.keeps_charges() {
            return;
        }
        let lowered = match self.variant {
            Variant::NeverLowersCharge => return,
            Variant::LowersTakersCharge => taker,
            _ => writer,
        };
        self.charges[lowered] = self.charges[lowered].saturating_sub(1);
        if self.variant == Variant::ChargesTaker {
            self.charges[taker] += 1;
        }
    }
}

fn is_wildcard(word: u64) -> bool {
    Field::from_word(word) == Some(Field::Wildcard)
}

fn is_bound(word: u64) -> bool {
    matches!(
        Field::from_word(word),
        Some(Field::AtLeast(_) | Field::AtMost(_))
    )
}
