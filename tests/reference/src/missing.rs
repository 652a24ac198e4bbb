//! The last tests that a call is put to: whether its party holds the names that it uses, and whether
//! it lends enough result words; and what the slips make of these.

use crate::calls::{Operation, Reference};
use crate::names::{has_partition, key_bit, Field, Pair, LAST_PARTITION};
use crate::table::{KEYS, PARTITIONS};
use crate::variant::Variant;

/// The names that a call uses, and who makes it; a put has no operation.
#[derive(Clone, Copy, Debug)]
pub(crate) struct Used<'a> {
    pub operation: Option<Operation>,
    pub party: usize,
    /// A put's pair for reading is the first.
    pub pairs: &'a [Pair],
    pub fields: &'a [u64],
    /// How many result words are lent; a put needs none.
    pub result_len: Option<usize>,
}

/// The tests that come after that of the field words.
#[derive(Clone, Copy, Debug, PartialEq, Eq)]
enum Test {
    /// Of the sets of the pairs.
    Partitions,
    /// Of the keys of the pairs.
    Keys,
    /// Of the names in fields, be they partitions or keys.
    Carried,
    /// Of the number of result words.
    Result,
}

impl Reference {
    /// The refusal where a name isn't held or the result is short: first for a partition of any
    /// pair, then for a key of any pair, then for what a field carries, then for the result.
    pub(crate) fn last_refusal(&self, space: &[u64], used: Used) -> Option<u32> {
        let failed = match self.variant {
            Variant::NamesPairByPair => self.first_pair_by_pair(space, used),
            _ => self.first_failed(space, used),
        };
        failed.map(|test| self.variant.refusal_of(used.operation, test))
    }

    fn first_failed(&self, space: &[u64], used: Used) -> Option<Test> {
        let mut tests = self.variant.tests_in_order(used.operation).iter().copied();
        tests.find(|test| self.fails(space, used, *test))
    }

    /// A slip: everything of one pair comes before anything of the next.
    fn first_pair_by_pair(&self, space: &[u64], used: Used) -> Option<Test> {
        let of_pair = |pair| Used {
            pairs: std::slice::from_ref(pair),
            fields: &[],
            ..used
        };
        let mut pairs = used.pairs.iter();
        let first = pairs.find_map(|pair| self.first_failed(space, of_pair(pair)));
        first.or_else(|| self.first_failed(space, used))
    }

    fn fails(&self, space: &[u64], used: Used, test: Test) -> bool {
        let mut pairs = self.variant.pairs_asked(test, used.pairs).iter();
        let lacked_in_field = |such: fn(Field) -> bool| {
            let fields = used
                .fields
                .iter()
                .filter_map(|word| Field::from_word(*word));
            fields
                .filter(|field| such(*field))
                .any(|field| self.lacks_carried(space, used.party, field))
        };
        match test {
            Test::Partitions => {
                pairs.any(|pair| !self.variant.holds_set(space, used.party, pair.set))
                    || self.variant == Variant::CarriedPartitionBy13
                        && lacked_in_field(|field| matches!(field, Field::Partition(_)))
            }
            Test::Keys => {
                pairs.any(|pair| !holds_key(space, used.party, pair.key))
                    || self.variant == Variant::CarriedKeyBy14
                        && lacked_in_field(|field| matches!(field, Field::Key(_)))
            }
            Test::Carried => lacked_in_field(|_| true),
            Test::Result => {
                let needed = self.variant.words_needed(used.fields.len());
                used.result_len.is_some_and(|lent| lent < needed)
            }
        }
    }

    /// Whether the party lacks the name that a field carries. A slip finds one in a bound.
    fn lacks_carried(&self, space: &[u64], party: usize, field: Field) -> bool {
        match (self.variant, field) {
            (Variant::Partition0IsHeldInFields, Field::Partition(0)) => false,
            (_, Field::Partition(partition)) => !holds_partition(space, party, partition),
            (_, Field::Key(key)) => !holds_key(space, party, key),
            (Variant::AtMostNamesPartition, Field::AtMost(number)) => {
                number <= LAST_PARTITION && !holds_partition(space, party, number)
            }
            _ => false,
        }
    }
}

impl Variant {
    /// The order of the table, but for slips.
    fn tests_in_order(self, operation: Option<Operation>) -> &'static [Test] {
        use Test::{Carried, Keys, Partitions, Result};
        match (self, operation) {
            (Variant::TestsResultBeforeNames, _)
            | (Variant::LookTestsResultFirst, Some(Operation::Look))
            | (Variant::ReceiveTestsResultFirst, Some(Operation::Receive))
            | (Variant::TakeTestsResultFirst, Some(Operation::Take)) => {
                &[Result, Partitions, Keys, Carried]
            }
            (Variant::TestsResultBeforeKeys, _) => &[Partitions, Result, Keys, Carried],
            (Variant::TestsResultBeforeCarried, _) => &[Partitions, Keys, Result, Carried],
            (Variant::TestsResultLate, _) => &[Partitions, Keys, Carried],
            (Variant::LookNeedsNoNames, Some(Operation::Look)) => &[Result],
            (Variant::KeysBeforePartitions, _) => &[Keys, Partitions, Carried, Result],
            (Variant::CarriedBeforeKeys, _) => &[Partitions, Carried, Keys, Result],
            (Variant::CarriedFirst, _) => &[Carried, Partitions, Keys, Result],
            _ => &[Partitions, Keys, Carried, Result],
        }
    }

    /// The result words that a template of so many fields needs.
    fn words_needed(self, fields: usize) -> usize {
        match self {
            Variant::WantsOneMoreResultWord => fields + 1,
            _ => fields,
        }
    }

    fn refusal_of(self, operation: Option<Operation>, test: Test) -> u32 {
        let [partitions, keys, carried] = match (self, operation) {
            (Variant::OneRefusalForNames, _) => [7; 3],
            (Variant::Exchanges13And14, _) => [14, 13, 7],
            (Variant::Exchanges14And7, _) => [13, 7, 14],
            (Variant::Exchanges13And7, _) => [7, 14, 13],
            (Variant::AllNamesBy13, _) => [13; 3],
            (Variant::NamesOfPutBy7, None) => [7; 3],
            (Variant::NamesOfLookBy7, Some(Operation::Look)) => [7; 3],
            _ => [13, 14, 7],
        };
        match test {
            Test::Partitions => partitions,
            Test::Keys => keys,
            Test::Carried => carried,
            Test::Result => 6,
        }
    }

    /// The pairs of which it is asked whether the name there is held: all but for slips, which
    /// forget one of a put's.
    fn pairs_asked(self, test: Test, pairs: &[Pair]) -> &[Pair] {
        let last = pairs.len() - 1;
        match (self, test) {
            (Variant::ReadSetAloneHeld, Test::Partitions) => &pairs[..1],
            (Variant::TakeSetAloneHeld, Test::Partitions) => &pairs[last..],
            (Variant::ReadKeyAloneHeld, Test::Keys) => &pairs[..1],
            (Variant::TakeKeyAloneHeld, Test::Keys) => &pairs[last..],
            _ => pairs,
        }
    }
}

fn holds_partition(space: &[u64], party: usize, partition: u32) -> bool {
    has_partition(space[PARTITIONS + party], partition)
}

fn holds_key(space: &[u64], party: usize, key: i32) -> bool {
    space[KEYS + party] & key_bit(key) != 0
}
