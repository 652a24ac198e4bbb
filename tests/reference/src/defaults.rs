//! The defaults: key 0 is everybody's, and partition 0 is held by whom it was given to, as any other
//! is; and what the slips make of that.

use crate::calls::Operation;
use crate::names::{has_partition, key_bit, partition_bit, PARTIES};
use crate::table::PARTITIONS;
use crate::variant::Variant;

impl Variant {
    /// The partitions that a party holds once the space is opened, by those in the roster.
    pub(crate) fn partitions_opened(self, listed: u64) -> u64 {
        match self {
            Variant::OpensWithPartition0 | Variant::FreePartition0 => listed | partition_bit(0),
            Variant::OpensWithoutPartition0 => listed & !partition_bit(0),
            _ => listed,
        }
    }

    /// The keys that it holds then: key 0 besides those in the roster.
    pub(crate) fn keys_opened(self, listed: u64) -> u64 {
        match self {
            Variant::OpensWithoutKey0 => listed,
            _ => listed | key_bit(0),
        }
    }

    /// Whether a space of the right length has what a slip asks for before it takes it for sound.
    pub(crate) fn has_wanted_partition_0(self, space: &[u64], caller: u32) -> bool {
        let held = |party: usize| has_partition(space[PARTITIONS + party], 0);
        match self {
            Variant::WantsPartition0 | Variant::FreePartition0 => (0..PARTIES).all(held),
            Variant::WantsPartition0OfCaller => {
                let caller = caller as usize;
                caller >= PARTIES || held(caller)
            }
            _ => true,
        }
    }

    /// Whether the names that an operation gives include a carried partition.
    pub(crate) fn gives_partition(self, operation: Operation, partition: u32) -> bool {
        match (self, operation) {
            (Variant::ReceivesNoPartition0, Operation::Receive) => partition > 0,
            (Variant::TakesNoPartition0, Operation::Take) => partition > 0,
            _ => true,
        }
    }
}
