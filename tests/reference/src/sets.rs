//! What is asked of sets of partitions, partition by partition; and what the slips ask.

use crate::names::{has_partition, partitions_of, LAST_PARTITION, PARTIES};
use crate::table::{has_some, PARTITIONS};
use crate::variant::Variant;

/// Where a call names a set.
#[derive(Clone, Copy, Debug, PartialEq, Eq)]
pub(crate) enum Place {
    Read,
    Take,
    Template,
}

impl Variant {
    /// Whether a call may name this set there.
    pub(crate) fn may_name(self, place: Place, set: u64) -> bool {
        match (self, place) {
            (Variant::SinglePartitions, _) => set <= LAST_PARTITION.into(),
            (Variant::PutsEmptyReadSet, Place::Read) => true,
            (Variant::PutsEmptyTakeSet, Place::Take) => true,
            (Variant::SeeksEmptySet, Place::Template) => true,
            (Variant::RefusesSeveral, _) => partitions_of(set).count() == 1,
            (Variant::RefusesAll, _) => has_some(set) && set != u64::MAX,
            (Variant::RefusesPartition63, _) => has_some(set) && !has_partition(set, 63),
            (Variant::RefusesWordsAbove63, _) => has_some(set) && set <= 63,
            (Variant::RefusesNoneBelow32, _) => has_below_32(set),
            _ => has_some(set),
        }
    }

    /// Whether a live row may have this word for a set.
    pub(crate) fn may_be_set_in_row(self, set: u64) -> bool {
        match self {
            Variant::SinglePartitions => set <= LAST_PARTITION.into(),
            Variant::SeveralInRowAreUnsound => partitions_of(set).count() == 1,
            Variant::Partition63InRowIsUnsound => has_some(set) && !has_partition(set, 63),
            Variant::WordAbove63InRowIsUnsound => has_some(set) && set <= 63,
            Variant::NoneBelow32InRowIsUnsound => has_below_32(set),
            _ => has_some(set),
        }
    }

    /// Whether a party holds what it needs to name this set.
    pub(crate) fn holds_set(self, space: &[u64], party: usize, set: u64) -> bool {
        let held = |partition: u32| has_partition(space[PARTITIONS + party], partition);
        let by_some = |partition: u32| {
            let mut words = space[PARTITIONS..PARTITIONS + PARTIES].iter();
            words.any(|word| has_partition(*word, partition))
        };
        let mut partitions = partitions_of(set);
        match self {
            Variant::SinglePartitions => held(set as u32),
            Variant::OneHeldIsEnough => partitions.any(held),
            Variant::SmallestHeldIsEnough => partitions.next().is_none_or(held),
            Variant::LargestHeldIsEnough => partitions.next_back().is_none_or(held),
            Variant::HeldBelow32IsEnough => partitions.filter(|at| *at < 32).all(held),
            Variant::HeldByAnybodyIsEnough => partitions.all(by_some),
            Variant::Partition0IsHeldInPairs => partitions.filter(|at| *at > 0).all(held),
            Variant::OneOfSeveralIsForgiven => {
                let lacked = partitions_of(set).filter(|partition| !held(*partition));
                lacked.count() <= usize::from(partitions.count() > 1)
            }
            _ => partitions.all(held),
        }
    }

    /// Whether the set of an entry's pair and a template's agree.
    pub(crate) fn sets_agree(self, entrys: u64, templates: u64) -> bool {
        let in_entrys = |partition: u32| has_partition(entrys, partition);
        let in_templates = |partition: u32| has_partition(templates, partition);
        match self {
            Variant::SinglePartitions => entrys == templates,
            Variant::SetsMustBeEqual => partitions_of(entrys).eq(partitions_of(templates)),
            Variant::TemplatesMustBeWithin => partitions_of(templates).all(in_entrys),
            Variant::EntrysMustBeWithin => partitions_of(entrys).all(in_templates),
            Variant::SmallestMustBeShared => smallest(entrys) == smallest(templates),
            Variant::SmallestOfTemplates => smallest(templates).is_some_and(in_entrys),
            Variant::SmallestOfEntrys => smallest(entrys).is_some_and(in_templates),
            Variant::SharedBelow32 => partitions_of(templates)
                .filter(|at| *at < 32)
                .any(in_entrys),
            Variant::Partition63IsNotShared => partitions_of(templates)
                .filter(|at| *at < 63)
                .any(in_entrys),
            _ => partitions_of(templates).any(in_entrys),
        }
    }
}

fn smallest(set: u64) -> Option<u32> {
    partitions_of(set).next()
}

fn has_below_32(set: u64) -> bool {
    smallest(set).is_some_and(|partition| partition < 32)
}
