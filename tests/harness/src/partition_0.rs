//! What came of the calls by partition 0, which is held only by those to whom it was given.

use crate::call::{found_fields, is_refusal, Call, Kind};
use crate::pool::lacked_names_in;
use crate::rng::Rng;
use crate::sets::{named_pairs, Five};
use reference::names::{has_partition, partition_bit, PARTIES};
use reference::table::PARTITIONS;
use reference::{Field, Operation};

/// For puts, looks, receives and takes.
type Four = [&'static str; 4];

const CARRIED_OUT: Five = [
    "partition 0: put done, it is in the read set",
    "partition 0: put done, it is in the take set",
    "partition 0: look by it, not refused",
    "partition 0: receive by it, not refused",
    "partition 0: take by it, not refused",
];
/// It is all that the pairs lack.
const REFUSED_ALONE: Five = [
    "partition 0: put refused by 13 for it, the read set {0}",
    "partition 0: put refused by 13 for it, the take set {0}",
    "partition 0: look refused by 13 for it, the set {0}",
    "partition 0: receive refused by 13 for it, the set {0}",
    "partition 0: take refused by 13 for it, the set {0}",
];
const REFUSED_WITH_OTHERS: Five = [
    "partition 0: put refused by 13 for it, others in the read set held",
    "partition 0: put refused by 13 for it, others in the take set held",
    "partition 0: look refused by 13 for it, others in the set held",
    "partition 0: receive refused by 13 for it, others in the set held",
    "partition 0: take refused by 13 for it, others in the set held",
];
const IN_FIELD: Four = [
    "partition 0: put that carries it, done",
    "partition 0: look with it in a field, not refused",
    "partition 0: receive with it in a field, not refused",
    "partition 0: take with it in a field, not refused",
];
/// It is all that the fields lack.
const IN_FIELD_REFUSED: Four = [
    "partition 0: put refused by 7 for it",
    "partition 0: look refused by 7 for it",
    "partition 0: receive refused by 7 for it",
    "partition 0: take refused by 7 for it",
];
const FOUND: [&str; 3] = [
    "partition 0: look that found it and didn't gain it",
    "partition 0: receive that gained it",
    "partition 0: take that gained it",
];
/// A space may be sound without it.
const SOUND: [&str; 3] = [
    "partition 0: call not refused, its party lacks it",
    "partition 0: call not refused, another party lacks it",
    "partition 0: call not refused, nobody holds it",
];
const OPENED: [&str; 3] = [
    "partition 0: opening that gives it to nobody",
    "partition 0: opening that gives it to some",
    "partition 0: opening that gives it to all",
];

/// All that has to happen.
pub fn all() -> Vec<&'static str> {
    let fives = [CARRIED_OUT, REFUSED_ALONE, REFUSED_WITH_OTHERS];
    let fours = [IN_FIELD, IN_FIELD_REFUSED];
    let threes = [FOUND, SOUND, OPENED];
    [fives.concat(), fours.concat(), threes.concat()].concat()
}

/// Gives partition 0 to all, to nobody or to about half, or leaves these words of partitions as they
/// are.
pub fn spread(rng: &mut Rng, words: &mut [u64]) {
    let chance = match rng.below(10) {
        0 => 0,
        1 => 100,
        2..6 => 50,
        _ => return,
    };
    for word in words {
        *word &= !partition_bit(0);
        *word |= u64::from(rng.percent(chance)) * partition_bit(0);
    }
}

/// The partitions that a call's party holds; none if there is no such party, or no table.
pub fn held_by_party(call: &Call, space: &[u64]) -> u64 {
    let party = call.party().filter(|party| (*party as usize) < PARTIES);
    let word = party.and_then(|party| space.get(PARTITIONS + party as usize));
    word.copied().unwrap_or_default()
}

/// Whether partition 0 is all that a call's pairs lack, of a party that holds these partitions.
pub fn lacks_it_alone(call: &Call, held: u64) -> bool {
    let pairs = named_pairs(call).into_iter();
    let named = pairs.fold(0, |named, (_, pair)| named | pair.set);
    named & !held == partition_bit(0)
}

fn is_named(call: &Call) -> bool {
    let mut pairs = named_pairs(call).into_iter();
    pairs.any(|(_, pair)| has_partition(pair.set, 0))
}

/// What happened in a call that got this answer and this result, with the words of the space before
/// it and after.
pub fn happenings(
    call: &Call,
    code: u32,
    result: &[u64],
    before: &[u64],
    after: &[u64],
) -> Vec<&'static str> {
    if let Call::Open { .. } = call {
        return opened(code, after).into_iter().collect();
    }
    let held = held_by_party(call, before);
    let mut all = in_pairs(call, code, held);
    all.extend(in_fields(call, code, before));
    all.extend(found(call, code, result, held, held_by_party(call, after)));
    if !is_refusal(code) {
        all.extend(in_sound_space(held, before));
    }
    all
}

fn opened(code: u32, after: &[u64]) -> Option<&'static str> {
    if is_refusal(code) {
        return None;
    }
    let words = after[PARTITIONS..PARTITIONS + PARTIES].iter();
    Some(
        match words.filter(|word| has_partition(**word, 0)).count() {
            0 => OPENED[0],
            PARTIES => OPENED[2],
            _ => OPENED[1],
        },
    )
}

fn in_pairs(call: &Call, code: u32, held: u64) -> Vec<&'static str> {
    let named = named_pairs(call).into_iter();
    let named = named.filter(|(_, pair)| has_partition(pair.set, 0));
    let what = |set: u64| match code {
        113 if !lacks_it_alone(call, held) => None,
        113 if set == partition_bit(0) => Some(REFUSED_ALONE),
        113 => Some(REFUSED_WITH_OTHERS),
        _ => (!is_refusal(code)).then_some(CARRIED_OUT),
    };
    named
        .filter_map(|(place, pair)| what(pair.set).map(|what| what[place]))
        .collect()
}

fn in_fields(call: &Call, code: u32, before: &[u64]) -> Option<&'static str> {
    let place = match call.kind() {
        Kind::Open => return None,
        Kind::Put => 0,
        Kind::Find(operation) => 1 + operation as usize,
    };
    if code == 107 {
        let mut lacked = lacked_names_in(before, call.party()?, call.input());
        let alone = lacked.all(|name| name == Field::Partition(0));
        return alone.then_some(IN_FIELD_REFUSED[place]);
    }
    let carried = call.input().contains(&Field::Partition(0).word());
    (carried && !is_refusal(code)).then_some(IN_FIELD[place])
}

fn found(call: &Call, code: u32, result: &[u64], held: u64, after: u64) -> Option<&'static str> {
    let Call::Find(operation, _) = call else {
        return None;
    };
    let carried = found_fields(call.kind(), code, result).contains(&Field::Partition(0).word());
    let gained = has_partition(after, 0);
    let due = gained == (*operation != Operation::Look);
    (carried && !has_partition(held, 0) && due).then_some(FOUND[*operation as usize])
}

fn in_sound_space(held: u64, before: &[u64]) -> Vec<&'static str> {
    let words = before[PARTITIONS..PARTITIONS + PARTIES].iter();
    let holders = words.filter(|word| has_partition(**word, 0)).count();
    let own = has_partition(held, 0);
    let such = [!own, own && holders < PARTIES, holders == 0];
    let all = SOUND.into_iter().zip(such);
    all.filter_map(|(what, such)| such.then_some(what))
        .collect()
}

/// How often calls that name partition 0 in a pair were carried out, and how often it was lacking.
#[derive(Default)]
pub struct Counts {
    carried_out: u64,
    refused: u64,
}

impl Counts {
    /// Counts a call that got this answer, of a party that held these partitions.
    pub fn add(&mut self, call: &Call, code: u32, held: u64) {
        let refused = code == 113 && lacks_it_alone(call, held);
        self.carried_out += u64::from(is_named(call) && !is_refusal(code));
        self.refused += u64::from(refused);
    }

    /// Fails if there was none of either.
    pub fn finish(&self) -> Result<String, String> {
        let (carried_out, refused) = (self.carried_out, self.refused);
        let text = format!("by partition 0 {carried_out} carried out, {refused} refused for it");
        match carried_out.min(refused) {
            0 => Err(text),
            _ => Ok(text),
        }
    }
}

#[cfg(test)]
mod tests {
    use super::*;
    use reference::Pair;

    fn put(read: u64, take: u64) -> Call {
        let pair = |set| Pair { set, key: 0 };
        Call::Put {
            party: 0,
            read: pair(read),
            take: pair(take),
            fields: vec![1],
        }
    }

    /// By a party that holds partition 5: {5} is 32, {0, 5} is 33, {0, 1, 5} is 35.
    #[test]
    fn what_is_lacked() {
        for (read, take, alone) in [
            (1, 1, true),
            (32, 1, true),
            (33, 32, true),
            (32, 32, false),
            (2, 32, false),
            (1, 2, false),
            (35, 32, false),
        ] {
            assert_eq!(lacks_it_alone(&put(read, take), 32), alone);
            assert!(!lacks_it_alone(&put(read, take), 33));
        }
    }

    #[test]
    fn both_must_come_up() {
        let (done, lacking) = ((put(1, 1), 0, 1), (put(1, 1), 113, 0));
        let others = [(put(2, 2), 0, 3), (put(2, 2), 113, 1), (put(3, 3), 113, 0)];
        let finish = |calls: &[&(Call, u32, u64)]| {
            let mut counts = Counts::default();
            for (call, code, held) in calls.iter().copied().chain(&others) {
                counts.add(call, *code, *held);
            }
            counts.finish()
        };
        assert!(finish(&[]).is_err());
        assert!(finish(&[&done]).is_err());
        assert!(finish(&[&lacking]).is_err());
        let text = "by partition 0 1 carried out, 1 refused for it".to_string();
        assert_eq!(finish(&[&done, &lacking]), Ok(text));
    }
}
