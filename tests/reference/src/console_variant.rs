//! Known blunders of the console, to test whether a comparison catches them.

use crate::calls::Operation;
use crate::names::partition_bit;

/// Which console to be: the right one, or one with a blunder.
#[derive(Clone, Copy, Debug, PartialEq, Eq)]
pub enum ConsoleVariant {
    Correct,
    /// Takes `read` for a receive.
    ReadIsReadable,
    /// Receives at `look`.
    LookReceives,
    /// Only looks at `receive`.
    ReceiveLooks,
    /// Takes at `receive`.
    ReceiveTakes,
    /// Can't read `look`.
    LookIsUnreadable,
    /// Reads `5:5` as `5`.
    ReadsTwice,
    /// Reads `9:5` as `5:9`.
    ReadsAnyOrder,
    /// Reads `5:` as `5`.
    ReadsColonAfter,
    /// Reads `:5` as `5`.
    ReadsColonBefore,
    /// Reads `5::9` as `5:9`.
    ReadsTwoColons,
    /// Reads `05` as `5`.
    ReadsLeadingZero,
    /// Reads `+5` as `5`.
    ReadsPlus,
    /// Reads `-5` as `5`.
    ReadsMinus,
    /// Reads `5,9` as `5:9`.
    ReadsComma,
    /// Reads `64` as `0`.
    Reads64As0,
    /// Reads 2^32 + 5 as `5`.
    WrapsAt32,
    /// Reads 2^64 + 5 as `5`.
    WrapsAt64,
    /// Reads `64` as the empty set, which no text is.
    Reads64AsEmpty,
    /// Reads `-` as the empty set.
    ReadsAbsentAsEmpty,
    /// Reads only the first partition of a set.
    ReadsFirstAlone,
    /// Reads only the last.
    ReadsLastAlone,
    /// Can't read a set of several partitions.
    SeveralAreUnreadable,
    /// Can't read more than 16 partitions, as it can't read more fields.
    SeventeenAreUnreadable,
    /// Can't read partition 63.
    Partition63IsUnreadable,
    /// Reads a set in a gift.
    GivesSets,
    /// Gives everybody partition 0, which no line has given.
    GivesPartition0ToAll,
    /// Gives nothing for a gift of partition 0.
    GivesNoPartition0,
    /// Can't read a gift of partition 0.
    GiftOf0IsUnreadable,
}

impl ConsoleVariant {
    /// Those about the words of lines.
    pub const WORD_SLIPS: [ConsoleVariant; 5] = [
        ConsoleVariant::ReadIsReadable,
        ConsoleVariant::LookReceives,
        ConsoleVariant::ReceiveLooks,
        ConsoleVariant::ReceiveTakes,
        ConsoleVariant::LookIsUnreadable,
    ];

    /// Those about how sets are written.
    pub const SET_SLIPS: [ConsoleVariant; 20] = [
        ConsoleVariant::ReadsTwice,
        ConsoleVariant::ReadsAnyOrder,
        ConsoleVariant::ReadsColonAfter,
        ConsoleVariant::ReadsColonBefore,
        ConsoleVariant::ReadsTwoColons,
        ConsoleVariant::ReadsLeadingZero,
        ConsoleVariant::ReadsPlus,
        ConsoleVariant::ReadsMinus,
        ConsoleVariant::ReadsComma,
        ConsoleVariant::Reads64As0,
        ConsoleVariant::WrapsAt32,
        ConsoleVariant::WrapsAt64,
        ConsoleVariant::Reads64AsEmpty,
        ConsoleVariant::ReadsAbsentAsEmpty,
        ConsoleVariant::ReadsFirstAlone,
        ConsoleVariant::ReadsLastAlone,
        ConsoleVariant::SeveralAreUnreadable,
        ConsoleVariant::SeventeenAreUnreadable,
        ConsoleVariant::Partition63IsUnreadable,
        ConsoleVariant::GivesSets,
    ];

    /// Those about gifts of partition 0.
    pub const DEFAULT_SLIPS: [ConsoleVariant; 3] = [
        ConsoleVariant::GivesPartition0ToAll,
        ConsoleVariant::GivesNoPartition0,
        ConsoleVariant::GiftOf0IsUnreadable,
    ];

    /// The partitions that a party has before any line has given it some.
    pub(crate) fn first_partitions(self) -> u64 {
        match self {
            ConsoleVariant::GivesPartition0ToAll => partition_bit(0),
            _ => 0,
        }
    }

    /// What a gift of this partition gives, and none if it can't be read.
    pub(crate) fn gift(self, partition: u32) -> Option<Vec<u32>> {
        match (self, partition) {
            (ConsoleVariant::GiftOf0IsUnreadable, 0) => None,
            (ConsoleVariant::GivesNoPartition0, 0) => Some(Vec::new()),
            _ => Some(vec![partition]),
        }
    }

    /// The operation that a line's first item stands for.
    pub(crate) fn operation(self, item: &[u8]) -> Option<Operation> {
        match (self, item) {
            (ConsoleVariant::ReadIsReadable, b"read") => Some(Operation::Receive),
            (ConsoleVariant::LookReceives, b"look") => Some(Operation::Receive),
            (ConsoleVariant::ReceiveLooks, b"receive") => Some(Operation::Look),
            (ConsoleVariant::ReceiveTakes, b"receive") => Some(Operation::Take),
            (ConsoleVariant::LookIsUnreadable, b"look") => None,
            (_, b"look") => Some(Operation::Look),
            (_, b"receive") => Some(Operation::Receive),
            (_, b"take") => Some(Operation::Take),
            _ => None,
        }
    }

    /// Whether this text of a pair's set is taken for the empty one.
    pub(crate) fn is_empty_set(self, text: &[u8]) -> bool {
        match self {
            ConsoleVariant::Reads64AsEmpty => text == b"64",
            ConsoleVariant::ReadsAbsentAsEmpty => text == b"-",
            _ => false,
        }
    }

    /// The text as which that of a pair's set is read, which is none if nothing is to be read.
    pub(crate) fn respelled(self, text: &[u8]) -> Vec<u8> {
        let split =
            |byte: &u8| *byte == b':' || self == ConsoleVariant::ReadsComma && *byte == b',';
        let mut parts: Vec<Vec<u8>> = text.split(split).map(<[u8]>::to_vec).collect();
        let several = parts.len() > 1;
        match self {
            ConsoleVariant::ReadsTwice => parts.dedup(),
            ConsoleVariant::ReadsAnyOrder => parts.sort_by_key(|part| (part.len(), part.clone())),
            ConsoleVariant::ReadsColonAfter if several => {
                drop_empty(&mut parts, |at, last| at == last)
            }
            ConsoleVariant::ReadsColonBefore if several => drop_empty(&mut parts, |at, _| at == 0),
            ConsoleVariant::ReadsTwoColons => {
                drop_empty(&mut parts, |at, last| at > 0 && at < last)
            }
            ConsoleVariant::ReadsFirstAlone => parts.truncate(1),
            ConsoleVariant::ReadsLastAlone => drop(parts.drain(..parts.len() - 1)),
            ConsoleVariant::SeveralAreUnreadable if several => parts.clear(),
            ConsoleVariant::SeventeenAreUnreadable if parts.len() > 16 => parts.clear(),
            ConsoleVariant::Partition63IsUnreadable if parts.iter().any(|part| part == b"63") => {
                parts.clear();
            }
            _ => parts.iter_mut().for_each(|part| self.respell_part(part)),
        }
        parts.join(&b':')
    }

    fn respell_part(self, part: &mut Vec<u8>) {
        match self {
            ConsoleVariant::ReadsLeadingZero => {
                while part.len() > 1 && part[0] == b'0' {
                    part.remove(0);
                }
            }
            ConsoleVariant::ReadsPlus => drop_sign(part, b'+'),
            ConsoleVariant::ReadsMinus => drop_sign(part, b'-'),
            ConsoleVariant::Reads64As0 if part == b"64" => *part = b"0".to_vec(),
            ConsoleVariant::WrapsAt32 => wrap(part, 1 << 32),
            ConsoleVariant::WrapsAt64 => wrap(part, 1 << 64),
            _ => {}
        }
    }
}

/// Drops the empty parts at such places, of which the last is given too.
fn drop_empty(parts: &mut Vec<Vec<u8>>, such: impl Fn(usize, usize) -> bool) {
    let last = parts.len() - 1;
    let mut places = 0..;
    parts.retain(|part| !(places.next().is_some_and(|at| such(at, last)) && part.is_empty()));
}

fn drop_sign(part: &mut Vec<u8>, sign: u8) {
    if part.first() == Some(&sign) {
        part.remove(0);
    }
}

/// What is left of a number, if there is one without a sign or a leading zero.
fn wrap(part: &mut Vec<u8>, modulus: u128) {
    let text = String::from_utf8_lossy(part);
    if let (Some(b'1'..=b'9'), Ok(number)) = (part.first(), text.parse::<u128>()) {
        *part = (number % modulus).to_string().into_bytes();
    }
}
