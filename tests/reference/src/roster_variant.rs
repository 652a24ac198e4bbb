//! Known blunders about roster files, to test whether a comparison catches them.

use crate::lines::Fault;
use crate::names::{key_bit, partition_bit, PARTIES};
use crate::roster::{Name, Right, LONGEST_FILE, ROSTER_NAMES};
use crate::text_slip::{exchanged, TextSlip};
use std::cmp::Reverse;

/// Which reference to be: the right one, or one with a blunder.
#[derive(Clone, Copy, Debug, PartialEq, Eq)]
pub enum RosterVariant {
    Correct,
    /// With a blunder about files of lines.
    Text(TextSlip),
    /// Takes a key for what is left of it in 32 bits with a sign.
    KeyWrapsBelowZero,
    /// Refuses by 12 what is unreadable, and by 11 what is out of range.
    ElevenAndTwelveExchanged,
    /// Looks for an unreadable line everywhere before any range is tested.
    UnreadableLinesFirst,
    /// Refuses by the last faulty line.
    LastFaultDecides,
    /// Tests the party's range before it reads the rest of the line.
    PartyTestedFirst,
    /// Tests the range of a partition or a key before it reads the party.
    NameTestedFirst,
    /// Tests the ranges of the last line before its line feed.
    LineFeedTestedLast,
    /// Refuses a right that comes twice, by 11.
    SameRightTwiceIsUnreadable,
    /// Takes back a right that comes twice.
    SameRightTwiceIsTakenBack,
    /// Refuses a minus before the party by 12.
    MinusPartyIsOutOfRange,
    /// Refuses a minus before a partition by 11.
    MinusPartitionIsUnreadable,
    /// Reads `P` and `K`.
    CapitalKindIsReadable,
    /// Gives partition 0 for 64.
    TakesPartition64,
    /// Gives key 32.
    TakesKey32,
    /// Gives key -32.
    TakesKeyMinus32,
    /// Gives party 0 what is for party 8.
    TakesParty8,
    /// Gives the co-key instead of a key above 0.
    GivesCoKey,
    /// Gives nobody partition 0.
    GivesNoPartition0,
    /// Prints keys before partitions.
    PrintsKeysFirst,
    /// Prints keys from 31 down.
    PrintsKeysFromTop,
    /// Prints partitions from 63 down.
    PrintsPartitionsFromTop,
    /// Prints the partitions of all parties before the keys of all.
    PrintsByKind,
    /// Prints rights in the order of the file.
    PrintsInFilesOrder,
    /// Prints the lines in the order of their bytes.
    PrintsInOrderOfBytes,
    /// Prints a right as often as the file gives it.
    PrintsRightTwice,
    /// Prints a party's keys for the next party.
    PrintsKeysOfAnother,
    /// Prints partition 0 for everybody.
    PrintsPartition0,
    /// Prints key 0 for everybody, which the opening adds.
    PrintsKey0,
    /// Prints the names line before a refusal.
    PrintsNamesOfRefused,
    /// Prints no names line.
    PrintsNoNames,
    /// Prints the names line only if there are rights.
    PrintsNamesOnlyWithRights,
    /// Prints no line feed at the end.
    PrintsNoLastLineFeed,
    /// Puts a key into the bit of its own number.
    KeyStoredWithout31,
    /// Takes 32 bits for the length of a word.
    BitsWrapAt32,
    /// Puts the keys into the first eight words.
    KeysInFirstWords,
    /// Gives everybody partition 0 besides.
    AddsPartition0,
    /// Gives everybody key 0 besides, as only the opening does.
    AddsKey0,
    /// A refused call leaves zeros.
    ClearsBeforeReading,
    /// A refused call leaves what the lines before the fault give.
    WritesBeforeRefusing,
    /// Adds to what the words held.
    KeepsEarlierWords,
    /// Leaves a word as it was if there are no rights for it.
    KeepsWordsWithoutRights,
    /// Leaves the last word as it was.
    KeepsLastWord,
    /// Counts the lent words after it has read the file.
    WordsCountedLast,
    /// Takes 15 words.
    TakesFifteenWords,
    /// Takes 17 words.
    TakesSeventeenWords,
}

impl RosterVariant {
    /// Blunders of reading, seen in what is printed and in the words. `TextSlip::ALL` has more.
    pub const OF_READING: [RosterVariant; 18] = [
        RosterVariant::KeyWrapsBelowZero,
        RosterVariant::ElevenAndTwelveExchanged,
        RosterVariant::UnreadableLinesFirst,
        RosterVariant::LastFaultDecides,
        RosterVariant::PartyTestedFirst,
        RosterVariant::NameTestedFirst,
        RosterVariant::LineFeedTestedLast,
        RosterVariant::SameRightTwiceIsUnreadable,
        RosterVariant::SameRightTwiceIsTakenBack,
        RosterVariant::MinusPartyIsOutOfRange,
        RosterVariant::MinusPartitionIsUnreadable,
        RosterVariant::CapitalKindIsReadable,
        RosterVariant::TakesPartition64,
        RosterVariant::TakesKey32,
        RosterVariant::TakesKeyMinus32,
        RosterVariant::TakesParty8,
        RosterVariant::GivesCoKey,
        RosterVariant::GivesNoPartition0,
    ];

    /// Blunders of printing alone.
    pub const OF_PRINTING: [RosterVariant; 14] = [
        RosterVariant::PrintsKeysFirst,
        RosterVariant::PrintsKeysFromTop,
        RosterVariant::PrintsPartitionsFromTop,
        RosterVariant::PrintsByKind,
        RosterVariant::PrintsInFilesOrder,
        RosterVariant::PrintsInOrderOfBytes,
        RosterVariant::PrintsRightTwice,
        RosterVariant::PrintsKeysOfAnother,
        RosterVariant::PrintsPartition0,
        RosterVariant::PrintsKey0,
        RosterVariant::PrintsNamesOfRefused,
        RosterVariant::PrintsNoNames,
        RosterVariant::PrintsNamesOnlyWithRights,
        RosterVariant::PrintsNoLastLineFeed,
    ];

    /// Blunders of the call alone.
    pub const OF_WORDS: [RosterVariant; 13] = [
        RosterVariant::KeyStoredWithout31,
        RosterVariant::BitsWrapAt32,
        RosterVariant::KeysInFirstWords,
        RosterVariant::AddsPartition0,
        RosterVariant::AddsKey0,
        RosterVariant::ClearsBeforeReading,
        RosterVariant::WritesBeforeRefusing,
        RosterVariant::KeepsEarlierWords,
        RosterVariant::KeepsWordsWithoutRights,
        RosterVariant::KeepsLastWord,
        RosterVariant::WordsCountedLast,
        RosterVariant::TakesFifteenWords,
        RosterVariant::TakesSeventeenWords,
    ];

    /// The blunder about files of lines, if it is one.
    pub(crate) fn text(self) -> TextSlip {
        match self {
            RosterVariant::Text(slip) => slip,
            _ => TextSlip::Correct,
        }
    }

    /// What the text of a line is taken for.
    pub(crate) fn line_slip(self, text: &[u8]) -> Vec<u8> {
        match self {
            RosterVariant::CapitalKindIsReadable => {
                exchanged(&exchanged(text, b'P', b'p'), b'K', b'k')
            }
            RosterVariant::KeyWrapsBelowZero => with_key_wrapped(text),
            _ => text.to_vec(),
        }
    }

    /// The fault that decides, where a slip doesn't take that of the first faulty line.
    pub(crate) fn fault_slip(self, lines: &[Result<Right, Fault>], length: usize) -> Option<Fault> {
        let mut faults = lines.iter().filter_map(|line| line.err());
        match self {
            RosterVariant::UnreadableLinesFirst => faults.find(|fault| fault.number() == 11),
            RosterVariant::LastFaultDecides => faults.next_back(),
            RosterVariant::Text(TextSlip::FileLengthTestedLast) if length > LONGEST_FILE => {
                Some(faults.next().unwrap_or(Fault::TooLong))
            }
            _ => None,
        }
    }

    /// The rights of a file, where a slip minds which they are, or that one comes twice.
    pub(crate) fn rights_slip(self, rights: Vec<Right>) -> Result<Vec<Right>, Fault> {
        let times = |right: &Right| rights.iter().filter(|other| *other == right).count();
        match self {
            RosterVariant::SameRightTwiceIsUnreadable if rights.iter().any(|r| times(r) > 1) => {
                Err(Fault::Number)
            }
            RosterVariant::SameRightTwiceIsTakenBack => Ok(rights
                .iter()
                .filter(|right| times(right) % 2 == 1)
                .copied()
                .collect()),
            RosterVariant::GivesNoPartition0 => Ok(rights
                .into_iter()
                .filter(|right| right.name != Name::Partition(0))
                .collect()),
            _ => Ok(rights),
        }
    }

    /// Whether a right is printed that the file doesn't give.
    pub(crate) fn prints_anyway(self, right: Right) -> bool {
        match self {
            RosterVariant::PrintsPartition0 => right.name == Name::Partition(0),
            RosterVariant::PrintsKey0 => right.name == Name::Key(0),
            _ => false,
        }
    }

    /// The rights as they are printed; `printed` has them in order, and `rights` as in the file.
    pub(crate) fn order_slip(self, mut printed: Vec<Right>, rights: &[Right]) -> Vec<Right> {
        match self {
            RosterVariant::PrintsKeysFirst => {
                printed.sort_by_key(|right| (right.party, !is_key(*right)));
            }
            RosterVariant::PrintsByKind => printed.sort_by_key(|right| is_key(*right)),
            RosterVariant::PrintsKeysFromTop => printed.sort_by_key(|right| match right.name {
                Name::Partition(_) => (right.party, false, Reverse(0)),
                Name::Key(key) => (right.party, true, Reverse(key)),
            }),
            RosterVariant::PrintsPartitionsFromTop => {
                printed.sort_by_key(|right| match right.name {
                    Name::Partition(partition) => (right.party, false, Reverse(partition)),
                    Name::Key(_) => (right.party, true, Reverse(0)),
                })
            }
            RosterVariant::PrintsInFilesOrder => {
                printed.sort_by_key(|right| rights.iter().position(|other| other == right));
            }
            RosterVariant::PrintsInOrderOfBytes => printed.sort_by_key(|right| right.text()),
            RosterVariant::PrintsRightTwice => {
                printed = printed
                    .into_iter()
                    .flat_map(|right| rights.iter().filter(move |other| **other == right))
                    .copied()
                    .collect();
            }
            RosterVariant::PrintsKeysOfAnother => {
                for right in printed.iter_mut().filter(|right| is_key(**right)) {
                    right.party = (right.party + 1) % PARTIES;
                }
            }
            _ => {}
        }
        printed
    }

    /// The text as it is printed; a refused file's is the refusal.
    pub(crate) fn printed_slip(self, text: String, read: bool) -> String {
        let names = format!("{ROSTER_NAMES}\n");
        match self {
            RosterVariant::PrintsNamesOfRefused if !read => names + &text,
            RosterVariant::PrintsNoNames => text.replacen(&names, "", 1),
            RosterVariant::PrintsNamesOnlyWithRights if text == names => String::new(),
            RosterVariant::PrintsNoLastLineFeed => text.trim_end().to_string(),
            _ => text,
        }
    }

    /// The word of a roster before any right is put into it.
    pub(crate) fn first_word(self, place: usize) -> u64 {
        match self {
            RosterVariant::AddsPartition0 if place < PARTIES => partition_bit(0),
            RosterVariant::AddsKey0 if place >= PARTIES => key_bit(0),
            _ => 0,
        }
    }

    /// The word and the bit that a right is put into.
    pub(crate) fn bit_slip(self, place: usize, bit: u64) -> (usize, u64) {
        match self {
            RosterVariant::BitsWrapAt32 => (place, (bit | bit >> 32) & u64::from(u32::MAX)),
            RosterVariant::KeysInFirstWords => ((place + PARTIES) % (2 * PARTIES), bit),
            _ => (place, bit),
        }
    }
}

fn is_key(right: Right) -> bool {
    matches!(right.name, Name::Key(_))
}

/// The line with its key taken for one of 32 bits with a sign.
fn with_key_wrapped(text: &[u8]) -> Vec<u8> {
    let mut items: Vec<Vec<u8>> = text
        .split(|byte| *byte == b' ')
        .map(<[u8]>::to_vec)
        .collect();
    if let [_, kind, name] = &mut items[..] {
        let number = std::str::from_utf8(name).map(str::parse::<u32>);
        match (&kind[..], number) {
            (b"k", Ok(Ok(number))) if number > i32::MAX as u32 => {
                *name = (number as i32).to_string().into_bytes();
            }
            _ => {}
        }
    }
    items.join(&b' ')
}
