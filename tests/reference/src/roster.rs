//! Roster files: read into rights, printed again, and put into the 16 words of a roster.

use crate::lines::{natural, Fault, Format, BEYOND};
use crate::names::{key_bit, partition_bit, LAST_KEY, LAST_PARTITION, PARTIES};
use crate::roster_variant::RosterVariant;
use crate::table::ROSTER_WORDS;

/// The most bytes that are read.
pub const LONGEST_FILE: usize = 16_384;
/// The first line of every file that is read, and of what is printed for it.
pub const ROSTER_NAMES: &str = "party kind name";

const FORMAT: Format = Format {
    names: ROSTER_NAMES,
    longest: LONGEST_FILE,
    items: 3,
};
/// The answer to a call that isn't lent 16 words.
const WRONG_LENGTH: u32 = 109;

/// What the program prints for a file.
pub fn roster(input: &[u8]) -> Vec<u8> {
    RosterReader::correct().print(input)
}

/// The call for C: either it answers 0 and the words are those of the file, or it answers with a
/// refusal and they stay as they are.
pub fn read_roster(file: &[u8], roster: &mut [u64]) -> u32 {
    RosterReader::correct().call(file, roster)
}

/// A partition or a key in range.
#[derive(Clone, Copy, Debug, PartialEq, Eq)]
pub enum Name {
    Partition(u32),
    Key(i32),
}

/// What one line of a file gives.
#[derive(Clone, Copy, Debug, PartialEq, Eq)]
pub struct Right {
    pub party: usize,
    pub name: Name,
}

impl Right {
    /// As a line without its line feed.
    pub fn text(self) -> String {
        match self.name {
            Name::Partition(partition) => format!("{} p {partition}", self.party),
            Name::Key(key) => format!("{} k {key}", self.party),
        }
    }
}

/// Every right, in the order in which they are printed.
pub fn all_rights() -> Vec<Right> {
    let mut all = Vec::new();
    for party in 0..PARTIES {
        let partitions = (0..=LAST_PARTITION).map(Name::Partition);
        let keys = (-LAST_KEY..=LAST_KEY).map(Name::Key);
        all.extend(partitions.chain(keys).map(|name| Right { party, name }));
    }
    all
}

/// What a readable line says; its numbers may be out of range.
struct Line {
    party: u64,
    kind: Kind,
    minus: bool,
    number: u64,
}

#[derive(Clone, Copy)]
enum Kind {
    Partition,
    Key,
}

/// The reference, right or with a blunder.
#[derive(Clone, Copy, Debug)]
pub struct RosterReader {
    variant: RosterVariant,
}

impl RosterReader {
    pub fn correct() -> RosterReader {
        RosterReader::with(RosterVariant::Correct)
    }

    pub fn with(variant: RosterVariant) -> RosterReader {
        RosterReader { variant }
    }

    /// What the program prints for a file.
    pub fn print(self, file: &[u8]) -> Vec<u8> {
        let read = self.read(file);
        let lines = match &read {
            Ok(rights) => {
                let mut lines = vec![ROSTER_NAMES.to_string()];
                lines.extend(self.in_order(rights).into_iter().map(Right::text));
                lines
            }
            Err(fault) => vec![format!("no{}", self.refusal(*fault))],
        };
        let text: String = lines.iter().map(|line| format!("{line}\n")).collect();
        self.variant.printed_slip(text, read.is_ok()).into_bytes()
    }

    /// Each right once, by party, partitions before keys, smallest number first.
    fn in_order(self, rights: &[Right]) -> Vec<Right> {
        let mut printed = all_rights();
        printed.retain(|right| rights.contains(right) || self.variant.prints_anyway(*right));
        self.variant.order_slip(printed, rights)
    }

    /// Reads a file into the lent words.
    pub fn call(self, file: &[u8], roster: &mut [u64]) -> u32 {
        let wrong_length = !self.takes_length(roster.len());
        if wrong_length && self.variant != RosterVariant::WordsCountedLast {
            return WRONG_LENGTH;
        }
        match self.read(file) {
            // Only the blunder WordsCountedLast gets here.
            Ok(_) if wrong_length => WRONG_LENGTH,
            Ok(rights) => {
                self.write(&self.words(&rights), roster);
                0
            }
            Err(fault) => {
                self.write_refused(file, roster);
                100 + self.refusal(fault)
            }
        }
    }

    fn takes_length(self, length: usize) -> bool {
        match self.variant {
            RosterVariant::TakesFifteenWords if length == ROSTER_WORDS - 1 => true,
            RosterVariant::TakesSeventeenWords if length == ROSTER_WORDS + 1 => true,
            _ => length == ROSTER_WORDS,
        }
    }

    /// The words of a roster with these rights.
    fn words(self, rights: &[Right]) -> [u64; ROSTER_WORDS] {
        let mut words = std::array::from_fn(|place| self.variant.first_word(place));
        for right in rights {
            let (place, bit) = match right.name {
                Name::Partition(partition) => (right.party, partition_bit(partition)),
                Name::Key(key) => (PARTIES + right.party, self.key_bit(key)),
            };
            let (place, bit) = self.variant.bit_slip(place, bit);
            words[place] |= bit;
        }
        words
    }

    fn key_bit(self, key: i32) -> u64 {
        match self.variant {
            RosterVariant::KeyStoredWithout31 => 1 << key.rem_euclid(64),
            // There is no bit for it; the blunder puts it where 32 would be.
            RosterVariant::TakesKeyMinus32 if key == -32 => key_bit(32),
            _ => key_bit(key),
        }
    }

    /// Overwrites the lent words.
    fn write(self, words: &[u64], roster: &mut [u64]) {
        for (place, (lent, word)) in roster.iter_mut().zip(words).enumerate() {
            *lent = match self.variant {
                RosterVariant::KeepsEarlierWords => *lent | word,
                RosterVariant::KeepsWordsWithoutRights if *word == 0 => *lent,
                RosterVariant::KeepsLastWord if place == ROSTER_WORDS - 1 => *lent,
                _ => *word,
            };
        }
    }

    /// A refused call writes nothing, but for blunders.
    fn write_refused(self, file: &[u8], roster: &mut [u64]) {
        match self.variant {
            RosterVariant::ClearsBeforeReading => roster.fill(0),
            RosterVariant::WritesBeforeRefusing => {
                let lines = self.lines(file).unwrap_or_default();
                let before: Vec<Right> = lines.into_iter().map_while(Result::ok).collect();
                if !before.is_empty() {
                    self.write(&self.words(&before), roster);
                }
            }
            _ => {}
        }
    }

    fn refusal(self, fault: Fault) -> u32 {
        match (self.variant, fault.number()) {
            (RosterVariant::ElevenAndTwelveExchanged, 11) => 12,
            (RosterVariant::ElevenAndTwelveExchanged, 12) => 11,
            (_, number) => number,
        }
    }

    /// The rights that a file gives, in its order and as often as it does. The first faulty line
    /// decides why a file is refused.
    pub fn read(self, file: &[u8]) -> Result<Vec<Right>, Fault> {
        let lines = self.lines(file)?;
        if let Some(fault) = self.variant.fault_slip(&lines, file.len()) {
            return Err(fault);
        }
        let rights = lines.into_iter().collect::<Result<Vec<Right>, Fault>>()?;
        self.variant.rights_slip(rights)
    }

    /// What each line after the names line gives, or its fault. A fault of the whole file comes
    /// before those of its lines.
    pub fn lines(self, file: &[u8]) -> Result<Vec<Result<Right, Fault>>, Fault> {
        let lines = FORMAT.lines(file, self.variant.text())?;
        Ok(lines.iter().map(|line| self.line(line)).collect())
    }

    /// What a line, with its line feed, gives. It is read first; then its numbers may be out of
    /// range.
    fn line(self, line: &[u8]) -> Result<Right, Fault> {
        if let Some(fault) = self.early_range_fault(line) {
            return Err(fault);
        }
        let text = line.strip_suffix(b"\n").ok_or(Fault::LineFeed)?;
        self.right(self.readable(text)?)
    }

    /// Reads three items with one blank between.
    fn readable(self, text: &[u8]) -> Result<Line, Fault> {
        let text = self.variant.line_slip(text);
        let items: Vec<&[u8]> = text.split(|byte| *byte == b' ').collect();
        let [party, kind, name] = items[..] else {
            return Err(Fault::Items);
        };
        let party = self.party(party)?;
        let kind = match kind {
            b"p" => Kind::Partition,
            b"k" => Kind::Key,
            _ => return Err(Fault::Kind),
        };
        let (minus, digits) = match name.strip_prefix(b"-") {
            Some(b"0") => return Err(Fault::Number),
            Some(digits) => (true, digits),
            None => (false, name),
        };
        Ok(Line {
            party,
            kind,
            minus,
            number: self.number(digits)?,
        })
    }

    /// A party is a number without a minus.
    fn party(self, item: &[u8]) -> Result<u64, Fault> {
        match (self.variant, item) {
            (RosterVariant::MinusPartyIsOutOfRange, [b'-', digits @ ..]) if digits != b"0" => {
                self.number(digits).map(|_| BEYOND)
            }
            _ => self.number(item),
        }
    }

    fn number(self, digits: &[u8]) -> Result<u64, Fault> {
        natural(digits, self.variant.text())
    }

    /// The right that a readable line gives if its numbers are in range.
    fn right(self, line: Line) -> Result<Right, Fault> {
        if line.party > self.last_party() {
            return Err(Fault::Party);
        }
        let name = match line.kind {
            Kind::Partition => self.partition(line.minus, line.number)?,
            Kind::Key => self.key(line.minus, line.number)?,
        };
        // Only the blunder TakesParty8 gets past 7.
        let party = line.party as usize % PARTIES;
        Ok(Right { party, name })
    }

    fn last_party(self) -> u64 {
        match self.variant {
            RosterVariant::TakesParty8 => 8,
            _ => 7,
        }
    }

    fn partition(self, minus: bool, number: u64) -> Result<Name, Fault> {
        match (self.variant, minus) {
            (RosterVariant::MinusPartitionIsUnreadable, true) => Err(Fault::Number),
            (RosterVariant::TakesPartition64, false) if number == 64 => Ok(Name::Partition(0)),
            (_, false) if number <= u64::from(LAST_PARTITION) => Ok(Name::Partition(number as u32)),
            _ => Err(Fault::Partition),
        }
    }

    fn key(self, minus: bool, number: u64) -> Result<Name, Fault> {
        let last = match (self.variant, minus) {
            (RosterVariant::TakesKey32, false) | (RosterVariant::TakesKeyMinus32, true) => 32,
            _ => LAST_KEY as u64,
        };
        if number > last {
            return Err(Fault::Key);
        }
        let key = number as i32;
        Ok(Name::Key(match (self.variant, minus) {
            (RosterVariant::GivesCoKey, false) | (_, true) => -key,
            _ => key,
        }))
    }

    /// The fault of a number's range that a blunder finds before the whole line is read.
    fn early_range_fault(self, line: &[u8]) -> Option<Fault> {
        let text = line.strip_suffix(b"\n").unwrap_or(line);
        let items: Vec<&[u8]> = text.split(|byte| *byte == b' ').collect();
        let tested = match (self.variant, &items[..]) {
            (RosterVariant::PartyTestedFirst, [party, ..]) => [party, &b"p"[..], b"0"].join(&b' '),
            (RosterVariant::NameTestedFirst, [_, kind, name, ..]) => {
                [&b"0"[..], kind, name].join(&b' ')
            }
            (RosterVariant::LineFeedTestedLast, _) => text.to_vec(),
            _ => return None,
        };
        self.right(self.readable(&tested).ok()?).err()
    }
}
