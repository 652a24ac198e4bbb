//! Known blunders about files of lines, whatever the lines say.

use crate::lines::Fault;

/// How to read a file: rightly, or with a blunder.
#[derive(Clone, Copy, Debug, PartialEq, Eq)]
pub enum TextSlip {
    Correct,
    /// Takes a number for what is left of it in 64 bits.
    NumberWrapsAt64,
    /// The same in 32 bits.
    NumberWrapsAt32,
    /// The same in 16 bits.
    NumberWrapsAt16,
    /// The same in 8 bits.
    NumberWrapsAt8,
    /// Can't read a number of more than ten digits.
    LongNumberIsUnreadable,
    /// Reads a last line without a line feed.
    LastLineFeedMayLack,
    /// Reads `-0`.
    MinusZeroIsReadable,
    /// Reads a number with leading zeros.
    LeadingZeroIsReadable,
    /// Reads a number with a plus before it.
    PlusIsReadable,
    /// Refuses a file of the most bytes that are read.
    RefusesLongestFile,
    /// Reads a file of one byte more.
    ReadsOneByteMore,
    /// Reads as many bytes as may be of a file that is longer.
    CutsLongFile,
    /// Tests the length of a file after its lines.
    FileLengthTestedLast,
    /// Refuses an empty file by 11.
    EmptyFileIsUnreadable,
    /// Reads an empty file as one without lines.
    EmptyFileIsReadable,
    /// Reads a file of the names line alone without its line feed.
    NamesLineFeedMayLack,
    /// Reads a names line that ends in a carriage return.
    NamesCarriageReturnIsReadable,
    /// Reads a names line in capital letters.
    CapitalNamesAreReadable,
    /// Reads a names line with more after it.
    NamesLineMayGoOn,
    /// Passes over the first line, whatever it says.
    AnyNamesLine,
    /// Reads a file that begins with the lines after the names line.
    NamesLineMayLack,
    /// Reads a line that ends in a carriage return.
    CarriageReturnIsReadable,
    /// Reads a line with a blank at its end.
    BlankAtEndIsReadable,
    /// Reads a line with a blank at its start.
    BlankAtStartIsReadable,
    /// Reads two blanks between items.
    TwoBlanksAreReadable,
    /// Reads a tab between items.
    TabIsReadable,
    /// Passes over empty lines.
    EmptyLineIsSkipped,
    /// Passes over what comes after the last item.
    MoreItemsAreReadable,
    /// Takes the byte before `0` for a digit.
    SlashIsDigit,
    /// Takes the byte after `9` for a digit.
    ColonIsDigit,
    /// Takes a byte of 0 for the end of the file.
    EndsAtByte0,
}

impl TextSlip {
    /// All blunders.
    pub const ALL: [TextSlip; 31] = [
        TextSlip::NumberWrapsAt64,
        TextSlip::NumberWrapsAt32,
        TextSlip::NumberWrapsAt16,
        TextSlip::NumberWrapsAt8,
        TextSlip::LongNumberIsUnreadable,
        TextSlip::LastLineFeedMayLack,
        TextSlip::MinusZeroIsReadable,
        TextSlip::LeadingZeroIsReadable,
        TextSlip::PlusIsReadable,
        TextSlip::RefusesLongestFile,
        TextSlip::ReadsOneByteMore,
        TextSlip::CutsLongFile,
        TextSlip::FileLengthTestedLast,
        TextSlip::EmptyFileIsUnreadable,
        TextSlip::EmptyFileIsReadable,
        TextSlip::NamesLineFeedMayLack,
        TextSlip::NamesCarriageReturnIsReadable,
        TextSlip::CapitalNamesAreReadable,
        TextSlip::NamesLineMayGoOn,
        TextSlip::AnyNamesLine,
        TextSlip::NamesLineMayLack,
        TextSlip::CarriageReturnIsReadable,
        TextSlip::BlankAtEndIsReadable,
        TextSlip::BlankAtStartIsReadable,
        TextSlip::TwoBlanksAreReadable,
        TextSlip::TabIsReadable,
        TextSlip::EmptyLineIsSkipped,
        TextSlip::MoreItemsAreReadable,
        TextSlip::SlashIsDigit,
        TextSlip::ColonIsDigit,
        TextSlip::EndsAtByte0,
    ];

    /// A number with one more digit, where a slip says it.
    pub(crate) fn digit_slip(self, number: u64, digit: u64) -> Option<u64> {
        let wrapped = number.wrapping_mul(10).wrapping_add(digit);
        match self {
            TextSlip::NumberWrapsAt64 => Some(wrapped),
            TextSlip::NumberWrapsAt32 => Some(u64::from(wrapped as u32)),
            TextSlip::NumberWrapsAt16 => Some(u64::from(wrapped as u16)),
            TextSlip::NumberWrapsAt8 => Some(u64::from(wrapped as u8)),
            _ => None,
        }
    }

    /// The part of a file that is read, where `longest` bytes may be.
    pub(crate) fn cut_slip(self, file: &[u8], longest: usize) -> &[u8] {
        let end = match self {
            TextSlip::CutsLongFile => longest,
            TextSlip::EndsAtByte0 => file
                .iter()
                .position(|byte| *byte == 0)
                .unwrap_or(file.len()),
            _ => file.len(),
        };
        &file[..end.min(file.len())]
    }

    /// The most bytes that are taken, where `longest` may be read.
    pub(crate) fn longest_file(self, longest: usize) -> usize {
        match self {
            TextSlip::RefusesLongestFile => longest - 1,
            TextSlip::ReadsOneByteMore => longest + 1,
            TextSlip::FileLengthTestedLast => usize::MAX,
            _ => longest,
        }
    }

    /// The lines of a file that doesn't begin with the names line, where a slip reads it.
    pub(crate) fn names_slip<'a>(self, file: &'a [u8], names: &str) -> Result<&'a [u8], Fault> {
        let (first, rest) = match file.iter().position(|byte| *byte == b'\n') {
            Some(end) => (&file[..end], Some(&file[end + 1..])),
            None => (file, None),
        };
        let names = names.as_bytes();
        let lines = match self {
            TextSlip::EmptyFileIsUnreadable if file.is_empty() => return Err(Fault::LineFeed),
            TextSlip::EmptyFileIsReadable if file.is_empty() => Some(file),
            TextSlip::NamesLineFeedMayLack if file == names => Some(&file[..0]),
            TextSlip::NamesCarriageReturnIsReadable if first == [names, b"\r"].concat() => rest,
            TextSlip::CapitalNamesAreReadable if first.eq_ignore_ascii_case(names) => rest,
            TextSlip::NamesLineMayGoOn if first.starts_with(names) => rest,
            TextSlip::AnyNamesLine => rest,
            TextSlip::NamesLineMayLack => Some(file),
            _ => None,
        };
        lines.ok_or(Fault::NamesLine)
    }

    /// What a line of so many items, with its line feed, is taken for; none if it is passed over.
    pub(crate) fn line_slip(self, line: &[u8], count: usize) -> Option<Vec<u8>> {
        let (text, end) = match line.strip_suffix(b"\n") {
            Some(text) => (text, &b"\n"[..]),
            None => (line, &b""[..]),
        };
        let text = match self {
            TextSlip::EmptyLineIsSkipped if line == b"\n" => return None,
            TextSlip::LastLineFeedMayLack => return Some([text, b"\n"].concat()),
            TextSlip::CarriageReturnIsReadable => text.strip_suffix(b"\r").unwrap_or(text).to_vec(),
            TextSlip::BlankAtEndIsReadable => text.strip_suffix(b" ").unwrap_or(text).to_vec(),
            TextSlip::BlankAtStartIsReadable => text.strip_prefix(b" ").unwrap_or(text).to_vec(),
            TextSlip::TabIsReadable => exchanged(text, b'\t', b' '),
            TextSlip::SlashIsDigit => exchanged(text, b'/', b'0'),
            TextSlip::ColonIsDigit => exchanged(text, b':', b'0'),
            TextSlip::MinusZeroIsReadable
            | TextSlip::LeadingZeroIsReadable
            | TextSlip::PlusIsReadable
            | TextSlip::TwoBlanksAreReadable
            | TextSlip::MoreItemsAreReadable => self.items_slip(text, count),
            _ => return Some(line.to_vec()),
        };
        Some([&text, end].concat())
    }

    /// What the text of a line is taken for, where a slip takes its items for others.
    fn items_slip(self, text: &[u8], count: usize) -> Vec<u8> {
        let mut items: Vec<Vec<u8>> = text
            .split(|byte| *byte == b' ')
            .map(|item| self.item_slip(item))
            .collect();
        match self {
            TextSlip::TwoBlanksAreReadable => items.retain(|item| !item.is_empty()),
            TextSlip::MoreItemsAreReadable => items.truncate(count),
            _ => {}
        }
        items.join(&b' ')
    }

    fn item_slip(self, item: &[u8]) -> Vec<u8> {
        let (minus, digits) = match item.strip_prefix(b"-") {
            Some(digits) => (&b"-"[..], digits),
            None => (&b""[..], item),
        };
        match self {
            TextSlip::MinusZeroIsReadable if item == b"-0" => b"0".to_vec(),
            TextSlip::PlusIsReadable => item.strip_prefix(b"+").unwrap_or(item).to_vec(),
            TextSlip::LeadingZeroIsReadable => {
                let zeros = digits.iter().take_while(|digit| **digit == b'0').count();
                let kept = zeros.min(digits.len().saturating_sub(1));
                [minus, &digits[kept..]].concat()
            }
            _ => item.to_vec(),
        }
    }
}

/// The text with one byte in the place of another.
pub(crate) fn exchanged(text: &[u8], old: u8, new: u8) -> Vec<u8> {
    let new_byte = |byte: &u8| if *byte == old { new } else { *byte };
    text.iter().map(new_byte).collect()
}
