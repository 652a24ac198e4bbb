//! Files of lines: a names line, then lines of items with one blank between. Numbers among the
//! items have any length.

use crate::text_slip::TextSlip;

/// Stands for itself and for every number above it: no range reaches as far.
pub const BEYOND: u64 = 1_000;

/// Why a file is refused, or a call that gets what is read from one.
#[derive(Clone, Copy, Debug, PartialEq, Eq)]
pub enum Fault {
    /// The file has more bytes than are read.
    TooLong,
    /// Something else than the names line and its line feed stands at the start, or nothing.
    NamesLine,
    /// The last line doesn't end in a line feed.
    LineFeed,
    /// A line has more or fewer items than it should, with one blank between.
    Items,
    /// The kind is neither `p` nor `k`.
    Kind,
    /// A number can't be read.
    Number,
    /// The party of a right is above 7.
    Party,
    /// The partition is outside 0 to 63.
    Partition,
    /// The key is outside -31 to 31.
    Key,
    /// There are more than 64 pairs.
    PairCount,
    /// There are fewer than eight result words.
    ResultWords,
    /// A party of a pair is above 7.
    PairParty,
}

impl Fault {
    /// The number of the refusal.
    pub fn number(self) -> u32 {
        match self {
            Fault::TooLong | Fault::NamesLine => 10,
            Fault::LineFeed | Fault::Items | Fault::Kind | Fault::Number => 11,
            Fault::Party | Fault::Partition | Fault::Key => 12,
            Fault::PairCount | Fault::ResultWords => 15,
            Fault::PairParty => 16,
        }
    }
}

/// What a file must be like.
#[derive(Clone, Copy, Debug)]
pub struct Format {
    /// The names line without its line feed.
    pub names: &'static str,
    /// The most bytes that are read.
    pub longest: usize,
    /// How many items a line has.
    pub items: usize,
}

impl Format {
    /// The lines after the names line, with their line feeds.
    pub(crate) fn lines(self, file: &[u8], slip: TextSlip) -> Result<Vec<Vec<u8>>, Fault> {
        let file = slip.cut_slip(file, self.longest);
        if file.len() > slip.longest_file(self.longest) {
            return Err(Fault::TooLong);
        }
        let names = format!("{}\n", self.names);
        let rest = match file.strip_prefix(names.as_bytes()) {
            Some(rest) => rest,
            None => slip.names_slip(file, self.names)?,
        };
        Ok(rest
            .split_inclusive(|byte| *byte == b'\n')
            .filter_map(|line| slip.line_slip(line, self.items))
            .collect())
    }
}

/// Reads decimal digits, any number of them, without a leading zero.
pub(crate) fn natural(digits: &[u8], slip: TextSlip) -> Result<u64, Fault> {
    let all_digits = !digits.is_empty() && digits.iter().all(u8::is_ascii_digit);
    let leading_zero = digits.len() > 1 && digits[0] == b'0';
    let too_many = slip == TextSlip::LongNumberIsUnreadable && digits.len() > 10;
    if !all_digits || leading_zero || too_many {
        return Err(Fault::Number);
    }
    Ok(digits.iter().fold(0, |number, digit| {
        let digit = u64::from(digit - b'0');
        slip.digit_slip(number, digit)
            .unwrap_or_else(|| (number * 10 + digit).min(BEYOND))
    }))
}
