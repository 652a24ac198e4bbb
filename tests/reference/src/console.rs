//! The console's text to text: the whole output as a function of the whole input.

use crate::answer::Answer;
use crate::calls::{Operation, Query, Reference};
use crate::console_variant::ConsoleVariant;
use crate::names::{
    key_bit, key_in_range, set_of, Field, Pair, LAST_PARTITION, MOST_FIELDS, PARTIES,
};
use crate::table::{ROSTER_WORDS, WORDS};

/// The most bytes that are read.
pub const LONGEST_INPUT: usize = 65_536;
/// The first line of every readable input.
pub const INPUT_NAMES: &str = "call party rpart rkey tpart tkey fields";
/// The first line of the output to it.
pub const OUTPUT_NAMES: &str = "line answer fields";
/// A list may have more fields than a call accepts, up to this many.
pub const MOST_FIELDS_IN_LINE: usize = 16;

/// What the console program prints for an input.
pub fn console(input: &[u8]) -> Vec<u8> {
    console_with(ConsoleVariant::Correct, input)
}

/// What a console with this blunder prints.
pub fn console_with(variant: ConsoleVariant, input: &[u8]) -> Vec<u8> {
    if input.len() > LONGEST_INPUT {
        return b"input too long\n".to_vec();
    }
    let mut session = Session::new(variant);
    let mut output = String::new();
    for (index, line) in lines(input).enumerate() {
        match line.and_then(|line| session.line(index, line)) {
            Some(printed) => output.push_str(&printed),
            None => {
                output.push_str(&format!("line {} unreadable\n", index + 1));
                break;
            }
        }
    }
    output.into_bytes()
}

/// The lines without their line feeds; none stands for a line that doesn't end in one. An empty
/// input is one such line.
fn lines(input: &[u8]) -> impl Iterator<Item = Option<&[u8]>> {
    let mut rest = Some(input);
    std::iter::from_fn(move || {
        let text = rest?;
        match text.iter().position(|byte| *byte == b'\n') {
            Some(end) => {
                rest = Some(&text[end + 1..]).filter(|after| !after.is_empty());
                Some(Some(&text[..end]))
            }
            None => {
                rest = None;
                Some(None)
            }
        }
    })
}

/// A line after the first, taken apart.
#[derive(Clone, Debug, PartialEq, Eq)]
enum Line {
    Give {
        party: usize,
        /// One, or more by a blunder.
        partitions: Vec<u32>,
        key: Option<i32>,
    },
    Put {
        party: u32,
        read: Pair,
        take: Pair,
        fields: Vec<u64>,
    },
    Find {
        operation: Operation,
        party: u32,
        pair: Pair,
        fields: Vec<u64>,
    },
}

/// The gives so far, or the space that they opened.
struct Session {
    variant: ConsoleVariant,
    roster: [u64; ROSTER_WORDS],
    /// Opened by the first call; from then on no give is readable.
    space: Option<Vec<u64>>,
    reference: Reference,
    calls: usize,
}

impl Session {
    fn new(variant: ConsoleVariant) -> Session {
        let mut roster = [0; ROSTER_WORDS];
        roster[..PARTIES].fill(variant.first_partitions());
        Session {
            variant,
            roster,
            space: None,
            reference: Reference::correct(),
            calls: 0,
        }
    }

    /// Carries out one line, the first being line 0, and gives what it prints; none if it is
    /// unreadable.
    fn line(&mut self, index: usize, text: &[u8]) -> Option<String> {
        if index == 0 {
            return (text == INPUT_NAMES.as_bytes()).then(|| format!("{OUTPUT_NAMES}\n"));
        }
        let line = parse_line(self.variant, text)?;
        if let Line::Give {
            party,
            partitions,
            key,
        } = line
        {
            if self.space.is_some() {
                return None;
            }
            self.roster[party] |= set_of(partitions);
            self.roster[PARTIES + party] |= key.map_or(0, key_bit);
            return Some(String::new());
        }
        Some(self.call(&line))
    }

    fn call(&mut self, line: &Line) -> String {
        let mut result = [0; MOST_FIELDS];
        let answer = self.answer(line, &mut result);
        self.calls += 1;
        let (word, fields) = match answer {
            Answer::Done => ("done".to_string(), "-".to_string()),
            Answer::None => ("none".to_string(), "-".to_string()),
            Answer::Refused(number) => (format!("no{number}"), "-".to_string()),
            Answer::Found(count) => ("found".to_string(), render_fields(&result[..count])),
        };
        format!("{} {} {}\n", self.calls, word, fields)
    }

    fn answer(&mut self, line: &Line, result: &mut [u64]) -> Answer {
        let reference = &mut self.reference;
        let space = self.space.get_or_insert_with(|| {
            let mut space = vec![0; WORDS];
            let opened = reference.open(&mut space, &self.roster);
            assert_eq!(opened, Answer::Done, "gives make a good roster");
            space
        });
        match line {
            Line::Give { .. } => unreachable!("a give is no call"),
            Line::Put {
                party,
                read,
                take,
                fields,
            } => reference.put(space, *party, *read, *take, fields),
            Line::Find {
                operation,
                party,
                pair,
                fields,
            } => {
                let query = Query {
                    party: *party,
                    pair: *pair,
                    fields,
                };
                reference.find(*operation, space, query, result)
            }
        }
    }
}

/// Reads a line of seven items with one space between.
fn parse_line(variant: ConsoleVariant, text: &[u8]) -> Option<Line> {
    let items: Vec<&[u8]> = text.split(|byte| *byte == b' ').collect();
    let [call, party, rpart, rkey, tpart, tkey, fields] = items[..] else {
        return None;
    };
    match call {
        b"give" => {
            all_absent(&[tpart, tkey, fields])?;
            parse_give(variant, party, rpart, rkey)
        }
        b"put" => Some(Line::Put {
            party: parse_number(party)?,
            read: parse_pair(variant, rpart, rkey)?,
            take: parse_pair(variant, tpart, tkey)?,
            fields: parse_fields(fields)?,
        }),
        _ => parse_find(variant, &items),
    }
}

/// A look, a receive or a take names one pair.
fn parse_find(variant: ConsoleVariant, items: &[&[u8]]) -> Option<Line> {
    let operation = variant.operation(items[0])?;
    all_absent(&items[4..6])?;
    Some(Line::Find {
        operation,
        party: parse_number(items[1])?,
        pair: parse_pair(variant, items[2], items[3])?,
        fields: parse_fields(items[6])?,
    })
}

fn is_absent(item: &[u8]) -> bool {
    item == b"-"
}

fn all_absent(items: &[&[u8]]) -> Option<()> {
    items.iter().all(|item| is_absent(item)).then_some(())
}

/// Unlike in a call, everything in a give must be in its range.
fn parse_give(variant: ConsoleVariant, party: &[u8], names: &[u8], key: &[u8]) -> Option<Line> {
    let party = parse_number(party)? as usize;
    let partitions = match is_absent(names) {
        true => Vec::new(),
        false if variant == ConsoleVariant::GivesSets => parse_partitions(names)?,
        false => variant.gift(parse_partition(names)?)?,
    };
    let key = match is_absent(key) {
        true => None,
        false => Some(parse_key(key)?),
    };
    let in_range = party < PARTIES && key.is_none_or(key_in_range);
    in_range.then_some(Line::Give {
        party,
        partitions,
        key,
    })
}

fn parse_pair(variant: ConsoleVariant, set: &[u8], key: &[u8]) -> Option<Pair> {
    let partitions = match variant.is_empty_set(set) {
        true => Vec::new(),
        false => parse_partitions(&variant.respelled(set))?,
    };
    Some(Pair {
        set: set_of(partitions),
        key: parse_key(key)?,
    })
}

/// Reads the partitions of a set: one or more, joined by colons, each above the one before it.
fn parse_partitions(text: &[u8]) -> Option<Vec<u32>> {
    let parts = text.split(|byte| *byte == b':').map(parse_partition);
    let partitions: Vec<u32> = parts.collect::<Option<_>>()?;
    let rising = partitions.windows(2).all(|two| two[0] < two[1]);
    rising.then_some(partitions)
}

fn parse_partition(text: &[u8]) -> Option<u32> {
    parse_number(text).filter(|partition| *partition <= LAST_PARTITION)
}

/// Reads decimal digits without a leading zero, as a number of at most ten digits.
fn parse_digits(text: &[u8]) -> Option<i64> {
    let all_digits = !text.is_empty() && text.iter().all(u8::is_ascii_digit);
    let leading_zero = text.len() > 1 && text[0] == b'0';
    if !all_digits || leading_zero || text.len() > 10 {
        return None;
    }
    Some(
        text.iter()
            .fold(0, |number, digit| number * 10 + i64::from(digit - b'0')),
    )
}

/// Reads a number of 32 bits without a sign.
fn parse_number(text: &[u8]) -> Option<u32> {
    u32::try_from(parse_digits(text)?).ok()
}

/// Reads a number of 32 bits with a minus before it if it is below 0.
fn parse_key(text: &[u8]) -> Option<i32> {
    let key = match text.strip_prefix(b"-") {
        Some(digits) => match parse_digits(digits)? {
            0 => return None,
            number => -number,
        },
        None => parse_digits(text)?,
    };
    i32::try_from(key).ok()
}

/// Reads a list of fields into their words.
fn parse_fields(text: &[u8]) -> Option<Vec<u64>> {
    if is_absent(text) {
        return Some(Vec::new());
    }
    let words: Option<Vec<u64>> = text.split(|byte| *byte == b',').map(parse_field).collect();
    words.filter(|words| words.len() <= MOST_FIELDS_IN_LINE)
}

/// Reads a field into its word. A partition above 63 is readable and makes a bad word.
fn parse_field(text: &[u8]) -> Option<u64> {
    let (letter, number) = text.split_first()?;
    let field = match letter {
        b'm' => Field::Message(parse_number(number)?),
        b'p' => Field::Partition(parse_number(number)?),
        b'k' => Field::Key(parse_key(number).filter(|key| key_in_range(*key))?),
        b'*' if number.is_empty() => Field::Wildcard,
        b'g' => Field::AtLeast(parse_number(number)?),
        b'l' => Field::AtMost(parse_number(number)?),
        _ => return None,
    };
    Some(field.word())
}

fn render_fields(words: &[u64]) -> String {
    let fields: Vec<String> = words.iter().map(|word| render_field(*word)).collect();
    fields.join(",")
}

fn render_field(word: u64) -> String {
    match Field::from_word(word) {
        Some(Field::Message(message)) => format!("m{message}"),
        Some(Field::Partition(partition)) => format!("p{partition}"),
        Some(Field::Key(key)) => format!("k{key}"),
        Some(Field::Wildcard | Field::AtLeast(_) | Field::AtMost(_)) | None => {
            unreachable!("no entry has the field word {word}")
        }
    }
}
