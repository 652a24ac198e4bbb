//! Which names the calls lacked, and what they answered: every combination must come up, in both
//! pairs of a put, and with a short result in looks, receives and takes.

use crate::call::{answer_text, Call, Kind, FOR_NAMES};
use crate::pool::{held_of, holds_key, lacked_names_in};
use reference::names::PARTIES;
use reference::table::{rows_of_writer, LIMIT};
use reference::{Field, Pair};
use std::collections::BTreeMap;

/// What a call lacks, a bit each. The pair of a template counts as that for reading.
pub const READ_SET: u32 = 1;
pub const READ_KEY: u32 = 2;
pub const TAKE_SET: u32 = 4;
pub const TAKE_KEY: u32 = 8;
pub const PARTITION_IN_FIELD: u32 = 16;
pub const KEY_IN_FIELD: u32 = 32;
const SETS: u32 = READ_SET | TAKE_SET;
const KEYS: u32 = READ_KEY | TAKE_KEY;
const FIELDS: u32 = PARTITION_IN_FIELD | KEY_IN_FIELD;

/// Calls of each kind that lack exactly this, for each combination; and as many of them with a short
/// result.
const FEWEST: u64 = 20;
/// Calls of each kind that have a short result and lack nothing.
const FEWEST_SHORT: u64 = 500;

/// The combinations that a kind of call can lack.
pub fn combinations(kind: Kind) -> impl Iterator<Item = u32> {
    let possible = match kind {
        Kind::Open => 0,
        Kind::Put => SETS | KEYS | FIELDS,
        Kind::Find(_) => READ_SET | READ_KEY | FIELDS,
    };
    (1..=possible).filter(move |lacked| lacked & !possible == 0)
}

/// What a call lacks that names good pairs.
pub fn lacked(call: &Call, space: &[u64]) -> u32 {
    let Some(party) = call.party().filter(|party| (*party as usize) < PARTIES) else {
        return 0;
    };
    let of_pair = |pair: &Pair, set: u32, key: u32| {
        let lacks_set = held_of(space, party, pair.set).1 > 0;
        let lacks_key = !holds_key(space, party, pair.key);
        (u32::from(lacks_set) * set) | (u32::from(lacks_key) * key)
    };
    let of_pairs = match call {
        Call::Open { .. } => 0,
        Call::Put { read, take, .. } => {
            of_pair(read, READ_SET, READ_KEY) | of_pair(take, TAKE_SET, TAKE_KEY)
        }
        Call::Find(_, query) => of_pair(&query.pair, READ_SET, READ_KEY),
    };
    let in_fields = lacked_names_in(space, party, call.input()).map(|name| match name {
        Field::Partition(_) => PARTITION_IN_FIELD,
        _ => KEY_IN_FIELD,
    });
    in_fields.fold(of_pairs, |all, one| all | one)
}

/// By what a call is refused that lacks this, with a short result or without; where nothing is lacked,
/// only a short result is left.
pub fn due(lacked: u32) -> u32 {
    match lacked {
        0 => 106,
        _ if lacked & SETS > 0 => 113,
        _ if lacked & KEYS > 0 => 114,
        _ => 107,
    }
}

/// The sorts of what is lacked.
const SORTS: [(&str, bool, bool, bool); 7] = [
    ("a partition", true, false, false),
    ("a key", false, true, false),
    ("a name in a field", false, false, true),
    ("a partition and a key", true, true, false),
    ("a partition and a field's", true, false, true),
    ("a key and a field's", false, true, true),
    ("all three", true, true, true),
];

fn is_of_sort(lacked: u32, (_, set, key, field): (&str, bool, bool, bool)) -> bool {
    (lacked & SETS > 0, lacked & KEYS > 0, lacked & FIELDS > 0) == (set, key, field)
}

/// A call that lacked names, or had a short result, or both.
#[derive(Clone, Copy, PartialEq, Eq, PartialOrd, Ord)]
struct Refused {
    kind: Kind,
    lacked: u32,
    short: bool,
    code: u32,
}

impl Refused {
    fn of(call: &Call, code: u32, before: &[u64]) -> Refused {
        let is_find = matches!(call, Call::Find(..));
        Refused {
            kind: call.kind(),
            lacked: lacked(call, before),
            short: is_find && call.result_len() < call.input().len(),
            code,
        }
    }

    fn is_due(self) -> bool {
        self.code == due(self.lacked) && (self.short || self.lacked > 0)
    }

    fn text(self) -> String {
        let result = match self.short {
            true => " with a short result",
            false => "",
        };
        let (word, answer) = (self.kind.word(), answer_text(self.kind, self.code));
        format!("{word}: {answer}, lacking {:#b}{result}", self.lacked)
    }
}

/// All that has to come up, and how often.
fn wanted() -> impl Iterator<Item = (Refused, u64)> {
    let refused = |kind, lacked, short| Refused {
        kind,
        lacked,
        short,
        code: due(lacked),
    };
    let kinds = Kind::ALL.into_iter();
    let lacking = kinds.flat_map(move |kind| {
        combinations(kind).map(move |lacked| (refused(kind, lacked, false), FEWEST))
    });
    let short = Kind::FINDS.into_iter().flat_map(move |kind| {
        let lacking = combinations(kind).map(move |lacked| (refused(kind, lacked, true), FEWEST));
        lacking.chain([(refused(kind, 0, true), FEWEST_SHORT)])
    });
    lacking.chain(short)
}

/// How often calls that lacked something, or had a short result, got which answer.
#[derive(Default)]
pub struct Missing {
    answers: BTreeMap<Refused, u64>,
    /// Puts with the limit reached, by their answer.
    at_limit: BTreeMap<u32, u64>,
}

impl Missing {
    /// Of an answer that comes after the tests of soundness, party, count, pairs and field words.
    pub fn count(&mut self, call: &Call, code: u32, before: &[u64]) {
        if !matches!(code, 106 | 107 | 113 | 114) {
            return;
        }
        let refused = Refused::of(call, code, before);
        *self.answers.entry(refused).or_default() += 1;
        let Call::Put { party, .. } = call else {
            return;
        };
        if rows_of_writer(before, *party as usize) >= LIMIT {
            *self.at_limit.entry(code).or_default() += 1;
        }
    }

    fn of(&self, such: impl Fn(&Refused) -> bool) -> u64 {
        let counts = self.answers.iter().filter(|(refused, _)| such(refused));
        counts.map(|(_, count)| count).sum()
    }

    /// What was lacked, by sorts, in calls that were refused for it, without and with a short result.
    pub fn table(&self) -> String {
        let kinds = [Kind::Put, Kind::LOOK, Kind::RECEIVE, Kind::TAKE];
        let mut text = format!("  {:<42}", "refused, lacking just");
        text.extend(kinds.map(|kind| format!("{:>10}", kind.word())));
        let mut line = |what: &str, kinds: &[Kind], such: &dyn Fn(&Refused) -> bool| {
            text.push_str(&format!("\n  {what:<42}"));
            let blank = " ".repeat(10 * (4 - kinds.len()));
            text.push_str(&blank);
            text.extend(kinds.iter().map(|kind| {
                let count = self.of(|refused| refused.kind == *kind && such(refused));
                format!("{count:>10}")
            }));
        };
        for sort in SORTS {
            line(sort.0, &kinds, &|refused| {
                !refused.short && refused.is_due() && is_of_sort(refused.lacked, sort)
            });
        }
        for sort in SORTS {
            line(
                &format!("{}, short result", sort.0),
                &Kind::FINDS,
                &|refused| refused.short && refused.is_due() && is_of_sort(refused.lacked, sort),
            );
        }
        line("nothing, short result", &Kind::FINDS, &|refused| {
            refused.short && refused.is_due() && refused.lacked == 0
        });
        let crossed = self.of(|refused| refused.lacked == READ_KEY | TAKE_SET);
        text + &format!(
            "\n  puts that lack just a read key and a partition for taking: {crossed}\n"
        )
    }

    /// Fails where a combination came up too seldom, or not with the refusal that is due to it.
    pub fn check(&self) -> Result<String, String> {
        let mut wrong: Vec<String> = Vec::new();
        let mut fewest = u64::MAX;
        let mut combinations = 0;
        for (refused, least) in wanted() {
            let count = self.answers.get(&refused).copied().unwrap_or_default();
            if count < least {
                wrong.push(format!("too seldom: {}: {count}", refused.text()));
            }
            fewest = fewest.min(count);
            combinations += 1;
        }
        let others = self.answers.keys().filter(|refused| !refused.is_due());
        wrong.extend(others.map(|refused| format!("not due: {}", refused.text())));
        for code in FOR_NAMES {
            if !self.at_limit.contains_key(&code) {
                let answer = answer_text(Kind::Put, code);
                wrong.push(format!("never: {answer} with sixteen live entries"));
            }
        }
        match wrong.is_empty() {
            true => Ok(format!(
                "{combinations} combinations, each {fewest} times or more"
            )),
            false => Err(wrong.join("; ")),
        }
    }
}

#[cfg(test)]
mod tests {
    use super::*;
    use crate::call::Query;

    /// Just enough of everything.
    fn enough() -> Missing {
        Missing {
            answers: wanted().collect(),
            at_limit: FOR_NAMES.map(|code| (code, 1)).into(),
        }
    }

    #[test]
    fn every_combination_counts() {
        assert!(enough().check().is_ok());
        // Of a put 63, of the others 15 with and without a short result, and one with nothing else.
        assert_eq!(wanted().count(), 63 + 3 * (15 + 15 + 1));
        for (refused, least) in wanted() {
            let mut missing = enough();
            missing.answers.insert(refused, least - 1);
            assert!(missing.check().is_err(), "{}", refused.text());
        }
    }

    #[test]
    fn what_is_not_due_counts() {
        for (refused, _) in wanted() {
            for code in [106, 113, 114, 107] {
                let mut missing = enough();
                missing.answers.insert(Refused { code, ..refused }, 1_000);
                let due = code == refused.code;
                assert_eq!(missing.check().is_ok(), due, "{}", refused.text());
            }
        }
    }

    #[test]
    fn puts_at_the_limit_count() {
        for code in FOR_NAMES {
            let mut missing = enough();
            missing.at_limit.remove(&code);
            assert!(missing.check().is_err());
        }
    }

    /// By party 0, which holds partition 0: with two fields, one word is too few and two are enough.
    #[test]
    fn what_is_short() {
        let mut space = vec![0; reference::table::WORDS];
        let mut roster = [0; 16];
        roster[0] = 1;
        reference::Reference::correct().open(&mut space, &roster);
        for (set, lacked) in [(1, 0), (2, READ_SET), (3, READ_SET)] {
            for (result_len, short) in [(0, true), (1, true), (2, false), (3, false)] {
                let query = Query {
                    party: 0,
                    pair: Pair { set, key: 0 },
                    fields: vec![1, 2],
                    result_len,
                };
                let call = Call::Find(reference::Operation::Take, query);
                let refused = Refused::of(&call, due(lacked), &space);
                assert_eq!((refused.lacked, refused.short), (lacked, short));
                assert_eq!(refused.is_due(), short || lacked > 0);
            }
        }
    }

    /// Party 0 holds partitions 0 and 5 and keys 0 and 4.
    #[test]
    fn what_a_put_lacks() {
        let mut space = vec![0; reference::table::WORDS];
        let mut roster = [0; 16];
        (roster[0], roster[8]) = (33, 1 << 35);
        reference::Reference::correct().open(&mut space, &roster);
        let of = |read, take, fields: &[Field]| {
            let call = Call::Put {
                party: 0,
                read,
                take,
                fields: fields.iter().map(|field| field.word()).collect(),
            };
            lacked(&call, &space)
        };
        let pair = |set, key| Pair { set, key };
        assert_eq!(of(pair(33, 4), pair(1, 0), &[Field::Key(4)]), 0);
        assert_eq!(of(pair(35, 4), pair(1, 0), &[]), READ_SET);
        assert_eq!(of(pair(1, 5), pair(2, 0), &[]), READ_KEY | TAKE_SET);
        assert_eq!(of(pair(1, 0), pair(32, -4), &[Field::Key(0)]), TAKE_KEY);
        let names = [Field::Message(9), Field::Partition(9), Field::Key(-4)];
        assert_eq!(of(pair(1, 0), pair(1, 0), &names), FIELDS);
        assert_eq!(of(pair(1, 0), pair(1, 0), &names[..2]), PARTITION_IN_FIELD);
    }

    /// Party 1 holds partition 5 and key 0.
    #[test]
    fn partition_0_is_lacked_as_any_other() {
        let mut space = vec![0; reference::table::WORDS];
        let mut roster = [0; 16];
        roster[1] = 1 << 5;
        reference::Reference::correct().open(&mut space, &roster);
        let of = |read, take, field: Field| {
            let pair = |set| Pair { set, key: 0 };
            let call = Call::Put {
                party: 1,
                read: pair(read),
                take: pair(take),
                fields: vec![field.word()],
            };
            lacked(&call, &space)
        };
        assert_eq!(of(32, 32, Field::Key(0)), 0);
        assert_eq!(of(1, 32, Field::Key(0)), READ_SET);
        assert_eq!(of(32, 33, Field::Key(0)), TAKE_SET);
        assert_eq!(of(32, 32, Field::Partition(0)), PARTITION_IN_FIELD);
    }
}
