//! The lines that tests/c/header.c prints, from the reference's definitions and without the header:
//! `reference-header INTEGRATING.md`. The meaning of each refusal is the one in that file's table.

use reference::names::{
    has_partition, key_bit, key_in_range, partition_bit, set_of, Field, Pair, LAST_KEY,
    LAST_PARTITION, MOST_FIELDS, PARTIES,
};
use reference::order::{Before, MOST_PAIRS};
use reference::roster::LONGEST_FILE;
use reference::table::{KEYS, LIMIT, PARTITIONS, ROSTER_WORDS, WORDS};
use reference::{Answer, Operation, Query, Reference};

type Roster = [u64; ROSTER_WORDS];

const KIND: u64 = 1 << 32;
/// A word that no field has.
const BAD_WORD: u64 = u64::MAX;
/// The kind that the header gives to bad words.
const BAD_KIND: u32 = u32::MAX;
/// The set of partition 0 alone.
const DEFAULT: u64 = 1;

fn message(number: u64) -> Option<Field> {
    u32::try_from(number).ok().map(Field::Message)
}

fn at_least(number: u64) -> Option<Field> {
    u32::try_from(number).ok().map(Field::AtLeast)
}

fn at_most(number: u64) -> Option<Field> {
    u32::try_from(number).ok().map(Field::AtMost)
}

fn partition(number: u32) -> Option<Field> {
    (number <= LAST_PARTITION).then_some(Field::Partition(number))
}

fn key(number: i32) -> Option<Field> {
    key_in_range(number).then_some(Field::Key(number))
}

/// Puts an entry of one word, under this set.
fn put(space: &mut [u64], set: u64, word: u64) -> u32 {
    let pair = Pair { set, key: 0 };
    Reference::correct()
        .put(space, 0, pair, pair, &[word])
        .code()
}

/// Takes by a template of one word, under this set.
fn take(space: &mut [u64], set: u64, word: u64) -> u32 {
    let query = Query {
        party: 0,
        pair: Pair { set, key: 0 },
        fields: &[word],
    };
    Reference::correct()
        .find(Operation::Take, space, query, &mut [0; MOST_FIELDS])
        .code()
}

/// The word of a field, or that it is bad; and what the reference says of it as field and template.
fn word_line(space: &mut [u64], what: &str, field: Option<Field>) {
    let word = field.map_or(BAD_WORD, Field::word);
    let (put, take) = (put(space, DEFAULT, word), take(space, DEFAULT, word));
    let word = match field {
        Some(field) => format!("word {}", field.word()),
        None => "bad".to_string(),
    };
    println!("{what}: {word}, put {put}, take {take}");
}

/// What a take by each bound answers while this field is there, and whether the field is left.
fn bound_lines(space: &mut [u64], field: Field, number: u32) {
    for (what, bound) in [
        ("at least", Field::AtLeast(number)),
        ("at most", Field::AtMost(number)),
    ] {
        let put = put(space, DEFAULT, field.word());
        let by_bound = take(space, DEFAULT, bound.word());
        let left = take(space, DEFAULT, Field::Wildcard.word());
        let word = field.word();
        println!("of word {word}, put {put}, {what} {number}: take {by_bound}, left {left}");
    }
}

/// The set of one partition, which is the empty one if there is no such partition.
fn set_of_one(partition: u32) -> u64 {
    set_of((0..=LAST_PARTITION).filter(|number| *number == partition))
}

/// The partitions that are in either set, or the empty set if one of them is that.
fn join(set: u64, other: u64) -> u64 {
    let in_either = |partition: &u32| {
        [set, other]
            .iter()
            .any(|set| has_partition(*set, *partition))
    };
    match [set, other].contains(&0) {
        true => 0,
        false => set_of((0..=LAST_PARTITION).filter(in_either)),
    }
}

/// The set, and what the reference says of a put and a take under it.
fn set_line(space: &mut [u64], what: &str, set: u64) {
    let (put, take) = (put(space, set, 7), take(space, set, 7));
    println!("{what}: set {set}, put {put}, take {take}");
}

fn join_line(space: &mut [u64], set: u64, other: u64) {
    let joined = join(set, other);
    set_line(space, &format!("{set} with {other}"), joined);
}

fn kind_line(word: u64) {
    let (kind, value) = match Field::from_word(word) {
        Some(Field::Message(message)) => (0, i64::from(message)),
        Some(Field::Partition(partition)) => (1, i64::from(partition)),
        Some(Field::Key(key)) => (2, i64::from(key)),
        Some(Field::Wildcard) => (3, 0),
        Some(Field::AtLeast(number)) => (4, i64::from(number)),
        Some(Field::AtMost(number)) => (5, i64::from(number)),
        None => (BAD_KIND, 0),
    };
    println!("of word {word}: kind {kind}, value {value}");
}

/// Gives what there is, and says whether it did.
fn give_partition(roster: &mut Roster, party: u32, partition: u32) -> bool {
    let given = (party as usize) < PARTIES && partition <= LAST_PARTITION;
    if given {
        roster[party as usize] |= partition_bit(partition);
    }
    given
}

fn give_key(roster: &mut Roster, party: u32, key: i32) -> bool {
    let given = (party as usize) < PARTIES && key_in_range(key);
    if given {
        roster[KEYS - PARTITIONS + party as usize] |= key_bit(key);
    }
    given
}

fn shown(roster: &[u64]) -> String {
    let words = roster.iter().enumerate().filter(|(_, word)| **word != 0);
    words
        .map(|(place, word)| format!(" {place}:{word}"))
        .collect()
}

fn gift_lines(party: u32, partition: u32, key: i32) {
    let mut roster = [0; ROSTER_WORDS];
    let given = u32::from(give_partition(&mut roster, party, partition));
    println!(
        "party {party}, partition {partition}: given {given},{}",
        shown(&roster)
    );
    let given = u32::from(give_key(&mut roster, party, key));
    println!(
        "party {party}, then key {key}: given {given},{}",
        shown(&roster)
    );
}

/// All names for party 0, one partition and one key more for each party, and what open makes of it.
fn open_for_all(space: &mut [u64]) {
    let mut roster = [0; ROSTER_WORDS];
    for partition in 0..=LAST_PARTITION {
        give_partition(&mut roster, 0, partition);
    }
    for key in -LAST_KEY..=LAST_KEY {
        give_key(&mut roster, 0, key);
    }
    for party in 1..PARTIES as u32 {
        give_partition(&mut roster, party, 8 * party);
        give_key(&mut roster, party, 4 * party as i32 - 16);
    }
    println!("the roster:{}", shown(&roster));
    let opened = Reference::correct().open(space, &roster);
    let holdings = &space[PARTITIONS..PARTITIONS + ROSTER_WORDS];
    println!("open {}, the holdings:{}", opened.code(), shown(holdings));
}

/// What the table of refusals says is wrong: the second column of the row of this answer.
fn wrong_in_table(text: &str, answer: u32) -> &str {
    let start = format!("| {answer} | ");
    let mut rows = text.lines().filter_map(|line| line.strip_prefix(&start));
    let row = rows.next().expect("a row for each refusal");
    assert!(rows.next().is_none(), "two rows for {answer}");
    row.split(" |").next().expect("a second column")
}

fn answer_line(text: &str, answer: u32) {
    let refusals = (1..=16).map(Answer::Refused);
    let founds = (1..=MOST_FIELDS).map(Answer::Found);
    let known = [Answer::Done, Answer::None]
        .into_iter()
        .chain(founds)
        .chain(refusals);
    let refusal = answer.saturating_sub(Answer::Refused(0).code());
    let meaning = match known.into_iter().find(|known| known.code() == answer) {
        Some(Answer::Done | Answer::None) => {
            "Done, if it was open, put or the reading of a roster; none, if it was look, receive or take; an order, if it was the start order."
        }
        Some(Answer::Found(_)) => {
            "Found; or, if it was the start order, a circle: the answer less 1 is the smallest party on one."
        }
        Some(Answer::Refused(number)) => {
            assert_eq!(number, refusal);
            wrong_in_table(text, answer)
        }
        None => "No call answers this.",
    };
    println!("answer {answer}: refusal {refusal}, {meaning}");
}

/// The word of each pair of parties that there are or aren't.
fn pair_lines() {
    let parties = [0, 1, 7, 8, 1 << 31, u64::from(u32::MAX)];
    for first in parties {
        for second in parties {
            let word = Before { first, second }.word();
            println!("space_before {first} {second} {word}");
        }
    }
}

fn some_word(state: &mut u64) -> u64 {
    *state ^= *state << 13;
    *state ^= *state >> 7;
    *state ^= *state << 17;
    *state
}

fn word_lines(space: &mut [u64]) {
    word_line(space, "the wildcard", Some(Field::Wildcard));
    let powers = (0..64).flat_map(|bit| [(1 << bit) - 1, 1 << bit]);
    for number in powers.chain([u64::MAX]) {
        word_line(space, &format!("message {number}"), message(number));
        word_line(space, &format!("at least {number}"), at_least(number));
        word_line(space, &format!("at most {number}"), at_most(number));
    }
    for number in (0..=70)
        .chain((7..32).map(|bit| 1 << bit))
        .chain([u32::MAX])
    {
        word_line(space, &format!("partition {number}"), partition(number));
    }
    let extremes = (0..=70).flat_map(|step| [i32::MIN + step, i32::MAX - step]);
    for number in (-70..=70).chain(extremes) {
        word_line(space, &format!("key {number}"), key(number));
    }
}

/// The set of every partition and of some that there aren't, joins of two and of more, and with
/// the empty set.
fn set_lines(space: &mut [u64]) {
    for number in (0..=70)
        .chain((7..32).map(|bit| 1 << bit))
        .chain([u32::MAX])
    {
        set_line(space, &format!("of {number}"), set_of_one(number));
    }
    let mut all = set_of_one(0);
    for number in 1..=LAST_PARTITION {
        join_line(space, all, set_of_one(number));
        all = join(all, set_of_one(number));
    }
    let mut state = 362_436_069;
    for _ in 0..200 {
        let (set, other) = (some_word(&mut state), some_word(&mut state));
        let few = set & other & some_word(&mut state);
        for (set, other) in [(set, other), (few, other), (few, few), (0, set), (set, 0)] {
            join_line(space, set, other);
        }
    }
    join_line(space, 0, 0);
    join_line(space, u64::MAX, 1);
}

/// Every bound against every message of some, and against names that are as low.
fn takes_by_bounds(space: &mut [u64]) {
    let numbers = [
        0,
        1,
        62,
        63,
        i32::MAX as u32,
        1 << 31,
        u32::MAX - 1,
        u32::MAX,
    ];
    for number in numbers {
        for message in numbers {
            bound_lines(space, Field::Message(message), number);
        }
        for name in [
            Field::Partition(0),
            Field::Partition(LAST_PARTITION),
            Field::Key(-LAST_KEY),
            Field::Key(LAST_KEY),
        ] {
            bound_lines(space, name, number);
        }
    }
}

fn kind_lines() {
    for kind in 0..=7 {
        let values = (0..=70)
            .chain((7..32).map(|bit| 1 << bit))
            .chain([KIND - 1]);
        values.for_each(|value| kind_line(kind * KIND + value));
    }
    (35..64).for_each(|bit| kind_line(1 << bit));
    kind_line(u64::MAX);
    let mut state = 88_172_645_463_325_252;
    for _ in 0..200 {
        kind_line(some_word(&mut state));
        kind_line(some_word(&mut state) % (7 * KIND));
    }
}

fn main() {
    let path = std::env::args()
        .nth(1)
        .expect("the file with the table of refusals");
    let text = std::fs::read_to_string(path).expect("a file that can be read");
    let mut space = vec![0; WORDS];
    let wildcard = Field::Wildcard.word();
    println!("words {WORDS}, roster {ROSTER_WORDS}, of a file {LONGEST_FILE}, fields {MOST_FIELDS}, parties {PARTIES}, live entries {LIMIT}, partitions to {LAST_PARTITION}, keys to {LAST_KEY}, the wildcard {wildcard}");
    println!("kinds 0 1 2 3 4 5, bad {BAD_KIND}");
    open_for_all(&mut space);
    word_lines(&mut space);
    set_lines(&mut space);
    takes_by_bounds(&mut space);
    kind_lines();
    for party in 0..=9 {
        for at in (0..=66).step_by(1 + party) {
            gift_lines(party as u32, at as u32, at - 33);
        }
    }
    gift_lines(u32::MAX, 0, 0);
    gift_lines(7, u32::MAX, i32::MAX);
    gift_lines(7, 1 << 31, i32::MIN);
    (0..=120).for_each(|answer| answer_line(&text, answer));
    answer_line(&text, u32::MAX);
    pair_lines();
    println!("SPACE_MOST_PAIRS {MOST_PAIRS}");
}
