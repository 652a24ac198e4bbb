//! Random inputs for the console: readable ones, and ones broken in many ways.

use crate::call::Call;
use crate::pool::{Maker, Mix, Pool, ALL_PARTIES};
use crate::rng::Rng;
use reference::console::{INPUT_NAMES, MOST_FIELDS_IN_LINE};
use reference::names::{
    key_bit, key_in_range, key_of_stored, partition_bit, partitions_of, LAST_PARTITION, PARTIES,
};
use reference::table::{ROSTER_WORDS, WORDS};
use reference::{Field, Reference};

/// Items and fields at the ends of what is readable, and just past them.
const NASTY_ITEMS: [&str; 57] = [
    "-",
    "",
    "--",
    "0",
    "00",
    "-0",
    "+0",
    "+1",
    "01",
    "-01",
    "1",
    "-1",
    "7",
    "8",
    "31",
    "32",
    "-31",
    "-32",
    "63",
    "64",
    "2147483647",
    "2147483648",
    "-2147483648",
    "-2147483649",
    "4294967295",
    "4294967296",
    "-4294967295",
    "-4294967296",
    "9999999999",
    "10000000000",
    "18446744073709551615",
    "18446744073709551616",
    "-9223372036854775808",
    "340282366920938463463374607431768211456",
    "0x1",
    ":",
    "1:",
    ":1",
    "/",
    "1/",
    "-:",
    "-1/",
    "1.",
    "1e1",
    "*",
    "m",
    "give",
    "put",
    "look",
    "Look",
    "loo",
    "looks",
    "receive",
    "receiv",
    "received",
    "read",
    "take",
];
const NASTY_FIELDS: [&str; 76] = [
    "-",
    "",
    "*",
    "**",
    "*0",
    "m",
    "p",
    "k",
    "l1",
    "n1",
    "j1",
    "o1",
    "q1",
    "m:",
    "m1/",
    "p1:",
    "k/",
    "k-",
    "k--1",
    "M0",
    "x0",
    "0",
    "m0",
    "m00",
    "m-0",
    "m-1",
    "m+1",
    "m01",
    "m4294967295",
    "m4294967296",
    "m42949672950",
    "p0",
    "p00",
    "p-1",
    "p63",
    "p64",
    "p4294967295",
    "p4294967296",
    "k0",
    "k-0",
    "k+1",
    "k01",
    "k-01",
    "k31",
    "k-31",
    "k32",
    "k-32",
    "k62",
    "k2147483648",
    "k-2147483648",
    "k4294967296",
    "g",
    "l",
    "f1",
    "h1",
    "G7",
    "L7",
    "g:",
    "l1/",
    "g0",
    "l0",
    "g7",
    "g00",
    "l00",
    "g01",
    "l01",
    "g-0",
    "g-1",
    "l-1",
    "g+1",
    "g4294967295",
    "l4294967295",
    "g4294967296",
    "l4294967296",
    "g42949672950",
    "l18446744073709551616",
];

/// Sets as they may be written and as they may not, on either side of each limit.
const NASTY_SETS: [&str; 79] = [
    "0",
    "5",
    "9",
    "63",
    "64",
    "65",
    "99",
    "100",
    "5:9",
    "0:5:63",
    "0:1",
    "31:32",
    "62:63",
    "0:63",
    "5:5",
    "9:5",
    "5:9:9",
    "5:5:9",
    "9:5:10",
    "5:10:9",
    "10:9",
    "63:0",
    "63:62",
    "5:",
    ":5",
    ":",
    "::",
    "5::9",
    "5:9:",
    ":5:9",
    "5:::9",
    "05",
    "00",
    "0:00",
    "5:09",
    "05:9",
    "5:063",
    "5:64",
    "64:65",
    "0:64",
    "5:9:64",
    "5:99",
    "+5",
    "-5",
    "5:+9",
    "5:-9",
    "-0",
    "0:-0",
    "5: 9",
    "5 :9",
    "5 9",
    " 5",
    "5:9 ",
    "5,9",
    "5;9",
    "5.9",
    "5-9",
    "5/9",
    "5|9",
    "a",
    "5:a",
    "p5",
    "5:p9",
    "k4",
    "m1",
    "0x5",
    "5:9a",
    "{5}",
    "-",
    "--",
    "5:-",
    "-:5",
    "4294967301",
    "5:4294967305",
    "18446744073709551621",
    "5:18446744073709551625",
    "340282366920938463463374607431768211461",
    "544",
    "",
];
/// Where a set may stand, and in a gift a single partition.
const SET_LINES: [&str; 6] = [
    "put 0 {} 4 5 4 m1",
    "put 0 5 4 {} 4 m1",
    "look 0 {} 0 - - *",
    "receive 0 {} 0 - - *",
    "take 0 {} 0 - - *",
    "give 0 {} - - - -",
];
/// So many more sets: of partition 0, of 0 and 1, and on to two more than there are.
const SETS_OF_MANY: usize = LAST_PARTITION as usize + 3;

/// A readable input: the names line, some gives, some calls. The calls come from the reference's
/// space as it then is, so that many of them find something.
pub fn readable(rng: &mut Rng) -> Vec<u8> {
    let pool = Pool::random(rng, 2, 1);
    let mut script = Script::new(rng, &pool);
    for _ in 0..rng.pick(&[0, 3, 15, 40, 90]) {
        let line = script.call_line(rng, &pool);
        script.text.push_str(&line);
    }
    script.text.into_bytes()
}

/// A readable input of exactly this many bytes, some thousands or more.
pub fn readable_of_length(rng: &mut Rng, length: usize) -> Vec<u8> {
    let pool = Pool::random(rng, 2, 1);
    let mut script = Script::new(rng, &pool);
    loop {
        let left = length - script.text.len();
        if (SHORTEST_FILLER..=LONGEST_FILLER).contains(&left) {
            script.text.push_str(&filler(left));
            return script.text.into_bytes();
        }
        let line = script.call_line(rng, &pool);
        if line.len() + SHORTEST_FILLER <= left {
            script.text.push_str(&line);
        }
    }
}

const SHORTEST_FILLER: usize = "put 0 0 0 0 0 m1\n".len();
const LONGEST_FILLER: usize = 110;

/// A put of messages as a line of this length.
fn filler(length: usize) -> String {
    let mut line = "put 0 0 0 0 0 m1".to_string();
    while line.len() + ",m1\n".len() <= length && line.matches('m').count() < 8 {
        line.push_str(",m1");
    }
    // The rest is made up by more digits, at most ten in each message.
    while line.len() + 1 < length {
        let fields = line.split_off("put 0 0 0 0 0 ".len());
        let mut fields: Vec<String> = fields.split(',').map(str::to_string).collect();
        if let Some(short) = fields.iter_mut().find(|field| field.len() < 11) {
            short.push('1');
        }
        line.push_str(&fields.join(","));
    }
    line + "\n"
}

/// The text so far, and the space in which its calls were carried out.
struct Script {
    text: String,
    space: Vec<u64>,
}

impl Script {
    /// The names line and the gives. Partition 0 is mostly given to some.
    fn new(rng: &mut Rng, pool: &Pool) -> Script {
        let mut roster = vec![0; ROSTER_WORDS];
        let mut text = format!("{INPUT_NAMES}\n");
        let chance = rng.pick(&[0, 50, 50, 100]);
        for party in (0..PARTIES).filter(|_| rng.percent(chance)) {
            roster[party] |= partition_bit(0);
            text.push_str(&format!("give {party} 0 - - - -\n"));
        }
        for _ in 0..rng.pick(&[0, 1, 8, 24]) {
            let party = rng.below(PARTIES);
            let (partition, key) = (rng.pick(&pool.partitions), rng.pick(&pool.keys));
            let (mut partition_text, mut key_text) = ("-".to_string(), "-".to_string());
            if rng.percent(85) {
                roster[party] |= partition_bit(partition);
                partition_text = partition.to_string();
            }
            if rng.percent(85) {
                roster[PARTIES + party] |= key_bit(key);
                key_text = key.to_string();
            }
            text.push_str(&format!("give {party} {partition_text} {key_text} - - -\n"));
        }
        let mut space = vec![0; WORDS];
        let opened = Reference::correct().open(&mut space, &roster);
        assert_eq!(opened.code(), 0, "the roster is good");
        Script { text, space }
    }

    /// The line of a random call, which is carried out.
    fn call_line(&mut self, rng: &mut Rng, pool: &Pool) -> String {
        let maker = Maker {
            pool,
            parties: &ALL_PARTIES,
            mix: Mix {
                puts: 45,
                looks: 15,
                receives: 15,
                broken: 10,
            },
        };
        loop {
            let call = maker.call(rng, &self.space);
            if let Some(line) = call_text(&call) {
                let mut result = vec![0; call.result_len()];
                call.make(
                    &mut Reference::correct(),
                    &mut self.space,
                    call.input(),
                    &mut result,
                );
                return line;
            }
        }
    }
}

/// A call as a line; none if no readable line says it.
fn call_text(call: &Call) -> Option<String> {
    let fields = fields_text(call.input())?;
    Some(match call {
        Call::Open { .. } => return None,
        Call::Put {
            party, read, take, ..
        } => {
            let [read_set, take_set] = [set_text(read.set)?, set_text(take.set)?];
            let (read_key, take_key) = (read.key, take.key);
            format!("put {party} {read_set} {read_key} {take_set} {take_key} {fields}\n")
        }
        Call::Find(_, query) => {
            let (word, set) = (call.kind().word(), set_text(query.pair.set)?);
            let (party, key) = (query.party, query.pair.key);
            format!("{word} {party} {set} {key} - - {fields}\n")
        }
    })
}

/// A set as text; the empty one has none.
fn set_text(set: u64) -> Option<String> {
    (set != 0).then(|| joined(partitions_of(set)))
}

fn fields_text(words: &[u64]) -> Option<String> {
    if words.len() > MOST_FIELDS_IN_LINE {
        return None;
    }
    if words.is_empty() {
        return Some("-".to_string());
    }
    let fields: Option<Vec<String>> = words.iter().map(|word| field_text(*word)).collect();
    fields.map(|fields| fields.join(","))
}

/// The field as text, also of a bad word of a partition.
fn field_text(word: u64) -> Option<String> {
    let value = word & u64::from(u32::MAX);
    match word >> 32 {
        0 => Some(format!("m{value}")),
        1 => Some(format!("p{value}")),
        2 => key_of_stored(value)
            .filter(|key| key_in_range(*key))
            .map(|key| format!("k{key}")),
        4 => Some(format!("g{value}")),
        5 => Some(format!("l{value}")),
        _ if word == Field::Wildcard.word() => Some("*".to_string()),
        _ => None,
    }
}

/// The lines that are changed item by item, with good lines before and after.
const BEFORE: &str = "give 0 5 4 - - -\ngive 0 0 - - - -\n";
const ITEM_LINES: [&str; 5] = [
    "give 1 5 -4 - - -",
    "put 0 5 4 5 4 m1,p5,k4",
    "look 0 0 0 - - *,m1",
    "receive 0 0 0 - - *,m1",
    "take 0 0 0 - - *,m1",
];
const AFTER: &str = "put 0 0 0 0 0 m1\n";
const ITEMS: usize = 7;
/// The beginnings of lines whose fields are changed.
const FIELD_LINES: [&str; 4] = [
    "put 0 5 4 5 4",
    "look 0 5 4 - -",
    "receive 0 5 4 - -",
    "take 0 5 4 - -",
];
const SHAPES: [&str; 3] = ["{}", "{},m1", "m1,{}"];
const LISTED: [&str; 4] = ["m1", "*", "g1", "l1"];
const MOST_LISTED: usize = 20;

/// How many inputs `nasty_item` has.
pub const NASTY_ITEM_INPUTS: usize = ITEM_LINES.len() * ITEMS * NASTY_ITEMS.len();
/// How many inputs `nasty_set` has.
pub const NASTY_SET_INPUTS: usize = SET_LINES.len() * (NASTY_SETS.len() + SETS_OF_MANY);
/// How many inputs `nasty_field` has.
pub const NASTY_FIELD_INPUTS: usize = FIELD_LINES.len() * SHAPES.len() * NASTY_FIELDS.len();
/// How many inputs `field_count` has.
pub const FIELD_COUNT_INPUTS: usize = FIELD_LINES.len() * LISTED.len() * (MOST_LISTED + 1);

/// Each nasty item in each place of each kind of line, by number.
pub fn nasty_item(number: usize) -> Vec<u8> {
    let (rest, item) = (number / NASTY_ITEMS.len(), number % NASTY_ITEMS.len());
    let mut items: Vec<&str> = ITEM_LINES[rest / ITEMS].split(' ').collect();
    items[rest % ITEMS] = NASTY_ITEMS[item];
    around(&items.join(" "))
}

/// Each nasty set, and those of 0 to so many, in each place of a pair and in a gift, by number.
pub fn nasty_set(number: usize) -> Vec<u8> {
    let sets = NASTY_SETS.len() + SETS_OF_MANY;
    let set = match NASTY_SETS.get(number % sets) {
        Some(set) => set.to_string(),
        None => joined(0..=(number % sets - NASTY_SETS.len()) as u32),
    };
    around(&SET_LINES[number / sets].replace("{}", &set))
}

fn joined(partitions: impl IntoIterator<Item = u32>) -> String {
    let parts: Vec<String> = partitions.into_iter().map(|at| at.to_string()).collect();
    parts.join(":")
}

/// Each nasty field alone, before and after another in each kind of call, by number.
pub fn nasty_field(number: usize) -> Vec<u8> {
    let (rest, field) = (number / NASTY_FIELDS.len(), number % NASTY_FIELDS.len());
    let line = FIELD_LINES[rest / SHAPES.len()];
    let fields = SHAPES[rest % SHAPES.len()].replace("{}", NASTY_FIELDS[field]);
    around(&format!("{line} {fields}"))
}

/// Lists of 0 to 20 fields in each kind of call, by number; that of 0 is an empty item.
pub fn field_count(number: usize) -> Vec<u8> {
    let (rest, count) = (number / (MOST_LISTED + 1), number % (MOST_LISTED + 1));
    let line = FIELD_LINES[rest / LISTED.len()];
    let fields = vec![LISTED[rest % LISTED.len()]; count].join(",");
    around(&format!("{line} {fields}"))
}

fn around(line: &str) -> Vec<u8> {
    format!("{INPUT_NAMES}\n{BEFORE}{line}\n{AFTER}").into_bytes()
}

/// Cuts an input short anywhere, more often than not in its first thousand bytes.
pub fn cut(rng: &mut Rng, input: &mut Vec<u8>) {
    let early = rng.below(input.len().min(1_000) + 1);
    let anywhere = rng.below(input.len() + 1);
    input.truncate(rng.pick(&[early, anywhere]));
}

/// Changes, inserts or removes a byte anywhere; `byte` is the new one.
pub fn break_byte(rng: &mut Rng, input: &mut Vec<u8>, byte: u8) {
    let place = rng.below(input.len());
    match rng.below(3) {
        0 => input[place] = byte,
        1 => input.insert(place, byte),
        _ => {
            input.remove(place);
            let place = rng.below(input.len() + 1);
            input.insert(place, byte);
        }
    }
}

/// Puts something from the ends of ranges in the place of an item or a field.
pub fn break_item(rng: &mut Rng, input: &mut Vec<u8>) {
    change_line(rng, input, |rng, line| {
        let mut items: Vec<String> = line.split(' ').map(str::to_string).collect();
        let place = rng.below(items.len());
        if place == 6 && rng.percent(85) {
            items[place] = break_fields(rng, &items[place]);
        } else {
            items[place] = rng.pick(&NASTY_ITEMS).to_string();
        }
        items.join(" ")
    });
}

fn break_fields(rng: &mut Rng, fields: &str) -> String {
    let mut fields: Vec<&str> = fields.split(',').collect();
    if rng.percent(70) {
        let place = rng.below(fields.len());
        fields[place] = rng.pick(&NASTY_FIELDS);
    } else {
        let field = rng.pick(&["m1", "*", "k-1", "p5", "g1", "l1"]);
        fields.resize(rng.between(1, 20), field);
    }
    fields.join(",")
}

/// Changes the text of a set, or of a gift's partition; seldom it can still be read.
pub fn break_set(rng: &mut Rng, input: &mut Vec<u8>) {
    change_line(rng, input, |rng, line| {
        let mut items: Vec<String> = line.split(' ').map(str::to_string).collect();
        let place = match line.starts_with("put") {
            true => rng.pick(&[2, 4]),
            false => 2,
        };
        items[place] = broken_set(rng, &items[place]);
        items.join(" ")
    });
}

fn broken_set(rng: &mut Rng, set: &str) -> String {
    let mut parts: Vec<String> = set.split(':').map(str::to_string).collect();
    let (place, other) = (rng.below(parts.len()), rng.below(parts.len()));
    match rng.below(10) {
        0 => parts.insert(rng.below(place + 1), String::new()),
        1 => parts.push(String::new()),
        2 => parts.insert(place, parts[other].clone()),
        3 => parts.swap(place, other),
        4 => parts.reverse(),
        5 => parts[place].insert(0, rng.pick(&['0', '+', '-', ' ', 'p', '1', ':'])),
        6 => parts[place].push(rng.pick(&['0', '1', '9', 'a', '-', ' ', ','])),
        7 => parts[place] = rng.pick(&NASTY_SETS).to_string(),
        8 => parts.push(rng.below(LAST_PARTITION as usize + 3).to_string()),
        _ => {
            let separator = rng.pick(&[",", ";", " ", ".", "::", ""]);
            return parts.join(separator);
        }
    }
    parts.join(":")
}

/// Breaks the shape of a line, or the order of lines.
pub fn break_line(rng: &mut Rng, input: &mut Vec<u8>) {
    change_line(rng, input, |rng, line| match rng.below(12) {
        0 => format!("{line} "),
        1 => format!(" {line}"),
        2 => line.replacen(' ', "  ", 1),
        3 => line.replace(' ', "\t"),
        4 => format!("{line}\r"),
        5 => format!("{line}\n"),
        6 => format!("{line}\n{line}"),
        7 => format!("{line}\n{INPUT_NAMES}"),
        8 => format!("{line}\ngive 0 0 0 - - -"),
        9 => format!("give 1 63 -31 - - -\n{line}"),
        10 => format!("{line} -"),
        _ => line
            .rsplit_once(' ')
            .map_or("", |(rest, _)| rest)
            .to_string(),
    });
}

/// Puts `read`, which no line begins with, in the place of a line's word.
pub fn break_word(rng: &mut Rng, input: &mut Vec<u8>) {
    change_line(rng, input, |_, line| {
        let (_, rest) = line.split_once(' ').unwrap_or_default();
        format!("read {rest}")
    });
}

/// Changes one line, any of them; an input has at least its names line.
fn change_line(rng: &mut Rng, input: &mut Vec<u8>, change: impl FnOnce(&mut Rng, &str) -> String) {
    let text = String::from_utf8_lossy(input).into_owned();
    let mut lines: Vec<String> = text.lines().map(str::to_string).collect();
    let place = rng.below(lines.len());
    lines[place] = change(rng, &lines[place]);
    *input = (lines.join("\n") + "\n").into_bytes();
}

/// Bytes without sense, sometimes after a good names line.
pub fn noise(rng: &mut Rng) -> Vec<u8> {
    let mut input = match rng.percent(50) {
        true => format!("{INPUT_NAMES}\n").into_bytes(),
        false => Vec::new(),
    };
    let alphabet = b"\n \t-,:*mpkgl0123456789 putreadkgivmloc\n";
    for _ in 0..rng.below(200) {
        let any = rng.word() as u8;
        let likely = rng.pick(alphabet);
        input.push(rng.pick(&[any, likely, likely]));
    }
    input
}
