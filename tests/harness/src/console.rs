//! The console program against the reference's text to text.

use crate::program::{difference_text, run};
use crate::report::{alike, Report};
use crate::rng::Rng;
use crate::scripts;
use reference::console::INPUT_NAMES;
use reference::{console_with, ConsoleVariant};
use std::collections::BTreeMap;

const SEED: u64 = 6_001;

/// The rules' own example.
const EXAMPLE_INPUT: &str = include_str!("../../../crates/console/stdin");
const EXAMPLE_OUTPUT: &str = include_str!("../../../crates/console/stdout");

/// What an output line can say; each must come up.
const SAYINGS: [&str; 16] = [
    "names",
    "done",
    "found",
    "none",
    "no2",
    "no3",
    "no4",
    "no5",
    "no13",
    "no14",
    "no7",
    "no8",
    "line 1 unreadable",
    "unreadable after calls",
    "unreadable before calls",
    "input too long",
];

/// What can be said of a line with a bound, and because of it if it is refused or unreadable.
/// Each must come up as well.
const BOUND_SAYINGS: [&str; 8] = [
    "g found",
    "g none",
    "g no5",
    "g unreadable",
    "l found",
    "l none",
    "l no5",
    "l unreadable",
];

/// What can be said of a line by its word, and because of it if the line is unreadable. Each must
/// come up as well.
const WORD_SAYINGS: [&str; 36] = [
    "put done",
    "put no2",
    "put no3",
    "put no4",
    "put no5",
    "put no13",
    "put no14",
    "put no7",
    "look found",
    "look none",
    "look no2",
    "look no3",
    "look no4",
    "look no5",
    "look no13",
    "look no14",
    "look no7",
    "receive found",
    "receive none",
    "receive no2",
    "receive no3",
    "receive no4",
    "receive no5",
    "receive no13",
    "receive no14",
    "receive no7",
    "take found",
    "take none",
    "take no2",
    "take no3",
    "take no4",
    "take no5",
    "take no13",
    "take no14",
    "take no7",
    "read unreadable",
];

/// What can be said of a line with several partitions in a place of a pair, and because of them if
/// the line is unreadable. Each must come up as well.
const SET_SAYINGS: [&str; 10] = [
    "set done",
    "set found",
    "set none",
    "set no13",
    "set no14",
    "set no7",
    "set unreadable",
    "set in a gift unreadable",
    "set of more than 16 readable",
    "set of 64 readable",
];

/// What can be said of a line by partition 0: with no other in its pairs, or, of a refusal by 7, with
/// no other name in its fields. Each must come up as well.
const DEFAULT_SAYINGS: [&str; 14] = [
    "put in 0 done",
    "put in 0 no13",
    "look in 0 found",
    "look in 0 none",
    "look in 0 no13",
    "receive in 0 found",
    "receive in 0 none",
    "receive in 0 no13",
    "take in 0 found",
    "take in 0 none",
    "take in 0 no13",
    "p0 done",
    "p0 found",
    "p0 no7",
];

/// Inputs of one make.
struct Sort {
    name: &'static str,
    inputs: u64,
    make: fn(&mut Rng, u64) -> Vec<u8>,
}

impl Sort {
    fn input(&self, seed: u64, number: u64) -> Vec<u8> {
        (self.make)(&mut Rng::new(seed, number), number)
    }
}

const SORTS: [Sort; 14] = [
    Sort {
        name: "each nasty set in each place",
        inputs: scripts::NASTY_SET_INPUTS as u64,
        make: |_, number| scripts::nasty_set(number as usize),
    },
    Sort {
        name: "sets changed at random",
        inputs: 500,
        make: |rng, _| {
            let mut input = scripts::readable(rng);
            scripts::break_set(rng, &mut input);
            input
        },
    },
    Sort {
        name: "readable inputs",
        inputs: 600,
        make: |rng, _| scripts::readable(rng),
    },
    Sort {
        name: "inputs cut short",
        inputs: 500,
        make: |rng, _| {
            let mut input = scripts::readable(rng);
            scripts::cut(rng, &mut input);
            input
        },
    },
    Sort {
        name: "bytes 0 to 255 anywhere",
        inputs: 768,
        make: |rng, number| {
            let mut input = scripts::readable(rng);
            // Every byte has its turn.
            scripts::break_byte(rng, &mut input, number as u8);
            while rng.percent(20) {
                let byte = rng.word() as u8;
                scripts::break_byte(rng, &mut input, byte);
            }
            input
        },
    },
    Sort {
        name: "items at the ends of ranges",
        inputs: 400,
        make: |rng, _| {
            let mut input = scripts::readable(rng);
            scripts::break_item(rng, &mut input);
            while rng.percent(30) {
                scripts::break_item(rng, &mut input);
            }
            input
        },
    },
    Sort {
        name: "each nasty item in each place",
        inputs: scripts::NASTY_ITEM_INPUTS as u64,
        make: |_, number| scripts::nasty_item(number as usize),
    },
    Sort {
        name: "each nasty field in each kind of call",
        inputs: scripts::NASTY_FIELD_INPUTS as u64,
        make: |_, number| scripts::nasty_field(number as usize),
    },
    Sort {
        name: "0 to 20 fields",
        inputs: scripts::FIELD_COUNT_INPUTS as u64,
        make: |_, number| scripts::field_count(number as usize),
    },
    Sort {
        name: "broken lines",
        inputs: 400,
        make: |rng, _| {
            let mut input = scripts::readable(rng);
            scripts::break_line(rng, &mut input);
            input
        },
    },
    Sort {
        name: "read for another word",
        inputs: 400,
        make: |rng, _| {
            let mut input = scripts::readable(rng);
            scripts::break_word(rng, &mut input);
            input
        },
    },
    Sort {
        name: "noise",
        inputs: 200,
        make: |rng, _| scripts::noise(rng),
    },
    Sort {
        name: "65,535 to 65,537 bytes, and longer",
        inputs: 120,
        make: long_input,
    },
    Sort {
        name: "no bytes, one byte",
        inputs: 257,
        make: |_, number| {
            number
                .checked_sub(1)
                .map(|byte| byte as u8)
                .into_iter()
                .collect()
        },
    },
];

/// Readable and of a length around the limit, or broken without a change of length.
fn long_input(rng: &mut Rng, number: u64) -> Vec<u8> {
    let lengths = [65_535, 65_536, 65_537, 65_538, 131_073];
    let length = lengths[number as usize % lengths.len()];
    let mut input = scripts::readable_of_length(rng, length);
    match rng.below(6) {
        0 => input[length - 1] = rng.pick(b" 0\0\r"),
        1 => {
            let place = rng.below(length);
            input[place] = rng.word() as u8;
        }
        2 => input.fill(rng.pick(b"\n0 ")),
        _ => {}
    }
    input
}

/// Compares the program at this path with the reference.
pub fn compare(report: &mut Report, program: &str) {
    report.check("console: the rules' example", example(program));
    let mut said = BTreeMap::new();
    for (index, sort) in SORTS.iter().enumerate() {
        let outcome = compare_sort(program, SEED + index as u64, sort, &mut said);
        report.check(&format!("console: {}", sort.name), outcome);
    }
    for (saying, count) in &said {
        println!("  {saying}: {count}");
    }
    let missing: Vec<&str> = SAYINGS
        .into_iter()
        .chain(BOUND_SAYINGS)
        .chain(WORD_SAYINGS)
        .chain(SET_SAYINGS)
        .chain(DEFAULT_SAYINGS)
        .filter(|saying| !said.contains_key(saying))
        .collect();
    let outcome = match missing.is_empty() {
        true => Ok("each came up".to_string()),
        false => Err(format!("never came up: {}", missing.join(", "))),
    };
    report.check("console: what an output can say", outcome);
}

/// The harness itself is tested: each wrong console must be caught by the inputs.
pub fn check_variants(report: &mut Report) {
    let inputs: Vec<Vec<u8>> = SORTS
        .iter()
        .enumerate()
        .flat_map(|(index, sort)| {
            (0..sort.inputs).map(move |number| sort.input(SEED + index as u64, number))
        })
        .collect();
    let slips = ConsoleVariant::WORD_SLIPS
        .into_iter()
        .chain(ConsoleVariant::SET_SLIPS)
        .chain(ConsoleVariant::DEFAULT_SLIPS);
    for variant in slips {
        let mut inputs = inputs.iter();
        let otherwise = |input: &Vec<u8>| console_with(variant, input) != reference::console(input);
        let outcome = match inputs.position(otherwise) {
            Some(alike) => Ok(format!("after {alike} inputs alike")),
            None => Err("not caught".to_string()),
        };
        report.check(&format!("console catches {variant:?}"), outcome);
    }
}

fn example(program: &str) -> Result<String, String> {
    let output = run(program, EXAMPLE_INPUT.as_bytes())?;
    match output == EXAMPLE_OUTPUT.as_bytes() {
        true => Ok("comes out whole".to_string()),
        false => Err(difference_text(
            EXAMPLE_INPUT.as_bytes(),
            &output,
            EXAMPLE_OUTPUT.as_bytes(),
        )),
    }
}

fn compare_sort(
    program: &str,
    seed: u64,
    sort: &Sort,
    said: &mut BTreeMap<&'static str, u64>,
) -> Result<String, String> {
    for number in 0..sort.inputs {
        let input = sort.input(seed, number);
        let expected = reference::console(&input);
        let place = format!("seed {seed}, input {number}");
        let output = run(program, &input).map_err(|text| format!("{place}: {text}"))?;
        if output != expected {
            let text = difference_text(&input, &output, &expected);
            return Err(format!("{place}: {text}"));
        }
        note_sayings(&expected, said);
        note_line_sayings(&input, &expected, said);
    }
    alike(seed, sort.inputs, "inputs")
}

fn note_sayings(output: &[u8], said: &mut BTreeMap<&'static str, u64>) {
    let text = String::from_utf8_lossy(output);
    let mut calls = 0;
    for line in text.lines() {
        let mut items = line.split(' ');
        let saying = match (items.next(), items.next()) {
            (Some("line"), Some("answer")) => "names",
            (Some("line"), Some("1")) => "line 1 unreadable",
            (Some("line"), _) if calls > 0 => "unreadable after calls",
            (Some("line"), _) => "unreadable before calls",
            (Some("input"), _) => "input too long",
            (_, Some(answer)) => {
                calls += 1;
                SAYINGS
                    .into_iter()
                    .find(|saying| *saying == answer)
                    .unwrap_or("another answer")
            }
            _ => "another line",
        };
        *said.entry(saying).or_default() += 1;
    }
}

/// Notes what is said of each input line, by its bounds, by its word, by its sets and by partition 0.
fn note_line_sayings(input: &[u8], output: &[u8], said: &mut BTreeMap<&'static str, u64>) {
    let (input, output) = (
        String::from_utf8_lossy(input),
        String::from_utf8_lossy(output),
    );
    for (line, answer) in answered_lines(&input, &output) {
        let sayings = bound_sayings(line, answer).into_iter();
        let sayings = sayings.chain(word_saying(line, answer));
        let sayings = sayings.chain(set_sayings(line, answer));
        for saying in sayings.chain(default_sayings(line, answer)) {
            *said.entry(saying).or_default() += 1;
        }
    }
}

/// Finds for each output line the input line it is about, and its answer or that it is unreadable.
fn answered_lines<'a>(input: &'a str, output: &'a str) -> Vec<(&'a str, &'a str)> {
    let lines: Vec<&str> = input.split('\n').collect();
    let mut calls = lines[1..].iter().filter(|line| !line.starts_with("give "));
    let mut answered = Vec::new();
    for printed in output.lines().skip(1) {
        let items: Vec<&str> = printed.split(' ').collect();
        answered.push(match items[..] {
            ["line", number, answer] => {
                let number: usize = number.parse().expect("the number of a line");
                (lines[number - 1], answer)
            }
            [_, answer, _] => (*calls.next().expect("a call for each answer"), answer),
            _ => continue,
        });
    }
    answered
}

fn bound_sayings(line: &str, answer: &str) -> Vec<&'static str> {
    let of_letter = |letter: &str| {
        let saying = format!("{letter} {answer}");
        let known = BOUND_SAYINGS.into_iter().find(|known| *known == saying);
        known.filter(|_| says_for_bound(line, letter, answer))
    };
    ["g", "l"].into_iter().filter_map(of_letter).collect()
}

/// Of an unreadable `read` only if the line could be read with another word.
fn word_saying(line: &str, answer: &str) -> Option<&'static str> {
    let (word, rest) = line.split_once(' ')?;
    let saying = format!("{word} {answer}");
    let known = WORD_SAYINGS.into_iter().find(|known| *known == saying);
    let for_word = || !alone(&format!("receive {rest}")).contains(answer);
    known.filter(|_| word != "read" || for_word())
}

/// Of an unreadable line only if it could be read with partition 0 in the place of each set.
fn set_sayings(line: &str, answer: &str) -> Vec<&'static str> {
    let mut items: Vec<&str> = line.split(' ').collect();
    let [call, _, rpart, _, tpart, ..] = items[..] else {
        return Vec::new();
    };
    let parts = |item: &str| item.split(':').count();
    let most = parts(rpart).max(parts(tpart));
    if most == 1 {
        return Vec::new();
    }
    for place in [2, 4] {
        if parts(items[place]) > 1 {
            items[place] = "0";
        }
    }
    let unreadable = answer == "unreadable";
    if unreadable && alone(&items.join(" ")).contains(answer) {
        return Vec::new();
    }
    let saying = match call {
        "give" => format!("set in a gift {answer}"),
        _ => format!("set {answer}"),
    };
    let known = SET_SAYINGS.into_iter().find(|known| *known == saying);
    let many = (most > 16 && !unreadable).then_some("set of more than 16 readable");
    let all = (most == 64 && !unreadable).then_some("set of 64 readable");
    known.into_iter().chain(many).chain(all).collect()
}

fn default_sayings(line: &str, answer: &str) -> Vec<&'static str> {
    let items: Vec<&str> = line.split(' ').collect();
    let [call, _, rpart, _, tpart, _, fields] = items[..] else {
        return Vec::new();
    };
    let names: Vec<&str> = fields.split(',').filter(|field| is_name(field)).collect();
    let in_0 = rpart == "0" && matches!(tpart, "0" | "-");
    let carries_0 = match answer {
        "no7" => !names.is_empty() && names.iter().all(|name| *name == "p0"),
        _ => names.contains(&"p0"),
    };
    let in_pairs = in_0.then(|| format!("{call} in 0 {answer}"));
    let in_fields = carries_0.then(|| format!("p0 {answer}"));
    let said = in_pairs.into_iter().chain(in_fields);
    said.filter_map(|saying| DEFAULT_SAYINGS.into_iter().find(|known| *known == saying))
        .collect()
}

fn is_name(field: &str) -> bool {
    field.starts_with(['p', 'k'])
}

/// What is printed for a line alone.
fn alone(line: &str) -> String {
    let output = reference::console(format!("{INPUT_NAMES}\n{line}\n").as_bytes());
    String::from_utf8_lossy(&output).into_owned()
}

/// Whether the line has a bound of this letter, and whether a refusal goes with it: the line alone
/// gets this answer, and with a message in the place of the bound it doesn't.
fn says_for_bound(line: &str, letter: &str, answer: &str) -> bool {
    let (start, fields) = line.rsplit_once(' ').unwrap_or_default();
    let others: Vec<&str> = fields
        .split(',')
        .map(|field| match field.starts_with(letter) {
            true => "m0",
            false => field,
        })
        .collect();
    let without = format!("{start} {}", others.join(","));
    let gets = |line: &str| alone(line).contains(answer);
    without != line && (matches!(answer, "found" | "none") || gets(line) && !gets(&without))
}
