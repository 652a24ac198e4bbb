//! What can be said of files of pairs, and of lists of pairs with the answers that they got.

use crate::order_lists::word;
use reference::lines::Fault;
use reference::order::{Before, Outcome, LONGEST_FILE, MOST_PAIRS};
use reference::{OrderVariant, StartOrder, TextSlip};

/// What can be said of a file besides `circle 0` to `circle 7`; each must come up.
const OF_FILES: [&str; 24] = [
    "order",
    "order, no pairs",
    "order, 64 pairs",
    "order, a pair twice",
    "circle, another party waits for it",
    "no10, too long",
    "no10, 4097 bytes",
    "no10, empty",
    "no10, names line",
    "no11, last line feed",
    "no11, items",
    "no11, number",
    "no11, 4096 bytes",
    "no11, with more than 64 readable lines",
    "no11, with a party above 7 in another line",
    "no15",
    "no15, 65 pairs",
    "no15, 4096 bytes",
    "no15, with a party above 7",
    "no16",
    "no16, 4096 bytes",
    "no16, more than ten digits",
    "no16, in range in 64 bits",
    "no16, in range in 32 bits",
];

/// What can be said of a list; each must come up.
const OF_LISTS: [&str; 12] = [
    "order, 64 pairs",
    "order, a pair twice",
    "circle, the first pair closes it",
    "circle, the last pair closes it",
    "circle, a smaller party waits for it",
    "circle, it waits for a smaller party",
    "circle, another one too",
    "115, 65 pairs",
    "115, with a party above 7",
    "115, with a circle",
    "116, 64 pairs",
    "116, with a circle",
];

pub fn expected_of_files() -> Vec<String> {
    let circles = (0..8).map(|party| format!("circle {party}"));
    let others = OF_FILES.iter().map(|saying| saying.to_string());
    others.chain(circles).collect()
}

/// All that can be said of a file.
pub fn of_file(file: &[u8]) -> Vec<String> {
    match StartOrder::correct().read(file) {
        Ok(pairs) => of_readable(file, &pairs),
        Err(fault) => of_unreadable(file, fault),
    }
}

fn of_readable(file: &[u8], pairs: &[Before]) -> Vec<String> {
    let mut said = Vec::new();
    let mut say = |saying: &str, holds: bool| said.extend(holds.then(|| saying.to_string()));
    let above = pairs.iter().any(|pair| pair.first.max(pair.second) > 7);
    match StartOrder::correct().decide(pairs) {
        Ok(Outcome::Order(_)) => {
            say("order", true);
            say("order, no pairs", pairs.is_empty());
            say("order, 64 pairs", pairs.len() == MOST_PAIRS);
            say("order, a pair twice", has_double(pairs));
        }
        Ok(Outcome::Circle(party)) => {
            say(&format!("circle {party}"), true);
            let all = standings(pairs);
            let waits = all.iter().any(|one| one.after_circle && !one.on_circle);
            say("circle, another party waits for it", waits);
        }
        Err(Fault::PairCount) => {
            say("no15", true);
            say("no15, 65 pairs", pairs.len() == MOST_PAIRS + 1);
            say("no15, 4096 bytes", file.len() == LONGEST_FILE);
            say("no15, with a party above 7", above);
        }
        Err(_) => {
            let taken = |slip| {
                let blunder = StartOrder::with(OrderVariant::Text(slip));
                let read = blunder.read(file).and_then(|pairs| blunder.decide(&pairs));
                read.err().map(Fault::number)
            };
            let long = taken(TextSlip::LongNumberIsUnreadable) == Some(11);
            let in_64_bits = taken(TextSlip::NumberWrapsAt64).is_none();
            let in_32_bits = taken(TextSlip::NumberWrapsAt32).is_none();
            say("no16", true);
            say("no16, 4096 bytes", file.len() == LONGEST_FILE);
            say("no16, more than ten digits", long);
            say("no16, in range in 64 bits", in_64_bits);
            say("no16, in range in 32 bits", in_32_bits);
        }
    }
    said
}

fn of_unreadable(file: &[u8], fault: Fault) -> Vec<String> {
    let mut said = Vec::new();
    let mut say = |saying: &str, holds: bool| said.extend(holds.then(|| saying.to_string()));
    let cause = match fault {
        Fault::TooLong => "no10, too long",
        Fault::NamesLine if file.is_empty() => "no10, empty",
        Fault::NamesLine => "no10, names line",
        Fault::LineFeed => "no11, last line feed",
        Fault::Items => "no11, items",
        Fault::Number => "no11, number",
        _ => "a fault of no file of pairs",
    };
    say(cause, true);
    say("no10, 4097 bytes", file.len() == LONGEST_FILE + 1);
    if fault.number() == 11 {
        let lines = StartOrder::correct().lines(file).unwrap_or_default();
        let readable: Vec<Before> = lines.into_iter().flatten().collect();
        let above = readable.iter().any(|pair| pair.first.max(pair.second) > 7);
        let many = readable.len() > MOST_PAIRS;
        say("no11, 4096 bytes", file.len() == LONGEST_FILE);
        say("no11, with more than 64 readable lines", many);
        say("no11, with a party above 7 in another line", above);
    }
    said
}

/// The most result words that are lent, but for some calls with far more.
pub const MOST_LENT: usize = 10;
/// What is left of these in 8 bits is too few.
pub const FAR_MORE: [usize; 2] = [256, 263];

pub fn expected_of_lists() -> Vec<String> {
    let mut expected: Vec<String> = OF_LISTS.iter().map(|saying| saying.to_string()).collect();
    for length in (0..=MOST_LENT).chain(FAR_MORE) {
        let possible = match length {
            0..=7 => vec![115],
            _ => (0..=8).chain([115, 116]).collect(),
        };
        expected.extend(possible.iter().map(|answer| answered(length, *answer)));
    }
    expected.extend((1..=8).map(shortest));
    expected
}

fn answered(length: usize, answer: u32) -> String {
    format!("{length:3} result words, answer {answer}")
}

fn shortest(length: usize) -> String {
    format!("circle, the shortest of its party has {length}")
}

/// All that can be said of a list which got this answer with so many result words.
pub fn of_list(words: &[u64], length: usize, answer: u32) -> Vec<String> {
    let mut said = vec![answered(length, answer)];
    let mut say = |saying: &str, holds: bool| said.extend(holds.then(|| saying.to_string()));
    let pairs: Vec<Before> = words.iter().map(|word| Before::from_word(*word)).collect();
    let above = pairs.iter().any(|pair| pair.first.max(pair.second) > 7);
    let in_range: Vec<Before> = pairs.iter().copied().filter(is_in_range).collect();
    let any_circle = || standings(&in_range).iter().any(|one| one.on_circle);
    match answer {
        0 => {
            say("order, 64 pairs", pairs.len() == MOST_PAIRS);
            say("order, a pair twice", has_double(&pairs));
        }
        115 if length >= 8 => {
            say("115, 65 pairs", pairs.len() == MOST_PAIRS + 1);
            say("115, with a party above 7", above);
            say("115, with a circle", any_circle());
        }
        116 => {
            say("116, 64 pairs", pairs.len() == MOST_PAIRS);
            say("116, with a circle", any_circle());
        }
        1..=8 => {
            let party = answer as usize - 1;
            let all = standings(&pairs);
            let smaller = &all[..party];
            let no_circle = |left: &[u64]| reference::start_order(left, &mut [0; 8]) == 0;
            let first_closes = no_circle(&words[1..]);
            let last_closes = no_circle(&words[..words.len() - 1]);
            let waits = smaller.iter().any(|one| one.after_circle);
            let comes_before = smaller.iter().any(|one| one.before_circle);
            let from_party = reached(&pairs, party);
            let another = (0..8).any(|other| all[other].on_circle && !from_party[other]);
            say("circle, the first pair closes it", first_closes);
            say("circle, the last pair closes it", last_closes);
            say("circle, a smaller party waits for it", waits);
            say("circle, it waits for a smaller party", comes_before);
            say("circle, another one too", another);
            say(&shortest(shortest_from(&pairs, party)), true);
        }
        _ => {}
    }
    said
}

fn is_in_range(pair: &Before) -> bool {
    pair.first <= 7 && pair.second <= 7
}

fn has_double(pairs: &[Before]) -> bool {
    let words: Vec<u64> = pairs
        .iter()
        .map(|pair| word(pair.first, pair.second))
        .collect();
    let mut places = 0..words.len();
    places.any(|place| words[..place].contains(&words[place]))
}

/// The parties that chains from this one lead to: pairs are gone through until none leads further.
pub fn reached(pairs: &[Before], party: usize) -> [bool; 8] {
    let mut found = [false; 8];
    loop {
        let before = found;
        for pair in pairs {
            if pair.first as usize == party || found[pair.first as usize] {
                found[pair.second as usize] = true;
            }
        }
        if found == before {
            return found;
        }
    }
}

/// How a party stands to the circles.
struct Standing {
    on_circle: bool,
    /// A chain from a circle leads to it.
    after_circle: bool,
    /// A chain from it leads to a circle.
    before_circle: bool,
}

/// How each party stands to the circles.
fn standings(pairs: &[Before]) -> Vec<Standing> {
    let leads: Vec<[bool; 8]> = (0..8).map(|party| reached(pairs, party)).collect();
    let circles: Vec<usize> = (0..8).filter(|party| leads[*party][*party]).collect();
    let standing = |party: usize| Standing {
        on_circle: circles.contains(&party),
        after_circle: circles.iter().any(|other| leads[*other][party]),
        before_circle: circles.iter().any(|other| leads[party][*other]),
    };
    (0..8).map(standing).collect()
}

/// How many pairs the shortest circle of a party has, which lies on one.
fn shortest_from(pairs: &[Before], party: usize) -> usize {
    let mut ends = [false; 8];
    ends[party] = true;
    let mut length = 0;
    loop {
        let mut next = [false; 8];
        for pair in pairs {
            next[pair.second as usize] |= ends[pair.first as usize];
        }
        length += 1;
        if next[party] {
            return length;
        }
        ends = next;
    }
}
