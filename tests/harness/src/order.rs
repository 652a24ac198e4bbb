//! Start orders: the program and the linked library's call against the reference.

use crate::edge::{Edge, Side};
use crate::files::Sort;
use crate::order_files;
use crate::order_lists::{self, LONGEST_LIST};
use crate::order_tally::{
    expected_of_files, expected_of_lists, of_file, of_list, reached, FAR_MORE, MOST_LENT,
};
use crate::program::{difference_text, run, Print, Texts};
use crate::report::{alike, Report};
use crate::rng::Rng;
use crate::sayings::Sayings;
use crate::variants::caught;
use reference::order::Before;
use reference::{OrderVariant, StartOrder, TextSlip};

const FILES_SEED: u64 = 8_001;
const LISTS_SEED: u64 = 8_101;
const WORDS_SEED: u64 = 8_201;

const FEWEST_RUNS: u64 = 7_000;
const FEWEST_CALLS: u64 = 70_000;

/// The call: its answer, with what it did to the result words.
pub type OrderCall<'a> = dyn Fn(&[u64], &mut [u64]) -> u32 + 'a;

/// Pairs, what is printed for them and what is answered.
type Case = (&'static [(u64, u64)], &'static str, u32);

/// Written by hand.
const BY_HAND: [Case; 7] = [
    (&[], "order 0 1 2 3 4 5 6 7\n", 0),
    (&[(7, 0)], "order 1 2 3 4 5 6 7 0\n", 0),
    (&[(3, 0), (5, 3), (3, 0)], "order 1 2 4 5 3 0 6 7\n", 0),
    // 0 only waits for the circle, and 1 comes before it.
    (&[(1, 5), (2, 5), (5, 2), (5, 0)], "circle 2\n", 3),
    (&[(0, 1), (4, 4)], "circle 4\n", 5),
    (&[(0, 1); 65], "no15\n", 115),
    (&[(3, 3), (0, 8)], "no16\n", 116),
];

/// Compares the program at this path, and then the library's call, with the reference.
pub fn compare(report: &mut Report, program: &str, call: &OrderCall) {
    let print = |file: &[u8]| run(program, file);
    report.check("order, program: by hand", printed_by_hand(&print));
    compare_program(report, &print);
    report.check("order, library: by hand", answered_by_hand(call));
    compare_library(report, call);
}

/// The harness itself is tested: each wrong variant must be caught wherever it shows, and the right
/// one nowhere.
pub fn check_variants(report: &mut Report) {
    let files = made_files();
    let lists = made_lists();
    let of_text = TextSlip::ALL.map(OrderVariant::Text);
    let of_program = OrderVariant::OF_PROGRAM;
    let of_call = OrderVariant::OF_CALL;
    let wrong = OrderVariant::OF_DECIDING.into_iter();
    for variant in wrong.chain(of_text).chain(of_program).chain(of_call) {
        let in_call = !of_text.contains(&variant) && !of_program.contains(&variant);
        let mut found = Vec::new();
        if !of_call.contains(&variant) {
            found.push(("printed", first_printed_otherwise(&files, variant)));
        }
        if in_call {
            found.push(("answered", first_answered_otherwise(&lists, variant)));
        }
        report.check(&format!("order catches {variant:?}"), caught(&found));
    }
    let right = OrderVariant::Correct;
    let printed = first_printed_otherwise(&files, right);
    let answered = first_answered_otherwise(&lists, right);
    let outcome = match (printed, answered) {
        (None, None) => Ok(format!(
            "{} files and {} lists alike",
            files.len(),
            lists.len()
        )),
        _ => Err(format!("file {printed:?}, list {answered:?}")),
    };
    report.check("order doesn't catch the right one", outcome);
}

/// A file and what is printed for it.
struct MadeFile {
    file: Vec<u8>,
    printed: Vec<u8>,
}

/// The files of all sorts.
fn made_files() -> Vec<MadeFile> {
    let mut all = Vec::new();
    for (index, sort) in order_files::sorts().iter().enumerate() {
        all.extend((0..sort.count).map(|number| {
            let file = sort.made(FILES_SEED + index as u64, number);
            let printed = reference::order(&file);
            MadeFile { file, printed }
        }));
    }
    all
}

/// A list and what makes the words that are lent with it.
struct MadeList {
    pairs: Vec<u64>,
    rng: Rng,
}

/// The lists of all sorts.
fn made_lists() -> Vec<MadeList> {
    let mut all = Vec::new();
    for (index, sort) in order_lists::sorts().iter().enumerate() {
        all.extend((0..sort.count).map(|number| MadeList {
            pairs: sort.made(LISTS_SEED + index as u64, number),
            rng: words_rng(index, number),
        }));
    }
    all
}

/// Makes the words that are lent with a list.
fn words_rng(index: usize, number: usize) -> Rng {
    Rng::new(WORDS_SEED + index as u64, number as u64)
}

fn first_printed_otherwise(files: &[MadeFile], variant: OrderVariant) -> Option<usize> {
    let wrong = StartOrder::with(variant);
    let mut files = files.iter();
    files.position(|made| wrong.print(&made.file) != made.printed)
}

fn first_answered_otherwise(lists: &[MadeList], variant: OrderVariant) -> Option<usize> {
    let wrong = |pairs: &[u64], result: &mut [u64]| StartOrder::with(variant).call(pairs, result);
    let mut duel = OrderDuel::new(&wrong);
    let mut lists = lists.iter();
    lists.position(|made| duel.compare(&made.pairs, &mut made.rng.clone()).is_err())
}

fn printed_by_hand(print: &Print) -> Result<String, String> {
    for (pairs, due, _) in BY_HAND {
        let line = |(first, second): &(u64, u64)| format!("{first} {second}\n");
        let lines: String = pairs.iter().map(line).collect();
        let file = format!("before after\n{lines}").into_bytes();
        let output = print(&file)?;
        if output != due.as_bytes() {
            return Err(difference_text(&file, &output, due.as_bytes()));
        }
    }
    Ok(format!("{} files as written", BY_HAND.len()))
}

fn answered_by_hand(call: &OrderCall) -> Result<String, String> {
    for (pairs, printed, due) in BY_HAND {
        let word = |(first, second): &(u64, u64)| first << 32 | second;
        let words: Vec<u64> = pairs.iter().map(word).collect();
        let mut expected = [u64::MAX; 9];
        if let Some(order) = printed.strip_prefix("order ") {
            for (lent, party) in expected.iter_mut().zip(order.trim_end().split(' ')) {
                *lent = party.parse().expect("a party");
            }
        }
        let mut result = [u64::MAX; 9];
        let answer = call(&words, &mut result);
        if (answer, result) != (due, expected) {
            return Err(format!("pairs {pairs:?}: answer {answer}, {result:?}"));
        }
    }
    Ok(format!("{} lists as written", BY_HAND.len()))
}

fn compare_program(report: &mut Report, print: &Print) {
    let texts = Texts {
        name: "order",
        print,
        due: reference::order,
        said: of_file,
        first_seed: FILES_SEED,
    };
    let tally = texts.compare(report, &order_files::sorts());
    let said = tally.finish(expected_of_files(), "files", FEWEST_RUNS);
    report.check("order, program: what can be said of files", said);
}

fn compare_library(report: &mut Report, call: &OrderCall) {
    let mut tally = Sayings::default();
    let mut duel = OrderDuel::new(call);
    for (index, sort) in order_lists::sorts().iter().enumerate() {
        let outcome = compare_lists(&mut duel, sort, index, &mut tally);
        report.check(&format!("order, library: {}", sort.name), outcome);
    }
    let said = tally.finish(expected_of_lists(), "calls", FEWEST_CALLS);
    report.check("order, library: what can be said of lists", said);
}

fn compare_lists(
    duel: &mut OrderDuel,
    sort: &Sort<Vec<u64>>,
    index: usize,
    tally: &mut Sayings,
) -> Result<String, String> {
    let seed = LISTS_SEED + index as u64;
    for number in 0..sort.count {
        let pairs = sort.made(seed, number);
        let answers = duel
            .compare(&pairs, &mut words_rng(index, number))
            .map_err(|text| format!("seed {seed}, list {number}: {text}"))?;
        for (length, answer) in answers {
            tally.note(of_list(&pairs, length, answer));
        }
    }
    alike(seed, sort.count as u64, "lists")
}

/// A call and the reference's, side by side.
struct OrderDuel<'a> {
    call: &'a OrderCall<'a>,
    pairs: Edge<u64>,
    result: Edge<u64>,
}

impl<'a> OrderDuel<'a> {
    fn new(call: &'a OrderCall<'a>) -> OrderDuel<'a> {
        OrderDuel {
            call,
            pairs: Edge::new(LONGEST_LIST),
            result: Edge::new(FAR_MORE[1]),
        }
    }

    /// Asks with eight result words, and then with more or fewer and with pairs that can't be
    /// written. Gives both numbers of words, each with its answer.
    fn compare(&mut self, pairs: &[u64], rng: &mut Rng) -> Result<[(usize, u32); 2], String> {
        let other = match rng.percent(3) {
            true => rng.pick(&FAR_MORE),
            false => rng.below(MOST_LENT + 1),
        };
        let mut answers = [(8, 0), (other, 0)];
        for (number, (length, answer)) in answers.iter_mut().enumerate() {
            let sides = [Side::First, Side::Last];
            let earlier: Vec<u64> = (0..*length).map(|_| rng.word()).collect();
            self.pairs.set(pairs, rng.pick(&sides));
            if number == 1 {
                self.pairs.close();
            }
            self.result.set(&earlier, rng.pick(&sides));
            *answer = self.compare_call(pairs)?;
        }
        Ok(answers)
    }

    /// Makes the call with what is lent, and gives its answer.
    fn compare_call(&mut self, pairs: &[u64]) -> Result<u32, String> {
        let before = self.result.lent().to_vec();
        let mut expected = before.clone();
        let due = reference::start_order(pairs, &mut expected);
        let answer = (self.call)(self.pairs.lent(), self.result.lent_mut());
        let result = self.result.lent();
        let mut differences = Vec::new();
        if answer != due {
            differences.push(format!("answer {answer} against the reference's {due}"));
        }
        for (place, (word, due)) in result.iter().zip(&expected).enumerate() {
            if word != due {
                differences.push(format!("result word {place}: {word} against {due}"));
            }
        }
        differences.extend(broken_rules(pairs, &before, answer, result));
        if !self.result.kept_guards() {
            differences.push("written beside the result words".to_string());
        }
        if self.pairs.lent() != pairs || !self.pairs.kept_guards() {
            differences.push("written to the pairs or beside them".to_string());
        }
        if differences.is_empty() {
            return Ok(answer);
        }
        let shown: Vec<String> = pairs
            .iter()
            .map(|word| Before::from_word(*word).text())
            .take(80)
            .collect();
        Err(format!(
            "{} result words, {}\n    {} pairs: {}",
            result.len(),
            differences.join("\n    "),
            pairs.len(),
            shown.join(", ")
        ))
    }
}

/// What the rules say of any answer and isn't so, without the reference's answer.
fn broken_rules(words: &[u64], before: &[u64], answer: u32, result: &[u64]) -> Vec<String> {
    let pairs: Vec<Before> = words.iter().map(|word| Before::from_word(*word)).collect();
    let mut broken = Vec::new();
    let mut rule = |holds: bool, text: &str| broken.extend((!holds).then(|| text.to_string()));
    let too_many = pairs.len() > 64 || before.len() < 8;
    let above = pairs.iter().any(|pair| pair.first > 7 || pair.second > 7);
    rule(too_many == (answer == 115), "115 tells of counts");
    rule(
        (!too_many && above) == (answer == 116),
        "116 tells of parties",
    );
    let kept = if answer == 0 { before.len().min(8) } else { 0 };
    rule(
        result[kept..] == before[kept..],
        "other words keep what they hold",
    );
    if too_many || above {
        return broken;
    }
    let on_circle = |party: &usize| reached(&pairs, *party)[*party];
    let named = (0..8).find(on_circle).map_or(0, |party| party as u32 + 1);
    rule(answer == named, "a circle's smallest party is named");
    if answer == 0 {
        let place = |party: u64| result[..8].iter().position(|placed| *placed == party);
        rule(
            (0..8).all(|party| place(party).is_some()),
            "each party once",
        );
        let mut all = pairs.iter();
        let respected = all.all(|pair| place(pair.first) < place(pair.second));
        rule(respected, "every pair is respected");
        // Whoever is smaller and comes later has a predecessor that isn't placed before either.
        let waits = |party: u64, until: usize| {
            let mut pairs = pairs.iter().filter(|pair| pair.second == party);
            pairs.any(|pair| place(pair.first) >= Some(until))
        };
        let first = (0..8).all(|here| {
            let mut later = result[here + 1..8].iter();
            later.all(|party| *party > result[here] || waits(*party, here))
        });
        rule(first, "the first in dictionary order");
    }
    broken
}

#[cfg(test)]
mod tests {
    use super::*;

    /// Whether the rules alone tell a variant's answers from right ones.
    fn breaks_rules(variant: OrderVariant) -> bool {
        made_lists().iter().any(|made| {
            let before = [77; 9];
            let mut result = before;
            let answer = StartOrder::with(variant).call(&made.pairs, &mut result);
            !broken_rules(&made.pairs, &before, answer, &result).is_empty()
        })
    }

    #[test]
    fn rules_alone_catch_blunders() {
        assert!(!breaks_rules(OrderVariant::Correct));
        for variant in OrderVariant::OF_DECIDING {
            assert!(breaks_rules(variant), "{variant:?}");
        }
    }
}
