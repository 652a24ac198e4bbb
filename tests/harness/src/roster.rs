//! Roster files: the program and the linked library's call against the reference.

use crate::edge::{Edge, Side};
use crate::files::Sort;
use crate::program::{difference_text, in_shares, run, Print, Texts};
use crate::report::{alike, Report};
use crate::rng::Rng;
use crate::roster_files::{good, sorts};
use crate::roster_tally::{sayings, SAYINGS};
use crate::sayings::Sayings;
use crate::variants::caught;
use reference::roster::ROSTER_NAMES;
use reference::table::ROSTER_WORDS;
use reference::{RosterReader, RosterVariant, TextSlip};
use std::collections::BTreeMap;

const SEED: u64 = 7_001;
const READ_BACK_SEED: u64 = 7_101;
const WORDS_SEED: u64 = 7_201;

const READ_BACK_FILES: usize = 500;
/// How often the sorts are gone through for the call.
const ROUNDS: usize = 10;
const FEWEST_RUNS: u64 = 20_000;
const FEWEST_CALLS: u64 = 200_000;

/// The most words that are lent.
const MOST_LENT: usize = 20;
/// No file is longer.
const LONGEST_MADE: usize = 140_000;

/// The call: its answer, with what it did to the words.
pub type ReadRoster<'a> = dyn Fn(&[u8], &mut [u64]) -> u32 + 'a;

/// A card with what is printed for it and its words, written by hand.
const CARD: &str = "party kind name\n1 k -4\n1 p 5\n0 p 5\n7 k 31\n0 k 4\n0 p 5\n7 p 63\n7 k -31\n";
const CARD_PRINTED: &str =
    "party kind name\n0 p 5\n0 k 4\n1 p 5\n1 k -4\n7 p 63\n7 k -31\n7 k 31\n";
const CARD_WORDS: [u64; ROSTER_WORDS] = [
    32,
    32,
    0,
    0,
    0,
    0,
    0,
    9_223_372_036_854_775_808,
    34_359_738_368,
    134_217_728,
    0,
    0,
    0,
    0,
    0,
    4_611_686_018_427_387_905,
];

/// Compares the program at this path, and then the library's call, with the reference.
pub fn compare(report: &mut Report, program: &str, call: &ReadRoster) {
    let sorts = sorts();
    let print = |file: &[u8]| run(program, file);
    report.check("roster, program: a card", card_printed(&print));
    compare_program(report, &sorts, &print);
    report.check("roster, program: read back", read_back(&print));
    report.check("roster, library: a card", card_read(call));
    compare_library(report, &sorts, call);
}

/// The harness itself is tested: each wrong variant must be caught wherever it shows.
pub fn check_variants(report: &mut Report) {
    let files = made_files();
    let of_printing = RosterVariant::OF_PRINTING;
    let of_words = RosterVariant::OF_WORDS;
    let of_text = TextSlip::ALL.map(RosterVariant::Text).into_iter();
    for variant in of_text
        .chain(RosterVariant::OF_READING)
        .chain(of_printing)
        .chain(of_words)
    {
        let mut found = Vec::new();
        if !of_words.contains(&variant) {
            found.push(("printed", first_printed_otherwise(&files, variant)));
        }
        if !of_printing.contains(&variant) {
            found.push(("words", first_read_otherwise(&files, variant)));
        }
        report.check(&format!("roster catches {variant:?}"), caught(&found));
    }
}

/// A file, what is printed for it, and what makes the words that are lent with it.
struct Made {
    file: Vec<u8>,
    printed: Vec<u8>,
    rng: Rng,
}

/// The files of all sorts.
fn made_files() -> Vec<Made> {
    let mut all = Vec::new();
    for (index, sort) in sorts().iter().enumerate() {
        all.extend((0..sort.count).map(|number| {
            let file = sort.made(seed(index), number);
            Made {
                printed: reference::roster(&file),
                file,
                rng: words_rng(index, number),
            }
        }));
    }
    all
}

fn first_printed_otherwise(files: &[Made], variant: RosterVariant) -> Option<usize> {
    let wrong = RosterReader::with(variant);
    let mut files = files.iter();
    files.position(|made| wrong.print(&made.file) != made.printed)
}

fn first_read_otherwise(files: &[Made], variant: RosterVariant) -> Option<usize> {
    let wrong = |file: &[u8], words: &mut [u64]| RosterReader::with(variant).call(file, words);
    let mut duel = WordsDuel::new(&wrong);
    let mut files = files.iter();
    files.position(|made| duel.compare(&made.file, &mut made.rng.clone()).is_err())
}

/// The seed of the files of a sort.
fn seed(index: usize) -> u64 {
    SEED + index as u64
}

/// Makes the words that are lent with a file.
fn words_rng(index: usize, number: usize) -> Rng {
    Rng::new(WORDS_SEED + index as u64, number as u64)
}

fn card_printed(print: &Print) -> Result<String, String> {
    let output = print(CARD.as_bytes())?;
    match output == CARD_PRINTED.as_bytes() {
        true => Ok("comes out whole".to_string()),
        false => Err(difference_text(
            CARD.as_bytes(),
            &output,
            CARD_PRINTED.as_bytes(),
        )),
    }
}

fn compare_program(report: &mut Report, sorts: &[Sort<Vec<u8>>], print: &Print) {
    let texts = Texts {
        name: "roster",
        print,
        due: reference::roster,
        said: sayings,
        first_seed: SEED,
    };
    let tally = texts.compare(report, sorts);
    let reached = tally.finish(SAYINGS, "files", FEWEST_RUNS);
    report.check("roster, program: what can be said of files", reached);
}

/// What is printed for a good file is a good file, for which the same is printed.
fn read_back(print: &Print) -> Result<String, String> {
    in_shares(READ_BACK_FILES, |number| {
        let file = good(&mut Rng::new(READ_BACK_SEED, number as u64));
        let printed = print(&file)?;
        let again = print(&printed)?;
        match printed.starts_with(ROSTER_NAMES.as_bytes()) && again == printed {
            true => Ok(()),
            false => Err(format!(
                "seed {READ_BACK_SEED}, file {number}: {}",
                difference_text(&printed, &again, &printed)
            )),
        }
    })?;
    Ok(format!(
        "seed {READ_BACK_SEED}, {READ_BACK_FILES} files come out again"
    ))
}

fn card_read(call: &ReadRoster) -> Result<String, String> {
    let mut words = [u64::MAX; ROSTER_WORDS];
    let answer = call(CARD.as_bytes(), &mut words);
    match (answer, words == CARD_WORDS) {
        (0, true) => Ok("has its words".to_string()),
        _ => Err(format!("answer {answer}, words {words:?}")),
    }
}

fn compare_library(report: &mut Report, sorts: &[Sort<Vec<u8>>], call: &ReadRoster) {
    let mut tally = Sayings::default();
    let mut duel = WordsDuel::new(call);
    for (index, sort) in sorts.iter().enumerate() {
        let outcome = compare_calls(&mut duel, sort, index, &mut tally);
        report.check(&format!("roster, library: {}", sort.name), outcome);
    }
    let reached = tally.finish(SAYINGS, "files", FEWEST_CALLS);
    report.check("roster, library: what can be said of files", reached);
    report.check("roster, library: answers", duel.check_answers());
}

fn compare_calls(
    duel: &mut WordsDuel,
    sort: &Sort<Vec<u8>>,
    index: usize,
    tally: &mut Sayings,
) -> Result<String, String> {
    let (seed, files) = (seed(index), ROUNDS * sort.count);
    for number in 0..files {
        let file = sort.made(seed, number);
        duel.compare(&file, &mut words_rng(index, number))
            .map_err(|text| format!("seed {seed}, file {number}: {text}"))?;
        tally.note(sayings(&file));
    }
    alike(seed, files as u64, "files")
}

/// A call and the reference's, side by side.
struct WordsDuel<'a> {
    call: &'a ReadRoster<'a>,
    file: Edge<u8>,
    words: Edge<u64>,
    /// How often each answer came with each number of lent words.
    answers: BTreeMap<(usize, u32), u64>,
}

impl<'a> WordsDuel<'a> {
    fn new(call: &'a ReadRoster<'a>) -> WordsDuel<'a> {
        WordsDuel {
            call,
            file: Edge::new(LONGEST_MADE),
            words: Edge::new(MOST_LENT),
            answers: BTreeMap::new(),
        }
    }

    /// Reads the file with 16 words lent, and with more or fewer.
    fn compare(&mut self, file: &[u8], rng: &mut Rng) -> Result<(), String> {
        let near = rng.between(ROSTER_WORDS - 1, ROSTER_WORDS + 1);
        let any = rng.below(MOST_LENT + 1);
        for length in [ROSTER_WORDS, rng.pick(&[near, any])] {
            let sides = [Side::First, Side::Last];
            self.file.set(file, rng.pick(&sides));
            self.words
                .set(&earlier_words(rng, length), rng.pick(&sides));
            self.compare_call(file)?;
        }
        Ok(())
    }

    /// Makes the call with what is lent.
    fn compare_call(&mut self, file: &[u8]) -> Result<(), String> {
        let before = self.words.lent().to_vec();
        let mut expected = before.clone();
        let due = reference::read_roster(file, &mut expected);
        let answer = (self.call)(self.file.lent(), self.words.lent_mut());
        let words = self.words.lent();
        let mut differences = Vec::new();
        if answer != due {
            differences.push(format!("answer {answer} against the reference's {due}"));
        }
        for (place, (word, due)) in words.iter().zip(&expected).enumerate() {
            if word != due {
                differences.push(format!("word {place}: {word} against {due}"));
            }
        }
        if !self.words.kept_guards() {
            differences.push("written beside the words".to_string());
        }
        if self.file.lent() != file || !self.file.kept_guards() {
            differences.push("written to the file or beside it".to_string());
        }
        if differences.is_empty() {
            *self.answers.entry((words.len(), due)).or_default() += 1;
            return Ok(());
        }
        let shown = &file[..file.len().min(2_000)];
        Err(format!(
            "{} words lent, {}\n    file of {} bytes: \"{}\"",
            words.len(),
            differences.join("\n    "),
            file.len(),
            shown.escape_ascii()
        ))
    }

    /// Prints the counts. With 16 words every answer but 109 must have come, with others 109.
    fn check_answers(&self) -> Result<String, String> {
        let mut missing = Vec::new();
        for length in 0..=MOST_LENT {
            let possible = match length {
                ROSTER_WORDS => &[0, 110, 111, 112][..],
                _ => &[109],
            };
            for answer in possible {
                match self.answers.get(&(length, *answer)) {
                    Some(count) => println!("  {length} words lent, answer {answer}: {count}"),
                    None => missing.push(format!("{length} words lent, answer {answer}")),
                }
            }
        }
        match missing.is_empty() {
            true => Ok("each came up".to_string()),
            false => Err(format!("never came up: {}", missing.join(", "))),
        }
    }
}

/// What the lent words hold before a call.
fn earlier_words(rng: &mut Rng, length: usize) -> Vec<u64> {
    let word = rng.word();
    match rng.below(8) {
        0 => vec![0; length],
        1 => vec![u64::MAX; length],
        2 => vec![word; length],
        _ => (0..length).map(|_| rng.word()).collect(),
    }
}
