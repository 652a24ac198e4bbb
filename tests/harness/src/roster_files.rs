//! Roster files: good ones, and ones broken in many ways.

use crate::files::{
    changed_from, cut_everywhere, cut_short, ended, inserted_everywhere, power_of_ten, rearranged,
    short_files, with_broken_bytes, with_items, with_noise, Sort,
};
use crate::rng::Rng;
use reference::roster::{all_rights, Right, ROSTER_NAMES};

/// All sorts. Those with the longest files come last.
pub fn sorts() -> Vec<Sort<Vec<u8>>> {
    vec![
        Sort::listed("every right alone", single_rights()),
        Sort::random("random rights in any order", 2_000, good),
        Sort::random("a card's lines in any order", 300, shuffled_card),
        Sort::listed("a card cut short everywhere", cut_everywhere(&card())),
        Sort::listed(
            "a byte of a card changed",
            changed_from(&card(), 0, &NASTY_BYTES),
        ),
        Sort::listed(
            "a byte put into a card",
            inserted_everywhere(&card(), &NASTY_BYTES),
        ),
        Sort::listed("a byte dropped, doubled or exchanged", rearranged(&card())),
        Sort::listed("bytes 0 to 255 in two lines", lines_with_every_byte()),
        Sort::listed("each nasty item in each place", nasty_item_files()),
        Sort::listed("numbers from -300 to 300", number_files()),
        Sort::listed("two faulty lines", two_fault_files()),
        Sort::listed("two faulty items in a line", two_item_files()),
        Sort::listed("names lines", names_files()),
        Sort::listed("no bytes, one byte", short_files()),
        Sort::random("bytes anywhere", 1_000, with_broken_byte),
        Sort::random("nasty items anywhere", 1_000, with_nasty_items),
        Sort::random("broken lines", 1_000, with_broken_lines),
        Sort::random("files cut short", 500, cut_file),
        Sort::random("noise", 1_000, noise),
        Sort::listed("whole rosters", whole_rosters()),
        Sort::random("16,382 to 16,387 bytes, and longer", 500, sized),
    ]
}

/// A dozen lines with all lengths of numbers, one of them twice.
const CARD: [&str; 13] = [
    "1 k -4", "0 p 5", "1 p 5", "0 k 4", "7 p 63", "2 k 0", "2 p 0", "7 k -31", "3 k 31", "0 p 5",
    "6 p 17", "5 k -20", "4 p 10",
];

fn file_of(lines: &str) -> Vec<u8> {
    format!("{ROSTER_NAMES}\n{lines}").into_bytes()
}

/// A line between good ones.
fn around(line: &str) -> Vec<u8> {
    file_of(&format!("0 p 5\n{line}\n7 k 31\n"))
}

fn card() -> Vec<u8> {
    file_of(&ended(&CARD))
}

fn texts(rights: impl IntoIterator<Item = Right>) -> Vec<String> {
    rights.into_iter().map(Right::text).collect()
}

fn single_rights() -> Vec<Vec<u8>> {
    let lines = texts(all_rights()).into_iter();
    lines.map(|line| file_of(&ended(&[line]))).collect()
}

/// No rights, all of them, all of a party and all of a kind: in order, backwards, and twice.
fn whole_rosters() -> Vec<Vec<u8>> {
    let mut rosters = vec![texts([]), texts(all_rights())];
    for party in 0..8 {
        rosters.push(texts(all_rights().into_iter().filter(|r| r.party == party)));
        rosters.push(texts(all_rights().into_iter().filter(|r| r.party != party)));
    }
    for kind in [" p ", " k "] {
        let mut lines = texts(all_rights());
        lines.retain(|line| line.contains(kind));
        rosters.push(lines);
    }
    let mut files = Vec::new();
    for lines in rosters {
        let backwards: Vec<String> = lines.iter().rev().cloned().collect();
        files.push(file_of(&ended(&lines)));
        files.push(file_of(&ended(&backwards)));
        files.push(file_of(&(ended(&lines) + &ended(&backwards))));
    }
    files
}

/// A good line: any right, or one of few so that many come twice.
fn good_line(rng: &mut Rng, few: bool) -> String {
    match few {
        true => {
            let party = rng.pick(&[1, 6]);
            let name = rng.pick(&["p 0", "p 5", "p 63", "k 0", "k 4", "k -4"]);
            format!("{party} {name}")
        }
        false => {
            let party = rng.below(8);
            match rng.below(127) {
                number @ 0..=63 => format!("{party} p {number}"),
                number => format!("{party} k {}", number as i32 - 95),
            }
        }
    }
}

/// Some have partition 0 for about half of the parties, or for all.
fn good_lines(rng: &mut Rng) -> Vec<String> {
    let few = rng.percent(30);
    let count = rng.pick(&[0, 1, 2, 4, 8, 16, 40, 120]);
    let mut lines: Vec<String> = (0..count).map(|_| good_line(rng, few)).collect();
    let chance = rng.pick(&[0, 0, 50, 100]);
    let with_0 = (0..8).filter(|_| rng.percent(chance));
    lines.extend(with_0.map(|party| format!("{party} p 0")));
    if rng.percent(20) {
        lines.extend(lines.clone());
    }
    lines
}

/// A good file with random rights in a random order.
pub fn good(rng: &mut Rng) -> Vec<u8> {
    let lines = good_lines(rng);
    file_of(&ended(&lines))
}

fn shuffled_card(rng: &mut Rng) -> Vec<u8> {
    let mut lines = CARD;
    rng.shuffle(&mut lines);
    file_of(&ended(&lines))
}

/// Bytes that mean something in a card or elsewhere, and their neighbours.
const NASTY_BYTES: [u8; 35] = *b" \t\r\n\0\x0B\x0C\x1A+-,./0135689:ejkpqPK_\"\x7F\x80\xA0\xB2\xFF";

fn lines_with_every_byte() -> Vec<Vec<u8>> {
    let file = file_of("1 p 5\n1 k -4\n");
    let bytes: Vec<u8> = (0..=255).collect();
    changed_from(&file, ROSTER_NAMES.len() + 1, &bytes)
}

/// Items at the ends of what is readable and in range, and past them.
const NASTY_ITEMS: [&str; 97] = [
    "",
    "-",
    "--",
    "+",
    "0",
    "00",
    "000",
    "-0",
    "-00",
    "+0",
    "1",
    "-1",
    "+1",
    "01",
    "-01",
    "--1",
    "+-1",
    "-+1",
    "1-",
    "1+",
    "1 ",
    " 1",
    "\t1",
    "1\t",
    "1\r",
    "\r",
    "1\0",
    "\0",
    "1\n",
    "\n1",
    "5",
    "05",
    "-5",
    "-05",
    "+5",
    "7",
    "8",
    "9",
    "10",
    "31",
    "32",
    "-31",
    "-32",
    "62",
    "63",
    "64",
    "65",
    "-63",
    "-64",
    "999",
    "1001",
    "0x5",
    "0b1",
    "5h",
    "5u",
    "1e1",
    "1.",
    "1.0",
    ".5",
    "1,",
    "5:9",
    "5:",
    ":5",
    "1_0",
    "'5'",
    "\"5\"",
    "5;",
    "#5",
    "5 #",
    "p",
    "k",
    "P",
    "K",
    "pp",
    "pk",
    "kp",
    "q",
    "p5",
    "5p",
    "party",
    "kind",
    "name",
    "NaN",
    "\u{665}",
    "\u{FF15}",
    "\u{B2}",
    "\u{2212}5",
    "\u{A0}5",
    "5\u{A0}",
    "\u{FEFF}5",
    ":",
    "1:",
    "/",
    "1/",
    "*",
    "\u{7F}",
    "340282366920938463463374607431768211461",
];

/// The listed ones, and numbers that are small in what is left of them in some bits.
fn nasty_items() -> Vec<String> {
    let mut numbers: Vec<String> = (1..=45).map(power_of_ten).collect();
    for bits in [8, 16, 31, 32, 33, 63, 64, 65, 127] {
        let power = 1_u128 << bits;
        let below = [32, 31, 4, 1].map(|less| power - less);
        let above = [0, 1, 5, 7, 31, 63, 64].map(|more| power + more);
        numbers.extend(below.into_iter().chain(above).map(|n| n.to_string()));
    }
    for digit in ["1", "5", "9"] {
        numbers.extend([digit.repeat(20), digit.repeat(1_000)]);
    }
    numbers.push(power_of_ten(1_000));
    let zeros = [4, 20, 1_000].map(|count| "0".repeat(count) + "5");
    let fixed = NASTY_ITEMS.iter().map(|item| item.to_string());
    let minus: Vec<String> = numbers.iter().map(|number| format!("-{number}")).collect();
    fixed.chain(numbers).chain(minus).chain(zeros).collect()
}

fn nasty_item_files() -> Vec<Vec<u8>> {
    let mut files = Vec::new();
    for item in nasty_items() {
        for line in ["1 p 5", "1 k -4"] {
            for place in 0..3 {
                let mut items: Vec<&str> = line.split(' ').collect();
                items[place] = &item;
                files.push(around(&items.join(" ")));
            }
        }
    }
    files
}

fn number_files() -> Vec<Vec<u8>> {
    let mut files = Vec::new();
    for number in -300..=300 {
        files.push(around(&format!("{number} p 5")));
        files.push(around(&format!("1 p {number}")));
        files.push(around(&format!("1 k {number}")));
    }
    files
}

/// Faulty lines, of each cause.
const FAULTY_LINES: [&str; 32] = [
    "",
    " ",
    "1 p",
    "1 p 5 ",
    " 1 p 5",
    "1  p 5",
    "1 p 5 5",
    "1\tp\t5",
    "1 p 5\r",
    "1 P 5",
    "1 x 5",
    "01 p 5",
    "+1 p 5",
    "-1 p 5",
    "1 p 05",
    "1 p +5",
    "1 p -0",
    "1 p x",
    "1 k -04",
    "1 k -",
    "party kind name",
    "8 p 5",
    "8 k 4",
    "4294967297 p 5",
    "18446744073709551617 k 4",
    "1 p 64",
    "1 p -5",
    "1 p 18446744073709551621",
    "1 k 32",
    "1 k -32",
    "1 k 4294967292",
    "1 k -18446744073709551612",
];

/// Each faulty line before each other, before a line without its line feed, and after a bad names
/// line.
fn two_fault_files() -> Vec<Vec<u8>> {
    let mut files = Vec::new();
    for first in FAULTY_LINES {
        for second in FAULTY_LINES {
            files.push(file_of(&format!(
                "0 p 5\n{first}\n0 k 4\n{second}\n7 k 31\n"
            )));
        }
        files.push(file_of(&format!("{first}\n1 p 5")));
        files.push(file_of(&format!("1 p 5\n{first}")));
        files.push(format!("party kind\n{first}\n").into_bytes());
    }
    files
}

const PARTIES: [&str; 10] = [
    "1",
    "8",
    "18446744073709551617",
    "99999999999999999999999999",
    "-1",
    "-0",
    "01",
    "+1",
    "",
    "x",
];
const KINDS: [&str; 5] = ["p", "k", "x", "", "P"];
const PARTITIONS_AND_KEYS: [&str; 17] = [
    "5",
    "64",
    "-5",
    "32",
    "-32",
    "18446744073709551621",
    "-18446744073709551612",
    "99999999999999999999999999",
    "-0",
    "05",
    "-05",
    "+5",
    "-",
    "",
    "x",
    "5\r",
    "64 ",
];

/// Good and faulty items together, with and without a line feed at the end.
fn two_item_files() -> Vec<Vec<u8>> {
    let mut files = Vec::new();
    for party in PARTIES {
        for kind in KINDS {
            for name in PARTITIONS_AND_KEYS {
                files.push(around(&format!("{party} {kind} {name}")));
                files.push(file_of(&format!("0 p 5\n{party} {kind} {name}")));
            }
        }
    }
    files
}

/// Beginnings of a file, the right one among them.
const NAMES_LINES: [&str; 32] = [
    "party kind name\n",
    "party kind name",
    "party kind name\r\n",
    "party kind name\r",
    "party kind name \n",
    " party kind name\n",
    "party  kind name\n",
    "party kind  name\n",
    "party\tkind\tname\n",
    "\nparty kind name\n",
    "\r\nparty kind name\n",
    "party kind name\n\n",
    "party kind name\n ",
    "party kind name\n\0",
    "party kind name\0\n",
    "\u{FEFF}party kind name\n",
    "Party kind name\n",
    "Party Kind Name\n",
    "PARTY KIND NAME\n",
    "party kind value\n",
    "party kind names\n",
    "party kind nam\n",
    "arty kind name\n",
    "party kind\n",
    "kind party name\n",
    "party,kind,name\n",
    "party kind name party kind name\n",
    "party kind name\nparty kind name\n",
    "call party rpart rkey tpart tkey fields\n",
    "\n",
    "#\nparty kind name\n",
    "",
];

fn names_files() -> Vec<Vec<u8>> {
    let mut files = Vec::new();
    for names in NAMES_LINES {
        for rest in ["", "1 p 5\n", "1 p 5", "1 p 64\n", "1 k -04\n", "\n"] {
            files.push(format!("{names}{rest}").into_bytes());
        }
    }
    files
}

fn with_broken_byte(rng: &mut Rng) -> Vec<u8> {
    let file = good(rng);
    with_broken_bytes(rng, file)
}

fn with_nasty_items(rng: &mut Rng) -> Vec<u8> {
    let mut lines = good_lines(rng);
    lines.push(good_line(rng, false));
    file_of(&with_items(rng, lines, &nasty_items()))
}

fn with_broken_lines(rng: &mut Rng) -> Vec<u8> {
    let mut lines = good_lines(rng);
    lines.push(good_line(rng, false));
    loop {
        let place = rng.below(lines.len());
        lines[place] = broken_line(rng, &lines[place]);
        if rng.percent(60) {
            return file_of(&ended(&lines));
        }
    }
}

fn broken_line(rng: &mut Rng, line: &str) -> String {
    match rng.below(14) {
        0 => format!("{line} "),
        1 => format!(" {line}"),
        2 => line.replacen(' ', "  ", 1),
        3 => line.replace(' ', "\t"),
        4 => format!("{line}\r"),
        5 => format!("{line}\n"),
        6 => format!("{line}\n{line}"),
        7 => format!("{line}{line}"),
        8 => format!("{line}\n{ROSTER_NAMES}"),
        9 => format!("{line} 5"),
        10 => line.to_uppercase(),
        11 => line.replace(' ', ""),
        12 => rng.pick(&FAULTY_LINES).to_string(),
        _ => line
            .rsplit_once(' ')
            .map_or("", |(rest, _)| rest)
            .to_string(),
    }
}

fn cut_file(rng: &mut Rng) -> Vec<u8> {
    let file = good(rng);
    cut_short(rng, file)
}

/// Bytes without sense, sometimes after a good names line.
fn noise(rng: &mut Rng) -> Vec<u8> {
    let file = match rng.percent(70) {
        true => file_of(""),
        false => Vec::new(),
    };
    with_noise(
        rng,
        file,
        b"\n\n\n      ppkk--001234567+\t\r",
        &[3, 6, 7, 12, 60],
    )
}

const LENGTHS: [usize; 14] = [
    16_382, 16_383, 16_383, 16_384, 16_384, 16_384, 16_385, 16_385, 16_385, 16_386, 16_387, 20_000,
    32_768, 131_073,
];

/// A file of a length around the limit: good, or broken without a change of length.
fn sized(rng: &mut Rng) -> Vec<u8> {
    let length = rng.pick(&LENGTHS);
    let mut file = good_of_length(rng, length);
    let first = ROSTER_NAMES.len() + 1;
    let last = 1 + file[..length - 1]
        .iter()
        .rposition(|byte| *byte == b'\n')
        .expect("a names line");
    match rng.below(20) {
        0 => file[length - 1] = rng.pick(b" 0\0\r"),
        1 => file[first] = b'x',
        2 => file[first] = b'8',
        3 => file[last] = b'x',
        4 => file[last] = b'9',
        5 => file[0] = b'P',
        6 => {
            let place = rng.below(length);
            file[place] = rng.word() as u8;
        }
        7 => file.fill(rng.pick(b"\n0 ")),
        // One number fills the file.
        8 => file[first + "1 p ".len()..length - 1].fill(b'9'),
        9 => {
            file[first] = b'8';
            file[last] = b'x';
        }
        10 => {
            file[first] = b'x';
            file[last] = b'8';
        }
        _ => {}
    }
    file
}

/// A good file of exactly this many bytes, some hundreds or more: rights again and again.
fn good_of_length(rng: &mut Rng, length: usize) -> Vec<u8> {
    let few = rng.percent(50);
    let mut text = format!("{ROSTER_NAMES}\n1 p 5\n");
    // From 25 bytes on, lines of 6 to 8 bytes fill what is left.
    while length - text.len() > 40 {
        text.push_str(&(good_line(rng, few) + "\n"));
    }
    let mut left = length - text.len();
    for lines in (1..=left.div_ceil(8)).rev() {
        let line = left / lines;
        text.push_str(match line {
            6 => "1 p 5\n",
            7 => "1 k -4\n",
            _ => "1 k -31\n",
        });
        left -= line;
    }
    text.into_bytes()
}

#[cfg(test)]
mod tests {
    use super::*;
    use reference::RosterReader;

    fn refusal(file: &[u8]) -> Option<u32> {
        let read = RosterReader::correct().read(file);
        read.err().map(|fault| fault.number())
    }

    #[test]
    fn good_files_are_read() {
        for run in 0..500 {
            let mut rng = Rng::new(1, run);
            assert_eq!(refusal(&good(&mut rng)), None);
            assert_eq!(refusal(&shuffled_card(&mut rng)), None);
        }
        for file in single_rights().into_iter().chain(whole_rosters()) {
            assert_eq!(refusal(&file), None);
        }
        assert_eq!(single_rights().len(), 8 * 127);
    }

    #[test]
    fn a_card_prints_the_same_in_any_order() {
        let printed = reference::roster(&card());
        for run in 0..100 {
            let file = shuffled_card(&mut Rng::new(2, run));
            assert_eq!(reference::roster(&file), printed);
        }
    }

    #[test]
    fn good_files_have_the_length_asked_for() {
        for length in (300..400).chain([16_383, 16_384]) {
            let file = good_of_length(&mut Rng::new(3, length as u64), length);
            assert_eq!(file.len(), length);
            assert_eq!(refusal(&file), None);
        }
    }

    #[test]
    fn faulty_lines_are_faulty() {
        for line in FAULTY_LINES {
            let number = refusal(&around(line));
            assert!(matches!(number, Some(11 | 12)), "{line:?}");
        }
    }

    #[test]
    fn sizes_stay_what_they_are() {
        for run in 0..200 {
            let file = sized(&mut Rng::new(4, run));
            assert!(LENGTHS.contains(&file.len()));
        }
    }
}
