//! Files of pairs: good ones, and ones broken in many ways.

use crate::files::{
    changed_from, cut_everywhere, cut_short, ended, inserted_everywhere, power_of_ten, rearranged,
    short_files, with_broken_bytes, with_items, with_noise, Sort,
};
use crate::order_lists::{against_an_order, along_an_order, around_a_circle};
use crate::rng::Rng;
use reference::order::{Before, ORDER_NAMES};

/// All sorts.
pub fn sorts() -> Vec<Sort<Vec<u8>>> {
    vec![
        Sort::listed("every pair alone", single_pairs()),
        Sort::listed("64 pairs, and more", many_pairs()),
        Sort::random("4,094 to 4,099 bytes, and longer", 300, sized),
        Sort::random("pairs along an order", 400, |rng| {
            of_words(along_an_order(rng))
        }),
        Sort::random("pairs along an order but one", 500, |rng| {
            of_words(against_an_order(rng))
        }),
        Sort::random("a circle and pairs around it", 600, |rng| {
            of_words(around_a_circle(rng))
        }),
        Sort::listed("a list cut short everywhere", cut_everywhere(&list())),
        Sort::listed(
            "a byte of a list changed",
            changed_from(&list(), 0, &NASTY_BYTES),
        ),
        Sort::listed(
            "a byte put into a list",
            inserted_everywhere(&list(), &NASTY_BYTES),
        ),
        Sort::listed("a byte dropped, doubled or exchanged", rearranged(&list())),
        Sort::listed("bytes 0 to 255 in a line", line_with_every_byte()),
        Sort::listed("each nasty item in each place", nasty_item_files()),
        Sort::listed("numbers from -20 to 300", number_files()),
        Sort::listed("two faulty lines", two_fault_files()),
        Sort::listed("two faulty items in a line", two_item_files()),
        Sort::listed("names lines", names_files()),
        Sort::listed("no bytes, one byte", short_files()),
        Sort::random("bytes anywhere", 400, with_broken_byte),
        Sort::random("nasty items anywhere", 400, with_nasty_items),
        Sort::random("files cut short", 200, cut_file),
        Sort::random("noise", 400, noise),
    ]
}

/// One pair twice, and without the line of another pair another order.
const LIST: [&str; 6] = ["6 2", "0 3", "7 0", "3 1", "6 2", "5 4"];

fn file_of(lines: &str) -> Vec<u8> {
    format!("{ORDER_NAMES}\n{lines}").into_bytes()
}

/// A line between good ones.
fn around(line: &str) -> Vec<u8> {
    file_of(&format!("7 0\n{line}\n3 1\n"))
}

fn list() -> Vec<u8> {
    file_of(&ended(&LIST))
}

fn lines_of(words: Vec<u64>) -> Vec<String> {
    let line = |word: u64| Before::from_word(word).text();
    words.into_iter().map(line).collect()
}

fn of_words(words: Vec<u64>) -> Vec<u8> {
    file_of(&ended(&lines_of(words)))
}

fn single_pairs() -> Vec<Vec<u8>> {
    let lines = (0..8).flat_map(|first| (0..8).map(move |second| format!("{first} {second}\n")));
    lines.map(|line| file_of(&line)).collect()
}

/// Good lines, not many.
fn good_lines(rng: &mut Rng) -> Vec<String> {
    let mut words = match rng.percent(70) {
        true => along_an_order(rng),
        false => around_a_circle(rng),
    };
    words.truncate(rng.pick(&[1, 3, 8, 64]));
    lines_of(words)
}

fn good(rng: &mut Rng) -> Vec<u8> {
    file_of(&ended(&good_lines(rng)))
}

/// Bytes that mean something in a list or elsewhere, and their neighbours.
const NASTY_BYTES: [u8; 28] = *b" \t\r\n\0\x0B\x1A+-,./01456789:<>ex\x7F\xA0\xFF";

fn line_with_every_byte() -> Vec<Vec<u8>> {
    let bytes: Vec<u8> = (0..=255).collect();
    changed_from(&file_of("7 0\n"), ORDER_NAMES.len() + 1, &bytes)
}

/// Items at the ends of what is readable and in range, and past them.
const NASTY_ITEMS: [&str; 62] = [
    "",
    "-",
    "+",
    "0",
    "00",
    "000",
    "-0",
    "-00",
    "+0",
    "1",
    "-1",
    "+1",
    "01",
    "-01",
    "--1",
    "+-1",
    "1-",
    "1+",
    "1 ",
    " 1",
    "\t1",
    "1\t",
    "1\r",
    "\r",
    "1\0",
    "\0",
    "1\n",
    "\n1",
    "7",
    "07",
    "-7",
    "+7",
    "8",
    "08",
    "-8",
    "9",
    "10",
    "15",
    "16",
    "64",
    "999",
    "1000",
    "1001",
    "0x5",
    "5h",
    "1e1",
    "1.",
    "1.0",
    ".5",
    "1,",
    "1_0",
    "\"5\"",
    "#5",
    "before",
    "after",
    "\u{665}",
    "\u{FF15}",
    "\u{2212}5",
    "\u{A0}5",
    "\u{FEFF}5",
    ":",
    "/",
];

/// The listed ones, and numbers that are small in what is left of them in some bits.
fn nasty_items() -> Vec<String> {
    let mut numbers: Vec<String> = [1, 9, 10, 19, 20, 40].map(power_of_ten).to_vec();
    for bits in [8, 16, 31, 32, 33, 63, 64, 65, 127] {
        let power = 1_u128 << bits;
        let around = [power - 1, power, power + 1, power + 7, power + 8];
        numbers.extend(around.map(|number| number.to_string()));
    }
    for digit in ["1", "5", "9"] {
        numbers.extend([digit.repeat(20), digit.repeat(1_000)]);
    }
    numbers.push(power_of_ten(1_000));
    let zeros = [4, 20, 1_000].map(|count| "0".repeat(count) + "5");
    let fixed = NASTY_ITEMS.iter().map(|item| item.to_string());
    fixed.chain(numbers).chain(zeros).collect()
}

fn nasty_item_files() -> Vec<Vec<u8>> {
    let mut files = Vec::new();
    for item in nasty_items() {
        files.push(around(&format!("{item} 2")));
        files.push(around(&format!("6 {item}")));
    }
    files
}

fn number_files() -> Vec<Vec<u8>> {
    let mut files = Vec::new();
    for number in -20..=300 {
        files.push(around(&format!("{number} 2")));
        files.push(around(&format!("6 {number}")));
    }
    files
}

/// Faulty lines, of each cause.
const FAULTY_LINES: [&str; 22] = [
    "",
    " ",
    "0",
    "0 3 ",
    " 0 3",
    "0  3",
    "0 3 3",
    "0\t3",
    "0 3\r",
    "00 3",
    "0 03",
    "+0 3",
    "0 +3",
    "-0 3",
    "0 -3",
    "0 x",
    "before after",
    "8 3",
    "0 8",
    "9 9",
    "4294967296 3",
    "0 18446744073709551619",
];

/// Each faulty line before each other, before a line without its line feed, and after a bad names
/// line.
fn two_fault_files() -> Vec<Vec<u8>> {
    let mut files = Vec::new();
    for first in FAULTY_LINES {
        for second in FAULTY_LINES {
            files.push(file_of(&format!("7 0\n{first}\n3 1\n{second}\n5 4\n")));
        }
        files.push(file_of(&format!("{first}\n7 0")));
        files.push(file_of(&format!("7 0\n{first}")));
        files.push(format!("before\n{first}\n").into_bytes());
    }
    files
}

const FAULTY_ITEMS: [&str; 12] = [
    "7",
    "8",
    "18446744073709551617",
    "99999999999999999999999999",
    "-1",
    "-0",
    "01",
    "+1",
    "",
    "x",
    "1\r",
    "1 ",
];

/// Good and faulty items together, with and without a line feed at the end.
fn two_item_files() -> Vec<Vec<u8>> {
    let mut files = Vec::new();
    for first in FAULTY_ITEMS {
        for second in FAULTY_ITEMS {
            files.push(around(&format!("{first} {second}")));
            files.push(file_of(&format!("7 0\n{first} {second}")));
        }
    }
    files
}

/// Beginnings of a file, the right one among them.
const NAMES_LINES: [&str; 31] = [
    "before after\n",
    "before after",
    "before after\r\n",
    "before after\r",
    "before after \n",
    " before after\n",
    "before  after\n",
    "before\tafter\n",
    "\nbefore after\n",
    "\r\nbefore after\n",
    "before after\n\n",
    "before after\n ",
    "before after\n\0",
    "before after\0\n",
    "\u{FEFF}before after\n",
    "Before after\n",
    "Before After\n",
    "BEFORE AFTER\n",
    "before afters\n",
    "before afte\n",
    "efore after\n",
    "before\n",
    "after\n",
    "after before\n",
    "before,after\n",
    "before after before after\n",
    "before after\nbefore after\n",
    "party kind name\n",
    "\n",
    "#\nbefore after\n",
    "",
];

fn names_files() -> Vec<Vec<u8>> {
    let mut files = Vec::new();
    for names in NAMES_LINES {
        for rest in ["", "7 0\n", "7 0", "0 8\n", "0 03\n", "\n"] {
            files.push(format!("{names}{rest}").into_bytes());
        }
    }
    files
}

/// Files of 62 pairs and more with a line among them that decides, if it is counted.
fn many_pairs() -> Vec<Vec<u8>> {
    let mut files = Vec::new();
    for count in [62, 63, 64, 65, 66, 128, 256, 257, 320, 1_000] {
        for line in ["7 0", "1 0", "3 3", "0 8", "8 0", "9 9", "x", "", "0 03"] {
            for place in [0, 62, 63, 64, 65, count - 1] {
                let mut lines = vec!["0 1"; count];
                if let Some(one) = lines.get_mut(place) {
                    *one = line;
                    files.push(file_of(&ended(&lines)));
                }
            }
        }
    }
    files
}

fn with_broken_byte(rng: &mut Rng) -> Vec<u8> {
    let file = good(rng);
    with_broken_bytes(rng, file)
}

fn with_nasty_items(rng: &mut Rng) -> Vec<u8> {
    let lines = good_lines(rng);
    file_of(&with_items(rng, lines, &nasty_items()))
}

fn cut_file(rng: &mut Rng) -> Vec<u8> {
    let file = good(rng);
    cut_short(rng, file)
}

/// Bytes without sense, sometimes after a good names line.
fn noise(rng: &mut Rng) -> Vec<u8> {
    let file = match rng.percent(80) {
        true => file_of(""),
        false => Vec::new(),
    };
    with_noise(rng, file, b"\n\n\n    --0012345678+\t\r", &[3, 4, 4, 8, 40])
}

const LENGTHS: [usize; 14] = [
    4_094, 4_095, 4_095, 4_096, 4_096, 4_096, 4_097, 4_097, 4_097, 4_098, 4_099, 5_000, 8_192,
    65_549,
];

/// A file of a length around the limit, of many pairs or of long numbers: readable, or broken
/// without a change of length.
fn sized(rng: &mut Rng) -> Vec<u8> {
    let length = rng.pick(&LENGTHS);
    let mut file = match rng.percent(40) {
        true => of_many_pairs(length),
        false => of_long_numbers(rng, length),
    };
    let first = ORDER_NAMES.len() + 1;
    match rng.below(16) {
        0 => file[length - 1] = rng.pick(b" 0\0\r"),
        1 => file[first] = b'x',
        2 => file[length - 2] = b'x',
        3 => file[0] = b'B',
        4 => {
            let place = rng.below(length);
            file[place] = rng.word() as u8;
        }
        5 => file.fill(rng.pick(b"\n0 ")),
        _ => {}
    }
    file
}

/// A readable file of exactly this many bytes, with one long number at the end.
fn of_many_pairs(length: usize) -> Vec<u8> {
    let mut text = format!("{ORDER_NAMES}\n");
    while length - text.len() >= 8 {
        text.push_str("7 0\n");
    }
    let digits = length - text.len() - "0 \n".len();
    text.push_str(&format!("0 {}\n", "1".repeat(digits)));
    text.into_bytes()
}

/// A readable file of exactly this many bytes, of a few lines.
fn of_long_numbers(rng: &mut Rng, length: usize) -> Vec<u8> {
    let mut text = format!("{ORDER_NAMES}\n7 0\n");
    let longest = rng.pick(&[100, 1_000, length]);
    while length - text.len() > longest + 8 {
        let digits = rng.pick(&["1", "9"]).repeat(longest - 3);
        text.push_str(&match rng.percent(50) {
            true => format!("{digits} 0\n"),
            false => format!("7 {digits}\n"),
        });
    }
    let digits = length - text.len() - "0 \n".len();
    text.push_str(&format!("0 {}\n", "7".repeat(digits)));
    text.into_bytes()
}

#[cfg(test)]
mod tests {
    use super::*;
    use reference::StartOrder;

    fn refusal(file: &[u8]) -> Option<u32> {
        let read = StartOrder::correct().read(file);
        let decided = read.and_then(|pairs| StartOrder::correct().decide(&pairs));
        decided.err().map(|fault| fault.number())
    }

    #[test]
    fn good_files_are_read() {
        for run in 0..500 {
            assert_eq!(refusal(&good(&mut Rng::new(1, run))), None);
        }
        for file in single_pairs() {
            assert_eq!(refusal(&file), None);
        }
        assert_eq!(refusal(&list()), None);
    }

    #[test]
    fn every_line_of_the_list_counts() {
        let whole = reference::order(&list());
        assert!(whole.starts_with(b"order "));
        for left_out in [1, 2, 3, 5] {
            let mut lines = LIST.to_vec();
            lines.remove(left_out);
            let without = reference::order(&file_of(&ended(&lines)));
            assert_ne!(without, whole, "without {}", LIST[left_out]);
        }
    }

    #[test]
    fn faulty_lines_are_faulty() {
        for line in FAULTY_LINES {
            let number = refusal(&around(line));
            assert!(matches!(number, Some(11 | 16)), "{line:?}");
        }
    }

    #[test]
    fn files_have_the_length_asked_for() {
        for length in LENGTHS {
            for run in 0..20 {
                let mut rng = Rng::new(2, run);
                let due = if length > 4_096 { 10 } else { 16 };
                let long = of_long_numbers(&mut rng, length);
                assert_eq!((long.len(), refusal(&long)), (length, Some(due)));
                let due = if length > 4_096 { 10 } else { 15 };
                let many = of_many_pairs(length);
                assert_eq!((many.len(), refusal(&many)), (length, Some(due)));
            }
        }
        for run in 0..200 {
            let file = sized(&mut Rng::new(3, run));
            assert!(LENGTHS.contains(&file.len()));
        }
    }
}
