//! Roster files: what is printed for them, what is read into words, and each reading of the rules.

use reference::lines::Fault;
use reference::roster::all_rights;
use reference::{read_roster, roster, RosterReader, RosterVariant, TextSlip};

const NAMES: &str = "party kind name\n";

/// Words as they may be before a call.
const BEFORE: [u64; 16] = [0x0123_4567_89AB_CDEF; 16];

fn whole(file: &[u8]) -> String {
    String::from_utf8(roster(file)).expect("the program prints plain text")
}

/// What is printed for a names line and this text.
fn after_names(text: &str) -> String {
    whole(format!("{NAMES}{text}").as_bytes())
}

/// The words after an accepted call.
fn words(text: &str) -> [u64; 16] {
    let mut words = BEFORE;
    assert_eq!(
        read_roster(format!("{NAMES}{text}").as_bytes(), &mut words),
        0,
        "{text}"
    );
    words
}

/// Whether program and call both refuse the file so, and the words stay.
fn refused(file: &[u8], number: u32) -> bool {
    let mut words = BEFORE;
    let answer = read_roster(file, &mut words);
    whole(file) == format!("no{number}\n") && answer == 100 + number && words == BEFORE
}

#[test]
fn a_card() {
    let card = "1 k -4\n0 p 5\n1 p 5\n0 k 4\n0 p 5\n7 k 31\n7 k -31\n7 p 63\n7 p 0\n";
    assert_eq!(
        after_names(card),
        "party kind name\n0 p 5\n0 k 4\n1 p 5\n1 k -4\n7 p 0\n7 p 63\n7 k -31\n7 k 31\n"
    );
    let mut expected = [0; 16];
    expected[0] = 1 << 5;
    expected[1] = 1 << 5;
    expected[7] = 1 << 63 | 1;
    expected[8] = 1 << 35;
    expected[9] = 1 << 27;
    expected[15] = 1 << 62 | 1;
    assert_eq!(words(card), expected);
}

#[test]
fn no_rights() {
    assert_eq!(after_names(""), NAMES);
    assert_eq!(words(""), [0; 16]);
}

#[test]
fn every_right_alone_and_all_together() {
    let mut all = String::new();
    for right in all_rights() {
        let line = format!("{}\n", right.text());
        assert_eq!(after_names(&line), format!("{NAMES}{line}"));
        let ones: u32 = words(&line).iter().map(|word| word.count_ones()).sum();
        assert_eq!(ones, 1);
        all.push_str(&line);
    }
    assert_eq!(all.lines().count(), 8 * 127);
    assert_eq!(after_names(&all), format!("{NAMES}{all}"));
    let mut full = [u64::MAX; 16];
    full[8..].fill(u64::MAX >> 1);
    assert_eq!(words(&all), full);
}

#[test]
fn names_line() {
    for start in [
        "",
        "\n",
        "party kind name",
        "party kind nam\n",
        "party kind name\r\n",
        "party kind name \n",
        " party kind name\n",
        "\nparty kind name\n",
        "party  kind name\n",
        "party\tkind\tname\n",
        "Party kind name\n",
        "party kind value\n",
        "party kind names\n",
        "1 p 5\n",
    ] {
        assert!(refused(start.as_bytes(), 10), "{start:?}");
        if start.ends_with('\n') {
            assert!(refused(format!("{start}1 p 64\n").as_bytes(), 10));
        }
    }
    assert!(refused(b"\xFF", 10));
    assert!(refused(format!("{NAMES}{NAMES}").as_bytes(), 11));
}

#[test]
fn length_of_the_file() {
    let line = "1 p 5\n";
    let file = format!("{NAMES}{}", line.repeat(2_728));
    assert_eq!(file.len(), 16_384);
    assert_eq!(whole(file.as_bytes()), format!("{NAMES}{line}"));
    assert!(refused(format!("{file}\n").as_bytes(), 10));
    assert!(refused(&file.as_bytes()[..16_383], 11));
    let longest = format!("{NAMES}1 p {}\n", "9".repeat(16_384 - 16 - 5));
    assert_eq!(longest.len(), 16_384);
    assert!(refused(longest.as_bytes(), 12));
    assert!(refused(format!("{longest}1 p 5\n").as_bytes(), 10));
}

#[test]
fn unreadable_lines() {
    for line in [
        "",
        " ",
        "1",
        "1 p",
        "1 p ",
        "1 p 5 ",
        " 1 p 5",
        "1  p 5",
        "1 p  5",
        "1 p 5 5",
        "1\tp 5",
        "1 p\t5",
        "1 p 5\r",
        "1 p 5\0",
        "1 x 5",
        "1 P 5",
        "1 pp 5",
        "1 kp 5",
        " p 5",
        "-1 p 5",
        "-8 p 5",
        "-0 p 5",
        "-18446744073709551615 p 5",
        "+1 p 5",
        "01 p 5",
        "00 p 5",
        "1- p 5",
        "x p 5",
        "1 p 05",
        "1 p 00",
        "1 p 000000000000000000000000",
        "1 p -0",
        "1 p -00",
        "1 p -05",
        "1 k -0",
        "1 k -04",
        "1 k -",
        "1 k --4",
        "1 k +4",
        "1 k 4-",
        "1 k -+4",
        "1 p 5.",
        "1 p 0x5",
        "1 p 1e1",
        "1 p :",
        "1 p /",
        "1 p \u{665}",
        "1 p \u{2212}5",
        // Unreadable comes before out of range.
        "8 x 5",
        "8 p 05",
        "8 p",
        "8 p 5 ",
        "01 p 64",
        "-1 p 64",
        "-1 k 32",
        "1 x 18446744073709551616",
        "18446744073709551616 p -0",
    ] {
        let file = format!("{NAMES}{line}\n");
        assert!(refused(file.as_bytes(), 11), "{line:?}");
    }
    assert!(refused(b"party kind name\n1 p \xFF\n", 11));
}

#[test]
fn last_line_without_a_line_feed() {
    for line in ["1 p 5", "8 p 5", "1 p 64", "1 k -99", "x", " ", "1 p 5\r"] {
        let file = format!("{NAMES}0 p 0\n{line}");
        assert!(refused(file.as_bytes(), 11), "{line:?}");
    }
}

#[test]
fn numbers_out_of_range() {
    let thousand = "5".repeat(1_000);
    let zeros = format!("1{}", "0".repeat(1_000));
    for number in [
        "64",
        "256",
        "261",
        "999",
        "1000",
        "1001",
        "65541",
        "2147483648",
        "4294967295",
        "4294967296",
        "4294967301",
        "18446744073709551615",
        "18446744073709551616",
        "18446744073709551621",
        "340282366920938463463374607431768211461",
        &thousand,
        &zeros,
    ] {
        for line in [
            format!("{number} p 5"),
            format!("{number} k 5"),
            format!("1 p {number}"),
            format!("1 p -{number}"),
            format!("1 k {number}"),
            format!("1 k -{number}"),
        ] {
            let file = format!("{NAMES}{line}\n");
            assert!(refused(file.as_bytes(), 12), "{line}");
        }
    }
    for line in [
        "8 p 5", "9 p 5", "10 p 5", "8 k 0", "1 p -1", "1 p -5", "1 p -63", "1 k 32", "1 k -32",
    ] {
        let file = format!("{NAMES}{line}\n");
        assert!(refused(file.as_bytes(), 12), "{line}");
    }
}

#[test]
fn first_faulty_line_decides() {
    for (lines, number) in [
        ("1 p 64\n1 x 5\n", 12),
        ("1 x 5\n1 p 64\n", 11),
        ("1 p 5\n1 p 64\n\n", 12),
        ("1 p 5\n\n1 p 64\n", 11),
        ("8 p 5\n1 p 5", 12),
        ("\n1 p 5", 11),
    ] {
        let file = format!("{NAMES}{lines}");
        assert!(refused(file.as_bytes(), number), "{lines:?}");
    }
}

#[test]
fn causes_are_told_apart() {
    let cause = |text: &str| RosterReader::correct().read(text.as_bytes()).err();
    let of = |line: &str| cause(&format!("{NAMES}{line}"));
    assert_eq!(cause(""), Some(Fault::NamesLine));
    assert_eq!(cause(&"x".repeat(16_385)), Some(Fault::TooLong));
    assert_eq!(of("1 p 5"), Some(Fault::LineFeed));
    assert_eq!(of("1  p 5\n"), Some(Fault::Items));
    assert_eq!(of("1 q 5\n"), Some(Fault::Kind));
    assert_eq!(of("1 p 05\n"), Some(Fault::Number));
    assert_eq!(of("1 p -0\n"), Some(Fault::Number));
    assert_eq!(of("8 p 5\n"), Some(Fault::Party));
    assert_eq!(of("1 p 64\n"), Some(Fault::Partition));
    assert_eq!(of("1 k 32\n"), Some(Fault::Key));
    assert_eq!(of("1 k 31\n"), None);
}

#[test]
fn lent_words() {
    let good = format!("{NAMES}1 p 5\n");
    for length in 0..=40 {
        for file in [good.as_str(), "", "party kind name\nx\n"] {
            let mut lent = vec![7; length];
            let answer = read_roster(file.as_bytes(), &mut lent);
            if length != 16 {
                assert_eq!(answer, 109);
            }
            if answer != 0 {
                assert_eq!(lent, vec![7; length]);
            }
        }
    }
    let mut lent = [u64::MAX; 16];
    assert_eq!(read_roster(good.as_bytes(), &mut lent), 0);
    assert_eq!(lent.iter().sum::<u64>(), 1 << 5);
}

/// A file on which a blunder shows, for some that are easily got wrong here.
#[test]
fn blunders_are_what_they_say() {
    let printed = |variant, text: &str| {
        let file = format!("{NAMES}{text}");
        let output = RosterReader::with(variant).print(file.as_bytes());
        String::from_utf8(output).expect("the program prints plain text")
    };
    for (variant, text, expected) in [
        (
            RosterVariant::Text(TextSlip::NumberWrapsAt64),
            "1 p 18446744073709551621\n",
            "party kind name\n1 p 5\n",
        ),
        (
            RosterVariant::Text(TextSlip::NumberWrapsAt32),
            "1 p 4294967301\n",
            "party kind name\n1 p 5\n",
        ),
        (
            RosterVariant::KeyWrapsBelowZero,
            "1 k 4294967292\n",
            "party kind name\n1 k -4\n",
        ),
        (RosterVariant::UnreadableLinesFirst, "1 p 64\nx\n", "no11\n"),
        (RosterVariant::PartyTestedFirst, "8 x 5\n", "no12\n"),
        (RosterVariant::NameTestedFirst, "x p 64\n", "no12\n"),
        (RosterVariant::LineFeedTestedLast, "1 p 64", "no12\n"),
        (RosterVariant::MinusPartyIsOutOfRange, "-1 p 5\n", "no12\n"),
        (
            RosterVariant::MinusPartitionIsUnreadable,
            "1 p -5\n",
            "no11\n",
        ),
        (
            RosterVariant::SameRightTwiceIsUnreadable,
            "1 p 5\n1 p 5\n",
            "no11\n",
        ),
        (
            RosterVariant::Text(TextSlip::LeadingZeroIsReadable),
            "00 k -07\n",
            "party kind name\n0 k -7\n",
        ),
        (
            RosterVariant::PrintsKeysFirst,
            "0 p 1\n0 k 1\n1 p 1\n",
            "party kind name\n0 k 1\n0 p 1\n1 p 1\n",
        ),
        (
            RosterVariant::PrintsKeysFromTop,
            "0 k 1\n0 k 2\n0 p 1\n0 p 2\n",
            "party kind name\n0 p 1\n0 p 2\n0 k 2\n0 k 1\n",
        ),
        (
            RosterVariant::GivesNoPartition0,
            "0 p 0\n0 p 5\n0 k 0\n",
            "party kind name\n0 p 5\n0 k 0\n",
        ),
    ] {
        assert_eq!(printed(variant, text), expected, "{variant:?}");
        assert_ne!(after_names(text), expected, "{variant:?}");
    }
    for (variant, name) in [
        (RosterVariant::PrintsPartition0, "p 0"),
        (RosterVariant::PrintsKey0, "k 0"),
    ] {
        let lines: String = (0..8).map(|party| format!("{party} {name}\n")).collect();
        assert_eq!(printed(variant, ""), format!("{NAMES}{lines}"));
    }
}

/// The defaults are read as any other name: only lines give them, and what they give is printed.
#[test]
fn defaults_come_from_lines_alone() {
    let lines = "2 p 0\n2 p 5\n3 k 0\n6 p 0\n6 k 0\n";
    assert_eq!(after_names(lines), format!("{NAMES}{lines}"));
    let mut expected = [0; 16];
    (expected[2], expected[6]) = (33, 1);
    (expected[11], expected[14]) = (1 << 31, 1 << 31);
    assert_eq!(words(lines), expected);
    for (variant, first, last) in [
        (RosterVariant::AddsPartition0, 1, 0),
        (RosterVariant::AddsKey0, 0, 1 << 31),
    ] {
        let mut wrong = BEFORE;
        assert_eq!(
            RosterReader::with(variant).call(NAMES.as_bytes(), &mut wrong),
            0
        );
        assert_eq!(wrong[..8], [first; 8], "{variant:?}");
        assert_eq!(wrong[8..], [last; 8], "{variant:?}");
    }
}
