//! The console's text to text on the rules' example and on each reading of its text.

use reference::{console, console_with, ConsoleVariant};

const NAMES: &str = "call party rpart rkey tpart tkey fields\n";

fn whole(input: &str) -> String {
    String::from_utf8(console(input.as_bytes())).expect("the console prints plain text")
}

/// The output to a names line and these lines, without the names line of the output.
fn after_names(lines: &str) -> String {
    let output = whole(&format!("{NAMES}{lines}"));
    output
        .strip_prefix("line answer fields\n")
        .expect("a names line comes first")
        .to_string()
}

#[test]
fn example_of_the_rules() {
    let input = include_str!("../../../crates/console/stdin");
    let output = include_str!("../../../crates/console/stdout");
    assert_eq!(whole(input), output);
}

#[test]
fn inputs_without_calls() {
    assert_eq!(whole(""), "line 1 unreadable\n");
    assert_eq!(whole("\n"), "line 1 unreadable\n");
    assert_eq!(whole(NAMES), "line answer fields\n");
    assert_eq!(whole(NAMES.trim_end()), "line 1 unreadable\n");
    assert_eq!(whole(&format!(" {NAMES}")), "line 1 unreadable\n");
    assert_eq!(after_names("give 0 5 4 - - -\n"), "");
    assert_eq!(after_names("give 0 - - - - -\ngive 0 - - - - -\n"), "");
    assert_eq!(after_names("\n"), "line 2 unreadable\n");
}

#[test]
fn length_of_the_input() {
    let line = "put 0 0 0 0 0 m1\n";
    let mut input = format!("{NAMES}give 0 0 - - - -\n");
    while input.len() + 2 * line.len() <= 65_536 {
        input.push_str(line);
    }
    let missing = 65_536 - input.len() - "put 0 0 0 0 0 \n".len();
    let full = format!("{input}put 0 0 0 0 0 {}\n", fields_of_length(missing));
    assert_eq!(full.len(), 65_536);
    assert!(whole(&full).ends_with(" no8 -\n"));
    assert_eq!(whole(&format!("{full}\n")), "input too long\n");
    let cut = &full[..65_535];
    assert!(whole(cut).ends_with(" unreadable\n"));
}

/// A list of messages that is this many bytes long.
fn fields_of_length(length: usize) -> String {
    let mut fields = "m1".to_string();
    while fields.len() + 3 <= length {
        fields.push_str(",m1");
    }
    while fields.len() < length {
        fields.push('1');
    }
    fields
}

/// By party 0, which is given partition 0.
#[test]
fn readable_and_refused() {
    for (line, answer) in [
        ("put 0 0 0 0 0 p63", "no7"),
        ("put 0 0 0 0 0 p64", "no5"),
        ("put 0 0 0 0 0 p4294967295", "no5"),
        ("put 0 0 0 0 0 *", "no5"),
        ("put 0 0 0 0 0 g7", "no5"),
        ("put 0 0 0 0 0 m1,l4294967295", "no5"),
        ("put 0 63 0 0 0 l0", "no5"),
        ("put 0 0 0 0 0 -", "no3"),
        ("put 0 0 0 0 0 m0,m0,m0,m0,m0,m0,m0,m0,m0", "no3"),
        (
            "put 0 0 0 0 0 m0,m0,m0,m0,m0,m0,m0,m0,m0,m0,m0,m0,m0,m0,m0,m0",
            "no3",
        ),
        ("put 8 0 0 0 0 -", "no2"),
        ("put 4294967295 0 0 0 0 m0", "no2"),
        ("put 0 0:5 0 0 0 m0", "no13"),
        ("put 0 0 0 0:1:2:3:63 0 m0", "no13"),
        ("put 0 0:5 32 0 0 m0", "no4"),
        ("put 8 0:5 0 5:9 0 m0", "no2"),
        ("put 0 0 -2147483648 0 0 m0", "no4"),
        ("put 0 0 0 0 2147483647 m0", "no4"),
        ("put 0 0 -31 0 0 m0", "no14"),
        ("put 0 0 0 0 31 p63", "no14"),
        ("put 0 0 -31 5 0 p63", "no13"),
        ("put 0 5 0 0 31 p63", "no13"),
        ("look 0 0 0 - - *", "none"),
        ("look 0 0 32 - - *", "no4"),
        ("look 8 0 0 - - *", "no2"),
        ("look 0 0 0 - - -", "no3"),
        ("look 0 0 0 - - p64", "no5"),
        ("look 0 5 0 - - *", "no13"),
        ("look 0 5 4 - - p5,k4", "no13"),
        ("look 0 0 4 - - p5,k4", "no14"),
        ("look 0 0 0 - - p5,k4", "no7"),
        ("receive 0 0 0 - - *", "none"),
        ("receive 8 0 0 - - *", "no2"),
        ("receive 0 0 0 - - -", "no3"),
        ("receive 0 0 32 - - *", "no4"),
        ("receive 0 0:63 0 - - *", "no13"),
        ("take 8 30:31:32 0 - - *", "no2"),
        ("receive 0 0 0 - - p64", "no5"),
        ("receive 0 5 0 - - *", "no13"),
        ("receive 0 0 5 - - *", "no14"),
        ("receive 0 0 0 - - p5", "no7"),
        ("take 0 0 0 - - p0,k0,m4294967295", "none"),
        ("take 0 0 0 - - k-31", "no7"),
        ("take 0 0 -31 - - *", "no14"),
        ("take 0 1 -31 - - *", "no13"),
        ("look 0 0 0 - - g0,g4294967295", "none"),
        ("take 0 0 0 - - l0,l4294967295", "none"),
        ("receive 0 0 0 - - g0,g0,g0,g0,g0,l0,l0,l0,l0", "no3"),
    ] {
        assert_eq!(
            after_names(&format!("give 0 0 - - - -\n{line}\n")),
            format!("1 {answer} -\n"),
            "{line}"
        );
    }
}

/// Calls that use partition 0: their answers where no line has given it to party 0, which is given
/// 5, and where one has.
#[test]
fn partition_0_is_given_by_a_line() {
    for (line, without, with) in [
        ("put 0 0 0 0 0 m1", "no13", "done"),
        ("put 0 5 0 0 0 m1", "no13", "done"),
        ("put 0 0 0 5 0 m1", "no13", "done"),
        ("put 0 0:5 0 5 0 m1", "no13", "done"),
        ("put 0 5 0 5 0 p0", "no7", "done"),
        ("put 0 5 0 5 0 m1", "done", "done"),
        ("put 0 5 0 5 0 k0", "done", "done"),
        ("look 0 0 0 - - *", "no13", "none"),
        ("receive 0 0:5 0 - - *", "no13", "none"),
        ("take 0 0 0 - - *", "no13", "none"),
        ("take 0 0 -4 - - p0", "no13", "no14"),
        ("look 0 5 0 - - p0", "no7", "none"),
        ("receive 0 5 0 - - *", "none", "none"),
    ] {
        let nobodys = "give 0 5 - - - -\n";
        let anothers = "give 0 5 - - - -\ngive 1 0 - - - -\n";
        let with_key = "give 0 5 0 - - -\n";
        let own = "give 0 5 - - - -\ngive 0 0 - - - -\n";
        for (gifts, answer) in [
            (nobodys, without),
            (anothers, without),
            (with_key, without),
            (own, with),
        ] {
            let output = after_names(&format!("{gifts}{line}\n"));
            assert_eq!(output, format!("1 {answer} -\n"), "{gifts}{line}");
        }
    }
}

#[test]
fn what_the_slips_make_of_gifts_of_partition_0() {
    let call = "put 0 0 0 0 0 m1\n";
    let given = format!("{NAMES}give 0 0 - - - -\n{call}");
    let not_given = format!("{NAMES}{call}");
    for (variant, lines, right, wrong) in [
        (
            ConsoleVariant::GivesPartition0ToAll,
            &not_given,
            "1 no13 -",
            "1 done -",
        ),
        (
            ConsoleVariant::GivesNoPartition0,
            &given,
            "1 done -",
            "1 no13 -",
        ),
        (
            ConsoleVariant::GiftOf0IsUnreadable,
            &given,
            "1 done -",
            "line 2 unreadable",
        ),
    ] {
        for (variant, said) in [(ConsoleVariant::Correct, right), (variant, wrong)] {
            let due = format!("line answer fields\n{said}\n");
            let output = console_with(variant, lines.as_bytes());
            assert_eq!(output, due.as_bytes(), "{variant:?}");
        }
    }
}

#[test]
fn unreadable_lines() {
    for line in [
        "put 0 0 0 0 0 m0 ",
        " put 0 0 0 0 0 m0",
        "put  0 0 0 0 0 m0",
        "put\t0 0 0 0 0 m0",
        "put 0 0 0 0 0 m0\r",
        "put 0 0 0 0 0",
        "put 0 0 0 0 0 m0 m0",
        "Put 0 0 0 0 0 m0",
        "open 0 0 0 0 0 m0",
        "put 0 0 0 - - m0",
        "put - 0 0 0 0 m0",
        "put 0 - 0 0 0 m0",
        "put 0 0 - 0 0 m0",
        "put 00 0 0 0 0 m0",
        "put -0 0 0 0 0 m0",
        "put +1 0 0 0 0 m0",
        "put -1 0 0 0 0 m0",
        "put 0 -1 0 0 0 m0",
        "put 0 0 -0 0 0 m0",
        "put 0 0 +1 0 0 m0",
        "put 0 0 01 0 0 m0",
        "put 0 0 -01 0 0 m0",
        "put 0 0 2147483648 0 0 m0",
        "put 0 0 -2147483649 0 0 m0",
        "put 4294967296 0 0 0 0 m0",
        "put 18446744073709551616 0 0 0 0 m0",
        "put 0 64 0 0 0 m0",
        "put 0 0 0 4294967295 0 m0",
        "receive 0 64 0 - - *",
        "receive 0 18446744073709551616 0 - - *",
        "put 0 0 0 0 0 m4294967296",
        "put 0 0 0 0 0 p4294967296",
        "put 0 0 0 0 0 m-1",
        "put 0 0 0 0 0 m",
        "put 0 0 0 0 0 m00",
        "put 0 0 0 0 0 k32",
        "put 0 0 0 0 0 k-32",
        "put 0 0 0 0 0 k-0",
        "put 0 0 0 0 0 k",
        "put 0 0 0 0 0 *0",
        "put 0 0 0 0 0 **",
        "put 0 0 0 0 0 m0,",
        "put 0 0 0 0 0 ,m0",
        "put 0 0 0 0 0 m0,-",
        "put 0 0 0 0 0 m0,,m0",
        "put 0 0 0 0 0 x1",
        "put 0 0 0 0 0 g",
        "look 0 0 0 - - g",
        "look 0 0 0 - - g-1",
        "look 0 0 0 - - g01",
        "look 0 0 0 - - g+1",
        "look 0 0 0 - - g4294967296",
        "receive 0 0 0 - - G7",
        "receive 0 0 0 - - l",
        "receive 0 0 0 - - l-1",
        "receive 0 0 0 - - l01",
        "take 0 0 0 - - l4294967296",
        "take 0 0 0 - - L7",
        "take 0 0 0 - - g7,",
        "look 0 0 0 - - g7*",
        "put 0 0 0 0 0 m0,m0,m0,m0,m0,m0,m0,m0,m0,m0,m0,m0,m0,m0,m0,m0,m0",
        "look 0 0 0 0 0 *",
        "look 0 0 0 - 0 *",
        "receive 0 0 0 0 0 *",
        "receive 0 0 0 - 0 *",
        "take 0 0 0 0 - *",
        "read 0 0 0 - - *",
        "read 0 0 0 - - m1",
        "Look 0 0 0 - - *",
        "loo 0 0 0 - - *",
        "looks 0 0 0 - - *",
        "receiv 0 0 0 - - *",
        "receives 0 0 0 - - *",
        "give 8 0 0 - - -",
        "give 0 64 0 - - -",
        "give 0 5:9 0 - - -",
        "give 0 0:1 - - - -",
        "give 0:1 5 0 - - -",
        "give 0 0 32 - - -",
        "give 0 0 -32 - - -",
        "give - 0 0 - - -",
        "give 0 0 0 0 - -",
        "give 0 0 0 - - m0",
        "give 0 0 0 - -",
    ] {
        assert_eq!(
            after_names(&format!("{line}\n")),
            "line 2 unreadable\n",
            "{line}"
        );
    }
}

#[test]
fn calls_before_an_unreadable_line_are_printed() {
    let lines = "give 0 5 - - - -\nput 0 5 0 5 0 m1\ngive 0 6 - - - -\nput 0 5 0 5 0 m1\n";
    assert_eq!(after_names(lines), "1 done -\nline 4 unreadable\n");
    for line in ["look 0 0 0 - - m1", "read 0 0 0 - - m1\n"] {
        let lines = format!("give 0 0 - - - -\nput 0 0 0 0 0 m1\n{line}");
        assert_eq!(after_names(&lines), "1 done -\nline 4 unreadable\n");
    }
}

#[test]
fn names_travel_and_are_printed_as_keys() {
    let lines = "\
give 0 5 4 - - -
give 0 0 - - - -
give 2 0 - - - -
give 3 0 - - - -
put 0 0 0 0 0 p5,k4
look 2 0 0 - - *,*
put 2 5 4 5 4 m1
receive 2 0 0 - - *,*
put 2 5 4 5 4 m1
put 2 5 -4 5 4 m1
take 3 0 0 - - *,*
put 3 5 4 5 4 m1
look 3 0 0 - - *,*
";
    let output = "\
1 done -
2 found p5,k4
3 no13 -
4 found p5,k4
5 done -
6 no14 -
7 found p5,k4
8 done -
9 none -
";
    assert_eq!(after_names(lines), output);
}

/// Party 1 finds a partition in an entry, uses it, and takes the entry.
#[test]
fn what_is_found_by_each_word() {
    let looks = "1 done -\n2 found p5\n3 no13 -\n4 found p5\n";
    let receives = "1 done -\n2 found p5\n3 done -\n4 found p5\n";
    let takes = "1 done -\n2 found p5\n3 done -\n4 none -\n";
    let unreadable = "1 done -\nline 6 unreadable\n";
    for (word, due, variant, wrong) in [
        ("look", looks, ConsoleVariant::LookReceives, receives),
        ("look", looks, ConsoleVariant::LookIsUnreadable, unreadable),
        ("receive", receives, ConsoleVariant::ReceiveLooks, looks),
        ("receive", receives, ConsoleVariant::ReceiveTakes, takes),
        ("read", unreadable, ConsoleVariant::ReadIsReadable, receives),
    ] {
        let lines = format!(
            "give 0 5 - - - -\ngive 0 0 - - - -\ngive 1 0 - - - -\nput 0 0 0 0 0 p5\n\
             {word} 1 0 0 - - *\nput 1 5 0 5 0 m1\ntake 1 0 0 - - *\n"
        );
        assert_eq!(after_names(&lines), due, "{word}");
        let output = console_with(variant, format!("{NAMES}{lines}").as_bytes());
        let expected = format!("line answer fields\n{wrong}");
        assert_eq!(output, expected.as_bytes(), "{variant:?}");
    }
}

#[test]
fn bounds_pick_by_their_number() {
    let lines = "\
give 0 0 - - - -
give 1 0 - - - -
put 0 0 0 0 0 m7,m100
put 0 0 0 0 0 m7,m4294967295
put 0 0 0 0 0 m7,p0
look 1 0 0 - - m7,g100
receive 1 0 0 - - m7,g101
look 1 0 0 - - m7,l100
receive 1 0 0 - - m7,l99
take 1 0 0 - - l7,g4294967295
take 1 0 0 - - g7,l4294967295
take 1 0 0 - - *,g0
take 1 0 0 - - *,l4294967295
take 1 0 0 - - *,*
";
    let output = "\
1 done -
2 done -
3 done -
4 found m7,m100
5 found m7,m4294967295
6 found m7,m100
7 none -
8 found m7,m4294967295
9 found m7,m100
10 none -
11 none -
12 found m7,p0
";
    assert_eq!(after_names(lines), output);
}

/// Every break of a set's spelling that the rules name, and others, in each place of a pair.
#[test]
fn sets_that_can_t_be_read() {
    for set in [
        "64",
        "5:5",
        "9:5",
        "5:",
        ":5",
        "05",
        "5::9",
        "5:9:",
        ":5:9",
        "5:09",
        "5:64",
        "5:9:9",
        "5:63:64",
        "0:0",
        "00",
        "0:00",
        "+5",
        "5:+9",
        "-5",
        "5:-9",
        "-0",
        "-",
        "--",
        ":",
        "::",
        "",
        "5,9",
        "5;9",
        "5.9",
        "5: 9",
        "5 :9",
        "5:9 ",
        "p5",
        "5:p9",
        "{5}",
        "all",
        "0x5",
        "#",
        "?",
        "*",
        "320",
        "4294967301",
        "5:4294967305",
        "18446744073709551621",
        "340282366920938463463374607431768211461",
    ] {
        for line in [
            format!("put 0 {set} 0 0 0 m0"),
            format!("put 0 0 0 {set} 0 m0"),
            format!("look 0 {set} 0 - - m0"),
            format!("receive 0 {set} 0 - - m0"),
            format!("take 0 {set} 0 - - m0"),
        ] {
            let output = after_names(&format!("{line}\n"));
            assert_eq!(output, "line 2 unreadable\n", "{line}");
        }
    }
}

/// As many as there are, and one more.
#[test]
fn sets_of_many() {
    let upto = |last: u32| {
        let parts: Vec<String> = (0..=last).map(|partition| partition.to_string()).collect();
        parts.join(":")
    };
    for last in [1, 15, 16, 31, 32, 62, 63] {
        let line = format!("look 0 {} 0 - - m0\n", upto(last));
        assert_eq!(after_names(&line), "1 no13 -\n");
    }
    let line = format!("look 0 {} 0 - - m0\n", upto(64));
    assert_eq!(after_names(&line), "line 2 unreadable\n");
}

#[test]
fn sets_meet_by_one_partition() {
    let lines = "\
give 0 5 - - - -
give 0 9 - - - -
give 0 63 - - - -
give 1 9 - - - -
give 1 0 - - - -
give 2 5 - - - -
give 2 0 - - - -
put 0 5:9 0 9:63 0 m1
look 1 9 0 - - m1
look 1 0:9 0 - - m1
look 1 0 0 - - m1
look 1 5:9 0 - - m1
receive 2 0:5 0 - - m1
take 2 5 0 - - m1
take 1 9 0 - - m1
take 1 9 0 - - m1
";
    let output = "\
1 done -
2 found m1
3 found m1
4 none -
5 no13 -
6 found m1
7 none -
8 found m1
9 none -
";
    assert_eq!(after_names(lines), output);
}

/// What each slip about sets makes of one line: nothing is printed for a gift.
#[test]
fn what_the_slips_make_of_sets() {
    let gifts = "give 0 0 - - - -\ngive 0 5 - - - -\ngive 0 9 - - - -\ngive 0 63 - - - -\n";
    let seventeen = "0:1:2:3:4:5:6:7:8:9:10:11:12:13:14:15:16";
    for (variant, set, right, wrong) in [
        (ConsoleVariant::ReadsTwice, "5:5", "", "done"),
        (ConsoleVariant::ReadsAnyOrder, "9:5", "", "done"),
        (ConsoleVariant::ReadsColonAfter, "5:", "", "done"),
        (ConsoleVariant::ReadsColonBefore, ":5", "", "done"),
        (ConsoleVariant::ReadsTwoColons, "5::9", "", "done"),
        (ConsoleVariant::ReadsLeadingZero, "05", "", "done"),
        (ConsoleVariant::ReadsPlus, "5:+9", "", "done"),
        (ConsoleVariant::ReadsMinus, "-5", "", "done"),
        (ConsoleVariant::ReadsComma, "5,9", "", "done"),
        (ConsoleVariant::Reads64As0, "64", "", "done"),
        (ConsoleVariant::WrapsAt32, "4294967301", "", "done"),
        (
            ConsoleVariant::WrapsAt64,
            "18446744073709551621",
            "",
            "done",
        ),
        (ConsoleVariant::Reads64AsEmpty, "64", "", "no4"),
        (ConsoleVariant::ReadsAbsentAsEmpty, "-", "", "no4"),
        (ConsoleVariant::ReadsFirstAlone, "5:10", "no13", "done"),
        (ConsoleVariant::ReadsLastAlone, "4:5", "no13", "done"),
        (ConsoleVariant::SeveralAreUnreadable, "5:9", "done", ""),
        (
            ConsoleVariant::SeventeenAreUnreadable,
            seventeen,
            "no13",
            "",
        ),
        (ConsoleVariant::Partition63IsUnreadable, "5:63", "done", ""),
    ] {
        let lines = format!("{NAMES}{gifts}put 0 {set} 0 0 0 m1\n");
        for (variant, answer) in [(ConsoleVariant::Correct, right), (variant, wrong)] {
            let output = console_with(variant, lines.as_bytes());
            let said = match answer {
                "" => "line 6 unreadable".to_string(),
                answer => format!("1 {answer} -"),
            };
            let due = format!("line answer fields\n{said}\n");
            assert_eq!(output, due.as_bytes(), "{variant:?}, {set}");
        }
    }
    let lines = format!("{NAMES}give 0 0:5:9 - - - -\nput 0 5:9 0 0 0 m1\n");
    let output = console_with(ConsoleVariant::GivesSets, lines.as_bytes());
    assert_eq!(output, b"line answer fields\n1 done -\n");
}
