//! Start orders: what comes of pairs, what is printed for files of them, and each reading of the
//! rules.

use reference::lines::Fault;
use reference::order::{Before, Outcome};
use reference::{order, start_order, OrderVariant, StartOrder, TextSlip};

const NAMES: &str = "before after\n";

/// Words as they may be before a call.
const BEFORE: [u64; 10] = [0x0123_4567_89AB_CDEF; 10];

fn words(pairs: &[(u64, u64)]) -> Vec<u64> {
    let word = |(first, second): &(u64, u64)| first * 4_294_967_296 + second;
    pairs.iter().map(word).collect()
}

fn whole(file: &[u8]) -> String {
    String::from_utf8(order(file)).expect("the program prints plain text")
}

/// What is printed for a names line and this text.
fn after_names(text: &str) -> String {
    whole(format!("{NAMES}{text}").as_bytes())
}

fn file_of(pairs: &[(u64, u64)]) -> String {
    let line = |(first, second): &(u64, u64)| format!("{first} {second}\n");
    NAMES.to_string() + &pairs.iter().map(line).collect::<String>()
}

/// Whether call and program both give this order, and the later words stay.
fn has_order(pairs: &[(u64, u64)], due: [u64; 8]) -> bool {
    let mut result = BEFORE;
    let answer = start_order(&words(pairs), &mut result);
    let text = due.map(|party| party.to_string()).join(" ");
    let printed = whole(file_of(pairs).as_bytes());
    answer == 0
        && result[..8] == due
        && result[8..] == BEFORE[8..]
        && printed == format!("order {text}\n")
}

/// Whether call and program both name this party, and the words stay.
fn has_circle(pairs: &[(u64, u64)], party: u64) -> bool {
    let mut result = BEFORE;
    let answer = start_order(&words(pairs), &mut result);
    let printed = whole(file_of(pairs).as_bytes());
    u64::from(answer) == party + 1 && result == BEFORE && printed == format!("circle {party}\n")
}

/// Whether call and program both refuse the pairs so, and the words stay.
fn refused(pairs: &[(u64, u64)], number: u32) -> bool {
    let mut result = BEFORE;
    let answer = start_order(&words(pairs), &mut result);
    let printed = whole(file_of(pairs).as_bytes());
    answer == 100 + number && result == BEFORE && printed == format!("no{number}\n")
}

#[test]
fn orders() {
    let as_numbered = [0, 1, 2, 3, 4, 5, 6, 7];
    assert!(has_order(&[], as_numbered));
    assert!(has_order(&[(0, 1), (3, 7)], as_numbered));
    assert!(has_order(&[(7, 0)], [1, 2, 3, 4, 5, 6, 7, 0]));
    assert!(has_order(
        &[(3, 0), (3, 0), (3, 0)],
        [1, 2, 3, 0, 4, 5, 6, 7]
    ));
    assert!(has_order(&[(3, 0), (5, 3)], [1, 2, 4, 5, 3, 0, 6, 7]));
    assert!(has_order(&[(5, 3), (3, 0)], [1, 2, 4, 5, 3, 0, 6, 7]));
    // 0 waits for both others.
    assert!(has_order(
        &[(2, 0), (2, 1), (1, 0)],
        [2, 1, 0, 3, 4, 5, 6, 7]
    ));
    let backwards: Vec<(u64, u64)> = (0..7).map(|party| (party + 1, party)).collect();
    assert!(has_order(&backwards, [7, 6, 5, 4, 3, 2, 1, 0]));
    // Every pair of a larger party before a smaller one.
    let all: Vec<(u64, u64)> = (0..8)
        .flat_map(|first| (0..first).map(move |second| (first, second)))
        .collect();
    assert_eq!(all.len(), 28);
    assert!(has_order(&all, [7, 6, 5, 4, 3, 2, 1, 0]));
}

#[test]
fn circles() {
    for party in 0..8 {
        assert!(has_circle(&[(party, party)], party));
    }
    // 0 only waits for the circle, and 1 comes before it.
    assert!(has_circle(&[(2, 5), (5, 2), (5, 0)], 2));
    assert!(has_circle(&[(1, 5), (2, 5), (5, 2), (5, 0)], 2));
    // 3 lies between two circles and on none.
    assert!(has_circle(
        &[(6, 7), (7, 6), (6, 3), (3, 5), (5, 4), (4, 5)],
        4
    ));
    // A circle with 0 comes last in the list.
    assert!(has_circle(&[(6, 7), (7, 6), (0, 3), (3, 0)], 0));
    for length in 1..=8 {
        for start in 0..=8 - length {
            let next = |step: u64| start + (step + 1) % length;
            let circle: Vec<(u64, u64)> = (0..length).map(|s| (start + s, next(s))).collect();
            assert!(has_circle(&circle, start));
            let backwards: Vec<(u64, u64)> = circle.iter().rev().map(|(a, b)| (*b, *a)).collect();
            assert!(has_circle(&backwards, start));
            // Without one of its pairs it is none.
            for left_out in 0..circle.len() {
                let mut chain = circle.clone();
                chain.remove(left_out);
                let mut result = BEFORE;
                assert_eq!(start_order(&words(&chain), &mut result), 0);
            }
        }
    }
}

#[test]
fn count_before_parties() {
    let many = |count: usize| vec![(0, 1); count];
    assert!(has_order(&many(64), [0, 1, 2, 3, 4, 5, 6, 7]));
    assert!(refused(&many(65), 15));
    let with_last = |count: usize, last: (u64, u64)| [many(count), vec![last]].concat();
    assert!(has_order(&with_last(63, (7, 0)), [2, 3, 4, 5, 6, 7, 0, 1]));
    assert!(has_circle(&with_last(63, (1, 0)), 0));
    assert!(refused(&with_last(63, (8, 0)), 16));
    assert!(refused(&with_last(64, (8, 0)), 15));
    assert!(refused(&with_last(64, (1, 0)), 15));
}

#[test]
fn parties_above_7() {
    for party in [8, 9, 15, 256, 65_536, 1 << 31, u64::from(u32::MAX)] {
        for pair in [
            (party, 0),
            (0, party),
            (7, party),
            (party, 7),
            (party, party),
        ] {
            assert!(refused(&[pair], 16));
            assert!(refused(&[(0, 1), pair, (2, 2)], 16));
        }
    }
}

#[test]
fn result_words() {
    for length in 0..=20 {
        for (pairs, due) in [
            (words(&[]), 0),
            (words(&[(4, 4)]), 5),
            (words(&[(8, 0)]), 116),
            (words(&[(0, 1); 65]), 115),
        ] {
            let mut lent = vec![9; length];
            let answer = start_order(&pairs, &mut lent);
            assert_eq!(answer, if length < 8 { 115 } else { due });
            let kept = if answer == 0 { 8 } else { 0 };
            assert!(lent[kept..].iter().all(|word| *word == 9));
        }
    }
}

#[test]
fn words_of_pairs() {
    for (first, second, word) in [
        (0, 0, 0),
        (0, 1, 1),
        (1, 0, 4_294_967_296),
        (7, 6, 30_064_771_078),
        (4_294_967_295, 4_294_967_295, u64::MAX),
    ] {
        let pair = Before { first, second };
        assert_eq!(pair.word(), word);
        assert_eq!(Before::from_word(word), pair);
    }
}

/// The next list in dictionary order, if there is one.
fn advance(order: &mut [u64; 8]) -> bool {
    let Some(place) = (0..7).rev().find(|place| order[*place] < order[place + 1]) else {
        return false;
    };
    let larger = (place + 1..8)
        .rev()
        .find(|other| order[*other] > order[place]);
    order.swap(place, larger.expect("the one after it"));
    order[place + 1..].reverse();
    true
}

/// The first of all orders that respects every pair, by trying all.
fn first_order(pairs: &[(u64, u64)]) -> Option<[u64; 8]> {
    let mut order = [0, 1, 2, 3, 4, 5, 6, 7];
    loop {
        let place = |party| order.iter().position(|placed| *placed == party);
        if pairs
            .iter()
            .all(|(first, second)| place(*first) < place(*second))
        {
            return Some(order);
        }
        if !advance(&mut order) {
            return None;
        }
    }
}

/// The smallest party from which a walk that may leave a party only once comes back.
fn first_on_circle(pairs: &[(u64, u64)]) -> Option<u64> {
    fn comes_back(pairs: &[(u64, u64)], start: u64, left: &[u64]) -> bool {
        let here = left[left.len() - 1];
        let mut ends = pairs
            .iter()
            .filter(|pair| pair.0 == here)
            .map(|pair| pair.1);
        ends.any(|end| {
            end == start
                || !left.contains(&end) && comes_back(pairs, start, &[left, &[end]].concat())
        })
    }
    (0..8).find(|party| comes_back(pairs, *party, &[*party]))
}

/// The order is the first one in dictionary order that respects every pair, and there is none
/// exactly where there is a circle.
#[test]
fn first_in_dictionary_order() {
    let mut state: u64 = 88_172_645_463_325_252;
    let mut below = |bound: u64| {
        state ^= state << 13;
        state ^= state >> 7;
        state ^= state << 17;
        state % bound
    };
    let (mut orders, mut circles) = (0, 0);
    for _ in 0..300 {
        let count = below(14);
        let pairs: Vec<(u64, u64)> = (0..count).map(|_| (below(8), below(8))).collect();
        match first_order(&pairs) {
            Some(due) => {
                assert!(has_order(&pairs, due), "{pairs:?}");
                assert_eq!(first_on_circle(&pairs), None);
                orders += 1;
            }
            None => {
                let party = first_on_circle(&pairs).expect("a circle where there is no order");
                assert!(has_circle(&pairs, party), "{pairs:?}");
                circles += 1;
            }
        }
    }
    assert!(
        orders > 50 && circles > 50,
        "{orders} orders, {circles} circles"
    );
}

#[test]
fn names_line() {
    assert_eq!(after_names(""), "order 0 1 2 3 4 5 6 7\n");
    for start in [
        "",
        "\n",
        "before after",
        "before afte\n",
        "before after\r\n",
        "before after \n",
        " before after\n",
        "\nbefore after\n",
        "before  after\n",
        "before\tafter\n",
        "Before after\n",
        "before afters\n",
        "after before\n",
        "0 3\n",
    ] {
        assert_eq!(whole(start.as_bytes()), "no10\n", "{start:?}");
        let with_line = format!("{start}0 8\n");
        if start.ends_with('\n') {
            assert_eq!(whole(with_line.as_bytes()), "no10\n", "{start:?}");
        }
    }
    assert_eq!(whole(b"\xFF"), "no10\n");
    assert_eq!(after_names(NAMES), "no11\n");
}

#[test]
fn length_of_the_file() {
    // Long numbers fill a file that has few pairs.
    let of_length = |length: usize| format!("{NAMES}0 {}\n", "9".repeat(length - 13 - 3));
    for (length, printed) in [(4_095, "no16\n"), (4_096, "no16\n"), (4_097, "no10\n")] {
        let file = of_length(length);
        assert_eq!(file.len(), length);
        assert_eq!(whole(file.as_bytes()), printed);
    }
    assert_eq!(whole(&of_length(4_097).as_bytes()[..4_096]), "no11\n");
    assert_eq!(after_names(&"0 1\n".repeat(1_020)), "no15\n");
    assert_eq!(after_names(&"0 1\n".repeat(1_021)), "no10\n");
}

#[test]
fn unreadable_lines() {
    for line in [
        "",
        " ",
        "0",
        "0 ",
        " 3",
        "0 3 ",
        " 0 3",
        "0  3",
        "0 3 3",
        "0\t3",
        "0 3\r",
        "0 3\0",
        "0,3",
        "0>3",
        "x 3",
        "0 x",
        "-1 3",
        "0 -3",
        "-0 3",
        "0 -0",
        "+0 3",
        "0 +3",
        "00 3",
        "0 03",
        "0 00",
        "0 3.",
        "0 0x3",
        "0 1e0",
        "0 :",
        "0 /",
        "0 \u{663}",
        "before after",
        // Unreadable comes before out of range.
        "8 x",
        "x 8",
        "08 8",
        "18446744073709551616 -0",
    ] {
        // Wherever it stands, and whatever else is wrong.
        let above = "9 9\n".repeat(3);
        let many = "0 1\n".repeat(70);
        for (before, after) in [
            ("", ""),
            ("0 1\n", "1 0\n"),
            (&above, &above),
            (&many, &many),
        ] {
            let text = format!("{before}{line}\n{after}");
            assert_eq!(after_names(&text), "no11\n", "{text:?}");
        }
    }
    assert_eq!(whole(b"before after\n0 \xFF\n"), "no11\n");
    for line in ["0 3", "8 3", "x", " ", "0 3\r"] {
        let many = "0 1\n".repeat(64);
        assert_eq!(after_names(&format!("{many}{line}")), "no11\n", "{line:?}");
    }
}

#[test]
fn numbers_of_any_length() {
    let thousand = "5".repeat(1_000);
    let zeros = format!("1{}", "0".repeat(1_000));
    for number in [
        "8",
        "10",
        "256",
        "999",
        "1000",
        "1001",
        "65536",
        "2147483648",
        "4294967295",
        "4294967296",
        "4294967297",
        "18446744073709551615",
        "18446744073709551616",
        "18446744073709551617",
        "340282366920938463463374607431768211457",
        &thousand,
        &zeros,
    ] {
        for line in [format!("{number} 3"), format!("3 {number}")] {
            assert_eq!(after_names(&format!("{line}\n")), "no16\n", "{line}");
            let many = "0 1\n".repeat(64);
            assert_eq!(after_names(&format!("{many}{line}\n")), "no15\n", "{line}");
        }
    }
}

#[test]
fn causes_are_told_apart() {
    let cause = |text: &str| {
        let read = StartOrder::correct().read(text.as_bytes());
        read.and_then(|pairs| StartOrder::correct().decide(&pairs))
    };
    let of = |line: &str| cause(&format!("{NAMES}{line}"));
    assert_eq!(cause(""), Err(Fault::NamesLine));
    assert_eq!(cause(&"x".repeat(4_097)), Err(Fault::TooLong));
    assert_eq!(of("0 3"), Err(Fault::LineFeed));
    assert_eq!(of("0  3\n"), Err(Fault::Items));
    assert_eq!(of("0 03\n"), Err(Fault::Number));
    assert_eq!(of(&"0 3\n".repeat(65)), Err(Fault::PairCount));
    assert_eq!(of("0 8\n"), Err(Fault::PairParty));
    assert_eq!(of("3 3\n"), Ok(Outcome::Circle(3)));
    assert_eq!(of("0 3\n"), Ok(Outcome::Order((0..8).collect())));
}

/// A file on which a blunder shows, for some that are easily got wrong here.
#[test]
fn blunders_are_what_they_say() {
    let many = "0 1\n".repeat(65);
    let many_and_unreadable = format!("{many}x\n");
    let unreadable_and_many = format!("x\n{many}");
    let doubles = "7 0\n".repeat(65);
    for (variant, text, expected) in [
        (OrderVariant::LargestFirst, "", "order 7 6 5 4 3 2 1 0\n"),
        (
            OrderVariant::PlacesInRounds,
            "1 0\n2 0\n",
            "order 1 2 3 4 5 6 7 0\n",
        ),
        (
            OrderVariant::PullsPredecessorsForward,
            "7 0\n",
            "order 7 0 1 2 3 4 5 6\n",
        ),
        (
            OrderVariant::PlacesOfParties,
            "7 0\n",
            "order 7 0 1 2 3 4 5 6\n",
        ),
        (
            OrderVariant::NamesSmallestUnplaced,
            "2 5\n5 2\n5 0\n",
            "circle 0\n",
        ),
        (
            OrderVariant::NamesOneAfterCircle,
            "2 5\n5 2\n5 6\n",
            "circle 6\n",
        ),
        (
            OrderVariant::NamesOneBeforeCircle,
            "1 5\n2 5\n5 2\n",
            "circle 1\n",
        ),
        (OrderVariant::NamesNextOnCircle, "2 5\n5 2\n", "circle 5\n"),
        (
            OrderVariant::CirclesOf8Missed,
            "0 1\n1 2\n2 3\n3 4\n4 5\n5 6\n6 7\n7 0\n",
            "order 0 1 2 3 4 5 6 7\n",
        ),
        (
            OrderVariant::ChainsJoinedInWrongOrder,
            "0 3\n3 2\n2 1\n1 0\n",
            "circle 2\n",
        ),
        (
            OrderVariant::DoublesCountedOnce,
            &doubles,
            "order 1 2 3 4 5 6 7 0\n",
        ),
        (OrderVariant::StopsAtPair65, &many_and_unreadable, "no15\n"),
        (
            OrderVariant::CountTestedBeforeLines,
            &unreadable_and_many,
            "no15\n",
        ),
        (OrderVariant::FirstFaultyLineDecides, "0 8\nx\n", "no16\n"),
        (OrderVariant::PartiesTestedBeforeLines, "x\n0 8\n", "no16\n"),
        (OrderVariant::MinusIsOutOfRange, "0 -3\n", "no16\n"),
        (
            OrderVariant::Text(TextSlip::NumberWrapsAt64),
            "18446744073709551623 0\n",
            "order 1 2 3 4 5 6 7 0\n",
        ),
        (
            OrderVariant::Text(TextSlip::MoreItemsAreReadable),
            "7 0 8\n",
            "order 1 2 3 4 5 6 7 0\n",
        ),
    ] {
        let file = format!("{NAMES}{text}");
        let printed = StartOrder::with(variant).print(file.as_bytes());
        assert_eq!(printed, expected.as_bytes(), "{variant:?}");
        assert_ne!(after_names(text), expected, "{variant:?}");
    }
}
