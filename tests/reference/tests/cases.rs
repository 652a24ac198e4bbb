//! The rules' twelve cases, looks, the small examples of their table of refusals, names that aren't
//! held, partition 0 and key 0, the bounds, and sets of partitions.

use reference::names::{key_bit, partition_bit, partitions_of, set_of, stored_key};
use reference::table::{
    broken_clause, row_start, FIELDS, KEYS, LIVE, PARTITIONS, READ_SET, TAKE_SET, WORDS,
};
use reference::{co_key, Answer, Clause, Field, Operation, Pair, Query, Reference, Variant};

const WILDCARD: u64 = 12_884_901_888;
/// The words of the kinds 4 to 6 with the number 0.
const AT_LEAST: u64 = 17_179_869_184;
const AT_MOST: u64 = 21_474_836_480;
const KIND_6: u64 = 25_769_803_776;
const LAST_MESSAGE: u64 = 4_294_967_295;
/// Of partition 0 and of partition 5.
const DEFAULT: Pair = Pair { set: 1, key: 0 };
const HERE: Pair = Pair { set: 32, key: 4 };
const THERE: Pair = Pair { set: 32, key: -4 };
const LOW_KEY: Pair = Pair { set: 1, key: -32 };
/// Party 0 of the cases holds neither partition 9 nor key -4.
const ELSEWHERE: Pair = Pair { set: 512, key: -4 };
const PARTITION_9: u64 = 4_294_967_305;

fn opened(roster: &[u64]) -> Vec<u64> {
    let mut space = vec![u64::MAX; WORDS];
    assert_eq!(Reference::correct().open(&mut space, roster), Answer::Done);
    space
}

/// The opening of the cases: party 0 holds 5 and 4, party 1 holds 5 and -4.
fn opening() -> Vec<u64> {
    opening_with_0(&[])
}

/// The same with partition 0 in the roster for these parties.
fn opening_with_0(parties: &[usize]) -> Vec<u64> {
    let mut roster = [0; 16];
    roster[0] = partition_bit(5);
    roster[1] = partition_bit(5);
    roster[8] = key_bit(4);
    roster[9] = key_bit(-4);
    for party in parties {
        roster[*party] |= partition_bit(0);
    }
    opened(&roster)
}

fn put(space: &mut [u64], party: u32, pair: Pair, fields: &[u64]) -> Answer {
    Reference::correct().put(space, party, pair, pair, fields)
}

type Found = (Answer, [u64; 8]);

/// The answer and the result words, which start as 99.
fn find(op: Operation, space: &mut [u64], party: u32, pair: Pair, fields: &[u64]) -> Found {
    let mut result = [99; 8];
    let query = Query {
        party,
        pair,
        fields,
    };
    let answer = Reference::correct().find(op, space, query, &mut result);
    (answer, result)
}

fn take(space: &mut [u64], party: u32, pair: Pair, fields: &[u64]) -> Found {
    find(Operation::Take, space, party, pair, fields)
}

fn receive(space: &mut [u64], party: u32, pair: Pair, fields: &[u64]) -> Found {
    find(Operation::Receive, space, party, pair, fields)
}

/// Wherever a test looks, no word of the space may change, and a receive must find the same.
fn look(space: &mut [u64], party: u32, pair: Pair, fields: &[u64]) -> Found {
    let before = space.to_vec();
    let found = find(Operation::Look, space, party, pair, fields);
    assert_eq!(space, before);
    assert_eq!(receive(&mut before.clone(), party, pair, fields), found);
    found
}

#[test]
fn cases_a_to_e() {
    let mut space = opening();
    let found = (Answer::Found(2), [7, 120, 99, 99, 99, 99, 99, 99]);
    assert_eq!(put(&mut space, 0, HERE, &[7, 120]), Answer::Done);
    assert_eq!(receive(&mut space, 1, THERE, &[7, WILDCARD]), found);
    assert_eq!(look(&mut space, 1, THERE, &[7, WILDCARD]), found);
    let all = [WILDCARD, WILDCARD];
    assert_eq!(
        take(&mut space, 0, THERE, &all),
        (Answer::Refused(14), [99; 8])
    );
    assert_eq!(take(&mut space, 1, THERE, &all), found);
    let none = (Answer::None, [99; 8]);
    assert_eq!(receive(&mut space, 1, THERE, &all), none);
    assert_eq!(look(&mut space, 1, THERE, &all), none);
    assert_eq!(space, opening());
}

#[test]
fn cases_f_to_h() {
    assert_eq!(co_key(31), -31);
    assert_eq!(co_key(0), 0);
    assert_eq!(Field::Partition(5).word(), 4_294_967_301);
    assert_eq!(Field::Key(4).word(), 8_589_934_627);
    assert_eq!(stored_key(-31), 0);
    assert_eq!(stored_key(31), 62);
}

#[test]
fn case_i_oldest_first() {
    let mut space = opening();
    assert_eq!(put(&mut space, 0, HERE, &[1]), Answer::Done);
    assert_eq!(put(&mut space, 0, HERE, &[2]), Answer::Done);
    let (answer, result) = take(&mut space, 1, THERE, &[WILDCARD]);
    assert_eq!((answer, result[0]), (Answer::Found(1), 1));
}

#[test]
fn case_j_limit() {
    let mut space = opening();
    for _ in 0..16 {
        assert_eq!(put(&mut space, 0, HERE, &[1]), Answer::Done);
    }
    assert_eq!(put(&mut space, 0, HERE, &[1]), Answer::Refused(8));
    assert_eq!(take(&mut space, 1, THERE, &[1]).0, Answer::Found(1));
    assert_eq!(put(&mut space, 0, HERE, &[1]), Answer::Done);
}

/// By the layout: the first row at word 17, each row 14 words, 128 of them up to word 1,808.
#[test]
fn rows_stand_where_the_layout_says() {
    let mut space = opening_with_0(&[0, 1, 2, 3, 4, 5, 6, 7]);
    for number in 0..128 {
        let party = (number / 16) as u32;
        assert_eq!(put(&mut space, party, DEFAULT, &[number; 8]), Answer::Done);
    }
    for (start, number) in [(17, 0), (31, 1), (913, 64), (1_795, 127)] {
        assert_eq!(space[start..start + 6], [number / 16, 1, 31, 1, 31, 8]);
        assert_eq!(space[start + 6..start + 14], [number; 8]);
    }
    let mut template = [WILDCARD; 8];
    template[0] = 64;
    assert_eq!(take(&mut space, 0, DEFAULT, &template).1, [64; 8]);
    assert_eq!(space[899 + 6..899 + 14], [63; 8]);
    assert_eq!(space[913 + 6..913 + 14], [65; 8]);
    assert_eq!(space[1_781 + 6..1_781 + 14], [127; 8]);
    assert_eq!(space[1_795..1_809], [0; 14]);
}

#[test]
fn case_k_names_travel() {
    let mut space = opening_with_0(&[0, 2]);
    let names = [Field::Partition(5).word(), Field::Key(4).word()];
    assert_eq!(put(&mut space, 0, DEFAULT, &names), Answer::Done);
    let (answer, _) = receive(&mut space, 2, DEFAULT, &[WILDCARD, WILDCARD]);
    assert_eq!(answer, Answer::Found(2));
    assert_eq!(space[PARTITIONS + 2], partition_bit(0) | partition_bit(5));
    assert_eq!(space[KEYS + 2], key_bit(0) | key_bit(4));
}

#[test]
fn look_gives_no_name() {
    let mut space = opening_with_0(&[0, 2]);
    let names = [Field::Partition(5).word(), Field::Key(4).word()];
    assert_eq!(put(&mut space, 0, DEFAULT, &names), Answer::Done);
    let all = [WILDCARD, WILDCARD];
    let (answer, result) = look(&mut space, 2, DEFAULT, &all);
    assert_eq!((answer, &result[..2]), (Answer::Found(2), &names[..]));
    assert_eq!(space[PARTITIONS + 2], partition_bit(0));
    assert_eq!(space[KEYS + 2], key_bit(0));
    // What was only looked at can't be used: neither in a pair nor in a field.
    assert_eq!(put(&mut space, 2, HERE, &[1]), Answer::Refused(13));
    let (with_key_4, _) = look(&mut space, 2, Pair { set: 1, key: 4 }, &[1]);
    assert_eq!(with_key_4, Answer::Refused(14));
    assert_eq!(look(&mut space, 2, DEFAULT, &names).0, Answer::Refused(7));
    assert_eq!(receive(&mut space, 2, DEFAULT, &all).0, Answer::Found(2));
    assert_eq!(put(&mut space, 2, HERE, &[1]), Answer::Done);
    assert_eq!(look(&mut space, 2, DEFAULT, &names).0, Answer::Found(2));
}

#[test]
fn look_finds_the_oldest_until_it_is_taken() {
    let mut space = opening();
    assert_eq!(put(&mut space, 0, HERE, &[1]), Answer::Done);
    assert_eq!(put(&mut space, 0, HERE, &[2]), Answer::Done);
    for message in [1, 2] {
        for _ in 0..3 {
            let (answer, result) = look(&mut space, 1, THERE, &[WILDCARD]);
            assert_eq!((answer, result[0]), (Answer::Found(1), message));
        }
        let (answer, _) = take(&mut space, 1, THERE, &[WILDCARD]);
        assert_eq!(answer, Answer::Found(1));
    }
    assert_eq!(look(&mut space, 1, THERE, &[WILDCARD]).0, Answer::None);
}

#[test]
fn look_and_receive_go_by_the_read_pair() {
    let mut space = opening_with_0(&[0, 1]);
    let done = Reference::correct().put(&mut space, 0, HERE, DEFAULT, &[1]);
    assert_eq!(done, Answer::Done);
    for find in [look, receive] {
        assert_eq!(find(&mut space, 1, THERE, &[1]).0, Answer::Found(1));
        assert_eq!(find(&mut space, 1, DEFAULT, &[1]).0, Answer::None);
    }
    assert_eq!(take(&mut space, 1, THERE, &[1]).0, Answer::None);
    assert_eq!(take(&mut space, 1, DEFAULT, &[1]).0, Answer::Found(1));
}

/// A refusal's number, a party, a pair, fields and how many result words are lent. The test of the
/// next refusal would apply as well.
const REFUSED: [(u32, u32, Pair, &[u64], usize); 8] = [
    (2, 8, LOW_KEY, &[], 0),
    (3, 0, LOW_KEY, &[], 0),
    (4, 0, LOW_KEY, &[KIND_6], 0),
    (5, 0, ELSEWHERE, &[KIND_6], 0),
    (13, 0, ELSEWHERE, &[PARTITION_9, 2], 1),
    (14, 0, THERE, &[PARTITION_9, 2], 1),
    (7, 0, HERE, &[PARTITION_9, 2], 1),
    (6, 0, HERE, &[1, 2], 1),
];

#[test]
fn refusals_of_looks_receives_and_takes() {
    for operation in ALL {
        for (number, party, pair, fields, lent) in REFUSED {
            let query = Query {
                party,
                pair,
                fields,
            };
            for (word, due) in [(0, number), (129, 1)] {
                let mut space = opening();
                space[LIVE] = word;
                let before = space.clone();
                let mut result = vec![99; lent];
                let answer = Reference::correct().find(operation, &mut space, query, &mut result);
                assert_eq!(answer, Answer::Refused(due), "{operation:?}");
                assert_eq!((space, result), (before, vec![99; lent]));
            }
        }
    }
}

/// Templates of party 0, which holds partition 5 and key 4: pair, fields and the refusal where fewer
/// result words are lent than there are fields.
const SHORT: [(Pair, [u64; 2], u32); 12] = [
    (HERE, [1, 2], 6),
    (HERE, [WILDCARD, AT_LEAST], 6),
    (SET_9, [1, 2], 13),
    (THERE, [1, 2], 14),
    (HERE, [1, PARTITION_9], 7),
    (HERE, [KEY_MINUS_4, WILDCARD], 7),
    // Several at once.
    (ELSEWHERE, [1, 2], 13),
    (SET_9, [1, PARTITION_9], 13),
    (SET_9, [KEY_MINUS_4, 2], 13),
    (THERE, [PARTITION_9, 2], 14),
    (THERE, [WILDCARD, KEY_MINUS_4], 14),
    (ELSEWHERE, [PARTITION_9, KEY_MINUS_4], 13),
];

/// What a reference answers to party 0 that lends so many words, in a space with an entry that it
/// finds by `HERE`; a refused call may change no word.
fn lent(variant: Variant, op: Operation, pair: Pair, fields: &[u64], words: usize) -> Answer {
    let mut space = opening();
    assert_eq!(put(&mut space, 1, THERE, &[1, 2]), Answer::Done);
    let (before, mut result) = (space.clone(), vec![99; words]);
    let query = Query {
        party: 0,
        pair,
        fields,
    };
    let answer = Reference::with(variant).find(op, &mut space, query, &mut result);
    if let Answer::Refused(_) = answer {
        assert_eq!((space, result), (before, vec![99; words]));
    }
    answer
}

#[test]
fn a_short_result_beside_names_that_lack() {
    for (pair, fields, number) in SHORT {
        for operation in ALL {
            let answer = |variant, words| lent(variant, operation, pair, &fields, words);
            let what = format!("{operation:?}, {pair:?}, {fields:?}");
            let enough = match number {
                6 => Answer::Found(2),
                _ => Answer::Refused(number),
            };
            for words in 0..5 {
                let (due, before) = match words < 2 {
                    true => (Answer::Refused(number), Answer::Refused(6)),
                    false => (enough, enough),
                };
                assert_eq!(answer(Variant::Correct, words), due, "{what}, {words}");
                let by_old_table = answer(Variant::TestsResultBeforeNames, words);
                assert_eq!(by_old_table, before, "{what}, {words}");
            }
        }
    }
}

/// What a slip answers to a look, a receive and a take with a short result that lacks a partition, a
/// key, and a name in a field.
#[test]
fn what_the_slips_make_of_a_short_result() {
    let (right, first) = ([13, 14, 7], [6; 3]);
    for (variant, due) in [
        (Variant::Correct, [right; 3]),
        (Variant::TestsResultBeforeNames, [first; 3]),
        (Variant::TestsResultBeforeKeys, [[13, 6, 6]; 3]),
        (Variant::TestsResultBeforeCarried, [[13, 14, 6]; 3]),
        (Variant::LookTestsResultFirst, [first, right, right]),
        (Variant::ReceiveTestsResultFirst, [right, first, right]),
        (Variant::TakeTestsResultFirst, [right, right, first]),
        (Variant::WantsOneMoreResultWord, [right; 3]),
        (Variant::OneRefusalForNames, [[7; 3]; 3]),
    ] {
        let lacking = [(SET_9, 1), (THERE, 1), (HERE, PARTITION_9)];
        let answers =
            ALL.map(|op| lacking.map(|(pair, field)| lent(variant, op, pair, &[field], 0)));
        assert_eq!(
            answers,
            due.map(|of_op| of_op.map(Answer::Refused)),
            "{variant:?}"
        );
    }
    let with = |variant, words| lent(variant, Operation::Look, HERE, &[1, 2], words);
    let one_more = Variant::WantsOneMoreResultWord;
    assert_eq!(with(one_more, 2), Answer::Refused(6));
    assert_eq!(with(one_more, 3), Answer::Found(2));
    assert_eq!(with(Variant::TestsResultLate, 1), Answer::Refused(6));
    let none = lent(Variant::TestsResultLate, Operation::Look, HERE, &[1, 3], 1);
    assert_eq!(none, Answer::None);
}

/// Puts by party 0, which holds partition 5 and key 4: read pair, take pair, fields and the refusal.
const LACKING: [(Pair, Pair, &[u64], u32); 14] = [
    (SET_9, HERE, &[1], 13),
    (HERE, SET_9, &[1], 13),
    (THERE, HERE, &[1], 14),
    (HERE, THERE, &[1], 14),
    (HERE, HERE, &[1, PARTITION_9], 7),
    (HERE, HERE, &[KEY_MINUS_4, 1], 7),
    // Both at once, in one pair or in two.
    (ELSEWHERE, HERE, &[1], 13),
    (HERE, ELSEWHERE, &[1], 13),
    (SET_9, THERE, &[1], 13),
    (THERE, SET_9, &[1], 13),
    (HERE, SET_9, &[KEY_MINUS_4], 13),
    (HERE, THERE, &[PARTITION_9], 14),
    (THERE, HERE, &[KEY_MINUS_4], 14),
    (THERE, SET_9, &[PARTITION_9, KEY_MINUS_4], 13),
];
/// Of partitions 5 and 9.
const SET_9: Pair = Pair { set: 544, key: 4 };
const KEY_MINUS_4: u64 = 8_589_934_619;

#[test]
fn names_that_a_put_lacks() {
    let mut full = opening();
    for _ in 0..16 {
        assert_eq!(put(&mut full, 0, HERE, &[1]), Answer::Done);
    }
    // With sixteen live entries refusal 8 would come after.
    for space in [opening(), full] {
        for (read, take, fields, number) in LACKING {
            for (variant, due) in [(Variant::Correct, number), (Variant::OneRefusalForNames, 7)] {
                let mut after = space.clone();
                let answer = Reference::with(variant).put(&mut after, 0, read, take, fields);
                assert_eq!(
                    answer,
                    Answer::Refused(due),
                    "{read:?}, {take:?}, {fields:?}"
                );
                assert_eq!(after, space);
            }
        }
    }
}

/// A slip about names, a put of party 0 (read pair, take pair and a field), its refusal, and what
/// the slip answers.
const SLIPS: [(Variant, Pair, Pair, u64, u32, Answer); 16] = {
    use Answer::{Done, Refused};
    use Variant::*;
    [
        (AllNamesBy13, THERE, HERE, 1, 14, Refused(13)),
        (NamesOfPutBy7, THERE, HERE, 1, 14, Refused(7)),
        (Exchanges13And14, SET_9, HERE, 1, 13, Refused(14)),
        (Exchanges14And7, THERE, HERE, 1, 14, Refused(7)),
        (Exchanges13And7, SET_9, HERE, 1, 13, Refused(7)),
        (
            CarriedPartitionBy13,
            HERE,
            HERE,
            PARTITION_9,
            7,
            Refused(13),
        ),
        (CarriedKeyBy14, HERE, HERE, KEY_MINUS_4, 7, Refused(14)),
        (KeysBeforePartitions, THERE, SET_9, 1, 13, Refused(14)),
        (CarriedBeforeKeys, THERE, HERE, PARTITION_9, 14, Refused(7)),
        (CarriedFirst, SET_9, HERE, PARTITION_9, 13, Refused(7)),
        (NamesPairByPair, THERE, SET_9, 1, 13, Refused(14)),
        (ReadSetAloneHeld, HERE, SET_9, 1, 13, Done),
        (TakeSetAloneHeld, SET_9, HERE, 1, 13, Done),
        (ReadKeyAloneHeld, HERE, THERE, 1, 14, Done),
        (TakeKeyAloneHeld, THERE, HERE, 1, 14, Done),
        (OneOfSeveralIsForgiven, SET_9, HERE, 1, 13, Done),
    ]
};

#[test]
fn what_the_slips_make_of_names() {
    for (slip, read, take, field, number, wrong) in SLIPS {
        for (variant, due) in [(Variant::Correct, Answer::Refused(number)), (slip, wrong)] {
            let answer = Reference::with(variant).put(&mut opening(), 0, read, take, &[field]);
            assert_eq!(answer, due, "{variant:?}");
        }
    }
}

/// Of words 0 to 16, which have no name but key 0: the bit of key 0 is bit 31.
const OPENED_BY_ZEROS: [u64; 17] = {
    let mut words = [0; 17];
    let mut word = 9;
    while word < 17 {
        words[word] = 2_147_483_648;
        word += 1;
    }
    words
};

#[test]
fn a_roster_of_zeros_gives_key_0_and_no_partition() {
    let space = opened(&[0; 16]);
    assert_eq!(space[..17], OPENED_BY_ZEROS);
    assert!(space[17..].iter().all(|word| *word == 0));
    assert_eq!(broken_clause(&space), None);
}

#[test]
fn a_roster_gives_partition_0_as_any_other() {
    let mut roster = [0; 16];
    roster[3] = 1;
    roster[4] = 33;
    roster[7] = u64::MAX;
    // Key 0 listed is the same as not listed.
    roster[10] = 1 << 31;
    let space = opened(&roster);
    let mut due = OPENED_BY_ZEROS;
    (due[4], due[5], due[8]) = (1, 33, u64::MAX);
    assert_eq!(space[..17], due);
}

const ALL: [Operation; 3] = [Operation::Look, Operation::Receive, Operation::Take];
/// Partitions 0 and 5, of which party 0 of the cases holds only the latter.
const WITH_0: Pair = Pair { set: 33, key: 4 };
const UNDER_0: Pair = Pair { set: 1, key: 4 };
const PARTITION_0: u64 = 4_294_967_296;

/// By party 0 of the cases: under {0}, under {0, 5} in either pair, and with `p0` in a field.
#[test]
fn calls_without_partition_0() {
    let mut space = opening();
    let before = space.clone();
    let mut reference = Reference::correct();
    for pair in [UNDER_0, WITH_0] {
        for (read, take) in [(pair, pair), (pair, HERE), (HERE, pair)] {
            let answer = reference.put(&mut space, 0, read, take, &[1]);
            assert_eq!(answer, Answer::Refused(13), "{read:?}, {take:?}");
        }
        for operation in ALL {
            let found = find(operation, &mut space, 0, pair, &[1]);
            assert_eq!(found, (Answer::Refused(13), [99; 8]), "{operation:?}");
        }
    }
    let carried = [PARTITION_0];
    assert_eq!(put(&mut space, 0, HERE, &carried), Answer::Refused(7));
    for operation in ALL {
        let found = find(operation, &mut space, 0, HERE, &carried);
        assert_eq!(found, (Answer::Refused(7), [99; 8]), "{operation:?}");
    }
    assert_eq!(space, before);
}

#[test]
fn calls_with_partition_0() {
    let mut space = opening_with_0(&[0]);
    let fields = [PARTITION_0, 1];
    for pair in [DEFAULT, UNDER_0, WITH_0] {
        assert_eq!(put(&mut space, 0, pair, &fields), Answer::Done, "{pair:?}");
        for operation in ALL {
            let (answer, _) = find(operation, &mut space, 0, pair, &fields);
            let due = match co_key(pair.key) == pair.key {
                true => Answer::Found(2),
                false => Answer::None,
            };
            assert_eq!(answer, due, "{operation:?}, {pair:?}");
        }
    }
}

/// Party 0 hands partition 0 to party 1, which has no line for it.
#[test]
fn partition_0_travels() {
    for (operation, gained) in ALL.into_iter().zip([false, true, true]) {
        let mut space = opening_with_0(&[0]);
        let before = space[PARTITIONS + 1];
        assert_eq!(put(&mut space, 0, HERE, &[PARTITION_0]), Answer::Done);
        assert_eq!(put(&mut space, 1, DEFAULT, &[1]), Answer::Refused(13));
        let (answer, _) = find(operation, &mut space, 1, THERE, &[WILDCARD]);
        assert_eq!(answer, Answer::Found(1));
        let (word, due) = match gained {
            true => (before + 1, Answer::Done),
            false => (before, Answer::Refused(13)),
        };
        assert_eq!(space[PARTITIONS + 1], word, "{operation:?}");
        assert_eq!(put(&mut space, 1, DEFAULT, &[1]), due, "{operation:?}");
    }
}

#[test]
fn a_space_without_partition_0_is_sound() {
    for lacking in 0..256_usize {
        let mut space = opening_with_0(&[0, 1, 2, 3, 4, 5, 6, 7]);
        for party in (0..8).filter(|party| lacking >> party & 1 == 1) {
            space[PARTITIONS + party] &= !1;
        }
        assert_eq!(broken_clause(&space), None);
        assert_eq!(put(&mut space, 0, HERE, &[1]), Answer::Done);
        assert_eq!(look(&mut space, 1, THERE, &[1]).0, Answer::Found(1));
        assert_eq!(take(&mut space, 1, THERE, &[1]).0, Answer::Found(1));
    }
}

#[test]
fn a_space_without_key_0_is_unsound() {
    for party in 0..8 {
        for mut space in [opening(), opening_with_0(&[0, 1, 2, 3, 4, 5, 6, 7])] {
            space[KEYS + party] &= !(1 << 31);
            assert_eq!(broken_clause(&space), Some(Clause::DefaultKey));
            assert_eq!(put(&mut space, 0, HERE, &[1]), Answer::Refused(1));
            for operation in ALL {
                let found = find(operation, &mut space, 1, THERE, &[1]);
                assert_eq!(found, (Answer::Refused(1), [99; 8]));
            }
        }
    }
}

/// What a slip makes of an opening: words 1 and 9, without and with partition 0 in the roster.
#[test]
fn what_the_slips_make_of_an_opening() {
    let key_0 = 1 << 31;
    for (variant, without, with) in [
        (Variant::Correct, (32, key_0), (33, key_0)),
        (Variant::OpensWithPartition0, (33, key_0), (33, key_0)),
        (Variant::FreePartition0, (33, key_0), (33, key_0)),
        (Variant::OpensWithoutPartition0, (32, key_0), (32, key_0)),
        (Variant::OpensWithoutKey0, (32, 0), (33, 0)),
        (Variant::WantsPartition0, (32, key_0), (33, key_0)),
    ] {
        for (listed, due) in [(32, without), (33, with)] {
            let mut space = vec![0; WORDS];
            let mut roster = [0; 16];
            roster[0] = listed;
            Reference::with(variant).open(&mut space, &roster);
            assert_eq!((space[1], space[9]), due, "{variant:?}, {listed}");
        }
    }
}

/// What a slip answers to a put of party 0, of this pair and this field, where party 0, or only
/// another one, lacks partition 0.
#[test]
fn what_the_slips_make_of_partition_0() {
    let (here, nowhere) = (vec![1, 2, 3, 4, 5, 6, 7], vec![]);
    let elsewhere = vec![0, 1, 2, 4, 5, 6, 7];
    let refused = Answer::Refused;
    for (variant, holders, pair, field, due, wrong) in [
        (
            Variant::WantsPartition0,
            &here,
            HERE,
            1,
            Answer::Done,
            refused(1),
        ),
        (
            Variant::WantsPartition0,
            &elsewhere,
            HERE,
            1,
            Answer::Done,
            refused(1),
        ),
        (
            Variant::FreePartition0,
            &elsewhere,
            HERE,
            1,
            Answer::Done,
            refused(1),
        ),
        (
            Variant::WantsPartition0OfCaller,
            &here,
            HERE,
            1,
            Answer::Done,
            refused(1),
        ),
        (
            Variant::WantsPartition0OfCaller,
            &elsewhere,
            HERE,
            1,
            Answer::Done,
            Answer::Done,
        ),
        (
            Variant::Partition0IsHeldInPairs,
            &nowhere,
            DEFAULT,
            1,
            refused(13),
            Answer::Done,
        ),
        (
            Variant::Partition0IsHeldInPairs,
            &nowhere,
            WITH_0,
            1,
            refused(13),
            Answer::Done,
        ),
        (
            Variant::Partition0IsHeldInPairs,
            &nowhere,
            HERE,
            PARTITION_0,
            refused(7),
            refused(7),
        ),
        (
            Variant::Partition0IsHeldInFields,
            &nowhere,
            HERE,
            PARTITION_0,
            refused(7),
            Answer::Done,
        ),
        (
            Variant::Partition0IsHeldInFields,
            &nowhere,
            DEFAULT,
            1,
            refused(13),
            refused(13),
        ),
    ] {
        let space = opening_with_0(holders);
        for (variant, answer) in [(Variant::Correct, due), (variant, wrong)] {
            let put = Reference::with(variant).put(&mut space.clone(), 0, pair, pair, &[field]);
            assert_eq!(put, answer, "{variant:?}, {holders:?}, {pair:?}, {field}");
        }
    }
}

/// What a receive and a take of `p0` leave in the word of party 1, which had 5.
#[test]
fn what_the_slips_make_of_a_carried_partition_0() {
    for (variant, received, taken) in [
        (Variant::Correct, 33, 33),
        (Variant::ReceivesNoPartition0, 32, 33),
        (Variant::TakesNoPartition0, 33, 32),
    ] {
        for (operation, due) in [(Operation::Receive, received), (Operation::Take, taken)] {
            let mut space = opening_with_0(&[0]);
            assert_eq!(put(&mut space, 0, HERE, &[PARTITION_0]), Answer::Done);
            let query = Query {
                party: 1,
                pair: THERE,
                fields: &[WILDCARD],
            };
            Reference::with(variant).find(operation, &mut space, query, &mut [0; 8]);
            assert_eq!(space[PARTITIONS + 1], due, "{variant:?}, {operation:?}");
        }
    }
}

#[test]
fn case_l_party_before_fields() {
    assert_eq!(put(&mut opening(), 8, DEFAULT, &[]), Answer::Refused(2));
}

#[test]
fn examples_of_the_refusals() {
    let mut reference = Reference::correct();
    let mut space = opening();
    let short = &mut space[..1_808];
    assert_eq!(reference.open(short, &[0; 16]), Answer::Refused(1));
    assert_eq!(put(short, 0, DEFAULT, &[1]), Answer::Refused(1));
    assert_eq!(put(&mut space, 8, DEFAULT, &[1]), Answer::Refused(2));
    assert_eq!(put(&mut space, 0, DEFAULT, &[1; 9]), Answer::Refused(3));
    assert_eq!(put(&mut space, 0, LOW_KEY, &[1]), Answer::Refused(4));
    assert_eq!(put(&mut space, 0, DEFAULT, &[WILDCARD]), Answer::Refused(5));
    let elsewhere = receive(&mut space, 0, ELSEWHERE, &[1]).0;
    assert_eq!(elsewhere, Answer::Refused(13));
    assert_eq!(look(&mut space, 0, THERE, &[1]).0, Answer::Refused(14));
    assert_eq!(put(&mut space, 0, HERE, &[PARTITION_9]), Answer::Refused(7));
    let two_fields = Query {
        party: 0,
        pair: HERE,
        fields: &[1, 2],
    };
    assert_eq!(
        reference.find(Operation::Receive, &mut space, two_fields, &mut [99]),
        Answer::Refused(6)
    );
    assert_eq!(reference.open(&mut space, &[0; 15]), Answer::Refused(9));
    let mut bit_63 = [0; 16];
    bit_63[15] = 1 << 63;
    assert_eq!(reference.open(&mut space, &bit_63), Answer::Refused(9));
    assert_eq!(space, opening());
}

/// What a look by these words, and so a receive, answers with one entry of these fields there.
fn look_for_one(entry: &[u64], template: &[u64]) -> Answer {
    let mut space = opening_with_0(&[0, 1]);
    assert_eq!(put(&mut space, 0, DEFAULT, entry), Answer::Done);
    let (answer, result) = look(&mut space, 1, DEFAULT, template);
    if let Answer::Found(count) = answer {
        assert_eq!(&result[..count], entry);
    }
    answer
}

#[test]
fn words_of_bounds() {
    assert_eq!(Field::AtLeast(0).word(), AT_LEAST);
    assert_eq!(Field::AtMost(u32::MAX).word(), AT_MOST + LAST_MESSAGE);
    for number in [0, 7, 1 << 31, u32::MAX] {
        for field in [Field::AtLeast(number), Field::AtMost(number)] {
            assert_eq!(Field::from_word(field.word()), Some(field));
        }
    }
    for word in [KIND_6, KIND_6 + 7, 7 << 32, 260 << 32, u64::MAX] {
        assert_eq!(Field::from_word(word), None);
    }
}

#[test]
fn bounds_against_messages() {
    let numbers = [
        0,
        1,
        7,
        (1 << 31) - 1,
        1 << 31,
        LAST_MESSAGE - 1,
        LAST_MESSAGE,
    ];
    for (place, message) in numbers.into_iter().enumerate() {
        for (other, number) in numbers.into_iter().enumerate() {
            let due = |found| match found {
                true => Answer::Found(1),
                false => Answer::None,
            };
            let at_least = look_for_one(&[message], &[AT_LEAST + number]);
            assert_eq!(at_least, due(place >= other), "{message}, {number}");
            let at_most = look_for_one(&[message], &[AT_MOST + number]);
            assert_eq!(at_most, due(place <= other), "{message}, {number}");
        }
    }
}

#[test]
fn bounds_against_names() {
    for name in [
        Field::Partition(0),
        Field::Partition(5),
        Field::Key(0),
        Field::Key(4),
    ] {
        let low = name.word() % (1 << 32);
        for number in [0, low, LAST_MESSAGE] {
            for bound in [AT_LEAST, AT_MOST] {
                let found = look_for_one(&[name.word()], &[bound + number]);
                assert_eq!(found, Answer::None, "{name:?}, {bound} + {number}");
            }
        }
    }
}

#[test]
fn two_bounds() {
    for (template, answer) in [
        ([AT_LEAST + 7, AT_MOST + 120], Answer::Found(2)),
        ([AT_MOST + 7, AT_LEAST + 120], Answer::Found(2)),
        ([AT_LEAST + 8, AT_MOST + 120], Answer::None),
        ([AT_LEAST + 7, AT_MOST + 119], Answer::None),
        ([AT_LEAST, AT_LEAST], Answer::Found(2)),
    ] {
        assert_eq!(look_for_one(&[7, 120], &template), answer, "{template:?}");
    }
    assert_eq!(look_for_one(&[7, 120], &[AT_LEAST + 7]), Answer::None);
}

#[test]
fn bounds_find_the_oldest_in_range() {
    let mut space = opening();
    for message in [10, 30, 20] {
        assert_eq!(put(&mut space, 0, HERE, &[message]), Answer::Done);
    }
    for (bound, message) in [
        (AT_LEAST + 11, 30),
        (AT_LEAST + 11, 20),
        (AT_MOST + LAST_MESSAGE, 10),
    ] {
        let (answer, result) = take(&mut space, 1, THERE, &[bound]);
        assert_eq!((answer, result[0]), (Answer::Found(1), message));
    }
    assert_eq!(space, opening());
}

#[test]
fn bounds_carry_no_name() {
    let mut space = opening_with_0(&[0, 2]);
    let before = space.clone();
    // Party 2 holds neither partition 5 nor key 4, which is stored as 35.
    for bound in [AT_LEAST + 5, AT_MOST + 5, AT_LEAST + 35, AT_MOST + 35] {
        let found = look(&mut space, 2, DEFAULT, &[bound]);
        assert_eq!(found, (Answer::None, [99; 8]));
    }
    assert_eq!(put(&mut space, 0, DEFAULT, &[5]), Answer::Done);
    let (answer, _) = take(&mut space, 2, DEFAULT, &[AT_MOST + 5]);
    assert_eq!(answer, Answer::Found(1));
    assert_eq!(space, before);
}

#[test]
fn bounds_in_puts_and_kinds_above() {
    let mut space = opening();
    for number in [0, 7, LAST_MESSAGE] {
        for bound in [AT_LEAST, AT_MOST] {
            let answer = put(&mut space, 0, DEFAULT, &[1, bound + number]);
            assert_eq!(answer, Answer::Refused(5));
        }
        for kind in [KIND_6, 7 << 32, 8 << 32, 260 << 32, 1 << 63] {
            let words = [1, kind + number];
            assert_eq!(put(&mut space, 0, DEFAULT, &words), Answer::Refused(5));
            let refused = (Answer::Refused(5), [99; 8]);
            assert_eq!(look(&mut space, 0, DEFAULT, &words), refused);
            assert_eq!(take(&mut space, 0, DEFAULT, &words), refused);
        }
    }
    assert_eq!(space, opening());
}

#[test]
fn row_with_a_bound_is_unsound() {
    for bound in [AT_LEAST, AT_MOST + 7, AT_MOST + LAST_MESSAGE, KIND_6] {
        let mut space = opening_with_0(&[0]);
        assert_eq!(put(&mut space, 0, DEFAULT, &[1, 2]), Answer::Done);
        assert_eq!(broken_clause(&space), None);
        space[row_start(0) + FIELDS + 1] = bound;
        assert_eq!(broken_clause(&space), Some(Clause::FieldWords));
        assert_eq!(put(&mut space, 0, DEFAULT, &[1]), Answer::Refused(1));
        let refused = (Answer::Refused(1), [99; 8]);
        assert_eq!(look(&mut space, 0, DEFAULT, &[1, WILDCARD]), refused);
        assert_eq!(take(&mut space, 0, DEFAULT, &[1, bound]), refused);
    }
}

#[test]
fn words_of_sets() {
    assert_eq!(set_of([5]), 32);
    assert_eq!(set_of([5, 9]), 544);
    assert_eq!(set_of([]), 0);
    assert_eq!(set_of(0..64), u64::MAX);
    for set in [0, 1, 32, 544, 1 << 63, u64::MAX, 0x8000_0001_0000_0001] {
        assert_eq!(set_of(partitions_of(set)), set);
    }
}

/// An opening in which parties 0 and 1 hold every partition and key, party 2 holds 0, 5 and 9, and
/// party 3 all but 9.
fn opening_for_sets() -> Vec<u64> {
    let mut roster = [0; 16];
    roster[..2].fill(u64::MAX);
    roster[2] = 545;
    roster[3] = u64::MAX - 512;
    roster[8..10].fill(u64::MAX >> 1);
    opened(&roster)
}

fn with_set(set: u64) -> Pair {
    Pair { set, key: 0 }
}

#[test]
fn sets_that_share_a_partition() {
    let sets: [&[u32]; 9] = [
        &[0],
        &[5],
        &[9],
        &[5, 9],
        &[0, 9, 63],
        &[31, 32],
        &[32, 63],
        &[63],
        &[1, 2, 3, 4],
    ];
    for entrys in sets {
        for templates in sets {
            let shared = entrys.iter().any(|partition| templates.contains(partition));
            let due = match shared {
                true => Answer::Found(1),
                false => Answer::None,
            };
            let [entry, template] = [entrys, templates].map(|set| set_of(set.iter().copied()));
            let mut space = opening_for_sets();
            let (read, take_pair) = (with_set(entry), with_set(u64::MAX));
            let put = Reference::correct().put(&mut space, 0, read, take_pair, &[7]);
            assert_eq!(put, Answer::Done);
            let found = look(&mut space, 1, with_set(template), &[7]).0;
            assert_eq!(found, due, "{entrys:?}, {templates:?}");
            // By the take pair every set shares a partition with that of all.
            let taken = take(&mut space, 1, with_set(template), &[7]).0;
            assert_eq!(taken, Answer::Found(1));
            let put = Reference::correct().put(&mut space, 0, take_pair, read, &[7]);
            assert_eq!(put, Answer::Done);
            let taken = take(&mut space, 1, with_set(template), &[7]).0;
            assert_eq!(taken, due, "{entrys:?}, {templates:?}");
        }
    }
}

#[test]
fn every_partition_of_a_set_is_held() {
    for (party, set, due) in [
        (2, 32, Answer::Done),
        (2, 512, Answer::Done),
        (2, 544, Answer::Done),
        (2, 545, Answer::Done),
        (2, 546, Answer::Refused(13)),
        (2, u64::MAX, Answer::Refused(13)),
        (2, 544 + (1 << 63), Answer::Refused(13)),
        (3, 544, Answer::Refused(13)),
        (3, u64::MAX - 512, Answer::Done),
        (3, u64::MAX, Answer::Refused(13)),
        (1, u64::MAX, Answer::Done),
    ] {
        let mut space = opening_for_sets();
        let mut reference = Reference::correct();
        for (read, take) in [(set, 1), (1, set), (set, set)] {
            let answer = reference.put(&mut space, party, with_set(read), with_set(take), &[7]);
            assert_eq!(answer, due, "{party}, {set}");
        }
        let none = match due {
            Answer::Done => Answer::None,
            refused => refused,
        };
        let (found, _) = look(&mut space, party, with_set(set), &[8]);
        assert_eq!(found, none, "{party}, {set}");
    }
}

#[test]
fn empty_sets_are_out_of_range() {
    let mut space = opening_for_sets();
    let before = space.clone();
    let mut reference = Reference::correct();
    for (read, take) in [(0, 1), (1, 0), (0, 0)] {
        // A bad field and a key that isn't held come after.
        let answer = reference.put(&mut space, 4, with_set(read), with_set(take), &[KIND_6]);
        assert_eq!(answer, Answer::Refused(4));
    }
    let refused = (Answer::Refused(4), [99; 8]);
    assert_eq!(look(&mut space, 4, with_set(0), &[KIND_6]), refused);
    assert_eq!(take(&mut space, 4, with_set(0), &[KIND_6]), refused);
    assert_eq!(space, before);
}

#[test]
fn row_with_an_empty_set_is_unsound() {
    for (place, clause) in [(READ_SET, Clause::ReadSet), (TAKE_SET, Clause::TakeSet)] {
        let mut space = opening_for_sets();
        assert_eq!(put(&mut space, 0, with_set(544), &[7]), Answer::Done);
        for sound in [1, 31, 64, 1 << 63, u64::MAX] {
            space[row_start(0) + place] = sound;
            assert_eq!(broken_clause(&space), None);
        }
        space[row_start(0) + place] = 0;
        assert_eq!(broken_clause(&space), Some(clause));
        let refused = (Answer::Refused(1), [99; 8]);
        assert_eq!(look(&mut space, 0, DEFAULT, &[7]), refused);
        assert_eq!(take(&mut space, 0, DEFAULT, &[7]), refused);
    }
}

/// With numbers of partitions in the place of sets, the rules' cases come out the same.
#[test]
fn single_partitions() {
    let mut by_numbers = Reference::with(Variant::SinglePartitions);
    let mut space = opening_with_0(&[1]);
    let pair = |set, key| Pair { set, key };
    let done = by_numbers.put(&mut space, 0, pair(5, 4), pair(5, 4), &[7, 120]);
    assert_eq!(done, Answer::Done);
    let mut find = |pair| {
        let query = Query {
            party: 1,
            pair,
            fields: &[7, WILDCARD],
        };
        by_numbers.find(Operation::Receive, &mut space, query, &mut [99; 8])
    };
    assert_eq!(find(pair(5, -4)), Answer::Found(2));
    assert_eq!(find(pair(0, -4)), Answer::None);
    assert_eq!(find(pair(9, -4)), Answer::Refused(13));
    assert_eq!(find(pair(5, 4)), Answer::Refused(14));
    assert_eq!(find(pair(64, -4)), Answer::Refused(4));
    assert_eq!(space[row_start(0) + READ_SET], 5);
}
