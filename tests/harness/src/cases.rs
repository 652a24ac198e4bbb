//! The rules' cases, the examples of their refusals, a case of looks, one of bounds, one of sets, one
//! of names that aren't held, one of partition 0 and one of openings, with answers and words written
//! by hand.

use crate::call::{answer_text, is_refusal, Call, Kind, Query};
use crate::report::Report;
use crate::space::Space;
use reference::{Operation, Pair};

const WILDCARD: u64 = 12_884_901_888;
const PARTITION_0: u64 = 4_294_967_296;
const PARTITION_5: u64 = 4_294_967_301;
const KEY_4: u64 = 8_589_934_627;
/// The words of the kinds 4 to 6 with the number 0.
const AT_LEAST: u64 = 17_179_869_184;
const AT_MOST: u64 = 21_474_836_480;
const KIND_6: u64 = 25_769_803_776;
const LAST_MESSAGE: u64 = 4_294_967_295;
const REFUSED: u32 = 100;

/// A pair with the set of one partition.
const fn pair(partition: u32, key: i32) -> Pair {
    under(1 << partition, key)
}

const fn under(set: u64, key: i32) -> Pair {
    Pair { set, key }
}

fn put(party: u32, pair: Pair, fields: &[u64]) -> Call {
    Call::Put {
        party,
        read: pair,
        take: pair,
        fields: fields.to_vec(),
    }
}

fn query(party: u32, pair: Pair, fields: &[u64]) -> Query {
    Query {
        party,
        pair,
        fields: fields.to_vec(),
        result_len: 8,
    }
}

fn look(party: u32, pair: Pair, fields: &[u64]) -> Call {
    Call::Find(Operation::Look, query(party, pair, fields))
}

fn receive(party: u32, pair: Pair, fields: &[u64]) -> Call {
    Call::Find(Operation::Receive, query(party, pair, fields))
}

fn take(party: u32, pair: Pair, fields: &[u64]) -> Call {
    Call::Find(Operation::Take, query(party, pair, fields))
}

/// A call with less room for the result than its fields need.
fn with_short_result(operation: Operation, pair: Pair, fields: &[u64]) -> Call {
    let query = Query {
        result_len: fields.len() - 1,
        ..query(0, pair, fields)
    };
    Call::Find(operation, query)
}

/// A call, its answer and the fields it finds.
type Step = (Call, u32, Vec<u64>);

fn step(call: Call, answer: u32) -> Step {
    (call, answer, Vec::new())
}

fn finds(call: Call, fields: &[u64]) -> Step {
    (call, fields.len() as u32, fields.to_vec())
}

/// A case: its name, the parties that have partition 0 besides what the opening of the rules' cases
/// gives, and its steps.
type Case = (&'static str, &'static [usize], Vec<Step>);

/// The rules' own.
fn cases() -> Vec<Case> {
    let all = [WILDCARD, WILDCARD];
    let sixteen = (0..16).map(|_| step(put(0, pair(5, 4), &[1]), 0));
    let after_sixteen = [
        step(put(0, pair(5, 4), &[1]), REFUSED + 8),
        finds(take(1, pair(5, -4), &[1]), &[1]),
        step(put(0, pair(5, 4), &[1]), 0),
    ];
    vec![
        (
            "a to e",
            &[],
            vec![
                step(put(0, pair(5, 4), &[7, 120]), 0),
                finds(receive(1, pair(5, -4), &[7, WILDCARD]), &[7, 120]),
                step(take(0, pair(5, -4), &all), REFUSED + 14),
                finds(take(1, pair(5, -4), &all), &[7, 120]),
                step(receive(1, pair(5, -4), &all), 0),
            ],
        ),
        (
            "i",
            &[],
            vec![
                step(put(0, pair(5, 4), &[1]), 0),
                step(put(0, pair(5, 4), &[2]), 0),
                finds(take(1, pair(5, -4), &[WILDCARD]), &[1]),
            ],
        ),
        ("j", &[], sixteen.chain(after_sixteen).collect()),
        (
            "k, with the words of g and h",
            &[0, 2],
            vec![
                step(put(0, pair(0, 0), &[PARTITION_5, KEY_4]), 0),
                step(put(2, pair(5, 4), &[1]), REFUSED + 13),
                finds(receive(2, pair(0, 0), &all), &[PARTITION_5, KEY_4]),
                step(put(2, pair(5, 4), &[1]), 0),
                step(put(2, pair(5, -4), &[1]), REFUSED + 14),
            ],
        ),
        ("l", &[], vec![step(put(8, pair(0, 0), &[]), REFUSED + 2)]),
        (
            "examples of the refusals",
            &[],
            vec![
                step(put(8, pair(0, 0), &[1]), REFUSED + 2),
                step(put(0, pair(0, 0), &[1; 9]), REFUSED + 3),
                step(put(0, pair(0, -32), &[1]), REFUSED + 4),
                step(put(0, pair(0, 0), &[WILDCARD]), REFUSED + 5),
                step(receive(0, pair(9, -4), &[1]), REFUSED + 13),
                step(look(0, pair(5, -4), &[1]), REFUSED + 14),
                step(put(0, pair(5, 4), &[KEY_4 + 1]), REFUSED + 7),
                step(
                    with_short_result(Operation::Receive, HELD, &[1, 2]),
                    REFUSED + 6,
                ),
                step(
                    Call::Open {
                        roster: vec![0; 15],
                    },
                    REFUSED + 9,
                ),
            ],
        ),
    ]
}

/// What looks find, and that they give no name.
fn looks() -> Vec<Step> {
    let defaults = pair(0, 0);
    let names = [PARTITION_5, KEY_4];
    let all = [WILDCARD, WILDCARD];
    let short_look = |pair, field| with_short_result(Operation::Look, pair, &[field, 1]);
    let by_two_pairs = Call::Put {
        party: 0,
        read: pair(5, 4),
        take: defaults,
        fields: vec![1],
    };
    vec![
        step(look(2, defaults, &all), 0),
        step(put(0, defaults, &names), 0),
        step(put(0, defaults, &[7, 120]), 0),
        finds(look(2, defaults, &all), &names),
        finds(look(2, defaults, &[7, WILDCARD]), &[7, 120]),
        step(put(2, pair(5, 0), &[1]), REFUSED + 13),
        step(put(2, pair(0, 4), &[1]), REFUSED + 14),
        step(look(2, defaults, &names), REFUSED + 7),
        finds(receive(2, defaults, &all), &names),
        step(put(2, pair(5, 4), &[1]), 0),
        finds(look(2, defaults, &names), &names),
        finds(take(1, defaults, &all), &names),
        finds(look(2, defaults, &all), &[7, 120]),
        finds(take(1, pair(5, -4), &[1]), &[1]),
        // Looks and receives go by the read pair, only takes by the other.
        step(by_two_pairs, 0),
        finds(look(1, pair(5, -4), &[1]), &[1]),
        step(look(1, defaults, &[1]), 0),
        finds(receive(1, pair(5, -4), &[1]), &[1]),
        step(receive(1, defaults, &[1]), 0),
        step(take(1, pair(5, -4), &[1]), 0),
        finds(take(1, defaults, &[1]), &[1]),
        step(look(1, pair(5, -4), &[1]), 0),
        step(look(8, under(0, 0), &[]), REFUSED + 2),
        step(look(0, under(0, 0), &[1; 9]), REFUSED + 3),
        step(look(0, pair(0, -32), &[KIND_6]), REFUSED + 4),
        step(look(0, pair(9, -4), &[KIND_6]), REFUSED + 5),
        step(short_look(LACKING_BOTH, KEY_5), REFUSED + 13),
        step(short_look(LACKING_KEY, KEY_5), REFUSED + 14),
        step(short_look(HELD, KEY_5), REFUSED + 7),
        step(short_look(HELD, KEY_4), REFUSED + 6),
    ]
}

/// Picks by bounds: entries of messages, then entries of names.
fn bounds() -> Vec<Step> {
    let there = pair(5, -4);
    let pick = |words: &[u64], fields: &[u64]| finds(look(1, there, words), fields);
    let miss = |words: &[u64]| step(receive(1, there, words), 0);
    vec![
        step(put(0, pair(5, 4), &[7, 100]), 0),
        step(put(0, pair(5, 4), &[7, 200]), 0),
        step(put(0, pair(5, 4), &[7, LAST_MESSAGE]), 0),
        pick(&[7, AT_LEAST], &[7, 100]),
        pick(&[7, AT_LEAST + 100], &[7, 100]),
        pick(&[7, AT_LEAST + 101], &[7, 200]),
        pick(&[7, AT_LEAST + LAST_MESSAGE], &[7, LAST_MESSAGE]),
        miss(&[7, AT_MOST]),
        miss(&[7, AT_MOST + 99]),
        pick(&[7, AT_MOST + 100], &[7, 100]),
        pick(&[AT_LEAST + 7, AT_MOST + LAST_MESSAGE], &[7, 100]),
        miss(&[AT_LEAST + 8, AT_MOST + LAST_MESSAGE]),
        finds(take(1, there, &[AT_MOST + 7, AT_LEAST + 200]), &[7, 200]),
        pick(&[7, AT_LEAST + 101], &[7, LAST_MESSAGE]),
        step(put(0, pair(5, 4), &[7, AT_LEAST + 7]), REFUSED + 5),
        step(put(0, pair(5, 4), &[AT_MOST + 7, 7]), REFUSED + 5),
        step(receive(1, there, &[7, KIND_6]), REFUSED + 5),
        step(put(0, pair(0, 0), &[PARTITION_5]), 0),
        step(put(0, pair(0, 0), &[KEY_4]), 0),
        step(receive(1, pair(0, 0), &[AT_LEAST]), 0),
        step(take(1, pair(0, 0), &[AT_MOST + LAST_MESSAGE]), 0),
        finds(take(1, pair(0, 0), &[WILDCARD]), &[PARTITION_5]),
        finds(take(1, pair(0, 0), &[WILDCARD]), &[KEY_4]),
        // Nobody has to hold anything for a bound: party 2 doesn't hold partition 5.
        step(look(2, pair(0, 0), &[AT_MOST + 5]), 0),
        step(receive(2, pair(0, 0), &[AT_LEAST + 5]), 0),
    ]
}

/// Sets of several partitions: {0, 5} is 33, {0, 1, 5} is 35.
fn sets() -> Vec<Step> {
    let (both, one_more) = (33, 35);
    let by_two_sets = |read, take, fields: &[u64]| Call::Put {
        party: 0,
        read: under(read, 4),
        take: under(take, 4),
        fields: fields.to_vec(),
    };
    let last = 1 << 63;
    vec![
        step(put(0, under(both, 4), &[1]), 0),
        finds(look(1, pair(5, -4), &[1]), &[1]),
        finds(look(1, pair(0, -4), &[1]), &[1]),
        finds(receive(1, under(both, -4), &[1]), &[1]),
        finds(take(1, pair(0, -4), &[1]), &[1]),
        step(put(0, pair(5, 4), &[2]), 0),
        finds(look(1, under(both, -4), &[2]), &[2]),
        step(look(1, pair(0, -4), &[2]), 0),
        finds(take(1, under(both, -4), &[2]), &[2]),
        // Every partition of a set is held, or the call is refused.
        step(put(0, under(one_more, 4), &[3]), REFUSED + 13),
        step(by_two_sets(both, one_more, &[3]), REFUSED + 13),
        step(by_two_sets(last + both, both, &[3]), REFUSED + 13),
        step(look(1, under(one_more, -4), &[3]), REFUSED + 13),
        step(receive(1, under(last + both, -4), &[3]), REFUSED + 13),
        step(take(1, under(u64::MAX, -4), &[3]), REFUSED + 13),
        // The empty set, before a bad field.
        step(put(0, under(0, 4), &[KIND_6]), REFUSED + 4),
        step(by_two_sets(0, both, &[KIND_6]), REFUSED + 4),
        step(by_two_sets(both, 0, &[KIND_6]), REFUSED + 4),
        step(look(1, under(0, -4), &[KIND_6]), REFUSED + 4),
        step(receive(1, under(0, -4), &[KIND_6]), REFUSED + 4),
        step(take(1, under(0, -4), &[KIND_6]), REFUSED + 4),
        // Looks and receives go by the set for reading, takes by the other.
        step(by_two_sets(1, 32, &[4]), 0),
        step(look(1, pair(5, -4), &[4]), 0),
        finds(look(1, under(both, -4), &[4]), &[4]),
        step(take(1, pair(0, -4), &[4]), 0),
        finds(take(1, under(both, -4), &[4]), &[4]),
        // A pair gives no name: party 2 doesn't hold partition 5 afterwards.
        step(put(0, under(both, 0), &[5]), 0),
        finds(receive(2, pair(0, 0), &[5]), &[5]),
        step(look(2, pair(5, 0), &[5]), REFUSED + 13),
        finds(take(2, pair(0, 0), &[5]), &[5]),
        step(look(2, under(both, 0), &[5]), REFUSED + 13),
    ]
}

/// Pairs with names that party 0 doesn't hold, and words of such names: in the opening it has
/// partition 5 and key 4.
const HELD: Pair = pair(5, 4);
const LACKING_SET: Pair = under(544, 4);
const LACKING_KEY: Pair = pair(5, -4);
const LACKING_BOTH: Pair = pair(9, -4);
const PARTITION_9: u64 = PARTITION_5 + 4;
const KEY_5: u64 = KEY_4 + 1;

/// Puts that are refused for them, or before.
fn puts_without_names() -> Vec<Step> {
    let puts = [
        (LACKING_SET, HELD, 1, 13),
        (HELD, LACKING_SET, 1, 13),
        (LACKING_KEY, HELD, 1, 14),
        (HELD, LACKING_KEY, 1, 14),
        (HELD, HELD, PARTITION_9, 7),
        (HELD, HELD, KEY_5, 7),
        (LACKING_KEY, LACKING_SET, 1, 13),
        (LACKING_SET, LACKING_KEY, 1, 13),
        (LACKING_BOTH, HELD, KEY_5, 13),
        (HELD, LACKING_BOTH, PARTITION_9, 13),
        (HELD, LACKING_KEY, PARTITION_9, 14),
        (LACKING_KEY, HELD, KEY_5, 14),
        (LACKING_KEY, LACKING_SET, KIND_6, 5),
    ];
    let step_of = |(read, take, field, due)| {
        let call = Call::Put {
            party: 0,
            read,
            take,
            fields: vec![1, field],
        };
        step(call, REFUSED + due)
    };
    puts.map(step_of).to_vec()
}

/// The same of looks, receives and takes, for the two fields with two result words, one and none.
fn finds_without_names() -> Vec<Step> {
    let finds = [
        (LACKING_SET, 1, 13),
        (LACKING_SET, PARTITION_9, 13),
        (LACKING_BOTH, 1, 13),
        (LACKING_BOTH, KEY_5, 13),
        (LACKING_KEY, 1, 14),
        (LACKING_KEY, PARTITION_9, 14),
        (HELD, KEY_5, 7),
        (HELD, PARTITION_9, 7),
        (LACKING_BOTH, KIND_6, 5),
        (HELD, KIND_6, 5),
    ];
    let lent = finds.map(|(pair, field, due)| [0, 1, 2].map(|lent| (pair, field, lent, due)));
    // With nothing else that is lacking.
    let short = [0, 1].map(|lent| (HELD, 1, lent, 6));
    let operations = [Operation::Look, Operation::Receive, Operation::Take];
    let finds = lent.into_iter().flatten().chain(short);
    let steps = finds.flat_map(|(pair, field, result_len, due)| {
        operations.map(|operation| {
            let query = Query {
                result_len,
                ..query(0, pair, &[WILDCARD, field])
            };
            step(Call::Find(operation, query), REFUSED + due)
        })
    });
    steps.collect()
}

/// Names that aren't held; for the puts a second time with sixteen live entries.
fn missing_names() -> Vec<Step> {
    let sixteen = vec![step(put(0, HELD, &[1]), 0); 16];
    let one_more = vec![step(put(0, HELD, &[1]), REFUSED + 8)];
    [
        puts_without_names(),
        finds_without_names(),
        sixteen,
        one_more,
        puts_without_names(),
    ]
    .concat()
}

/// Partition 0 where only party 0 has it: it is used and carried as any other is.
fn partition_0() -> Vec<Step> {
    let (zero, both, there) = (pair(0, 0), under(33, -4), pair(5, -4));
    let by_two_sets = |read, take| Call::Put {
        party: 1,
        read,
        take,
        fields: vec![1],
    };
    vec![
        // Party 1 has partition 5, and party 2 has none.
        step(put(1, zero, &[1]), REFUSED + 13),
        step(put(1, both, &[1]), REFUSED + 13),
        step(by_two_sets(there, pair(0, -4)), REFUSED + 13),
        step(by_two_sets(pair(0, -4), there), REFUSED + 13),
        step(look(1, zero, &[1]), REFUSED + 13),
        step(receive(1, both, &[1]), REFUSED + 13),
        step(take(1, zero, &[1]), REFUSED + 13),
        step(take(1, pair(0, 4), &[PARTITION_0]), REFUSED + 13),
        step(put(1, there, &[PARTITION_0]), REFUSED + 7),
        step(look(1, there, &[PARTITION_0]), REFUSED + 7),
        step(take(2, zero, &[1]), REFUSED + 13),
        step(put(0, zero, &[1]), 0),
        finds(look(0, zero, &[1]), &[1]),
        step(put(0, pair(5, 4), &[PARTITION_0]), 0),
        // A look at it gives nothing, a receive gives it.
        finds(look(1, there, &[WILDCARD]), &[PARTITION_0]),
        step(look(1, zero, &[1]), REFUSED + 13),
        finds(receive(1, there, &[WILDCARD]), &[PARTITION_0]),
        finds(look(1, zero, &[1]), &[1]),
        finds(take(1, both, &[PARTITION_0]), &[PARTITION_0]),
        finds(take(1, zero, &[1]), &[1]),
        step(look(2, zero, &[1]), REFUSED + 13),
    ]
}

/// The same, handed on by a take.
fn partition_0_taken() -> Vec<Step> {
    let (zero, there) = (pair(0, 0), pair(5, -4));
    vec![
        step(put(0, pair(5, 4), &[PARTITION_0]), 0),
        finds(take(1, there, &[WILDCARD]), &[PARTITION_0]),
        step(put(1, zero, &[1]), 0),
        finds(take(0, zero, &[WILDCARD]), &[1]),
    ]
}

/// The roster of the rules' cases: partition 5 for both, key 4 for 0 and -4 for 1; and partition 0
/// for these parties.
fn roster(with_0: &[usize]) -> [u64; 16] {
    let mut roster = [0; 16];
    roster[0] = 1 << 5;
    roster[1] = 1 << 5;
    roster[8] = 1 << 35;
    roster[9] = 1 << 27;
    for party in with_0 {
        roster[*party] |= 1;
    }
    roster
}

fn opened(system: &mut dyn Space, roster: &[u64]) -> Vec<u64> {
    let mut space = vec![u64::MAX; 1_809];
    system.open(&mut space, roster);
    space
}

/// Words 1 to 16 after an opening by these rosters; all others are 0. Key 0 is bit 31.
fn openings(system: &mut dyn Space) -> Result<String, String> {
    let key_0 = 2_147_483_648;
    let mut of_zeros = [0; 16];
    of_zeros[8..].fill(key_0);
    let mut of_cases = of_zeros;
    of_cases[..3].copy_from_slice(&[33, 32, 1]);
    of_cases[8..10].copy_from_slice(&[36_507_222_016, 2_281_701_376]);
    let mut all = [u64::MAX; 16];
    all[8..].fill(u64::MAX >> 1);
    let rosters = [
        ([0; 16], of_zeros),
        // With key 0 listed.
        (of_zeros, of_zeros),
        (roster(&[0, 2]), of_cases),
        (all, all),
    ];
    for (roster, due) in &rosters {
        let space = opened(system, roster);
        let others = [&space[..1], &space[17..]].concat();
        if space[1..17] != *due || others.iter().any(|word| *word != 0) {
            return Err(format!("{roster:?}: {:?}, due is {due:?}", &space[1..17]));
        }
    }
    Ok(format!("openings as due: {}", rosters.len()))
}

/// A look of party 1 at an opened space with partition 0 taken out of each word and of all, and with
/// key 0 taken out of each.
fn holdings_words(system: &mut dyn Space) -> Result<String, String> {
    let mut answers = Vec::new();
    let everybody = [0, 1, 2, 3, 4, 5, 6, 7];
    let sound = opened(system, &roster(&everybody));
    let there = look(1, pair(5, -4), &[WILDCARD]);
    let mut answer =
        |space: &[u64]| there.make(system, &mut space.to_vec(), there.input(), &mut [0]);
    let mut nobodys = sound.clone();
    for party in everybody {
        nobodys[1 + party] &= !1;
        let mut without_partition = sound.clone();
        without_partition[1 + party] &= !1;
        let mut without_key = sound.clone();
        without_key[9 + party] &= !(1 << 31);
        answers.extend([(answer(&without_partition), 0), (answer(&nobodys), 0)]);
        answers.push((answer(&without_key), REFUSED + 1));
    }
    match answers.iter().all(|(got, due)| got == due) {
        true => Ok(format!("looks as due: {}", answers.len())),
        false => Err(format!("answers and what is due: {answers:?}")),
    }
}

fn run_case(system: &mut dyn Space, with_0: &[usize], steps: &[Step]) -> Result<String, String> {
    let mut space = opened(system, &roster(with_0));
    for (call, answer, fields) in steps {
        let before = space.clone();
        let mut result = vec![99; call.result_len()];
        let got = call.make(system, &mut space, call.input(), &mut result);
        let mut expected = vec![99; call.result_len()];
        expected[..fields.len()].copy_from_slice(fields);
        if got != *answer || result != expected {
            let (got, due) = (
                answer_text(call.kind(), got),
                answer_text(call.kind(), *answer),
            );
            return Err(format!(
                "{call:?}: {got} {result:?}, due is {due} {expected:?}"
            ));
        }
        if (call.kind() == Kind::LOOK || is_refusal(got)) && space != before {
            return Err(format!("{call:?}: the space has changed"));
        }
    }
    Ok(format!("calls as due: {}", steps.len()))
}

/// Runs each case.
pub fn check(report: &mut Report, who: &str, system: &mut dyn Space) {
    let of_ours: [Case; 6] = [
        ("of looks", &[0, 1, 2], looks()),
        ("of bounds", &[0, 1, 2], bounds()),
        ("of sets", &[0, 1, 2], sets()),
        ("of names that aren't held", &[], missing_names()),
        ("of partition 0", &[0], partition_0()),
        ("of partition 0 taken", &[0], partition_0_taken()),
    ];
    for (name, with_0, steps) in cases().into_iter().chain(of_ours) {
        let outcome = run_case(system, with_0, &steps);
        report.check(&format!("case {name}, {who}"), outcome);
    }
    report.check(&format!("case of openings, {who}"), openings(system));
    let words = holdings_words(system);
    report.check(&format!("case of words without the defaults, {who}"), words);
}
