//! Lists of pairs for a start order, as the words of a call.

use crate::files::Sort;
use crate::rng::Rng;
use reference::order::Before;

/// No list is longer.
pub const LONGEST_LIST: usize = 65_600;

/// All sorts. Those with the most lists come last.
pub fn sorts() -> Vec<Sort<Vec<u64>>> {
    vec![
        Sort::listed("many pairs", long_lists()),
        Sort::random("any words", 500, any_words),
        Sort::listed("each party above 7 in each half", with_one_above()),
        Sort::random("64 pairs or about as many", 1_500, about_64),
        Sort::random("a party above 7 anywhere", 2_000, with_some_above),
        Sort::random("0 to 66 pairs", 2_000, any_number),
        Sort::random("few pairs", 3_000, few),
        Sort::random("pairs along an order", 3_000, along_an_order),
        Sort::random("pairs along an order but one", 3_000, against_an_order),
        Sort::random("a circle and pairs around it", 4_000, around_a_circle),
        Sort::listed("every pair before every other", pairs_of_pairs()),
        Sort::listed("all of up to four pairs of 0, 1 and 2", of_three([0, 1, 2])),
        Sort::listed("all of up to four pairs of 7, 3 and 0", of_three([7, 3, 0])),
    ]
}

pub fn word(first: u64, second: u64) -> u64 {
    Before { first, second }.word()
}

fn of_three(parties: [u64; 3]) -> Vec<Vec<u64>> {
    let pairs: Vec<u64> = parties
        .iter()
        .flat_map(|first| parties.map(|second| word(*first, second)))
        .collect();
    let mut all = vec![Vec::new()];
    let mut longest = all.clone();
    for _ in 0..4 {
        longest = longest
            .iter()
            .flat_map(|list| pairs.iter().map(move |pair| [&list[..], &[*pair]].concat()))
            .collect();
        all.extend(longest.clone());
    }
    all
}

fn every_pair() -> Vec<u64> {
    let parties = 0..8;
    let with_first = |first| parties.clone().map(move |second| word(first, second));
    parties.clone().flat_map(with_first).collect()
}

fn pairs_of_pairs() -> Vec<Vec<u64>> {
    let alone = every_pair().into_iter().map(|pair| vec![pair]);
    let first = every_pair().into_iter();
    let both = first.flat_map(|first| every_pair().into_iter().map(move |pair| vec![first, pair]));
    alone.chain(both).collect()
}

fn party(rng: &mut Rng) -> u64 {
    rng.below(8) as u64
}

fn some_pair(rng: &mut Rng) -> u64 {
    word(party(rng), party(rng))
}

/// Any pair of two parties.
fn pair_of_two(rng: &mut Rng) -> u64 {
    let first = party(rng);
    word(first, (first + rng.between(1, 7) as u64) % 8)
}

/// Few pairs, seldom of a party with itself, so that an order comes up as well as a circle.
fn few(rng: &mut Rng) -> Vec<u64> {
    let count = rng.below(13);
    (0..count)
        .map(|_| match rng.percent(3) {
            true => some_pair(rng),
            false => pair_of_two(rng),
        })
        .collect()
}

fn any_number(rng: &mut Rng) -> Vec<u64> {
    let count = rng.below(67);
    (0..count).map(|_| some_pair(rng)).collect()
}

/// Parties in a random order.
fn some_order(rng: &mut Rng) -> [u64; 8] {
    let mut order = [0, 1, 2, 3, 4, 5, 6, 7];
    rng.shuffle(&mut order);
    order
}

/// A pair that respects the order.
fn pair_along(rng: &mut Rng, order: &[u64; 8]) -> u64 {
    let later = rng.between(1, 7);
    word(order[rng.below(later)], order[later])
}

fn pairs_along(rng: &mut Rng, order: &[u64; 8], count: usize) -> Vec<u64> {
    let next_to = rng.percent(20);
    (0..count)
        .map(|_| match next_to {
            true => {
                let place = rng.below(7);
                word(order[place], order[place + 1])
            }
            false => pair_along(rng, order),
        })
        .collect()
}

/// Pairs that respect an order, sparse or dense, some of them more than once.
pub fn along_an_order(rng: &mut Rng) -> Vec<u64> {
    let order = some_order(rng);
    let count = rng.pick(&[1, 2, 4, 7, 10, 16, 30, 50, 63, 64]);
    let mut pairs = pairs_along(rng, &order, count);
    if rng.percent(30) {
        let place = rng.below(pairs.len());
        let again = pairs[rng.below(pairs.len())];
        pairs[place] = again;
    }
    pairs
}

/// The same, with one pair that doesn't: it may make a circle.
pub fn against_an_order(rng: &mut Rng) -> Vec<u64> {
    let mut pairs = along_an_order(rng);
    pairs.truncate(63);
    pairs.insert(rng.below(pairs.len() + 1), some_pair(rng));
    pairs
}

/// A circle of any length, with parties before it and after it that lie on none.
pub fn around_a_circle(rng: &mut Rng) -> Vec<u64> {
    let order = some_order(rng);
    let length = rng.between(1, 8);
    let first = rng.below(9 - length);
    let on_circle = &order[first..first + length];
    let mut pairs: Vec<u64> = (0..length)
        .map(|place| word(on_circle[place], on_circle[(place + 1) % length]))
        .collect();
    let outside = |place: usize| !(first..first + length).contains(&place);
    for _ in 0..rng.pick(&[0, 1, 3, 8, 20]) {
        let later = rng.between(1, 7);
        let earlier = rng.below(later);
        if outside(later) || outside(earlier) {
            pairs.push(word(order[earlier], order[later]));
        }
    }
    rng.shuffle(&mut pairs);
    pairs
}

/// Around the limit: the last pair decides, or one above 7 is among them, or all are the same.
fn about_64(rng: &mut Rng) -> Vec<u64> {
    let count = rng.pick(&[62, 63, 63, 64, 64, 64, 65, 65, 66]);
    let order = some_order(rng);
    let mut pairs = match rng.below(4) {
        0 => vec![pair_along(rng, &order); count],
        1 => (0..count).map(|_| some_pair(rng)).collect(),
        _ => pairs_along(rng, &order, count),
    };
    let place = rng.pick(&[0, count - 1, rng.clone().below(count)]);
    match rng.below(4) {
        0 => pairs[place] = some_pair(rng),
        1 => pairs[place] = pair_above(rng),
        _ => {}
    }
    pairs
}

/// Parties that there aren't, and some of what is left of them in fewer bits is a party.
const ABOVE: [u64; 17] = [
    8,
    9,
    15,
    16,
    255,
    256,
    263,
    32_768,
    65_535,
    65_536,
    65_539,
    (1 << 31) - 1,
    1 << 31,
    (1 << 31) + 3,
    (1 << 32) - 8,
    (1 << 32) - 2,
    (1 << 32) - 1,
];

fn pair_above(rng: &mut Rng) -> u64 {
    let above = rng.pick(&ABOVE);
    let pairs = [
        word(above, party(rng)),
        word(party(rng), above),
        word(above, above),
    ];
    rng.pick(&pairs)
}

/// Alone, and first, last and in the middle among others.
fn with_one_above() -> Vec<Vec<u64>> {
    let mut lists = Vec::new();
    for above in ABOVE {
        let with_party = |party| [word(above, party), word(party, above)];
        let mut pairs: Vec<u64> = (0..8).flat_map(with_party).collect();
        pairs.push(word(above, above));
        for pair in pairs {
            let others = [word(0, 1), word(5, 2)];
            lists.extend([
                vec![pair],
                [&[pair][..], &others].concat(),
                [&others[..], &[pair]].concat(),
                [others[0], pair, others[1]].to_vec(),
                [&others[..1].repeat(63), &[pair][..]].concat(),
            ]);
        }
    }
    lists
}

fn with_some_above(rng: &mut Rng) -> Vec<u64> {
    let mut pairs = few(rng);
    loop {
        pairs.insert(rng.below(pairs.len() + 1), pair_above(rng));
        if rng.percent(70) {
            return pairs;
        }
    }
}

fn any_words(rng: &mut Rng) -> Vec<u64> {
    let count = rng.below(67);
    let small = rng.percent(50);
    (0..count)
        .map(|_| match small {
            // In each half a party, or hardly one.
            true => rng.word() & 0x0000_000F_0000_000F,
            false => rng.word(),
        })
        .collect()
}

/// So many pairs that what is left of the count in fewer bits is small.
fn long_lists() -> Vec<Vec<u64>> {
    let mut lists = Vec::new();
    for count in [128, 255, 256, 257, 320, 1_024, 65_536, 65_537, LONGEST_LIST] {
        for pair in [word(7, 0), word(3, 3), word(8, 0)] {
            lists.push(vec![pair; count]);
        }
    }
    lists
}

#[cfg(test)]
mod tests {
    use super::*;

    fn answer(pairs: &[u64]) -> u32 {
        reference::start_order(pairs, &mut [0; 8])
    }

    #[test]
    fn all_lists_are_there() {
        let mut lists = of_three([0, 1, 2]);
        assert_eq!(lists.len(), 1 + 9 + 81 + 729 + 6_561);
        lists.sort_unstable();
        lists.dedup();
        assert_eq!(lists.len(), 7_381);
        assert_eq!(pairs_of_pairs().len(), 64 + 64 * 64);
    }

    #[test]
    fn makes_are_what_they_say() {
        for run in 0..500 {
            let mut rng = Rng::new(1, run);
            assert_eq!(answer(&along_an_order(&mut rng)), 0);
            assert!(matches!(answer(&around_a_circle(&mut rng)), 1..=8));
            assert_eq!(answer(&with_some_above(&mut rng)), 116);
            assert!(answer(&against_an_order(&mut rng)) <= 8);
        }
        for list in with_one_above() {
            assert_eq!(answer(&list), 116);
        }
        for list in long_lists() {
            assert_eq!(answer(&list), 115);
            assert!(list.len() <= LONGEST_LIST);
        }
    }
}
