//! Start orders: pairs of parties, of which one is to be started before the other, make an order of
//! all eight, or hold a circle. As the call for C, and as the program that reads a file of pairs.

use crate::lines::{natural, Fault, Format};
use crate::names::PARTIES;
use crate::order_variant::OrderVariant;

/// The most pairs that are taken.
pub const MOST_PAIRS: usize = 64;
/// The most bytes that are read.
pub const LONGEST_FILE: usize = 4_096;
/// The first line of every file that is read.
pub const ORDER_NAMES: &str = "before after";

const FORMAT: Format = Format {
    names: ORDER_NAMES,
    longest: LONGEST_FILE,
    items: 2,
};
/// The party that comes first is worth this much in a pair's word.
const UPPER_HALF: u64 = 4_294_967_296;

/// What the program prints for a file.
pub fn order(input: &[u8]) -> Vec<u8> {
    StartOrder::correct().print(input)
}

/// The call for C: either it answers 0 and the first eight words are the order, or it answers with
/// a party on a circle or a refusal and all words stay as they are.
pub fn start_order(pairs: &[u64], result: &mut [u64]) -> u32 {
    StartOrder::correct().call(pairs, result)
}

/// One party is to be started before another. They may be above 7, or the same.
#[derive(Clone, Copy, Debug, PartialEq, Eq)]
pub struct Before {
    pub first: u64,
    pub second: u64,
}

impl Before {
    /// The pair that a word stands for.
    pub fn from_word(word: u64) -> Before {
        Before {
            first: word / UPPER_HALF,
            second: word % UPPER_HALF,
        }
    }

    /// The word of a pair, both of whose parties have 32 bits.
    pub fn word(self) -> u64 {
        self.first * UPPER_HALF + self.second
    }

    /// As a line without its line feed.
    pub fn text(self) -> String {
        format!("{} {}", self.first, self.second)
    }
}

/// What comes of pairs that aren't refused.
#[derive(Clone, Debug, PartialEq, Eq)]
pub enum Outcome {
    /// All parties, in the order in which they are to be started.
    Order(Vec<u64>),
    /// The smallest party that lies on a circle.
    Circle(u64),
}

/// The reference, right or with a blunder.
#[derive(Clone, Copy, Debug)]
pub struct StartOrder {
    variant: OrderVariant,
}

impl StartOrder {
    pub fn correct() -> StartOrder {
        StartOrder::with(OrderVariant::Correct)
    }

    pub fn with(variant: OrderVariant) -> StartOrder {
        StartOrder { variant }
    }

    /// What the program prints for a file.
    pub fn print(self, file: &[u8]) -> Vec<u8> {
        let read = self.read(file);
        let outcome = read.and_then(|pairs| self.decide(&pairs));
        let line = match &outcome {
            Ok(Outcome::Order(order)) => {
                let parties: Vec<String> = order.iter().map(u64::to_string).collect();
                format!("order {}", parties.join(" "))
            }
            Ok(Outcome::Circle(party)) => format!("circle {party}"),
            Err(fault) => format!("no{}", fault.number()),
        };
        let line = self.variant.printed_slip(format!("{line}\n"), &outcome);
        line.into_bytes()
    }

    /// Decides about the pairs of these words, and writes an order into the lent ones.
    pub fn call(self, words: &[u64], result: &mut [u64]) -> u32 {
        let pairs: Vec<Before> = words
            .iter()
            .map(|word| self.variant.halves_slip(Before::from_word(*word)))
            .collect();
        let outcome = match self.variant.takes_words(result.len()) {
            true => self.decide(&pairs),
            false => {
                let slip = self.variant.room_slip(|| self.decide(&pairs));
                slip.unwrap_or(Err(Fault::ResultWords))
            }
        };
        self.variant.write_slip(&outcome, &pairs, result);
        match outcome {
            Ok(Outcome::Order(order)) => {
                for (lent, party) in result.iter_mut().zip(order) {
                    *lent = party;
                }
                0
            }
            Ok(Outcome::Circle(party)) => self.variant.circle_answer(party),
            Err(fault) => 100 + fault.number(),
        }
    }

    /// The pairs of a file. Every line is read before anything else is tested.
    pub fn read(self, file: &[u8]) -> Result<Vec<Before>, Fault> {
        let lines = self.lines(file)?;
        if let Some(fault) = self.variant.fault_slip(&lines, file.len()) {
            return Err(fault);
        }
        lines.into_iter().collect()
    }

    /// What each line after the names line says, or its fault.
    pub fn lines(self, file: &[u8]) -> Result<Vec<Result<Before, Fault>>, Fault> {
        let lines = FORMAT.lines(file, self.variant.text())?;
        Ok(lines.iter().map(|line| self.line(line)).collect())
    }

    fn line(self, line: &[u8]) -> Result<Before, Fault> {
        let text = line.strip_suffix(b"\n").ok_or(Fault::LineFeed)?;
        let items: Vec<&[u8]> = text.split(|byte| *byte == b' ').collect();
        let [first, second] = items[..] else {
            return Err(Fault::Items);
        };
        Ok(Before {
            first: self.number(first)?,
            second: self.number(second)?,
        })
    }

    fn number(self, item: &[u8]) -> Result<u64, Fault> {
        match self.variant.minus_slip(item) {
            Some(taken) => taken,
            None => natural(item, self.variant.text()),
        }
    }

    /// Tests how many pairs there are, then their parties, and then looks for circles.
    pub fn decide(self, pairs: &[Before]) -> Result<Outcome, Fault> {
        let too_many = self.variant.counted(pairs) > self.variant.most_pairs();
        let above = self.variant.tested(pairs).any(|pair| self.is_above(pair));
        let parties_first = self.variant == OrderVariant::PartiesTestedBeforeCount;
        match (too_many, above) {
            (true, true) if parties_first => Err(Fault::PairParty),
            (true, _) => Err(Fault::PairCount),
            (false, true) => Err(Fault::PairParty),
            (false, false) => Ok(self.outcome(&self.variant.pairs_slip(pairs))),
        }
    }

    fn is_above(self, pair: &Before) -> bool {
        let (last_first, last_second) = self.variant.last_parties();
        pair.first > last_first || pair.second > last_second
    }

    fn outcome(self, pairs: &[Before]) -> Outcome {
        let on_circle: Vec<u64> = parties()
            .filter(|party| {
                let circle = shortest_circle(pairs, *party);
                circle.is_some_and(|length| self.variant.sees_circle(length))
            })
            .collect();
        match self.variant.named_slip(pairs, &on_circle) {
            Some(party) => Outcome::Circle(party),
            None => Outcome::Order(self.variant.order_slip(pairs, self.in_order(pairs))),
        }
    }

    /// The parties place by place: each time the smallest one that isn't placed and whose
    /// predecessors all are.
    fn in_order(self, pairs: &[Before]) -> Vec<u64> {
        let mut order = Vec::new();
        while order.len() < PARTIES {
            let ready = ready(&self.variant.minded(pairs), &order);
            if ready.is_empty() {
                // Only a blunder that misses a circle gets here.
                let left: Vec<u64> = parties().filter(|party| !order.contains(party)).collect();
                order.extend(left);
            } else {
                order.extend(self.variant.place_slip(&ready));
            }
        }
        order
    }
}

pub(crate) fn parties() -> impl DoubleEndedIterator<Item = u64> {
    0..PARTIES as u64
}

/// How many pairs the shortest chain from a party back to itself has, if there is one.
fn shortest_circle(pairs: &[Before], party: u64) -> Option<usize> {
    let mut ends = vec![party];
    // A shortest one comes through no party twice, so it has no more pairs than there are parties.
    (1..=PARTIES).find(|_| {
        ends = one_pair_on(pairs, &ends);
        ends.contains(&party)
    })
}

/// Where chains get by one pair more if they have come to these parties.
pub(crate) fn one_pair_on(pairs: &[Before], ends: &[u64]) -> Vec<u64> {
    let leads_to = |party: u64| {
        let mut pairs = pairs.iter();
        pairs.any(|pair| pair.second == party && ends.contains(&pair.first))
    };
    parties().filter(|party| leads_to(*party)).collect()
}

/// The parties that aren't placed and whose predecessors all are, smallest first.
pub(crate) fn ready(pairs: &[Before], placed: &[u64]) -> Vec<u64> {
    let waits = |party: u64| {
        let mut pairs = pairs.iter();
        pairs.any(|pair| pair.second == party && !placed.contains(&pair.first))
    };
    parties()
        .filter(|party| !placed.contains(party) && !waits(*party))
        .collect()
}
