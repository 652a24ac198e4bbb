//! Known blunders about start orders, to test whether a comparison catches them.

use crate::lines::{natural, Fault, BEYOND};
use crate::names::PARTIES;
use crate::order::{
    one_pair_on, parties, ready, Before, Outcome, LONGEST_FILE, MOST_PAIRS, ORDER_NAMES,
};
use crate::text_slip::TextSlip;

/// Which reference to be: the right one, or one with a blunder.
#[derive(Clone, Copy, Debug, PartialEq, Eq)]
pub enum OrderVariant {
    Correct,
    /// With a blunder about files of lines.
    Text(TextSlip),
    /// Places the largest party that can be.
    LargestFirst,
    /// Places all parties that can be before it looks anew which can.
    PlacesInRounds,
    /// Places each party in turn, right after its predecessors.
    PullsPredecessorsForward,
    /// Gives the order backwards.
    OrderBackwards,
    /// Gives the place of each party.
    PlacesOfParties,
    /// Passes over the predecessors of party 7. (If only placing did, it wouldn't show: 7 is placed
    /// when nobody smaller can be, and without a circle it then waits for nobody.)
    PredecessorsOf7Ignored,
    /// Places party 6 without regard to its predecessors.
    Places6TooEarly,
    /// Places parties without regard to predecessor 0.
    Predecessor0Ignored,
    /// Regards the last predecessor of each party alone.
    LastPredecessorCounts,
    /// Regards the first predecessor of each party alone.
    FirstPredecessorCounts,
    /// Passes over the first pair.
    FirstPairIgnored,
    /// Passes over the last pair.
    LastPairIgnored,
    /// Passes over the 64th pair.
    Pair64Ignored,
    /// Reads pairs the other way round.
    PairsReversed,
    /// Passes over pairs of a party with itself.
    SelfPairsIgnored,
    /// Takes a pair that comes twice for a circle.
    DoubleIsCircle,
    /// Takes back a pair that comes twice.
    DoubleIsTakenBack,
    /// Finds circles of one pair only.
    CirclesOfOneOnly,
    /// Finds circles of one or two pairs only.
    CirclesOfTwoOnly,
    /// Misses circles of seven pairs.
    CirclesOf7Missed,
    /// Misses circles of eight pairs.
    CirclesOf8Missed,
    /// Joins chains in an order in which some are missed: the party in their middle goes through
    /// its range innermost.
    ChainsJoinedInWrongOrder,
    /// Names the smallest party that can't be placed.
    NamesSmallestUnplaced,
    /// Names a party that only waits for a circle.
    NamesOneAfterCircle,
    /// Names the smallest party that lies on a circle or that a circle waits for.
    NamesOneBeforeCircle,
    /// Names the largest party on a circle.
    NamesLargestOnCircle,
    /// Names the party that comes next on the circle.
    NamesNextOnCircle,
    /// Takes 65 pairs.
    Takes65Pairs,
    /// Refuses 64 pairs.
    Refuses64Pairs,
    /// Counts a pair that comes twice once.
    DoublesCountedOnce,
    /// Counts pairs in 8 bits.
    CountWrapsAt8,
    /// Tests parties before it counts pairs.
    PartiesTestedBeforeCount,
    /// Takes any party that is to be started before another for one of 0 to 7.
    FirstPartyUntested,
    /// Takes any party that another is to be started before for one of 0 to 7.
    SecondPartyUntested,
    /// Takes party 8 for 0 where it is to be started before another.
    TakesFirstParty8,
    /// Takes party 8 for 0 where another is to be started before it.
    TakesSecondParty8,
    /// Doesn't test the parties of the first pair.
    FirstPairUntested,
    /// Doesn't test the parties of the last pair.
    LastPairUntested,
    /// Passes over a pair of a party above 7 with itself.
    SelfPairsUntested,
    /// Refuses by 15 as soon as it has read 65 pairs.
    StopsAtPair65,
    /// Refuses by 15 a file of 65 lines before it reads them.
    CountTestedBeforeLines,
    /// Refuses by 16 where a party above 7 comes before the first unreadable line.
    FirstFaultyLineDecides,
    /// Refuses by 16 where a party above 7 comes in any line, before it minds unreadable ones.
    PartiesTestedBeforeLines,
    /// Refuses a number with a minus by 16.
    MinusIsOutOfRange,
    /// Reads a number with a minus as if it had none.
    MinusIsPassedOver,
    /// Refuses the names line alone.
    NamesAloneIsRefused,
    /// Prints a blank in a refusal.
    PrintsBlankInRefusal,
    /// Prints a refusal as the call answers it.
    PrintsAnswerOfRefused,
    /// Prints the party on a circle as the call answers it.
    PrintsCirclePlusOne,
    /// Prints the parties of an order without the word.
    PrintsNoWord,
    /// Prints the names line first.
    PrintsNames,
    /// Prints a blank at the end of the line.
    PrintsBlankAtEnd,
    /// Prints no line feed at the end.
    PrintsNoLineFeed,
    /// Prints a second line feed.
    PrintsEmptyLine,
    /// Takes the upper half of a pair's word for the lower.
    HalvesExchanged,
    /// Takes a half for what is left of it in 8 bits.
    HalfWrapsAt8,
    /// The same in 16 bits.
    HalfWrapsAt16,
    /// Takes a half for a number with a sign, and one below 0 for 0.
    HalfHasSign,
    /// Counts pairs in 16 bits.
    CountWrapsAt16,
    /// Counts result words in 8 bits.
    WordsWrapAt8,
    /// Takes seven result words.
    TakesSevenWords,
    /// Refuses eight result words.
    RefusesEightWords,
    /// Refuses more than eight result words.
    RefusesNineWords,
    /// Counts the result words after it has tested the parties.
    WordsCountedAfterParties,
    /// Counts the result words when it is about to write an order.
    WordsCountedLast,
    /// Clears the result words after the order.
    ClearsTail,
    /// Writes a ninth word, if there is one.
    WritesNinthWord,
    /// Writes what can be placed where there is a circle.
    WritesOrderOfCircle,
    /// Writes the party on a circle into the first result word.
    WritesCircle,
    /// A refused call leaves zeros.
    ClearsOfRefused,
    /// Answers a circle with its party.
    AnswersPartyItself,
}

impl OrderVariant {
    /// Blunders of deciding, seen in what is printed and in the call.
    pub const OF_DECIDING: [OrderVariant; 39] = [
        OrderVariant::LargestFirst,
        OrderVariant::PlacesInRounds,
        OrderVariant::PullsPredecessorsForward,
        OrderVariant::OrderBackwards,
        OrderVariant::PlacesOfParties,
        OrderVariant::PredecessorsOf7Ignored,
        OrderVariant::Places6TooEarly,
        OrderVariant::Predecessor0Ignored,
        OrderVariant::LastPredecessorCounts,
        OrderVariant::FirstPredecessorCounts,
        OrderVariant::FirstPairIgnored,
        OrderVariant::LastPairIgnored,
        OrderVariant::Pair64Ignored,
        OrderVariant::PairsReversed,
        OrderVariant::SelfPairsIgnored,
        OrderVariant::DoubleIsCircle,
        OrderVariant::DoubleIsTakenBack,
        OrderVariant::CirclesOfOneOnly,
        OrderVariant::CirclesOfTwoOnly,
        OrderVariant::CirclesOf7Missed,
        OrderVariant::CirclesOf8Missed,
        OrderVariant::ChainsJoinedInWrongOrder,
        OrderVariant::NamesSmallestUnplaced,
        OrderVariant::NamesOneAfterCircle,
        OrderVariant::NamesOneBeforeCircle,
        OrderVariant::NamesLargestOnCircle,
        OrderVariant::NamesNextOnCircle,
        OrderVariant::Takes65Pairs,
        OrderVariant::Refuses64Pairs,
        OrderVariant::DoublesCountedOnce,
        OrderVariant::CountWrapsAt8,
        OrderVariant::PartiesTestedBeforeCount,
        OrderVariant::FirstPartyUntested,
        OrderVariant::SecondPartyUntested,
        OrderVariant::TakesFirstParty8,
        OrderVariant::TakesSecondParty8,
        OrderVariant::FirstPairUntested,
        OrderVariant::LastPairUntested,
        OrderVariant::SelfPairsUntested,
    ];

    /// Blunders of the program alone, of reading and of printing. `TextSlip::ALL` has more.
    pub const OF_PROGRAM: [OrderVariant; 15] = [
        OrderVariant::StopsAtPair65,
        OrderVariant::CountTestedBeforeLines,
        OrderVariant::FirstFaultyLineDecides,
        OrderVariant::PartiesTestedBeforeLines,
        OrderVariant::MinusIsOutOfRange,
        OrderVariant::MinusIsPassedOver,
        OrderVariant::NamesAloneIsRefused,
        OrderVariant::PrintsBlankInRefusal,
        OrderVariant::PrintsAnswerOfRefused,
        OrderVariant::PrintsCirclePlusOne,
        OrderVariant::PrintsNoWord,
        OrderVariant::PrintsNames,
        OrderVariant::PrintsBlankAtEnd,
        OrderVariant::PrintsNoLineFeed,
        OrderVariant::PrintsEmptyLine,
    ];

    /// Blunders of the call alone.
    pub const OF_CALL: [OrderVariant; 17] = [
        OrderVariant::HalvesExchanged,
        OrderVariant::HalfWrapsAt8,
        OrderVariant::HalfWrapsAt16,
        OrderVariant::HalfHasSign,
        OrderVariant::CountWrapsAt16,
        OrderVariant::WordsWrapAt8,
        OrderVariant::TakesSevenWords,
        OrderVariant::RefusesEightWords,
        OrderVariant::RefusesNineWords,
        OrderVariant::WordsCountedAfterParties,
        OrderVariant::WordsCountedLast,
        OrderVariant::ClearsTail,
        OrderVariant::WritesNinthWord,
        OrderVariant::WritesOrderOfCircle,
        OrderVariant::WritesCircle,
        OrderVariant::ClearsOfRefused,
        OrderVariant::AnswersPartyItself,
    ];

    /// The blunder about files of lines, if it is one.
    pub(crate) fn text(self) -> TextSlip {
        match self {
            OrderVariant::Text(slip) => slip,
            _ => TextSlip::Correct,
        }
    }

    /// What a number with a minus is taken for, where a slip reads it.
    pub(crate) fn minus_slip(self, item: &[u8]) -> Option<Result<u64, Fault>> {
        let digits = item.strip_prefix(b"-")?;
        let number = natural(digits, TextSlip::Correct);
        match self {
            OrderVariant::MinusIsOutOfRange => Some(number.map(|_| BEYOND)),
            OrderVariant::MinusIsPassedOver => Some(number),
            _ => None,
        }
    }

    /// The fault that decides, where a slip doesn't take that of the first unreadable line.
    pub(crate) fn fault_slip(
        self,
        lines: &[Result<Before, Fault>],
        length: usize,
    ) -> Option<Fault> {
        let first_unreadable = lines.iter().position(Result::is_err);
        let has_above = |lines: &[Result<Before, Fault>]| {
            let mut pairs = lines.iter().flatten();
            pairs.any(|pair| pair.first.max(pair.second) >= PARTIES as u64)
        };
        let readable = first_unreadable.unwrap_or(lines.len());
        match self {
            OrderVariant::StopsAtPair65 if readable > MOST_PAIRS => Some(Fault::PairCount),
            OrderVariant::CountTestedBeforeLines if lines.len() > MOST_PAIRS => {
                Some(Fault::PairCount)
            }
            OrderVariant::FirstFaultyLineDecides
                if readable < lines.len() && has_above(&lines[..readable]) =>
            {
                Some(Fault::PairParty)
            }
            OrderVariant::PartiesTestedBeforeLines
                if readable < lines.len() && has_above(lines) =>
            {
                Some(Fault::PairParty)
            }
            OrderVariant::NamesAloneIsRefused if lines.is_empty() => Some(Fault::NamesLine),
            OrderVariant::Text(TextSlip::FileLengthTestedLast) if length > LONGEST_FILE => {
                let unreadable = first_unreadable.and_then(|place| lines[place].err());
                Some(unreadable.unwrap_or(Fault::TooLong))
            }
            _ => None,
        }
    }

    /// The line as it is printed.
    pub(crate) fn printed_slip(self, line: String, outcome: &Result<Outcome, Fault>) -> String {
        match (self, outcome) {
            (OrderVariant::PrintsBlankInRefusal, Err(_)) => line.replacen("no", "no ", 1),
            (OrderVariant::PrintsAnswerOfRefused, Err(_)) => line.replacen("no", "no1", 1),
            (OrderVariant::PrintsCirclePlusOne, Ok(Outcome::Circle(party))) => {
                format!("circle {}\n", party + 1)
            }
            (OrderVariant::PrintsNoWord, Ok(Outcome::Order(_))) => line.replacen("order ", "", 1),
            (OrderVariant::PrintsNames, _) => format!("{ORDER_NAMES}\n{line}"),
            (OrderVariant::PrintsBlankAtEnd, _) => line.replacen('\n', " \n", 1),
            (OrderVariant::PrintsNoLineFeed, _) => line.trim_end().to_string(),
            (OrderVariant::PrintsEmptyLine, _) => line + "\n",
            _ => line,
        }
    }

    /// What a pair's word is taken for.
    pub(crate) fn halves_slip(self, pair: Before) -> Before {
        let half: fn(u64) -> u64 = match self {
            OrderVariant::HalvesExchanged => {
                return Before {
                    first: pair.second,
                    second: pair.first,
                }
            }
            OrderVariant::HalfWrapsAt8 => |half| u64::from(half as u8),
            OrderVariant::HalfWrapsAt16 => |half| u64::from(half as u16),
            OrderVariant::HalfHasSign => |half| (half as u32 as i32).max(0) as u64,
            _ => |half| half,
        };
        Before {
            first: half(pair.first),
            second: half(pair.second),
        }
    }

    /// How many pairs are counted.
    pub(crate) fn counted(self, pairs: &[Before]) -> usize {
        match self {
            OrderVariant::DoublesCountedOnce => once_each(pairs).len(),
            OrderVariant::CountWrapsAt8 => pairs.len() % (1 << 8),
            OrderVariant::CountWrapsAt16 => pairs.len() % (1 << 16),
            _ => pairs.len(),
        }
    }

    pub(crate) fn most_pairs(self) -> usize {
        match self {
            OrderVariant::Takes65Pairs => MOST_PAIRS + 1,
            OrderVariant::Refuses64Pairs => MOST_PAIRS - 1,
            _ => MOST_PAIRS,
        }
    }

    /// The pairs whose parties are tested.
    pub(crate) fn tested(self, pairs: &[Before]) -> impl Iterator<Item = &Before> {
        let last = pairs.len().saturating_sub(1);
        let tested = move |place: usize, pair: &Before| match self {
            OrderVariant::FirstPairUntested => place != 0,
            OrderVariant::LastPairUntested => place != last,
            OrderVariant::SelfPairsUntested => pair.first != pair.second,
            _ => true,
        };
        let pairs = pairs.iter().enumerate();
        pairs
            .filter(move |(place, pair)| tested(*place, pair))
            .map(|(_, pair)| pair)
    }

    /// The last party that may stand first in a pair, and the last that may stand second.
    pub(crate) fn last_parties(self) -> (u64, u64) {
        let last = PARTIES as u64 - 1;
        match self {
            OrderVariant::FirstPartyUntested => (u64::MAX, last),
            OrderVariant::SecondPartyUntested => (last, u64::MAX),
            OrderVariant::TakesFirstParty8 => (last + 1, last),
            OrderVariant::TakesSecondParty8 => (last, last + 1),
            _ => (last, last),
        }
    }

    /// The pairs as they are regarded. Only blunders get here with a party above 7.
    pub(crate) fn pairs_slip(self, pairs: &[Before]) -> Vec<Before> {
        let mut pairs = pairs.to_vec();
        if self == OrderVariant::SelfPairsUntested {
            pairs.retain(|pair| pair.first < PARTIES as u64);
        }
        for pair in &mut pairs {
            pair.first %= PARTIES as u64;
            pair.second %= PARTIES as u64;
        }
        let listed = pairs.clone();
        let times = |pair: &Before| listed.iter().filter(|other| *other == pair).count();
        match self {
            OrderVariant::FirstPairIgnored => drop(pairs.drain(..pairs.len().min(1))),
            OrderVariant::LastPairIgnored => drop(pairs.pop()),
            OrderVariant::Pair64Ignored => pairs.truncate(MOST_PAIRS - 1),
            OrderVariant::PairsReversed => {
                for pair in &mut pairs {
                    std::mem::swap(&mut pair.first, &mut pair.second);
                }
            }
            OrderVariant::PredecessorsOf7Ignored => pairs.retain(|pair| pair.second != 7),
            OrderVariant::SelfPairsIgnored => pairs.retain(|pair| pair.first != pair.second),
            OrderVariant::DoubleIsCircle => {
                let doubles = listed.iter().filter(|pair| times(pair) > 1);
                pairs.extend(doubles.map(|pair| Before {
                    first: pair.second,
                    second: pair.first,
                }));
            }
            OrderVariant::DoubleIsTakenBack => pairs.retain(|pair| times(pair) % 2 == 1),
            OrderVariant::FirstPredecessorCounts => pairs = of_second_once(pairs.iter()),
            OrderVariant::LastPredecessorCounts => pairs = of_second_once(pairs.iter().rev()),
            _ => {}
        }
        pairs
    }

    /// Whether a circle whose shortest chain has so many pairs is seen.
    pub(crate) fn sees_circle(self, length: usize) -> bool {
        match self {
            OrderVariant::CirclesOfOneOnly => length == 1,
            OrderVariant::CirclesOfTwoOnly => length <= 2,
            OrderVariant::CirclesOf7Missed => length != 7,
            OrderVariant::CirclesOf8Missed => length != 8,
            _ => true,
        }
    }

    /// The party that is named, if these lie on circles.
    pub(crate) fn named_slip(self, pairs: &[Before], on_circle: &[u64]) -> Option<u64> {
        let smallest = *on_circle.first()?;
        let after_circle = led_to(pairs, on_circle);
        let before_circle = |party: &u64| {
            let ends = led_to(pairs, &[*party]);
            on_circle.contains(party) || ends.iter().any(|end| on_circle.contains(end))
        };
        let only_after = after_circle.iter().find(|end| !on_circle.contains(end));
        let in_circle_of_smallest = |party: &&u64| {
            **party != smallest
                && led_to(pairs, &[smallest]).contains(party)
                && led_to(pairs, &[**party]).contains(&smallest)
        };
        match self {
            OrderVariant::NamesSmallestUnplaced => after_circle.first().copied(),
            OrderVariant::NamesOneAfterCircle => only_after.copied().or(Some(smallest)),
            OrderVariant::NamesOneBeforeCircle => parties().find(before_circle),
            OrderVariant::NamesLargestOnCircle => on_circle.last().copied(),
            OrderVariant::NamesNextOnCircle => {
                let next = on_circle.iter().find(in_circle_of_smallest);
                next.copied().or(Some(smallest))
            }
            OrderVariant::ChainsJoinedInWrongOrder => joined_wrongly(pairs),
            _ => Some(smallest),
        }
    }

    /// The pairs that are minded when parties are placed.
    pub(crate) fn minded(self, pairs: &[Before]) -> Vec<Before> {
        let minded = |pair: &&Before| match self {
            OrderVariant::Places6TooEarly => pair.second != 6,
            OrderVariant::Predecessor0Ignored => pair.first != 0,
            _ => true,
        };
        pairs.iter().filter(minded).copied().collect()
    }

    /// Those that are placed now, of these that can be.
    pub(crate) fn place_slip(self, ready: &[u64]) -> Vec<u64> {
        match self {
            OrderVariant::LargestFirst => ready[ready.len() - 1..].to_vec(),
            OrderVariant::PlacesInRounds => ready.to_vec(),
            _ => ready[..1].to_vec(),
        }
    }

    /// The order as it is given.
    pub(crate) fn order_slip(self, pairs: &[Before], mut order: Vec<u64>) -> Vec<u64> {
        match self {
            OrderVariant::PullsPredecessorsForward => {
                let mut pulled = Vec::new();
                parties().for_each(|party| pull(pairs, party, &mut pulled));
                pulled
            }
            OrderVariant::OrderBackwards => {
                order.reverse();
                order
            }
            OrderVariant::PlacesOfParties => {
                let place = |party| order.iter().position(|placed| *placed == party);
                let places = parties().filter_map(place);
                places.map(|place| place as u64).collect()
            }
            _ => order,
        }
    }

    /// Whether so many result words are enough.
    pub(crate) fn takes_words(self, length: usize) -> bool {
        match self {
            OrderVariant::WordsWrapAt8 => length % (1 << 8) >= PARTIES,
            OrderVariant::TakesSevenWords => length >= PARTIES - 1,
            OrderVariant::RefusesEightWords => length > PARTIES,
            OrderVariant::RefusesNineWords => length == PARTIES,
            _ => length >= PARTIES,
        }
    }

    /// What comes of a call with too few result words, where a slip decides about the pairs first.
    pub(crate) fn room_slip(
        self,
        decide: impl Fn() -> Result<Outcome, Fault>,
    ) -> Option<Result<Outcome, Fault>> {
        match self {
            OrderVariant::WordsCountedAfterParties => decide().err().map(Err),
            OrderVariant::WordsCountedLast => match decide() {
                Ok(Outcome::Order(_)) => None,
                decided => Some(decided),
            },
            _ => None,
        }
    }

    /// Writes what only blunders write.
    pub(crate) fn write_slip(
        self,
        outcome: &Result<Outcome, Fault>,
        pairs: &[Before],
        result: &mut [u64],
    ) {
        match (self, outcome) {
            (OrderVariant::ClearsTail, Ok(Outcome::Order(_))) => result[PARTIES..].fill(0),
            (OrderVariant::WritesNinthWord, Ok(Outcome::Order(_))) => {
                result
                    .iter_mut()
                    .skip(PARTIES)
                    .take(1)
                    .for_each(|word| *word = 8);
            }
            (OrderVariant::WritesOrderOfCircle, Ok(Outcome::Circle(_))) => {
                let mut placed = Vec::new();
                while let Some(party) = ready(pairs, &placed).first() {
                    placed.push(*party);
                }
                result[..placed.len()].copy_from_slice(&placed);
            }
            (OrderVariant::WritesCircle, Ok(Outcome::Circle(party))) => result[0] = *party,
            (OrderVariant::ClearsOfRefused, Err(_)) => result.fill(0),
            _ => {}
        }
    }

    /// The answer for a circle with this party.
    pub(crate) fn circle_answer(self, party: u64) -> u32 {
        match self {
            OrderVariant::AnswersPartyItself => party as u32,
            _ => party as u32 + 1,
        }
    }
}

fn once_each(pairs: &[Before]) -> Vec<Before> {
    let mut once: Vec<Before> = Vec::new();
    for pair in pairs {
        if !once.contains(pair) {
            once.push(*pair);
        }
    }
    once
}

/// Of the pairs with the same second party the first one alone.
fn of_second_once<'a>(pairs: impl Iterator<Item = &'a Before>) -> Vec<Before> {
    let mut once: Vec<Before> = Vec::new();
    for pair in pairs {
        if !once.iter().any(|other| other.second == pair.second) {
            once.push(*pair);
        }
    }
    once
}

/// The parties that chains of one pair or more from these lead to, smallest first.
fn led_to(pairs: &[Before], from: &[u64]) -> Vec<u64> {
    let mut found: Vec<u64> = Vec::new();
    let mut ends = from.to_vec();
    for _ in 0..PARTIES {
        ends = one_pair_on(pairs, &ends);
        found.extend(&ends);
    }
    parties().filter(|party| found.contains(party)).collect()
}

/// The smallest party on a circle by chains that were joined in the wrong order.
fn joined_wrongly(pairs: &[Before]) -> Option<u64> {
    let mut leads = [[false; PARTIES]; PARTIES];
    for pair in pairs {
        leads[pair.first as usize][pair.second as usize] = true;
    }
    for first in 0..PARTIES {
        for second in 0..PARTIES {
            for middle in 0..PARTIES {
                leads[first][second] |= leads[first][middle] && leads[middle][second];
            }
        }
    }
    let on_circle = |party: &u64| leads[*party as usize][*party as usize];
    parties().find(on_circle)
}

/// Places the predecessors of a party that aren't placed yet, and then the party.
fn pull(pairs: &[Before], party: u64, placed: &mut Vec<u64>) {
    if placed.contains(&party) {
        return;
    }
    let before = |other: &u64| {
        let mut pairs = pairs.iter();
        pairs.any(|pair| pair.first == *other && pair.second == party)
    };
    parties()
        .filter(before)
        .for_each(|other| pull(pairs, other, placed));
    placed.push(party);
}
