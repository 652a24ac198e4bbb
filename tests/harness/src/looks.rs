//! Looks held against receives with the same arguments on the same space, and looks at memory that
//! can't be written.

use crate::both::Desk;
use crate::call::{answer_text, found_fields, is_refusal, Call, Kind, Query};
use crate::differential::LENGTHS;
use crate::edge::{Edge, Side};
use crate::partition_0;
use crate::pool::{lacks_name_in, Maker, Mix, Pool, ALL_PARTIES, MOST_WORDS};
use crate::report::Report;
use crate::rng::Rng;
use crate::space::Space;
use crate::tables::{damage_at_random, damaged_table, sound_table, Damage};
use crate::tally::{answers_of, Answers};
use crate::variants::{by_difference, check_shown};
use reference::names::{key_bit, partition_bit};
use reference::table::{KEYS, PARTITIONS};
use reference::{Field, Operation, Reference, Variant};

const SEED: u64 = 4_101;
const CLOSED_SEED: u64 = 4_102;
const PAIRS: u64 = 100_000;
const CLOSED_LOOKS: u64 = 50_000;
/// No space is longer.
const LONGEST: usize = 65_536;

/// A look at a space that is lent only to be read.
pub type Look<'a> = dyn Fn(&[u64], reference::Query, &mut [u64]) -> u32 + 'a;

/// A space, a query for it, and what the lent result words hold before.
struct Asked {
    space: Vec<u64>,
    query: Query,
    earlier: Vec<u64>,
}

impl Asked {
    /// Any space: sound, damaged, or of another length.
    fn random(rng: &mut Rng) -> Asked {
        let pool = Pool::random(rng, 3, 2);
        let (sound, space) = some_space(rng, &pool);
        let maker = Maker {
            pool: &pool,
            parties: &ALL_PARTIES,
            mix: Mix {
                puts: 0,
                looks: 100,
                receives: 0,
                broken: rng.pick(&[0, 10, 60]),
            },
        };
        let Call::Find(_, query) = maker.call(rng, &sound) else {
            unreachable!("only looks are made");
        };
        let earlier = (0..query.result_len).map(|_| rng.word()).collect();
        Asked {
            space,
            query,
            earlier,
        }
    }

    fn call(&self, operation: Operation) -> Call {
        Call::Find(operation, self.query.clone())
    }

    /// The reference's answer to a look, and its result words.
    fn due(&self) -> (u32, Vec<u64>) {
        let (mut space, mut result) = (self.space.clone(), self.earlier.clone());
        let call = self.call(Operation::Look);
        let mut reference = Reference::correct();
        let code = call.make(&mut reference, &mut space, call.input(), &mut result);
        (code, result)
    }

    /// The space with the names in these fields given to the party.
    fn with_names(&self, fields: &[u64]) -> Vec<u64> {
        let mut space = self.space.clone();
        let party = self.query.party as usize;
        for word in fields {
            match Field::from_word(*word) {
                Some(Field::Partition(partition)) => {
                    space[PARTITIONS + party] |= partition_bit(partition);
                }
                Some(Field::Key(key)) => space[KEYS + party] |= key_bit(key),
                _ => {}
            }
        }
        space
    }
}

/// A sound space, and the same or what was made of it.
pub fn some_space(rng: &mut Rng, pool: &Pool) -> (Vec<u64>, Vec<u64>) {
    if rng.percent(15) {
        let damage = rng.pick(&Damage::ALL);
        return damaged_table(rng, pool, damage);
    }
    let sound = sound_table(rng, pool);
    let mut space = sound.clone();
    match rng.below(20) {
        0 => damage_at_random(rng, &mut space),
        1 => space.resize(rng.pick(&LENGTHS), 0),
        _ => {}
    }
    (sound, space)
}

/// How often each answer came, and a found name that wasn't held.
#[derive(Default)]
struct Counts {
    answers: Answers,
    new_names: u64,
    of_0: partition_0::Counts,
}

impl Counts {
    fn add(&mut self, asked: &Asked, code: u32, found: &[u64]) {
        self.answers.add(Kind::LOOK, code);
        let new_name = lacks_name_in(&asked.space, asked.query.party, found);
        self.new_names += u64::from(new_name);
        let call = asked.call(Operation::Look);
        let held = partition_0::held_by_party(&call, &asked.space);
        self.of_0.add(&call, code, held);
    }

    fn of(&self, such: impl Fn(u32) -> bool) -> u64 {
        self.answers.sum(|_, code| such(code))
    }

    /// Every answer that the rules make possible must have come.
    fn finish(&self) -> Result<String, String> {
        let missing = self.answers.never(answers_of(Kind::LOOK));
        let text = format!(
            "{} found, {} with names not held, {} none, {} refused; {}",
            self.of(|code| (1..=8).contains(&code)),
            self.new_names,
            self.of(|code| code == 0),
            self.of(is_refusal),
            self.of_0.finish()?
        );
        match missing.is_empty() && self.new_names > 0 {
            true => Ok(text),
            false => Err(format!("{text}, never: {}", missing.join(", "))),
        }
    }
}

/// A look and a receive, each with its own copy of everything.
struct Both<'a> {
    system: &'a mut dyn Space,
    look: Desk,
    receive: Desk,
}

impl<'a> Both<'a> {
    fn new(system: &'a mut dyn Space) -> Both<'a> {
        Both {
            system,
            look: Desk::new(),
            receive: Desk::new(),
        }
    }

    /// Makes both calls. Answer and result words must be the same; the look must have kept every
    /// word of the space, and the receive every word but for the names that it found.
    fn compare(&mut self, asked: &Asked, counts: &mut Counts) -> Result<(), String> {
        let look = make(&mut self.look, self.system, asked, Operation::Look);
        let receive = make(&mut self.receive, self.system, asked, Operation::Receive);
        let found = found_fields(Kind::LOOK, look, self.look.result.lent());
        let mut differences = self.look.result.differences(&self.receive.result, "result");
        let space = &asked.space;
        differences.extend(self.look.differences_from(space, "space looked at"));
        let with_names = asked.with_names(found);
        differences.extend(self.receive.differences_from(&with_names, "space"));
        if look == receive && differences.is_empty() {
            counts.add(asked, look, found);
            return Ok(());
        }
        let [look, receive] = [look, receive].map(|code| answer_text(Kind::LOOK, code));
        Err(format!(
            "{:?}\n    look {look}, receive {receive}\n    {}",
            asked.query,
            differences.join("\n    ")
        ))
    }
}

fn make(desk: &mut Desk, system: &mut dyn Space, asked: &Asked, operation: Operation) -> u32 {
    let call = asked.call(operation);
    desk.space.set(&asked.space);
    desk.lay_out(&call, &asked.earlier);
    desk.make(&call, system)
}

/// Gives the counts, or what differs first and after how many pairs.
fn compare_pairs(system: &mut dyn Space) -> Result<Counts, (u64, String)> {
    let mut both = Both::new(system);
    let mut counts = Counts::default();
    for number in 0..PAIRS {
        let asked = Asked::random(&mut Rng::new(SEED, number));
        both.compare(&asked, &mut counts)
            .map_err(|text| (number, format!("seed {SEED}, pair {number}, {text}")))?;
    }
    Ok(counts)
}

/// Holds a system's looks against its receives.
pub fn check(report: &mut Report, who: &str, system: &mut dyn Space) {
    let counts = compare_pairs(system).map_err(|(_, text)| text);
    let outcome = counts
        .and_then(|counts| counts.finish())
        .map(|text| format!("seed {SEED}, {PAIRS} pairs alike: {text}"));
    let name = format!("looks, {who}: held against receives on the same space");
    report.check(&name, outcome);
}

/// The harness itself is tested: whatever tells looks from receives wrongly must be caught.
pub fn check_variants(report: &mut Report) {
    let of_both = |variant: &Variant| *variant != Variant::TakeGivesNoNames;
    let of_result = [
        Variant::LookTestsResultFirst,
        Variant::ReceiveTestsResultFirst,
    ];
    let slips = Variant::OPERATION_SLIPS.into_iter().filter(of_both);
    let wrong: Vec<Variant> = slips.chain(of_result).collect();
    let show = "looks held against receives show";
    check_shown(report, show, &wrong, |system| {
        compare_pairs(system).map_err(by_difference)
    });
}

/// What is lent to a look at the edges of pages. Space and fields can't be written: a look that
/// writes a word of them, be it the one that stands there, ends the harness.
struct Closed<'a> {
    look: &'a Look<'a>,
    space: Edge<u64>,
    fields: Edge<u64>,
    result: Edge<u64>,
}

impl<'a> Closed<'a> {
    fn new(look: &'a Look<'a>) -> Closed<'a> {
        Closed {
            look,
            space: Edge::new(LONGEST),
            fields: Edge::new(MOST_WORDS),
            result: Edge::new(MOST_WORDS),
        }
    }

    fn lay_out(&mut self, asked: &Asked, rng: &mut Rng) {
        let mut side = || rng.pick(&[Side::First, Side::Last]);
        self.space.set(&asked.space, side());
        self.fields.set(&asked.query.fields, side());
        self.result.set(&asked.earlier, side());
        self.space.close();
        self.fields.close();
    }

    /// Makes the look with what is lent.
    fn compare(&mut self, asked: &Asked, counts: &mut Counts) -> Result<(), String> {
        let query = asked.query.of(self.fields.lent());
        let code = (self.look)(self.space.lent(), query, self.result.lent_mut());
        let (due, words) = asked.due();
        let result = self.result.lent();
        if code == due && result == words && self.result.kept_guards() {
            counts.add(asked, code, found_fields(Kind::LOOK, code, result));
            return Ok(());
        }
        let [code, due] = [code, due].map(|code| answer_text(Kind::LOOK, code));
        Err(format!(
            "{:?}\n    {code} {result:?}, due is {due} {words:?}",
            asked.query
        ))
    }
}

fn look_at_closed(look: &Look) -> Result<String, String> {
    let mut closed = Closed::new(look);
    let mut counts = Counts::default();
    for number in 0..CLOSED_LOOKS {
        let mut rng = Rng::new(CLOSED_SEED, number);
        let asked = Asked::random(&mut rng);
        closed.lay_out(&asked, &mut rng);
        closed
            .compare(&asked, &mut counts)
            .map_err(|text| format!("seed {CLOSED_SEED}, look {number}, {text}"))?;
    }
    let text = counts.finish()?;
    Ok(format!("seed {CLOSED_SEED}, {CLOSED_LOOKS} looks: {text}"))
}

/// Looks at memory that can't be written.
pub fn check_closed(report: &mut Report, look: &Look) {
    let name = "looks, library: at memory that can't be written";
    report.check(name, look_at_closed(look));
}
