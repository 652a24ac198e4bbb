//! The library against the reference, call by call.

use crate::bounds;
use crate::call::{Call, Kind};
use crate::duel::{Duel, HAPPENINGS};
use crate::partition_0;
use crate::pool::{broken_roster, Maker, Mix, Pool, ALL_PARTIES};
use crate::report::Report;
use crate::rng::Rng;
use crate::rows;
use crate::sets;
use crate::space::Space;
use crate::tables::{damage_at_random, damaged_table, sound_table, Damage};
use crate::tally::Tally;
use reference::names::{key_bit, partition_bit, PARTIES};
use reference::table::{broken_clause, KEYS, PARTITIONS, ROSTER_WORDS, WORDS};
use reference::{Clause, Reference, Variant};

const RUNS_SEED: u64 = 4_001;
const SOUND_SEED: u64 = 4_002;
const ONE_DAMAGE_SEED: u64 = 4_003;
const RANDOM_DAMAGE_SEED: u64 = 4_004;
const LENGTHS_SEED: u64 = 4_005;
const ARGUMENTS_SEED: u64 = 4_006;
const DEFAULTS_SEED: u64 = 4_007;

const RUNS: u64 = 5_000;
const SOUND_TABLES: u64 = 20_000;
const TABLES_OF_EACH_DAMAGE: u64 = 1_200;
const RANDOMLY_DAMAGED_TABLES: u64 = 40_000;
const SPACES_OF_EACH_LENGTH: u64 = 300;
const TABLES_FOR_ARGUMENTS: u64 = 20_000;
const TABLES_FOR_DEFAULTS: u64 = 10_000;
const FEWEST_CALLS: u64 = 1_000_000;
/// In each part, and as many receives.
const FEWEST_LOOKS: u64 = 3_000;

const CALLS: [Kind; 4] = [Kind::Put, Kind::LOOK, Kind::RECEIVE, Kind::TAKE];
const MIXES: [Mix; 4] = [
    Mix::of(35, 15, 15, 8),
    Mix::of(84, 5, 5, 4),
    Mix::of(50, 8, 8, 4),
    Mix::of(25, 12, 12, 15),
];
/// For spaces that are turned away whatever is asked.
const UNBROKEN: Mix = Mix::of(25, 25, 25, 0);
/// For arguments that are mostly broken.
const BROKEN: Mix = Mix::of(25, 25, 25, 90);

/// One part: what it does with a seed in one of its rounds.
struct Part {
    name: &'static str,
    seed: u64,
    rounds: u64,
    round: fn(&mut Duel, &mut Rng, u64) -> Result<(), String>,
}

const PARTS: [Part; 7] = [
    Part {
        name: "runs from openings",
        seed: RUNS_SEED,
        rounds: RUNS,
        round: run_from_opening,
    },
    Part {
        name: "sound tables made directly",
        seed: SOUND_SEED,
        rounds: SOUND_TABLES,
        round: sound_round,
    },
    Part {
        name: "tables with one clause of sound broken",
        seed: ONE_DAMAGE_SEED,
        rounds: TABLES_OF_EACH_DAMAGE * Damage::ALL.len() as u64,
        round: one_damage_round,
    },
    Part {
        name: "tables damaged at random",
        seed: RANDOM_DAMAGE_SEED,
        rounds: RANDOMLY_DAMAGED_TABLES,
        round: random_damage_round,
    },
    Part {
        name: "lengths other than 1,809",
        seed: LENGTHS_SEED,
        rounds: SPACES_OF_EACH_LENGTH * LENGTHS.len() as u64,
        round: length_round,
    },
    Part {
        name: "broken arguments",
        seed: ARGUMENTS_SEED,
        rounds: TABLES_FOR_ARGUMENTS,
        round: arguments_round,
    },
    Part {
        name: "partition 0 taken away, then key 0",
        seed: DEFAULTS_SEED,
        rounds: TABLES_FOR_DEFAULTS,
        round: defaults_round,
    },
];

/// Runs all parts and prints the table of answers.
pub fn compare(report: &mut Report, who: &str, system: &mut dyn Space) {
    let mut duel = Duel::new(system);
    for part in &PARTS {
        let outcome = run_part(&mut duel, part);
        report.check(&format!("differential, {who}: {}", part.name), outcome);
    }
    let tally = &duel.tally;
    print!("{}", tally.table());
    let expected = [
        HAPPENINGS.to_vec(),
        bounds::ALL.concat(),
        rows::ALL.concat(),
        sets::all(),
        partition_0::all(),
    ]
    .concat();
    let reached = tally.check(&expected).and_then(|text| {
        if tally.calls() < FEWEST_CALLS {
            return Err(format!("only {} calls", tally.calls()));
        }
        Ok(text)
    });
    report.check(&format!("differential, {who}: answers reached"), reached);
    print!("{}", duel.missing.table());
    let lacked = duel.missing.check();
    report.check(&format!("differential, {who}: names lacked"), lacked);
}

/// Gives the first difference of a wrong system, with the number of calls before it. Only the
/// part on single damages is of use against a clause of "sound" left out or widened.
pub fn first_difference(system: &mut dyn Space, in_damage: bool) -> Option<(u64, String)> {
    let mut duel = Duel::new(system);
    let parts = match in_damage {
        true => &PARTS[2..3],
        false => &PARTS[..],
    };
    for part in parts {
        if let Err(text) = run_part(&mut duel, part) {
            return Some((duel.tally.calls(), text));
        }
    }
    None
}

/// In how many rounds of each part a wrong reference differs, of the first so many.
pub fn differing_rounds(variant: Variant, rounds: u64) -> Vec<(&'static str, u64)> {
    let differs = |part: &Part, round: u64| {
        let mut wrong = Reference::with(variant);
        let mut rng = Rng::new(part.seed, round);
        (part.round)(&mut Duel::new(&mut wrong), &mut rng, round).is_err()
    };
    let of_part = |part: &Part| {
        let differing = (0..rounds).filter(|round| differs(part, *round));
        (part.name, differing.count() as u64)
    };
    PARTS.iter().map(of_part).collect()
}

fn run_part(duel: &mut Duel, part: &Part) -> Result<String, String> {
    let before = counts(&duel.tally);
    for round in 0..part.rounds {
        let mut rng = Rng::new(part.seed, round);
        (part.round)(duel, &mut rng, round)
            .map_err(|text| format!("seed {}, round {round}, {text}", part.seed))?;
    }
    let after = counts(&duel.tally);
    let [calls, looks, receives] = std::array::from_fn(|place| after[place] - before[place]);
    let text = format!(
        "seed {}, {calls} calls alike, {looks} of them looks and {receives} receives",
        part.seed
    );
    match looks.min(receives) >= FEWEST_LOOKS {
        true => Ok(text),
        false => Err(format!("too few: {text}")),
    }
}

/// All calls, the looks and the receives.
fn counts(tally: &Tally) -> [u64; 3] {
    let of = |kind| tally.calls_of(kind);
    [tally.calls(), of(Kind::LOOK), of(Kind::RECEIVE)]
}

/// Makes a call and says which step it was if something differs; an opening is step 0.
fn step(duel: &mut Duel, rng: &mut Rng, step: usize, call: &Call) -> Result<u32, String> {
    duel.call(call, rng)
        .map_err(|text| format!("step {step}: {text}"))
}

fn run_from_opening(duel: &mut Duel, rng: &mut Rng, _round: u64) -> Result<(), String> {
    let pool = Pool::random(rng, 5, 2);
    let maker = Maker {
        pool: &pool,
        parties: &ALL_PARTIES,
        mix: rng.pick(&MIXES),
    };
    let junk: Vec<u64> = (0..WORDS).map(|_| rng.word()).collect();
    duel.set_space(&junk);
    open(duel, rng, &pool)?;
    let steps = rng.pick(&[30, 100, 180, 300]);
    for number in 1..=steps {
        if rng.percent(1) {
            open(duel, rng, &pool)?;
        }
        let call = maker.call(rng, duel.space());
        step(duel, rng, number, &call)?;
    }
    Ok(())
}

/// Opens the space, sometimes after an opening that is turned away.
fn open(duel: &mut Duel, rng: &mut Rng, pool: &Pool) -> Result<(), String> {
    let chance = rng.pick(&[40, 70, 100]);
    let roster = match rng.percent(10) {
        true => any_roster(rng),
        false => pool.roster(rng, chance),
    };
    if rng.percent(30) {
        let roster = broken_roster(rng, roster.clone());
        step(duel, rng, 0, &Call::Open { roster })?;
    }
    step(duel, rng, 0, &Call::Open { roster }).map(|_| ())
}

/// A good roster with all names or any.
fn any_roster(rng: &mut Rng) -> Vec<u64> {
    let all = rng.percent(30);
    let mut roster: Vec<u64> = (0..ROSTER_WORDS)
        .map(|_| if all { u64::MAX } else { rng.word() })
        .collect();
    for keys in &mut roster[PARTIES..] {
        *keys >>= 1;
    }
    roster
}

fn sound_round(duel: &mut Duel, rng: &mut Rng, _round: u64) -> Result<(), String> {
    let pool = Pool::random(rng, 5, 2);
    let maker = Maker {
        pool: &pool,
        parties: &ALL_PARTIES,
        mix: MIXES[0],
    };
    duel.set_space(&sound_table(rng, &pool));
    for number in 1..=6 {
        let call = maker.call(rng, duel.space());
        if step(duel, rng, number, &call)? == 101 {
            return Err(format!("step {number}: a sound table was turned away"));
        }
    }
    Ok(())
}

/// The damage is known, so that the reference's own test of soundness is tested as well.
fn one_damage_round(duel: &mut Duel, rng: &mut Rng, round: u64) -> Result<(), String> {
    let damage = Damage::ALL[round as usize % Damage::ALL.len()];
    let pool = Pool::random(rng, 5, 2);
    let (sound, damaged) = damaged_table(rng, &pool, damage);
    let broken = broken_clause(&damaged);
    if broken != Some(damage.clause()) {
        return Err(format!("{damage:?}: the reference sees {broken:?} broken"));
    }
    refused_as_unsound(duel, rng, &pool, &sound, &damaged)
        .map_err(|text| format!("{damage:?}, {text}"))?;
    let roster = pool.roster(rng, 70);
    match duel.call(&Call::Open { roster }, rng)? {
        0 => Ok(()),
        _ => Err(format!("{damage:?}: not opened anew")),
    }
}

/// Each kind of call, made for the sound space, has to be refused on the unsound one.
pub fn refused_as_unsound(
    duel: &mut Duel,
    rng: &mut Rng,
    pool: &Pool,
    sound: &[u64],
    unsound: &[u64],
) -> Result<(), String> {
    let maker = Maker {
        pool,
        parties: &ALL_PARTIES,
        mix: UNBROKEN,
    };
    duel.set_space(unsound);
    for (number, kind) in CALLS.into_iter().enumerate() {
        let call = maker.call_of_kind(rng, sound, kind);
        if step(duel, rng, number + 1, &call)? != 101 {
            return Err(format!("step {}: not refused by 1", number + 1));
        }
    }
    Ok(())
}

fn random_damage_round(duel: &mut Duel, rng: &mut Rng, _round: u64) -> Result<(), String> {
    let pool = Pool::random(rng, 5, 2);
    let maker = Maker {
        pool: &pool,
        parties: &ALL_PARTIES,
        mix: MIXES[0],
    };
    let sound = sound_table(rng, &pool);
    let mut damaged = sound.clone();
    damage_at_random(rng, &mut damaged);
    duel.set_space(&damaged);
    for number in 1..=3 {
        let call = maker.call(rng, &sound);
        step(duel, rng, number, &call)?;
    }
    Ok(())
}

/// Lengths that no sound space has.
pub const LENGTHS: [usize; 11] = [0, 1, 9, 16, 17, 1_795, 1_808, 1_810, 1_823, 3_618, 65_536];

/// A sound table cut short or made longer by zeros.
fn length_round(duel: &mut Duel, rng: &mut Rng, round: u64) -> Result<(), String> {
    let length = LENGTHS[round as usize % LENGTHS.len()];
    let pool = Pool::random(rng, 5, 2);
    let sound = sound_table(rng, &pool);
    let mut other = sound.clone();
    other.resize(length, 0);
    refused_as_unsound(duel, rng, &pool, &sound, &other)
        .map_err(|text| format!("length {length}, {text}"))?;
    for roster in [pool.roster(rng, 70), Vec::new()] {
        if duel.call(&Call::Open { roster }, rng)? != 101 {
            return Err(format!("length {length}: opening not refused by 1"));
        }
    }
    Ok(())
}

fn arguments_round(duel: &mut Duel, rng: &mut Rng, _round: u64) -> Result<(), String> {
    let pool = Pool::random(rng, 5, 2);
    let maker = Maker {
        pool: &pool,
        parties: &ALL_PARTIES,
        mix: BROKEN,
    };
    duel.set_space(&sound_table(rng, &pool));
    for number in 1..=6 {
        let call = maker.call(rng, duel.space());
        step(duel, rng, number, &call)?;
    }
    Ok(())
}

/// Everybody's partition 0 is taken from one party or more, and the table is still sound. Then key 0
/// is taken from one, and it isn't.
fn defaults_round(duel: &mut Duel, rng: &mut Rng, _round: u64) -> Result<(), String> {
    let pool = Pool::random(rng, 5, 2);
    let maker = Maker {
        pool: &pool,
        parties: &ALL_PARTIES,
        mix: MIXES[0],
    };
    let mut table = sound_table(rng, &pool);
    let lacking = rng.between(1, (1 << PARTIES) - 1);
    for party in 0..PARTIES {
        table[PARTITIONS + party] |= partition_bit(0);
        table[PARTITIONS + party] ^= (lacking >> party & 1) as u64 * partition_bit(0);
    }
    if let Some(clause) = broken_clause(&table) {
        return Err(format!("the reference sees {clause:?} broken"));
    }
    duel.set_space(&table);
    for number in 1..=4 {
        let call = maker.call(rng, duel.space());
        if step(duel, rng, number, &call)? == 101 {
            return Err(format!("step {number}: refused by 1"));
        }
    }
    let sound = duel.space().to_vec();
    let mut unsound = sound.clone();
    unsound[KEYS + rng.below(PARTIES)] &= !key_bit(0);
    match broken_clause(&unsound) {
        Some(Clause::DefaultKey) => refused_as_unsound(duel, rng, &pool, &sound, &unsound),
        clause => Err(format!("without key 0 the reference sees {clause:?}")),
    }
}
