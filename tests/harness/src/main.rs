//! Tests the shared space's library and its programs against the reference.
//!
//! Parts are named as arguments: `cases`, `differential` and `isolation` test the linked library,
//! `console` the program that the variable `CONSOLE` names, `roster` the program that `ROSTER`
//! names and the linked library's reading of roster files, `order` the program that `ORDER` names
//! and the linked library's start orders, `variants` the harness itself, and `reference` does with
//! the reference what the first three do with the library. A part that is named must be runnable.
//! Without arguments all parts run except those that lack a library or a program, which are printed
//! as skipped. The library is linked if `SPACE_LIB_DIR` names its directory when the harness is
//! built.

mod both;
mod bounds;
mod call;
mod cases;
mod console;
mod differential;
mod duel;
mod earlier;
mod edge;
mod enough_words;
mod files;
mod guarded;
mod isolation;
#[cfg(library_linked)]
mod library;
mod listed;
mod looks;
mod missing;
mod names_first;
mod order;
mod order_files;
mod order_lists;
mod order_tally;
mod partition_0;
mod pool;
mod program;
mod report;
mod rng;
mod roster;
mod roster_files;
mod roster_tally;
mod rows;
mod sayings;
mod scripts;
mod sets;
mod singles;
mod space;
mod tables;
mod tally;
mod told_apart;
mod variants;

use looks::Look;
use order::OrderCall;
use reference::Reference;
use report::Report;
use roster::ReadRoster;
use space::Space;
use std::process::ExitCode;
use std::time::{Duration, Instant};

/// The whole run is ended after this time, whatever hangs.
const TIME_LIMIT: Duration = Duration::from_secs(600);

#[cfg(not(library_linked))]
const NO_LIBRARY: &str = "built without SPACE_LIB_DIR, no library is linked";

const PARTS: [&str; 8] = [
    "reference",
    "variants",
    "cases",
    "differential",
    "isolation",
    "console",
    "roster",
    "order",
];

fn main() -> ExitCode {
    let named: Vec<String> = std::env::args().skip(1).collect();
    if let Some(unknown) = named.iter().find(|name| !PARTS.contains(&name.as_str())) {
        eprintln!("no part {unknown}; parts are {}", PARTS.join(", "));
        return ExitCode::from(2);
    }
    end_after(TIME_LIMIT);
    let mut report = Report::default();
    for part in PARTS {
        let wanted = named.iter().any(|name| name == part);
        if wanted || named.is_empty() {
            let start = Instant::now();
            if let Err(lack) = run_part(&mut report, part) {
                skip(&mut report, part, lack, wanted);
            }
            println!("  {part}: {:.1} s", start.elapsed().as_secs_f64());
        }
    }
    match report.finish() {
        true => ExitCode::SUCCESS,
        false => ExitCode::FAILURE,
    }
}

/// Runs a part, or says what it lacks.
fn run_part(report: &mut Report, part: &str) -> Result<(), &'static str> {
    match part {
        "reference" => {
            let mut reference = Reference::correct();
            cases::check(report, "reference", &mut reference);
            compare_calls(report, "reference", &mut reference);
            isolation::check(report, "reference", &mut reference);
        }
        "variants" => {
            variants::check(report);
            variants::check_defaults(report);
            rows::check_variants(report);
            looks::check_variants(report);
            singles::check_variants(report);
            told_apart::check_variants(report);
            listed::check_variants(report);
            names_first::check_variants(report);
            enough_words::check_variants(report);
            isolation::check_variants(report);
            console::check_variants(report);
            roster::check_variants(report);
            order::check_variants(report);
        }
        "cases" => cases::check(report, "library", library()?.as_mut()),
        "differential" => {
            compare_calls(report, "library", library()?.as_mut());
            looks::check_closed(report, look()?);
        }
        "isolation" => isolation::check(report, "library", library()?.as_mut()),
        "console" => {
            let program = std::env::var("CONSOLE").map_err(|_| "CONSOLE names no program")?;
            console::compare(report, &program);
        }
        "roster" => {
            let program = std::env::var("ROSTER").map_err(|_| "ROSTER names no program")?;
            roster::compare(report, &program, read_roster()?);
        }
        _ => {
            let program = std::env::var("ORDER").map_err(|_| "ORDER names no program")?;
            order::compare(report, &program, start_order()?);
        }
    }
    Ok(())
}

fn compare_calls(report: &mut Report, who: &str, system: &mut dyn Space) {
    differential::compare(report, who, system);
    rows::compare(report, who, system);
    looks::check(report, who, system);
    singles::check(report, who, system);
    told_apart::check(report, who, system);
    listed::check(report, who, system);
    names_first::check(report, who, system);
    enough_words::check(report, who, system);
}

#[cfg(library_linked)]
fn library() -> Result<Box<dyn Space>, &'static str> {
    Ok(Box::new(library::Library))
}

#[cfg(not(library_linked))]
fn library() -> Result<Box<dyn Space>, &'static str> {
    Err(NO_LIBRARY)
}

#[cfg(library_linked)]
fn look() -> Result<&'static Look<'static>, &'static str> {
    Ok(&library::look)
}

#[cfg(not(library_linked))]
fn look() -> Result<&'static Look<'static>, &'static str> {
    Err(NO_LIBRARY)
}

#[cfg(library_linked)]
fn read_roster() -> Result<&'static ReadRoster<'static>, &'static str> {
    Ok(&library::read_roster)
}

#[cfg(not(library_linked))]
fn read_roster() -> Result<&'static ReadRoster<'static>, &'static str> {
    Err(NO_LIBRARY)
}

#[cfg(library_linked)]
fn start_order() -> Result<&'static OrderCall<'static>, &'static str> {
    Ok(&library::start_order)
}

#[cfg(not(library_linked))]
fn start_order() -> Result<&'static OrderCall<'static>, &'static str> {
    Err(NO_LIBRARY)
}

/// A part that was asked for by name fails if it can't run.
fn skip(report: &mut Report, part: &str, lack: &str, wanted: bool) {
    if wanted {
        report.check(part, Err(lack.to_string()));
    } else {
        println!("skipped: {part}: {lack}");
    }
}

fn end_after(limit: Duration) {
    std::thread::spawn(move || {
        std::thread::sleep(limit);
        println!("FAILED: not done within {} s", limit.as_secs());
        std::process::exit(1);
    });
}
