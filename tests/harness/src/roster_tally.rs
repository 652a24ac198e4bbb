//! What can be said of roster files.

use reference::lines::Fault;
use reference::roster::{Name, Right, LONGEST_FILE};
use reference::{RosterReader, RosterVariant, TextSlip};

/// What can be said of a file; each must come up.
pub const SAYINGS: [&str; 27] = [
    "accepted, no rights",
    "accepted, partition 0 for nobody",
    "accepted, partition 0 for some",
    "accepted, partition 0 for all",
    "accepted, key 0 for nobody",
    "accepted, rights",
    "accepted, all rights",
    "accepted, a right twice",
    "accepted, in another order",
    "accepted, 16384 bytes",
    "no10, too long",
    "no10, 16385 bytes",
    "no10, empty",
    "no10, names line",
    "no11, last line feed",
    "no11, items",
    "no11, kind",
    "no11, number",
    "no11, with a number out of range in the line",
    "no11, with a line out of range after it",
    "no12, party",
    "no12, partition",
    "no12, key",
    "no12, with an unreadable line after it",
    "no12, more than ten digits",
    "no12, in range in 64 bits",
    "no12, in range in 32 bits",
];

/// All that can be said of a file.
pub fn sayings(file: &[u8]) -> Vec<&'static str> {
    match RosterReader::correct().read(file) {
        Ok(rights) => sayings_of_accepted(file, &rights),
        Err(fault) => sayings_of_refused(file, fault),
    }
}

fn sayings_of_accepted(file: &[u8], rights: &[Right]) -> Vec<&'static str> {
    let places: Vec<(usize, bool, i32)> = rights.iter().map(|right| place(*right)).collect();
    let mut ordered = places.clone();
    ordered.sort_unstable();
    let in_order = ordered == places;
    ordered.dedup();
    let mut said = vec![match rights {
        [] => "accepted, no rights",
        _ => "accepted, rights",
    }];
    let holders = |name: Name| {
        let such = ordered
            .iter()
            .filter(|at| (at.1, at.2) == kind_and_number(name));
        such.count()
    };
    said.push(match holders(Name::Partition(0)) {
        0 => "accepted, partition 0 for nobody",
        8 => "accepted, partition 0 for all",
        _ => "accepted, partition 0 for some",
    });
    if holders(Name::Key(0)) == 0 {
        said.push("accepted, key 0 for nobody");
    }
    if ordered.len() == 8 * 127 {
        said.push("accepted, all rights");
    }
    if ordered.len() < rights.len() {
        said.push("accepted, a right twice");
    }
    if !in_order {
        said.push("accepted, in another order");
    }
    if file.len() == LONGEST_FILE {
        said.push("accepted, 16384 bytes");
    }
    said
}

/// Where a right stands among those that are printed.
fn place(right: Right) -> (usize, bool, i32) {
    let (kind, number) = kind_and_number(right.name);
    (right.party, kind, number)
}

/// Partitions before keys.
fn kind_and_number(name: Name) -> (bool, i32) {
    match name {
        Name::Partition(partition) => (false, partition as i32),
        Name::Key(key) => (true, key),
    }
}

fn sayings_of_refused(file: &[u8], fault: Fault) -> Vec<&'static str> {
    let mut said = vec![match fault {
        Fault::TooLong => "no10, too long",
        Fault::NamesLine if file.is_empty() => "no10, empty",
        Fault::NamesLine => "no10, names line",
        Fault::LineFeed => "no11, last line feed",
        Fault::Items => "no11, items",
        Fault::Kind => "no11, kind",
        Fault::Number => "no11, number",
        Fault::Party => "no12, party",
        Fault::Partition => "no12, partition",
        Fault::Key => "no12, key",
        Fault::PairCount | Fault::ResultWords | Fault::PairParty => "a fault of pairs",
    }];
    if file.len() == LONGEST_FILE + 1 {
        said.push("no10, 16385 bytes");
    }
    match fault.number() {
        11 => said.extend(sayings_of_unreadable(file)),
        12 => said.extend(sayings_of_out_of_range(file)),
        _ => {}
    }
    said
}

/// What a blunder makes of a file: the number of its refusal.
fn taken(file: &[u8], variant: RosterVariant) -> Option<u32> {
    let read = RosterReader::with(variant).read(file);
    read.err().map(|fault| fault.number())
}

/// Whether some line has a fault of this number.
fn has_line_of(file: &[u8], number: u32) -> bool {
    let lines = RosterReader::correct().lines(file).unwrap_or_default();
    let mut faults = lines.iter().filter_map(|line| line.err());
    faults.any(|fault| fault.number() == number)
}

fn sayings_of_unreadable(file: &[u8]) -> Vec<&'static str> {
    let mut said = Vec::new();
    let blunders = [
        RosterVariant::PartyTestedFirst,
        RosterVariant::NameTestedFirst,
        RosterVariant::LineFeedTestedLast,
    ];
    if blunders
        .iter()
        .any(|blunder| taken(file, *blunder) == Some(12))
    {
        said.push("no11, with a number out of range in the line");
    }
    if has_line_of(file, 12) {
        said.push("no11, with a line out of range after it");
    }
    said
}

fn sayings_of_out_of_range(file: &[u8]) -> Vec<&'static str> {
    let mut said = Vec::new();
    if has_line_of(file, 11) {
        said.push("no12, with an unreadable line after it");
    }
    if taken(file, RosterVariant::Text(TextSlip::LongNumberIsUnreadable)) == Some(11) {
        said.push("no12, more than ten digits");
    }
    if taken(file, RosterVariant::Text(TextSlip::NumberWrapsAt64)).is_none() {
        said.push("no12, in range in 64 bits");
    }
    if taken(file, RosterVariant::Text(TextSlip::NumberWrapsAt32)).is_none() {
        said.push("no12, in range in 32 bits");
    }
    said
}
