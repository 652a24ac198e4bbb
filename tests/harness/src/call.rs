//! One call with all its arguments, so that it can be made twice and printed.

use crate::space::Space;
use reference::{Operation, Pair};

/// The kinds of calls.
#[derive(Clone, Copy, Debug, PartialEq, Eq, PartialOrd, Ord)]
pub enum Kind {
    Open,
    Put,
    Find(Operation),
}

impl Kind {
    pub const LOOK: Kind = Kind::Find(Operation::Look);
    pub const RECEIVE: Kind = Kind::Find(Operation::Receive);
    pub const TAKE: Kind = Kind::Find(Operation::Take);
    pub const ALL: [Kind; 5] = [Kind::Open, Kind::Put, Kind::LOOK, Kind::RECEIVE, Kind::TAKE];
    /// Those that lend result words.
    pub const FINDS: [Kind; 3] = [Kind::LOOK, Kind::RECEIVE, Kind::TAKE];

    /// The word for it, also in the console's lines.
    pub fn word(self) -> &'static str {
        match self {
            Kind::Open => "open",
            Kind::Put => "put",
            Kind::Find(Operation::Look) => "look",
            Kind::Find(Operation::Receive) => "receive",
            Kind::Find(Operation::Take) => "take",
        }
    }
}

/// A call with its arguments. What the result words held before is no part of it.
#[derive(Clone, Debug, PartialEq, Eq)]
pub enum Call {
    Open {
        roster: Vec<u64>,
    },
    Put {
        party: u32,
        read: Pair,
        take: Pair,
        fields: Vec<u64>,
    },
    Find(Operation, Query),
}

/// What a look, a receive and a take name alike.
#[derive(Clone, Debug, PartialEq, Eq)]
pub struct Query {
    pub party: u32,
    pub pair: Pair,
    pub fields: Vec<u64>,
    pub result_len: usize,
}

impl Query {
    /// As the calls take it, with the fields at that place.
    pub fn of<'a>(&self, fields: &'a [u64]) -> reference::Query<'a> {
        reference::Query {
            party: self.party,
            pair: self.pair,
            fields,
        }
    }
}

impl Call {
    pub fn kind(&self) -> Kind {
        match self {
            Call::Open { .. } => Kind::Open,
            Call::Put { .. } => Kind::Put,
            Call::Find(operation, _) => Kind::Find(*operation),
        }
    }

    /// The party; an opening names none.
    pub fn party(&self) -> Option<u32> {
        match self {
            Call::Open { .. } => None,
            Call::Put { party, .. } => Some(*party),
            Call::Find(_, query) => Some(query.party),
        }
    }

    /// The words that are lent only to be read: roster or fields.
    pub fn input(&self) -> &[u64] {
        match self {
            Call::Open { roster } => roster,
            Call::Put { fields, .. } => fields,
            Call::Find(_, query) => &query.fields,
        }
    }

    /// The number of result words that are lent.
    pub fn result_len(&self) -> usize {
        match self {
            Call::Open { .. } | Call::Put { .. } => 0,
            Call::Find(_, query) => query.result_len,
        }
    }

    /// Makes the call; `input` is the call's own, at a place of the caller's choice.
    pub fn make(
        &self,
        system: &mut dyn Space,
        space: &mut [u64],
        input: &[u64],
        result: &mut [u64],
    ) -> u32 {
        match self {
            Call::Open { .. } => system.open(space, input),
            Call::Put {
                party, read, take, ..
            } => system.put(space, *party, *read, *take, input),
            Call::Find(operation, query) => system.find(*operation, space, query.of(input), result),
        }
    }
}

/// The answers where a name isn't held, in the order of their table.
pub const FOR_NAMES: [u32; 3] = [113, 114, 107];

/// An answer in words.
pub fn answer_text(kind: Kind, code: u32) -> String {
    match (kind, code) {
        (Kind::Open | Kind::Put, 0) => "done".to_string(),
        (_, 0) => "none".to_string(),
        (Kind::Find(_), 1..=8) => format!("found {code}"),
        (_, 101..=109 | 113 | 114) => format!("refusal {}", code - 100),
        _ => format!("unknown answer {code}"),
    }
}

/// As many result words as an answer "found" counts; other answers have none.
pub fn found_fields(kind: Kind, code: u32, result: &[u64]) -> &[u64] {
    match kind {
        Kind::Find(_) if code as usize <= result.len() => &result[..code as usize],
        _ => &[],
    }
}

/// Whether an answer is a refusal.
pub fn is_refusal(code: u32) -> bool {
    code > 100
}
