//! Makes the same call of a system and of the reference and compares everything afterwards.

use crate::both::{same, Both};
use crate::bounds;
use crate::call::{found_fields, Call};
use crate::missing::Missing;
use crate::partition_0;
use crate::pool::lacks_name_in;
use crate::rng::Rng;
use crate::rows;
use crate::sets;
use crate::space::Space;
use crate::tally::Tally;
use reference::table::{row_start, FIRST_ROW, LIVE, ROWS, WORDS};
use reference::{Operation, Reference};

/// A look that found a name which its party still doesn't hold.
const NAMES_LOOKED_AT: &str = "looks that found names they didn't gain";
const NAMES_RECEIVED: &str = "receives that gained names";
const NAMES_TAKEN: &str = "takes that gained names";
/// A take that had rows after the taken one.
const ROWS_MOVED: &str = "takes after which later rows moved up";
/// A call on a table with all rows live.
const TABLE_FULL: &str = "calls on a table with 128 live rows";

/// All that has to happen.
pub const HAPPENINGS: [&str; 5] = [
    NAMES_LOOKED_AT,
    NAMES_RECEIVED,
    NAMES_TAKEN,
    ROWS_MOVED,
    TABLE_FULL,
];

/// A system and the reference, side by side.
pub struct Duel<'a> {
    both: Both<'a>,
    pub tally: Tally,
    pub missing: Missing,
}

impl<'a> Duel<'a> {
    pub fn new(system: &'a mut dyn Space) -> Duel<'a> {
        Duel {
            both: Both::new(system, Reference::correct()),
            tally: Tally::default(),
            missing: Missing::default(),
        }
    }

    /// Lends both this space from now on.
    pub fn set_space(&mut self, words: &[u64]) {
        self.both.set_space(words);
    }

    /// The space as it is.
    pub fn space(&self) -> &[u64] {
        self.both.space()
    }

    /// Makes the call of both. Gives the answer, or what differs.
    pub fn call(&mut self, call: &Call, rng: &mut Rng) -> Result<u32, String> {
        let before = Sight::of(self.space());
        let code = self.both.call(call, call, rng, same)?;
        self.tally.count(call, code);
        self.missing.count(call, code, &before.words);
        let result = self.both.references.result.lent();
        for what in bounds::happenings(call, code, result, before.rows()) {
            self.tally.happened(what);
        }
        for what in partition_0::happenings(call, code, result, &before.words, self.space()) {
            self.tally.happened(what);
        }
        let row = self.row_of(call, code, &before);
        for what in sets::happenings(call, code, &before.for_sets(call, row)) {
            self.tally.happened(what);
        }
        if let Some(row) = row {
            let whats = rows::happenings(call.kind(), row, before.live);
            whats.for_each(|what| self.tally.happened(what));
        }
        self.note_happenings(call, code, before);
        Ok(code)
    }

    /// The row that a put wrote, or that was found.
    fn row_of(&self, call: &Call, code: u32, before: &Sight) -> Option<usize> {
        match call {
            Call::Put { .. } if code == 0 => Some(before.live),
            Call::Find(operation, query) if (1..=8).contains(&code) => {
                let query = query.of(&query.fields);
                let reference = &self.both.reference;
                reference.matching_row(*operation, &before.words, query)
            }
            _ => None,
        }
    }

    fn note_happenings(&mut self, call: &Call, code: u32, before: Sight) {
        if before.live == ROWS {
            self.tally.happened(TABLE_FULL);
        }
        let Call::Find(operation, query) = call else {
            return;
        };
        let found = found_fields(call.kind(), code, self.both.references.result.lent());
        if found.is_empty() {
            return;
        }
        let after = Sight::of(self.space());
        let gained = after.holdings() != before.holdings();
        match operation {
            Operation::Look if lacks_name_in(self.space(), query.party, found) => {
                self.tally.happened(NAMES_LOOKED_AT);
            }
            Operation::Receive if gained => self.tally.happened(NAMES_RECEIVED),
            Operation::Take if gained => self.tally.happened(NAMES_TAKEN),
            _ => {}
        }
        // The rows before the taken one stay; if the last one was taken, its place is now free.
        if *operation == Operation::Take && after.last_kept_differs(&before) {
            self.tally.happened(ROWS_MOVED);
        }
    }
}

/// A space before or after a call, to tell what happened; of no table there are no words.
struct Sight {
    words: Vec<u64>,
    live: usize,
}

impl Sight {
    fn of(space: &[u64]) -> Sight {
        if space.len() != WORDS || space[LIVE] > ROWS as u64 {
            return Sight {
                words: Vec::new(),
                live: 0,
            };
        }
        Sight {
            words: space.to_vec(),
            live: space[LIVE] as usize,
        }
    }

    fn holdings(&self) -> &[u64] {
        self.words.get(LIVE + 1..FIRST_ROW).unwrap_or_default()
    }

    fn rows(&self) -> &[u64] {
        let rows = FIRST_ROW..row_start(self.live);
        self.words.get(rows).unwrap_or_default()
    }

    /// With the row that the call found, if it looked for one.
    fn for_sets(&self, call: &Call, row: Option<usize>) -> sets::Before<'_> {
        let found = row.filter(|_| matches!(call, Call::Find(..)));
        sets::Before {
            words: &self.words,
            rows: self.rows(),
            found: found.map(|row| &self.words[row_start(row)..row_start(row + 1)]),
        }
    }

    /// Whether the rows that are left aren't just the first of those before.
    fn last_kept_differs(&self, before: &Sight) -> bool {
        !before.rows().starts_with(self.rows())
    }
}
