//! The shared space, written a second time straight from the rules.
//!
//! It is meant to be compared with, so it is simple and slow on purpose: every call tests the
//! whole table clause by clause and counts rows anew. `Variant` selects a known blunder, with
//! which the comparison itself is tested; `Reference::correct` has none. The same of the console,
//! `ConsoleVariant` and `console`, of roster files, `RosterVariant` and `RosterReader::correct`, and
//! of start orders, `OrderVariant` and `StartOrder::correct`.

pub mod answer;
pub mod calls;
pub mod console;
pub mod console_variant;
mod defaults;
pub mod lines;
mod missing;
pub mod names;
pub mod order;
pub mod order_variant;
pub mod roster;
pub mod roster_variant;
mod sets;
pub mod table;
pub mod text_slip;
pub mod variant;

pub use answer::Answer;
pub use calls::{Operation, Query, Reference};
pub use console::{console, console_with};
pub use console_variant::ConsoleVariant;
pub use names::{co_key, Field, Pair};
pub use order::{order, start_order, StartOrder};
pub use order_variant::OrderVariant;
pub use roster::{read_roster, roster, RosterReader};
pub use roster_variant::RosterVariant;
pub use table::Clause;
pub use text_slip::TextSlip;
pub use variant::{Step, Variant};
