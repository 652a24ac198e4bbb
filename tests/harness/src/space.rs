//! What is tested: anything with the five calls, answering as the C interface does.

use reference::{Operation, Pair, Query, Reference};

/// The five calls. An answer is 0 for "done" and "none", 1 to 8 for "found" with that count, and
/// 100 plus its number for a refusal.
pub trait Space {
    fn open(&mut self, space: &mut [u64], roster: &[u64]) -> u32;

    fn put(&mut self, space: &mut [u64], party: u32, read: Pair, take: Pair, fields: &[u64])
        -> u32;

    /// Looks, receives or takes. A look may not write the space, but what is tested might.
    fn find(&mut self, op: Operation, space: &mut [u64], query: Query, result: &mut [u64]) -> u32;
}

impl Space for Reference {
    fn open(&mut self, space: &mut [u64], roster: &[u64]) -> u32 {
        Reference::open(self, space, roster).code()
    }

    fn put(
        &mut self,
        space: &mut [u64],
        party: u32,
        read: Pair,
        take: Pair,
        fields: &[u64],
    ) -> u32 {
        Reference::put(self, space, party, read, take, fields).code()
    }

    fn find(&mut self, op: Operation, space: &mut [u64], query: Query, result: &mut [u64]) -> u32 {
        Reference::find(self, op, space, query, result).code()
    }
}
