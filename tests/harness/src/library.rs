//! The linked library, called through the declarations of `space.h`.

use crate::space::Space;
use reference::{Operation, Pair, Query};

extern "C" {
    fn space_open(space: *mut u64, space_len: usize, roster: *const u64, roster_len: usize) -> u32;

    fn space_put(
        space: *mut u64,
        space_len: usize,
        party: u32,
        read_partitions: u64,
        read_key: i32,
        take_partitions: u64,
        take_key: i32,
        fields: *const u64,
        field_count: usize,
    ) -> u32;

    fn space_look(
        space: *const u64,
        space_len: usize,
        party: u32,
        partitions: u64,
        key: i32,
        fields: *const u64,
        field_count: usize,
        result: *mut u64,
        result_len: usize,
    ) -> u32;

    fn space_receive(
        space: *mut u64,
        space_len: usize,
        party: u32,
        partitions: u64,
        key: i32,
        fields: *const u64,
        field_count: usize,
        result: *mut u64,
        result_len: usize,
    ) -> u32;

    fn space_take(
        space: *mut u64,
        space_len: usize,
        party: u32,
        partitions: u64,
        key: i32,
        fields: *const u64,
        field_count: usize,
        result: *mut u64,
        result_len: usize,
    ) -> u32;

    fn space_read_roster(
        file: *const u8,
        file_len: usize,
        roster: *mut u64,
        roster_len: usize,
    ) -> u32;

    fn space_start_order(
        pairs: *const u64,
        pair_count: usize,
        result: *mut u64,
        result_len: usize,
    ) -> u32;
}

/// Looks at a space that is lent only to be read. Sound as the calls below are.
pub fn look(space: &[u64], query: Query, result: &mut [u64]) -> u32 {
    unsafe { look_at(space.as_ptr(), space.len(), query, result) }
}

unsafe fn look_at(space: *const u64, space_len: usize, query: Query, result: &mut [u64]) -> u32 {
    space_look(
        space,
        space_len,
        query.party,
        query.pair.set,
        query.pair.key,
        query.fields.as_ptr(),
        query.fields.len(),
        result.as_mut_ptr(),
        result.len(),
    )
}

/// Reads a roster file into the lent words. Sound as the calls below are.
pub fn read_roster(file: &[u8], roster: &mut [u64]) -> u32 {
    unsafe { space_read_roster(file.as_ptr(), file.len(), roster.as_mut_ptr(), roster.len()) }
}

/// Puts the parties of these pairs in order. Sound as the calls below are.
pub fn start_order(pairs: &[u64], result: &mut [u64]) -> u32 {
    unsafe {
        space_start_order(
            pairs.as_ptr(),
            pairs.len(),
            result.as_mut_ptr(),
            result.len(),
        )
    }
}

/// The calls of `libspace_c.a`.
pub struct Library;

// Sound as far as the header goes: a slice's pointer is never null, and slices that are lent
// together as mutable never overlap.
impl Space for Library {
    fn open(&mut self, space: &mut [u64], roster: &[u64]) -> u32 {
        unsafe {
            space_open(
                space.as_mut_ptr(),
                space.len(),
                roster.as_ptr(),
                roster.len(),
            )
        }
    }

    fn put(
        &mut self,
        space: &mut [u64],
        party: u32,
        read: Pair,
        take: Pair,
        fields: &[u64],
    ) -> u32 {
        unsafe {
            space_put(
                space.as_mut_ptr(),
                space.len(),
                party,
                read.set,
                read.key,
                take.set,
                take.key,
                fields.as_ptr(),
                fields.len(),
            )
        }
    }

    fn find(&mut self, op: Operation, space: &mut [u64], query: Query, result: &mut [u64]) -> u32 {
        let call = match op {
            // By a pointer that may write, so that a word which is written all the same is seen.
            Operation::Look => {
                return unsafe { look_at(space.as_mut_ptr(), space.len(), query, result) };
            }
            Operation::Receive => space_receive,
            Operation::Take => space_take,
        };
        unsafe {
            call(
                space.as_mut_ptr(),
                space.len(),
                query.party,
                query.pair.set,
                query.pair.key,
                query.fields.as_ptr(),
                query.fields.len(),
                result.as_mut_ptr(),
                result.len(),
            )
        }
    }
}
