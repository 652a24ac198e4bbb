//! Lent memory that begins or ends at pages which nobody may touch: a step across ends the harness.

use std::ffi::{c_int, c_long, c_void};

extern "C" {
    fn mmap(
        address: *mut c_void,
        length: usize,
        protection: c_int,
        flags: c_int,
        file: c_int,
        offset: c_long,
    ) -> *mut c_void;

    fn mprotect(address: *mut c_void, length: usize, protection: c_int) -> c_int;
}

const NOTHING: c_int = 0;
const READ: c_int = 1;
const READ_AND_WRITE: c_int = 3;
const PRIVATE_AND_OF_NO_FILE: c_int = 0x22;

/// A multiple of the page's length on every machine.
const PAGES: usize = 65_536;
/// Guard items on the side where there is no page's edge.
const GUARDS: usize = 16;

/// At which edge something is lent.
#[derive(Clone, Copy, Debug, PartialEq, Eq)]
pub enum Side {
    First,
    Last,
}

/// What can be lent: whatever its bits are, they stand for one.
pub trait Item: Copy + PartialEq + From<u8> {}

impl Item for u8 {}
impl Item for u64 {}

/// Bytes or words to lend at an edge. The pages stay for as long as the harness runs.
pub struct Edge<T> {
    start: *mut T,
    room: usize,
    place: usize,
    length: usize,
}

impl<T: Item> Edge<T> {
    /// Room for at least so many.
    pub fn new(most: usize) -> Edge<T> {
        let size = std::mem::size_of::<T>();
        let bytes = ((most + GUARDS) * size).next_multiple_of(PAGES);
        let whole = bytes + 2 * PAGES;
        // New memory that nothing else uses, of which only the middle is ever opened.
        let start = unsafe {
            let all = mmap(
                std::ptr::null_mut(),
                whole,
                NOTHING,
                PRIVATE_AND_OF_NO_FILE,
                -1,
                0,
            );
            assert!(all as isize != -1, "no memory of {whole} bytes");
            all.cast::<u8>().add(PAGES).cast::<T>()
        };
        Edge {
            start,
            room: bytes / size,
            place: 0,
            length: 0,
        }
    }

    /// Lends these from now on, at this edge and with guards on the other side.
    pub fn set(&mut self, contents: &[T], side: Side) {
        assert!(
            contents.len() + GUARDS <= self.room,
            "more than there is room"
        );
        self.open_to(READ_AND_WRITE);
        self.length = contents.len();
        self.place = match side {
            Side::First => 0,
            Side::Last => self.room - self.length,
        };
        self.lent_mut().copy_from_slice(contents);
        let guards = self.guards();
        for (number, guard) in self.all_mut()[guards].iter_mut().enumerate() {
            *guard = guard_item(number);
        }
    }

    /// From now on, until something else is lent, a write ends the harness as well.
    pub fn close(&mut self) {
        self.open_to(READ);
    }

    fn open_to(&mut self, access: c_int) {
        let bytes = self.room * std::mem::size_of::<T>();
        let opened = unsafe { mprotect(self.start.cast(), bytes, access) };
        assert!(opened == 0, "the memory can't be opened");
    }

    /// What is lent.
    pub fn lent(&self) -> &[T] {
        &self.all()[self.place..self.place + self.length]
    }

    /// What is lent, to be written; not while it is closed.
    pub fn lent_mut(&mut self) -> &mut [T] {
        let (first, end) = (self.place, self.place + self.length);
        &mut self.all_mut()[first..end]
    }

    /// Whether nothing was written beside what is lent.
    pub fn kept_guards(&self) -> bool {
        self.all()[self.guards()]
            .iter()
            .enumerate()
            .all(|(number, guard)| *guard == guard_item(number))
    }

    fn guards(&self) -> std::ops::Range<usize> {
        match self.place {
            0 => self.length..self.length + GUARDS,
            place => place - GUARDS..place,
        }
    }

    // Sound since the pages stay for good and are aligned for every item; `set` opens them.
    fn all(&self) -> &[T] {
        unsafe { std::slice::from_raw_parts(self.start, self.room) }
    }

    fn all_mut(&mut self) -> &mut [T] {
        unsafe { std::slice::from_raw_parts_mut(self.start, self.room) }
    }
}

/// Never 0 and different everywhere, so that no shift goes unseen.
fn guard_item<T: Item>(number: usize) -> T {
    T::from(0xA1 + number as u8)
}

#[cfg(test)]
mod tests {
    use super::*;

    #[test]
    fn lends_what_is_set() {
        let mut bytes = Edge::<u8>::new(100);
        let mut words = Edge::<u64>::new(20);
        for side in [Side::First, Side::Last] {
            for length in 0..=20 {
                bytes.set(&vec![7; length], side);
                words.set(&vec![9; length], side);
                assert_eq!(bytes.lent(), vec![7; length]);
                assert_eq!(words.lent(), vec![9; length]);
                assert!(bytes.kept_guards() && words.kept_guards());
            }
        }
    }

    #[test]
    fn ends_at_the_edge() {
        let mut words = Edge::<u64>::new(20);
        words.set(&[1, 2, 3], Side::Last);
        assert_eq!(words.lent().as_ptr_range().end as usize % 4_096, 0);
        words.set(&[1, 2, 3], Side::First);
        assert_eq!(words.lent().as_ptr() as usize % 4_096, 0);
    }

    #[test]
    fn closed_until_something_else_is_lent() {
        let mut words = Edge::<u64>::new(20);
        words.set(&[1, 2, 3], Side::Last);
        assert_eq!(access(&words), "rw-p");
        words.close();
        assert_eq!(access(&words), "r--p");
        assert_eq!(words.lent(), [1, 2, 3]);
        words.set(&[4], Side::First);
        assert_eq!(access(&words), "rw-p");
    }

    /// What may be done with what is lent, by the system's own list.
    fn access(words: &Edge<u64>) -> String {
        let place = words.lent().as_ptr() as usize;
        let list = std::fs::read_to_string("/proc/self/maps").expect("the list of all memory");
        let number = |text: &str| usize::from_str_radix(text, 16).expect("an address");
        let of_line = |line: &str| {
            let (range, rest) = line.split_once(' ')?;
            let (first, end) = range.split_once('-')?;
            let here = (number(first)..number(end)).contains(&place);
            here.then(|| rest[..4].to_string())
        };
        list.lines().find_map(of_line).expect("a line for it")
    }

    #[test]
    fn guards_are_seen() {
        for side in [Side::First, Side::Last] {
            for number in 0..GUARDS {
                let mut words = Edge::<u64>::new(20);
                words.set(&[1, 2, 3], side);
                let place = words.guards().start + number;
                words.all_mut()[place] ^= 1 << 40;
                assert!(!words.kept_guards());
            }
        }
    }
}
