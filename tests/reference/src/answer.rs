//! What a call answers, and the number that stands for it in the C interface.

/// The answer of a call.
#[derive(Clone, Copy, Debug, PartialEq, Eq)]
pub enum Answer {
    /// Of open and put.
    Done,
    /// Of look, receive and take, with the field count.
    Found(usize),
    /// Of look, receive and take.
    None,
    /// With the refusal's number: 1 to 9, 13 or 14 of a call on a space.
    Refused(u32),
}

impl Answer {
    /// 0 is "done" and "none", 1 to 8 is "found", 100 plus its number is a refusal.
    pub fn code(self) -> u32 {
        match self {
            Answer::Done | Answer::None => 0,
            Answer::Found(count) => count as u32,
            Answer::Refused(number) => 100 + number,
        }
    }
}
