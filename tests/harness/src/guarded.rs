//! Lent words with guard words before and after them.

/// Guard words on each side.
const GUARDS: usize = 16;

/// Words to lend, guarded.
#[derive(Clone, Debug)]
pub struct Guarded {
    words: Vec<u64>,
}

/// The guard word at a place: never 0 and different everywhere, so that no shift goes unseen.
fn guard(place: usize) -> u64 {
    0x6A55_D06A_0000_0000 + place as u64
}

impl Guarded {
    pub fn new() -> Guarded {
        Guarded {
            words: (0..2 * GUARDS).map(guard).collect(),
        }
    }

    /// Lends these words from now on.
    pub fn set(&mut self, contents: &[u64]) {
        self.words.clear();
        self.words.extend((0..GUARDS).map(guard));
        self.words.extend_from_slice(contents);
        self.words.extend((GUARDS..2 * GUARDS).map(guard));
    }

    /// The words lent.
    pub fn lent(&self) -> &[u64] {
        &self.words[GUARDS..self.words.len() - GUARDS]
    }

    /// The words lent, to be written.
    pub fn lent_mut(&mut self) -> &mut [u64] {
        let end = self.words.len() - GUARDS;
        &mut self.words[GUARDS..end]
    }

    /// The differences between two of the same length, guards included, in words; at most eight.
    pub fn differences(&self, other: &Guarded, what: &str) -> Vec<String> {
        if self.words == other.words {
            return Vec::new();
        }
        let length = self.lent().len();
        self.words
            .iter()
            .zip(&other.words)
            .enumerate()
            .filter(|(_, (mine, others))| mine != others)
            .map(|(place, (mine, others))| {
                format!(
                    "{}: {mine} against {others}",
                    place_text(what, place, length)
                )
            })
            .take(8)
            .collect()
    }
}

fn place_text(what: &str, place: usize, length: usize) -> String {
    if place < GUARDS {
        format!("guard word {} before {what}", GUARDS - place)
    } else if place < GUARDS + length {
        format!("{what} word {}", place - GUARDS)
    } else {
        format!("guard word {} after {what}", place - GUARDS - length + 1)
    }
}

#[cfg(test)]
mod tests {
    use super::*;

    #[test]
    fn every_word_counts() {
        let mut right = Guarded::new();
        right.set(&[1, 2, 3]);
        for place in 0..right.words.len() {
            let mut wrong = right.clone();
            wrong.words[place] ^= 1 << 40;
            assert_eq!(wrong.differences(&right, "result").len(), 1);
        }
        assert!(right.differences(&right.clone(), "result").is_empty());
    }

    #[test]
    fn places_are_named() {
        assert_eq!(place_text("space", 15, 3), "guard word 1 before space");
        assert_eq!(place_text("space", 16, 3), "space word 0");
        assert_eq!(place_text("space", 19, 3), "guard word 1 after space");
    }
}
