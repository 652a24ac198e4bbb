//! How often each thing was said of files or lists that can be said of them.

use std::collections::{BTreeMap, BTreeSet};

/// The counts.
#[derive(Default)]
pub struct Sayings {
    said: BTreeMap<String, u64>,
    noted: u64,
}

impl Sayings {
    /// Counts what is said of one more.
    pub fn note<T: ToString>(&mut self, sayings: impl IntoIterator<Item = T>) {
        self.noted += 1;
        for saying in sayings {
            *self.said.entry(saying.to_string()).or_default() += 1;
        }
    }

    /// Prints the counts. Fails if that of an expected one is 0, if one came up that isn't expected,
    /// or if fewer than these were noted.
    pub fn finish<T: ToString>(
        &self,
        expected: impl IntoIterator<Item = T>,
        what: &str,
        fewest: u64,
    ) -> Result<String, String> {
        for (saying, count) in &self.said {
            println!("  {saying}: {count}");
        }
        let expected = expected.into_iter().map(|saying| saying.to_string());
        let expected: BTreeSet<String> = expected.collect();
        let said: BTreeSet<String> = self.said.keys().cloned().collect();
        let missing: Vec<&str> = expected.difference(&said).map(String::as_str).collect();
        if !missing.is_empty() {
            return Err(format!("never came up: {}", missing.join(", ")));
        }
        if let Some(other) = said.difference(&expected).next() {
            return Err(format!("came up: {other}"));
        }
        match self.noted >= fewest {
            true => Ok(format!("{} {what}, each came up", self.noted)),
            false => Err(format!("only {} {what}", self.noted)),
        }
    }
}

#[cfg(test)]
mod tests {
    use super::*;

    #[test]
    fn what_is_missing_fails() {
        let mut sayings = Sayings::default();
        sayings.note(["good"]);
        sayings.note(["good", "long"]);
        assert!(sayings.finish(["good", "long"], "files", 2).is_ok());
        assert!(sayings.finish(["good", "long"], "files", 3).is_err());
        let missing = sayings.finish(["good", "long", "short"], "files", 2);
        assert_eq!(missing, Err("never came up: short".to_string()));
        let other = sayings.finish(["good"], "files", 2);
        assert_eq!(other, Err("came up: long".to_string()));
    }
}
