//! One line for each check, and the count at the end.

/// What comes of a comparison over so many inputs that differ nowhere; over none it has failed.
pub fn alike(seed: u64, count: u64, what: &str) -> Result<String, String> {
    match count {
        0 => Err(format!("seed {seed}, no {what} to compare")),
        _ => Ok(format!("seed {seed}, {count} {what} alike")),
    }
}

/// The checks so far.
#[derive(Default)]
pub struct Report {
    passed: usize,
    failed: usize,
}

impl Report {
    /// Prints what came of a check and counts it.
    pub fn check(&mut self, name: &str, outcome: Result<String, String>) {
        match outcome {
            Ok(detail) => {
                self.passed += 1;
                println!("passed: {name}: {detail}");
            }
            Err(difference) => {
                self.failed += 1;
                println!("FAILED: {name}: {difference}");
            }
        }
    }

    /// Prints the last line and tells whether all is well.
    pub fn finish(&self) -> bool {
        println!("{} passed, {} failed", self.passed, self.failed);
        self.failed == 0
    }
}

#[cfg(test)]
mod tests {
    use super::*;

    #[test]
    fn nothing_compared_fails() {
        assert_eq!(
            alike(7, 2, "files"),
            Ok("seed 7, 2 files alike".to_string())
        );
        assert!(alike(7, 0, "files").is_err());
    }
}
