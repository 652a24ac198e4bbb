//! Runs a program on an input, and tells where its output differs from another.

use crate::files::Sort;
use crate::report::{alike, Report};
use crate::sayings::Sayings;
use std::io::{Read, Write};
use std::process::{Child, Command, Stdio};
use std::sync::mpsc;
use std::time::Duration;

/// A program that needs longer for one input is stopped.
const PATIENCE: Duration = Duration::from_secs(20);
/// No right output comes near this.
const LONGEST_OUTPUT: u64 = 4 << 20;
/// How many programs run at the same time in shares.
const SHARES: usize = 2;

/// A program: what it prints for a file.
pub type Print<'a> = dyn Fn(&[u8]) -> Result<Vec<u8>, String> + Sync + 'a;

/// A program on the files of all sorts against what is due, with what is said of each file. Sort n
/// has the seed n after the first.
pub struct Texts<'a, T> {
    pub name: &'a str,
    pub print: &'a Print<'a>,
    pub due: fn(&[u8]) -> Vec<u8>,
    pub said: fn(&[u8]) -> Vec<T>,
    pub first_seed: u64,
}

impl<T: ToString> Texts<'_, T> {
    /// Compares sort by sort and counts what was said.
    pub fn compare(&self, report: &mut Report, sorts: &[Sort<Vec<u8>>]) -> Sayings {
        let mut tally = Sayings::default();
        for (index, sort) in sorts.iter().enumerate() {
            let outcome = self.compare_sort(sort, self.first_seed + index as u64, &mut tally);
            report.check(&format!("{}, program: {}", self.name, sort.name), outcome);
        }
        tally
    }

    fn compare_sort(
        &self,
        sort: &Sort<Vec<u8>>,
        seed: u64,
        tally: &mut Sayings,
    ) -> Result<String, String> {
        let (print, due) = (self.print, self.due);
        in_shares(sort.count, |number| {
            let file = sort.made(seed, number);
            let expected = due(&file);
            let output = print(&file)?;
            match output == expected {
                true => Ok(()),
                false => Err(format!(
                    "seed {seed}, file {number}: {}",
                    difference_text(&file, &output, &expected)
                )),
            }
        })?;
        for number in 0..sort.count {
            tally.note((self.said)(&sort.made(seed, number)));
        }
        alike(seed, sort.count as u64, "files")
    }
}

/// Checks each number below `count`, every second one in another thread. Gives what is wrong with
/// the lowest number of those that fail.
pub fn in_shares(
    count: usize,
    check: impl Fn(usize) -> Result<(), String> + Sync,
) -> Result<(), String> {
    let first_wrong = |share: usize| {
        let mut numbers = (share..count).step_by(SHARES);
        numbers.find_map(|number| check(number).err().map(|text| (number, text)))
    };
    let wrong = std::thread::scope(|scope| {
        let threads: Vec<_> = (0..SHARES)
            .map(|share| scope.spawn(move || first_wrong(share)))
            .collect();
        let ended = threads.into_iter().map(|thread| thread.join());
        ended
            .filter_map(|wrong| wrong.expect("a share comes to its end"))
            .min()
    });
    wrong.map_or(Ok(()), |(_, text)| Err(text))
}

/// Runs the program on an input and gives its output.
pub fn run(program: &str, input: &[u8]) -> Result<Vec<u8>, String> {
    let mut child = Command::new(program)
        .stdin(Stdio::piped())
        .stdout(Stdio::piped())
        .spawn()
        .map_err(|error| format!("{program} doesn't start: {error}"))?;
    let output = talk(&mut child, input);
    if output.is_err() {
        // It may have ended meanwhile; then there is nothing to stop.
        let _ = child.kill();
    }
    let status = child
        .wait()
        .map_err(|error| format!("{program} can't be waited for: {error}"))?;
    // The rules say nothing of the exit status, but a program mustn't be ended by a signal.
    match output {
        Ok(_) if status.code().is_none() => Err(format!("{program} ended by {status}")),
        output => output,
    }
}

/// Writes the input while reading the output, so that neither side waits for the other.
fn talk(child: &mut Child, input: &[u8]) -> Result<Vec<u8>, String> {
    let mut to_child = child.stdin.take().ok_or("no standard input")?;
    let from_child = child.stdout.take().ok_or("no standard output")?;
    let input = input.to_vec();
    let (sender, receiver) = mpsc::channel();
    std::thread::spawn(move || {
        // A program that has seen enough may close its input early.
        let _ = to_child.write_all(&input);
    });
    std::thread::spawn(move || {
        let mut output = Vec::new();
        let read = from_child.take(LONGEST_OUTPUT).read_to_end(&mut output);
        // Nobody listens any more if patience has run out.
        let _ = sender.send(read.map(|_| output));
    });
    receiver
        .recv_timeout(PATIENCE)
        .map_err(|_| format!("no end of output within {} s", PATIENCE.as_secs()))?
        .map_err(|error| format!("the output can't be read: {error}"))
}

/// The first line that differs, and the input if it is short.
pub fn difference_text(input: &[u8], output: &[u8], expected: &[u8]) -> String {
    let lines = |text: &[u8]| -> Vec<String> {
        text.split_inclusive(|byte| *byte == b'\n')
            .map(|line| line.escape_ascii().to_string())
            .collect()
    };
    let (output, expected) = (lines(output), lines(expected));
    let place = (0..output.len().max(expected.len()))
        .find(|place| output.get(*place) != expected.get(*place))
        .unwrap_or(0);
    let shown = &input[..input.len().min(2_000)];
    format!(
        "output line {}:\n    {:?} against the reference's {:?}\n    input of {} bytes: \"{}\"",
        place + 1,
        output.get(place),
        expected.get(place),
        input.len(),
        shown.escape_ascii()
    )
}

#[cfg(test)]
mod tests {
    use super::*;

    #[test]
    fn lowest_wrong_number_is_told() {
        for count in 0..20 {
            for (first, second) in [(3, 8), (8, 3), (11, 12), (12, 11)] {
                let outcome =
                    in_shares(count, |number| match number == first || number == second {
                        true => Err(number.to_string()),
                        false => Ok(()),
                    });
                let due = [first, second].into_iter().filter(|wrong| *wrong < count);
                assert_eq!(outcome.err(), due.min().map(|wrong| wrong.to_string()));
            }
        }
    }
}
