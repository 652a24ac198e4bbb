//! The order program of the reference: standard input to standard output.

use std::io::{self, Read, Write};

fn main() -> io::Result<()> {
    let mut input = Vec::new();
    // One byte more than may be read is enough to tell that the file is too long.
    io::stdin()
        .take(reference::order::LONGEST_FILE as u64 + 1)
        .read_to_end(&mut input)?;
    io::stdout().write_all(&reference::order(&input))
}
