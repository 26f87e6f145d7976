//! Reads an image from standard input and prints its ledger.

use reference::ledger::{ledger, MOST_INPUT};
use std::io::{self, Read, Write};

fn main() -> io::Result<()> {
    let mut image = Vec::new();
    io::stdin()
        .lock()
        .take(MOST_INPUT as u64)
        .read_to_end(&mut image)?;
    io::stdout().write_all(ledger(&image).as_bytes())
}
