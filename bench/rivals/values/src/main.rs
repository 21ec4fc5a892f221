//! What Rust's serde_json takes to read each line of standard input into a `Value`. Prints how many lines there were.

use serde_json::Value;
use std::io::{stdin, BufRead, BufReader, Result};

fn main() -> Result<()> {
    let mut input = BufReader::with_capacity(1 << 16, stdin());
    let mut line = Vec::new();
    let mut lines = 0u64;
    while input.read_until(b'\n', &mut line)? > 0 {
        let value: Value = serde_json::from_slice(&line)?;
        lines += u64::from(value.is_object());
        line.clear();
    }
    println!("{lines}");
    Ok(())
}
