//! The line program in plain Rust.

use std::io::{self, BufReader, BufWriter};

fn main() -> io::Result<()> {
    let input = BufReader::with_capacity(1 << 16, io::stdin().lock());
    let output = BufWriter::with_capacity(1 << 16, io::stdout().lock());
    twin::program(input, output)
}
