//! Reads a script and prints one line for each of its lines, as the real loop
//! answers them.

mod bench;
mod clock;
#[cfg(test)]
mod differences;
mod script;

use std::io::{self, BufRead, BufWriter, Write};

fn main() -> io::Result<()> {
    let mut bench = bench::Bench::new();
    let mut out = BufWriter::new(io::stdout().lock());
    for line in io::stdin().lock().split(b'\n') {
        writeln!(out, "{}", bench.run(script::parse(&line?)))?;
    }
    out.flush()
}
