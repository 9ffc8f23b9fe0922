//! `callcheck`: a script of calls (`CALLS.md`) on standard input, what every call gives
//! on standard output.

use std::io::{self, BufWriter, Write};

fn main() -> io::Result<()> {
    let mut out = BufWriter::with_capacity(1 << 16, io::stdout().lock());
    rackcheck::script::run(&mut io::stdin().lock(), &mut out)?;
    out.flush()
}
