//! `rackcheck`: a rack file on standard input, the lines of "The program" on standard
//! output.

use std::io::{self, BufWriter, Read, Write};
use std::process::ExitCode;

fn main() -> ExitCode {
    match run() {
        Ok(()) => ExitCode::SUCCESS,
        Err(error) => {
            // A closed output or input is no reason to panic.
            let _ = writeln!(io::stderr(), "rackcheck: {error}");
            ExitCode::FAILURE
        }
    }
}

fn run() -> io::Result<()> {
    let mut bytes = Vec::new();
    // One byte more than the longest file is enough for refusal 1.
    let most = rackcheck::file::LONGEST as u64 + 1;
    io::stdin().lock().take(most).read_to_end(&mut bytes)?;
    let mut out = BufWriter::new(io::stdout().lock());
    rackcheck::program::run(&bytes, &mut out)?;
    out.flush()
}
