// SPDX-License-Identifier: MPL-2.0
//! Lists messages back to back on standard input: `listing`.

use std::io::{BufReader, BufWriter, stdin, stdout};
use std::process::ExitCode;

fn main() -> ExitCode {
    let (input, output) = (BufReader::new(stdin().lock()), BufWriter::new(stdout().lock()));
    match second::listing::list(input, output) {
        Ok(()) => ExitCode::SUCCESS,
        Err(error) => {
            eprintln!("listing: standard output: {error}");
            ExitCode::FAILURE
        }
    }
}
