// SPDX-License-Identifier: MPL-2.0
//! Makes a capture of the largest reports there are, too large to be kept: `largest FOLDER`.
//!
//! An enrolment; 64 pieces of 16,384 bytes in order; 64 more, the last one first. Beside it the
//! keys, the lines that it must get, and the two reports.

use std::path::Path;
use std::process::ExitCode;
use std::{env, fs, io};

use second::gateway::Gateway;
use second::prng::Prng;

const FRAGMENT_SIZE: u32 = 16384;
const PIECES: usize = 64;

fn main() -> ExitCode {
    let Some(folder) = env::args().nth(1) else {
        eprintln!("usage: largest FOLDER");
        return ExitCode::FAILURE;
    };
    match make(Path::new(&folder)) {
        Ok(()) => ExitCode::SUCCESS,
        Err(error) => {
            eprintln!("largest: {folder}: {error}");
            ExitCode::FAILURE
        }
    }
}

fn make(folder: &Path) -> io::Result<()> {
    let mut prng = Prng::new(64);
    let gateway = Gateway::new(&mut prng, 700, 64);
    let (mut capture, mut lines) = (Vec::new(), String::new());
    for (draft, reply) in gateway.enrolment() {
        capture.extend(draft.bytes(&gateway.keys));
        lines += &format!("reply {reply}\n");
    }
    for number in 0..2 {
        let report = prng.bytes(PIECES * FRAGMENT_SIZE as usize);
        let mut pieces = gateway.pieces(number, FRAGMENT_SIZE, &report);
        if number == 1 {
            pieces.reverse();
        }
        for (before, piece) in pieces.iter().enumerate() {
            capture.extend(piece.bytes(&gateway.keys));
            lines += &match before + 1 {
                PIECES => format!("complete {}\n", report.len()),
                come => format!("taken {come}\n"),
            };
        }
        fs::write(folder.join(format!("report-{number}")), &report)?;
    }
    fs::write(folder.join("keys.bin"), gateway.keys)?;
    fs::write(folder.join("capture.bin"), capture)?;
    fs::write(folder.join("capture.txt"), lines)
}
