// SPDX-License-Identifier: MPL-2.0
//! Plays a capture on standard input through one connection: `replay KEYS F [VERDICT]`.

use std::io::{self, BufReader, BufWriter, Write, stdin, stdout};
use std::process::ExitCode;
use std::{env, fs};

use second::listing::Messages;
use second::replay::{Player, Report};

const USAGE: &str = "usage: replay KEYS F [VERDICT] < CAPTURE
KEYS a file of 64 bytes, F from 1 to 16384, VERDICT 0 or 1 (1 if not given)";

fn main() -> ExitCode {
    let arguments: Vec<String> = env::args().skip(1).collect();
    let player = match player(&arguments) {
        Ok(player) => player,
        Err(wrong) => {
            eprintln!("replay: {wrong}\n{USAGE}");
            return ExitCode::FAILURE;
        }
    };
    match play(player) {
        Ok(code) => code,
        Err(error) => {
            eprintln!("replay: standard output: {error}");
            ExitCode::FAILURE
        }
    }
}

/// The player that the command line asks for, or what is wrong with it.
fn player(arguments: &[String]) -> Result<Player, String> {
    let (keys, size, verdict) = match arguments {
        [keys, size] => (keys, size, "1"),
        [keys, size, verdict] => (keys, size, verdict.as_str()),
        _ => return Err(format!("{} arguments given, 2 or 3 wanted", arguments.len())),
    };
    let verdict = match verdict {
        "0" => 0,
        "1" => 1,
        other => return Err(format!("VERDICT is {other}, not 0 or 1")),
    };
    let bytes = fs::read(keys).map_err(|error| format!("{keys}: {error}"))?;
    let found = bytes.len();
    let bytes = bytes.try_into().map_err(|_| format!("{keys}: {found} bytes, not 64"))?;
    let wrong = || format!("F is {size}, not a number from 1 to 16384");
    let size = size.parse().map_err(|_| wrong())?;
    Player::new(bytes, size, verdict).map_err(|_| wrong())
}

/// One line per message; each report goes to a file of its own.
fn play(mut player: Player) -> io::Result<ExitCode> {
    let mut output = BufWriter::new(stdout().lock());
    let mut code = ExitCode::SUCCESS;
    for message in Messages::new(BufReader::new(stdin().lock())) {
        let (answer, report) = player.play(&message);
        writeln!(output, "{answer}")?;
        if let Some(Err(error)) = report.map(save) {
            eprintln!("replay: {error}");
            code = ExitCode::FAILURE;
        }
    }
    output.flush()?;
    Ok(code)
}

/// Writes a report whole, or not at all.
fn save(report: Report<'_>) -> Result<(), String> {
    let name = format!("report-{}", report.sequence);
    let part = format!("{name}.part");
    fs::write(&part, report.bytes).and_then(|()| fs::rename(&part, &name)).map_err(|error| {
        let _ = fs::remove_file(&part);
        format!("{name} not written: {error}")
    })
}
