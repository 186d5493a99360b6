// SPDX-License-Identifier: MPL-2.0
//! Holds two programs against this implementation on their input cut at every byte, or every N:
//! `cuts N listing STREAM PROGRAM`, `cuts N replay SEED F PROGRAM` on a short capture made from a
//! seed. PROGRAM may be several words: an emulator may stand in front.
//!
//! Each cut is a run of the program; it must end well, say what is said here, and leave exactly the
//! reports that were complete before the cut.

use std::fs::{self, File, OpenOptions};
use std::io::{Cursor, Write};
use std::path::{Path, PathBuf};
use std::process::{Command, ExitCode, Stdio, id};
use std::{env, thread};

use second::listing::{Messages, list};
use second::replay::Player;
use second::samples::short;

/// What a program must write of a part of its input: lines, and reports by their numbers.
struct Wanted {
    lines: Vec<u8>,
    reports: Vec<(u32, Vec<u8>)>,
}

/// A program (or what emulates it), the words that it is run with, its input, what to expect of each
/// cut, and how many bytes there are from one cut to the next.
struct Trial {
    program: String,
    words: Vec<String>,
    input: Vec<u8>,
    player: Option<Player>,
    every: usize,
}

impl Trial {
    /// What the first `cut` bytes must give.
    fn wanted(&self, cut: usize) -> Wanted {
        let mut lines = Vec::new();
        let mut reports = Vec::new();
        let input = Cursor::new(&self.input[..cut]);
        let Some(mut player) = self.player.clone() else {
            list(input, &mut lines).expect("a vector takes all");
            return Wanted { lines, reports };
        };
        for message in Messages::new(input) {
            let (answer, report) = player.play(&message);
            writeln!(lines, "{answer}").expect("a vector takes all");
            reports.extend(report.map(|report| (report.sequence, report.bytes.to_vec())));
        }
        Wanted { lines, reports }
    }

    /// One run on a file, in a folder of its own; what is wrong with it.
    fn run(&self, folder: &Path, file: &Path, cut: usize) -> Result<(), String> {
        let input = File::open(file).map_err(|error| error.to_string())?;
        let run = Command::new(&self.program)
            .args(&self.words)
            .current_dir(folder)
            .stdin(Stdio::from(input))
            .output()
            .map_err(|error| format!("{}: {error}", self.program))?;
        let wanted = self.wanted(cut);
        let mut right = run.status.success() && run.stderr.is_empty() && run.stdout == wanted.lines;
        for (number, bytes) in &wanted.reports {
            let report = folder.join(format!("report-{number}"));
            right &= fs::read(&report).is_ok_and(|found| found == *bytes);
            right &= fs::remove_file(&report).is_ok();
        }
        right &= fs::read_dir(folder).is_ok_and(|mut left| left.next().is_none());
        if right { Ok(()) } else { Err(format!("cut at byte {cut}: another answer")) }
    }

    /// The cuts from one byte to another, each longer than the one before; how many there were.
    fn cuts(&self, from: usize, to: usize) -> Result<usize, String> {
        let folder = env::temp_dir().join(format!("cuts-{}-{from}", id()));
        let file = folder.with_extension("bin");
        fs::create_dir(&folder).map_err(|error| error.to_string())?;
        fs::write(&file, &self.input[..from]).map_err(|error| error.to_string())?;
        let outcome = (from..to).step_by(self.every).try_fold(0, |count, cut| {
            self.run(&folder, &file, cut)?;
            let more = &self.input[cut..self.input.len().min(cut + self.every)];
            let mut longer = OpenOptions::new().append(true).open(&file).expect("the file is ours");
            longer.write_all(more).map_err(|error| error.to_string())?;
            Ok(count + 1)
        });
        let _ = fs::remove_file(&file);
        let _ = fs::remove_dir_all(&folder);
        outcome
    }

    /// All cuts, shared out among the processors; how many there were.
    fn all(&self) -> Result<usize, String> {
        let whole = self.input.len();
        let shares = thread::available_parallelism().map_or(1, usize::from);
        let place = |share: usize| whole * share / shares;
        thread::scope(|scope| {
            let runs: Vec<_> = (0..shares)
                .map(|share| scope.spawn(move || self.cuts(place(share), place(share + 1))))
                .collect();
            runs.into_iter().map(|run| run.join().expect("no panic")).sum()
        })
    }
}

/// Where the keys of a short capture are put for the program.
fn keys_file() -> PathBuf {
    env::temp_dir().join(format!("cuts-{}.keys", id()))
}

/// The trial that the command line asks for.
fn trial(arguments: &[String]) -> Result<Trial, String> {
    let read = |name: &String| fs::read(name).map_err(|error| format!("{name}: {error}"));
    let number = |text: &String| text.parse::<u32>().map_err(|_| format!("{text}: no number"));
    let step = |text: &String| number(text).map(|every| every.max(1) as usize);
    match arguments {
        [every, kind, stream, program, words @ ..] if kind == "listing" => Ok(Trial {
            program: program.clone(),
            words: words.to_vec(),
            input: read(stream)?,
            player: None,
            every: step(every)?,
        }),
        [every, kind, seed, size, program, words @ ..] if kind == "replay" => {
            let (every, seed, size) = (step(every)?, number(seed)?, number(size)?);
            let (keys, input) = short(seed.into(), size);
            let player = Player::new(keys, size, 1).map_err(|_| "F is out of range")?;
            let file = keys_file();
            fs::write(&file, keys).map_err(|error| error.to_string())?;
            let words = [words, &[file.display().to_string(), size.to_string()]].concat();
            Ok(Trial { program: program.clone(), words, input, player: Some(player), every })
        }
        _ => Err("usage: cuts N listing STREAM PROGRAM | cuts N replay SEED F PROGRAM".into()),
    }
}

fn main() -> ExitCode {
    let arguments: Vec<String> = env::args().skip(1).collect();
    let outcome = trial(&arguments).and_then(|trial| trial.all());
    let _ = fs::remove_file(keys_file());
    match outcome {
        Ok(count) => println!("{count}"),
        Err(wrong) => {
            eprintln!("cuts: {wrong}");
            return ExitCode::FAILURE;
        }
    }
    ExitCode::SUCCESS
}
