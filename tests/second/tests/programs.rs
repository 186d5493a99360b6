// SPDX-License-Identifier: MPL-2.0
//! The listing, the replay and the samples.

mod common;

use std::fs;
use std::io::{self, ErrorKind, Read, Write};
use std::path::{Path, PathBuf};
use std::process::{Command, Output, Stdio};

use common::p1;
use second::listing::{Messages, list};
use second::replay::Player;
use second::samples::{FRAGMENT_SIZE, SEED, make};

/// Bytes that come in reads of given lengths, with interruptions between, and an error at the end.
struct Trickle<'a> {
    bytes: &'a [u8],
    step: usize,
    interrupted: bool,
}

impl Read for Trickle<'_> {
    fn read(&mut self, buffer: &mut [u8]) -> io::Result<usize> {
        self.interrupted = !self.interrupted;
        if self.interrupted {
            return Err(ErrorKind::Interrupted.into());
        }
        if self.bytes.is_empty() {
            return Err(ErrorKind::ConnectionReset.into());
        }
        let length = self.step.min(buffer.len()).min(self.bytes.len());
        let (front, rest) = self.bytes.split_at(length);
        buffer[..length].copy_from_slice(front);
        self.bytes = rest;
        Ok(length)
    }
}

fn listing(input: impl Read) -> String {
    let mut output = Vec::new();
    list(input, &mut output).unwrap();
    String::from_utf8(output).unwrap()
}

#[test]
fn the_listing_of_p1_and_of_nothing() {
    assert_eq!(listing(&p1()[..]), "1 0 0 1 43\n");
    assert_eq!(listing(&[][..]), "");
}

#[test]
fn framing_takes_at_least_42_bytes_or_what_is_left() {
    let stream = |length: u16, rest: usize| {
        let mut bytes = p1();
        bytes[2..4].copy_from_slice(&length.to_be_bytes());
        bytes.truncate(42);
        bytes.resize(42 + rest, 0);
        let taken: Vec<usize> = Messages::new(&bytes[..]).map(|message| message.len()).collect();
        taken
    };
    assert_eq!(stream(0, 0), [42]);
    assert_eq!(stream(7, 10), [42, 10]);
    assert_eq!(stream(41, 43), [42, 42, 1]);
    assert_eq!(stream(43, 1), [43]);
    assert_eq!(stream(43, 0), [42]);
    assert_eq!(stream(44, 1), [43]);
    assert_eq!(
        stream(u16::MAX, 70_000),
        [65_535, 42].iter().copied().chain(rest_of(70_000 + 42 - 65_577)).collect::<Vec<_>>()
    );
}

/// Zeros are taken 42 at a time.
fn rest_of(zeros: usize) -> impl Iterator<Item = usize> {
    let left = zeros % 42;
    std::iter::repeat_n(42, zeros / 42).chain((left > 0).then_some(left))
}

#[test]
fn a_refusal_ends_the_listing() {
    let mut wrong = p1();
    wrong[4] = 9;
    let stream = [p1(), p1(), wrong, p1()].concat();
    assert_eq!(listing(&stream[..]), "1 0 0 1 43\n1 0 0 1 43\nrefused 4\n");
    let garbage = [p1(), vec![1, 2, 3]].concat();
    assert_eq!(listing(&garbage[..]), "1 0 0 1 43\nrefused 1\n");
}

/// The file of this name among the samples.
fn sample(name: &str) -> Vec<u8> {
    let found = make(SEED).into_iter().find(|(found, _)| found == name);
    found.unwrap_or_else(|| panic!("a sample {name}")).1
}

fn text(name: &str) -> String {
    String::from_utf8(sample(name)).unwrap()
}

#[test]
fn short_reads_and_a_failing_end_change_nothing() {
    for step in [1, 2, 3, 41, 42, 43, 1_000] {
        for name in ["listing", "listing-refused"] {
            let bytes = sample(&format!("{name}.bin"));
            let trickle = Trickle { bytes: &bytes, step, interrupted: false };
            assert_eq!(listing(trickle), text(&format!("{name}.txt")));
        }
    }
}

#[test]
fn a_listing_cut_at_every_byte_ends_with_what_was_whole() {
    let (bytes, lines) = (sample("listing.bin"), text("listing.txt"));
    let mut ends = vec![0];
    for line in lines.lines() {
        let length: usize = line.rsplit(' ').next().unwrap().parse().unwrap();
        ends.push(ends.last().unwrap() + length);
    }
    for cut in 0..=bytes.len() {
        let whole = ends.iter().rposition(|end| *end <= cut).unwrap();
        let mut expected: String = lines.split_inclusive('\n').take(whole).collect();
        match cut - ends[whole] {
            0 => {}
            1..42 => expected += "refused 1\n",
            _ => expected += "refused 3\n",
        }
        assert_eq!(listing(&bytes[..cut]), expected, "{cut}");
    }
}

/// The lines of a replay and the reports it gives.
fn replay(capture: &[u8], verdict: u64) -> (String, Vec<(u32, Vec<u8>)>) {
    let keys = sample("keys.bin").try_into().unwrap();
    let mut player = Player::new(keys, FRAGMENT_SIZE, verdict).unwrap();
    let (mut lines, mut reports) = (String::new(), Vec::new());
    for message in Messages::new(capture) {
        let (answer, report) = player.play(&message);
        lines += &format!("{answer}\n");
        reports.extend(report.map(|report| (report.sequence, report.bytes.to_vec())));
    }
    (lines, reports)
}

#[test]
fn the_capture_gives_the_lines_and_reports_it_was_made_for() {
    let (lines, reports) = replay(&sample("capture.bin"), 1);
    assert_eq!(lines, text("capture.txt"));
    assert_eq!(reports.len(), 5);
    for (sequence, bytes) in reports {
        assert_eq!(bytes, sample(&format!("report-{sequence}")));
    }
    let (lines, reports) = replay(&sample("capture.bin"), 0);
    assert_eq!(lines, text("capture-verdict-0.txt"));
    assert!(lines.contains("failure\n") && reports.is_empty());
}

#[test]
fn a_capture_cut_at_every_byte_ends_with_what_was_whole() {
    let keys = sample("keys.bin").try_into().unwrap();
    let mut player = Player::new(keys, FRAGMENT_SIZE, 1).unwrap();
    for message in Messages::new(&sample("capture.bin")[..]) {
        let before = *player.connection();
        for cut in 1..message.len() {
            // The cut message is the last: it is refused by its length, unless its signature is
            // wrong before that.
            let (answer, report) = player.play(&message[..cut]);
            let refusal = match (cut < 42, message[0]) {
                (true, _) => 1,
                (false, 0x30) => 3,
                (false, _) => 2,
            };
            assert_eq!((common::refused(answer), report), (refusal, None));
        }
        assert_eq!(*player.connection(), before);
        player.play(&message);
    }
}

#[test]
fn the_capture_shows_every_answer_but_failure() {
    let lines = text("capture.txt");
    for answer in ["reply 1", "reply 3", "reply 7", "again 1", "again 3", "again 7"] {
        assert!(lines.lines().any(|line| line == answer), "{answer}");
    }
    for answer in ["taken", "repeat", "complete", "refused"] {
        assert!(lines.lines().any(|line| line.starts_with(answer)), "{answer}");
    }
    for refusal in [2, 3, 4, 5, 6, 7, 8, 11, 13, 15, 16, 17, 18, 19, 20, 21, 23] {
        assert!(lines.lines().any(|line| line == format!("refused {refusal}")), "{refusal}");
    }
}

#[test]
fn captures_of_other_seeds_give_the_lines_they_were_made_for() {
    for seed in 0..40 {
        let files = make(seed);
        let file = |name: &str| &files.iter().find(|(found, _)| found == name).unwrap().1;
        let keys = file("keys.bin").as_slice().try_into().unwrap();
        let mut player = Player::new(keys, FRAGMENT_SIZE, 1).unwrap();
        let messages = Messages::new(&file("capture.bin")[..]);
        let lines: String = messages.map(|m| format!("{}\n", player.play(&m).0)).collect();
        assert_eq!(lines.as_bytes(), file("capture.txt"), "seed {seed}");
    }
}

fn samples_folder() -> PathBuf {
    Path::new(env!("CARGO_MANIFEST_DIR")).join("../../samples")
}

#[test]
fn the_samples_in_the_repository_are_made_anew_as_the_same_bytes() {
    let mut total = 0;
    let files = make(SEED);
    for (name, bytes) in &files {
        let kept = fs::read(samples_folder().join(name)).unwrap_or_else(|e| panic!("{name}: {e}"));
        assert!(kept == *bytes, "{name} differs");
        total += bytes.len();
    }
    assert!(total < 200 * 1_024);
    let count = |folder: PathBuf| fs::read_dir(folder).unwrap().count();
    let kept = count(samples_folder()) + count(samples_folder().join("messages"));
    // The README and the folder of messages stand beside them.
    assert_eq!(kept, files.len() + 2, "a file that is not made");
}

/// An empty folder for one test's programs to work in.
fn folder(name: &str) -> PathBuf {
    let folder = Path::new(env!("CARGO_TARGET_TMPDIR")).join(name);
    let _ = fs::remove_dir_all(&folder);
    fs::create_dir_all(&folder).unwrap();
    folder
}

/// Runs a program in `folder` on `input`.
fn run(program: &str, arguments: &[&str], folder: &Path, input: &[u8]) -> Output {
    let mut child = Command::new(program)
        .args(arguments)
        .current_dir(folder)
        .stdin(Stdio::piped())
        .stdout(Stdio::piped())
        .stderr(Stdio::piped())
        .spawn()
        .unwrap();
    // A program that refuses its arguments does not read its input.
    let _ = child.stdin.take().unwrap().write_all(input);
    child.wait_with_output().unwrap()
}

#[test]
fn the_replay_program_writes_the_reports() {
    let folder = folder("replay");
    fs::write(folder.join("keys"), sample("keys.bin")).unwrap();
    let program = env!("CARGO_BIN_EXE_replay");
    let output = run(program, &["keys", "256"], &folder, &sample("capture.bin"));
    assert!(output.status.success());
    assert_eq!(output.stdout, sample("capture.txt"));
    for report in 0..5 {
        let name = format!("report-{report}");
        assert_eq!(fs::read(folder.join(&name)).unwrap(), sample(&name));
    }
    assert_eq!(fs::read_dir(&folder).unwrap().count(), 6);
    let output = run(program, &["keys", "256", "0"], &folder, &sample("capture.bin"));
    assert_eq!(output.stdout, sample("capture-verdict-0.txt"));
}

#[test]
fn the_replay_program_refuses_bad_arguments() {
    let folder = folder("bad-arguments");
    fs::write(folder.join("keys"), [0; 64]).unwrap();
    fs::write(folder.join("short"), [0; 63]).unwrap();
    let bad: [&[&str]; 9] = [
        &[],
        &["keys"],
        &["keys", "256", "1", "more"],
        &["missing", "256"],
        &["short", "256"],
        &["keys", "0"],
        &["keys", "16385"],
        &["keys", "many"],
        &["keys", "256", "2"],
    ];
    for arguments in bad {
        let output = run(env!("CARGO_BIN_EXE_replay"), arguments, &folder, &sample("capture.bin"));
        assert!(!output.status.success() && output.stdout.is_empty(), "{arguments:?}");
        assert!(String::from_utf8(output.stderr).unwrap().contains("usage: replay"));
    }
    assert_eq!(fs::read_dir(&folder).unwrap().count(), 2);
}

#[test]
fn the_replay_program_says_when_a_report_cannot_be_written() {
    let folder = folder("no-room");
    fs::write(folder.join("keys"), sample("keys.bin")).unwrap();
    fs::create_dir_all(folder.join("report-0/in-the-way")).unwrap();
    let capture = sample("capture.bin");
    let output = run(env!("CARGO_BIN_EXE_replay"), &["keys", "256"], &folder, &capture);
    assert_eq!(output.stdout, sample("capture.txt"));
    assert!(String::from_utf8(output.stderr).unwrap().contains("report-0 not written"));
    assert!(!folder.join("report-0.part").exists());
    assert_eq!(fs::read(folder.join("report-2")).unwrap(), sample("report-2"));
}

#[test]
fn the_listing_and_samples_programs() {
    let folder = folder("listing");
    let output = run(env!("CARGO_BIN_EXE_listing"), &[], &folder, &p1());
    assert_eq!(output.stdout, b"1 0 0 1 43\n");
    let output = run(env!("CARGO_BIN_EXE_samples"), &["7", "made"], &folder, &[]);
    assert!(output.status.success());
    for (name, bytes) in make(7) {
        assert_eq!(fs::read(folder.join("made").join(name)).unwrap(), bytes);
    }
    assert!(!run(env!("CARGO_BIN_EXE_samples"), &["seven"], &folder, &[]).status.success());
}
