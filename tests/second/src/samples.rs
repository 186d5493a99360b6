// SPDX-License-Identifier: MPL-2.0
//! The samples under samples/: what a gateway sends over a bad link, and what the programs must say
//! to it.
//!
//! Each message is put down together with the line it must get, so the expected lines do not come
//! from the code under test.

use std::collections::BTreeSet;

use crate::draft::{Damage, Draft};
use crate::gateway::{Gateway, presence_request, presence_response};
use crate::generate::dress;
use crate::header::{ACKNOWLEDGE, Header, SHORTEST, WAKE};
use crate::listing::Messages;
use crate::payload::Presence;
use crate::prng::Prng;
use crate::replay::Player;

/// The seed of the samples in the repository.
pub const SEED: u64 = 0x0048_4C49_4455_4E53;
/// F of the capture.
pub const FRAGMENT_SIZE: u32 = 256;

/// A file's name and its bytes.
pub type File = (String, Vec<u8>);

/// All sample files. Five reports: some text, nothing, as much as 64 pieces hold, ten bytes, more
/// text.
pub fn make(seed: u64) -> Vec<File> {
    let mut prng = Prng::new(seed);
    let gateway = Gateway::new(&mut prng, 387, 64);
    let most = 64 * FRAGMENT_SIZE as usize;
    let reports = [1_000, 0, most, 10, 5_000].map(|length| text(&mut prng, length)).to_vec();
    let capture = capture(&mut prng, &gateway, FRAGMENT_SIZE, &reports);
    let mut files = vec![file("keys.bin", &gateway.keys[..])];
    files.push(file("capture.bin", &capture.bytes[..]));
    files.push(file("capture.txt", capture.lines()));
    files.push(file("capture-verdict-0.txt", rejected(&gateway, &capture.bytes)));
    for (number, report) in reports.iter().enumerate() {
        files.push((format!("report-{number}"), report.clone()));
    }
    let messages = messages(&mut prng, &gateway);
    let responses = responses(&mut prng);
    for (name, draft) in messages.iter().chain(&responses) {
        files.push((format!("messages/{name}.bin"), draft.bytes(&gateway.keys)));
    }
    listings(&messages, &responses, &gateway, &mut files);
    files
}

/// A capture of the same kind that is short enough to be cut at every byte: the keys, and the bytes.
pub fn short(seed: u64, fragment_size: u32) -> ([u8; 64], Vec<u8>) {
    let mut prng = Prng::new(seed);
    let gateway = Gateway::new(&mut prng, 40, 8);
    let reports = [100, 0, 300, 10].map(|length| text(&mut prng, length));
    let capture = capture(&mut prng, &gateway, fragment_size, &reports);
    (gateway.keys, capture.bytes)
}

fn file(name: &str, bytes: impl Into<Vec<u8>>) -> File {
    (name.to_string(), bytes.into())
}

/// Messages back to back, and the line that each must get.
#[derive(Default)]
struct Script {
    bytes: Vec<u8>,
    lines: Vec<String>,
    /// How many messages came between pieces, so that each kind has its turn.
    between: usize,
}

impl Script {
    fn put(&mut self, message: &[u8], line: impl Into<String>) {
        self.bytes.extend(message);
        self.lines.push(line.into());
    }

    /// Puts good messages, each with its line of the listing.
    fn list(&mut self, messages: &[(String, Draft)], gateway: &Gateway) {
        for (_, draft) in messages {
            let bytes = draft.bytes(&gateway.keys);
            let header = &draft.header;
            let (kind, sequence) = (header.message_type, header.sequence);
            let (index, count) = (header.index, header.count);
            self.put(&bytes, format!("{kind} {sequence} {index} {count} {}", bytes.len()));
        }
    }

    fn lines(&self) -> String {
        self.lines.iter().map(|line| format!("{line}\n")).collect()
    }
}

/// Readings of pumps, so that a recovered report can be read.
fn text(prng: &mut Prng, length: usize) -> Vec<u8> {
    let mut text = String::new();
    let mut line = 1;
    while text.len() < length {
        let (pump, pressure, flow) = (prng.between(1, 9), prng.between(180, 620), prng.below(100));
        text += &format!("{line:04} pump {pump}: {pressure} kPa, {flow} l/min\n");
        line += 1;
    }
    text.truncate(length);
    text.into_bytes()
}

/// The capture: an enrolment whose replies get lost, then the reports.
fn capture(prng: &mut Prng, gateway: &Gateway, size: u32, reports: &[Vec<u8>]) -> Script {
    let mut script = Script::default();
    enrolment(prng, gateway, &mut script);
    for (sequence, report) in reports.iter().enumerate() {
        let pieces = gateway.pieces(sequence as u32, size, report);
        let order = order(prng, sequence, pieces.len());
        let came = BTreeSet::new();
        Joining { gateway, size, pieces, report, came }.play(prng, &order, &mut script);
    }
    let (done, _) = &gateway.enrolment()[2];
    let mut cut = done.clone();
    cut.damage.push(Damage::Cut(50));
    script.put(&cut.bytes(&gateway.keys), "refused 3");
    script
}

/// Requests come again because replies got lost; other messages come between.
fn enrolment(prng: &mut Prng, gateway: &Gateway, script: &mut Script) {
    let other = Gateway::new(prng, 100, 20);
    let keys = &gateway.keys;
    let [request, authentication, done] =
        gateway.enrolment().map(|(draft, _)| dress(prng, draft).bytes(keys));
    let early = gateway.piece(0, 0, 1, b"too early").bytes(keys);
    let stranger = other.enrolment()[0].0.bytes(&other.keys);
    let mut damaged = authentication.clone();
    let in_sealed_part = authentication.len() - 40;
    Damage::Flip(8 * in_sealed_part).befall(&mut damaged);
    let reply = gateway.replies()[1].bytes(keys);
    script.put(&presence_request().bytes(keys), "refused 15");
    script.put(&early, "refused 15");
    script.put(&request, "reply 1");
    script.put(&request, "again 1");
    script.put(&stranger, "refused 16");
    script.put(&request, "again 1");
    script.put(&done, "refused 15");
    script.put(&damaged, "refused 11");
    script.put(&authentication, "reply 3");
    script.put(&early, "refused 15");
    script.put(&request, "again 1");
    script.put(&authentication, "again 3");
    script.put(&done, "reply 7");
    script.put(&reply, "refused 15");
    script.put(&done, "again 7");
    script.put(&authentication, "again 3");
    script.put(&done, "again 7");
}

/// In which order the pieces of a report come: the first and third shuffled, the last backwards,
/// some of them twice.
fn order(prng: &mut Prng, report: usize, pieces: usize) -> Vec<usize> {
    let mut order: Vec<usize> = (0..pieces).rev().collect();
    if report < 4 {
        prng.shuffle(&mut order);
    }
    let again: Vec<usize> = order.iter().copied().filter(|_| prng.chance(25)).collect();
    for piece in again {
        order.insert(prng.between(0, order.len()), piece);
    }
    order
}

/// A report on its way, with the pieces that have come.
struct Joining<'a> {
    gateway: &'a Gateway,
    size: u32,
    pieces: Vec<Draft>,
    report: &'a [u8],
    came: BTreeSet<usize>,
}

impl Joining<'_> {
    fn play(&mut self, prng: &mut Prng, order: &[usize], script: &mut Script) {
        for piece in order {
            self.disturb(prng, script);
            self.bring(prng, *piece, script);
        }
        let late = dress(prng, self.pieces[0].clone());
        script.put(&late.bytes(&self.gateway.keys), "refused 17");
    }

    /// A piece comes, with a RequestID, flags and a chain of its own.
    fn bring(&mut self, prng: &mut Prng, piece: usize, script: &mut Script) {
        let whole = self.came.len() == self.pieces.len();
        let new = self.came.insert(piece);
        let line = match self.came.len() {
            _ if whole => "refused 17".to_string(),
            heard if !new => format!("repeat {heard}"),
            heard if heard == self.pieces.len() => format!("complete {}", self.report.len()),
            heard => format!("taken {heard}"),
        };
        let draft = dress(prng, self.pieces[piece].clone());
        script.put(&draft.bytes(&self.gateway.keys), line);
    }

    /// Something that changes nothing: a damaged piece, a wrong one, or an enrolment request that
    /// comes again.
    fn disturb(&self, prng: &mut Prng, script: &mut Script) {
        let under_way = !self.came.is_empty() && self.came.len() < self.pieces.len();
        if !under_way || prng.chance(50) {
            return;
        }
        let keys = &self.gateway.keys;
        let turn = script.between / 3;
        let (mut draft, line) = match script.between % 3 {
            0 => self.wrong(turn),
            1 => self.damaged(prng, turn),
            _ => {
                let (request, reply) = self.gateway.enrolment()[turn % 3].clone();
                (request, format!("again {reply}"))
            }
        };
        script.between += 1;
        draft.header.request = prng.word();
        script.put(&draft.bytes(keys), line);
    }

    /// A piece with a bit flipped, MessageLength excepted, so that the next message is found.
    fn damaged(&self, prng: &mut Prng, turn: usize) -> (Draft, String) {
        let mut draft = self.pieces[prng.below(self.pieces.len())].clone();
        let length = draft.bytes(&self.gateway.keys).len();
        let last = length - 1;
        let places = [
            (50, 11),
            (0, 2),
            (40, 8),
            (22, 7),
            (6, 6),
            (5, 5),
            (4, 4),
            (last, 11),
            (24, 11),
            (9, 11),
        ];
        let (place, refusal) = places[turn % places.len()];
        draft.damage.push(Damage::Flip(8 * place + 6));
        (draft, format!("refused {refusal}"))
    }

    /// A piece that is well sealed, and wrong.
    fn wrong(&self, turn: usize) -> (Draft, String) {
        let came = *self.came.first().expect("one that has come");
        let mut draft = self.pieces[came].clone();
        let header = &mut draft.header;
        let refusal = match turn % 8 {
            0 => {
                draft.payload[0] ^= 1;
                23
            }
            1 => {
                header.channel ^= 1;
                21
            }
            2 => {
                header.count = if header.count == 64 { 63 } else { header.count + 1 };
                header.index = 0;
                21
            }
            3 => {
                header.sequence += 1;
                18
            }
            4 => {
                header.sequence = u32::MAX;
                19
            }
            5 => {
                header.session ^= 1;
                16
            }
            6 => {
                draft.payload.resize(self.size as usize + 1, 0);
                20
            }
            _ => {
                draft.size = Some(0xFFFF_FFFC);
                13
            }
        };
        (draft, format!("refused {refusal}"))
    }
}

/// The same capture where the gateway's certificate is not accepted.
fn rejected(gateway: &Gateway, capture: &[u8]) -> String {
    let mut player = Player::new(gateway.keys, FRAGMENT_SIZE, 0).expect("a good F");
    Messages::new(capture).map(|message| format!("{}\n", player.play(&message).0)).collect()
}

/// One message of each kind, and some with chains, flags and sizes at the edges.
fn messages(prng: &mut Prng, gateway: &Gateway) -> Vec<(String, Draft)> {
    let mut messages = vec![("presence-request".to_string(), presence_request())];
    let names = ["connection-request", "authentication-request", "done-request"];
    for (name, (draft, _)) in names.iter().zip(gateway.enrolment()) {
        messages.push((name.to_string(), draft));
    }
    let names = [
        "connection-response-1",
        "authentication-response",
        "connection-response-0",
        "connection-response-2",
        "connection-response-3",
        "done-response-0",
        "done-response-1",
        "done-response-2",
        "done-response-3",
        "done-response-4",
    ];
    for (name, draft) in names.iter().zip(gateway.replies()) {
        messages.push((name.to_string(), draft));
    }
    for length in [0, 1, 11, 12, 13, 27, 28, 29, 256] {
        let bytes = text(prng, length);
        messages.push((format!("piece-of-{length}"), gateway.piece(7, 0, 1, &bytes)));
    }
    let mut edges = gateway.piece(u32::MAX - 1, 63, 64, b"the last of 64 pieces");
    edges.header = Header { request: u64::MAX, ..edges.header };
    edges.header.flags |= ACKNOWLEDGE | WAKE;
    edges.chain = [[1, 0], [2, 0], [3, 0], [1, 0], [2, 0], [3, 0], [1, 0], [2, 0], [0, 0]].concat();
    messages.push(("piece-with-8-entries".to_string(), edges));
    let mut long = presence_request();
    long.chain = [&[3, 255][..], &prng.bytes(255), &[0, 0]].concat();
    messages.push(("presence-with-entry-of-255".to_string(), long));
    messages
}

/// Presence Responses: with a name, without one, with the longest.
fn responses(prng: &mut Prng) -> Vec<(String, Draft)> {
    let longest: &[u8; 64] = b"Hlidunsk, upper valley, pumps 1 to 9, north of the old mill road";
    let named: [(&str, u16, u16, &[u8]); 3] = [
        ("presence-response", 1, 12, b"Hlidunsk, upper valley"),
        ("presence-response-without-name", 0, 0, b""),
        ("presence-response-with-name-of-64", 2, u16::MAX, longest),
    ];
    let mut messages = Vec::new();
    for (file, mode, device, name) in named {
        let presence = Presence { mode, device, name, salt: prng.array(), hash: prng.array() };
        messages.push((file.to_string(), presence_response(presence)));
    }
    messages
}

/// Two streams for the listing: one of good messages, one that a refusal ends early. The Presence
/// Responses end the first alone, so that the second stays what it was before there were any.
fn listings(
    messages: &[(String, Draft)],
    responses: &[(String, Draft)],
    gateway: &Gateway,
    files: &mut Vec<File>,
) {
    let mut whole = Script::default();
    let mut refused = Script::default();
    whole.list(messages, gateway);
    let good = whole.lines.len() / 2;
    for ((_, draft), line) in messages.iter().zip(&whole.lines).take(good) {
        refused.put(&draft.bytes(&gateway.keys), line.clone());
    }
    let mut small = presence_request();
    small.length = Some(7);
    refused.put(&small.bytes(&gateway.keys)[..SHORTEST], "refused 3");
    refused.bytes.extend(&whole.bytes);
    whole.list(responses, gateway);
    for (name, script) in [("listing", whole), ("listing-refused", refused)] {
        files.push((format!("{name}.txt"), script.lines().into_bytes()));
        files.push((format!("{name}.bin"), script.bytes));
    }
}
