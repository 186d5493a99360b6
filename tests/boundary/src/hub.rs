// SPDX-License-Identifier: MPL-2.0
//! Document 01's calls as the comparison asks for them, each by one call through the C boundary. What
//! the comparison cannot see is tested here: that a refusal leaves the state as it was and every word
//! that it hands out 0, and which buffer the words name. A short report buffer, of which document 01
//! does not speak, is answered by the second implementation once the call has refused it.

use second::client::{self, Client};
use second::compare::{Implementation, Piece, Second};
use second::connection::{Answer, Connection};
use second::header::{Framed, Header, Kind};
use second::message::{Message, Place};
use second::payload::{Connect, Credentials, DiscoveryParts, Offer, Parts, Presence};
use second::refusal::Refusal;

use crate::hub_h::{Hub, WRONG_BUFFER, answer_words, connect_words, discovery_words};
use crate::hub_h::{header_words, kinds, nothing_due, piece_words, place_words, sealed};
use crate::state::{GATEWAY, STATE, decode, decode_gateway, encode, encode_gateway};

/// What stands in an output before a call.
pub const BEFORE: u64 = 0x5AA5_0FF0_C33C_9669;

/// What a call returned, as a refusal.
pub fn refusal(number: u32) -> Result<(), Refusal> {
    match u8::try_from(number).map(Refusal::from_number) {
        Ok(Some(refusal)) => Err(refusal),
        _ if number == 0 => Ok(()),
        _ => panic!("{number} was returned"),
    }
}

/// The same; every word that is handed out is 0 exactly where it is a refusal.
fn unless_refused<const N: usize>(number: u32, words: [u64; N]) -> Result<[u64; N], Refusal> {
    let answer = refusal(number);
    assert_eq!(answer.is_err(), words == [0; N], "{number} was returned, and the words {words:?}");
    answer.map(|()| words)
}

/// What a call returns for such an answer.
pub fn number_of<T>(answer: &Result<T, Refusal>) -> u32 {
    answer.as_ref().map_or_else(|refusal| refusal.number().into(), |_| 0)
}

/// Words by hub.h's names, in the order of the names.
pub fn by_name<const N: usize, const M: usize>(words: &[u64; N], names: [usize; M]) -> [u64; M] {
    names.map(|name| words[name])
}

fn fits<T: TryFrom<u64>>(word: u64) -> T {
    T::try_from(word).unwrap_or_else(|_| panic!("{word} is too wide for its field"))
}

/// Header, kind, and the place's start and end. What the words name must be the payload of a plain
/// message, and `otherwise` of a sealed one.
fn header_of(words: &[u64; 11], otherwise: u64) -> (Header, Kind, std::ops::Range<usize>) {
    let [kind, flags, sequence, request, index, count, session, channel, names, from, size] =
        by_name(words, header_words());
    let header = Header {
        message_type: fits(kind),
        flags: fits(flags),
        sequence: fits(sequence),
        request,
        index: fits(index),
        count: fits(count),
        session,
        channel,
    };
    let [plain, ..] = sealed();
    assert_eq!(names, if header.sealed() { otherwise } else { plain }, "HUB_HEADER_SEALED");
    let kind = Kind::from_number(header.message_type).expect("a kind");
    (header, kind, from as usize..(from + size) as usize)
}

/// The words of a header, for the writer.
pub fn fields_of(header: &Header) -> [u64; 8] {
    let values: [u64; 8] = [
        header.message_type.into(),
        header.flags.into(),
        header.sequence.into(),
        header.request,
        header.index.into(),
        header.count.into(),
        header.session,
        header.channel,
    ];
    let mut fields = [0; 8];
    for (name, value) in header_words().into_iter().zip(values) {
        fields[name] = value;
    }
    fields
}

/// What the words say of a Connect payload.
pub fn parts_of(words: &[u64; 13]) -> Parts {
    let [kind, mode, code, parts @ ..] = by_name(words, connect_words());
    let part = |at: usize| fits(parts[2 * at])..fits(parts[2 * at] + parts[2 * at + 1]);
    Parts {
        kind: fits(kind),
        mode: fits(mode),
        code: fits(code),
        nonce: part(0),
        x: part(1),
        y: part(2),
        certificate: part(3),
        thumbprint: part(4),
    }
}

/// What the words say of a Discovery payload.
fn discovery_parts_of(words: &[u64; 9]) -> DiscoveryParts {
    let [kind, mode, device, parts @ ..] = by_name(words, discovery_words());
    let part = |at: usize| fits(parts[2 * at])..fits(parts[2 * at] + parts[2 * at + 1]);
    DiscoveryParts {
        kind: fits(kind),
        mode: fits(mode),
        device: fits(device),
        name: part(0),
        salt: part(1),
        hash: part(2),
    }
}

/// A step's answer.
pub fn answer_of(words: &[u64; 3]) -> Answer {
    let [kind, value, length, status] = by_name(words, answer_words());
    let [_, reply, again, failure, taken, repeat, complete, ..] = kinds();
    assert!(kind == complete || length == 0, "a length that is not used is {length}");
    assert!((kind != reply && kind != again) || status == 0, "the Status of a reply is {status}");
    match kind {
        kind if kind == reply => Answer::Reply(fits(value)),
        kind if kind == again => Answer::Again(fits(value)),
        kind if kind == failure && value == 0 => Answer::Failure,
        kind if kind == taken => Answer::Taken(fits(value)),
        kind if kind == repeat => Answer::Repeat(fits(value)),
        kind if kind == complete => Answer::Complete(fits(length), fits(value)),
        _ => panic!("answer {words:?}"),
    }
}

/// The type of a request that is due, if one is.
fn request_of(word: u64) -> Option<u8> {
    (word != nothing_due()).then(|| fits(word))
}

/// The answer of a gateway's step.
fn gateway_answer_of(words: &[u64; 3]) -> client::Answer {
    let [kind, value, unused, _] = by_name(words, answer_words());
    let [_, _, again, .., next, ready, failed] = kinds();
    assert_eq!(unused, 0, "a word that is not used");
    match kind {
        kind if kind == again => client::Answer::Again(request_of(value)),
        kind if kind == next => client::Answer::Next(fits(value)),
        kind if kind == ready && value == 0 => client::Answer::Ready,
        kind if kind == failed && value == 0 => client::Answer::Failed,
        _ => panic!("answer {words:?}"),
    }
}

impl Hub {
    /// `hub_payload` makes of these words this part of this buffer.
    pub fn place_is(
        &mut self,
        message: &[u8],
        working: &[u8],
        words: &[u64; 11],
        buffer: u64,
        range: &std::ops::Range<usize>,
    ) {
        let mut place = [BEFORE; 3];
        assert_eq!(self.payload(message, working, words, &mut place), 0);
        let place = by_name(&place, place_words());
        assert_eq!(place, [buffer, range.start as u64, range.len() as u64], "{words:?}");
    }
}

impl Implementation for Hub {
    fn read_header(&mut self, message: &[u8]) -> Result<Framed, Refusal> {
        let mut words = [BEFORE; 11];
        let number = Hub::read_header(self, message, &mut words);
        let [plain, _, still_sealed] = sealed();
        let (header, kind, body) = header_of(&unless_refused(number, words)?, still_sealed);
        // A sealed message's words name no payload, though both buffers have such a part.
        let payload = if header.sealed() { 0..0 } else { body.clone() };
        self.place_is(message, message, &words, plain, &payload);
        Ok(Framed { header, kind, body })
    }

    fn read_message(
        &mut self,
        message: &[u8],
        keys: &[u8],
        working: &mut [u8],
    ) -> Result<Message, Refusal> {
        let mut words = [BEFORE; 11];
        let number = Hub::read(self, message, keys, working, &mut words);
        let [plain, opened, _] = sealed();
        let (header, kind, range) = header_of(&unless_refused(number, words)?, opened);
        let buffer = if header.sealed() { opened } else { plain };
        self.place_is(message, working, &words, buffer, &range);
        let payload = if header.sealed() { Place::Working(range) } else { Place::Message(range) };
        Ok(Message { header, kind, payload })
    }

    fn write_message(
        &mut self,
        header: &Header,
        chain: &[u8],
        payload: &[u8],
        keys: &[u8],
        output: &mut [u8],
    ) -> Result<usize, Refusal> {
        let mut length = [BEFORE];
        let fields = fields_of(header);
        let number = Hub::write(self, &fields, chain, payload, keys, output, &mut length);
        Ok(fits(unless_refused(number, length)?[0]))
    }

    fn write_presence_request(&mut self, output: &mut [u8]) -> Result<usize, Refusal> {
        let mut length = [BEFORE];
        let number = Hub::write_presence_request(self, output, &mut length);
        Ok(fits(unless_refused(number, length)?[0]))
    }

    fn write_presence_response(
        &mut self,
        presence: Presence<'_>,
        output: &mut [u8],
    ) -> Result<usize, Refusal> {
        let Presence { mode, device, name, salt, hash } = presence;
        let (parts, mut length) = ([name, &salt, &hash], [BEFORE]);
        let (mode, device) = (mode.into(), device.into());
        let number = Hub::write_presence_response(self, mode, device, parts, output, &mut length);
        Ok(fits(unless_refused(number, length)?[0]))
    }

    fn write_connect(
        &mut self,
        mode: u16,
        connect: Connect<'_>,
        output: &mut [u8],
    ) -> Result<usize, Refusal> {
        let (mode, mut length) = (mode.into(), [BEFORE]);
        let l = &mut length;
        let number = match connect {
            Connect::ConnectionRequest(Offer { nonce, x, y }) => {
                self.write_connection_request(mode, [&nonce, &x, &y], output, l)
            }
            Connect::ConnectionPending(Offer { nonce, x, y }) => {
                self.write_connection_response(mode, 1, [&nonce, &x, &y], output, l)
            }
            Connect::ConnectionResult(result) => {
                self.write_connection_response(mode, result.into(), [&[]; 3], output, l)
            }
            Connect::AuthenticationRequest(Credentials { certificate, thumbprint }) => {
                self.write_device_authentication(2, mode, certificate, thumbprint, output, l)
            }
            Connect::AuthenticationResponse(Credentials { certificate, thumbprint }) => {
                self.write_device_authentication(3, mode, certificate, thumbprint, output, l)
            }
            Connect::DoneRequest => self.write_done_request(mode, output, l),
            Connect::DoneResponse(status) => {
                self.write_done_response(mode, status.into(), output, l)
            }
        };
        Ok(fits(unless_refused(number, length)?[0]))
    }

    fn read_connect(&mut self, payload: &[u8]) -> Result<Parts, Refusal> {
        let mut words = [BEFORE; 13];
        let number = Hub::read_connect(self, payload, &mut words);
        Ok(parts_of(&unless_refused(number, words)?))
    }

    fn read_discovery(&mut self, payload: &[u8]) -> Result<DiscoveryParts, Refusal> {
        let mut words = [BEFORE; 9];
        let answer = refusal(Hub::read_discovery(self, payload, &mut words));
        // A Presence Request is done, and its words are all 0 too.
        let zeros = answer.is_err() || payload == [0];
        assert_eq!(zeros, words == [0; 9], "{answer:?}, and the words {words:?}");
        answer.map(|()| discovery_parts_of(&words))
    }

    fn wanted(&mut self, bytes: &[u8]) -> usize {
        Hub::wanted(self, bytes) as usize
    }

    fn open(&mut self, fragment_size: u32) -> (Connection, Result<(), Refusal>) {
        let mut state = [0xA5; STATE];
        let number = Hub::open(self, fragment_size.into(), &mut state);
        (decode(&state), refusal(number))
    }

    fn step(
        &mut self,
        connection: Connection,
        message: &[u8],
        keys: &[u8],
        working: &mut [u8],
        report: &mut [u8],
        verdict: u64,
    ) -> (Connection, Answer) {
        let before = encode(&connection);
        let (mut state, mut words) = (before, [BEFORE; 3]);
        let number =
            Hub::step(self, &mut state, message, keys, working, report, verdict, &mut words);
        if number == WRONG_BUFFER {
            return Second.step(connection, message, keys, working, report, verdict);
        }
        match unless_refused(number, words) {
            Err(refusal) => {
                assert_eq!(state, before, "{refusal}, but the state was written");
                (connection, Answer::Refused(refusal))
            }
            Ok(words) => (decode(&state), answer_of(&words)),
        }
    }

    fn gateway_open(&mut self, fragment_size: u32, session: u64) -> (Client, Result<(), Refusal>) {
        let mut gateway = [0xA5; GATEWAY];
        let number = Hub::gateway_open(self, fragment_size.into(), session, &mut gateway);
        (decode_gateway(&gateway), refusal(number))
    }

    fn gateway_step(
        &mut self,
        client: Client,
        message: &[u8],
        keys: &[u8],
        working: &mut [u8],
        verdict: u64,
    ) -> (Client, client::Answer) {
        let before = encode_gateway(&client);
        let (mut gateway, mut words) = (before, [BEFORE; 3]);
        let number =
            Hub::gateway_step(self, &mut gateway, message, keys, working, verdict, &mut words);
        match unless_refused(number, words) {
            Err(refusal) => {
                assert_eq!(gateway, before, "{refusal}, but the gateway was written");
                (client, client::Answer::Refused(refusal))
            }
            Ok(words) => (decode_gateway(&gateway), gateway_answer_of(&words)),
        }
    }

    fn gateway_due(&mut self, client: Client) -> Option<u8> {
        let mut due = [BEFORE];
        assert_eq!(Hub::gateway_due(self, &encode_gateway(&client), &mut due), 0);
        request_of(due[0])
    }

    fn cut(&mut self, report: &[u8], fragment_size: u32, index: u32) -> Piece {
        let mut words = [BEFORE; 3];
        let number = Hub::cut(self, report, fragment_size.into(), index.into(), &mut words);
        let [count, from, size] = by_name(&words, piece_words());
        (fits(count), fits(from)..fits(from + size), refusal(number))
    }

    fn line(&mut self, message: &[u8]) -> Result<String, Refusal> {
        let (mut line, mut length) = ([0xA5; 64], [BEFORE]);
        let answer = refusal(Hub::list(self, message, &mut line, &mut length));
        let (text, rest) = line.split_at(fits(length[0]));
        assert!(rest.iter().all(|byte| *byte == 0xA5), "written after the line");
        let text = str::from_utf8(text).expect("ASCII").strip_suffix('\n').expect("a newline");
        match answer {
            Ok(()) => Ok(text.to_owned()),
            Err(refusal) => {
                assert_eq!(text, refusal.to_string());
                Err(refusal)
            }
        }
    }

    fn sha256(&mut self, data: &[u8]) -> [u8; 32] {
        let mut out = [0xA5; 32];
        assert_eq!(Hub::digest(self, data, &mut out), 0);
        out
    }

    fn hmac(&mut self, key: &[u8; 32], data: &[u8]) -> [u8; 32] {
        let mut out = [0xA5; 32];
        assert_eq!(Hub::hmac(self, key, data, &mut out), 0);
        out
    }
}
