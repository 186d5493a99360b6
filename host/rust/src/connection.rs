// SPDX-License-Identifier: MPL-2.0
//! The hub's side of one gateway's connection.

use core::fmt;

use crate::message::key_bytes;
use crate::payload::Exchange;
use crate::{ffi, Answer, Keys, Refusal};

/// The most pieces of a report: a report buffer of so many times F bytes is enough for every
/// report.
pub const MOST_PIECES: usize = 64;

/// The largest F.
pub const MOST_FRAGMENT_SIZE: usize = 16_384;

// Where in the bytes of a connection what stands: hub.h's layout.
const SIZE_AT: usize = 0;
const STATE_AT: usize = 8;
const SESSION_AT: usize = 9;
const NONCE_AT: usize = 17;
const X_AT: usize = 25;
const Y_AT: usize = 57;
const DIGEST_AT: usize = 89;
const EXPECTED_AT: usize = 121;

/// The states of a connection, by document 01's names.
#[derive(Clone, Copy, Debug, PartialEq, Eq, Hash)]
pub enum State {
    /// 0: waiting for a request.
    WaitingForRequest,
    /// 1: waiting for authentication. The only state in which a step looks at the verdict.
    WaitingForAuthentication,
    /// 2: passed. The gateway's certificate was accepted.
    Passed,
    /// 3: Ready. Reports are taken.
    Ready,
    /// 4: Failed. Every message that is not refused before is refused with 15 or 16 (1 to 14 come
    /// first); only [`Connection::open`] helps.
    Failed,
    /// Any other number: these bytes are made up. Every message is refused, as in `Failed`.
    Other(u8),
}

impl State {
    /// Its number in document 01.
    pub fn number(self) -> u8 {
        match self {
            State::WaitingForRequest => 0,
            State::WaitingForAuthentication => 1,
            State::Passed => 2,
            State::Ready => 3,
            State::Failed => 4,
            State::Other(number) => number,
        }
    }

    /// The state with this number.
    pub fn from_number(number: u8) -> State {
        match number {
            0 => State::WaitingForRequest,
            1 => State::WaitingForAuthentication,
            2 => State::Passed,
            3 => State::Ready,
            4 => State::Failed,
            _ => State::Other(number),
        }
    }
}

/// What the hub remembers of a gateway: a value of 151 bytes, in the layout of hub.h.
///
/// Copy it, compare it, store it: [`Connection::as_bytes`] and [`Connection::from_bytes`].
///
/// ```
/// # use hlidunsk::{Connection, Refusal, State};
/// let connection = Connection::open(256)?;
/// assert_eq!((connection.fragment_size(), connection.expected()), (256, 0));
/// assert_eq!(connection.state(), State::WaitingForRequest);
///
/// let stored: [u8; Connection::SIZE] = *connection.as_bytes();
/// assert_eq!(Connection::from_bytes(stored), connection);
/// # Ok::<(), Refusal>(())
/// ```
#[derive(Clone, Copy, PartialEq, Eq, Hash)]
pub struct Connection([u8; Connection::SIZE]);

impl Connection {
    /// Bytes of a connection.
    pub const SIZE: usize = 151;

    /// Opens a connection of fragment size F: it waits for a request, and expects the report of
    /// SequenceNumber 0.
    ///
    /// # Errors
    ///
    /// Refusal 24 where F is not 1 to [`MOST_FRAGMENT_SIZE`].
    pub fn open(fragment_size: usize) -> Result<Connection, Refusal> {
        let mut state = [0; Connection::SIZE];
        let (bytes, bytes_n) = (state.as_mut_ptr(), state.len());
        // SAFETY: pointer and length are those of an array.
        Refusal::of(unsafe { ffi::hub_open(fragment_size as u64, bytes, bytes_n) })?;
        Ok(Connection(state))
    }

    /// Takes one message that has come in, and answers what to do.
    ///
    /// - `message` is the message, as it came.
    /// - `keys` are those of this gateway; none until they are agreed on.
    /// - `working` has to be as long as the message's sealed part: its first bytes then hold what
    ///   was opened.
    /// - `report` is this connection's report buffer: the same at each step, and left alone between
    ///   steps until the report is complete. A piece is written from F times its index on. Until a
    ///   report's first piece has come any will do, none too (`&mut []`).
    /// - `accepted` is the verdict: whether the certificate that this message may show is accepted.
    ///   Only a Device Authentication Request in [`State::WaitingForAuthentication`] looks at it,
    ///   and `false` is then final ([Verdicts](crate#verdicts)).
    ///
    /// Here a report of two pieces comes, the second piece first:
    ///
    /// ```
    /// # use hlidunsk::payload::{Connect, Exchange, Mode, MOST_PAYLOAD};
    /// # use hlidunsk::{cut, write, Answer, Connection, Refusal, NO_ENTRIES};
    /// # const F: usize = 16;
    /// # let (keys, mode) = ([7; 64], Mode::None);
    /// # let mut connection = Connection::open(F)?;
    /// # let mut payload = [0; MOST_PAYLOAD];
    /// # let mut message = [0; 256];
    /// # let exchange = Exchange { nonce: [1; 8], x: [2; 32], y: [3; 32] };
    /// # let (certificate, thumbprint) = (&b"gateway 7"[..], &b""[..]);
    /// # let requests = [
    /// #     Connect::ConnectionRequest { mode, exchange },
    /// #     Connect::DeviceAuthenticationRequest { mode, certificate, thumbprint },
    /// #     Connect::DoneRequest { mode },
    /// # ];
    /// # for (request, sequence) in requests.iter().zip(0x8000_0000..) {
    /// #     let length = request.write(&mut payload)?;
    /// #     let (header, payload) = (request.header(42, sequence), &payload[..length]);
    /// #     let length = write(&header, NO_ENTRIES, payload, Some(&keys), &mut message)?;
    /// #     connection.step(&message[..length], Some(&keys), &mut [0; 64], &mut [], true)?;
    /// # }
    /// # let mut write_piece = |index| {
    /// #     let piece = cut(b"pump 7: 1,204 litres", F, index)?;
    /// #     let mut message = [0; 106];
    /// #     let header = piece.header(42, 0);
    /// #     let length = write(&header, NO_ENTRIES, piece.bytes, Some(&keys), &mut message)?;
    /// #     Ok::<_, Refusal>(message[..length].to_vec())
    /// # };
    /// # let (first, second) = (write_piece(0)?, write_piece(1)?);
    /// let (mut working, mut report) = ([0; F + 19], [0; 64 * F]);
    /// let answer = connection.step(&second, Some(&keys), &mut working, &mut report, false)?;
    /// assert_eq!(answer, Answer::Taken { heard: 1 });
    /// match connection.step(&first, Some(&keys), &mut working, &mut report, false)? {
    ///     Answer::Complete { report, .. } => assert_eq!(report, b"pump 7: 1,204 litres"),
    ///     other => panic!("{other:?}"),
    /// }
    ///
    /// // A copy of it comes late.
    /// let answer = connection.step(&first, Some(&keys), &mut working, &mut report, false);
    /// assert_eq!(answer, Err(Refusal::PastSequence));
    /// # Ok::<(), Refusal>(())
    /// ```
    ///
    /// # Errors
    ///
    /// The first that applies of 255; 24; 1 to 9; 10 to 13 (sealed messages); 14; 16; 15; 19, 17,
    /// 18, 21, 20, 22, 23. Connection and report buffer are as they were. So is the working buffer
    /// for 255, 24 and 1 to 13; for the others its first bytes hold what was opened of a sealed
    /// message.
    ///
    /// 255, [`Refusal::WrongBuffer`], is a report buffer that is shorter than the report whose last
    /// piece has come, whatever the message.
    pub fn step<'a>(
        &mut self,
        message: &[u8],
        keys: Option<&Keys>,
        working: &mut [u8],
        report: &'a mut [u8],
        accepted: bool,
    ) -> Result<Answer<'a>, Refusal> {
        let keys = key_bytes(keys);
        let mut answer = [0; 3];
        // SAFETY: pointers and lengths are those of slices; the mutable ones overlap no other.
        Refusal::of(unsafe {
            ffi::hub_step(
                self.0.as_mut_ptr(),
                self.0.len(),
                message.as_ptr(),
                message.len(),
                keys.as_ptr(),
                keys.len(),
                working.as_mut_ptr(),
                working.len(),
                report.as_mut_ptr(),
                report.len(),
                accepted.into(),
                answer.as_mut_ptr(),
                answer.len(),
            )
        })?;
        Answer::from_words(answer, report)
    }

    /// The bytes, to store them.
    pub fn as_bytes(&self) -> &[u8; Connection::SIZE] {
        &self.0
    }

    /// A connection that was stored. Every 151 bytes are one, though not all are what
    /// [`Connection::open`] and [`Connection::step`] come to. While a report is under way its
    /// report buffer has to come back with it ([Stored connections](crate#stored-connections)).
    pub fn from_bytes(bytes: [u8; Connection::SIZE]) -> Connection {
        Connection(bytes)
    }

    /// F, the bytes of a piece.
    pub fn fragment_size(&self) -> usize {
        u64::from_be_bytes(self.bytes(SIZE_AT)) as usize
    }

    /// Its state.
    pub fn state(&self) -> State {
        State::from_number(self.0[STATE_AT])
    }

    /// SessionID of the Connection Request; 0 before it.
    pub fn session(&self) -> u64 {
        u64::from_be_bytes(self.bytes(SESSION_AT))
    }

    /// The gateway's half of the key agreement, by its Connection Request; zeros before it.
    pub fn exchange(&self) -> Exchange {
        Exchange { nonce: self.bytes(NONCE_AT), x: self.bytes(X_AT), y: self.bytes(Y_AT) }
    }

    /// SHA-256 of the certificate that the gateway has shown; zeros before it.
    pub fn certificate_digest(&self) -> [u8; 32] {
        self.bytes(DIGEST_AT)
    }

    /// The SequenceNumber of the report that is expected.
    pub fn expected(&self) -> u32 {
        u32::from_be_bytes(self.bytes(EXPECTED_AT))
    }

    /// The bytes from a place of hub.h's layout on, which has them.
    fn bytes<const N: usize>(&self, place: usize) -> [u8; N] {
        self.0.get(place..).and_then(<[u8]>::first_chunk).copied().unwrap_or([0; N])
    }
}

/// Leaves out what is secret or long.
impl fmt::Debug for Connection {
    fn fmt(&self, f: &mut fmt::Formatter<'_>) -> fmt::Result {
        f.debug_struct("Connection")
            .field("fragment_size", &self.fragment_size())
            .field("state", &self.state())
            .field("session", &self.session())
            .field("expected", &self.expected())
            .finish_non_exhaustive()
    }
}
