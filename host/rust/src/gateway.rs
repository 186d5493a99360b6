// SPDX-License-Identifier: MPL-2.0
//! The gateway's side of its connection to a hub.

use core::fmt;

use crate::message::key_bytes;
use crate::payload::{AUTHENTICATION_REQUEST, CONNECTION_REQUEST, DONE_REQUEST};
use crate::{ffi, Keys, Refusal};

// Where in the bytes of a gateway's connection what stands: hub.h's layout.
const SIZE_AT: usize = 0;
const STATE_AT: usize = 8;
const SESSION_AT: usize = 9;

// The kinds of answers that a gateway's step gives.
const AGAIN: u64 = 2;
const NEXT: u64 = 7;
const READY: u64 = 8;
const FAILED: u64 = 9;

// In the place of the type of a request: there is none.
const NOTHING_DUE: u64 = 256;

/// The states of a gateway's connection, by document 01's names.
#[derive(Clone, Copy, Debug, PartialEq, Eq, Hash)]
pub enum GatewayState {
    /// 0: waiting for the Connection Response.
    WaitingForResponse,
    /// 1: waiting for authentication, for the Device Authentication Response.
    WaitingForAuthentication,
    /// 2: waiting for authentication, for the Authentication Done Response. MS-CDP has one state for
    /// this and the one before.
    WaitingForDone,
    /// 3: Ready. Reports may be sent.
    Ready,
    /// 4: Failed. Every message that is not refused before is refused with 15 or 16 (1 to 14 come
    /// first); only [`Gateway::open`] helps.
    Failed,
    /// Any other number: these bytes are made up. Every message is refused, as in `Failed`.
    Other(u8),
}

impl GatewayState {
    /// Its number in document 01.
    pub fn number(self) -> u8 {
        match self {
            GatewayState::WaitingForResponse => 0,
            GatewayState::WaitingForAuthentication => 1,
            GatewayState::WaitingForDone => 2,
            GatewayState::Ready => 3,
            GatewayState::Failed => 4,
            GatewayState::Other(number) => number,
        }
    }

    /// The state with this number.
    pub fn from_number(number: u8) -> GatewayState {
        match number {
            0 => GatewayState::WaitingForResponse,
            1 => GatewayState::WaitingForAuthentication,
            2 => GatewayState::WaitingForDone,
            3 => GatewayState::Ready,
            4 => GatewayState::Failed,
            _ => GatewayState::Other(number),
        }
    }
}

/// Which Connect payload the gateway is to send.
#[derive(Clone, Copy, Debug, PartialEq, Eq, Hash)]
pub enum Request {
    /// A Connection Request, with the gateway's nonce and public key.
    ConnectionRequest,
    /// A Device Authentication Request, with the gateway's own certificate.
    DeviceAuthenticationRequest,
    /// An Authentication Done Request.
    DoneRequest,
}

impl Request {
    /// By the type of its payload; none where the library says that nothing is due.
    fn from_word(connect: u64) -> Result<Option<Request>, Refusal> {
        match connect {
            CONNECTION_REQUEST => Ok(Some(Request::ConnectionRequest)),
            AUTHENTICATION_REQUEST => Ok(Some(Request::DeviceAuthenticationRequest)),
            DONE_REQUEST => Ok(Some(Request::DoneRequest)),
            NOTHING_DUE => Ok(None),
            _ => Err(Refusal::Unknown),
        }
    }
}

/// What a gateway's step that was not refused answers: what to do.
#[derive(Clone, Copy, Debug, PartialEq, Eq, Hash)]
pub enum GatewayAnswer {
    /// The reply was taken: write this request, send it, and keep its bytes. Where it is the
    /// [`DeviceAuthenticationRequest`](Request::DeviceAuthenticationRequest), the message was the
    /// Connection Response, whose nonce and public key lead to the keys: [`read`](crate::read) it.
    Next(Request),
    /// The last reply was taken: reports may be sent.
    Ready,
    /// The hub turns the gateway away, or the hub's certificate was not accepted. From here on
    /// every message is refused: start over, by [`Gateway::open`].
    Failed,
    /// A reply has come that was taken before, and nothing has changed. Send the same bytes of this
    /// request again, the one that follows this reply; after the last reply there is none.
    Again(Option<Request>),
}

impl GatewayAnswer {
    /// The library's words are those of hub.h.
    fn from_words(words: [u64; 3]) -> Result<GatewayAnswer, Refusal> {
        let [kind, value, _] = words;
        Ok(match kind {
            AGAIN => GatewayAnswer::Again(Request::from_word(value)?),
            NEXT => GatewayAnswer::Next(Request::from_word(value)?.ok_or(Refusal::Unknown)?),
            READY => GatewayAnswer::Ready,
            FAILED => GatewayAnswer::Failed,
            _ => return Err(Refusal::Unknown),
        })
    }
}

/// What a gateway remembers of its hub: a value of 17 bytes, in the layout of hub.h.
///
/// It is opened for each enrolment, with a new SessionID. [`Gateway::due`] names the request that is
/// to be sent, and [`Gateway::step`] takes what comes ([The gateway](crate#the-gateway)). Copy it,
/// compare it, store it: [`Gateway::as_bytes`] and [`Gateway::from_bytes`].
///
/// ```
/// # use hlidunsk::{Gateway, GatewayState, Refusal, Request};
/// # fn draw() -> u64 { 42 }
/// let gateway = Gateway::open(256, draw())?;
/// assert_eq!((gateway.fragment_size(), gateway.session()), (256, 42));
/// assert_eq!(gateway.state(), GatewayState::WaitingForResponse);
/// assert_eq!(gateway.due(), Some(Request::ConnectionRequest));
///
/// let stored: [u8; Gateway::SIZE] = *gateway.as_bytes();
/// assert_eq!(Gateway::from_bytes(stored), gateway);
/// # Ok::<(), Refusal>(())
/// ```
#[derive(Clone, Copy, PartialEq, Eq, Hash)]
pub struct Gateway([u8; Gateway::SIZE]);

impl Gateway {
    /// Bytes of a gateway's connection.
    pub const SIZE: usize = 17;

    /// Opens a gateway's connection: it waits for the Connection Response, and the Connection
    /// Request is due.
    ///
    /// `fragment_size` is F, which is kept for [`cut`](crate::cut). `session` is the SessionID that
    /// the gateway's requests carry: any number; draw it at random, a new one for each enrolment.
    ///
    /// # Errors
    ///
    /// Refusal 24 where F is not 1 to [`MOST_FRAGMENT_SIZE`](crate::MOST_FRAGMENT_SIZE).
    pub fn open(fragment_size: usize, session: u64) -> Result<Gateway, Refusal> {
        let mut gateway = [0; Gateway::SIZE];
        let (bytes, bytes_n) = (gateway.as_mut_ptr(), gateway.len());
        // SAFETY: pointer and length are those of an array.
        Refusal::of(unsafe {
            ffi::hub_gateway_open(fragment_size as u64, session, bytes, bytes_n)
        })?;
        Ok(Gateway(gateway))
    }

    /// Takes one message that has come in, and answers what to do.
    ///
    /// - `message` is the message, as it came.
    /// - `keys` are those of this enrolment; none until they are agreed on.
    /// - `working` has to be as long as the message's sealed part: its first bytes then hold what
    ///   was opened.
    /// - `accepted` is the verdict: whether the hub's certificate that this message may show is
    ///   accepted. Every Device Authentication Response looks at it, also one that comes again, and
    ///   no other message ([Turned away](crate#turned-away)).
    ///
    /// Here a Connection Response comes, and comes again:
    ///
    /// ```
    /// # use hlidunsk::payload::{Connect, ConnectionResult, Exchange, Mode, MOST_PAYLOAD};
    /// # use hlidunsk::{read, write, Gateway, GatewayAnswer, GatewayState, Refusal, Request};
    /// # use hlidunsk::{MOST_REPLY, NO_ENTRIES};
    /// # let (mode, exchange) = (Mode::None, Exchange { nonce: [1; 8], x: [2; 32], y: [3; 32] });
    /// # let reply = Connect::ConnectionResponse { mode, result: ConnectionResult::Pending(exchange) };
    /// # let (mut payload, mut message) = ([0; MOST_PAYLOAD], [0; MOST_REPLY]);
    /// # let length = reply.write(&mut payload)?;
    /// # let (header, payload) = (reply.header(42, 0xC000_0000), &payload[..length]);
    /// # let length = write(&header, NO_ENTRIES, payload, None, &mut message)?;
    /// # let message = &message[..length];
    /// let mut gateway = Gateway::open(256, 42)?;
    /// let next = Request::DeviceAuthenticationRequest;
    /// let answer = gateway.step(message, None, &mut [], false)?;
    /// assert_eq!(answer, GatewayAnswer::Next(next));
    /// assert_eq!(gateway.due(), Some(next));
    ///
    /// // It has what the keys are made of, which the request that is next is sealed under.
    /// match read(message, None, &mut [])?.connect() {
    ///     Some(Connect::ConnectionResponse { result: ConnectionResult::Pending(theirs), .. }) => {
    ///         assert_eq!(theirs, exchange);
    ///     }
    ///     other => panic!("{other:?}"),
    /// }
    ///
    /// let answer = gateway.step(message, None, &mut [], false)?;
    /// assert_eq!(answer, GatewayAnswer::Again(Some(next)));
    ///
    /// // A gateway of another SessionID drops it.
    /// let mut other = Gateway::open(256, 43)?;
    /// assert_eq!(other.step(message, None, &mut [], false), Err(Refusal::OtherSession));
    /// # Ok::<(), Refusal>(())
    /// ```
    ///
    /// # Errors
    ///
    /// The first that applies of 24; 1 to 9; 10 to 13 (sealed messages); 14; 16; 15. The gateway's
    /// connection is as it was. So is the working buffer for 24 and 1 to 13; for the others its
    /// first bytes hold what was opened of a sealed message.
    ///
    /// 16 is another SessionID than the gateway's, in every state; 15 a reply out of order, a
    /// request, a Session or a Discovery message, and every message in [`GatewayState::Failed`].
    pub fn step(
        &mut self,
        message: &[u8],
        keys: Option<&Keys>,
        working: &mut [u8],
        accepted: bool,
    ) -> Result<GatewayAnswer, Refusal> {
        let keys = key_bytes(keys);
        let mut answer = [0; 3];
        // SAFETY: pointers and lengths are those of slices; the mutable ones overlap no other.
        Refusal::of(unsafe {
            ffi::hub_gateway_step(
                self.0.as_mut_ptr(),
                self.0.len(),
                message.as_ptr(),
                message.len(),
                keys.as_ptr(),
                keys.len(),
                working.as_mut_ptr(),
                working.len(),
                accepted.into(),
                answer.as_mut_ptr(),
                answer.len(),
            )
        })?;
        GatewayAnswer::from_words(answer)
    }

    /// The request that is due: what to send now, and to send again, the same bytes, where no reply
    /// comes in its time. None where the gateway is Ready or Failed.
    pub fn due(&self) -> Option<Request> {
        let mut due = [NOTHING_DUE];
        // SAFETY: pointers and lengths are those of arrays; the two do not overlap.
        let number = unsafe {
            ffi::hub_gateway_due(self.0.as_ptr(), self.0.len(), due.as_mut_ptr(), due.len())
        };
        // It is refused on no gateway's connection, and its words are those of hub.h.
        Refusal::of(number).and_then(|()| Request::from_word(due[0])).ok().flatten()
    }

    /// The bytes, to store them.
    pub fn as_bytes(&self) -> &[u8; Gateway::SIZE] {
        &self.0
    }

    /// A gateway's connection that was stored. Every 17 bytes are one, though not all are what
    /// [`Gateway::open`] and [`Gateway::step`] come to. Its keys, the bytes of its requests and the
    /// number of its next report have to come back with it.
    pub fn from_bytes(bytes: [u8; Gateway::SIZE]) -> Gateway {
        Gateway(bytes)
    }

    /// F, the bytes of a piece.
    pub fn fragment_size(&self) -> usize {
        u64::from_be_bytes(self.bytes(SIZE_AT)) as usize
    }

    /// Its state.
    pub fn state(&self) -> GatewayState {
        GatewayState::from_number(self.0[STATE_AT])
    }

    /// The SessionID that it was opened with.
    pub fn session(&self) -> u64 {
        u64::from_be_bytes(self.bytes(SESSION_AT))
    }

    /// The bytes from a place of hub.h's layout on, which has them.
    fn bytes<const N: usize>(&self, place: usize) -> [u8; N] {
        self.0.get(place..).and_then(<[u8]>::first_chunk).copied().unwrap_or([0; N])
    }
}

impl fmt::Debug for Gateway {
    fn fmt(&self, f: &mut fmt::Formatter<'_>) -> fmt::Result {
        f.debug_struct("Gateway")
            .field("fragment_size", &self.fragment_size())
            .field("state", &self.state())
            .field("session", &self.session())
            .finish()
    }
}
