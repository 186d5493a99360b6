// SPDX-License-Identifier: MPL-2.0
//! The payloads of Discovery and Connect messages, as types.
//!
//! A gateway enrols by three requests, each of which the hub replies to. They are the six kinds of
//! [`Connect`]:
//!
//! | The gateway's | The hub's | On the wire |
//! |---|---|---|
//! | [`ConnectionRequest`](Connect::ConnectionRequest) | [`ConnectionResponse`](Connect::ConnectionResponse) | plain |
//! | [`DeviceAuthenticationRequest`](Connect::DeviceAuthenticationRequest) | [`DeviceAuthenticationResponse`](Connect::DeviceAuthenticationResponse) | sealed |
//! | [`DoneRequest`](Connect::DoneRequest) | [`DoneResponse`](Connect::DoneResponse) | sealed |
//!
//! A payload is written into a buffer, and goes from there with its header into a message:
//!
//! ```
//! use hlidunsk::payload::{Connect, Exchange, Mode, MOST_PAYLOAD};
//! use hlidunsk::{read, write, Refusal, MOST_REPLY, NO_ENTRIES};
//!
//! // The nonce is random, and x and y are the gateway's public key.
//! let exchange = Exchange { nonce: *b"a nonce.", x: [1; 32], y: [2; 32] };
//! let request = Connect::ConnectionRequest { mode: Mode::Proximal, exchange };
//! let (mut payload, mut message) = ([0; MOST_PAYLOAD], [0; MOST_REPLY]);
//! let length = request.write(&mut payload)?;
//! let header = request.header(42, 0x8000_0000);
//! let length = write(&header, NO_ENTRIES, &payload[..length], None, &mut message)?;
//!
//! // And back.
//! let came = read(&message[..length], None, &mut [])?;
//! assert_eq!(came.connect(), Some(request));
//! # Ok::<(), Refusal>(())
//! ```
//!
//! Before that somebody may ask who is there, by a presence call, which the hub answers by its
//! name. These are the two kinds of [`Discovery`], both plain.

use crate::message::part;
use crate::{ffi, Header, MessageType, Refusal};

/// The longest payload of Discovery and Connect: room of this size is enough for all.
pub const MOST_PAYLOAD: usize = 2_567;

/// The longest certificate; the shortest has one byte.
pub const MOST_CERTIFICATE: usize = 2_048;

/// The longest thumbprint; it may be empty.
pub const MOST_THUMBPRINT: usize = 512;

/// The longest name of a Presence Response; it may be empty.
pub const MOST_NAME: usize = 64;

// The types of Discovery payloads: DiscoveryType, their first byte.
const PRESENCE_REQUEST: u64 = 0;
const PRESENCE_RESPONSE: u64 = 1;

// The types of Connect payloads: the byte after ConnectionMode.
pub(crate) const CONNECTION_REQUEST: u64 = 0;
pub(crate) const CONNECTION_RESPONSE: u64 = 1;
pub(crate) const AUTHENTICATION_REQUEST: u64 = 2;
pub(crate) const AUTHENTICATION_RESPONSE: u64 = 3;
pub(crate) const DONE_REQUEST: u64 = 6;
pub(crate) const DONE_RESPONSE: u64 = 7;

/// A part of a payload that has a fixed size.
fn fixed<const N: usize>(part: &[u8]) -> Result<[u8; N], Refusal> {
    part.try_into().map_err(|_| Refusal::Unknown)
}

/// ConnectionMode of a Connect payload and of a Presence Response, by MS-CDP's names. The hub makes
/// nothing of it.
#[derive(Clone, Copy, Debug, Default, PartialEq, Eq, Hash)]
#[repr(u16)]
pub enum Mode {
    /// 0.
    #[default]
    None = 0,
    /// 1.
    Proximal = 1,
    /// 2.
    Legacy = 2,
}

impl Mode {
    /// Its number on the wire.
    pub fn number(self) -> u16 {
        self as u16
    }

    /// The mode with this number on the wire.
    pub fn from_number(number: u16) -> Option<Mode> {
        [Mode::None, Mode::Proximal, Mode::Legacy].get(usize::from(number)).copied()
    }

    fn from_word(word: u64) -> Result<Mode, Refusal> {
        u16::try_from(word).ok().and_then(Mode::from_number).ok_or(Refusal::Unknown)
    }
}

/// DeviceType of a Presence Response: its number on the wire, which may be any. The constants have
/// MS-CDP's names. The hub makes nothing of it.
#[derive(Clone, Copy, Debug, PartialEq, Eq, Hash)]
pub struct DeviceType(pub u16);

impl DeviceType {
    /// Xbox One.
    pub const XBOX_ONE: DeviceType = DeviceType(1);
    /// Apple iPhone.
    pub const IPHONE: DeviceType = DeviceType(6);
    /// Apple iPad.
    pub const IPAD: DeviceType = DeviceType(7);
    /// Android device.
    pub const ANDROID: DeviceType = DeviceType(8);
    /// Windows 10 Desktop.
    pub const WINDOWS_DESKTOP: DeviceType = DeviceType(9);
    /// Windows 10 Phone.
    pub const WINDOWS_PHONE: DeviceType = DeviceType(11);
    /// Linux device.
    pub const LINUX: DeviceType = DeviceType(12);
    /// Windows IoT.
    pub const WINDOWS_IOT: DeviceType = DeviceType(13);
    /// Surface Hub.
    pub const SURFACE_HUB: DeviceType = DeviceType(14);
    /// Windows laptop.
    pub const WINDOWS_LAPTOP: DeviceType = DeviceType(15);
    /// Windows tablet.
    pub const WINDOWS_TABLET: DeviceType = DeviceType(16);
}

/// One side's half of the key agreement: what a Connection Request carries, and a Connection
/// Response that is Pending.
#[derive(Clone, Copy, Debug, PartialEq, Eq, Hash)]
pub struct Exchange {
    /// The nonce: random, and new for each request and for each response. One that is sent again
    /// has the same nonce, X and Y.
    pub nonce: [u8; 8],
    /// X of the sender's public key.
    pub x: [u8; 32],
    /// Y of the sender's public key.
    pub y: [u8; 32],
}

/// The Result of a Connection Response, by MS-CDP's names. Only Pending lets the gateway go on.
#[derive(Clone, Copy, Debug, PartialEq, Eq, Hash)]
pub enum ConnectionResult {
    /// 0.
    Success,
    /// 1: authentication is to follow, under the keys that the agreement leads to; the hub's half
    /// of it.
    Pending(Exchange),
    /// 2.
    FailureAuthentication,
    /// 3.
    FailureNotAllowed,
}

impl ConnectionResult {
    /// Its number on the wire, and what follows it there: nonce, X and Y, or nothing.
    fn parts(&self) -> (u64, [&[u8]; 3]) {
        match self {
            ConnectionResult::Success => (0, [&[]; 3]),
            ConnectionResult::Pending(Exchange { nonce, x, y }) => (1, [nonce, x, y]),
            ConnectionResult::FailureAuthentication => (2, [&[]; 3]),
            ConnectionResult::FailureNotAllowed => (3, [&[]; 3]),
        }
    }
}

/// The Status of an Authentication Done Response, by MS-CDP's names.
#[derive(Clone, Copy, Debug, PartialEq, Eq, Hash)]
#[repr(u8)]
pub enum Status {
    /// 0: what a hub replies.
    Success = 0,
    /// 1.
    Pending = 1,
    /// 2.
    FailureAuthentication = 2,
    /// 3.
    FailureNotAllowed = 3,
    /// 4.
    FailureUnknown = 4,
}

impl Status {
    /// Its number on the wire.
    pub fn number(self) -> u8 {
        self as u8
    }

    /// The status with this number on the wire.
    pub fn from_number(number: u8) -> Option<Status> {
        use Status::*;
        [Success, Pending, FailureAuthentication, FailureNotAllowed, FailureUnknown]
            .get(usize::from(number))
            .copied()
    }

    pub(crate) fn from_word(word: u64) -> Result<Status, Refusal> {
        u8::try_from(word).ok().and_then(Status::from_number).ok_or(Refusal::Unknown)
    }
}

/// The payload of a Presence Request, a Discovery message: it asks who is there. It is what
/// [`Discovery::PresenceRequest`] is, for those who write nothing else.
#[derive(Clone, Copy, Debug, Default, PartialEq, Eq, Hash)]
pub struct PresenceRequest;

impl PresenceRequest {
    /// The header of its message: plain, and 0 in every field that may be.
    pub fn header(&self) -> Header {
        Header::whole(MessageType::Discovery, false)
    }

    /// Writes the payload, one byte, at the front of `out`, and answers its length.
    ///
    /// # Errors
    ///
    /// Refusal 22 where `out` is empty.
    pub fn write(&self, out: &mut [u8]) -> Result<usize, Refusal> {
        let mut length = [0];
        // SAFETY: pointers and lengths are those of slices; the two do not overlap.
        Refusal::of(unsafe {
            ffi::hub_write_presence_request(
                out.as_mut_ptr(),
                out.len(),
                length.as_mut_ptr(),
                length.len(),
            )
        })?;
        Ok(length[0] as usize)
    }
}

/// What a Presence Response says: who is there. Everybody hears it, and anybody can make one.
#[derive(Clone, Copy, Debug, PartialEq, Eq, Hash)]
pub struct Presence<'a> {
    /// ConnectionMode.
    pub mode: Mode,
    /// DeviceType.
    pub device: DeviceType,
    /// The device's name, at most [`MOST_NAME`] bytes. They may be any: `name.escape_ascii()` shows
    /// them as they can be printed, `core::str::from_utf8` says whether they are text.
    pub name: &'a [u8],
    /// DeviceIdSalt: random.
    pub salt: [u8; 4],
    /// DeviceIdHash, which the device makes over what is private to it. By MS-CDP it is a salted
    /// SHA-256 of its ID, of which document 01 has 4 bytes. Whoever can guess the ID can test the
    /// guess by them.
    pub hash: [u8; 4],
}

/// The payload of a Discovery message, which is plain. Later versions may have more kinds of them.
///
/// A hub answers a presence call by its name:
///
/// ```
/// use hlidunsk::payload::{DeviceType, Discovery, Mode, Presence, MOST_PAYLOAD};
/// use hlidunsk::{digest, read, write, Refusal, MOST_REPLY, NO_ENTRIES};
///
/// /// Writes the answer to a message, where it is a presence call; answers its length.
/// fn answer(came: &[u8], us: Presence, out: &mut [u8]) -> Result<Option<usize>, Refusal> {
///     let came = read(came, None, &mut [])?; // it is plain: no keys, and no room to open it in
///     if came.discovery() != Some(Discovery::PresenceRequest) {
///         return Ok(None);
///     }
///     let response = Discovery::PresenceResponse(us);
///     let mut payload = [0; MOST_PAYLOAD];
///     let length = response.write(&mut payload)?;
///     let header = response.header(came.header.request);
///     write(&header, NO_ENTRIES, &payload[..length], None, out).map(Some)
/// }
///
/// // The salt is random, and the device's ID private.
/// let salt = *b"salt";
/// let [a, b, c, d, ..] = digest(b"salt, and the ID of a device");
/// let (mode, device, name) = (Mode::Proximal, DeviceType::LINUX, &b"hub of Blaye"[..]);
/// let us = Presence { mode, device, name, salt, hash: [a, b, c, d] };
///
/// // A tablet calls.
/// let (mut payload, mut call, mut came) = ([0; 1], [0; 43], [0; MOST_REPLY]);
/// let request = Discovery::PresenceRequest;
/// request.write(&mut payload)?;
/// write(&request.header(7), NO_ENTRIES, &payload, None, &mut call)?;
///
/// let length = answer(&call, us, &mut came)?.expect("it is a call");
/// let message = read(&came[..length], None, &mut [])?;
/// assert_eq!(message.header.request, 7);
/// match message.discovery() {
///     Some(Discovery::PresenceResponse(Presence { name, .. })) => {
///         // A name may be any bytes.
///         assert_eq!(name.escape_ascii().to_string(), "hub of Blaye");
///     }
///     other => panic!("{other:?}"),
/// }
///
/// // An answer is no call.
/// assert_eq!(answer(&came[..length], us, &mut call), Ok(None));
/// # Ok::<(), Refusal>(())
/// ```
#[derive(Clone, Copy, Debug, PartialEq, Eq, Hash)]
#[non_exhaustive]
pub enum Discovery<'a> {
    /// Presence Request, a presence call: somebody asks who is there.
    PresenceRequest,
    /// Presence Response: the answer to it.
    PresenceResponse(Presence<'a>),
}

impl<'a> Discovery<'a> {
    /// The header of its message: plain, with this RequestID, and 0 in every other field that may
    /// be. An answer has the RequestID of the call.
    pub fn header(&self, request: u64) -> Header {
        Header { request, ..Header::whole(MessageType::Discovery, false) }
    }

    /// Writes the payload at the front of `out`, and answers its length: 1 for a Presence Request,
    /// 15 and the name's for a Presence Response. What is beyond it is unchanged.
    ///
    /// # Errors
    ///
    /// Refusal 14 where the name has over [`MOST_NAME`] bytes, then 22 where `out` is too short.
    /// `out` is as it was.
    pub fn write(&self, out: &mut [u8]) -> Result<usize, Refusal> {
        let Discovery::PresenceResponse(Presence { mode, device, name, salt, hash }) = self else {
            return PresenceRequest.write(out);
        };
        let mut length = [0];
        // SAFETY: pointers and lengths are those of slices; the mutable ones overlap no other.
        Refusal::of(unsafe {
            ffi::hub_write_presence_response(
                mode.number().into(),
                device.0.into(),
                name.as_ptr(),
                name.len(),
                salt.as_ptr(),
                salt.len(),
                hash.as_ptr(),
                hash.len(),
                out.as_mut_ptr(),
                out.len(),
                length.as_mut_ptr(),
                length.len(),
            )
        })?;
        Ok(length[0] as usize)
    }

    /// Reads the payload of a Discovery message. A name is a part of it.
    ///
    /// The payload alone does not tell a Discovery message from a Session message, whose payload
    /// may be any bytes: ask the header's [`message_type`](Header::message_type) first, as
    /// [`Message::discovery`](crate::Message::discovery) does.
    ///
    /// # Errors
    ///
    /// Refusal 14 where it is neither of document 01's two.
    pub fn read(payload: &'a [u8]) -> Result<Discovery<'a>, Refusal> {
        let mut words = [0; 9];
        // SAFETY: pointers and lengths are those of slices; the two do not overlap.
        Refusal::of(unsafe {
            ffi::hub_read_discovery(
                payload.as_ptr(),
                payload.len(),
                words.as_mut_ptr(),
                words.len(),
            )
        })?;
        Discovery::from_words(&words, payload)
    }

    /// The library's words are numbers of document 01, and name parts of the payload.
    fn from_words(words: &[u64; 9], payload: &'a [u8]) -> Result<Discovery<'a>, Refusal> {
        let [discovery, mode, device, name, name_n, salt, salt_n, hash, hash_n] = *words;
        match discovery {
            PRESENCE_REQUEST => Ok(Discovery::PresenceRequest),
            PRESENCE_RESPONSE => Ok(Discovery::PresenceResponse(Presence {
                mode: Mode::from_word(mode)?,
                device: DeviceType(u16::try_from(device).map_err(|_| Refusal::Unknown)?),
                name: part(payload, name, name_n)?,
                salt: fixed(part(payload, salt, salt_n)?)?,
                hash: fixed(part(payload, hash, hash_n)?)?,
            })),
            _ => Err(Refusal::Unknown),
        }
    }
}

/// The payload of a Connect message. Later versions may have more kinds of them.
#[derive(Clone, Copy, Debug, PartialEq, Eq, Hash)]
#[non_exhaustive]
pub enum Connect<'a> {
    /// Connection Request: a gateway asks. Plain.
    ConnectionRequest {
        /// ConnectionMode.
        mode: Mode,
        /// The gateway's half of the key agreement.
        exchange: Exchange,
    },
    /// Connection Response: the hub's reply to it. Plain.
    ConnectionResponse {
        /// ConnectionMode.
        mode: Mode,
        /// Result; where it is Pending, the hub's half of the key agreement.
        result: ConnectionResult,
    },
    /// Device Authentication Request: a gateway shows who it is. Sealed.
    DeviceAuthenticationRequest {
        /// ConnectionMode.
        mode: Mode,
        /// The gateway's certificate, 1 to [`MOST_CERTIFICATE`] bytes.
        certificate: &'a [u8],
        /// The signed thumbprint, at most [`MOST_THUMBPRINT`] bytes.
        thumbprint: &'a [u8],
    },
    /// Device Authentication Response: the hub shows who it is. Sealed.
    DeviceAuthenticationResponse {
        /// ConnectionMode.
        mode: Mode,
        /// The hub's certificate, 1 to [`MOST_CERTIFICATE`] bytes.
        certificate: &'a [u8],
        /// The signed thumbprint, at most [`MOST_THUMBPRINT`] bytes.
        thumbprint: &'a [u8],
    },
    /// Authentication Done Request: a gateway has accepted the hub's certificate. Sealed.
    DoneRequest {
        /// ConnectionMode.
        mode: Mode,
    },
    /// Authentication Done Response: the hub is ready for reports. Sealed.
    DoneResponse {
        /// ConnectionMode.
        mode: Mode,
        /// Status.
        status: Status,
    },
}

impl<'a> Connect<'a> {
    /// Whether its message is sealed. Connection Request and Connection Response are plain, the
    /// others sealed; the other way a message is refused with 14.
    pub fn is_sealed(&self) -> bool {
        !matches!(self, Connect::ConnectionRequest { .. } | Connect::ConnectionResponse { .. })
    }

    /// ConnectionMode.
    pub fn mode(&self) -> Mode {
        match *self {
            Connect::ConnectionRequest { mode, .. }
            | Connect::ConnectionResponse { mode, .. }
            | Connect::DeviceAuthenticationRequest { mode, .. }
            | Connect::DeviceAuthenticationResponse { mode, .. }
            | Connect::DoneRequest { mode }
            | Connect::DoneResponse { mode, .. } => mode,
        }
    }

    /// The header of its message, with the flags of a sealed one where it is sealed; index 0 and
    /// count 1; RequestID and ChannelID are 0. Give no two sealed messages under the same keys the
    /// same two numbers.
    pub fn header(&self, session: u64, sequence: u32) -> Header {
        Header { session, sequence, ..Header::whole(MessageType::Connect, self.is_sealed()) }
    }

    /// Writes the payload at the front of `out`, and answers its length. What is beyond it is
    /// unchanged.
    ///
    /// ```
    /// # use hlidunsk::payload::{Connect, Mode, MOST_CERTIFICATE, MOST_PAYLOAD};
    /// # use hlidunsk::Refusal;
    /// let mut out = [0; MOST_PAYLOAD];
    /// let show = |certificate| {
    ///     Connect::DeviceAuthenticationRequest { mode: Mode::None, certificate, thumbprint: &[] }
    /// };
    /// assert_eq!(show(b"gateway 7").write(&mut out), Ok(16));
    /// assert_eq!(show(b"gateway 7").write(&mut out[..15]), Err(Refusal::NoRoom));
    /// assert_eq!(show(&[0; MOST_CERTIFICATE + 1]).write(&mut out), Err(Refusal::WrongPayload));
    /// ```
    ///
    /// # Errors
    ///
    /// Refusal 14 where the certificate has not 1 to [`MOST_CERTIFICATE`] bytes or the thumbprint
    /// has over [`MOST_THUMBPRINT`], then 22 where `out` is too short. `out` is as it was.
    pub fn write(&self, out: &mut [u8]) -> Result<usize, Refusal> {
        let mut length = [0];
        let (to, to_n) = (out.as_mut_ptr(), out.len());
        let (put, put_n) = (length.as_mut_ptr(), length.len());
        let mode = self.mode().number().into();
        // SAFETY: pointers and lengths are those of slices; the mutable ones overlap no other.
        Refusal::of(unsafe {
            match self {
                Connect::ConnectionRequest { exchange: Exchange { nonce, x, y }, .. } => {
                    let (nonce, nonce_n) = (nonce.as_ptr(), nonce.len());
                    let (x, x_n, y, y_n) = (x.as_ptr(), x.len(), y.as_ptr(), y.len());
                    ffi::hub_write_connection_request(
                        mode, nonce, nonce_n, x, x_n, y, y_n, to, to_n, put, put_n,
                    )
                }
                Connect::ConnectionResponse { result, .. } => {
                    let (number, [nonce, x, y]) = result.parts();
                    let (nonce, nonce_n) = (nonce.as_ptr(), nonce.len());
                    let (x, x_n, y, y_n) = (x.as_ptr(), x.len(), y.as_ptr(), y.len());
                    ffi::hub_write_connection_response(
                        mode, number, nonce, nonce_n, x, x_n, y, y_n, to, to_n, put, put_n,
                    )
                }
                Connect::DeviceAuthenticationRequest { certificate, thumbprint, .. }
                | Connect::DeviceAuthenticationResponse { certificate, thumbprint, .. } => {
                    let request = matches!(self, Connect::DeviceAuthenticationRequest { .. });
                    let connect =
                        if request { AUTHENTICATION_REQUEST } else { AUTHENTICATION_RESPONSE };
                    let (shown, shown_n) = (certificate.as_ptr(), certificate.len());
                    let (print, print_n) = (thumbprint.as_ptr(), thumbprint.len());
                    ffi::hub_write_device_authentication(
                        connect, mode, shown, shown_n, print, print_n, to, to_n, put, put_n,
                    )
                }
                Connect::DoneRequest { .. } => {
                    ffi::hub_write_done_request(mode, to, to_n, put, put_n)
                }
                Connect::DoneResponse { status, .. } => {
                    let status = status.number().into();
                    ffi::hub_write_done_response(mode, status, to, to_n, put, put_n)
                }
            }
        })?;
        Ok(length[0] as usize)
    }

    /// Reads the payload of a Connect message. Certificate and thumbprint are parts of it.
    ///
    /// The payload alone does not tell a Connect message from a Session message, whose payload may
    /// be any bytes: ask the header's [`message_type`](Header::message_type) first, as
    /// [`Message::connect`](crate::Message::connect) does.
    ///
    /// ```
    /// # use hlidunsk::payload::{Connect, Mode};
    /// # use hlidunsk::Refusal;
    /// # let mut room = [0; 16];
    /// # let (certificate, thumbprint) = (&b"gateway 7"[..], &b""[..]);
    /// # Connect::DeviceAuthenticationRequest { mode: Mode::None, certificate, thumbprint }
    /// #     .write(&mut room)?;
    /// # let payload = &room;
    /// // The header said that the message is sealed, and a Connect message.
    /// let known = match Connect::read(payload)? {
    ///     Connect::DeviceAuthenticationRequest { certificate, .. } => certificate == b"gateway 7",
    ///     _ => false,
    /// };
    /// assert!(known);
    /// assert_eq!(Connect::read(b"any bytes"), Err(Refusal::WrongPayload));
    /// # Ok::<(), Refusal>(())
    /// ```
    ///
    /// # Errors
    ///
    /// Refusal 14 where it is none of document 01's six, plain or sealed.
    pub fn read(payload: &'a [u8]) -> Result<Connect<'a>, Refusal> {
        let mut words = [0; 13];
        // SAFETY: pointers and lengths are those of slices; the two do not overlap.
        Refusal::of(unsafe {
            ffi::hub_read_connect(payload.as_ptr(), payload.len(), words.as_mut_ptr(), words.len())
        })?;
        Connect::from_words(&words, payload)
    }

    /// The library's words are numbers of document 01, and name parts of the payload.
    fn from_words(words: &[u64; 13], payload: &'a [u8]) -> Result<Connect<'a>, Refusal> {
        let [connect, mode, code, nonce, nonce_n, x, x_n, y, y_n, shown, shown_n, print, print_n] =
            *words;
        let exchange = || {
            let nonce = fixed(part(payload, nonce, nonce_n)?)?;
            let (x, y) = (fixed(part(payload, x, x_n)?)?, fixed(part(payload, y, y_n)?)?);
            Ok(Exchange { nonce, x, y })
        };
        let certificate = part(payload, shown, shown_n)?;
        let thumbprint = part(payload, print, print_n)?;
        let mode = Mode::from_word(mode)?;
        Ok(match connect {
            CONNECTION_REQUEST => Connect::ConnectionRequest { mode, exchange: exchange()? },
            CONNECTION_RESPONSE => {
                let result = match code {
                    0 => ConnectionResult::Success,
                    1 => ConnectionResult::Pending(exchange()?),
                    2 => ConnectionResult::FailureAuthentication,
                    3 => ConnectionResult::FailureNotAllowed,
                    _ => return Err(Refusal::Unknown),
                };
                Connect::ConnectionResponse { mode, result }
            }
            AUTHENTICATION_REQUEST => {
                Connect::DeviceAuthenticationRequest { mode, certificate, thumbprint }
            }
            AUTHENTICATION_RESPONSE => {
                Connect::DeviceAuthenticationResponse { mode, certificate, thumbprint }
            }
            DONE_REQUEST => Connect::DoneRequest { mode },
            DONE_RESPONSE => Connect::DoneResponse { mode, status: Status::from_word(code)? },
            _ => return Err(Refusal::Unknown),
        })
    }
}
