// SPDX-License-Identifier: MPL-2.0
//! Messages: reading and writing.

use crate::payload::{Connect, Discovery};
use crate::{ffi, Refusal};

/// The 64 key bytes: 16 encryption key, 16 vector key, 32 HMAC key. They are new for each
/// connection.
pub type Keys = [u8; 64];

/// No keys are no bytes, under which nothing sealed is read or written: 10.
pub(crate) fn key_bytes(keys: Option<&Keys>) -> &[u8] {
    keys.map_or(&[], |keys| keys)
}

/// The part of a buffer that the library's words name. It always lies there; the slice is asked all
/// the same, so that nothing here can panic.
pub(crate) fn part(buffer: &[u8], from: u64, size: u64) -> Result<&[u8], Refusal> {
    let behind = buffer.get(from as usize..).ok_or(Refusal::Unknown)?;
    behind.get(..size as usize).ok_or(Refusal::Unknown)
}

/// The chain with no entries: the two bytes of its end.
pub const NO_ENTRIES: &[u8] = &[0, 0];

/// The longest message that [`write()`] makes.
pub const MOST_WRITTEN: usize = 18_530;

/// The longest Connect or Discovery message without entries in its chain: room of this size holds
/// every reply that is written with [`NO_ENTRIES`].
pub const MOST_REPLY: usize = 2_650;

/// The longest sealed part of a message: a working buffer of this size is enough for all.
pub const MOST_SEALED: usize = 65_456;

/// HUB_HEADER_SEALED of a message whose payload stands in it.
const PLAIN: u64 = 0;

/// MessageType: what kind of message it is.
#[derive(Clone, Copy, Debug, PartialEq, Eq, Hash)]
#[non_exhaustive]
#[repr(u8)]
pub enum MessageType {
    /// Who is there; never sealed.
    Discovery = 1,
    /// Enrolment; sealed or plain, by its payload.
    Connect = 2,
    /// A piece of a report; always sealed.
    Session = 4,
}

impl MessageType {
    /// Its number on the wire.
    pub fn number(self) -> u8 {
        self as u8
    }

    /// The type with this number on the wire.
    pub fn from_number(number: u8) -> Option<MessageType> {
        match number {
            1 => Some(MessageType::Discovery),
            2 => Some(MessageType::Connect),
            4 => Some(MessageType::Session),
            _ => None,
        }
    }
}

/// The fields of a header that a sender chooses.
///
/// A payload and a piece make the header that goes with them ([`Discovery::header`],
/// [`Connect::header`], [`Piece::header`]); what that leaves at 0 is set beside it:
///
/// ```
/// # use hlidunsk::{cut, Header, Refusal};
/// let piece = cut(b"pump 7: 1,204 litres", 16, 1)?;
/// let header = Header { channel: 9, ..piece.header(42, 0) };
/// assert!(header.is_sealed());
/// assert_eq!((header.session, header.sequence, header.channel), (42, 0, 9));
/// assert_eq!((header.index, header.count), (1, 2));
/// # Ok::<(), Refusal>(())
/// ```
///
/// [`Discovery::header`]: crate::payload::Discovery::header
/// [`Connect::header`]: crate::payload::Connect::header
/// [`Piece::header`]: crate::Piece::header
#[derive(Clone, Copy, Debug, PartialEq, Eq, Hash)]
pub struct Header {
    /// MessageType.
    pub message_type: MessageType,
    /// MessageFlags, of the constants here.
    pub flags: u16,
    /// SequenceNumber.
    pub sequence: u32,
    /// RequestID.
    pub request: u64,
    /// FragmentIndex.
    pub index: u16,
    /// FragmentCount.
    pub count: u16,
    /// SessionID.
    pub session: u64,
    /// ChannelID.
    pub channel: u64,
}

impl Header {
    /// The flag of a message that is to be acknowledged. Nothing here looks at it.
    pub const ACKNOWLEDGE: u16 = 1;
    /// The flag of a message with a tag.
    pub const HMAC: u16 = 2;
    /// The flag of an encrypted message.
    pub const ENCRYPTED: u16 = 4;
    /// Both flags of a sealed message: one without the other is refused with 6.
    pub const SEALED: u16 = Header::HMAC | Header::ENCRYPTED;
    /// The flag of a message that wakes its receiver. Nothing here looks at it.
    pub const WAKE: u16 = 8;

    /// Whether the message is sealed: both flags of [`Header::SEALED`] are set.
    pub fn is_sealed(&self) -> bool {
        self.flags & Header::SEALED == Header::SEALED
    }

    /// A message in one piece, and 0 wherever nothing else is said.
    pub(crate) fn whole(message_type: MessageType, sealed: bool) -> Header {
        Header {
            message_type,
            flags: if sealed { Header::SEALED } else { 0 },
            sequence: 0,
            request: 0,
            index: 0,
            count: 1,
            session: 0,
            channel: 0,
        }
    }

    fn words(&self) -> [u64; 8] {
        [
            self.message_type.number().into(),
            self.flags.into(),
            self.sequence.into(),
            self.request,
            self.index.into(),
            self.count.into(),
            self.session,
            self.channel,
        ]
    }

    /// The library's words fit their fields, since it read them from there.
    fn from_words(words: &[u64; 11]) -> Result<Header, Refusal> {
        Ok(Header {
            message_type: MessageType::from_number(words[0] as u8).ok_or(Refusal::Unknown)?,
            flags: words[1] as u16,
            sequence: words[2] as u32,
            request: words[3],
            index: words[4] as u16,
            count: words[5] as u16,
            session: words[6],
            channel: words[7],
        })
    }
}

/// What stands after a message's chain, without the tag.
#[derive(Clone, Copy, Debug, PartialEq, Eq, Hash)]
pub enum Body<'a> {
    /// The payload of a plain message. No refusal but 1 to 9 was tested: it may have any shape.
    Payload(&'a [u8]),
    /// The sealed part of a sealed message, which is no payload: [`read`] opens it.
    Sealed(&'a [u8]),
}

impl<'a> Body<'a> {
    /// The bytes on the wire, whichever they are.
    pub fn on_wire(&self) -> &'a [u8] {
        match self {
            Body::Payload(bytes) | Body::Sealed(bytes) => bytes,
        }
    }
}

/// A message whose header was read.
#[derive(Clone, Copy, Debug, PartialEq, Eq, Hash)]
pub struct Framed<'a> {
    /// Its header.
    pub header: Header,
    /// Its payload or, where it is sealed, its sealed part.
    pub body: Body<'a>,
}

/// A message that was read.
#[derive(Clone, Copy, Debug, PartialEq, Eq, Hash)]
pub struct Message<'a> {
    /// Its header.
    pub header: Header,
    /// Its payload: a part of the message or, where it was sealed, of the working buffer.
    pub payload: &'a [u8],
}

impl<'a> Message<'a> {
    /// What a Connect message says; none where it is another message.
    ///
    /// A Session message may carry any bytes, those of a Connect payload too, and is none all the
    /// same:
    ///
    /// ```
    /// # use hlidunsk::payload::{Connect, Mode};
    /// # use hlidunsk::{cut, read, write, Refusal, MOST_REPLY, MOST_SEALED, NO_ENTRIES};
    /// # let (keys, mut payload, mut working) = ([7; 64], [0; 3], [0; MOST_SEALED]);
    /// # let mut message = [0; MOST_REPLY];
    /// let done = Connect::DoneRequest { mode: Mode::None };
    /// done.write(&mut payload)?;
    /// let piece = cut(&payload, 16, 0)?;
    /// for (header, says) in [(done.header(42, 9), Some(done)), (piece.header(42, 0), None)] {
    ///     let length = write(&header, NO_ENTRIES, &payload, Some(&keys), &mut message)?;
    ///     let came = read(&message[..length], Some(&keys), &mut working)?;
    ///     assert_eq!(came.payload, payload);
    ///     assert_eq!(came.connect(), says);
    /// }
    /// # Ok::<(), Refusal>(())
    /// ```
    pub fn connect(&self) -> Option<Connect<'a>> {
        match self.header.message_type {
            // A message that was read has a payload of document 01: else it was refused with 14.
            MessageType::Connect => Connect::read(self.payload).ok(),
            MessageType::Discovery | MessageType::Session => None,
        }
    }

    /// What a Discovery message says; none where it is another message, whatever its bytes.
    pub fn discovery(&self) -> Option<Discovery<'a>> {
        match self.header.message_type {
            // As above: else it was refused with 14.
            MessageType::Discovery => Discovery::read(self.payload).ok(),
            MessageType::Connect | MessageType::Session => None,
        }
    }
}

/// Reads a message's header and chain, which needs no keys.
///
/// What a sealed message carries is not read: its body is [`Body::Sealed`], which is no payload.
///
/// ```
/// # use hlidunsk::{read_header, write, Body, Refusal, NO_ENTRIES};
/// use hlidunsk::payload::PresenceRequest;
///
/// let (mut payload, mut message) = ([0; 1], [0; 43]);
/// PresenceRequest.write(&mut payload)?;
/// write(&PresenceRequest.header(), NO_ENTRIES, &payload, None, &mut message)?;
///
/// let framed = read_header(&message)?;
/// assert_eq!(framed.header, PresenceRequest.header());
/// assert_eq!(framed.body, Body::Payload(&payload));
/// # Ok::<(), Refusal>(())
/// ```
///
/// # Errors
///
/// Refusals 1 to 9, in this order.
pub fn read_header(message: &[u8]) -> Result<Framed<'_>, Refusal> {
    let mut words = [0; 11];
    // SAFETY: pointers and lengths are those of slices; the two do not overlap.
    Refusal::of(unsafe {
        ffi::hub_read_header(message.as_ptr(), message.len(), words.as_mut_ptr(), words.len())
    })?;
    let bytes = part(message, words[9], words[10])?;
    let body = if words[8] == PLAIN { Body::Payload(bytes) } else { Body::Sealed(bytes) };
    Ok(Framed { header: Header::from_words(&words)?, body })
}

/// Reads a message; one that is sealed is opened into the working buffer.
///
/// The working buffer has to be as long as the message's sealed part. Its first bytes then hold
/// what was opened, the payload among it; the rest, and all of it where the message is plain, is
/// unchanged.
///
/// ```
/// # use hlidunsk::payload::{Connect, Mode};
/// # use hlidunsk::{read, write, Refusal, MOST_REPLY, MOST_SEALED, NO_ENTRIES};
/// # let keys = [7; 64];
/// # let (mut payload, mut message) = ([0; 3], [0; MOST_REPLY]);
/// # let done = Connect::DoneRequest { mode: Mode::None };
/// # done.write(&mut payload)?;
/// # let header = done.header(42, 0x8000_0002);
/// # let length = write(&header, NO_ENTRIES, &payload, Some(&keys), &mut message)?;
/// # let message = &message[..length];
/// let mut working = [0; MOST_SEALED];
/// let came = read(message, Some(&keys), &mut working)?;
/// assert_eq!(came.header.session, 42);
/// assert_eq!(came.connect(), Some(Connect::DoneRequest { mode: Mode::None }));
///
/// // Without keys nothing sealed is read, and under others its tag is wrong.
/// assert_eq!(read(message, None, &mut working), Err(Refusal::WrongKeys));
/// assert_eq!(read(message, Some(&[8; 64]), &mut working), Err(Refusal::WrongTag));
/// # Ok::<(), Refusal>(())
/// ```
///
/// # Errors
///
/// Refusals 1 to 14, in this order; 10 to 13 for sealed messages only. On 14 of a sealed message
/// the working buffer holds what was opened, on the others it is as it was.
pub fn read<'a>(
    message: &'a [u8],
    keys: Option<&Keys>,
    working: &'a mut [u8],
) -> Result<Message<'a>, Refusal> {
    let keys = key_bytes(keys);
    let mut words = [0; 11];
    // SAFETY: pointers and lengths are those of slices; the mutable ones overlap no other.
    Refusal::of(unsafe {
        ffi::hub_read(
            message.as_ptr(),
            message.len(),
            keys.as_ptr(),
            keys.len(),
            working.as_mut_ptr(),
            working.len(),
            words.as_mut_ptr(),
            words.len(),
        )
    })?;
    let mut place = [0; 3];
    // SAFETY: as above.
    Refusal::of(unsafe {
        ffi::hub_payload(
            message.as_ptr(),
            message.len(),
            working.as_ptr(),
            working.len(),
            words.as_ptr(),
            words.len(),
            place.as_mut_ptr(),
            place.len(),
        )
    })?;
    let buffer: &[u8] = if place[0] == 0 { message } else { working };
    let payload = part(buffer, place[1], place[2])?;
    Ok(Message { header: Header::from_words(&words)?, payload })
}

/// Writes a message at the front of `out`, and answers its length.
///
/// It is sealed if the header's flags say so, which needs keys. The vector is made of SessionID,
/// SequenceNumber, index and count: never write two sealed messages with the same four under the
/// same keys.
///
/// `chain` is the additional headers with their end: [`NO_ENTRIES`] where there are none. Bytes
/// after the end are refused with 8. The payload of a Session message is any 0 to 16,384 bytes; the
/// others' are those of [`payload`](crate::payload).
///
/// `out` has to have 42 bytes more than entries and payload where the message is plain, else 74
/// more than entries and payload + 4 rounded up to a multiple of 16. What is beyond the message is
/// unchanged.
///
/// ```
/// # use hlidunsk::{cut, read, write, Refusal, MOST_WRITTEN, MOST_SEALED, NO_ENTRIES};
/// let keys = [7; 64];
/// let piece = cut(b"pump 7: 1,204 litres", 1_024, 0)?;
/// let mut out = [0; MOST_WRITTEN];
/// let length = write(&piece.header(42, 0), NO_ENTRIES, piece.bytes, Some(&keys), &mut out)?;
/// assert_eq!(length, 74 + 32);
/// assert_eq!(read(&out[..length], Some(&keys), &mut [0; MOST_SEALED])?.payload, piece.bytes);
/// # Ok::<(), Refusal>(())
/// ```
///
/// # Errors
///
/// Refusals 5, 6, 7, 8, 10 (sealed messages), 14, 20, 22, in this order; `out` is as it was.
pub fn write(
    header: &Header,
    chain: &[u8],
    payload: &[u8],
    keys: Option<&Keys>,
    out: &mut [u8],
) -> Result<usize, Refusal> {
    let keys = key_bytes(keys);
    let fields = header.words();
    let mut length = [0];
    // SAFETY: pointers and lengths are those of slices; the mutable ones overlap no other.
    Refusal::of(unsafe {
        ffi::hub_write(
            fields.as_ptr(),
            fields.len(),
            chain.as_ptr(),
            chain.len(),
            payload.as_ptr(),
            payload.len(),
            keys.as_ptr(),
            keys.len(),
            out.as_mut_ptr(),
            out.len(),
            length.as_mut_ptr(),
            length.len(),
        )
    })?;
    Ok(length[0] as usize)
}
