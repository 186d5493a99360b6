// SPDX-License-Identifier: MPL-2.0
//! A proved hub library for Rust: it enrols gateways, joins their reports and answers presence
//! calls, and has the gateway's side of it too, over the Connected Devices Platform protocol
//! (MS-CDP), as the project's document 01 (docs/01-scope.md) describes it.
//!
//! The calls are those of include/hub.h, with types for what C can only ask for: keys are 64 bytes
//! or none, a connection is a value, fields have their width, payloads are types, a report is a
//! part of the buffer in which it lies, and a refusal is an error with document 01's number and
//! sentence.
//!
//! The functions behind the calls are proved to do exactly what their contracts say, on every
//! input; docs/TRUST.md says what that rests on. This crate itself is not proved but tested: it
//! hands pointers and sizes to the library, and makes types of its numbers. It needs nothing of
//! `std`.
//!
//! # Messages, pieces, reports
//!
//! A message is 42 to 65,535 bytes: a header of 40, a chain of additional headers that ends with
//! two zero bytes, a payload, and, where it is sealed, a tag of 32. Sealed means encrypted and
//! tagged under 64 key bytes that the caller brings. A gateway enrols by three Connect messages,
//! each of which the hub replies to. Then it sends reports. A report is cut into 1 to 64 pieces of
//! F bytes (the last has the rest), each in a Session message of its own; they may come in any
//! order, twice, or damaged.
//!
//! The hub's side, for each gateway:
//!
//! | Call | What it does |
//! |---|---|
//! | [`Connection::open`] | once: makes a connection of fragment size F |
//! | [`wanted`] | says where in a stream the next message ends |
//! | [`Connection::step`] | takes a message that came in, and answers what to do: reply, reply again, name a failure, wait for more pieces, or take the report, which is complete |
//! | [`Connect::write`], [`write()`] | make the payload of a reply, and its message |
//!
//! The gateway's side, for each enrolment:
//!
//! | Call | What it does |
//! |---|---|
//! | [`Gateway::open`] | once: makes a gateway's connection of fragment size F and the SessionID that its requests carry |
//! | [`Gateway::due`] | names the request that is due: what to send, and to send again where no reply comes |
//! | [`Connect::write`], [`write()`] | make the payload of a request, and its message |
//! | [`Gateway::step`] | takes a message that came in, and answers what to do: send the next request, send one again, send reports, since the hub is ready for them, or start over |
//! | [`read`], [`Message::connect`] | open a reply, and take it apart: for the keys, and for the verdict on the hub's certificate |
//! | [`cut`] | cuts a report; [`write()`] makes the message of each piece |
//!
//! Whoever looks for hubs, and a hub that says its name:
//!
//! | Call | What it does |
//! |---|---|
//! | [`Discovery::write`], [`write()`] | make the payload of a presence call or of its answer, and its message |
//! | [`read`], [`Message::discovery`] | open a call or an answer, and take it apart |
//!
//! The library opens no socket, keeps no time, agrees on no key and judges no certificate: the
//! caller says by the verdict whether it accepts the certificate that a message shows.
//!
//! # Both sides in one page
//!
//! A gateway enrols over a link that loses each reply once, and sends a report whose second piece
//! comes first.
//!
//! ```
//! use hlidunsk::payload::{Connect, ConnectionResult, Exchange, Mode, MOST_PAYLOAD};
//! use hlidunsk::{cut, read, read_header, write, Answer, Connection, Gateway, GatewayAnswer, Keys};
//! use hlidunsk::{GatewayState, MessageType, Refusal, Reply, Request, State};
//! use hlidunsk::{MOST_PIECES, MOST_REPLY, MOST_SEALED, MOST_WRITTEN, NO_ENTRIES};
//!
//! const F: usize = 16; // the bytes of a piece
//! const SESSION: u64 = 42;
//! const MODE: Mode = Mode::Proximal;
//! const GATEWAY: &[u8] = b"gateway 7, block 12, Merlot"; // stands for its certificate
//! const HUB: &[u8] = b"the cooperative's hub"; // likewise
//!
//! /// Stands for the key agreement: our half, and the keys that both halves lead to, with a secret
//! /// that only this gateway and the hub have.
//! fn agree(_theirs: Exchange) -> (Exchange, Keys) {
//!     (Exchange { nonce: *b"nonce  2", x: [3; 32], y: [4; 32] }, [7; 64])
//! }
//!
//! /// Writes a Connect message: its payload, then the message with the header that goes with it.
//! fn message(
//!     connect: &Connect,
//!     sequence: u32,
//!     keys: Option<&Keys>,
//!     out: &mut [u8],
//! ) -> Result<usize, Refusal> {
//!     let mut payload = [0; MOST_PAYLOAD];
//!     let length = connect.write(&mut payload)?;
//!     write(&connect.header(SESSION, sequence), NO_ENTRIES, &payload[..length], keys, out)
//! }
//!
//! /// Which of the three replies it is.
//! fn which(reply: Reply) -> usize {
//!     match reply {
//!         Reply::ConnectionResponse => 0,
//!         Reply::DeviceAuthenticationResponse => 1,
//!         Reply::DoneResponse(_) => 2,
//!     }
//! }
//!
//! /// All that the hub has of one gateway.
//! struct Hub {
//!     connection: Connection,
//!     keys: Option<Keys>,
//!     working: [u8; MOST_SEALED],
//!     report: [u8; MOST_PIECES * F],
//!     replies: [Vec<u8>; 3],
//!     sequence: u32, // of its next Connect message
//! }
//!
//! impl Hub {
//!     /// The verdict: whether a message shows exactly the certificate that is known. Only a
//!     /// sealed Connect message shows one; nothing else is opened.
//!     fn accepts(&mut self, came: &[u8]) -> bool {
//!         let Ok(framed) = read_header(came) else { return false };
//!         if !framed.header.is_sealed() || framed.header.message_type != MessageType::Connect {
//!             return false;
//!         }
//!         let message = read(came, self.keys.as_ref(), &mut self.working).ok();
//!         let shown = message.and_then(|message| message.connect());
//!         matches!(shown, Some(Connect::DeviceAuthenticationRequest { certificate: GATEWAY, .. }))
//!     }
//!
//!     /// Takes a message, and leaves in `replies` what is to be sent on `Reply` and on `Again`.
//!     fn take(&mut self, came: &[u8]) -> Result<Answer<'_>, Refusal> {
//!         let asked = self.connection.state() == State::WaitingForAuthentication;
//!         let accepted = asked && self.accepts(came);
//!         let (keys, working) = (self.keys.as_ref(), &mut self.working);
//!         let answer = self.connection.step(came, keys, working, &mut self.report, accepted)?;
//!         if let Answer::Reply(reply) = answer {
//!             let connect = match reply {
//!                 Reply::ConnectionResponse => {
//!                     let (ours, keys) = agree(self.connection.exchange());
//!                     self.keys = Some(keys);
//!                     let result = ConnectionResult::Pending(ours);
//!                     Connect::ConnectionResponse { mode: MODE, result }
//!                 }
//!                 Reply::DeviceAuthenticationResponse => Connect::DeviceAuthenticationResponse {
//!                     mode: MODE,
//!                     certificate: HUB,
//!                     thumbprint: &[],
//!                 },
//!                 Reply::DoneResponse(status) => Connect::DoneResponse { mode: MODE, status },
//!             };
//!             let mut out = [0; MOST_REPLY];
//!             let length = message(&connect, self.sequence, self.keys.as_ref(), &mut out)?;
//!             self.replies[which(reply)] = out[..length].to_vec();
//!             self.sequence += 1;
//!         }
//!         Ok(answer)
//!     }
//! }
//!
//! let mut hub = Hub {
//!     connection: Connection::open(F)?,
//!     keys: None,
//!     working: [0; MOST_SEALED],
//!     report: [0; MOST_PIECES * F],
//!     replies: [vec![], vec![], vec![]],
//!     sequence: 0xC000_0000,
//! };
//!
//! // The gateway draws its SessionID, its nonce and its key pair, and sends what is due.
//! let mut gateway = Gateway::open(F, SESSION)?;
//! let exchange = Exchange { nonce: *b"nonce  1", x: [1; 32], y: [2; 32] };
//! let (certificate, thumbprint) = (GATEWAY, &b""[..]);
//! let (mut keys, mut sequence) = (None, 0x8000_0000);
//! let (mut sent, mut working) = ([0; MOST_WRITTEN], [0; MOST_SEALED]);
//! while let Some(request) = gateway.due() {
//!     let connect = match request {
//!         Request::ConnectionRequest => Connect::ConnectionRequest { mode: MODE, exchange },
//!         Request::DeviceAuthenticationRequest => {
//!             Connect::DeviceAuthenticationRequest { mode: MODE, certificate, thumbprint }
//!         }
//!         Request::DoneRequest => Connect::DoneRequest { mode: MODE },
//!     };
//!     let length = message(&connect, sequence, keys.as_ref(), &mut sent)?;
//!     sequence += 1;
//!     // The reply to the first copy is lost, and the request goes once more: the same bytes.
//!     assert!(matches!(hub.take(&sent[..length])?, Answer::Reply(_)));
//!     let Answer::Again(reply) = hub.take(&sent[..length])? else { panic!("another step") };
//!     let reply = &hub.replies[which(reply)];
//!
//!     // What is in it: the hub's half of the key agreement, or its certificate, or neither.
//!     let (theirs, accepted) = match read(reply, keys.as_ref(), &mut working)?.connect() {
//!         Some(Connect::ConnectionResponse { result: ConnectionResult::Pending(theirs), .. }) => {
//!             (Some(theirs), false)
//!         }
//!         Some(Connect::DeviceAuthenticationResponse { certificate, .. }) => {
//!             (None, certificate == HUB)
//!         }
//!         _ => (None, false),
//!     };
//!     match (gateway.step(reply, keys.as_ref(), &mut working, accepted)?, theirs) {
//!         (GatewayAnswer::Next(_), Some(theirs)) => keys = Some(agree(theirs).1),
//!         (GatewayAnswer::Next(_) | GatewayAnswer::Ready, None) => {}
//!         other => panic!("{other:?}"),
//!     }
//! }
//! assert_eq!((gateway.state(), hub.connection.state()), (GatewayState::Ready, State::Ready));
//!
//! // It sends its first report, in two pieces.
//! let report = b"pump 7: 1,204 litres";
//! for index in [1, 0] {
//!     let piece = cut(report, F, index)?;
//!     let header = piece.header(SESSION, 0);
//!     let length = write(&header, NO_ENTRIES, piece.bytes, keys.as_ref(), &mut sent)?;
//!     match hub.take(&sent[..length])? {
//!         Answer::Taken { heard } => assert_eq!((index, heard), (1, 1)),
//!         Answer::Complete { report: whole, .. } => assert_eq!((index, whole), (0, &report[..])),
//!         other => panic!("{other:?}"),
//!     }
//!     // What is damaged on the way is refused, and changes nothing.
//!     sent[length - 1] ^= 1;
//!     assert_eq!(hub.take(&sent[..length]), Err(Refusal::WrongTag));
//! }
//! # Ok::<(), Refusal>(())
//! ```
//!
//! # What the maker of a hub or of a gateway must know
//!
//! ## Keys
//!
//! The 64 key bytes come from a key agreement outside this library, and are new for each
//! connection. The Connection Request and the Response, which give X, Y and nonces to it, are
//! plain: keys or verdict must depend on all of these, for else it goes unnoticed where the link
//! has damaged one or a stranger made it.
//!
//! Under old keys and an old SessionID a new connection takes old messages once more; so does an
//! old copy of a connection that is put back from a backup: store the newest copy alone, and open
//! anew, with new keys, where it is lost.
//!
//! Until there are keys give a step `None`: a sealed message is then refused with 10. Keys of zeros
//! would be keys that anybody knows. Each call sets its keys up anew: there is nothing to prepare,
//! and nothing of them to keep between calls but the key bytes themselves.
//!
//! ## Vectors and numbers
//!
//! A sealed message's vector is made of SessionID, SequenceNumber, FragmentIndex and FragmentCount.
//! Under one set of keys no two sealed messages of different content may have the same four,
//! whichever way they go.
//!
//! Reports are numbered from 0 on, one number each. Once one piece of a number was sent, the number
//! belongs to those bytes for good. A gateway that has lost them (it was restarted) starts over
//! with new keys, for else the hub joins a mixture and vectors repeat.
//!
//! Neither side looks at the SequenceNumber of a Connect message, so give those numbers that no
//! report has, and hub and gateway a range each: the page above counts the gateway's from
//! 0x8000_0000 on, the hub's from 0xC000_0000. Then open a new connection, with new keys, before
//! report 0x8000_0000, and not only after 2^32 - 2, the last number that a report may have.
//!
//! ## Other fields
//!
//! The gateway draws the SessionID, and every message of the connection has it, the replies too:
//! [`Connection::session`] says which it is. All pieces of a report have one ChannelID. A Connect
//! message has index 0 and count 1: [`Connect::header`] sets them. Nothing here looks at RequestID,
//! nor at the flags 1 ([`Header::ACKNOWLEDGE`]) and 8 ([`Header::WAKE`]).
//!
//! ## Fragment size
//!
//! F, the bytes of a piece, is agreed on outside the protocol, and both sides use the same. It is
//! not the fragment size of a Connection Request, which document 01 fixes at 16,384 (another is
//! refused with 14): nothing here takes F from it.
//!
//! ## Replies and Again
//!
//! On [`Answer::Reply`] write the reply, send it, and keep its bytes. The replies of one connection
//! are three messages of at most [`MOST_REPLY`] bytes each, without entries in the chain.
//!
//! [`Answer::Again`] is for a message that asks for the same step, not only for one of the same
//! bytes: the gateway has not heard the reply, or somebody sends an old request once more. Send the
//! same bytes again. Writing them anew is as good if every field, the payload and the keys are the
//! same, for then the bytes are too; another payload under numbers that were used is not.
//!
//! Never write a Connection Response on Again but from the stored nonce, X and Y: new ones would
//! cut off a gateway that is Ready, for whoever replays its request.
//!
//! A Connection Response lets the gateway go on only where its Result is
//! [`Pending`](payload::ConnectionResult::Pending). With any other the connection is in
//! [`State::WaitingForAuthentication`] all the same: open a new one.
//!
//! ## Verdicts
//!
//! To a hub the verdict matters for one message alone, a Device Authentication Request, which is
//! sealed, in [`State::WaitingForAuthentication`]. Only there need a caller read the message before
//! the step, as `accepts` does above: [`read_header`] says whether it is a sealed Connect message,
//! and only such a one is opened. For every other message any verdict gives the same.
//!
//! A certificate alone proves nothing: it is public, and anybody can show a copy. Give the verdict
//! `true` only where the sender has proved that he holds its key: verify the thumbprint as a
//! signature over both nonces and both public keys, or derive the 64 key bytes from a secret that
//! only the sender and you have.
//!
//! The verdict `false` is final ([`State::Failed`]): where you cannot judge yet, hold the message
//! back and do not step.
//!
//! ## Failure
//!
//! On [`Answer::Failure`] the verdict was no. MS-CDP (2.2.2.3.10) says: "If the authentication
//! process itself fails to complete, an empty payload is returned", and gives this message the type
//! number 8. How it is sent is the caller's: [`write()`] refuses it with 14, since document 01 has
//! no such payload.
//!
//! The connection is in [`State::Failed`] from then on: only [`Connection::open`] helps. There is
//! no Again for Failure: a request that comes again is refused with 15, and the caller may send
//! Failure again.
//!
//! ## Strangers
//!
//! A Connection Request is plain, so anybody can make one, and the link can damage one unnoticed. A
//! connection that has taken such a one refuses the gateway's own with 15 or 16, and so does one
//! that is Ready where a gateway starts over.
//!
//! So in every state but [`State::WaitingForRequest`], where a message is refused with 15 or 16,
//! try it on a new connection, by [`Connection::open`] and a step without keys. If that answers
//! [`Answer::Reply`], keep the new one beside the old one, with keys, replies and a report buffer
//! of its own, and drop the old one when the new one has [`Passed`](State::Passed). Bound how many
//! you keep. So neither a stranger nor an old request cuts a gateway off, and one that starts over
//! is heard.
//!
//! While there are several, each message goes to one after the other until one does not refuse it;
//! what is refused leaves a connection as it was.
//!
//! ## The gateway
//!
//! [`Gateway::open`] is given F and the SessionID that the gateway's requests carry: a random
//! number, new for each enrolment, as its nonce and its key pair are. [`Gateway::due`] names the
//! request that is due. Write it once, keep its bytes and send them; then give [`Gateway::step`]
//! each message that comes. What it refuses is late, damaged or a stranger's: drop it.
//!
//! On [`GatewayAnswer::Next`] the reply was taken, and the next request is due. Where that is the
//! Device Authentication Request the message was the Connection Response: [`read`] its nonce, X and
//! Y, which lead to the keys. Do so at once: without keys no sealed message is written or opened.
//!
//! On [`GatewayAnswer::Ready`] [`cut`] and send reports. A gateway that is Ready still hears
//! messages: give them to the step too.
//!
//! ## Lost replies
//!
//! Where no reply comes in its time, send the bytes of the request that is due once more: the same
//! bytes, never with a new nonce, for a hub that has taken the first one refuses the other with 15.
//! Nothing in the library makes a nonce, and a [`Gateway`] has none in it.
//!
//! On [`GatewayAnswer::Again`] a reply has come that was taken before: send the request that it
//! names, the one that follows this reply, once more, the same bytes too. After an Authentication
//! Done Response there is none to send. Bound how often: a plain Connection Response that was copied
//! or forged brings this about too. Only the type of such a reply is looked at, and its Result, its
//! Status or the verdict: so keep the keys, whatever nonce, X and Y a second Connection Response has.
//!
//! ## Turned away
//!
//! A Connection Response of another Result than [`Pending`](payload::ConnectionResult::Pending), an
//! Authentication Done Response of another Status than [`Success`](payload::Status::Success), and a
//! Device Authentication Response whose certificate is not accepted are answered
//! [`GatewayAnswer::Failed`], whenever they come, in Ready too. The verdict is on the hub's
//! certificate, and matters for the last of these alone, but for each one that comes, also where it
//! is a repeated one: judge every one, as [Verdicts](#verdicts) says. After that every message is
//! refused: only [`Gateway::open`] helps, with a new SessionID, nonce and key pair.
//!
//! A Connection Response is plain: whoever has seen the SessionID can make one of another Result,
//! and throw a gateway out, at the start and when it is Ready. To be spared that, [`read`] plain
//! Connection Responses before the step once the state is not
//! [`WaitingForResponse`](GatewayState::WaitingForResponse) any longer, and drop those whose Result
//! is not Pending; or start over. One that is Pending and was forged, or damaged, leads to keys that
//! the hub does not have: the hub replies to no sealed request, and after some tries the gateway
//! starts over, with all of these new. A forger who has these keys can reply: only the verdict
//! stands against him ([Verdicts](#verdicts)).
//!
//! ## Presence
//!
//! A presence call asks who is there: a message of which [`Message::discovery`] gives a
//! [`PresenceRequest`](payload::Discovery::PresenceRequest). It is plain: [`read`] needs neither
//! keys nor room for it. [`Discovery`](payload::Discovery) shows how a hub answers by its name,
//! with the RequestID of the call. Where and when the answer is sent is the caller's. A step takes
//! no Discovery message (15), so such a message goes to no connection.
//!
//! Call and answer are plain, so anybody can make them, in another's name too: answer only as often
//! as you wish to, and believe no answer. Name, salt and hash are told to everybody. A name is
//! bytes and may be no text: look at it before you print it.
//!
//! In MS-CDP's example the hash has 32 bytes and the name a zero byte after it, and MS-CDP of 2023
//! has more after the hash: both are refused with 14.
//!
//! ## Reports and their buffer
//!
//! Lend a connection the same report buffer at each step, of 64 times F bytes or as many as the
//! longest report has, and leave it alone until the report is complete: what is in it is compared
//! with pieces that come twice. Where this is done, and the connection came from
//! [`Connection::open`] and [`Connection::step`] alone, [`Answer::Complete`] has the report as it
//! was sent. It borrows the report from the buffer, and the compiler does not let it be used after
//! the next step.
//!
//! Once the piece with the last index has come the report's length is known; a buffer that is
//! shorter is then refused with 255, [`Refusal::WrongBuffer`].
//!
//! Document 01 has no message by which a hub says that a report came: the gateway sends each piece
//! as often as its link needs, and one report after the other. 18 that comes again and again says
//! that the expected report will never be finished: nothing later is taken. Open anew, with new
//! keys.
//!
//! ## Stored connections
//!
//! A [`Connection`] is 151 bytes in the layout of hub.h: [`Connection::as_bytes`] gives them, to be
//! stored, and [`Connection::from_bytes`] takes them when the hub starts again.
//!
//! While a report is under way the report buffer belongs to the connection: store both together, or
//! open anew. A connection that is restored without its report buffer would complete a false
//! report. At [`Answer::Complete`] store report and connection together, else a crash loses or
//! doubles a report.
//!
//! A [`Gateway`] is 17 bytes. It is of use only with its keys, the bytes of its requests, and the
//! number that its next report has: store them together, or enrol anew.
//!
//! ## Refusals
//!
//! Most are harmless, and a hub drops the message and goes on: connection and report buffer are as
//! they were. [`Refusal`] says which are not.
//!
//! # Memory
//!
//! All memory is the caller's. Nothing is allocated, no pointer is kept after a call, and the
//! library has no state of its own, so any calls may run at the same time in different threads.
//! Every input is defined behaviour, random bytes in place of a connection, a message or a payload
//! too: no call here panics.
//!
//! | Buffer | What it is |
//! |---|---|
//! | `message` | one whole message |
//! | `keys` | the 64 key bytes, or none; a plain message does not look at them |
//! | `working` | room into which a sealed message is opened: [`MOST_SEALED`] bytes are enough for every message, F + 19 for a piece of F bytes, 2,576 for an enrolment. It holds secrets afterwards: erase it if you must. Its content before a call does not matter |
//! | `report` | where a report is put together: 64 times F bytes are enough for every report |
//! | `chain` | additional headers with their end: [`NO_ENTRIES`] where there are none. Bytes after the end are refused with 8 |
//! | `payload` | what a message carries: [`MOST_PAYLOAD`] bytes are enough for every payload of Discovery and Connect |
//! | `out` | where a message or a payload is written: [`MOST_WRITTEN`] bytes are enough for every message that [`write()`] makes |
//!
//! A call that is refused leaves every buffer as it was, but for one: where a sealed message was
//! opened, and is refused for what it says or when it comes, the first bytes of the working buffer
//! hold what was opened.
//!
//! The stack that each call takes stands in a table in include/hub.h. The largest is hub_step,
//! which [`Connection::step`] calls, with some 3,300 bytes. This is measured and not proved; what
//! the code of this crate takes comes on top.
//!
//! # Secrets and time
//!
//! [`hmac`] and [`same_tag`] make no branch and no memory access that depends on the bytes they are
//! given; this is tested and not proved. AES reads tables at places that depend on keys and data,
//! so [`read`], [`write()`], [`Connection::step`] and [`Gateway::step`] are not constant-time:
//! docs/SECURITY.md has more. Copies on the stack are not erased.
//!
//! # Versions
//!
//! This crate has the version of hub.h and of the library, which [`version`] tells. The first
//! number rises where a caller has to change something, or the meaning of the 151 bytes of a
//! connection or of the 17 of a gateway's changes. So connections that were stored under one first
//! number may be read under another only where docs/CHANGES.md says how; under the same first
//! number all are read. The second number rises where something is added.
//!
//! The library is for x86-64 Linux. The build script looks for it in the folder that `HLIDUNSK_LIB`
//! names.
//!
//! [`Connect::header`]: payload::Connect::header
//! [`Connect::write`]: payload::Connect::write
//! [`Discovery::write`]: payload::Discovery::write
//! [`MOST_PAYLOAD`]: payload::MOST_PAYLOAD

#![no_std]
#![deny(unsafe_op_in_unsafe_fn)]
#![warn(missing_docs)]
// No call panics.
#![warn(clippy::expect_used, clippy::indexing_slicing, clippy::panic, clippy::unwrap_used)]

mod answer;
mod connection;
mod cutting;
mod ffi;
mod gateway;
mod hash;
mod listing;
mod message;
pub mod payload;
mod refusal;
mod stream;

pub use answer::{Answer, Reply};
pub use connection::{Connection, State, MOST_FRAGMENT_SIZE, MOST_PIECES};
pub use cutting::{cut, Piece};
pub use gateway::{Gateway, GatewayAnswer, GatewayState, Request};
pub use hash::{digest, hmac, same_tag};
pub use listing::{list, Line};
pub use message::{read, read_header, write, Body, Framed, Header, Keys, Message, MessageType};
pub use message::{MOST_REPLY, MOST_SEALED, MOST_WRITTEN, NO_ENTRIES};
pub use refusal::Refusal;
pub use stream::{wanted, MOST_READ};

/// The library's version: major × 65,536 + minor × 256 + patch.
pub fn version() -> u32 {
    // SAFETY: it takes nothing.
    unsafe { ffi::hub_version() }
}
