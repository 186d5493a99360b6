/* SPDX-License-Identifier: MPL-2.0 */
/*
 * hub.h: the hub of Hlidunsk for C and C++.
 *
 * The library enrols gateways, joins their reports and answers presence calls, and has the gateway's side of it too, over the Connected Devices
 * Platform protocol (MS-CDP) as docs/01-scope.md, here called document 01, describes it. Every call below (hub_text, a table in this header, is none)
 * is proved to do exactly what its contract in crates/hub_c says, on every input; the sentences of this header are those contracts in words. What
 * "proved" rests on is in docs/TRUST.md. This header itself is not proved: that it fits the library is tested (tests/boundary), over a million steps
 * against an independent second implementation. The files named docs/ and host/ here are installed under share/doc/hlidunsk; crates/ and tests/ are
 * in the project. The library is for x86-64 Linux, the header for C99, C++98 and later.
 *
 *
 * MESSAGES, PIECES, REPORTS
 *
 * A message is 42 to 65,535 bytes: a header of 40, a chain of additional headers that ends with two zero bytes, a payload, and, where it is
 * sealed, a tag of 32. Sealed means encrypted and tagged under 64 key bytes that the caller brings (16 encryption key, 16 vector key, 32 HMAC
 * key). A gateway enrols by three Connect messages, each of which the hub replies to. Then it sends reports. A report is cut into 1 to 64
 * pieces of F bytes (the last has the rest), each in a Session message of its own; they may come in any order, twice, or damaged.
 *
 * The hub's side, for each gateway:
 *
 *     hub_open      once: makes a connection of fragment size F
 *     hub_wanted    says where in a stream the next message ends
 *     hub_step      for each message that comes in: judges it, changes the connection, writes a piece into the report buffer, and answers
 *                   what to do: reply, reply again, name a failure, wait for more pieces, or take the report, which is complete
 *     hub_write_connection_response, hub_write_device_authentication, hub_write_done_response
 *                   make the payload of a reply, and hub_write its message
 *
 * The gateway's side, for each enrolment:
 *
 *     hub_gateway_open
 *                   once: makes a gateway's connection of fragment size F and the SessionID that its requests carry
 *     hub_gateway_due
 *                   names the request that is due: what to send, and to send again where no reply comes
 *     hub_write_connection_request, hub_write_device_authentication, hub_write_done_request
 *                   make the payload of a request, and hub_write its message
 *     hub_gateway_step
 *                   for each message that comes in: judges it, changes the gateway's connection, and answers what to do: send the next request,
 *                   send one again, send reports, since the hub is ready for them, or start over
 *     hub_read, hub_payload, hub_read_connect
 *                   open a reply and take it apart: for the keys, and for the verdict on the hub's certificate
 *     hub_cut       cuts a report, and hub_write makes the message of each piece
 *
 * Whoever looks for hubs, and a hub that says its name:
 *
 *     hub_write_presence_request, hub_write_presence_response
 *                   make the payload of a presence call and of its answer, and hub_write its message
 *     hub_read, hub_payload, hub_read_discovery
 *                   open a call or an answer and take it apart
 *
 * host/c has both sides, hub.c and gateway.c, as two programs that talk over a bad link; enrol.c is both in one page, and presence.c a presence call
 * and its answers. The library opens no socket, keeps no time, agrees on no key and judges no certificate: the caller says by the verdict whether it
 * accepts the certificate that a message shows.
 *
 *
 * WHAT THE MAKER OF A HUB OR OF A GATEWAY MUST KNOW
 *
 * Keys. The 64 key bytes come from a key agreement outside this library, and are new for each connection. The Connection Request and the Response,
 * which give X, Y and nonces to it, are plain: keys or verdict must depend on all of these, for otherwise nobody notices that the link has damaged
 * one, or that a stranger made it. Under old keys and an old SessionID a new connection takes old messages once more; so does an old copy of a
 * connection that is put back from a backup: store the newest copy alone, and open anew, with new keys, where it is lost. Until there are keys give
 * a step none (a null pointer, 0). Each call sets up its keys anew: there is nothing to prepare, and nothing of them to keep between calls but the
 * key bytes themselves.
 *
 * Vectors and numbers. A sealed message's vector is made of SessionID, SequenceNumber, FragmentIndex and FragmentCount. Under one set of keys two
 * sealed messages of different content must never have the same four, whichever side sends them. Reports are numbered from 0 on, one number each.
 * Once one piece of a number was sent, the number belongs to those bytes for good. A gateway that has lost them (it was restarted) starts over with
 * new keys, for otherwise the hub joins a mixture, and vectors repeat. Neither side looks at the SequenceNumber of a Connect message, so give
 * those numbers that no report has, and hub and gateway a range each: host/c counts the gateway's Connect messages from 0x80000000 on, the hub's
 * from 0xC0000000. Then open a new connection, with new keys, before report 0x80000000.
 *
 * Other fields. The gateway draws the SessionID, and every message of the connection has it, the replies too: hub_read_header says which it is. All
 * pieces of a report have one ChannelID. A Connect message has FragmentIndex 0 and FragmentCount 1. Nothing here looks at RequestID, nor at the
 * flags 1 and 8.
 *
 * Fragment size. F, the bytes of a piece, is agreed on outside the protocol, and both sides use the same. It is not the fragment size of a
 * Connection Request, which document 01 fixes at 16,384 (another is refused with 14): nothing here takes F from it.
 *
 * Replies. On HUB_KIND_REPLY the caller writes the reply, sends it, and keeps its bytes: three messages of at most HUB_MOST_REPLY bytes for each
 * connection. A gateway that hears none in its time sends its request again, the same bytes. Then the hub's answer is HUB_KIND_AGAIN, which is for
 * every message that asks for the same step: send the same bytes again too. Writing them anew is as good if every field, the payload and the keys
 * are the same, for then the bytes are too. Never write a Connection Response on HUB_KIND_AGAIN but from the stored nonce, X and Y: new ones would
 * cut off a gateway that is Ready, for whoever sends its old request. A Connection Response lets the gateway go on only where its Result is
 * HUB_PENDING. With any other the connection is in state HUB_WAITING_FOR_AUTHENTICATION all the same: open a new one.
 *
 * Verdicts. To a hub the verdict matters for one message alone, a Device Authentication Request, which is sealed, in state
 * HUB_WAITING_FOR_AUTHENTICATION. Only there need a caller read the message before the step: hub_read_header says whether it is a sealed Connect
 * message, hub_read opens it, hub_payload says where its payload lies, and hub_read_connect where in that its certificate. For every other message
 * any verdict of 0 or 1 gives the same. A certificate alone proves nothing: it is public, and anybody can show a copy. Give verdict 1 only where the
 * sender has proved that he holds its key: verify the thumbprint as a signature over both nonces and both public keys, or derive the 64 key bytes
 * from a secret that only the sender and you have. Where certificates are compared, compare their lengths as well as their bytes. Verdict 0 is final:
 * where you cannot judge yet, hold the message back and do not step.
 *
 * Failure. On HUB_KIND_FAILURE the verdict was 0. MS-CDP (2.2.2.3.10) says: "If the authentication process itself fails to complete, an empty
 * payload is returned", and gives this message the type number 8, HUB_AUTHENTICATION_FAILURE. How it is sent is the caller's: hub_write refuses it
 * with 14, since document 01 has no such payload. The connection is in state HUB_FAILED from then on, where every message is refused: only hub_open
 * helps. There is no Again for it: a request that comes again is refused with 15, and the caller may send the failure again.
 *
 * Strangers. A Connection Request is plain, so anybody can make one, and the link can damage one unnoticed. A connection that has taken such a one
 * refuses the gateway's own with 15 or 16, and so does one that is Ready where a gateway starts over. So in every state but
 * HUB_WAITING_FOR_REQUEST, where a message is refused with 15 or 16, try it on a new connection, by hub_open and a step without keys. If that
 * answers HUB_KIND_REPLY, keep the new one beside the old one, with keys, replies and a report buffer of its own, and drop the old one when the new
 * one is HUB_PASSED. Bound how many you keep. While there are several, each message goes to one after the other until one does not refuse it. So
 * neither a stranger nor an old request cuts a gateway off, and one that starts over is heard (host/c/hub.c).
 *
 * The gateway. hub_gateway_open is given F and the SessionID that the gateway's requests carry: a random number, new for each enrolment, as its nonce
 * and its key pair are. hub_gateway_due names the request that is due. Write it once, keep its bytes and send them; then give hub_gateway_step each
 * message that comes. What it refuses is late, damaged or a stranger's: drop it. On HUB_KIND_NEXT the reply was taken, and the next request is due.
 * Where that is HUB_AUTHENTICATION_REQUEST the message was the Connection Response: read its nonce, X and Y, which lead to the keys, by hub_read,
 * hub_payload and hub_read_connect. Do so at once: without keys no sealed message is written or opened. On HUB_KIND_READY cut and send reports. A
 * gateway that is Ready still hears messages: give them to the step too.
 *
 * Lost replies. Where no reply comes in its time, send the bytes of the request that is due once more: the same bytes, never with a new nonce, for a
 * hub that has taken the first one refuses the other with 15. Nothing in the library makes a nonce, and the 17 bytes of a gateway's connection have
 * none. On HUB_KIND_AGAIN a reply has come that was taken before: send the request that answer names, the one that follows this reply, once more, the
 * same bytes too; after an Authentication Done Response it is HUB_NOTHING_DUE, and there is nothing to send. Bound how often: a plain Connection
 * Response that was copied or forged brings this about too. Only the type of such a reply is looked at, and its Result, its Status or the verdict: so
 * keep the keys, whatever nonce, X and Y a second Connection Response has.
 *
 * Turned away. A Connection Response of another Result than HUB_PENDING, an Authentication Done Response of another Status than HUB_SUCCESS, and a
 * Device Authentication Response with verdict 0 are answered HUB_KIND_FAILED, whenever they come, in Ready too. The verdict is on the hub's
 * certificate, and matters for the last of these alone, but for each one that comes, also where it is a repeated one: judge every one, as Verdicts
 * says. After HUB_KIND_FAILED every message is refused: only hub_gateway_open helps, with a new SessionID, nonce and key pair. A Connection Response
 * is plain: whoever has seen the SessionID can make one of another Result, and throw a gateway out, at the start and when it is Ready. To be spared
 * that, look at plain Connection Responses before the step once the state is not HUB_GATEWAY_WAITING_FOR_RESPONSE any longer, and drop those whose
 * Result is not HUB_PENDING (host/c/gateway.c); or start over. One that is HUB_PENDING and was forged, or damaged, leads to keys that the hub does
 * not have: the hub replies to no sealed request, and after some tries the gateway starts over, with all of these new. A forger who has these keys
 * can reply: only the verdict stands against him (see Verdicts above).
 *
 * Presence. A presence call asks who is there. It is a plain message: hub_read needs neither keys nor working for it. Its type is HUB_TYPE_DISCOVERY,
 * hub_payload says where its payload lies, and hub_read_discovery that this is a HUB_PRESENCE_REQUEST. The answer's payload is made by
 * hub_write_presence_response and its message by hub_write: HUB_TYPE_DISCOVERY, no flags, the RequestID of the call given back, FragmentIndex 0,
 * FragmentCount 1. Where and when it is sent is the caller's. A step takes no Discovery message (15), so such a message goes to no connection. Call
 * and answer are plain, so anybody can make them, in another's name too: answer only as often as you wish to, and believe no answer. Name, salt and
 * hash are told to everybody. A name is bytes: it may be no text, and need not end with a zero byte, so look at it before you print it. The hash is
 * the device's own to make, over what is private to it: by MS-CDP it is a salted SHA-256 of the device's ID, of which document 01 has 4 bytes.
 * Whoever can guess the ID can test the guess by them. (In MS-CDP's example the hash has 32 bytes and the name a zero byte after it, and MS-CDP of
 * 2023 has more after the hash: both are refused with 14.)
 *
 * Reports. Lend a connection the same report buffer at each step, and leave it alone, until the report is complete; then take the report before the
 * next step. A connection comes from hub_open and goes through hub_step alone. Then the first answer[HUB_ANSWER_LENGTH] bytes of report are, at
 * HUB_KIND_COMPLETE, the report as it was sent (DemandThree), and HUB_WRONG_BUFFER does not come (NeverShort). Whatever is lent, that number is
 * never more than report_n (WithinReport). Document 01 has no message by which a hub says that a report came: the gateway sends each piece as often
 * as its link needs, and one report after the other.
 *
 * Stored connections. While a report is under way, which is while the bytes from HUB_STATE_HEARD on are not all zero, the report buffer belongs to
 * the connection: store both together, or open anew. A connection that is put back without its report buffer would complete a false report. At
 * HUB_KIND_COMPLETE store report and connection together: otherwise a crash loses a report, or hands it out twice. Its SequenceNumber was that of
 * HUB_STATE_EXPECTED before the step, and hub_read_header of the message says it too. A gateway's connection is of use only with its keys, the bytes
 * of its requests, and the number that its next report has: store them together, or enrol anew.
 *
 * Refusals. Most are harmless, and a hub drops the message and goes on: connection and report buffer are as they were. 17 is what late copies of a
 * report that is complete get, 11 what damaged or foreign bytes do, 15 and 16 what strangers do and a gateway that starts over; 15 is also what every
 * well-formed Discovery message gets (see Presence). 18 is a report that comes too early: it is sent again, or lost; where 18 comes again and again
 * the expected report will never be finished, and nothing later is taken: open anew, with new keys. 11 of every sealed message says that the two
 * sides have different keys, 20 that they have a different F; 13, 14, 21 and 23 of a sealed message say that the gateway is wrong or has used a
 * number twice, or, 23, that the report buffer was touched. In a stream 2 and 3 mean that the framing is lost: close it. 19 is for a number that no
 * report has, 2^32 - 1. 10, 12, 22, 24, 25 and 255 are the caller's own: keys, a buffer, F or a verdict are not as they should be. But until there
 * are keys 10 is a sealed message that comes too early; and a gateway can bring about 12 and 22 where working is shorter than HUB_MOST_SEALED, or
 * report than 64 times F. A gateway drops what is refused too: its connection is as it was. 12 there is what a hub brings about where working is
 * shorter than HUB_MOST_SEALED, 16 is another SessionID there, in every state, and 15 a reply out of order, a request, a Session or a Discovery
 * message, and all that comes after HUB_KIND_FAILED; 11 of every sealed message says there too that the two sides have different keys. hub_text has a
 * sentence for each.
 *
 *
 * WHO OWNS WHICH MEMORY
 *
 * All memory is the caller's. The library allocates nothing, keeps no pointer after a call, and has no state of its own: what a hub remembers of
 * a gateway is the 151 bytes that hub_open writes and hub_step changes, and what a gateway remembers of its hub the 17 bytes that hub_gateway_open
 * writes and hub_gateway_step changes. They may be copied, stored, sent, or compared with memcmp. So any calls may run at the same time in different
 * threads, as long as none writes a buffer that another uses.
 *
 * Every buffer is two parameters, a pointer and after it the number of its elements (x and x_n): bytes, or words of 64 bits where the type
 * is uint64_t. The caller promises, as everywhere in C, that so many elements are there, that words are aligned, and that a buffer that a call
 * writes overlaps no other buffer of the call. That is the only thing that the caller has to promise: every content is allowed, every number and
 * every size; random bytes in place of a connection, a message or keys are defined behaviour and are answered. A buffer of no elements is not looked
 * at, and its pointer may be null.
 *
 * Buffers of fixed size (a connection, the words of a header, an answer) are passed with their size like all others. Another size than the one
 * asked for is answered HUB_WRONG_BUFFER before anything else is judged, and nothing is changed.
 *
 * The buffers of free size:
 *
 *     message   one whole message.
 *     keys      the 64 key bytes. Another size is HUB_WRONG_KEYS, where a message is sealed; a plain message does not look at them.
 *     working   room into which a sealed message is opened: HUB_MOST_SEALED bytes are enough for every message. A piece of F bytes needs
 *               F + 19, an enrolment 2,576. It holds secrets afterwards: erase it if you must. Its content before a call does not
 *               matter.
 *     report    where a report is put together: 64 times F bytes are enough for every report. Leave it alone between steps until the report is
 *               complete: what is in it is compared with pieces that come twice.
 *     chain     additional headers with their end: HUB_NO_ENTRIES where there are none. Bytes after the end are refused with 8.
 *     payload   what a message carries. HUB_MOST_PAYLOAD bytes are enough for every payload of Discovery and Connect.
 *     out       where a message or a payload is written: HUB_MOST_WRITTEN bytes are enough for every message that hub_write makes.
 *
 *
 * WHAT A CALL ANSWERS
 *
 * Each call returns a number of 32 bits: HUB_DONE (0); or the number of a refusal in document 01 (1 to 25), which is the first row of document 01's
 * table that applies, in the order given with the call; or HUB_WRONG_BUFFER (255). (hub_tags_differ, hub_wanted and hub_version return what is said
 * there.) All 32 bits are defined. A later version may return further numbers: treat one that you do not know as a refusal.
 *
 * On a refusal, 1 to 25, every byte of every buffer is exactly as it was before, and every word that the call hands out (header, length, answer,
 * piece, connect, discovery) is 0. What a call does otherwise its "On refusal" names. No call that is done hands out zeros alone, but for
 * hub_payload, hub_read_discovery of a Presence Request, and hub_gateway_due where a Connection Request is due: look at what a call returns before
 * you look at its words.
 *
 * On HUB_WRONG_BUFFER every buffer is exactly as it was before, each byte and each word of it. It is answered where a buffer of fixed size has
 * another size, where a word is too wide for its field, and where hub_step is lent a report buffer that is shorter than the report.
 *
 * A buffer declared const is never changed. What is not named as written is not written.
 *
 * "Proved" names the statement in docs/PROMISES.md, beyond the call's contract, that says the same for a reader. A contract fixes the
 * answer and every byte of every buffer: OneResult and OneOutcome.
 *
 *
 * SECRETS, TIME, STACK
 *
 * hub_hmac and hub_tags_differ make no branch and no memory access that depends on the bytes they are given; this is tested with valgrind
 * (tests/memory) and not proved. AES reads tables at places that depend on keys and data, so hub_read, hub_write, hub_step and hub_gateway_step are
 * NOT constant-time: see docs/SECURITY.md. Copies on the stack are not erased.
 *
 * The stack that a call takes, its return address included, is at most so many bytes. This is measured (tests/memory, which fails where a call takes
 * more) and not proved; what a call reserves and never writes is not seen.
 *
 *     hub_step                        2,944
 *     hub_gateway_step                2,048
 *     hub_read                        1,920
 *     hub_write                       1,664
 *     hub_hmac                        1,280
 *     hub_digest                        768
 *     hub_read_header                   768
 *     hub_list                          768
 *     hub_open                          704
 *     hub_write_connection_response     384
 *     hub_write_connection_request      384
 *     hub_read_connect                  192
 *     hub_write_presence_response       192
 *     hub_write_device_authentication   192
 *     hub_read_discovery                128
 *     hub_version                        64
 *     hub_tags_differ                    64
 *     hub_wanted                         64
 *     hub_payload                        64
 *     hub_write_presence_request         64
 *     hub_write_done_request             64
 *     hub_write_done_response            64
 *     hub_gateway_open                   64
 *     hub_gateway_due                    64
 *     hub_cut                            64
 *
 *
 * VERSIONS
 *
 * HUB_VERSION is the header's, hub_version the library's. The first number rises where a caller has to change something: a name or a declaration
 * here, or the meaning of the 151 bytes of a connection or of the 17 of a gateway's. So connections that were stored under one first number may be
 * read under another only where docs/CHANGES.md says how; under the same first number all are read. The second number rises where something is
 * added.
 */
#ifndef HLIDUNSK_HUB_H
#define HLIDUNSK_HUB_H

#include <stddef.h>
#include <stdint.h>

#ifdef __cplusplus
extern "C" {
#endif

/* An answer that is not looked at is a mistake. */
#if defined(__GNUC__) || defined(__clang__)
#define HUB_ANSWER_MATTERS __attribute__((warn_unused_result))
#else
#define HUB_ANSWER_MATTERS
#endif

/* This header's version: major * 65536 + minor * 256 + patch. */
#define HUB_VERSION 0x00010200u

/* Sizes of the buffers of fixed size, in bytes or in words of 64 bits. */
#define HUB_STATE_BYTES 151     /* a connection */
#define HUB_GATEWAY_BYTES 17    /* a gateway's connection */
#define HUB_HEADER_WORDS 11     /* a header that was read, and the place of its payload */
#define HUB_FIELDS_WORDS 8      /* the fields of a header to be written */
#define HUB_PLACE_WORDS 3       /* where a payload lies */
#define HUB_CONNECT_WORDS 13    /* what a Connect payload says */
#define HUB_DISCOVERY_WORDS 9   /* what a Discovery payload says */
#define HUB_ANSWER_WORDS 3      /* what a step answers, of either side */
#define HUB_DUE_WORDS 1         /* the request that is due */
#define HUB_PIECE_WORDS 3       /* a piece of a report */
#define HUB_LENGTH_WORDS 1      /* how many bytes were written */
#define HUB_DIGEST_BYTES 32     /* a SHA-256 digest, and a tag */
#define HUB_KEYS_BYTES 64       /* keys */
#define HUB_NONCE_BYTES 8       /* a nonce */
#define HUB_COORDINATE_BYTES 32 /* X, and Y, of a public key */
#define HUB_SALT_BYTES 4        /* the salt of a Presence Response: DeviceIdSalt */
#define HUB_HASH_BYTES 4        /* its hash: DeviceIdHash */
#define HUB_LINE_BYTES 64       /* a line of the listing */

/* Bounds of document 01. */
#define HUB_LEAST_MESSAGE 42         /* the shortest message */
#define HUB_MOST_WRITTEN 18530       /* the longest message that hub_write makes; longer ones may come in */
#define HUB_MOST_READ 65535          /* the longest message that may come in */
#define HUB_MOST_SEALED 65456        /* the longest sealed part of a message that is read */
#define HUB_MOST_PIECES 64           /* the most pieces of a report */
#define HUB_MOST_FRAGMENT_SIZE 16384 /* the largest F, and the longest Session payload that hub_write takes */
#define HUB_MOST_CERTIFICATE 2048    /* the longest certificate; the shortest has one byte */
#define HUB_MOST_THUMBPRINT 512      /* the longest thumbprint; it may be empty */
#define HUB_MOST_NAME 64             /* the longest name of a Presence Response; it may be empty */
#define HUB_MOST_PAYLOAD 2567        /* the longest payload of Discovery and Connect */
#define HUB_MOST_REPLY 2650          /* the longest Connect or Discovery message without entries in its chain */

/* The chain that has no entries: the two bytes of its end. */
#ifdef __cplusplus
#define HUB_NO_ENTRIES (reinterpret_cast<const uint8_t *>("\0"))
#else
#define HUB_NO_ENTRIES ((const uint8_t *)"\0")
#endif
#define HUB_NO_ENTRIES_N 2

/* What a call returns: document 01's table "Refusal numbers". */
enum hub_refusal {
    HUB_DONE = 0,
    /* tests/refusals/write: header */
    HUB_TOO_SHORT = 1,            /* fewer than 42 bytes */
    HUB_WRONG_SIGNATURE = 2,      /* wrong signature */
    HUB_WRONG_LENGTH = 3,         /* MessageLength under 42 or not the bytes given */
    HUB_WRONG_VERSION = 4,        /* version not 3 */
    HUB_WRONG_TYPE = 5,           /* type not 1, 2, 4 */
    HUB_WRONG_FLAGS = 6,          /* a flag above 8; flags 2 and 4 not alike; sealed Discovery; plain Session */
    HUB_WRONG_PIECE = 7,          /* count 0 or over 64; index not under count; count not 1 outside Session */
    HUB_WRONG_CHAIN = 8,          /* chain leaves its room, unknown type, type 0 with a size, over 8 entries */
    HUB_WRONG_SEALED_SIZE = 9,    /* sealed part empty or no multiple of 16 */
    HUB_WRONG_KEYS = 10,          /* keys not 64 bytes */
    HUB_WRONG_TAG = 11,           /* tag differs */
    HUB_SHORT_WORKING = 12,       /* working buffer shorter than the sealed part */
    HUB_WRONG_PADDING = 13,       /* size or padding not as the rule gives */
    HUB_WRONG_PAYLOAD = 14,       /* Discovery or Connect payload not as document 01 says */
    HUB_NOT_ALLOWED = 15,         /* message not allowed in this state, by role */
    HUB_OTHER_SESSION = 16,       /* state not 0 and another SessionID; on the gateway's side another SessionID
                                     in every state */
    HUB_PAST_SEQUENCE = 17,       /* SequenceNumber below the expected one */
    HUB_FUTURE_SEQUENCE = 18,     /* SequenceNumber above the expected one */
    HUB_LAST_SEQUENCE = 19,       /* SequenceNumber is 2^32 - 1 */
    HUB_WRONG_PIECE_SIZE = 20,    /* piece not F bytes and not last; last over F; last empty with count over 1;
                                     in the writer: Session payload over 16,384 */
    HUB_UNLIKE_FIRST_PIECE = 21,  /* count or channel unlike the first piece taken of this message */
    HUB_NO_ROOM = 22,             /* F times index + piece length exceeds the report buffer; or out too small */
    HUB_UNLIKE_REPEAT = 23,       /* index already heard, and the bytes differ from the report buffer's there, or
                                     the length from the one taken */
    HUB_WRONG_FRAGMENT_SIZE = 24, /* F outside 1 to 16,384 */
    HUB_WRONG_VERDICT = 25,       /* verdict not 0 or 1 */
    /* tests/refusals/write: end */
    HUB_WRONG_BUFFER = 255        /* a buffer of fixed size has another size, a word is too wide for its field, or
                                     the report buffer shorter than the report; not a number of document 01 */
};

/* A sentence for each number that a call returns, in English: document 01's. (Not for what hub_tags_differ, hub_wanted and hub_version return.) */
static inline const char *hub_text(uint32_t number)
{
    switch (number) {
    case HUB_DONE:
        return "done";
    /* tests/refusals/write: texts */
    case HUB_TOO_SHORT:
        return "fewer than 42 bytes";
    case HUB_WRONG_SIGNATURE:
        return "wrong signature";
    case HUB_WRONG_LENGTH:
        return "MessageLength under 42 or not the bytes given";
    case HUB_WRONG_VERSION:
        return "version not 3";
    case HUB_WRONG_TYPE:
        return "type not 1, 2, 4";
    case HUB_WRONG_FLAGS:
        return "a flag above 8; flags 2 and 4 not alike; sealed Discovery; plain Session";
    case HUB_WRONG_PIECE:
        return "count 0 or over 64; index not under count; count not 1 outside Session";
    case HUB_WRONG_CHAIN:
        return "chain leaves its room, unknown type, type 0 with a size, over 8 entries";
    case HUB_WRONG_SEALED_SIZE:
        return "sealed part empty or no multiple of 16";
    case HUB_WRONG_KEYS:
        return "keys not 64 bytes";
    case HUB_WRONG_TAG:
        return "tag differs";
    case HUB_SHORT_WORKING:
        return "working buffer shorter than the sealed part";
    case HUB_WRONG_PADDING:
        return "size or padding not as the rule gives";
    case HUB_WRONG_PAYLOAD:
        return "Discovery or Connect payload not as document 01 says";
    case HUB_NOT_ALLOWED:
        return "message not allowed in this state, by role";
    case HUB_OTHER_SESSION:
        return "state not 0 and another SessionID; on the gateway's side another SessionID in every state";
    case HUB_PAST_SEQUENCE:
        return "SequenceNumber below the expected one";
    case HUB_FUTURE_SEQUENCE:
        return "SequenceNumber above the expected one";
    case HUB_LAST_SEQUENCE:
        return "SequenceNumber is 2^32 - 1";
    case HUB_WRONG_PIECE_SIZE:
        return "piece not F bytes and not last; last over F; last empty with count over 1; in the writer: Session payload over 16,384";
    case HUB_UNLIKE_FIRST_PIECE:
        return "count or channel unlike the first piece taken of this message";
    case HUB_NO_ROOM:
        return "F times index + piece length exceeds the report buffer; or out too small";
    case HUB_UNLIKE_REPEAT:
        return "index already heard, and the bytes differ from the report buffer's there, or the length from the one taken";
    case HUB_WRONG_FRAGMENT_SIZE:
        return "F outside 1 to 16,384";
    case HUB_WRONG_VERDICT:
        return "verdict not 0 or 1";
    /* tests/refusals/write: end */
    case HUB_WRONG_BUFFER:
        return "a buffer of fixed size has another size, a word is too wide for its field, or the report buffer is shorter than the report";
    default:
        return "a number that this version of hub.h does not know";
    }
}

/* Places of the words of a header: HUB_FIELDS_WORDS of them are given to hub_write, HUB_HEADER_WORDS come from hub_read_header and hub_read. */
enum hub_header_word {
    HUB_HEADER_TYPE = 0,     /* MessageType, a hub_type */
    HUB_HEADER_FLAGS = 1,    /* MessageFlags */
    HUB_HEADER_SEQUENCE = 2, /* SequenceNumber */
    HUB_HEADER_REQUEST = 3,  /* RequestID */
    HUB_HEADER_INDEX = 4,    /* FragmentIndex */
    HUB_HEADER_COUNT = 5,    /* FragmentCount */
    HUB_HEADER_SESSION = 6,  /* SessionID */
    HUB_HEADER_CHANNEL = 7,  /* ChannelID */
    HUB_HEADER_SEALED = 8,   /* what HUB_HEADER_FROM and HUB_HEADER_SIZE name, a hub_sealed */
    HUB_HEADER_FROM = 9,     /* where the payload, or the sealed part, starts */
    HUB_HEADER_SIZE = 10     /* how many bytes it has */
};

/* The values of HUB_HEADER_SEALED. hub_read_header gives the first and the last, hub_read the first two. */
enum hub_sealed {
    HUB_PLAIN = 0,       /* the payload, in the message: it is plain */
    HUB_OPENED = 1,      /* the payload, in the working buffer: it was sealed */
    HUB_STILL_SEALED = 2 /* the sealed part, in the message: hub_payload answers 0, 0, 0 for it */
};

/* MessageType. */
enum hub_type { HUB_TYPE_DISCOVERY = 1, HUB_TYPE_CONNECT = 2, HUB_TYPE_SESSION = 4 };

/* MessageFlags. A message is sealed where both bits of HUB_FLAGS_SEALED are set. */
enum hub_flag { HUB_FLAG_ACKNOWLEDGE = 1, HUB_FLAG_HMAC = 2, HUB_FLAG_ENCRYPTED = 4, HUB_FLAGS_SEALED = 6, HUB_FLAG_WAKE = 8 };

/* The types of Connect payloads: the byte after ConnectionMode. Types 0 and 1 are plain, the others sealed; the other way is 14. */
enum hub_connect {
    HUB_CONNECTION_REQUEST = 0,
    HUB_CONNECTION_RESPONSE = 1,
    HUB_AUTHENTICATION_REQUEST = 2,  /* Device Authentication Request */
    HUB_AUTHENTICATION_RESPONSE = 3, /* Device Authentication Response */
    HUB_DONE_REQUEST = 6,            /* Authentication Done Request */
    HUB_DONE_RESPONSE = 7,           /* Authentication Done Response */
    HUB_AUTHENTICATION_FAILURE = 8          /* Authentication Failure: see Failure above; no call here reads or writes it */
};

/* In the place of the type of a request: no request is due, and none is to be sent. No type byte has this number. */
#define HUB_NOTHING_DUE 256

/* The types of Discovery payloads: DiscoveryType, their first byte. */
enum hub_discovery { HUB_PRESENCE_REQUEST = 0, HUB_PRESENCE_RESPONSE = 1 };

/* ConnectionMode of a Connect payload and of a Presence Response, by MS-CDP's names. Document 01 takes 0 to 2 and makes nothing of it. */
enum hub_mode { HUB_MODE_NONE = 0, HUB_MODE_PROXIMAL = 1, HUB_MODE_LEGACY = 2 };

/* DeviceType of a Presence Response, by MS-CDP's names (2.2.2.2.2). Document 01 takes every number from 0 to 65,535 and makes nothing of it. */
enum hub_device {
    HUB_DEVICE_XBOX_ONE = 1,
    HUB_DEVICE_IPHONE = 6,
    HUB_DEVICE_IPAD = 7,
    HUB_DEVICE_ANDROID = 8,
    HUB_DEVICE_WINDOWS_DESKTOP = 9,
    HUB_DEVICE_WINDOWS_PHONE = 11,
    HUB_DEVICE_LINUX = 12,
    HUB_DEVICE_WINDOWS_IOT = 13,
    HUB_DEVICE_SURFACE_HUB = 14,
    HUB_DEVICE_WINDOWS_LAPTOP = 15,
    HUB_DEVICE_WINDOWS_TABLET = 16
};

/* The Result of a Connection Response (0 to 3) and the Status of an Authentication Done Response (0 to 4), by MS-CDP's names. */
enum hub_code {
    HUB_SUCCESS = 0,
    HUB_PENDING = 1, /* as a Result: nonce, X and Y follow, and the gateway goes on; every other Result turns it away */
    HUB_FAILURE_AUTHENTICATION = 2,
    HUB_FAILURE_NOT_ALLOWED = 3,
    HUB_FAILURE_UNKNOWN = 4 /* a Status only */
};

/* Places of the words that hub_read_connect writes. A part of the payload is two words: where it starts, and how many bytes it has. */
enum hub_connect_word {
    HUB_CONNECT_TYPE = 0, /* a hub_connect */
    HUB_CONNECT_MODE = 1, /* ConnectionMode, a hub_mode */
    HUB_CONNECT_CODE = 2, /* a hub_code: type 1, the Result; type 7, the Status; else 0 */
    HUB_CONNECT_NONCE_FROM = 3,   /* types 0, and 1 where it is Pending: nonce, X and Y; else 0 */
    HUB_CONNECT_NONCE_SIZE = 4,
    HUB_CONNECT_X_FROM = 5,
    HUB_CONNECT_X_SIZE = 6,
    HUB_CONNECT_Y_FROM = 7,
    HUB_CONNECT_Y_SIZE = 8,
    HUB_CONNECT_CERTIFICATE_FROM = 9, /* types 2 and 3: certificate and thumbprint; else 0 */
    HUB_CONNECT_CERTIFICATE_SIZE = 10,
    HUB_CONNECT_THUMBPRINT_FROM = 11,
    HUB_CONNECT_THUMBPRINT_SIZE = 12
};

/* Places of the words that hub_read_discovery writes. A part of the payload is two words, as above. Of a Presence Request all are 0. */
enum hub_discovery_word {
    HUB_DISCOVERY_TYPE = 0,   /* a hub_discovery */
    HUB_DISCOVERY_MODE = 1,   /* ConnectionMode, a hub_mode */
    HUB_DISCOVERY_DEVICE = 2, /* DeviceType: a hub_device, or any other number */
    HUB_DISCOVERY_NAME_FROM = 3,
    HUB_DISCOVERY_NAME_SIZE = 4,
    HUB_DISCOVERY_SALT_FROM = 5,
    HUB_DISCOVERY_SALT_SIZE = 6,
    HUB_DISCOVERY_HASH_FROM = 7,
    HUB_DISCOVERY_HASH_SIZE = 8
};

/* Places of the words that hub_payload writes. */
enum hub_place_word {
    HUB_PLACE_BUFFER = 0, /* 0: in the message, 1: in the working buffer */
    HUB_PLACE_FROM = 1,
    HUB_PLACE_SIZE = 2
};

/* Places of the words that hub_step and hub_gateway_step write. */
enum hub_answer_word {
    HUB_ANSWER_KIND = 0,   /* a hub_kind */
    HUB_ANSWER_VALUE = 1,  /* Reply, Again, Next: the Connect type to send (Again of hub_gateway_step: or HUB_NOTHING_DUE); Taken, Repeat, Complete:
                              how many different pieces have come; else 0 */
    HUB_ANSWER_LENGTH = 2, /* Complete: the report's length, at most report_n; Reply, Again: see the next name; else 0 */
    HUB_ANSWER_STATUS = 2  /* the same word. Reply, Again: the Status to send with type 7, which is 0; 0 with types 1 and 3 */
};

/* The kinds of a step's answers, in one numbering for both sides: hub_step gives 0 to 6, hub_gateway_step 0, 2 and 7 to 9. */
enum hub_kind {
    HUB_KIND_REFUSED = 0,  /* the step was refused, by the number that it returned */
    HUB_KIND_REPLY = 1,    /* send the Connect payload of this type: 1 (Connection Response; Result HUB_PENDING, nonce and key are the caller's),
                              3 (Device Authentication Response, with the hub's own certificate), 7 (Authentication Done Response, with the
                              Status of HUB_ANSWER_STATUS) */
    HUB_KIND_AGAIN = 2,    /* a message that asks for a step that was made; nothing has changed; send the same reply again (see Replies above). Of
                              hub_gateway_step: a reply that was taken before; nothing has changed; send the same request again, the one that
                              follows this reply, or none (see Lost replies above) */
    HUB_KIND_FAILURE = 3,  /* the verdict was 0: send Authentication Failure, which the caller makes without hub_write (see Failure above) */
    HUB_KIND_TAKEN = 4,    /* a new piece is in the report buffer; others are missing */
    HUB_KIND_REPEAT = 5,   /* a piece that had come, with the same bytes; nothing has changed */
    HUB_KIND_COMPLETE = 6, /* the last missing piece: the report is the report buffer's first bytes */
    HUB_KIND_NEXT = 7,     /* a gateway's reply was taken: send the request of this type, HUB_AUTHENTICATION_REQUEST or HUB_DONE_REQUEST */
    HUB_KIND_READY = 8,    /* a gateway's last reply was taken: reports may be sent */
    HUB_KIND_FAILED = 9    /* the hub turns the gateway away, or the verdict was 0: only hub_gateway_open helps (see Turned away above) */
};

/* Places of the words that hub_cut writes. */
enum hub_piece_word {
    HUB_PIECE_COUNT = 0, /* how many pieces the report makes: FragmentCount */
    HUB_PIECE_FROM = 1,  /* where in the report the piece starts */
    HUB_PIECE_SIZE = 2   /* how many bytes it has */
};

/*
 * Where in the 151 bytes of a connection what stands; numbers are big-endian, as on the wire. Every 151 bytes are a connection, and every
 * connection is 151 bytes in exactly one way. Only hub_open and hub_step need write them.
 *
 * Proved    ReadBack, Whole.
 */
enum hub_state_place {
    HUB_STATE_FRAGMENT_SIZE = 0, /* 8 bytes: F */
    HUB_STATE_STATE = 8,         /* 1 byte: a hub_state */
    HUB_STATE_SESSION = 9,       /* 8 bytes: SessionID */
    HUB_STATE_NONCE = 17,        /* 8 bytes: the nonce of the Connection Request */
    HUB_STATE_X = 25,            /* 32 bytes: its X */
    HUB_STATE_Y = 57,            /* 32 bytes: its Y */
    HUB_STATE_CERTIFICATE = 89,  /* 32 bytes: SHA-256 of the gateway's certificate */
    HUB_STATE_EXPECTED = 121,    /* 4 bytes: the SequenceNumber of the report that is expected */
    HUB_STATE_HEARD = 125,       /* 8 bytes: the pieces that have come: index i is the bit of value 2^(i % 8) in byte i / 8 */
    HUB_STATE_COUNT = 133,       /* 8 bytes: FragmentCount of the first piece taken */
    HUB_STATE_CHANNEL = 141,     /* 8 bytes: ChannelID of the first piece taken */
    HUB_STATE_LAST = 149         /* 2 bytes: the length of the piece with the last index, once taken */
};

/* The states of a connection: state[HUB_STATE_STATE]. */
enum hub_state {
    HUB_WAITING_FOR_REQUEST = 0,
    HUB_WAITING_FOR_AUTHENTICATION = 1, /* the only state in which a step looks at the verdict */
    HUB_PASSED = 2,
    HUB_READY = 3, /* reports are taken */
    HUB_FAILED = 4 /* every message is refused, with 15 or 16 if not before; only hub_open helps */
};

/*
 * Where in the 17 bytes of a gateway's connection what stands: these are the first three parts of a hub's connection, at the same places. Every 17
 * bytes are a gateway's connection, and every one is 17 bytes in exactly one way. Only hub_gateway_open and hub_gateway_step need write them.
 *
 * Proved    GatewayStored.
 */
enum hub_gateway_place {
    HUB_GATEWAY_SIZE = 0,   /* 8 bytes: F */
    HUB_GATEWAY_STATE = 8,  /* 1 byte: a hub_gateway_state */
    HUB_GATEWAY_SESSION = 9 /* 8 bytes: SessionID */
};

/* The states of a gateway's connection: gateway[HUB_GATEWAY_STATE]. MS-CDP has one state for 1 and 2. */
enum hub_gateway_state {
    HUB_GATEWAY_WAITING_FOR_RESPONSE = 0,       /* for a Connection Response */
    HUB_GATEWAY_WAITING_FOR_AUTHENTICATION = 1, /* for a Device Authentication Response */
    HUB_GATEWAY_WAITING_FOR_DONE = 2,           /* for an Authentication Done Response */
    HUB_GATEWAY_READY = 3,                      /* reports may be sent */
    HUB_GATEWAY_FAILED = 4                      /* every message is refused, with 15 or 16 if not before; only hub_gateway_open helps. A higher
                                                   number is made up, and the same holds */
};

/*
 * The library's version, as HUB_VERSION is this header's.
 *
 * Returns   0x00010200 for 1.2.0.
 */
uint32_t hub_version(void);

/*
 * SHA-256 (FIPS 180-4).
 *
 * bytes     what is hashed; any size. FIPS 180-4 ends below 2^61 bytes, which is more than a machine has: from there on out is all zero.
 * out       HUB_DIGEST_BYTES.
 *
 * Returns   HUB_DONE, HUB_WRONG_BUFFER (out).
 * On done   out holds the digest.
 * Proved    the contract: out is `digest` of the bytes (crates/sha256/specs/Digests.antt).
 */
HUB_ANSWER_MATTERS
uint32_t hub_digest(const uint8_t *bytes, size_t bytes_n, uint8_t *out, size_t out_n);

/*
 * HMAC-SHA-256 (RFC 2104).
 *
 * key       the key; any size. (A key over 64 bytes is hashed first, as RFC 2104 says.)
 * message   what is tagged; any bytes and any size: it need not be a message of document 01. (From 2^61 - 64 bytes on the inner digest is all zero,
 *           and the tag is made of that.)
 * out       HUB_DIGEST_BYTES.
 *
 * Returns   HUB_DONE, HUB_WRONG_BUFFER (out).
 * On done   out holds the tag.
 * Proved    the contract: out is `hmac` of key and message (crates/sha256/specs/Macs.antt).
 */
HUB_ANSWER_MATTERS
uint32_t hub_hmac(const uint8_t *key, size_t key_n, const uint8_t *message, size_t message_n, uint8_t *out, size_t out_n);

/*
 * Compares two tags. All bytes of both are read, wherever they differ.
 *
 * a, b      HUB_DIGEST_BYTES each.
 *
 * Returns   0 if they are alike, 1 if not, HUB_WRONG_BUFFER (a or b).
 * Proved    the contract: 0 exactly where the bytes are the same.
 */
HUB_ANSWER_MATTERS
uint32_t hub_tags_differ(const uint8_t *a, size_t a_n, const uint8_t *b, size_t b_n);

/*
 * Says where a stream of messages that come back to back has its next message: how many bytes it has, by its first bytes.
 *
 * bytes     what has come of the message, from its first byte on, and maybe more; any number of bytes.
 *
 * Returns   the number of bytes: MessageLength, and at least 42. Of fewer than four bytes it is 42, since MessageLength is not there yet. So read
 *           until there are as many bytes as it says, asking again when more have come; then these are the next message. From four bytes on it does
 *           not change with the bytes that come after:
 *
 *               while (have < (wanted = hub_wanted(buffer, have)))
 *                   have += read at most wanted - have bytes to buffer + have;
 *
 *           reads one message and no byte of the next. A stranger chooses this number: let buffer have HUB_MOST_READ bytes, or give the stream up
 *           where it exceeds the buffer, and bound the time. It judges nothing: the message may be refused. Where MessageLength itself is wrong all
 *           that follows is out of step, and only a new stream helps.
 * Proved    NextMessage: of a message that hub_read_header does not refuse, with any bytes after it: never more than its length; and its length from
 *           four bytes on.
 */
HUB_ANSWER_MATTERS
uint32_t hub_wanted(const uint8_t *bytes, size_t bytes_n);

/*
 * Reads the header of a message and its chain. It needs no keys.
 *
 * message   one whole message.
 * header    HUB_HEADER_WORDS.
 *
 * Returns   HUB_DONE, HUB_WRONG_BUFFER (header), then 1 to 9 in this order.
 * On done   header holds the fields, and by HUB_HEADER_FROM and HUB_HEADER_SIZE where in the message the payload lies (HUB_HEADER_SEALED is
 *           HUB_PLAIN) or, for a sealed message, its sealed part (HUB_STILL_SEALED). Given to hub_payload, the words of a sealed message answer 0,
 *           0, 0: they name no payload.
 * On refusal header is all zero: an empty header, and the empty part at the message's start.
 * Proved    HeaderExact; the contract (`read_header` in crates/wire/specs/Reader.antt; `found_header` in
 *           crates/wire/specs/Answers.antt).
 */
HUB_ANSWER_MATTERS
uint32_t hub_read_header(const uint8_t *message, size_t message_n, uint64_t *header, size_t header_n);

/*
 * Reads a message; a sealed one is opened into the working buffer.
 *
 * message   one whole message.
 * keys      the 64 key bytes.
 * working   at least as long as the message's sealed part.
 * header    HUB_HEADER_WORDS.
 *
 * Returns   HUB_DONE, HUB_WRONG_BUFFER (header), then 1 to 14 in this order; 10 to 13 for sealed messages only.
 * On done   header holds the fields, and by HUB_HEADER_FROM and HUB_HEADER_SIZE where the payload lies: in the message (HUB_HEADER_SEALED is
 *           HUB_PLAIN) or in the working buffer (HUB_OPENED). Of a sealed message the first bytes of working hold the opened sealed part: payload
 *           size (4 bytes), payload, padding; the rest is unchanged. A plain message leaves all of it unchanged.
 * On refusal header is all zero: an empty header, and the empty part at the message's start, which is what hub_payload then answers. On 14 of a
 *           sealed message working holds the opened sealed part likewise; on the others it is as it was.
 * Proved    ReaderExact, ReadsBack, PayloadHanded; what working holds is the contract (`working_after` in crates/message/specs/Reading.antt).
 */
HUB_ANSWER_MATTERS
uint32_t hub_read(const uint8_t *message, size_t message_n, const uint8_t *keys, size_t keys_n, uint8_t *working, size_t working_n, uint64_t *header,
                  size_t header_n);

/*
 * Says where the payload of a message that hub_read has read lies. It trusts no number: what it answers is always inside the buffers given.
 *
 * message   the message.
 * working   the working buffer.
 * header    HUB_HEADER_WORDS, as hub_read wrote them, on a refusal too; only HUB_HEADER_SEALED, HUB_HEADER_FROM and HUB_HEADER_SIZE are looked at.
 * place     HUB_PLACE_WORDS.
 *
 * Returns   HUB_DONE, HUB_WRONG_BUFFER (header or place).
 * On done   place holds the buffer (0 message, 1 working), the payload's start in it and its length; or 0, 0, 0, the empty part at the message's
 *           start, where header names a part that the buffer does not have, or HUB_HEADER_SEALED is neither HUB_PLAIN nor HUB_OPENED. So after a
 *           refused hub_read, and for the words that hub_read_header wrote of a sealed message, it is 0, 0, 0. A part of working is the payload
 *           until the next call that is lent working to write.
 * Proved    PlaceHanded: by the words of hub_read it is the part that document 01's choosing function hands out, on a refusal too (`payload` in
 *           crates/message/specs/Handed.antt). PlaceUnopened: what it is by the words of hub_read_header.
 */
HUB_ANSWER_MATTERS
uint32_t hub_payload(const uint8_t *message, size_t message_n, const uint8_t *working, size_t working_n, const uint64_t *header, size_t header_n,
                     uint64_t *place, size_t place_n);

/*
 * Writes a message; sealed where both bits of HUB_FLAGS_SEALED are set in its flags.
 *
 * fields    HUB_FIELDS_WORDS, see hub_header_word. A word too wide for its field is HUB_WRONG_BUFFER, for every field alike: a type over 255;
 *           flags, an index or a count over 65,535; a SequenceNumber over 2^32 - 1. The vector is made of SessionID, SequenceNumber, index and
 *           count: never write two sealed messages with the same four under the same keys (see Vectors above).
 * chain     the additional headers with their end: HUB_NO_ENTRIES, HUB_NO_ENTRIES_N where there are none. Bytes after the end are 8.
 * payload   the payload. A Session message's is any 0 to 16,384 bytes; the others' have the shapes of document 01, which the calls below write.
 * keys      the 64 key bytes; a plain message does not look at them.
 * out       at least as long as the message: 42 + entries of the chain + payload where it is plain, else 74 + entries +
 *           (payload + 4 rounded up to a multiple of 16). It may overlap no other buffer.
 * length    HUB_LENGTH_WORDS.
 *
 * Returns   HUB_DONE, HUB_WRONG_BUFFER (fields or length; a word of fields too wide), then 5, 6, 7, 8, 10 (sealed messages), 14, 20, 22 in this
 *           order.
 * On done   the first length[0] bytes of out are the message; the rest of out is unchanged.
 * On refusal length is 0, and out is as it was.
 * Proved    WriterExact; ReadsBack: hub_read gives the same fields and payload back. SameBytes: the same fields, chain, payload and keys make the
 *           same bytes.
 */
HUB_ANSWER_MATTERS
uint32_t hub_write(const uint64_t *fields, size_t fields_n, const uint8_t *chain, size_t chain_n, const uint8_t *payload, size_t payload_n,
                   const uint8_t *keys, size_t keys_n, uint8_t *out, size_t out_n, uint64_t *length, size_t length_n);

/*
 * The payloads of Discovery and Connect: seven writers, a reader of Connect payloads and a reader of Discovery payloads. A writer puts its payload at
 * the start of out, for hub_write.
 *
 * mode      ConnectionMode, 0 to 2: see hub_mode.
 * nonce     HUB_NONCE_BYTES, random and new for each request and each response; one that is sent again has the same.
 * x, y      HUB_COORDINATE_BYTES each: the public key of the sender's half of the key agreement.
 * out       at least as long as the payload: HUB_MOST_PAYLOAD bytes are enough for all. It may overlap no other buffer.
 * length    HUB_LENGTH_WORDS.
 *
 * Returns   HUB_DONE, HUB_WRONG_BUFFER (length; nonce, x, y, salt or hash; a word too wide for its field: a mode or a device over 65,535, another
 *           over 255), then 14 where a value is not as document 01 says, then 22 where out is too short.
 * On done   the first length[0] bytes of out are the payload; the rest of out is unchanged.
 * On refusal length is 0, and out is as it was.
 * Proved    FieldsBack: 14 refuses nothing that was written, and what was written reads back. ConnectBack: by hub_read_connect. PresenceBack: by
 *           hub_read_discovery.
 */

/* The payload of a Presence Request, which is plain: one byte. */
HUB_ANSWER_MATTERS
uint32_t hub_write_presence_request(uint8_t *out, size_t out_n, uint64_t *length, size_t length_n);

/*
 * The payload of a Presence Response, which is plain: 15 bytes more than the name has.
 *
 * device    DeviceType, 0 to 65,535: see hub_device.
 * name      at most HUB_MOST_NAME bytes, or none. It may be any bytes: they are carried as they stand, and no zero byte is added.
 * salt      HUB_SALT_BYTES, random.
 * hash      HUB_HASH_BYTES, which the device makes: see Presence above. Any bytes are carried as they stand.
 *
 * Proved    PresenceWritten: where nothing is HUB_WRONG_BUFFER it gives 14 exactly where mode is over 2 or the name has over HUB_MOST_NAME bytes,
 *           then 22 exactly where out has no room. CanBeCarried: a message can carry what it writes.
 */
HUB_ANSWER_MATTERS
uint32_t hub_write_presence_response(uint64_t mode, uint64_t device, const uint8_t *name, size_t name_n, const uint8_t *salt, size_t salt_n,
                                     const uint8_t *hash, size_t hash_n, uint8_t *out, size_t out_n, uint64_t *length, size_t length_n);

/* The payload of a Connection Request, which is plain: 86 bytes. */
HUB_ANSWER_MATTERS
uint32_t hub_write_connection_request(uint64_t mode, const uint8_t *nonce, size_t nonce_n, const uint8_t *x, size_t x_n, const uint8_t *y, size_t y_n,
                                      uint8_t *out, size_t out_n, uint64_t *length, size_t length_n);

/*
 * The payload of a Connection Response, which is plain. The result is a hub_code, 0 to 3. One that is HUB_PENDING carries nonce, X and Y and has 86
 * bytes; any other has 4, and does not look at nonce, x and y, which may then have any size.
 */
HUB_ANSWER_MATTERS
uint32_t hub_write_connection_response(uint64_t mode, uint64_t result, const uint8_t *nonce, size_t nonce_n, const uint8_t *x, size_t x_n,
                                       const uint8_t *y, size_t y_n, uint8_t *out, size_t out_n, uint64_t *length, size_t length_n);

/*
 * The payload of a Device Authentication Request or Response, which is sealed, by its type: HUB_AUTHENTICATION_REQUEST or
 * HUB_AUTHENTICATION_RESPONSE. The certificate has 1 to HUB_MOST_CERTIFICATE bytes, the thumbprint at most HUB_MOST_THUMBPRINT; the payload has 7
 * more.
 */
HUB_ANSWER_MATTERS
uint32_t hub_write_device_authentication(uint64_t type, uint64_t mode, const uint8_t *certificate, size_t certificate_n, const uint8_t *thumbprint,
                                         size_t thumbprint_n, uint8_t *out, size_t out_n, uint64_t *length, size_t length_n);

/* The payload of an Authentication Done Request, which is sealed: 3 bytes. */
HUB_ANSWER_MATTERS
uint32_t hub_write_done_request(uint64_t mode, uint8_t *out, size_t out_n, uint64_t *length, size_t length_n);

/*
 * The payload of an Authentication Done Response, which is sealed: 4 bytes. The status is a hub_code, 0 to 4; a hub replies with
 * HUB_ANSWER_STATUS.
 */
HUB_ANSWER_MATTERS
uint32_t hub_write_done_response(uint64_t mode, uint64_t status, uint8_t *out, size_t out_n, uint64_t *length, size_t length_n);

/*
 * Reads a Connect payload: its type, and what stands in it.
 *
 * payload   the payload, as hub_payload says where it lies; any bytes. The payload alone does not tell a Connect message from a Session message: ask
 *           header[HUB_HEADER_TYPE] first.
 * connect   HUB_CONNECT_WORDS.
 *
 * Returns   HUB_DONE, HUB_WRONG_BUFFER (connect), then 14 where the payload is none of the six of document 01, plain or sealed.
 * On done   connect holds the words of hub_connect_word. Each part that it names lies in the payload; those that this type has not are 0, 0. (A
 *           thumbprint that is there and empty has its place after the certificate, and no bytes.)
 * On refusal connect is all zero: every part is empty.
 * Proved    ConnectBack: of a payload that the calls above wrote, the words are what was given, and the bytes at the places. ConnectLies: the parts
 *           lie in the payload, on every payload.
 */
HUB_ANSWER_MATTERS
uint32_t hub_read_connect(const uint8_t *payload, size_t payload_n, uint64_t *connect, size_t connect_n);

/*
 * Reads a Discovery payload: its type, and what stands in it.
 *
 * payload   the payload, as hub_payload says where it lies; any bytes. The payload alone does not tell a Discovery message from a Session message:
 *           ask header[HUB_HEADER_TYPE] first.
 * discovery HUB_DISCOVERY_WORDS.
 *
 * Returns   HUB_DONE, HUB_WRONG_BUFFER (discovery), then 14 where the payload is neither of the two of document 01, a Presence Request and a Presence
 *           Response.
 * On done   discovery holds the words of hub_discovery_word: of a Presence Request all are 0, the type HUB_PRESENCE_REQUEST too. Each part of a
 *           Presence Response that they name lies in the payload. (A name that is empty has its place, after its length, and no bytes.)
 * On refusal discovery is all zero, as of a Presence Request: what this returns tells the two apart.
 * Proved    PresenceBack: of a Presence Response that was written, the words are what was given, and the bytes at the places. DiscoveryLies: the
 *           parts lie in the payload, on every payload. AdmitsPresence: 14 is given to all but the two.
 */
HUB_ANSWER_MATTERS
uint32_t hub_read_discovery(const uint8_t *payload, size_t payload_n, uint64_t *discovery, size_t discovery_n);

/*
 * Opens a connection: state 0, expecting the report of SequenceNumber 0.
 *
 * fragment_size   F, 1 to 16,384: the bytes of each piece but the last.
 * state           HUB_STATE_BYTES.
 *
 * Returns   HUB_DONE, HUB_WRONG_BUFFER (state), 24.
 * On done   state holds the connection.
 * On refusal 24 state is all zero, which hub_step refuses with 24.
 * Proved    OpenerExact, Opens.
 */
HUB_ANSWER_MATTERS
uint32_t hub_open(uint64_t fragment_size, uint8_t *state, size_t state_n);

/*
 * Takes one message that has come in.
 *
 * state     HUB_STATE_BYTES: the connection.
 * message   the message, as it came.
 * keys      the 64 key bytes of this gateway. Until they are agreed on give none (a null pointer, 0): a plain message does not look at
 *           them, and a sealed one is refused with 10.
 * working   at least as long as the message's sealed part.
 * report    the report buffer of this connection: the same at each step (see Reports above). Until a report's first piece has come any will do, none
 *           too (a null pointer, 0). Once the piece with the last index has come the report's length is known, and from then on, until it is
 *           complete, a shorter buffer is HUB_WRONG_BUFFER, whatever the message. (Of a connection that is made up this is said where F is 1 to
 *           16,384, the count 1 to 64 and the last index heard.)
 * verdict   1 if the certificate that this message may show is accepted, else 0. Only a Device Authentication Request in state
 *           HUB_WAITING_FOR_AUTHENTICATION looks at it (see Verdicts above). Every other number is refused with 25.
 * answer    HUB_ANSWER_WORDS.
 *
 * Returns   HUB_DONE, HUB_WRONG_BUFFER (state, answer, or a report that is too short), then the first that applies of 25; 24; 1 to 9; 10 to 13
 *           (sealed messages); 14; 16; 15; 19, 17, 18, 21, 20, 22, 23. A Discovery message skips 16: where 14 and what is before it do not
 *           refuse it, it is 15, in every state (see Presence above).
 * On done   answer holds what to do (see hub_kind; words that a kind does not use are 0), state the next connection. HUB_KIND_TAKEN,
 *           HUB_KIND_REPEAT and HUB_KIND_COMPLETE tell how many of the indexes below the message's FragmentCount are heard, its own with them.
 *           HUB_KIND_TAKEN and HUB_KIND_COMPLETE: the piece is in report from F times its index on, no other byte of it changed. HUB_KIND_COMPLETE:
 *           the report has answer[HUB_ANSWER_LENGTH] bytes, never more than report_n; its SequenceNumber was the expected one before this step; and
 *           where the connection came from hub_open and hub_step alone, and the report buffer was the same and left alone since the report's first
 *           piece, it is the first bytes of report. The other kinds leave report unchanged; HUB_KIND_AGAIN and HUB_KIND_REPEAT state too. The first
 *           bytes of working hold the opened sealed part of a sealed message.
 * On refusal answer is 0, 0, 0 (HUB_KIND_REFUSED); state and report are as they were. So is working for 1 to 13, 24 and 25; for the others its first
 *           bytes hold the opened sealed part of a sealed message.
 * Proved    StepExact, LeavesAlone, WorkingBuffer, ByHostStates, StepsByState, RepeatedStep, RepeatedBytes, OnlyByZero, HeardCount, DemandThree,
 *           WithinReport, NeverShort, DiscoveryAnswered.
 */
HUB_ANSWER_MATTERS
uint32_t hub_step(uint8_t *state, size_t state_n, const uint8_t *message, size_t message_n, const uint8_t *keys, size_t keys_n, uint8_t *working,
                  size_t working_n, uint8_t *report, size_t report_n, uint64_t verdict, uint64_t *answer, size_t answer_n);

/*
 * Opens a gateway's connection: state 0, waiting for the Connection Response. The Connection Request is due.
 *
 * fragment_size   F, 1 to 16,384: the bytes of each piece but the last. It is kept for the caller, who gives it to hub_cut.
 * session         the SessionID that the gateway's requests carry: any. Draw it at random, a new one for each enrolment.
 * gateway         HUB_GATEWAY_BYTES.
 *
 * Returns   HUB_DONE, HUB_WRONG_BUFFER (gateway), 24.
 * On done   gateway holds the gateway's connection.
 * On refusal 24 gateway is all zero, the SessionID too, which hub_gateway_step refuses with 24.
 * Proved    GatewayOpens.
 */
HUB_ANSWER_MATTERS
uint32_t hub_gateway_open(uint64_t fragment_size, uint64_t session, uint8_t *gateway, size_t gateway_n);

/*
 * Takes one message that has come to a gateway.
 *
 * gateway   HUB_GATEWAY_BYTES: the gateway's connection.
 * message   the message, as it came.
 * keys      the 64 key bytes of this enrolment. Until they are agreed on give none (a null pointer, 0): a plain message does not look at
 *           them, and a sealed one is refused with 10.
 * working   at least as long as the message's sealed part.
 * verdict   1 if the hub's certificate that this message may show is accepted, else 0. Every Device Authentication Response looks at it, in whichever
 *           state but HUB_GATEWAY_FAILED it comes, and no other message (see Turned away above). Every other number is refused with 25.
 * answer    HUB_ANSWER_WORDS.
 *
 * Returns   HUB_DONE, HUB_WRONG_BUFFER (gateway or answer), then the first that applies of 25; 24; 1 to 9; 10 to 13 (sealed messages); 14; 16; 15.
 *           16 is for another SessionID than the gateway's, in every state. 15 is for what the table below does not have: every message in state 4
 *           and above, a reply out of order, a request, a Session message. A Discovery message skips 16 and is 15.
 * On done   answer holds what to do, by the first row that applies, and its third word is 0; gateway is the next connection, which differs in its
 *           state alone.
 *
 *               In state   of type                                    the answer is                     and the next state
 *               0 to 3     1, of another Result than HUB_PENDING      HUB_KIND_FAILED                   4
 *               0 to 3     3, with verdict 0                          HUB_KIND_FAILED                   4
 *               0 to 3     7, of another Status than HUB_SUCCESS      HUB_KIND_FAILED                   4
 *               0          1                                          HUB_KIND_NEXT, type 2             1
 *               1          3                                          HUB_KIND_NEXT, type 6             2
 *               2          7                                          HUB_KIND_READY                    3
 *               1 to 3     1                                          HUB_KIND_AGAIN, type 2            as it was
 *               2 and 3    3                                          HUB_KIND_AGAIN, type 6            as it was
 *               3          7                                          HUB_KIND_AGAIN, HUB_NOTHING_DUE   as it was
 *
 *           The first bytes of working hold the opened sealed part of a sealed message.
 * On refusal answer is 0, 0, 0 (HUB_KIND_REFUSED); gateway is as it was. So is working for 1 to 13, 24 and 25; for the others its first bytes hold
 *           the opened sealed part of a sealed message.
 * Proved    GatewayExact, GatewayLeavesAlone, GatewayKeeps, WorkingBuffer, ByGatewayStates. OneSession: a gateway and a new hub that hear only
 *           what the other wrote of one enrolment (one nonce, X, Y and certificate of the gateway), lost and repeated at will, with the same keys,
 *           working buffers that are long enough and verdict 1 always, never differ in the SessionID of a request. NeverWedged: and whatever was
 *           lost, both can still become ready.
 */
HUB_ANSWER_MATTERS
uint32_t hub_gateway_step(uint8_t *gateway, size_t gateway_n, const uint8_t *message, size_t message_n, const uint8_t *keys, size_t keys_n,
                          uint8_t *working, size_t working_n, uint64_t verdict, uint64_t *answer, size_t answer_n);

/*
 * Names the request that is due: what a gateway sends now, and again, the same bytes, where no reply comes in its time.
 *
 * gateway   HUB_GATEWAY_BYTES: the gateway's connection; only its state is looked at.
 * due       HUB_DUE_WORDS.
 *
 * Returns   HUB_DONE, HUB_WRONG_BUFFER (gateway or due).
 * On done   due holds the type of the request: HUB_CONNECTION_REQUEST, which is 0, in state 0; HUB_AUTHENTICATION_REQUEST in state 1;
 *           HUB_DONE_REQUEST in state 2; HUB_NOTHING_DUE in every other.
 * Proved    DueNames.
 */
HUB_ANSWER_MATTERS
uint32_t hub_gateway_due(const uint8_t *gateway, size_t gateway_n, uint64_t *due, size_t due_n);

/*
 * Cuts a report: says where its piece lies.
 *
 * report          the report, 0 to 64 times F bytes.
 * fragment_size   F, 1 to 16,384.
 * index           which piece, from 0 on.
 * piece           HUB_PIECE_WORDS.
 *
 * Returns   HUB_DONE, HUB_WRONG_BUFFER (piece), 24, then 7 where the report is longer than 64 times F or has no such piece.
 * On done   piece holds the number of pieces, the piece's start in the report and its length.
 * On refusal piece is 0, 0, 0: no piece, and the empty part at the report's start.
 * Proved    CutterExact.
 */
HUB_ANSWER_MATTERS
uint32_t hub_cut(const uint8_t *report, size_t report_n, uint64_t fragment_size, uint64_t index, uint64_t *piece, size_t piece_n);

/*
 * Writes the line that the listing has for a message: type, sequence, index, count and length in decimal with single blanks between, or
 * `refused N`; then a newline. No zero byte is added.
 *
 * message   one whole message.
 * line      HUB_LINE_BYTES.
 * length    HUB_LENGTH_WORDS.
 *
 * Returns   HUB_DONE, HUB_WRONG_BUFFER (line or length), then 1 to 9 in this order.
 * On done   the first length[0] bytes of line are the line; the rest is unchanged.
 * On refusal 1 to 9 likewise, length too: the line is `refused N` and a newline.
 * Proved    the contract (`line_of` in crates/lines/specs/Listing.antt).
 */
HUB_ANSWER_MATTERS
uint32_t hub_list(const uint8_t *message, size_t message_n, uint8_t *line, size_t line_n, uint64_t *length, size_t length_n);

#ifdef __cplusplus
}
#endif

#endif
