// SPDX-License-Identifier: MPL-2.0
//! Payloads, written and read as types.

use hlidunsk::payload::{Connect, ConnectionResult, DeviceType, Discovery, Exchange, Mode};
use hlidunsk::payload::{Presence, PresenceRequest, Status};
use hlidunsk::payload::{MOST_CERTIFICATE, MOST_NAME, MOST_PAYLOAD, MOST_THUMBPRINT};
use hlidunsk::{cut, read, write, Header, Keys, Message, Refusal};
use hlidunsk::{MOST_REPLY, MOST_SEALED, NO_ENTRIES};

mod drawn;
use drawn::Drawn;

const KEYS: Keys = [9; 64];
const MODES: [Mode; 3] = [Mode::None, Mode::Proximal, Mode::Legacy];

fn exchange() -> Exchange {
    let x = core::array::from_fn(|i| 0x40 + i as u8);
    let y = core::array::from_fn(|i| 0x80 + i as u8);
    Exchange { nonce: *b"a nonce.", x, y }
}

/// One of each Connect payload, each Result and each Status in it, with every length at its edges.
fn each(mode: Mode, look: &mut impl FnMut(&Connect<'_>)) {
    look(&Connect::ConnectionRequest { mode, exchange: exchange() });
    for result in [
        ConnectionResult::Success,
        ConnectionResult::Pending(exchange()),
        ConnectionResult::FailureAuthentication,
        ConnectionResult::FailureNotAllowed,
    ] {
        look(&Connect::ConnectionResponse { mode, result });
    }
    let (shown, print) = (vec![0xC0; MOST_CERTIFICATE], vec![0xF0; MOST_THUMBPRINT]);
    for (certificate_n, thumbprint_n) in [(1, 0), (1, 512), (255, 1), (256, 256), (2_048, 512)] {
        let (certificate, thumbprint) = (&shown[..certificate_n], &print[..thumbprint_n]);
        look(&Connect::DeviceAuthenticationRequest { mode, certificate, thumbprint });
        look(&Connect::DeviceAuthenticationResponse { mode, certificate, thumbprint });
    }
    look(&Connect::DoneRequest { mode });
    for status in (0..=4).filter_map(Status::from_number) {
        look(&Connect::DoneResponse { mode, status });
    }
}

#[test]
fn what_is_written_is_read_back() {
    let (mut out, mut message) = ([0; MOST_PAYLOAD], [0; MOST_REPLY]);
    let mut working = vec![0; MOST_SEALED];
    let mut count = 0;
    for mode in MODES {
        each(mode, &mut |connect| {
            out.fill(0xEE);
            let length = connect.write(&mut out).unwrap();
            assert!(out[length..].iter().all(|byte| *byte == 0xEE));
            assert_eq!(Connect::read(&out[..length]), Ok(*connect));
            assert_eq!(connect.mode(), mode);
            // Of less room, or of another number of bytes, it is none.
            let mut short = vec![0xEE; length - 1];
            assert_eq!(connect.write(&mut short), Err(Refusal::NoRoom));
            assert!(short.iter().all(|byte| *byte == 0xEE));
            assert_eq!(Connect::read(&out[..length - 1]), Err(Refusal::WrongPayload));
            let longer = [&out[..length], &[0]].concat();
            assert_eq!(Connect::read(&longer), Err(Refusal::WrongPayload));
            // Its message is sealed or plain, as it says, and not the other way.
            let header = connect.header(42, 7);
            assert_eq!(header.is_sealed(), connect.is_sealed());
            let payload = &out[..length];
            let length = write(&header, NO_ENTRIES, payload, Some(&KEYS), &mut message).unwrap();
            let came = read(&message[..length], Some(&KEYS), &mut working).unwrap();
            assert_eq!((came.header, Connect::read(came.payload)), (header, Ok(*connect)));
            assert_eq!(came.connect(), Some(*connect));
            let other = Header { flags: header.flags ^ Header::SEALED, ..header };
            let written = write(&other, NO_ENTRIES, payload, Some(&KEYS), &mut message);
            assert_eq!(written, Err(Refusal::WrongPayload));
            count += 1;
        });
    }
    assert_eq!(count, 3 * 21);
}

/// One of each Discovery payload, with every number and every length at its edges.
fn each_discovery(look: &mut impl FnMut(&Discovery<'_>)) {
    look(&Discovery::PresenceRequest);
    let names: [&[u8]; 5] =
        [b"", b"\0", b"no \xFF text\0", &[b'a'; MOST_NAME - 1], &[b'b'; MOST_NAME]];
    for mode in MODES {
        for device in [0, 1, 12, 255, 256, u16::MAX].map(DeviceType) {
            for name in names {
                let presence = Presence { mode, device, name, salt: *b"salt", hash: *b"hash" };
                look(&Discovery::PresenceResponse(presence));
            }
        }
    }
}

#[test]
fn what_is_written_of_a_presence_is_read_back() {
    let (mut out, mut message) = ([0; MOST_PAYLOAD], [0; MOST_REPLY]);
    let mut count = 0;
    each_discovery(&mut |discovery| {
        out.fill(0xEE);
        let length = discovery.write(&mut out).unwrap();
        assert!(out[length..].iter().all(|byte| *byte == 0xEE));
        let payload = &out[..length];
        assert_eq!(Discovery::read(payload), Ok(*discovery));
        // Of less room, or of another number of bytes, it is none; nor is it a Connect payload.
        let mut short = vec![0xEE; length - 1];
        assert_eq!(discovery.write(&mut short), Err(Refusal::NoRoom));
        assert!(short.iter().all(|byte| *byte == 0xEE));
        assert_eq!(Discovery::read(&payload[..length - 1]), Err(Refusal::WrongPayload));
        let longer = [payload, &[0]].concat();
        assert_eq!(Discovery::read(&longer), Err(Refusal::WrongPayload));
        assert_eq!(Connect::read(payload), Err(Refusal::WrongPayload));
        // Its message is plain, and needs neither keys nor room.
        let header = discovery.header(u64::MAX);
        let length = write(&header, NO_ENTRIES, payload, None, &mut message).unwrap();
        let came = read(&message[..length], None, &mut []).unwrap();
        assert_eq!((came.header, came.payload), (header, payload));
        assert_eq!((came.discovery(), came.connect()), (Some(*discovery), None));
        let sealed = Header { flags: Header::SEALED, ..header };
        let written = write(&sealed, NO_ENTRIES, payload, Some(&KEYS), &mut message);
        assert_eq!(written, Err(Refusal::WrongFlags));
        let written = write(&header, NO_ENTRIES, &longer, None, &mut message);
        assert_eq!(written, Err(Refusal::WrongPayload));
        count += 1;
    });
    assert_eq!(count, 1 + 3 * 6 * 5);
}

/// A message of another type says nothing of a presence, whatever its bytes.
#[test]
fn a_presence_is_in_a_discovery_message_alone() {
    let (mut payload, mut message) = ([0; 1], [0; MOST_REPLY]);
    Discovery::PresenceRequest.write(&mut payload).unwrap();
    let header = cut(&payload, 16, 0).unwrap().header(42, 0);
    let length = write(&header, NO_ENTRIES, &payload, Some(&KEYS), &mut message).unwrap();
    let mut working = [0; 16];
    let came = read(&message[..length], Some(&KEYS), &mut working).unwrap();
    assert_eq!((came.payload, came.discovery(), came.connect()), (&payload[..], None, None));
    let connect = Connect::DoneRequest { mode: Mode::None };
    let came = Message { header: connect.header(42, 0), payload: &payload };
    assert_eq!(came.discovery(), None);
}

/// 14 comes before 22, and nothing is written.
#[test]
fn names_that_are_refused() {
    let (mode, device, long) = (Mode::None, DeviceType::LINUX, vec![b'n'; 70_000]);
    for length in [MOST_NAME + 1, 255, 256, 65_535, 65_536, 65_537, 70_000] {
        let presence = Presence { mode, device, name: &long[..length], salt: [0; 4], hash: [0; 4] };
        let mut out = vec![0xEE; 70_100];
        let response = Discovery::PresenceResponse(presence);
        assert_eq!(response.write(&mut out), Err(Refusal::WrongPayload));
        assert!(out.iter().all(|byte| *byte == 0xEE));
        assert_eq!(response.write(&mut []), Err(Refusal::WrongPayload));
    }
}

/// What document 01 says of each payload, by hand.
#[test]
fn bytes_of_document_01() {
    let bytes = |connect: Connect<'_>| {
        let mut out = [0; MOST_PAYLOAD];
        let length = connect.write(&mut out).unwrap();
        out[..length].to_vec()
    };
    let (mode, Exchange { nonce, x, y }) = (Mode::Legacy, exchange());
    let fields = [&[0, 32], &nonce[..], &[0, 0, 0x40, 0, 0, 32], &x, &[0, 32], &y].concat();
    let request = Connect::ConnectionRequest { mode, exchange: exchange() };
    assert_eq!(bytes(request), [&[0, 2, 0, 0], &fields[..]].concat());
    let result = ConnectionResult::Pending(exchange());
    let pending = Connect::ConnectionResponse { mode, result };
    assert_eq!(bytes(pending), [&[0, 2, 1, 1], &fields[..]].concat());
    let result = ConnectionResult::FailureNotAllowed;
    assert_eq!(bytes(Connect::ConnectionResponse { mode, result }), [0, 2, 1, 3]);
    let (certificate, thumbprint) = (&b"seven b"[..], &b"four"[..]);
    let shown = Connect::DeviceAuthenticationRequest { mode, certificate, thumbprint };
    assert_eq!(bytes(shown), b"\0\x02\x02\0\x07seven b\0\x04four");
    let shown = Connect::DeviceAuthenticationResponse { mode, certificate, thumbprint: &[] };
    assert_eq!(bytes(shown), b"\0\x02\x03\0\x07seven b\0\0");
    assert_eq!(bytes(Connect::DoneRequest { mode }), [0, 2, 6]);
    let status = Status::FailureUnknown;
    assert_eq!(bytes(Connect::DoneResponse { mode, status }), [0, 2, 7, 4]);
    let mut out = [0xEE; 2];
    assert_eq!((PresenceRequest.write(&mut out), out), (Ok(1), [0, 0xEE]));
    assert_eq!(PresenceRequest.write(&mut []), Err(Refusal::NoRoom));
    let (device, name) = (DeviceType(0x0102), &b"hub 7"[..]);
    let presence = Presence { mode, device, name, salt: *b"salt", hash: *b"hash" };
    let mut out = [0xEE; 21];
    assert_eq!(Discovery::PresenceResponse(presence).write(&mut out), Ok(20));
    assert_eq!(&out, b"\x01\0\x02\x01\x02\0\x05hub 7salthash\xEE");
    // Another mode, another length of the name, another type.
    for (place, byte) in [(2, 3), (1, 1), (6, 4), (6, 6), (5, 1), (0, 2), (0, 0)] {
        let mut other = out;
        other[place] = byte;
        assert_eq!(Discovery::read(&other[..20]), Err(Refusal::WrongPayload));
    }
}

/// 14 comes before 22, and nothing is written.
#[test]
fn lengths_that_are_refused() {
    let (long, mode) = (vec![1; 70_000], Mode::None);
    for (certificate_n, thumbprint_n) in [(0, 0), (2_049, 0), (65_537, 0), (1, 513), (1, 65_536)] {
        let (certificate, thumbprint) = (&long[..certificate_n], &long[..thumbprint_n]);
        for connect in [
            Connect::DeviceAuthenticationRequest { mode, certificate, thumbprint },
            Connect::DeviceAuthenticationResponse { mode, certificate, thumbprint },
        ] {
            let mut out = vec![0xEE; 140_000];
            assert_eq!(connect.write(&mut out), Err(Refusal::WrongPayload));
            assert!(out.iter().all(|byte| *byte == 0xEE));
            assert_eq!(connect.write(&mut []), Err(Refusal::WrongPayload));
        }
    }
}

#[test]
fn numbers_on_the_wire() {
    for number in 0..=u16::MAX {
        let mode = Mode::from_number(number);
        assert_eq!(mode, MODES.get(usize::from(number)).copied());
        assert!(mode.is_none_or(|mode| mode.number() == number));
    }
    for number in 0..=u8::MAX {
        let status = Status::from_number(number);
        assert_eq!(status.is_some(), number <= 4);
        assert!(status.is_none_or(|status| status.number() == number));
    }
    assert_eq!(Mode::default(), Mode::None);
    // MS-CDP's table of device types.
    let devices = [
        (1, DeviceType::XBOX_ONE),
        (6, DeviceType::IPHONE),
        (7, DeviceType::IPAD),
        (8, DeviceType::ANDROID),
        (9, DeviceType::WINDOWS_DESKTOP),
        (11, DeviceType::WINDOWS_PHONE),
        (12, DeviceType::LINUX),
        (13, DeviceType::WINDOWS_IOT),
        (14, DeviceType::SURFACE_HUB),
        (15, DeviceType::WINDOWS_LAPTOP),
        (16, DeviceType::WINDOWS_TABLET),
    ];
    for (number, device) in devices {
        assert_eq!(device.0, number);
    }
}

/// Any bytes are read or refused with 14; what is read is written to the same bytes.
#[test]
fn any_bytes_are_a_payload_or_refused() {
    let (mut drawn, mut read, mut refused) = (Drawn::new(1), 0, 0);
    let mut out = [0; MOST_PAYLOAD];
    let mut judge = |payload: &[u8]| match Connect::read(payload) {
        Ok(connect) => {
            let length = connect.write(&mut out).unwrap();
            assert_eq!(&out[..length], payload);
            read += 1;
        }
        Err(refusal) => {
            assert_eq!(refusal, Refusal::WrongPayload);
            refused += 1;
        }
    };
    for _ in 0..20_000 {
        // Bytes from small numbers alone come near to payloads.
        let below = drawn.pick(&[3, 9, 256]);
        let length = drawn.pick(&[0, 3, 4, 8, 86, 90]);
        judge(&drawn.bytes(length, below));
    }
    for mode in MODES {
        each(mode, &mut |connect| {
            let mut payload = vec![0; MOST_PAYLOAD];
            let length = connect.write(&mut payload).unwrap();
            payload.truncate(length);
            for _ in 0..200 {
                let mut damaged = payload.clone();
                let place = drawn.below(length);
                damaged[place] = drawn.below(256) as u8;
                judge(&damaged);
            }
            for length in 0..length.min(100) {
                judge(&payload[..length]);
            }
        });
    }
    assert!(read > 1_000 && refused > 10_000, "{read} read, {refused} refused");
}

/// The same of Discovery payloads.
#[test]
fn any_bytes_are_a_presence_or_refused() {
    let (mut drawn, mut read, mut refused) = (Drawn::new(4), 0, 0);
    let mut out = [0; MOST_PAYLOAD];
    let mut judge = |payload: &[u8]| match Discovery::read(payload) {
        Ok(discovery) => {
            let length = discovery.write(&mut out).unwrap();
            assert_eq!(&out[..length], payload);
            read += 1;
        }
        Err(refusal) => {
            assert_eq!(refusal, Refusal::WrongPayload);
            refused += 1;
        }
    };
    for _ in 0..20_000 {
        let below = drawn.pick(&[2, 3, 256]);
        let length = drawn.pick(&[0, 1, 2, 14, 15, 16, 79, 80]);
        judge(&drawn.bytes(length, below));
    }
    each_discovery(&mut |discovery| {
        let mut payload = vec![0; MOST_PAYLOAD];
        let length = discovery.write(&mut payload).unwrap();
        payload.truncate(length);
        for _ in 0..200 {
            let mut damaged = payload.clone();
            let place = drawn.below(length);
            damaged[place] = drawn.below(256) as u8;
            judge(&damaged);
        }
        for length in 0..length {
            judge(&payload[..length]);
        }
    });
    assert!(read > 1_000 && refused > 10_000, "{read} read, {refused} refused");
}
