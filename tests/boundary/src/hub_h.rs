// SPDX-License-Identifier: MPL-2.0
//! The calls of include/hub.h, on slices of any size. Each slice is lent as memory that ends at an
//! unreadable page and is copied back; those that a call only reads must be as they were.

#![allow(unsafe_code)]

use std::ffi::CStr;

use crate::guard::Room;
use crate::state::{STATE, decode};

mod through {
    use std::ffi::c_char;

    unsafe extern "C" {
        pub fn through_version() -> u32;
        pub fn through_text(n: u32) -> *const c_char;
        pub fn through_no_entries() -> *const u8;
        pub fn through_digest(b: *const u8, bn: usize, o: *mut u8, on: usize) -> u32;
        pub fn through_hmac(
            k: *const u8,
            kn: usize,
            m: *const u8,
            mn: usize,
            o: *mut u8,
            on: usize,
        ) -> u32;
        pub fn through_tags_differ(a: *const u8, an: usize, b: *const u8, bn: usize) -> u32;
        pub fn through_read_header(m: *const u8, mn: usize, h: *mut u64, hn: usize) -> u32;
        pub fn through_read(
            m: *const u8,
            mn: usize,
            k: *const u8,
            kn: usize,
            w: *mut u8,
            wn: usize,
            h: *mut u64,
            hn: usize,
        ) -> u32;
        pub fn through_payload(
            m: *const u8,
            mn: usize,
            w: *const u8,
            wn: usize,
            h: *const u64,
            hn: usize,
            p: *mut u64,
            pn: usize,
        ) -> u32;
        pub fn through_write(
            f: *const u64,
            fn_: usize,
            c: *const u8,
            cn: usize,
            p: *const u8,
            pn: usize,
            k: *const u8,
            kn: usize,
            o: *mut u8,
            on: usize,
            l: *mut u64,
            ln: usize,
        ) -> u32;
        pub fn through_write_presence_request(o: *mut u8, on: usize, l: *mut u64, ln: usize)
        -> u32;
        pub fn through_write_presence_response(
            m: u64,
            d: u64,
            n: *const u8,
            nn: usize,
            s: *const u8,
            sn: usize,
            h: *const u8,
            hn: usize,
            o: *mut u8,
            on: usize,
            l: *mut u64,
            ln: usize,
        ) -> u32;
        pub fn through_write_connection_request(
            m: u64,
            n: *const u8,
            nn: usize,
            x: *const u8,
            xn: usize,
            y: *const u8,
            yn: usize,
            o: *mut u8,
            on: usize,
            l: *mut u64,
            ln: usize,
        ) -> u32;
        pub fn through_write_connection_response(
            m: u64,
            r: u64,
            n: *const u8,
            nn: usize,
            x: *const u8,
            xn: usize,
            y: *const u8,
            yn: usize,
            o: *mut u8,
            on: usize,
            l: *mut u64,
            ln: usize,
        ) -> u32;
        pub fn through_write_device_authentication(
            k: u64,
            m: u64,
            c: *const u8,
            cn: usize,
            t: *const u8,
            tn: usize,
            o: *mut u8,
            on: usize,
            l: *mut u64,
            ln: usize,
        ) -> u32;
        pub fn through_write_done_request(
            m: u64,
            o: *mut u8,
            on: usize,
            l: *mut u64,
            ln: usize,
        ) -> u32;
        pub fn through_write_done_response(
            m: u64,
            s: u64,
            o: *mut u8,
            on: usize,
            l: *mut u64,
            ln: usize,
        ) -> u32;
        pub fn through_read_connect(p: *const u8, pn: usize, c: *mut u64, cn: usize) -> u32;
        pub fn through_read_discovery(p: *const u8, pn: usize, d: *mut u64, dn: usize) -> u32;
        pub fn through_wanted(b: *const u8, bn: usize) -> u32;
        pub fn through_open(f: u64, s: *mut u8, sn: usize) -> u32;
        pub fn through_step(
            s: *mut u8,
            sn: usize,
            m: *const u8,
            mn: usize,
            k: *const u8,
            kn: usize,
            w: *mut u8,
            wn: usize,
            r: *mut u8,
            rn: usize,
            v: u64,
            a: *mut u64,
            an: usize,
        ) -> u32;
        pub fn through_gateway_open(f: u64, s: u64, g: *mut u8, gn: usize) -> u32;
        pub fn through_gateway_step(
            g: *mut u8,
            gn: usize,
            m: *const u8,
            mn: usize,
            k: *const u8,
            kn: usize,
            w: *mut u8,
            wn: usize,
            v: u64,
            a: *mut u64,
            an: usize,
        ) -> u32;
        pub fn through_gateway_due(g: *const u8, gn: usize, d: *mut u64, dn: usize) -> u32;
        pub fn through_cut(r: *const u8, rn: usize, f: u64, i: u64, p: *mut u64, pn: usize) -> u32;
        pub fn through_list(
            m: *const u8,
            mn: usize,
            t: *mut u8,
            tn: usize,
            l: *mut u64,
            ln: usize,
        ) -> u32;
        pub static through_version_here: u32;
        pub static through_refusals: [u32; 27];
        pub static through_no_entries_n: usize;
        pub static through_sizes: [usize; 18];
        pub static through_bounds: [usize; 11];
        pub static through_header_words: [usize; 11];
        pub static through_place_words: [usize; 3];
        pub static through_answer_words: [usize; 4];
        pub static through_piece_words: [usize; 3];
        pub static through_connect_words: [usize; 13];
        pub static through_discovery_words: [usize; 9];
        pub static through_state_places: [usize; 13];
        pub static through_gateway_places: [usize; 4];
        pub static through_kinds: [u64; 10];
        pub static through_sealed: [u64; 3];
        pub static through_types: [u64; 3];
        pub static through_flags: [u64; 5];
        pub static through_connects: [u64; 7];
        pub static through_modes: [u64; 3];
        pub static through_codes: [u64; 5];
        pub static through_discoveries: [u64; 2];
        pub static through_devices: [u64; 11];
        pub static through_states: [u64; 5];
        pub static through_gateway_states: [u64; 5];
        pub static through_nothing_due: u64;
    }
}

macro_rules! constants {
    ($($name:ident: $type:ty = $from:ident, $what:literal;)*) => {
        $(#[doc = $what]
        pub fn $name() -> $type {
            // SAFETY: a constant.
            unsafe { through::$from }
        })*
    };
}

constants! {
    version_here: u32 = through_version_here, "The header's version.";
    refusals: [u32; 27] = through_refusals, "Done, the refusals in document 01's order, wrong buffer.";
    no_entries_n: usize = through_no_entries_n, "Bytes of the chain without entries.";
    sizes: [usize; 18] = through_sizes, "State, header, fields, place, answer, piece, length, digest, keys, line, connect, nonce, X and Y, discovery, salt, hash, gateway, due.";
    bounds: [usize; 11] = through_bounds, "Least and most message, most read, most sealed, pieces, F, certificate, thumbprint, payload, reply, name.";
    header_words: [usize; 11] = through_header_words, "Type to size.";
    place_words: [usize; 3] = through_place_words, "Buffer, from, size.";
    answer_words: [usize; 4] = through_answer_words, "Kind, value, length, Status.";
    piece_words: [usize; 3] = through_piece_words, "Count, from, size.";
    connect_words: [usize; 13] = through_connect_words, "Type, mode, code; nonce, X, Y, certificate and thumbprint, each from and size.";
    discovery_words: [usize; 9] = through_discovery_words, "Type, mode, device; name, salt and hash, each from and size.";
    state_places: [usize; 13] = through_state_places, "Fragment size to last length, and the end.";
    gateway_places: [usize; 4] = through_gateway_places, "Fragment size, state, SessionID, and the end.";
    kinds: [u64; 10] = through_kinds, "Refused, Reply, Again, Failure, Taken, Repeat, Complete; a gateway's Next, Ready, Failed.";
    sealed: [u64; 3] = through_sealed, "Plain, opened, still sealed.";
    types: [u64; 3] = through_types, "Discovery, Connect, Session.";
    flags: [u64; 5] = through_flags, "Acknowledge, HMAC, encrypted, both, wake.";
    connects: [u64; 7] = through_connects, "The Connect types, in order, and Failure.";
    modes: [u64; 3] = through_modes, "ConnectionMode: None, Proximal, Legacy.";
    codes: [u64; 5] = through_codes, "Success, Pending, Failure_Authentication, _NotAllowed, _Unknown.";
    discoveries: [u64; 2] = through_discoveries, "DiscoveryType: Presence Request, Presence Response.";
    devices: [u64; 11] = through_devices, "DeviceType, in the order of the documents' table.";
    states: [u64; 5] = through_states, "Waiting for a request, for authentication, Passed, Ready, Failed.";
    gateway_states: [u64; 5] = through_gateway_states, "A gateway's: waiting for type 1, for type 3, for type 7, Ready, Failed.";
    nothing_due: u64 = through_nothing_due, "The type of no request.";
}

/// `hub_text`.
pub fn text(number: u32) -> String {
    // SAFETY: a string of C, which nobody changes.
    let text = unsafe { CStr::from_ptr(through::through_text(number)) };
    text.to_str().expect("ASCII").to_owned()
}

/// `HUB_NO_ENTRIES`.
pub fn no_entries() -> Vec<u8> {
    // SAFETY: so many bytes are there.
    unsafe { std::slice::from_raw_parts(through::through_no_entries(), no_entries_n()).to_vec() }
}

/// What a call returns where a buffer of fixed size or a word is of another size, or a report buffer
/// is short.
pub const WRONG_BUFFER: u32 = 255;

/// Whether a step is lent a report buffer that is shorter than a report whose length is known.
pub fn is_short(state: &[u8; STATE], report: usize) -> bool {
    decode(state).known_length().is_some_and(|length| report < length)
}

/// The longest buffer that is lent: a report of 64 × 16,384 bytes and some.
const LONGEST: usize = (1 << 20) + (1 << 17);
/// The longest buffer of the others.
const LONG: usize = 1 << 17;

/// The library, with a room for each buffer of a call.
pub struct Hub {
    message: Room,
    keys: Room,
    working: Room,
    report: Room,
    state: Room,
    chain: Room,
    payload: Room,
    out: Room,
    words: Room,
    more_words: Room,
    /// How often a step answered each number.
    pub numbers: [u64; 256],
    /// How often a step that was done answered each word of `HUB_ANSWER_KIND`.
    pub kinds: [u64; 7],
    /// How often a gateway's step answered each number.
    pub gateway_numbers: [u64; 256],
    /// How often a gateway's step that was done answered each word of `HUB_ANSWER_KIND`.
    pub gateway_kinds: [u64; 10],
}

impl Default for Hub {
    fn default() -> Hub {
        Hub {
            message: Room::new(LONG),
            keys: Room::new(LONG),
            working: Room::new(LONG),
            report: Room::new(LONGEST),
            state: Room::new(LONG),
            chain: Room::new(LONG),
            payload: Room::new(LONG),
            out: Room::new(LONG),
            words: Room::new(LONG),
            more_words: Room::new(LONG),
            numbers: [0; 256],
            kinds: [0; 7],
            gateway_numbers: [0; 256],
            gateway_kinds: [0; 10],
        }
    }
}

// SAFETY of all calls below: pointer and length name a room's bytes, and rooms do not overlap.
impl Hub {
    /// `hub_version`.
    pub fn version(&self) -> u32 {
        unsafe { through::through_version() }
    }

    /// `hub_digest`.
    pub fn digest(&mut self, bytes: &[u8], out: &mut [u8]) -> u32 {
        let (b, o) = (self.message.lend(bytes), self.out.lend(out));
        let number = unsafe { through::through_digest(b, bytes.len(), o, out.len()) };
        self.message.unchanged(bytes);
        self.out.give_back(out);
        number
    }

    /// `hub_hmac`.
    pub fn hmac(&mut self, key: &[u8], message: &[u8], out: &mut [u8]) -> u32 {
        let (k, m) = (self.keys.lend(key), self.message.lend(message));
        let o = self.out.lend(out);
        let number = unsafe { through::through_hmac(k, key.len(), m, message.len(), o, out.len()) };
        self.keys.unchanged(key);
        self.message.unchanged(message);
        self.out.give_back(out);
        number
    }

    /// `hub_tags_differ`.
    pub fn same_tag(&mut self, a: &[u8], b: &[u8]) -> u32 {
        let (x, y) = (self.message.lend(a), self.out.lend(b));
        let number = unsafe { through::through_tags_differ(x, a.len(), y, b.len()) };
        self.message.unchanged(a);
        self.out.unchanged(b);
        number
    }

    /// `hub_read_header`.
    pub fn read_header(&mut self, message: &[u8], header: &mut [u64]) -> u32 {
        let (m, h) = (self.message.lend(message), self.words.lend_words(header));
        let number = unsafe { through::through_read_header(m, message.len(), h, header.len()) };
        self.message.unchanged(message);
        self.words.give_back_words(header);
        number
    }

    /// `hub_read`.
    pub fn read(
        &mut self,
        message: &[u8],
        keys: &[u8],
        working: &mut [u8],
        header: &mut [u64],
    ) -> u32 {
        let (m, k) = (self.message.lend(message), self.keys.lend(keys));
        let (w, h) = (self.working.lend(working), self.words.lend_words(header));
        let (mn, kn, wn, hn) = (message.len(), keys.len(), working.len(), header.len());
        let number = unsafe { through::through_read(m, mn, k, kn, w, wn, h, hn) };
        self.message.unchanged(message);
        self.keys.unchanged(keys);
        self.working.give_back(working);
        self.words.give_back_words(header);
        number
    }

    /// `hub_payload`.
    pub fn payload(
        &mut self,
        message: &[u8],
        working: &[u8],
        header: &[u64],
        place: &mut [u64],
    ) -> u32 {
        let (m, w) = (self.message.lend(message), self.working.lend(working));
        let (h, p) = (self.words.lend_words(header), self.more_words.lend_words(place));
        let (mn, wn, hn, pn) = (message.len(), working.len(), header.len(), place.len());
        let number = unsafe { through::through_payload(m, mn, w, wn, h, hn, p, pn) };
        self.message.unchanged(message);
        self.working.unchanged(working);
        self.words.unchanged_words(header);
        self.more_words.give_back_words(place);
        number
    }

    /// `hub_write`.
    pub fn write(
        &mut self,
        fields: &[u64],
        chain: &[u8],
        payload: &[u8],
        keys: &[u8],
        out: &mut [u8],
        length: &mut [u64],
    ) -> u32 {
        let (f, l) = (self.words.lend_words(fields), self.more_words.lend_words(length));
        let (c, p) = (self.chain.lend(chain), self.payload.lend(payload));
        let (k, o) = (self.keys.lend(keys), self.out.lend(out));
        let (cn, pn, kn, on) = (chain.len(), payload.len(), keys.len(), out.len());
        let number = unsafe {
            let (f_n, l_n) = (fields.len(), length.len());
            through::through_write(f, f_n, c, cn, p, pn, k, kn, o, on, l, l_n)
        };
        self.words.unchanged_words(fields);
        self.chain.unchanged(chain);
        self.payload.unchanged(payload);
        self.keys.unchanged(keys);
        self.out.give_back(out);
        self.more_words.give_back_words(length);
        number
    }

    /// `hub_write_presence_request`.
    pub fn write_presence_request(&mut self, out: &mut [u8], length: &mut [u64]) -> u32 {
        let (o, l) = (self.out.lend(out), self.words.lend_words(length));
        let (on, ln) = (out.len(), length.len());
        let number = unsafe { through::through_write_presence_request(o, on, l, ln) };
        self.out.give_back(out);
        self.words.give_back_words(length);
        number
    }

    /// `hub_write_presence_response`, with name, salt and hash.
    pub fn write_presence_response(
        &mut self,
        mode: u64,
        device: u64,
        [name, salt, hash]: [&[u8]; 3],
        out: &mut [u8],
        length: &mut [u64],
    ) -> u32 {
        let (n, s, h) = (self.chain.lend(name), self.keys.lend(salt), self.payload.lend(hash));
        let (o, l) = (self.out.lend(out), self.words.lend_words(length));
        let (nn, sn, hn, on, ln) = (name.len(), salt.len(), hash.len(), out.len(), length.len());
        let number = unsafe {
            through::through_write_presence_response(
                mode, device, n, nn, s, sn, h, hn, o, on, l, ln,
            )
        };
        self.chain.unchanged(name);
        self.keys.unchanged(salt);
        self.payload.unchanged(hash);
        self.out.give_back(out);
        self.words.give_back_words(length);
        number
    }

    /// `hub_write_connection_request`, with nonce, X and Y.
    pub fn write_connection_request(
        &mut self,
        mode: u64,
        [nonce, x, y]: [&[u8]; 3],
        out: &mut [u8],
        length: &mut [u64],
    ) -> u32 {
        let (n, a, b) = (self.keys.lend(nonce), self.chain.lend(x), self.payload.lend(y));
        let (o, l) = (self.out.lend(out), self.words.lend_words(length));
        let (nn, an, bn, on, ln) = (nonce.len(), x.len(), y.len(), out.len(), length.len());
        let number = unsafe {
            through::through_write_connection_request(mode, n, nn, a, an, b, bn, o, on, l, ln)
        };
        self.keys.unchanged(nonce);
        self.chain.unchanged(x);
        self.payload.unchanged(y);
        self.out.give_back(out);
        self.words.give_back_words(length);
        number
    }

    /// `hub_write_connection_response`, with nonce, X and Y.
    pub fn write_connection_response(
        &mut self,
        mode: u64,
        result: u64,
        [nonce, x, y]: [&[u8]; 3],
        out: &mut [u8],
        length: &mut [u64],
    ) -> u32 {
        let (n, a, b) = (self.keys.lend(nonce), self.chain.lend(x), self.payload.lend(y));
        let (o, l) = (self.out.lend(out), self.words.lend_words(length));
        let (nn, an, bn, on, ln) = (nonce.len(), x.len(), y.len(), out.len(), length.len());
        let number = unsafe {
            through::through_write_connection_response(
                mode, result, n, nn, a, an, b, bn, o, on, l, ln,
            )
        };
        self.keys.unchanged(nonce);
        self.chain.unchanged(x);
        self.payload.unchanged(y);
        self.out.give_back(out);
        self.words.give_back_words(length);
        number
    }

    /// `hub_write_device_authentication`.
    pub fn write_device_authentication(
        &mut self,
        kind: u64,
        mode: u64,
        certificate: &[u8],
        thumbprint: &[u8],
        out: &mut [u8],
        length: &mut [u64],
    ) -> u32 {
        let (c, t) = (self.chain.lend(certificate), self.payload.lend(thumbprint));
        let (o, l) = (self.out.lend(out), self.words.lend_words(length));
        let (cn, tn, on, ln) = (certificate.len(), thumbprint.len(), out.len(), length.len());
        let number = unsafe {
            through::through_write_device_authentication(kind, mode, c, cn, t, tn, o, on, l, ln)
        };
        self.chain.unchanged(certificate);
        self.payload.unchanged(thumbprint);
        self.out.give_back(out);
        self.words.give_back_words(length);
        number
    }

    /// `hub_write_done_request`.
    pub fn write_done_request(&mut self, mode: u64, out: &mut [u8], length: &mut [u64]) -> u32 {
        let (o, l) = (self.out.lend(out), self.words.lend_words(length));
        let (on, ln) = (out.len(), length.len());
        let number = unsafe { through::through_write_done_request(mode, o, on, l, ln) };
        self.out.give_back(out);
        self.words.give_back_words(length);
        number
    }

    /// `hub_write_done_response`.
    pub fn write_done_response(
        &mut self,
        mode: u64,
        status: u64,
        out: &mut [u8],
        length: &mut [u64],
    ) -> u32 {
        let (o, l) = (self.out.lend(out), self.words.lend_words(length));
        let (on, ln) = (out.len(), length.len());
        let number = unsafe { through::through_write_done_response(mode, status, o, on, l, ln) };
        self.out.give_back(out);
        self.words.give_back_words(length);
        number
    }

    /// `hub_read_connect`.
    pub fn read_connect(&mut self, payload: &[u8], connect: &mut [u64]) -> u32 {
        let (p, c) = (self.payload.lend(payload), self.words.lend_words(connect));
        let number = unsafe { through::through_read_connect(p, payload.len(), c, connect.len()) };
        self.payload.unchanged(payload);
        self.words.give_back_words(connect);
        number
    }

    /// `hub_read_discovery`.
    pub fn read_discovery(&mut self, payload: &[u8], discovery: &mut [u64]) -> u32 {
        let (p, d) = (self.payload.lend(payload), self.words.lend_words(discovery));
        let (pn, dn) = (payload.len(), discovery.len());
        let number = unsafe { through::through_read_discovery(p, pn, d, dn) };
        self.payload.unchanged(payload);
        self.words.give_back_words(discovery);
        number
    }

    /// `hub_wanted`.
    pub fn wanted(&mut self, bytes: &[u8]) -> u32 {
        let b = self.message.lend(bytes);
        let number = unsafe { through::through_wanted(b, bytes.len()) };
        self.message.unchanged(bytes);
        number
    }

    /// `hub_open`.
    pub fn open(&mut self, fragment_size: u64, state: &mut [u8]) -> u32 {
        let s = self.state.lend(state);
        let number = unsafe { through::through_open(fragment_size, s, state.len()) };
        self.state.give_back(state);
        number
    }

    /// `hub_step`. A wrong buffer is answered exactly where the state or the answer has another size
    /// or the report buffer is short, and then all is as it was. A report that is complete lies in its
    /// buffer.
    pub fn step(
        &mut self,
        state: &mut [u8],
        message: &[u8],
        keys: &[u8],
        working: &mut [u8],
        report: &mut [u8],
        verdict: u64,
        answer: &mut [u64],
    ) -> u32 {
        let (s, a) = (self.state.lend(state), self.words.lend_words(answer));
        let (m, k) = (self.message.lend(message), self.keys.lend(keys));
        let (w, r) = (self.working.lend(working), self.report.lend(report));
        let (sn, mn, kn, an) = (state.len(), message.len(), keys.len(), answer.len());
        let (wn, rn) = (working.len(), report.len());
        let sized: Result<&[u8; STATE], _> = (&*state).try_into();
        let right = an == sizes()[4] && sized.is_ok_and(|state| !is_short(state, rn));
        let whole = |state: &[u8], working: &[u8], report: &[u8], answer: &[u64]| {
            (state.to_vec(), working.to_vec(), report.to_vec(), answer.to_vec())
        };
        let before = (!right).then(|| whole(state, working, report, answer));
        let number =
            unsafe { through::through_step(s, sn, m, mn, k, kn, w, wn, r, rn, verdict, a, an) };
        self.state.give_back(state);
        self.message.unchanged(message);
        self.keys.unchanged(keys);
        self.working.give_back(working);
        self.report.give_back(report);
        self.words.give_back_words(answer);
        self.numbers[number as usize] += 1;
        assert_eq!(number == WRONG_BUFFER, !right, "{number} was returned");
        if let Some(before) = before {
            assert!(
                before == whole(state, working, report, answer),
                "a wrong buffer, and a change"
            );
        }
        if number == 0 {
            let [kind, _, length, _] = answer_words().map(|name| answer[name]);
            *self.kinds.get_mut(kind as usize).expect("a kind of hub.h") += 1;
            assert!(
                kind != kinds()[6] || length <= rn as u64,
                "{length} bytes of {rn} are complete"
            );
        }
        number
    }

    /// `hub_gateway_open`.
    pub fn gateway_open(&mut self, fragment_size: u64, session: u64, gateway: &mut [u8]) -> u32 {
        let g = self.state.lend(gateway);
        let gn = gateway.len();
        let number = unsafe { through::through_gateway_open(fragment_size, session, g, gn) };
        self.state.give_back(gateway);
        number
    }

    /// `hub_gateway_step`. A wrong buffer is answered exactly where the gateway or the answer has
    /// another size, and then all is as it was.
    pub fn gateway_step(
        &mut self,
        gateway: &mut [u8],
        message: &[u8],
        keys: &[u8],
        working: &mut [u8],
        verdict: u64,
        answer: &mut [u64],
    ) -> u32 {
        let (g, a) = (self.state.lend(gateway), self.words.lend_words(answer));
        let (m, k) = (self.message.lend(message), self.keys.lend(keys));
        let w = self.working.lend(working);
        let (gn, mn, kn, wn) = (gateway.len(), message.len(), keys.len(), working.len());
        let an = answer.len();
        let right = gn == sizes()[16] && an == sizes()[4];
        let whole = |gateway: &[u8], working: &[u8], answer: &[u64]| {
            (gateway.to_vec(), working.to_vec(), answer.to_vec())
        };
        let before = (!right).then(|| whole(gateway, working, answer));
        let number =
            unsafe { through::through_gateway_step(g, gn, m, mn, k, kn, w, wn, verdict, a, an) };
        self.state.give_back(gateway);
        self.message.unchanged(message);
        self.keys.unchanged(keys);
        self.working.give_back(working);
        self.words.give_back_words(answer);
        self.gateway_numbers[number as usize] += 1;
        assert_eq!(number == WRONG_BUFFER, !right, "{number} was returned");
        if let Some(before) = before {
            assert!(before == whole(gateway, working, answer), "a wrong buffer, and a change");
        }
        if number == 0 {
            let kind = answer[answer_words()[0]];
            *self.gateway_kinds.get_mut(kind as usize).expect("a kind of hub.h") += 1;
        }
        number
    }

    /// `hub_gateway_due`.
    pub fn gateway_due(&mut self, gateway: &[u8], due: &mut [u64]) -> u32 {
        let (g, d) = (self.state.lend(gateway), self.words.lend_words(due));
        let (gn, dn) = (gateway.len(), due.len());
        let number = unsafe { through::through_gateway_due(g, gn, d, dn) };
        self.state.unchanged(gateway);
        self.words.give_back_words(due);
        number
    }

    /// `hub_cut`.
    pub fn cut(&mut self, report: &[u8], size: u64, index: u64, piece: &mut [u64]) -> u32 {
        let (r, p) = (self.report.lend(report), self.words.lend_words(piece));
        let number = unsafe { through::through_cut(r, report.len(), size, index, p, piece.len()) };
        self.report.unchanged(report);
        self.words.give_back_words(piece);
        number
    }

    /// `hub_list`.
    pub fn list(&mut self, message: &[u8], line: &mut [u8], length: &mut [u64]) -> u32 {
        let (m, t) = (self.message.lend(message), self.out.lend(line));
        let l = self.words.lend_words(length);
        let (mn, tn, ln) = (message.len(), line.len(), length.len());
        let number = unsafe { through::through_list(m, mn, t, tn, l, ln) };
        self.message.unchanged(message);
        self.out.give_back(line);
        self.words.give_back_words(length);
        number
    }
}
