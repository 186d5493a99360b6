// SPDX-License-Identifier: MPL-2.0
//! The functions of include/hub.h, declared once more. A slice is a pointer and a number of
//! elements.

unsafe extern "C" {
    pub fn hub_version() -> u32;
    pub fn hub_digest(bytes: *const u8, bytes_n: usize, out: *mut u8, out_n: usize) -> u32;
    pub fn hub_hmac(
        key: *const u8,
        key_n: usize,
        message: *const u8,
        message_n: usize,
        out: *mut u8,
        out_n: usize,
    ) -> u32;
    pub fn hub_tags_differ(a: *const u8, a_n: usize, b: *const u8, b_n: usize) -> u32;
    pub fn hub_wanted(bytes: *const u8, bytes_n: usize) -> u32;
    pub fn hub_read_header(
        message: *const u8,
        message_n: usize,
        header: *mut u64,
        header_n: usize,
    ) -> u32;
    pub fn hub_read(
        message: *const u8,
        message_n: usize,
        keys: *const u8,
        keys_n: usize,
        working: *mut u8,
        working_n: usize,
        header: *mut u64,
        header_n: usize,
    ) -> u32;
    pub fn hub_payload(
        message: *const u8,
        message_n: usize,
        working: *const u8,
        working_n: usize,
        header: *const u64,
        header_n: usize,
        place: *mut u64,
        place_n: usize,
    ) -> u32;
    pub fn hub_write(
        fields: *const u64,
        fields_n: usize,
        chain: *const u8,
        chain_n: usize,
        payload: *const u8,
        payload_n: usize,
        keys: *const u8,
        keys_n: usize,
        out: *mut u8,
        out_n: usize,
        length: *mut u64,
        length_n: usize,
    ) -> u32;
    pub fn hub_write_presence_request(
        out: *mut u8,
        out_n: usize,
        length: *mut u64,
        length_n: usize,
    ) -> u32;
    pub fn hub_write_presence_response(
        mode: u64,
        device: u64,
        name: *const u8,
        name_n: usize,
        salt: *const u8,
        salt_n: usize,
        hash: *const u8,
        hash_n: usize,
        out: *mut u8,
        out_n: usize,
        length: *mut u64,
        length_n: usize,
    ) -> u32;
    pub fn hub_write_connection_request(
        mode: u64,
        nonce: *const u8,
        nonce_n: usize,
        x: *const u8,
        x_n: usize,
        y: *const u8,
        y_n: usize,
        out: *mut u8,
        out_n: usize,
        length: *mut u64,
        length_n: usize,
    ) -> u32;
    pub fn hub_write_connection_response(
        mode: u64,
        result: u64,
        nonce: *const u8,
        nonce_n: usize,
        x: *const u8,
        x_n: usize,
        y: *const u8,
        y_n: usize,
        out: *mut u8,
        out_n: usize,
        length: *mut u64,
        length_n: usize,
    ) -> u32;
    pub fn hub_write_device_authentication(
        connect: u64,
        mode: u64,
        certificate: *const u8,
        certificate_n: usize,
        thumbprint: *const u8,
        thumbprint_n: usize,
        out: *mut u8,
        out_n: usize,
        length: *mut u64,
        length_n: usize,
    ) -> u32;
    pub fn hub_write_done_request(
        mode: u64,
        out: *mut u8,
        out_n: usize,
        length: *mut u64,
        length_n: usize,
    ) -> u32;
    pub fn hub_write_done_response(
        mode: u64,
        status: u64,
        out: *mut u8,
        out_n: usize,
        length: *mut u64,
        length_n: usize,
    ) -> u32;
    pub fn hub_read_connect(
        payload: *const u8,
        payload_n: usize,
        connect: *mut u64,
        connect_n: usize,
    ) -> u32;
    pub fn hub_read_discovery(
        payload: *const u8,
        payload_n: usize,
        discovery: *mut u64,
        discovery_n: usize,
    ) -> u32;
    pub fn hub_open(fragment_size: u64, state: *mut u8, state_n: usize) -> u32;
    pub fn hub_step(
        state: *mut u8,
        state_n: usize,
        message: *const u8,
        message_n: usize,
        keys: *const u8,
        keys_n: usize,
        working: *mut u8,
        working_n: usize,
        report: *mut u8,
        report_n: usize,
        verdict: u64,
        answer: *mut u64,
        answer_n: usize,
    ) -> u32;
    pub fn hub_gateway_open(
        fragment_size: u64,
        session: u64,
        gateway: *mut u8,
        gateway_n: usize,
    ) -> u32;
    pub fn hub_gateway_step(
        gateway: *mut u8,
        gateway_n: usize,
        message: *const u8,
        message_n: usize,
        keys: *const u8,
        keys_n: usize,
        working: *mut u8,
        working_n: usize,
        verdict: u64,
        answer: *mut u64,
        answer_n: usize,
    ) -> u32;
    pub fn hub_gateway_due(
        gateway: *const u8,
        gateway_n: usize,
        due: *mut u64,
        due_n: usize,
    ) -> u32;
    pub fn hub_cut(
        report: *const u8,
        report_n: usize,
        fragment_size: u64,
        index: u64,
        piece: *mut u64,
        piece_n: usize,
    ) -> u32;
    pub fn hub_list(
        message: *const u8,
        message_n: usize,
        line: *mut u8,
        line_n: usize,
        length: *mut u64,
        length_n: usize,
    ) -> u32;
}
