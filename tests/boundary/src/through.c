/* SPDX-License-Identifier: MPL-2.0 */
/* Each call of hub.h once more, so that what the tests call is what a C compiler makes of the declarations there; and its constants. */
#include "hub.h"

uint32_t through_version(void);
const char *through_text(uint32_t);
const uint8_t *through_no_entries(void);
uint32_t through_digest(const uint8_t *, size_t, uint8_t *, size_t);
uint32_t through_hmac(const uint8_t *, size_t, const uint8_t *, size_t, uint8_t *, size_t);
uint32_t through_tags_differ(const uint8_t *, size_t, const uint8_t *, size_t);
uint32_t through_read_header(const uint8_t *, size_t, uint64_t *, size_t);
uint32_t through_read(const uint8_t *, size_t, const uint8_t *, size_t, uint8_t *, size_t, uint64_t *, size_t);
uint32_t through_payload(const uint8_t *, size_t, const uint8_t *, size_t, const uint64_t *, size_t, uint64_t *, size_t);
uint32_t through_write(const uint64_t *, size_t, const uint8_t *, size_t, const uint8_t *, size_t, const uint8_t *, size_t, uint8_t *, size_t,
                       uint64_t *, size_t);
uint32_t through_write_presence_request(uint8_t *, size_t, uint64_t *, size_t);
uint32_t through_write_presence_response(uint64_t, uint64_t, const uint8_t *, size_t, const uint8_t *, size_t, const uint8_t *, size_t, uint8_t *,
                                         size_t, uint64_t *, size_t);
uint32_t through_write_connection_request(uint64_t, const uint8_t *, size_t, const uint8_t *, size_t, const uint8_t *, size_t, uint8_t *, size_t,
                                          uint64_t *, size_t);
uint32_t through_write_connection_response(uint64_t, uint64_t, const uint8_t *, size_t, const uint8_t *, size_t, const uint8_t *, size_t, uint8_t *,
                                           size_t, uint64_t *, size_t);
uint32_t through_write_device_authentication(uint64_t, uint64_t, const uint8_t *, size_t, const uint8_t *, size_t, uint8_t *, size_t, uint64_t *,
                                             size_t);
uint32_t through_write_done_request(uint64_t, uint8_t *, size_t, uint64_t *, size_t);
uint32_t through_write_done_response(uint64_t, uint64_t, uint8_t *, size_t, uint64_t *, size_t);
uint32_t through_read_connect(const uint8_t *, size_t, uint64_t *, size_t);
uint32_t through_read_discovery(const uint8_t *, size_t, uint64_t *, size_t);
uint32_t through_wanted(const uint8_t *, size_t);
uint32_t through_open(uint64_t, uint8_t *, size_t);
uint32_t through_step(uint8_t *, size_t, const uint8_t *, size_t, const uint8_t *, size_t, uint8_t *, size_t, uint8_t *, size_t, uint64_t,
                      uint64_t *, size_t);
uint32_t through_gateway_open(uint64_t, uint64_t, uint8_t *, size_t);
uint32_t through_gateway_step(uint8_t *, size_t, const uint8_t *, size_t, const uint8_t *, size_t, uint8_t *, size_t, uint64_t, uint64_t *, size_t);
uint32_t through_gateway_due(const uint8_t *, size_t, uint64_t *, size_t);
uint32_t through_cut(const uint8_t *, size_t, uint64_t, uint64_t, uint64_t *, size_t);
uint32_t through_list(const uint8_t *, size_t, uint8_t *, size_t, uint64_t *, size_t);

uint32_t through_version(void)
{
    return hub_version();
}

const char *through_text(uint32_t number)
{
    return hub_text(number);
}

const uint8_t *through_no_entries(void)
{
    return HUB_NO_ENTRIES;
}

uint32_t through_digest(const uint8_t *bytes, size_t bytes_n, uint8_t *out, size_t out_n)
{
    return hub_digest(bytes, bytes_n, out, out_n);
}

uint32_t through_hmac(const uint8_t *key, size_t key_n, const uint8_t *message, size_t message_n, uint8_t *out, size_t out_n)
{
    return hub_hmac(key, key_n, message, message_n, out, out_n);
}

uint32_t through_tags_differ(const uint8_t *a, size_t a_n, const uint8_t *b, size_t b_n)
{
    return hub_tags_differ(a, a_n, b, b_n);
}

uint32_t through_read_header(const uint8_t *message, size_t message_n, uint64_t *header, size_t header_n)
{
    return hub_read_header(message, message_n, header, header_n);
}

uint32_t through_read(const uint8_t *message, size_t message_n, const uint8_t *keys, size_t keys_n, uint8_t *working, size_t working_n,
                      uint64_t *header, size_t header_n)
{
    return hub_read(message, message_n, keys, keys_n, working, working_n, header, header_n);
}

uint32_t through_payload(const uint8_t *message, size_t message_n, const uint8_t *working, size_t working_n, const uint64_t *header,
                         size_t header_n, uint64_t *place, size_t place_n)
{
    return hub_payload(message, message_n, working, working_n, header, header_n, place, place_n);
}

uint32_t through_write(const uint64_t *fields, size_t fields_n, const uint8_t *chain, size_t chain_n, const uint8_t *payload, size_t payload_n,
                       const uint8_t *keys, size_t keys_n, uint8_t *out, size_t out_n, uint64_t *length, size_t length_n)
{
    return hub_write(fields, fields_n, chain, chain_n, payload, payload_n, keys, keys_n, out, out_n, length, length_n);
}

uint32_t through_write_presence_request(uint8_t *out, size_t out_n, uint64_t *length, size_t length_n)
{
    return hub_write_presence_request(out, out_n, length, length_n);
}

uint32_t through_write_presence_response(uint64_t mode, uint64_t device, const uint8_t *name, size_t name_n, const uint8_t *salt, size_t salt_n,
                                         const uint8_t *hash, size_t hash_n, uint8_t *out, size_t out_n, uint64_t *length, size_t length_n)
{
    return hub_write_presence_response(mode, device, name, name_n, salt, salt_n, hash, hash_n, out, out_n, length, length_n);
}

uint32_t through_write_connection_request(uint64_t mode, const uint8_t *nonce, size_t nonce_n, const uint8_t *x, size_t x_n, const uint8_t *y,
                                          size_t y_n, uint8_t *out, size_t out_n, uint64_t *length, size_t length_n)
{
    return hub_write_connection_request(mode, nonce, nonce_n, x, x_n, y, y_n, out, out_n, length, length_n);
}

uint32_t through_write_connection_response(uint64_t mode, uint64_t result, const uint8_t *nonce, size_t nonce_n, const uint8_t *x, size_t x_n,
                                           const uint8_t *y, size_t y_n, uint8_t *out, size_t out_n, uint64_t *length, size_t length_n)
{
    return hub_write_connection_response(mode, result, nonce, nonce_n, x, x_n, y, y_n, out, out_n, length, length_n);
}

uint32_t through_write_device_authentication(uint64_t type, uint64_t mode, const uint8_t *certificate, size_t certificate_n,
                                             const uint8_t *thumbprint, size_t thumbprint_n, uint8_t *out, size_t out_n, uint64_t *length,
                                             size_t length_n)
{
    return hub_write_device_authentication(type, mode, certificate, certificate_n, thumbprint, thumbprint_n, out, out_n, length, length_n);
}

uint32_t through_write_done_request(uint64_t mode, uint8_t *out, size_t out_n, uint64_t *length, size_t length_n)
{
    return hub_write_done_request(mode, out, out_n, length, length_n);
}

uint32_t through_write_done_response(uint64_t mode, uint64_t status, uint8_t *out, size_t out_n, uint64_t *length, size_t length_n)
{
    return hub_write_done_response(mode, status, out, out_n, length, length_n);
}

uint32_t through_read_connect(const uint8_t *payload, size_t payload_n, uint64_t *connect, size_t connect_n)
{
    return hub_read_connect(payload, payload_n, connect, connect_n);
}

uint32_t through_read_discovery(const uint8_t *payload, size_t payload_n, uint64_t *discovery, size_t discovery_n)
{
    return hub_read_discovery(payload, payload_n, discovery, discovery_n);
}

uint32_t through_wanted(const uint8_t *bytes, size_t bytes_n)
{
    return hub_wanted(bytes, bytes_n);
}

uint32_t through_open(uint64_t fragment_size, uint8_t *state, size_t state_n)
{
    return hub_open(fragment_size, state, state_n);
}

uint32_t through_step(uint8_t *state, size_t state_n, const uint8_t *message, size_t message_n, const uint8_t *keys, size_t keys_n,
                      uint8_t *working, size_t working_n, uint8_t *report, size_t report_n, uint64_t verdict, uint64_t *answer, size_t answer_n)
{
    return hub_step(state, state_n, message, message_n, keys, keys_n, working, working_n, report, report_n, verdict, answer, answer_n);
}

uint32_t through_gateway_open(uint64_t fragment_size, uint64_t session, uint8_t *gateway, size_t gateway_n)
{
    return hub_gateway_open(fragment_size, session, gateway, gateway_n);
}

uint32_t through_gateway_step(uint8_t *gateway, size_t gateway_n, const uint8_t *message, size_t message_n, const uint8_t *keys, size_t keys_n,
                              uint8_t *working, size_t working_n, uint64_t verdict, uint64_t *answer, size_t answer_n)
{
    return hub_gateway_step(gateway, gateway_n, message, message_n, keys, keys_n, working, working_n, verdict, answer, answer_n);
}

uint32_t through_gateway_due(const uint8_t *gateway, size_t gateway_n, uint64_t *due, size_t due_n)
{
    return hub_gateway_due(gateway, gateway_n, due, due_n);
}

uint32_t through_cut(const uint8_t *report, size_t report_n, uint64_t fragment_size, uint64_t index, uint64_t *piece, size_t piece_n)
{
    return hub_cut(report, report_n, fragment_size, index, piece, piece_n);
}

uint32_t through_list(const uint8_t *message, size_t message_n, uint8_t *line, size_t line_n, uint64_t *length, size_t length_n)
{
    return hub_list(message, message_n, line, line_n, length, length_n);
}

/* The constants of hub.h, in the order in which src/hub_h.rs names them. */
extern const uint32_t through_version_here, through_refusals[27];
extern const size_t through_no_entries_n, through_sizes[18], through_bounds[11], through_header_words[11], through_place_words[3],
    through_answer_words[4], through_piece_words[3], through_connect_words[13], through_discovery_words[9], through_state_places[13],
    through_gateway_places[4];
extern const uint64_t through_kinds[10], through_sealed[3], through_types[3], through_flags[5], through_connects[7], through_modes[3],
    through_codes[5], through_discoveries[2], through_devices[11], through_states[5], through_gateway_states[5], through_nothing_due;

const uint32_t through_version_here = HUB_VERSION;
const uint32_t through_refusals[27] = {
    HUB_DONE,             HUB_TOO_SHORT,          HUB_WRONG_SIGNATURE, HUB_WRONG_LENGTH,    HUB_WRONG_VERSION,
    HUB_WRONG_TYPE,       HUB_WRONG_FLAGS,        HUB_WRONG_PIECE,     HUB_WRONG_CHAIN,     HUB_WRONG_SEALED_SIZE,
    HUB_WRONG_KEYS,       HUB_WRONG_TAG,          HUB_SHORT_WORKING,   HUB_WRONG_PADDING,   HUB_WRONG_PAYLOAD,
    HUB_NOT_ALLOWED,      HUB_OTHER_SESSION,      HUB_PAST_SEQUENCE,   HUB_FUTURE_SEQUENCE, HUB_LAST_SEQUENCE,
    HUB_WRONG_PIECE_SIZE, HUB_UNLIKE_FIRST_PIECE, HUB_NO_ROOM,         HUB_UNLIKE_REPEAT,   HUB_WRONG_FRAGMENT_SIZE,
    HUB_WRONG_VERDICT,    HUB_WRONG_BUFFER};
const size_t through_no_entries_n = HUB_NO_ENTRIES_N;
const size_t through_sizes[18] = {
    HUB_STATE_BYTES, HUB_HEADER_WORDS, HUB_FIELDS_WORDS, HUB_PLACE_WORDS, HUB_ANSWER_WORDS, HUB_PIECE_WORDS, HUB_LENGTH_WORDS, HUB_DIGEST_BYTES,
    HUB_KEYS_BYTES, HUB_LINE_BYTES, HUB_CONNECT_WORDS, HUB_NONCE_BYTES, HUB_COORDINATE_BYTES, HUB_DISCOVERY_WORDS, HUB_SALT_BYTES, HUB_HASH_BYTES,
    HUB_GATEWAY_BYTES, HUB_DUE_WORDS};
const size_t through_bounds[11] = {HUB_LEAST_MESSAGE,      HUB_MOST_WRITTEN,     HUB_MOST_READ,       HUB_MOST_SEALED,  HUB_MOST_PIECES,
                                   HUB_MOST_FRAGMENT_SIZE, HUB_MOST_CERTIFICATE, HUB_MOST_THUMBPRINT, HUB_MOST_PAYLOAD, HUB_MOST_REPLY,
                                   HUB_MOST_NAME};
const size_t through_header_words[11] = {
    HUB_HEADER_TYPE, HUB_HEADER_FLAGS, HUB_HEADER_SEQUENCE, HUB_HEADER_REQUEST, HUB_HEADER_INDEX, HUB_HEADER_COUNT, HUB_HEADER_SESSION,
    HUB_HEADER_CHANNEL, HUB_HEADER_SEALED, HUB_HEADER_FROM, HUB_HEADER_SIZE};
const size_t through_place_words[3] = {HUB_PLACE_BUFFER, HUB_PLACE_FROM, HUB_PLACE_SIZE};
const size_t through_answer_words[4] = {HUB_ANSWER_KIND, HUB_ANSWER_VALUE, HUB_ANSWER_LENGTH, HUB_ANSWER_STATUS};
const size_t through_piece_words[3] = {HUB_PIECE_COUNT, HUB_PIECE_FROM, HUB_PIECE_SIZE};
const size_t through_connect_words[13] = {
    HUB_CONNECT_TYPE, HUB_CONNECT_MODE, HUB_CONNECT_CODE, HUB_CONNECT_NONCE_FROM, HUB_CONNECT_NONCE_SIZE, HUB_CONNECT_X_FROM,
    HUB_CONNECT_X_SIZE, HUB_CONNECT_Y_FROM, HUB_CONNECT_Y_SIZE, HUB_CONNECT_CERTIFICATE_FROM, HUB_CONNECT_CERTIFICATE_SIZE,
    HUB_CONNECT_THUMBPRINT_FROM, HUB_CONNECT_THUMBPRINT_SIZE};
const size_t through_discovery_words[9] = {
    HUB_DISCOVERY_TYPE, HUB_DISCOVERY_MODE, HUB_DISCOVERY_DEVICE, HUB_DISCOVERY_NAME_FROM, HUB_DISCOVERY_NAME_SIZE, HUB_DISCOVERY_SALT_FROM,
    HUB_DISCOVERY_SALT_SIZE, HUB_DISCOVERY_HASH_FROM, HUB_DISCOVERY_HASH_SIZE};
const size_t through_state_places[13] = {HUB_STATE_FRAGMENT_SIZE, HUB_STATE_STATE,       HUB_STATE_SESSION,  HUB_STATE_NONCE, HUB_STATE_X,
                                         HUB_STATE_Y,             HUB_STATE_CERTIFICATE, HUB_STATE_EXPECTED, HUB_STATE_HEARD, HUB_STATE_COUNT,
                                         HUB_STATE_CHANNEL,       HUB_STATE_LAST,        HUB_STATE_BYTES};
const size_t through_gateway_places[4] = {HUB_GATEWAY_SIZE, HUB_GATEWAY_STATE, HUB_GATEWAY_SESSION, HUB_GATEWAY_BYTES};
const uint64_t through_kinds[10] = {HUB_KIND_REFUSED, HUB_KIND_REPLY,    HUB_KIND_AGAIN, HUB_KIND_FAILURE, HUB_KIND_TAKEN,
                                    HUB_KIND_REPEAT,  HUB_KIND_COMPLETE, HUB_KIND_NEXT,  HUB_KIND_READY,   HUB_KIND_FAILED};
const uint64_t through_sealed[3] = {HUB_PLAIN, HUB_OPENED, HUB_STILL_SEALED};
const uint64_t through_types[3] = {HUB_TYPE_DISCOVERY, HUB_TYPE_CONNECT, HUB_TYPE_SESSION};
const uint64_t through_flags[5] = {HUB_FLAG_ACKNOWLEDGE, HUB_FLAG_HMAC, HUB_FLAG_ENCRYPTED, HUB_FLAGS_SEALED, HUB_FLAG_WAKE};
const uint64_t through_connects[7] = {HUB_CONNECTION_REQUEST, HUB_CONNECTION_RESPONSE, HUB_AUTHENTICATION_REQUEST, HUB_AUTHENTICATION_RESPONSE,
                                      HUB_DONE_REQUEST,       HUB_DONE_RESPONSE,       HUB_AUTHENTICATION_FAILURE};
const uint64_t through_modes[3] = {HUB_MODE_NONE, HUB_MODE_PROXIMAL, HUB_MODE_LEGACY};
const uint64_t through_codes[5] = {HUB_SUCCESS, HUB_PENDING, HUB_FAILURE_AUTHENTICATION, HUB_FAILURE_NOT_ALLOWED, HUB_FAILURE_UNKNOWN};
const uint64_t through_discoveries[2] = {HUB_PRESENCE_REQUEST, HUB_PRESENCE_RESPONSE};
const uint64_t through_devices[11] = {
    HUB_DEVICE_XBOX_ONE, HUB_DEVICE_IPHONE, HUB_DEVICE_IPAD, HUB_DEVICE_ANDROID, HUB_DEVICE_WINDOWS_DESKTOP, HUB_DEVICE_WINDOWS_PHONE,
    HUB_DEVICE_LINUX, HUB_DEVICE_WINDOWS_IOT, HUB_DEVICE_SURFACE_HUB, HUB_DEVICE_WINDOWS_LAPTOP, HUB_DEVICE_WINDOWS_TABLET};
const uint64_t through_states[5] = {HUB_WAITING_FOR_REQUEST, HUB_WAITING_FOR_AUTHENTICATION, HUB_PASSED, HUB_READY, HUB_FAILED};
const uint64_t through_gateway_states[5] = {HUB_GATEWAY_WAITING_FOR_RESPONSE, HUB_GATEWAY_WAITING_FOR_AUTHENTICATION, HUB_GATEWAY_WAITING_FOR_DONE,
                                            HUB_GATEWAY_READY, HUB_GATEWAY_FAILED};
const uint64_t through_nothing_due = HUB_NOTHING_DUE;
