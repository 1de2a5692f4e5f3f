/* The calls that take bytes or identifiers by a pointer and a length: NULL may stand for none of them. The proved calls
 * want an address in any case. `./library` gives them the names that are declared here, and their own names to these. */
#include "sctp_assoc.h"

sctp_assoc_code sctp_assoc_handle_datagram_at(sctp_assoc *slot, uint64_t now, const uint8_t *datagram, size_t length,
                                              uint32_t *fate);
sctp_assoc_code sctp_assoc_poll_transmit_at(sctp_assoc *slot, uint64_t now, uint8_t *buffer, size_t room,
                                            size_t *length);
sctp_assoc_code sctp_assoc_write_at(sctp_assoc *slot, uint16_t stream, uint32_t payload_type, const uint8_t *message,
                                    size_t length);
sctp_assoc_code sctp_assoc_read_at(sctp_assoc *slot, uint16_t stream, uint8_t *buffer, size_t room, size_t *length,
                                   uint32_t *payload_type);
sctp_assoc_code sctp_assoc_stream_ids_at(sctp_assoc *slot, uint16_t *ids, size_t room, size_t *count);
sctp_assoc_code sctp_assoc_abort_at(sctp_assoc *slot, const uint8_t *reason, size_t length);

/* What an empty buffer is taken to lie at. Nothing is read or written there. */
static uint16_t nowhere;

sctp_assoc_code sctp_assoc_handle_datagram(sctp_assoc *slot, uint64_t now, const uint8_t *datagram, size_t length,
                                           uint32_t *fate) {
    return sctp_assoc_handle_datagram_at(slot, now, length ? datagram : (const uint8_t *)&nowhere, length, fate);
}

sctp_assoc_code sctp_assoc_poll_transmit(sctp_assoc *slot, uint64_t now, uint8_t *buffer, size_t room, size_t *length) {
    return sctp_assoc_poll_transmit_at(slot, now, room ? buffer : (uint8_t *)&nowhere, room, length);
}

sctp_assoc_code sctp_assoc_write(sctp_assoc *slot, uint16_t stream, uint32_t payload_type, const uint8_t *message,
                                 size_t length) {
    return sctp_assoc_write_at(slot, stream, payload_type, length ? message : (const uint8_t *)&nowhere, length);
}

sctp_assoc_code sctp_assoc_read(sctp_assoc *slot, uint16_t stream, uint8_t *buffer, size_t room, size_t *length,
                                uint32_t *payload_type) {
    return sctp_assoc_read_at(slot, stream, room ? buffer : (uint8_t *)&nowhere, room, length, payload_type);
}

sctp_assoc_code sctp_assoc_stream_ids(sctp_assoc *slot, uint16_t *ids, size_t room, size_t *count) {
    return sctp_assoc_stream_ids_at(slot, room ? ids : &nowhere, room, count);
}

sctp_assoc_code sctp_assoc_abort(sctp_assoc *slot, const uint8_t *reason, size_t length) {
    return sctp_assoc_abort_at(slot, length ? reason : (const uint8_t *)&nowhere, length);
}
