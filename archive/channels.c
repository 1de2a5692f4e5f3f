/* The calls of channels: each hands the parts of a sctp_peer to the proved call, and NULL may stand for no bytes, as in
 * archive/empty.c. `./library channels` gives the proved calls the names that are declared here. */
#include "sctp_channels.h"

sctp_assoc_code sctp_channels_begin_at(sctp_channels *slot, uint32_t role);
sctp_assoc_code sctp_channels_free_at(sctp_channels *slot);
sctp_assoc_code sctp_channels_open_at(sctp_channels *slot, sctp_assoc *assoc, const sctp_channels_options *options,
                                      const uint8_t *label, size_t label_length, const uint8_t *protocol,
                                      size_t protocol_length, uint16_t *id);
sctp_assoc_code sctp_channels_close_at(sctp_channels *slot, sctp_assoc *assoc, uint16_t id);
sctp_assoc_code sctp_channels_poll_event_at(sctp_channels *slot, sctp_assoc *assoc, sctp_channels_event *event);
sctp_assoc_code sctp_channels_set_max_message_size_at(sctp_assoc *assoc, uint32_t bytes);
sctp_assoc_code sctp_channels_send_at(sctp_channels *slot, sctp_assoc *assoc, uint16_t id, bool is_text,
                                      const uint8_t *message, size_t length);
sctp_assoc_code sctp_channels_receive_at(sctp_channels *slot, sctp_assoc *assoc, uint16_t id, uint8_t *buffer,
                                         size_t room, size_t *length, bool *is_text);
sctp_assoc_code sctp_channels_get_info_at(sctp_channels *slot, uint16_t id, sctp_channels_info *info);
sctp_assoc_code sctp_channels_label_at(sctp_channels *slot, uint16_t id, uint8_t *buffer, size_t room, size_t *length);
sctp_assoc_code sctp_channels_protocol_at(sctp_channels *slot, uint16_t id, uint8_t *buffer, size_t room,
                                          size_t *length);
sctp_assoc_code sctp_channels_buffered_amount_at(sctp_channels *slot, sctp_assoc *assoc, uint16_t id, size_t *bytes);
sctp_assoc_code sctp_channels_low_threshold_at(sctp_channels *slot, sctp_assoc *assoc, uint16_t id, size_t *bytes);
sctp_assoc_code sctp_channels_set_low_threshold_at(sctp_channels *slot, sctp_assoc *assoc, uint16_t id, size_t bytes);

/* What an empty buffer is taken to lie at. Nothing is read or written there. */
static uint8_t nowhere;

sctp_assoc_code sctp_channels_begin(sctp_peer *peer, uint32_t role) {
    return sctp_channels_begin_at(&peer->channels, role);
}

sctp_assoc_code sctp_peer_free(sctp_peer *peer) {
    if (!peer)
        return SCTP_ASSOC_EMPTY_SLOT;
    sctp_assoc_code channels = sctp_channels_free_at(&peer->channels), assoc = sctp_assoc_free(&peer->assoc);
    return channels == SCTP_ASSOC_DONE ? channels : assoc;
}

sctp_assoc_code sctp_channels_open(sctp_peer *peer, const sctp_channels_options *options, const uint8_t *label,
                                   size_t label_length, const uint8_t *protocol, size_t protocol_length, uint16_t *id) {
    return sctp_channels_open_at(&peer->channels, &peer->assoc, options, label_length ? label : &nowhere, label_length,
                                 protocol_length ? protocol : &nowhere, protocol_length, id);
}

sctp_assoc_code sctp_channels_close(sctp_peer *peer, uint16_t id) {
    return sctp_channels_close_at(&peer->channels, &peer->assoc, id);
}

sctp_assoc_code sctp_channels_poll_event(sctp_peer *peer, sctp_channels_event *event) {
    return sctp_channels_poll_event_at(&peer->channels, &peer->assoc, event);
}

sctp_assoc_code sctp_channels_set_max_message_size(sctp_peer *peer, uint32_t bytes) {
    return sctp_channels_set_max_message_size_at(&peer->assoc, bytes);
}

sctp_assoc_code sctp_channels_send(sctp_peer *peer, uint16_t id, bool is_text, const uint8_t *message, size_t length) {
    return sctp_channels_send_at(&peer->channels, &peer->assoc, id, is_text, length ? message : &nowhere, length);
}

sctp_assoc_code sctp_channels_receive(sctp_peer *peer, uint16_t id, uint8_t *buffer, size_t room, size_t *length,
                                      bool *is_text) {
    return sctp_channels_receive_at(&peer->channels, &peer->assoc, id, room ? buffer : &nowhere, room, length, is_text);
}

sctp_assoc_code sctp_channels_get_info(sctp_peer *peer, uint16_t id, sctp_channels_info *info) {
    return sctp_channels_get_info_at(&peer->channels, id, info);
}

sctp_assoc_code sctp_channels_label(sctp_peer *peer, uint16_t id, uint8_t *buffer, size_t room, size_t *length) {
    return sctp_channels_label_at(&peer->channels, id, room ? buffer : &nowhere, room, length);
}

sctp_assoc_code sctp_channels_protocol(sctp_peer *peer, uint16_t id, uint8_t *buffer, size_t room, size_t *length) {
    return sctp_channels_protocol_at(&peer->channels, id, room ? buffer : &nowhere, room, length);
}

sctp_assoc_code sctp_channels_buffered_amount(sctp_peer *peer, uint16_t id, size_t *bytes) {
    return sctp_channels_buffered_amount_at(&peer->channels, &peer->assoc, id, bytes);
}

sctp_assoc_code sctp_channels_low_threshold(sctp_peer *peer, uint16_t id, size_t *bytes) {
    return sctp_channels_low_threshold_at(&peer->channels, &peer->assoc, id, bytes);
}

sctp_assoc_code sctp_channels_set_low_threshold(sctp_peer *peer, uint16_t id, size_t bytes) {
    return sctp_channels_set_low_threshold_at(&peer->channels, &peer->assoc, id, bytes);
}
