/* What the tests of data channels share: two sides, and what each is told. */
#ifndef SIDES_H
#define SIDES_H

#include "support.h"

#include "sctp_channels.h"

static sctp_peer sides[2];
static uint64_t now;
static uint8_t bytes[70000];
static size_t length;
static bool text;
static uint16_t id;

/* The events that each side told since a test looked, and how many. */
static sctp_channels_event told[2][64];
static size_t count[2];

static inline bool was_told(int side, uint32_t kind, uint16_t channel) {
    for (size_t k = 0; k < count[side]; k++)
        if (told[side][k].kind == kind && told[side][k].id == channel)
            return true;
    return false;
}

static inline void poll_events(int side) {
    sctp_channels_event event;
    while (done(sctp_channels_poll_event(&sides[side], &event))) {
        CHECK(count[side] < 64);
        told[side][count[side]++] = event;
    }
}

static inline void begin_sides(void) {
    CHECK(done(sctp_channels_begin(&sides[0], SCTP_CHANNELS_CLIENT)));
    CHECK(done(sctp_channels_begin(&sides[1], SCTP_CHANNELS_SERVER)));
}

static inline void free_sides(void) {
    for (int side = 0; side < 2; side++)
        CHECK(sctp_peer_free(&sides[side]) == SCTP_ASSOC_DONE);
    CHECK(blocks == 0 && heap_bytes == 0);
}

/* Two sides that tokens join. */
static inline void join(void) {
    sctp_assoc_config config = default_config();
    sctp_assoc_token tokens[2];
    now = 0;
    for (int side = 0; side < 2; side++)
        CHECK(done(sctp_assoc_make_token(&config, (uint32_t)side + 1, 100, &tokens[side])));
    for (int side = 0; side < 2; side++)
        CHECK(done(sctp_assoc_joined(&sides[side].assoc, &config, PAYLOAD_SIZE, &tokens[side], &tokens[!side])));
    begin_sides();
}

/* A client and a server before their handshake. */
static inline void meet(void) {
    sctp_assoc_config config = default_config();
    sctp_assoc_identity client = identity(1), server = identity(2);
    now = 0;
    CHECK(done(sctp_assoc_client(&sides[0].assoc, &config, PAYLOAD_SIZE, &client, now)));
    CHECK(done(sctp_assoc_server(&sides[1].assoc, &config, PAYLOAD_SIZE, &server, now)));
    begin_sides();
}

static const sctp_channels_options reliable = SCTP_CHANNELS_ORDERED_RELIABLE;

static inline sctp_assoc_code open_as(int side, sctp_channels_options options, const char *label,
                                      const char *protocol) {
    return sctp_channels_open(&sides[side], &options, (const uint8_t *)label, strlen(label), (const uint8_t *)protocol,
                              strlen(protocol), &id);
}

static inline sctp_assoc_code send_on(int side, uint16_t channel, bool is_text, const char *message) {
    return sctp_channels_send(&sides[side], channel, is_text, (const uint8_t *)message, strlen(message));
}

static inline sctp_assoc_code receive_on(int side, uint16_t channel, size_t room) {
    return sctp_channels_receive(&sides[side], channel, bytes, room, &length, &text);
}

/* What a side is told of a channel. */
static inline void check_info(int side, uint16_t channel, sctp_channels_options options, const char *label,
                              const char *protocol) {
    sctp_channels_info info;
    CHECK(done(sctp_channels_get_info(&sides[side], channel, &info)));
    CHECK(info.reliability == options.reliability && info.value == options.value);
    CHECK(info.priority == options.priority && info.unordered == options.unordered);
    CHECK(info.negotiated == options.negotiated && info.state == SCTP_CHANNELS_STATE_OPEN);
    CHECK(info.label_length == strlen(label) && info.protocol_length == strlen(protocol));
    CHECK(done(sctp_channels_label(&sides[side], channel, bytes, sizeof bytes, &length)));
    CHECK(length == strlen(label) && !memcmp(bytes, label, length));
    CHECK(done(sctp_channels_protocol(&sides[side], channel, bytes, sizeof bytes, &length)));
    CHECK(length == strlen(protocol) && !memcmp(bytes, protocol, length));
}

#endif
