/* Packets that are spelled apart from the library, and one end that tokens join, to which they come (RFC 4960 section
 * 3). */
#ifndef PACKETS_H
#define PACKETS_H

#include "support.h"

#include "sctp_channels.h"

#define STREAM 1
#define OWN_TAG 1
#define PEER_TAG 2
#define WINDOW 1048576
#define COUNT_OF(array) (sizeof(array) / sizeof *(array))

struct packet {
    size_t length;
    uint8_t bytes[SCTP_ASSOC_MAX_DATAGRAM];
};

/* The offsets past the cumulative TSN ack from one on up to another one. */
struct block {
    uint16_t start, end;
};

static sctp_peer end;      /* of channels only the tests of those know */
static struct packet sent; /* what the end sent last */

static inline uint32_t get(const uint8_t *at, int width) {
    uint32_t value = 0;
    for (int i = 0; i < width; i++)
        value = value << 8 | at[i];
    return value;
}

static inline void add(struct packet *packet, int width, uint32_t value) {
    while (width-- > 0)
        packet->bytes[packet->length++] = (uint8_t)(value >> 8 * width);
}

/* A packet between the ports 5000 under this tag, with no chunk yet. */
static inline struct packet packet_for(uint32_t tag) {
    struct packet packet = {0, {0}};
    add(&packet, 2, 5000);
    add(&packet, 2, 5000);
    add(&packet, 4, tag);
    add(&packet, 4, 0);
    return packet;
}

static inline struct packet sack(uint32_t tag, uint32_t cumulative, uint32_t window, const struct block *named,
                                 size_t count) {
    struct packet packet = packet_for(tag);
    add(&packet, 2, 0x0300);
    add(&packet, 2, 16 + 4 * (uint32_t)count);
    add(&packet, 4, cumulative);
    add(&packet, 4, window);
    add(&packet, 2, (uint32_t)count);
    add(&packet, 2, 0);
    for (size_t i = 0; i < count; i++) {
        add(&packet, 2, named[i].start);
        add(&packet, 2, named[i].end);
    }
    return packet;
}

static inline void comes(struct packet packet, uint64_t now) {
    uint32_t fate;
    seal(packet.bytes, packet.length);
    CHECK(done(sctp_assoc_handle_datagram(&end.assoc, now, packet.bytes, packet.length, &fate)));
    CHECK(fate == SCTP_ASSOC_TAKEN);
}

static inline bool polls(uint64_t now) {
    return done(sctp_assoc_poll_transmit(&end.assoc, now, sent.bytes, sizeof sent.bytes, &sent.length));
}

/* An end whose first TSN is this one, whose peer's is another, and the bytes that may wait here and at the peer. */
static uint32_t kept_rules; /* of the end, SCTP_ASSOC_PROFILE_RFC unless a test says otherwise */

static inline void begin(uint32_t max_piece, uint32_t own_tsn, uint32_t peer_tsn, uint32_t buffer,
                         uint32_t peer_window) {
    sctp_assoc_config config = default_config();
    sctp_assoc_token own, peer;
    CHECK(done(sctp_assoc_make_token(&config, OWN_TAG, own_tsn, &own)));
    CHECK(done(sctp_assoc_make_token(&config, PEER_TAG, peer_tsn, &peer)));
    peer.window = peer_window;
    config.max_receive_buffer_size = buffer;
    config.profile = kept_rules;
    CHECK(done(sctp_assoc_joined(&end.assoc, &config, max_piece, &own, &peer)));
}

static inline void finish(void) {
    CHECK(done(sctp_peer_free(&end)) && blocks == 0);
}

/* So many messages of these bytes wait on the stream, which is opened. */
static inline void write_messages(size_t count, const char *bytes) {
    CHECK(done(sctp_assoc_open_stream(&end.assoc, STREAM, SCTP_ASSOC_PPID_BINARY)));
    while (count-- > 0)
        CHECK(done(
            sctp_assoc_write(&end.assoc, STREAM, SCTP_ASSOC_PPID_OF_STREAM, (const uint8_t *)bytes, strlen(bytes))));
}

/* The next timer expires. */
static inline uint64_t time_out(void) {
    uint64_t moment;
    CHECK(done(sctp_assoc_poll_timeout(&end.assoc, &moment)));
    CHECK(done(sctp_assoc_handle_timeout(&end.assoc, moment)));
    return moment;
}

static inline sctp_assoc_path_values path(void) {
    sctp_assoc_path_values values;
    CHECK(done(sctp_assoc_path(&end.assoc, &values)));
    return values;
}

#endif
