/* Datagrams that are spelled in hex, apart from the library: how they come to an end, and whether it sends them. */
#ifndef SPELLED_H
#define SPELLED_H

#include "support.h"

#define LONG_PAYLOAD 65519 /* the greatest payload of one DATA chunk */

static uint8_t spelled[SCTP_ASSOC_MAX_DATAGRAM];
static char sent_lines[4000];

static inline uint32_t read_number(const uint8_t *at, int width) {
    uint32_t value = 0;
    for (int i = 0; i < width; i++)
        value = value << 8 | at[i];
    return value;
}

static inline int digit_of(char character) {
    return character <= '9' ? character - '0' : character - 'a' + 10;
}

/* Writes the bytes of this hex, and answers how many they are. */
static inline size_t spell(uint8_t *bytes, const char *hex) {
    size_t length = strlen(hex) / 2;
    for (size_t i = 0; i < length; i++)
        bytes[i] = (uint8_t)(digit_of(hex[2 * i]) << 4 | digit_of(hex[2 * i + 1]));
    return length;
}

static inline uint32_t hand_over(sctp_assoc *end, uint64_t now, const uint8_t *datagram, size_t length) {
    uint32_t fate;
    CHECK(done(sctp_assoc_handle_datagram(end, now, datagram, length, &fate)));
    return fate;
}

/* The datagram of this hex comes. Answers what became of it. */
static inline uint32_t comes(sctp_assoc *end, uint64_t now, const char *hex) {
    size_t length = spell(spelled, hex);
    return hand_over(end, now, spelled, length);
}

/* The packet of these chunks comes, between the ports 5000, under this tag and with the checksum that belongs to it. */
static inline uint32_t chunks_come(sctp_assoc *end, uint64_t now, uint32_t tag, const char *chunks) {
    size_t length = spell(spelled, "138813880000000000000000");
    for (int i = 0; i < 4; i++)
        spelled[4 + i] = (uint8_t)(tag >> 8 * (3 - i));
    length += spell(spelled + length, chunks);
    seal(spelled, length);
    return hand_over(end, now, spelled, length);
}

/* Whether an end sends these datagrams at this moment and no others: hex, a line for each. */
static inline bool sends(sctp_assoc *end, uint64_t now, const char *lines) {
    size_t length, at = 0;
    while (done(sctp_assoc_poll_transmit(end, now, spelled, sizeof spelled, &length))) {
        CHECK(at + 2 * length + 2 <= sizeof sent_lines);
        for (size_t i = 0; i < length; i++)
            at += (size_t)sprintf(sent_lines + at, "%02x", spelled[i]);
        sent_lines[at++] = '\n';
    }
    sent_lines[at] = 0;
    if (strcmp(sent_lines, lines) != 0)
        fprintf(stderr, "sent:\n%swanted:\n%s", sent_lines, lines);
    return strcmp(sent_lines, lines) == 0;
}

/* The last TSN in order that came to an established end with this tag: what its SACK of old DATA says. */
static inline uint32_t last_tsn(sctp_assoc *end, uint64_t now, uint32_t tag, const char *old_data) {
    size_t length, count = 0;
    uint32_t tsn = 0;
    CHECK(chunks_come(end, now, tag, old_data) == SCTP_ASSOC_TAKEN);
    while (done(sctp_assoc_poll_transmit(end, now, spelled, sizeof spelled, &length)))
        if (length >= 28 && spelled[12] == 3) {
            tsn = read_number(spelled + 16, 4);
            count++;
        }
    CHECK(count == 1);
    return tsn;
}

/* The tokens with these initiate tags join it, its own first; its first TSN is 100, the peer's 500. */
static inline sctp_assoc_code join(sctp_assoc *end, uint32_t max_payload_size, uint32_t own_tag, uint32_t peer_tag) {
    sctp_assoc_config config = default_config();
    sctp_assoc_token own, peer;
    CHECK(done(sctp_assoc_make_token(&config, own_tag, 100, &own)));
    CHECK(done(sctp_assoc_make_token(&config, peer_tag, 500, &peer)));
    return sctp_assoc_joined(end, &config, max_payload_size, &own, &peer);
}

/* DATA behind the peer's first TSN of a joined end, to be acknowledged at once: TSN 499, which is old. */
#define OLD_DATA "000b0011000001f3000300000000003561000000"

static inline sctp_assoc_identity identity_of(uint32_t tag, uint32_t initial_tsn) {
    sctp_assoc_identity named = {.tag = tag, .initial_tsn = initial_tsn};
    memset(named.cookie, 0x43, sizeof named.cookie);
    return named;
}

/* ---- What an end tells ---- */

/* Whether the next event is of this kind and of this stream. */
static inline bool is_told(sctp_assoc *end, uint32_t kind, uint16_t stream) {
    sctp_assoc_event event;
    return done(sctp_assoc_poll_event(end, &event)) && event.kind == kind && event.stream == stream;
}

static inline bool is_told_nothing(sctp_assoc *end) {
    sctp_assoc_event event;
    return !done(sctp_assoc_poll_event(end, &event));
}

/* The next deadline, in ms; 0 if no timer runs. */
static inline uint64_t deadline(sctp_assoc *end) {
    uint64_t moment;
    return done(sctp_assoc_poll_timeout(end, &moment)) ? moment / MS : 0;
}

static inline bool answers(sctp_assoc *end, sctp_assoc_code (*question)(sctp_assoc *, bool *)) {
    bool answer;
    CHECK(done(question(end, &answer)));
    return answer;
}

static inline sctp_assoc_path_values path_of(sctp_assoc *end) {
    sctp_assoc_path_values path;
    CHECK(done(sctp_assoc_path(end, &path)));
    return path;
}

static inline void release(sctp_assoc *end) {
    CHECK(sctp_assoc_free(end) == SCTP_ASSOC_DONE);
    CHECK(blocks == 0 && heap_bytes == 0);
}

#endif
