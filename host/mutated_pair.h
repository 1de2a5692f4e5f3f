/* Of mutated.c: the pair, the network between its ends, and what is read. */
#ifndef MUTATED_PAIR_H
#define MUTATED_PAIR_H

#include "mutations.h"

#define MOST_ON_WAY 64
#define MOST_RECENT 64
#define MOST_MESSAGES 4096
#define MOST_WAITING 40000 /* bytes that an end has accepted and that are not acknowledged .. */
#define MOST_UNREAD 40     /* .. and its messages on reliable streams that are not read, if another is written */
#define MOST_FORGED 400    /* mutants for a pair that gets forged ones */
#define LIVE_BYTES 600000  /* of both ends, with what may wait and be on the way */
#define QUIET_BYTES 150000 /* of both ends, once all is read and acknowledged */
#define CHUNK_BYTES 300    /* what is kept of a chunk beside the bytes of its datagram, at most */
#define PLACE_BYTES 800    /* of a stream */
#define LIFETIME_MS 50

/* A stream of each kind for each writer: 2 * kind + writer. */
enum kind { ORDERED, UNORDERED, TIMED, CHANNEL, KINDS };

struct message {
    enum kind kind;
    uint32_t place; /* among those of its stream */
    size_t length;
    bool was_read;
};

static const uint32_t tags[2] = {1, 2};
static sctp_assoc ends[2];
static uint64_t now;
static uint8_t bytes[SCTP_ASSOC_MAX_DATAGRAM], wanted[65536];

/* Of the pair, by end or by writer. */
static bool is_forged[2], is_lost[2], is_channel_open[2], is_ending;
static uint32_t lost_reason[2];
static uint32_t unsent_tsn[2]; /* after the last that the end sent */
static uint64_t taken_bytes[2], read_bytes[2], allowed_bytes;
static uint16_t place_counts[2][256]; /* of each page of streams, which may have been made by forged DATA */
static struct message written[2][MOST_MESSAGES];
static uint32_t written_count[2], unread_count[2], places[2][KINDS], next_place[2][KINDS];
static size_t most_length;

/* The network: what is on the way to each end, and after it room; and what was sent to each, in this pair or before. */
static struct datagram pool[2][MOST_ON_WAY], *on_way[2][MOST_ON_WAY], recent[2][MOST_RECENT];
static size_t on_way_count[2], recent_count[2];
static uint64_t pairs, pair_of[2][MOST_RECENT];
static bool is_smooth; /* nothing is lost, repeated or reordered */

static uint64_t mutants, sealed, taken, closed, most_plain, most_quiet;

/* ---- What is read ---- */

static void look_at(int reader, uint16_t stream, uint32_t type, size_t length) {
    uint32_t number, writer = !reader;
    read_bytes[reader] += length;
    CHECK(read_bytes[reader] <= taken_bytes[reader]);
    if (is_forged[reader])
        return;
    memcpy(&number, bytes, sizeof number);
    CHECK(length >= 4 && number < written_count[writer] && type == SCTP_ASSOC_PPID_BINARY);
    struct message *message = &written[writer][number];
    CHECK(stream == 2 * message->kind + writer && length == message->length && !message->was_read);
    fill(wanted, length, number);
    CHECK(memcmp(wanted, bytes, length) == 0);
    message->was_read = true;
    unread_count[writer] -= message->kind < TIMED;
    if (message->kind == UNORDERED || is_forged[writer])
        return;
    CHECK(message->place >= next_place[writer][message->kind]);
    CHECK(message->place == next_place[writer][message->kind] || message->kind != ORDERED);
    next_place[writer][message->kind] = message->place + 1;
}

static void read_all(int end, uint16_t stream) {
    size_t length;
    uint32_t type;
    sctp_assoc_code code;
    while ((code = sctp_assoc_read(&ends[end], stream, bytes, sizeof bytes, &length, &type)) == SCTP_ASSOC_DONE)
        look_at(end, stream, type, length);
    CHECK(code == SCTP_ASSOC_NOTHING || code == SCTP_ASSOC_NO_STREAM || code == SCTP_ASSOC_STREAM_CLOSED);
}

static void check_reason(const sctp_assoc_event *event) {
    uint32_t first = 0, last = 0;
    if (event->kind == SCTP_ASSOC_EVENT_LOST)
        first = SCTP_ASSOC_REASON_CLOSED, last = SCTP_ASSOC_REASON_BUFFER_EXHAUSTED;
    if (event->kind == SCTP_ASSOC_EVENT_HANDSHAKE_FAILED)
        first = SCTP_ASSOC_REASON_NO_INIT_ACK, last = SCTP_ASSOC_REASON_NO_COOKIE_ACK;
    if (event->kind == SCTP_ASSOC_EVENT_RESET_FAILED)
        first = SCTP_ASSOC_REASON_RESET_DENIED, last = SCTP_ASSOC_REASON_RESET_FAILED;
    CHECK(first <= event->reason && event->reason <= last);
    CHECK(event->kind >= SCTP_ASSOC_EVENT_CONNECTED && event->kind < SCTP_ASSOC_EVENT_OTHER);
}

/* Answers how many events there were. */
static uint64_t take_events(int end) {
    sctp_assoc_event event;
    uint16_t opened;
    uint64_t count = 0;
    for (; done(sctp_assoc_poll_event(&ends[end], &event)); count++) {
        check_reason(&event);
        CHECK(!is_lost[end] || event.kind == SCTP_ASSOC_EVENT_HANDSHAKE_FAILED);
        if (event.kind == SCTP_ASSOC_EVENT_LOST)
            is_lost[end] = true, lost_reason[end] = event.reason;
        if (event.kind == SCTP_ASSOC_EVENT_OPENED)
            CHECK(done(sctp_assoc_accept_stream(&ends[end], &opened)));
        if (event.kind == SCTP_ASSOC_EVENT_READABLE)
            read_all(end, event.stream);
        if (event.kind == SCTP_ASSOC_EVENT_RESET_COMPLETE && event.stream == 2 * CHANNEL + end)
            is_channel_open[end] = false;
    }
    return count;
}

#endif
