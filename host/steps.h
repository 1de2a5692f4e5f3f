/* Two ends that tokens join, A and B, and their datagrams by number, so that each may come whenever a test says. They
 * have the tags 1 and 2 and the first TSNs 100 and 500, as those of a session of ./lab (docs/SESSIONS.md). */
#ifndef STEPS_H
#define STEPS_H

#include "support.h"

enum { A, B };

#define STREAM 1
#define FIRST_TSN 100 /* of A */
#define MOST_SENT 32

static sctp_assoc ends[2];
static struct {
    uint8_t bytes[2048];
    size_t length;
} sent[2][MOST_SENT];
static size_t sent_count[2];
static uint32_t payload_type; /* of the stream */
static uint64_t now_ms;

/* Joins two ends, of which A opens the stream for messages of this type. */
static inline void join_for(uint32_t type, const sctp_assoc_config *config, uint32_t max_payload_size) {
    sctp_assoc_token tokens[2];
    CHECK(done(sctp_assoc_make_token(config, 1, FIRST_TSN, &tokens[A])));
    CHECK(done(sctp_assoc_make_token(config, 2, 500, &tokens[B])));
    for (int end = 0; end < 2; end++) {
        CHECK(done(sctp_assoc_joined(&ends[end], config, max_payload_size, &tokens[end], &tokens[!end])));
        sent_count[end] = 0;
    }
    CHECK(done(sctp_assoc_open_stream(&ends[A], STREAM, type)));
    payload_type = type;
    now_ms = 0;
}

static inline void join(const sctp_assoc_config *config, uint32_t max_payload_size) {
    join_for(SCTP_ASSOC_PPID_BINARY, config, max_payload_size);
}

/* A writes a message of so many equal bytes. */
static inline void write_bytes(uint8_t byte, size_t count) {
    static uint8_t message[16384];
    CHECK(count <= sizeof message);
    memset(message, byte, count);
    CHECK(done(sctp_assoc_write(&ends[A], STREAM, SCTP_ASSOC_PPID_OF_STREAM, message, count)));
}

/* Asks an end for the next datagram, and answers whether there is one; it gets the end's next number. */
static inline bool send_next(int end) {
    size_t number = sent_count[end];
    CHECK(number < MOST_SENT);
    if (!done(sctp_assoc_poll_transmit(&ends[end], now_ms * MS, sent[end][number].bytes,
                                       sizeof sent[end][number].bytes, &sent[end][number].length)))
        return false;
    sent_count[end]++;
    return true;
}

/* Asks an end for all that is due, and answers how many datagrams these are. */
static inline size_t send_due(int end) {
    size_t count = 0;
    while (send_next(end))
        count++;
    return count;
}

/* An end gets the datagram of the other one with this number. */
static inline void deliver(int end, size_t number) {
    uint32_t fate;
    CHECK(number < sent_count[!end]);
    CHECK(done(sctp_assoc_handle_datagram(&ends[end], now_ms * MS, sent[!end][number].bytes, sent[!end][number].length,
                                          &fate)));
    CHECK(fate == SCTP_ASSOC_TAKEN);
}

/* It is so many ms, and the timers of an end expire that are due by then. */
static inline void expire(int end, uint64_t ms) {
    now_ms = ms;
    CHECK(done(sctp_assoc_handle_timeout(&ends[end], ms * MS)));
}

/* B reads a message of so many equal bytes. */
static inline void read_bytes(uint8_t byte, size_t count) {
    static uint8_t message[16384];
    size_t length;
    uint32_t type;
    CHECK(done(sctp_assoc_read(&ends[B], STREAM, message, sizeof message, &length, &type)));
    CHECK(length == count && type == payload_type);
    for (size_t i = 0; i < count; i++)
        CHECK(message[i] == byte);
}

/* Nothing more can be read at B now. */
static inline void read_none(void) {
    uint8_t byte;
    size_t length;
    uint32_t type;
    CHECK(sctp_assoc_read(&ends[B], STREAM, &byte, 1, &length, &type) == SCTP_ASSOC_NOTHING);
}

/* The next event of an end is of this kind, and of the stream if the kind has one. */
static inline void is_told(int end, uint32_t kind) {
    bool has_stream = kind != SCTP_ASSOC_EVENT_CONNECTED && kind != SCTP_ASSOC_EVENT_LOST &&
                      kind != SCTP_ASSOC_EVENT_DATAGRAM_RECEIVED;
    sctp_assoc_event event;
    CHECK(done(sctp_assoc_poll_event(&ends[end], &event)));
    CHECK(event.kind == kind && event.stream == (has_stream ? STREAM : 0));
}

/* No event waits at an end. */
static inline void is_told_no_more(int end) {
    sctp_assoc_event event;
    CHECK(sctp_assoc_poll_event(&ends[end], &event) == SCTP_ASSOC_NOTHING);
}

/* The loss of an end is told next, with this reason, and nothing behind it. */
static inline void is_told_loss(int end, uint32_t reason) {
    sctp_assoc_event event;
    CHECK(done(sctp_assoc_poll_event(&ends[end], &event)));
    CHECK(event.kind == SCTP_ASSOC_EVENT_LOST && event.reason == reason);
    is_told_no_more(end);
}

#endif
