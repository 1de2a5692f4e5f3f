/* The steps of a case by hand: what the application at either end does, what is lost, and what has to hold. */
#ifndef HEAL_STEPS_H
#define HEAL_STEPS_H

#include "heal_pair.h"

#define CASE_STREAMS 8
#define CASE_DELAY (10 * MS)

/* States what has to hold of a case. The first statement that does not is kept, and the case goes on. */
#define HOLDS(is_so) ((is_so) ? (void)0 : does_not_hold(__FILE__, __LINE__, #is_so))

static char not_so[200]; /* where that stands and what it is, or empty */
static sctp_assoc_config config;
static bool (*loses)(int from, const uint8_t *datagram, size_t length); /* NULL where nothing is lost */
static bool is_black, is_reading[2];
static uint64_t leaves_at[2]; /* when what an end sent last has left it */
static size_t read_counts[2][CASE_STREAMS];
static unsigned told_counts[2][SCTP_ASSOC_EVENT_OTHER][CASE_STREAMS];

static inline void does_not_hold(const char *file, int line, const char *stated) {
    if (!*not_so)
        snprintf(not_so, sizeof not_so, "%s:%d: %s", file, line, stated);
}

/* ---- The loop ---- */

/* How often an end was told of an event of the stream. */
static inline unsigned told(int end, uint32_t kind, uint16_t stream) {
    return told_counts[end][kind][stream];
}

static inline void read_all(int end) {
    size_t length;
    uint32_t type;
    for (uint16_t stream = 0; stream < CASE_STREAMS; stream++)
        while (sctp_assoc_read(&ends[end].assoc, stream, bytes, sizeof bytes, &length, &type) == SCTP_ASSOC_DONE)
            read_counts[end][stream]++;
}

static inline void take_case_events(int end) {
    sctp_assoc_event event;
    uint16_t accepted;
    while (done(sctp_assoc_watched_poll_event(&ends[end].assoc, &watches[end], &event))) {
        CHECK(event.kind < SCTP_ASSOC_EVENT_OTHER && event.stream < CASE_STREAMS);
        told_counts[end][event.kind][event.stream]++;
        if (event.kind == SCTP_ASSOC_EVENT_OPENED)
            done(sctp_assoc_accept_stream(&ends[end].assoc, &accepted));
        if (event.kind != SCTP_ASSOC_EVENT_DATAGRAM_RECEIVED && event.kind != SCTP_ASSOC_EVENT_READABLE)
            say("%c is told event %u of stream %u, reason %u", "AB"[end], event.kind, event.stream, event.reason);
    }
    if (is_reading[end])
        read_all(end);
}

static inline void send_in_case(int from, const uint8_t *datagram, size_t length) {
    bool is_lost = is_black || (loses && loses(from, datagram, length));
    uint64_t leaves = leaves_at[from] > now ? leaves_at[from] : now;
    show(is_lost ? "is lost" : "goes", from, datagram, length);
    if (!is_lost)
        put_on_way(!from, leaves + CASE_DELAY, datagram, length);
}

static inline void look_at_nothing(int end) {
    (void)end;
}

/* ---- Beginning and end ---- */

static inline void begin_case(const struct run *case_run) {
    begin_pair(case_run);
    loses = NULL;
    is_black = false;
    for (int end = 0; end < 2; end++) {
        is_reading[end] = true;
        leaves_at[end] = 0;
    }
    memset(read_counts, 0, sizeof read_counts);
    memset(told_counts, 0, sizeof told_counts);
}

static inline void join_for(const struct run *case_run) {
    sctp_assoc_token tokens[2];
    begin_case(case_run);
    for (int end = 0; end < 2; end++)
        CHECK(done(sctp_assoc_make_token(&config, (uint32_t)end + 1, 100 + 400 * (uint32_t)end, &tokens[end])));
    for (int end = 0; end < 2; end++)
        CHECK(done(sctp_assoc_joined(&ends[end].assoc, &config, PAYLOAD_SIZE, &tokens[end], &tokens[!end])));
}

static const struct run case_run = {take_case_events, send_in_case, look_at_nothing, NULL};

/* Two ends that tokens join. */
static inline void join(void) {
    join_for(&case_run);
    turn_both();
}

/* A client and a server, or two clients, before their handshake. */
static inline void meet(bool are_both_clients) {
    sctp_assoc_identity identities[2] = {identity(1), identity(2)};
    begin_case(&case_run);
    CHECK(done(sctp_assoc_client(&ends[A].assoc, &config, PAYLOAD_SIZE, &identities[A], now)));
    CHECK(done((are_both_clients ? sctp_assoc_client : sctp_assoc_server)(&ends[B].assoc, &config, PAYLOAD_SIZE,
                                                                          &identities[B], now)));
}

/* ---- What an application does ---- */

static inline void pass(uint64_t ms) {
    live_until(now + ms * MS);
}

static inline bool opens(int end, uint16_t stream) {
    return sctp_assoc_open_stream(&ends[end].assoc, stream, SCTP_ASSOC_PPID_BINARY) == SCTP_ASSOC_DONE;
}

static inline bool accepts(int end, uint16_t stream, size_t length) {
    memset(bytes, 7, length);
    return sctp_assoc_write(&ends[end].assoc, stream, SCTP_ASSOC_PPID_OF_STREAM, bytes, length) == SCTP_ASSOC_DONE;
}

/* Writes a message, which goes out as far as the windows allow. */
static inline bool writes(int end, uint16_t stream, size_t length) {
    bool is_accepted = accepts(end, stream, length);
    turn(end);
    return is_accepted;
}

/* Whether so many messages of this length were all written. */
static inline bool writes_many(int end, uint16_t stream, size_t length, unsigned count) {
    while (count > 0 && writes(end, stream, length))
        count--;
    return count == 0;
}

static inline bool closes(int end, uint16_t stream) {
    bool is_closed = sctp_assoc_close_stream(&ends[end].assoc, stream) == SCTP_ASSOC_DONE;
    turn(end);
    return is_closed;
}

/* Messages that are written from here on go out once, or as often as it takes. */
static inline void set_reliable(int end, uint16_t stream, bool is_reliable) {
    CHECK(done(sctp_assoc_set_reliability(&ends[end].assoc, stream, false,
                                          is_reliable ? SCTP_ASSOC_RELIABLE : SCTP_ASSOC_REXMIT, 0)));
}

/* ---- What is so of an end ---- */

static inline bool is_established(int end) {
    return sctp_assoc_is_established(&ends[end].assoc);
}

static inline bool goes_on(void) {
    return watches[A].end == SCTP_ASSOC_END_NONE && watches[B].end == SCTP_ASSOC_END_NONE;
}

static inline bool are_shut_down(void) {
    return watches[A].end == SCTP_ASSOC_END_SHUT_DOWN && watches[B].end == SCTP_ASSOC_END_SHUT_DOWN;
}

static inline bool is_acknowledged(int end, uint16_t stream) {
    size_t buffered;
    return sctp_assoc_buffered_amount(&ends[end].assoc, stream, &buffered) == SCTP_ASSOC_DONE && buffered == 0;
}

/* Lives until all is acknowledged that an end wrote on the stream, and so long at most. */
static inline bool is_acknowledged_within(int end, uint16_t stream, uint64_t ms) {
    for (uint64_t until = now + ms * MS; now < until && !is_acknowledged(end, stream);)
        pass(10);
    return is_acknowledged(end, stream);
}

/* Both ends are told so often that a reset of the stream is complete. */
static inline bool are_told_complete(uint16_t stream, unsigned times) {
    return told(A, SCTP_ASSOC_EVENT_RESET_COMPLETE, stream) == times &&
           told(B, SCTP_ASSOC_EVENT_RESET_COMPLETE, stream) == times;
}

/* ---- What is lost ---- */

static unsigned number_lost, number_seen; /* of what a loss counts, since a case set it */

static inline uint8_t first_chunk(const uint8_t *datagram) {
    return datagram[12];
}

static inline bool loses_first_data(int from, const uint8_t *datagram, size_t length) {
    (void)length;
    return from == A && first_chunk(datagram) == 0 && number_lost++ == 0;
}

/* An Outgoing SSN Reset Request (RFC 6525 section 4.1). */
static inline bool is_request(const uint8_t *datagram) {
    return first_chunk(datagram) == 130 && datagram[17] == 13;
}

static inline bool loses_second_request(int from, const uint8_t *datagram, size_t length) {
    (void)length;
    return from == A && is_request(datagram) && ++number_seen == 2;
}

static inline bool loses_cookie_acks(int from, const uint8_t *datagram, size_t length) {
    (void)length;
    return from == B && first_chunk(datagram) == 11;
}

static inline bool loses_two_init_acks(int from, const uint8_t *datagram, size_t length) {
    (void)from, (void)length;
    return first_chunk(datagram) == 2 && number_lost++ < 2;
}

static inline bool loses_first_complete(int from, const uint8_t *datagram, size_t length) {
    (void)from, (void)length;
    return first_chunk(datagram) == 14 && number_lost++ == 0;
}

/* A link of so many datagrams a second, with a queue for so many of each end. */
static uint64_t link_rate, link_room;

static inline bool overflows_link(int from, const uint8_t *datagram, size_t length) {
    uint64_t time = SECOND / link_rate, begins = leaves_at[from] > now ? leaves_at[from] : now;
    (void)datagram, (void)length;
    if ((begins - now) / time >= link_room)
        return true;
    leaves_at[from] = begins + time;
    return false;
}

/* From here on this is lost, counted anew; NULL for nothing. */
static inline void lose(bool (*which)(int from, const uint8_t *datagram, size_t length)) {
    loses = which;
    number_lost = number_seen = 0;
}

#endif
