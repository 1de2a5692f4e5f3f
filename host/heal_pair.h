/* Two honest ends in virtual time, and what is on the way between them. A run says what becomes of a datagram that an
 * end gives out and who takes its events; the loop of each end is that of the head of sctp_assoc.h. */
#ifndef HEAL_PAIR_H
#define HEAL_PAIR_H

#include "support.h"

#include "sctp_channels.h"

#include <stdarg.h>

#define SECOND UINT64_C(1000000000)
#define NEVER UINT64_MAX
#define COUNT_OF(array) (sizeof(array) / sizeof *(array))
#define MOST_OF_A_TURN 200000 /* datagrams that an end gives out at one moment */

enum { A, B };

struct datagram {
    struct datagram *before, *after;
    uint64_t at; /* when it comes */
    int to;
    unsigned generation; /* of its sender as it went out */
    size_t length;
    uint8_t bytes[];
};

/* What a run does with what the loop of an end brings. */
struct run {
    void (*take_events)(int end);
    void (*send)(int from, const uint8_t *datagram, size_t length);
    void (*look)(int end);                                    /* after each turn */
    void (*meet)(const struct datagram *came, uint32_t fate); /* NULL if no fate matters */
};

static sctp_peer ends[2]; /* of channels only the tests of those know */
static sctp_assoc_watch watches[2];
static bool is_failed[2];       /* for want of memory */
static bool is_down[2];         /* its program crashed, and was not started anew yet: the slot is empty */
static unsigned generations[2]; /* how often the client's program was started anew; a server has that of its client */
static bool may_be_refused;     /* memory, in this run */
static uint64_t now;
static uint64_t timer_slack[2]; /* how late an end looks at its timers if nothing else happens */
static uint64_t last_expiry[2];
static unsigned expiries_at_once[2]; /* how often in a row timers expired at that moment */
static const struct run *run;
static struct datagram *first_on_way, *last_on_way; /* by the moments at which they come */
static uint8_t bytes[65536];                        /* of a message that is written or read */
static bool is_verbose;

/* ---- What is printed of each step ---- */

static inline void say(const char *format, ...) {
    va_list values;
    if (!is_verbose)
        return;
    printf("%10.3f ", (double)now / 1e9);
    va_start(values, format);
    vprintf(format, values);
    va_end(values);
    putchar('\n');
}

static inline uint32_t number_at(const uint8_t *at, int width) {
    uint32_t value = 0;
    for (int i = 0; i < width; i++)
        value = value << 8 | at[i];
    return value;
}

/* The streams that a reset request or a FORWARD TSN names, from here to there. */
static inline void print_streams(const uint8_t *from, const uint8_t *to, int step) {
    for (const uint8_t *at = from; at + step <= to; at += step)
        printf(" s%u", number_at(at, 2));
}

static inline void print_chunk(const uint8_t *chunk, uint32_t length) {
    static const char *const names[] = {"DATA",          "INIT",       "INIT-ACK", "SACK",         "HEARTBEAT",
                                        "HEARTBEAT-ACK", "ABORT",      "SHUTDOWN", "SHUTDOWN-ACK", "ERROR",
                                        "COOKIE-ECHO",   "COOKIE-ACK", "ECNE",     "CWR",          "SHUTDOWN-COMPLETE"};
    const uint8_t *end = chunk + length;
    printf("  %s", chunk[0] < COUNT_OF(names) ? names[chunk[0]] : chunk[0] == 130 ? "RE-CONFIG" : "FORWARD-TSN");
    if (chunk[0] == 0)
        printf(" %u s%u ssn %u flags %u bytes %u", number_at(chunk + 4, 4), number_at(chunk + 8, 2),
               number_at(chunk + 10, 2), chunk[1], length - 16);
    if (chunk[0] == 3)
        printf(" %u window %u blocks %u", number_at(chunk + 4, 4), number_at(chunk + 8, 4), number_at(chunk + 12, 2));
    if (chunk[0] == 192) {
        printf(" %u", number_at(chunk + 4, 4));
        print_streams(chunk + 8, end, 4);
    }
    if (chunk[0] == 130 && number_at(chunk + 4, 2) == 13) {
        printf(" request %u last %u", number_at(chunk + 8, 4), number_at(chunk + 16, 4));
        print_streams(chunk + 20, end, 2);
    } else if (chunk[0] == 130) {
        printf(" response %u result %u", number_at(chunk + 8, 4), number_at(chunk + 12, 4));
    }
}

static inline void show(const char *what, int from, const uint8_t *datagram, size_t length) {
    if (!is_verbose)
        return;
    printf("%10.3f %s of %c:", (double)now / 1e9, what, "AB"[from]);
    for (size_t at = 12; at + 4 <= length; at += (number_at(datagram + at + 2, 2) + 3) / 4 * 4) {
        CHECK(number_at(datagram + at + 2, 2) >= 4);
        print_chunk(datagram + at, number_at(datagram + at + 2, 2));
    }
    putchar('\n');
}

/* ---- The way between the ends ---- */

static inline void put_on_way(int to, uint64_t at, const uint8_t *bytes, size_t length) {
    struct datagram *put = malloc(sizeof *put + length), *before = last_on_way;
    CHECK(put != NULL);
    put->at = at, put->to = to, put->length = length;
    put->generation = generations[!to];
    memcpy(put->bytes, bytes, length);
    while (before && before->at > at)
        before = before->before;
    put->before = before;
    put->after = before ? before->after : first_on_way;
    *(before ? &before->after : &first_on_way) = put;
    *(put->after ? &put->after->before : &last_on_way) = put;
}

static inline struct datagram *take_first(void) {
    struct datagram *taken = first_on_way;
    first_on_way = taken->after;
    *(first_on_way ? &first_on_way->before : &last_on_way) = NULL;
    return taken;
}

/* ---- The loop of an end ---- */

/* Notes whether an end failed, which only memory that was refused may bring, and answers the code. */
static inline sctp_assoc_code noted(int end, sctp_assoc_code code) {
    if (code == SCTP_ASSOC_NO_MEMORY || code == SCTP_ASSOC_FAILED) {
        CHECK(may_be_refused);
        CHECK(sctp_assoc_is_failed(&ends[end].assoc, &is_failed[end]) == SCTP_ASSOC_DONE);
        CHECK(is_failed[end] || code == SCTP_ASSOC_NO_MEMORY);
    }
    return code;
}

/* Whether a call of the loop was done. */
static inline bool went(int end, sctp_assoc_code code) {
    noted(end, code);
    return code != SCTP_ASSOC_NO_MEMORY && code != SCTP_ASSOC_FAILED && done(code);
}

static inline void expire(int end) {
    expiries_at_once[end] = last_expiry[end] == now ? expiries_at_once[end] + 1 : 1;
    last_expiry[end] = now;
    went(end, sctp_assoc_watched_handle_timeout(&ends[end].assoc, &watches[end], now));
}

static inline void send_all(int end) {
    static uint8_t datagram[SCTP_ASSOC_MAX_DATAGRAM];
    size_t length, count = 0;
    while (went(end, sctp_assoc_watched_poll_transmit(&ends[end].assoc, &watches[end], now, datagram, sizeof datagram,
                                                      &length))) {
        CHECK(++count < MOST_OF_A_TURN);
        run->send(end, datagram, length);
    }
}

/* Whether an end has an association whose loop goes on. */
static inline bool is_running(int end) {
    return !is_failed[end] && !is_down[end];
}

static inline void turn(int end) {
    uint64_t due;
    if (!is_running(end))
        return;
    if (done(sctp_assoc_poll_timeout(&ends[end].assoc, &due)) && due <= now)
        expire(end);
    run->take_events(end);
    send_all(end);
    run->take_events(end);
    run->look(end);
}

static inline void turn_both(void) {
    turn(A);
    turn(B);
}

/* When the timer of an end expires next. */
static inline uint64_t due_at(int end) {
    uint64_t due;
    return is_running(end) && done(sctp_assoc_poll_timeout(&ends[end].assoc, &due)) ? due : NEVER;
}

/* The moment of the next timer or datagram, unless another one comes first. */
static inline uint64_t next_moment(uint64_t other) {
    uint64_t next = other;
    for (int end = 0; end < 2; end++) {
        uint64_t due = due_at(end);
        if (due < NEVER - timer_slack[end] && due + timer_slack[end] < next)
            next = due + timer_slack[end];
    }
    if (first_on_way && first_on_way->at < next)
        next = first_on_way->at;
    return next > now ? next : now;
}

static inline void deliver_due(void) {
    while (first_on_way && first_on_way->at <= now) {
        struct datagram *came = take_first();
        int end = came->to;
        uint32_t fate;
        if (is_running(end)) {
            show("comes", !end, came->bytes, came->length);
            if (went(end, sctp_assoc_watched_handle_datagram(&ends[end].assoc, &watches[end], now, came->bytes,
                                                             came->length, &fate)) &&
                run->meet)
                run->meet(came, fate);
        }
        free(came);
        turn(end);
    }
}

/* Lives until that moment. */
static inline void live_until(uint64_t until) {
    for (;;) {
        now = next_moment(until);
        if (now >= until)
            return;
        deliver_due();
        turn_both();
    }
}

/* ---- The beginning and the end of a pair ---- */

static inline void begin_pair(const struct run *begun) {
    run = begun;
    now = SECOND;
    may_be_refused = false;
    memset(watches, 0, sizeof watches);
    for (int end = 0; end < 2; end++) {
        is_failed[end] = is_down[end] = false;
        generations[end] = 0;
        timer_slack[end] = last_expiry[end] = 0;
        expiries_at_once[end] = 0;
    }
}

static inline void end_pair(void) {
    while (first_on_way)
        free(take_first());
    for (int end = 0; end < 2; end++)
        CHECK(sctp_peer_free(&ends[end]) == SCTP_ASSOC_DONE);
    CHECK(blocks == 0 && heap_bytes == 0);
}

#endif
