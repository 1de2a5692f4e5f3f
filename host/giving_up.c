/* Messages that are given up (RFC 3758), between messages that are not, over a network that loses what A sends by what
 * is in it, and nothing of what B sends. A datagram has room for one piece of four bytes. */
#include "steps.h"

enum { DATA = 0, FORWARD_TSN = 192 };

#define ROUNDS 60      /* deadlines that are served at most */
#define ALL UINT32_MAX /* more than is ever sent */
#define GIVEN 'x'      /* of which the message is that may be given up */
#define BEHIND 'b'     /* of which the reliable one is behind it */

/* How a message is sent. */
struct policy {
    bool unordered;
    uint32_t kind, value;
};

static const struct policy once = {false, SCTP_ASSOC_REXMIT, 0}, once_unordered = {true, SCTP_ASSOC_REXMIT, 0};
static const struct policy twice = {false, SCTP_ASSOC_REXMIT, 1}, twice_unordered = {true, SCTP_ASSOC_REXMIT, 1};
static const struct policy three_times = {false, SCTP_ASSOC_REXMIT, 2};
static const struct policy for_0_ms = {false, SCTP_ASSOC_TIMED, 0}, for_0_ms_unordered = {true, SCTP_ASSOC_TIMED, 0};
static const struct policy for_10_ms = {false, SCTP_ASSOC_TIMED, 10};
static const struct policy for_10_ms_unordered = {true, SCTP_ASSOC_TIMED, 10};
static const struct policy for_5_s = {false, SCTP_ASSOC_TIMED, 5000};
static const struct policy reliable = {false, SCTP_ASSOC_RELIABLE, 0};

/* What is still to be lost: DATA of messages that begin with this letter, and FORWARD TSN chunks, so many of each
 * before the first one comes through. */
static struct {
    uint8_t letter;
    uint32_t data, forwards;
} losses;

static uint8_t datagram[SCTP_ASSOC_MAX_DATAGRAM];
static size_t length;
static uint64_t now;

/* Whether any are left to be lost; one less is left then. */
static bool is_left(uint32_t *count) {
    bool left = *count > 0;
    *count -= left;
    return left;
}

/* Whether the network loses the datagram, by its chunks (RFC 4960 section 3). */
static bool is_lost(void) {
    bool lost = false;
    for (size_t at = 12; at + 4 <= length;) {
        size_t chunk = (size_t)datagram[at + 2] << 8 | datagram[at + 3];
        CHECK(chunk >= 4 && at + chunk <= length);
        if (datagram[at] == DATA && datagram[at + 16] == losses.letter)
            lost |= is_left(&losses.data);
        if (datagram[at] == FORWARD_TSN)
            lost |= is_left(&losses.forwards);
        at += (chunk + 3) / 4 * 4;
    }
    return lost;
}

static uint32_t kept_rules = SCTP_ASSOC_PROFILE_RFC; /* the profile of both ends */

/* Carries datagrams both ways until neither end has any to send. */
static void exchange(void) {
    for (bool any = true; any;) {
        any = false;
        for (int end = 0; end < 2; end++)
            while (done(sctp_assoc_poll_transmit(&ends[end], now, datagram, sizeof datagram, &length))) {
                uint32_t fate;
                any = true;
                if (end == A && is_lost())
                    continue;
                CHECK(done(sctp_assoc_handle_datagram(&ends[!end], now, datagram, length, &fate)));
                CHECK(fate == SCTP_ASSOC_TAKEN);
            }
    }
}

/* The moment at which the next timer of either end expires, UINT64_MAX if none runs. */
static uint64_t next_deadline(void) {
    uint64_t first = UINT64_MAX, moment;
    for (int end = 0; end < 2; end++)
        if (done(sctp_assoc_poll_timeout(&ends[end], &moment)) && moment < first)
            first = moment;
    return first;
}

/* Carries datagrams, each at the moment when it is given out, and serves each deadline when it comes. Answers whether
 * no timer runs at last. */
static bool settles(void) {
    for (int round = 0; round < ROUNDS; round++) {
        exchange();
        uint64_t moment = next_deadline();
        if (moment == UINT64_MAX)
            return true;
        now = moment;
        for (int end = 0; end < 2; end++)
            CHECK(done(sctp_assoc_handle_timeout(&ends[end], now)));
    }
    return false;
}

static void write_under(const struct policy *policy, uint8_t byte, size_t count) {
    CHECK(done(sctp_assoc_set_reliability(&ends[A], STREAM, policy->unordered, policy->kind, policy->value)));
    write_bytes(byte, count);
}

/* A reliable message, one of ten bytes under this policy, and a reliable one, which wait to go out over a network that
 * loses so much DATA of messages of this letter, and so many FORWARD TSNs. */
static void begin(const struct policy *policy, uint8_t letter, uint32_t data, uint32_t forwards) {
    sctp_assoc_config config = default_config();
    config.profile = kept_rules;
    join(&config, 4);
    now = 0;
    losses.letter = letter, losses.data = data, losses.forwards = forwards;
    write_under(&reliable, 'a', 1);
    write_under(policy, GIVEN, 10);
    write_under(&reliable, BEHIND, 1);
}

/* Nothing of A's messages is buffered any more. */
static void is_released(void) {
    size_t bytes;
    CHECK(done(sctp_assoc_buffered_amount(&ends[A], STREAM, &bytes)) && bytes == 0);
}

/* B reads the messages, with that in the middle whole or without it, and nothing else; no timer runs any more. An
 * unordered one is read first. */
static void comes_through(bool is_whole, bool unordered) {
    CHECK(settles());
    if (is_whole && unordered)
        read_bytes(GIVEN, 10);
    read_bytes('a', 1);
    if (is_whole && !unordered)
        read_bytes(GIVEN, 10);
    read_bytes(BEHIND, 1);
    read_none();
    is_released();
    free_both(ends);
}

/* A message that never comes is passed over, at the first FORWARD TSN or at the third. */
static void never_comes(const struct policy *policy) {
    for (uint32_t forwards = 0; forwards <= 2; forwards += 2) {
        begin(policy, GIVEN, ALL, forwards);
        comes_through(false, false);
        CHECK(losses.forwards == 0);
    }
}

/* Nothing is read of a message of which the first piece is lost alone, once it is given up. One that has time left goes
 * again at once by the rules of the RFCs, as nothing is sent behind it that could have it reported three times. */
static void comes_in_part(const struct policy *policy) {
    begin(policy, GIVEN, 1, 0);
    comes_through(kept_rules == SCTP_ASSOC_PROFILE_RFC && policy->kind == SCTP_ASSOC_TIMED, policy->unordered);
}

static void all_come_in_part(void) {
    comes_in_part(&once);
    comes_in_part(&for_10_ms);
    comes_in_part(&once_unordered);
    comes_in_part(&for_10_ms_unordered);
}

/* A message is read that comes before it is given up: its three pieces are lost once. */
static void comes_in_time(const struct policy *policy) {
    begin(policy, GIVEN, 3, 0);
    comes_through(true, false);
}

/* The reliable message behind it comes, however often it is lost. */
static void reliable_is_lost(const struct policy *policy) {
    begin(policy, BEHIND, 12, 0);
    comes_through(true, false);
}

/* What expires before it is sent leaves no gap: without a FORWARD TSN nothing behind a gap could be read. */
static void expires_unsent(const struct policy *policy) {
    begin(policy, GIVEN, ALL, ALL);
    comes_through(false, false);
}

/* A message that is given up takes its stream to the low mark: no FORWARD TSN comes through, so that nothing is
 * acknowledged past the first message. */
static void falls_to_low_mark(void) {
    begin(&once, GIVEN, ALL, ALL);
    CHECK(!settles());
    is_told(A, SCTP_ASSOC_EVENT_CONNECTED);
    is_told(A, SCTP_ASSOC_EVENT_BUFFERED_LOW);
    is_told_no_more(A);
    is_released();
    free_both(ends);
}

int main(void) {
    never_comes(&once);
    never_comes(&three_times);
    never_comes(&for_10_ms);
    never_comes(&for_5_s);
    never_comes(&twice_unordered);
    never_comes(&for_10_ms_unordered);
    all_come_in_part();
    kept_rules = SCTP_ASSOC_PROFILE_PORT;
    all_come_in_part();
    kept_rules = SCTP_ASSOC_PROFILE_RFC;
    comes_in_time(&twice);
    comes_in_time(&for_5_s);
    comes_in_time(&reliable);
    reliable_is_lost(&once);
    reliable_is_lost(&for_10_ms);
    expires_unsent(&for_0_ms);
    expires_unsent(&for_0_ms_unordered);
    falls_to_low_mark();
    puts("giving_up: ok");
    return 0;
}
