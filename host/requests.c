/* Requests of the peer to reset streams, in turn and out of turn (RFC 6525 section 5.2). The datagrams were spelled
 * apart from the library, from RFC 6525 section 4. */
#include "spelled.h"

/* RE-CONFIG under the tag 1: an outgoing reset request with the number 500, the response number 99 and the last TSN
 * 499, of stream 1. */
#define IN_TURN "1388138800000001f65364ee82000016000d0012000001f400000063000001f300010000"

/* The same with the number 505. */
#define AHEAD "1388138800000001de3f839e82000016000d0012000001f900000063000001f300010000"

/* The same with the number 501 and the last TSN 600. */
#define TOO_EARLY "1388138800000001277b541282000016000d0012000001f5000000630000025800010000"

/* The same with the number 502 and the last TSN 600. */
#define BESIDE "13881388000000018833224382000016000d0012000001f6000000630000025800010000"

/* The response to 500. */
#define PERFORMED "13881388000000025350d6b3820000100010000c000001f400000001\n"

/* What the first request brings, under the tag 2: the other direction's own request, with the number 100, the response
 * number 500 and the last TSN 99, of stream 1; and the response to 500 with the result 1, performed. */
#define ANSWERS "13881388000000026826a96d82000016000d001200000064000001f40000006300010000\n" PERFORMED

/* The response to 505 with the result 5: a bad sequence number. */
#define BAD_NUMBER "1388138800000002c11d7f69820000100010000c000001f900000005\n"

/* The response to 501 with the result 6: in progress. */
#define IN_PROGRESS "1388138800000002145b0d5f820000100010000c000001f500000006\n"

/* The response to 502 with the result 4: a request is in progress already. */
#define ALREADY "1388138800000002179b05f6820000100010000c000001f600000004\n"

#define STREAM 1

static sctp_assoc end;

/* An end that opened the stream, and is told of its handshake. */
static void begin(void) {
    CHECK(done(join(&end, 1200, 1, 2)));
    CHECK(done(sctp_assoc_open_stream(&end, STREAM, SCTP_ASSOC_PPID_BINARY)));
    CHECK(is_told(&end, SCTP_ASSOC_EVENT_CONNECTED, 0));
}

static bool is_answered(const char *request, const char *replies) {
    return comes(&end, 0, request) == SCTP_ASSOC_TAKEN && sends(&end, 0, replies);
}

/* The end is told of one end of the stream, and of nothing more. */
static bool ends_once(void) {
    return is_told(&end, SCTP_ASSOC_EVENT_STREAM_ENDED, STREAM) && is_told(&end, SCTP_ASSOC_EVENT_FINISHED, STREAM) &&
           is_told_nothing(&end);
}

static void requests_out_of_turn_are_refused(void) {
    begin();
    CHECK(is_answered(IN_TURN, ANSWERS));
    CHECK(is_answered(IN_TURN, PERFORMED));
    CHECK(is_answered(AHEAD, BAD_NUMBER));
    CHECK(is_answered(TOO_EARLY, IN_PROGRESS));
    CHECK(is_answered(BESIDE, ALREADY));
    CHECK(ends_once());
    release(&end);
}

/* What the calls tell of an end. */
struct shown {
    sctp_assoc_path_values path;
    sctp_assoc_totals totals;
    uint64_t deadline, timeout_ms;
    uint64_t last_tsn;
};

/* What they tell once the request came so often. */
static struct shown shown_after(int times) {
    struct shown shown;
    memset(&shown, 0, sizeof shown);
    begin();
    for (int i = 0; i < times; i++)
        CHECK(is_answered(IN_TURN, i == 0 ? ANSWERS : PERFORMED));
    CHECK(ends_once() && sctp_assoc_is_established(&end));
    CHECK(done(sctp_assoc_stats(&end, &shown.totals)) && done(sctp_assoc_rto(&end, &shown.timeout_ms)));
    shown.path = path_of(&end);
    shown.deadline = deadline(&end);
    shown.last_tsn = last_tsn(&end, 0, 1, OLD_DATA);
    release(&end);
    return shown;
}

static void a_request_that_comes_again_changes_nothing(void) {
    struct shown once = shown_after(1), twice = shown_after(2);
    CHECK(memcmp(&once, &twice, sizeof once) == 0);
    CHECK(once.last_tsn == 499 && once.path.peer_window == 1048576);
}

int main(void) {
    requests_out_of_turn_are_refused();
    a_request_that_comes_again_changes_nothing();
    puts("requests: ok");
    return 0;
}
