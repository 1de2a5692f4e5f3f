/* The graceful end of an association (RFC 4960 section 9.2), which either side asks for, or both at once: messages that
 * were written before it come, and then both are told the end. Datagrams of it that cross, and that are lost, and want
 * of memory. */
#include "support.h"

#define STREAM 7
#define LENGTH 6000 /* more than goes out before the first acknowledgement */

static sctp_assoc ends[2];
static uint32_t profile = SCTP_ASSOC_PROFILE_RFC;
static unsigned read_count[2];
static uint8_t bytes[LENGTH], message[LENGTH];
static size_t length;
static sctp_assoc_event event;

static bool answers(int end, sctp_assoc_code (*question)(sctp_assoc *, bool *)) {
    bool answer;
    CHECK(done(question(&ends[end], &answer)));
    return answer;
}

static void begin(void) {
    sctp_assoc_config config = default_config();
    config.profile = profile;
    shake_hands(ends, &config, 0);
    fill(message, LENGTH, 1);
    for (int end = 0; end < 2; end++) {
        read_count[end] = 0;
        CHECK(done(sctp_assoc_open_stream(&ends[end], STREAM, SCTP_ASSOC_PPID_BINARY)));
    }
}

/* Messages are read as they come, since the end of the association takes those that are not. */
static void read_all(int end) {
    uint32_t type;
    while (sctp_assoc_read(&ends[end], STREAM, bytes, sizeof bytes, &length, &type) == SCTP_ASSOC_DONE) {
        CHECK(length == LENGTH && !memcmp(bytes, message, LENGTH));
        read_count[end]++;
    }
}

/* Carries datagrams both ways, and lets time pass. */
static void settle(void) {
    for (uint64_t now = 0; now < 10000 * MS; now += 100 * MS)
        for (int end = 0; end < 2; end++) {
            CHECK(done(sctp_assoc_handle_timeout(&ends[end], now)));
            pass_on(&ends[end], &ends[!end], now);
            read_all(!end);
        }
}

/* A shutdown begins at an end, which is told once; after that it accepts nothing. */
static void shut_down(int end) {
    CHECK(sctp_assoc_poll_endpoint_event(&ends[end]) == SCTP_ASSOC_NOTHING);
    CHECK(!answers(end, sctp_assoc_is_closing) && done(sctp_assoc_shutdown(&ends[end])));
    CHECK(sctp_assoc_poll_endpoint_event(&ends[end]) == SCTP_ASSOC_DONE);
    CHECK(sctp_assoc_poll_endpoint_event(&ends[end]) == SCTP_ASSOC_NOTHING);
    CHECK(sctp_assoc_shutdown(&ends[end]) == SCTP_ASSOC_SHUTDOWN_NOT_ESTABLISHED);
    CHECK(sctp_assoc_write(&ends[end], STREAM, SCTP_ASSOC_PPID_BINARY, message, 1) == SCTP_ASSOC_NOT_ESTABLISHED);
    CHECK(sctp_assoc_stop(&ends[end], STREAM) == SCTP_ASSOC_CANNOT_RESET);
    CHECK(answers(end, sctp_assoc_is_closing) && !sctp_assoc_is_established(&ends[end]));
    CHECK(!sctp_assoc_is_drained(&ends[end]) && !answers(end, sctp_assoc_is_closed));
}

/* An end is told once that the association was closed, and has no timer and nothing to send any more. */
static void is_over(int end) {
    uint64_t moment;
    unsigned lost = 0;
    while (done(sctp_assoc_poll_event(&ends[end], &event)))
        lost += event.kind == SCTP_ASSOC_EVENT_LOST && event.reason == SCTP_ASSOC_REASON_CLOSED;
    CHECK(lost == 1);
    CHECK(sctp_assoc_is_drained(&ends[end]) && answers(end, sctp_assoc_is_closed));
    CHECK(!answers(end, sctp_assoc_is_closing) && !answers(end, sctp_assoc_is_failed));
    CHECK(sctp_assoc_poll_timeout(&ends[end], &moment) == SCTP_ASSOC_NOTHING);
    CHECK(sctp_assoc_poll_transmit(&ends[end], 10000 * MS, bytes, sizeof bytes, &length) == SCTP_ASSOC_NOTHING);
}

/* Each end writes a message or none, and then these ends shut down. */
static void ended_by(bool client, bool server, unsigned messages) {
    begin();
    for (int end = 0; end < 2 && messages; end++)
        CHECK(done(sctp_assoc_write(&ends[end], STREAM, SCTP_ASSOC_PPID_BINARY, message, LENGTH)));
    if (client)
        shut_down(0);
    if (server)
        shut_down(1);
    settle();
    for (int end = 0; end < 2; end++) {
        CHECK(read_count[end] == messages);
        is_over(end);
    }
    free_both(ends);
}

/* Both ends shut down, and each gets the SHUTDOWN of the other one after its own went out. */
static void crossed(void) {
    uint8_t datagrams[2][PAYLOAD_SIZE + 28];
    size_t lengths[2];
    uint32_t fate;
    begin();
    for (int end = 0; end < 2; end++) {
        shut_down(end);
        CHECK(done(sctp_assoc_poll_transmit(&ends[end], 0, datagrams[end], sizeof datagrams[end], &lengths[end])));
        CHECK(datagrams[end][12] == 7);
    }
    for (int end = 0; end < 2; end++) {
        CHECK(done(sctp_assoc_handle_datagram(&ends[end], 0, datagrams[!end], lengths[!end], &fate)));
        CHECK(fate == SCTP_ASSOC_TAKEN);
    }
    settle();
    is_over(0);
    is_over(1);
    free_both(ends);
}

/* Loses the one datagram that an end has to send, with a chunk of this type. */
static void lose(int end, uint8_t kind) {
    CHECK(done(sctp_assoc_poll_transmit(&ends[end], 0, bytes, sizeof bytes, &length)) && bytes[12] == kind);
    CHECK(!done(sctp_assoc_poll_transmit(&ends[end], 0, bytes, sizeof bytes, &length)));
}

/* SHUTDOWN is lost, or the SHUTDOWN ACK that answers it: it goes out again. */
static void goes_again(bool is_answer) {
    begin();
    shut_down(0);
    if (is_answer)
        pass_on(&ends[0], &ends[1], 0);
    lose(is_answer, is_answer ? 8 : 7);
    settle();
    is_over(0);
    is_over(1);
    free_both(ends);
}

/* SHUTDOWN COMPLETE is lost. The side that sent it closed, and answers the SHUTDOWN ACK that comes again; by the rules
 * of the port it does not, and the other one waits until its program has enough. */
static void is_not_completed(uint32_t by) {
    profile = by;
    begin();
    profile = SCTP_ASSOC_PROFILE_RFC;
    shut_down(0);
    pass_on(&ends[0], &ends[1], 0);
    CHECK(answers(1, sctp_assoc_is_closing) && !done(sctp_assoc_poll_endpoint_event(&ends[1])));
    pass_on(&ends[1], &ends[0], 0);
    lose(0, 14);
    is_over(0);
    settle();
    CHECK(answers(1, sctp_assoc_is_closing) == (by == SCTP_ASSOC_PROFILE_PORT));
    if (by == SCTP_ASSOC_PROFILE_PORT)
        CHECK(done(sctp_assoc_close(&ends[1])));
    is_over(1);
    free_both(ends);
}

/* A shutdown takes no memory, but its datagrams do. */
static void out_of_memory(void) {
    begin();
    refused_from = growths + 1, refused_to = UINT64_MAX;
    shut_down(0);
    CHECK(sctp_assoc_poll_transmit(&ends[0], 0, bytes, sizeof bytes, &length) == SCTP_ASSOC_NO_MEMORY);
    refused_from = refused_to = 0;
    CHECK(answers(0, sctp_assoc_is_failed) && sctp_assoc_shutdown(&ends[0]) == SCTP_ASSOC_FAILED);
    free_both(ends);
}

int main(void) {
    for (unsigned messages = 0; messages < 2; messages++) {
        TRY(ended_by(true, false, messages));
        TRY(ended_by(false, true, messages));
        TRY(ended_by(true, true, messages));
    }
    TRY(crossed());
    TRY(goes_again(false));
    TRY(goes_again(true));
    TRY(is_not_completed(SCTP_ASSOC_PROFILE_RFC));
    TRY(is_not_completed(SCTP_ASSOC_PROFILE_PORT));
    TRY(out_of_memory());
    puts("shutdown: ok");
    return 0;
}
