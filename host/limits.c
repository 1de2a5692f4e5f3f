/* What is at a limit or past it: a message that is longer than the receiver takes, a receive buffer that is full of
 * what can never be read, and a thousand messages that wait at once. */
#include "steps.h"

#define SIZE 1200
#define MANY 1000

static bool answers(int end, sctp_assoc_code (*question)(sctp_assoc *, bool *)) {
    bool answer;
    CHECK(done(question(&ends[end], &answer)));
    return answer;
}

/* A message of two bytes comes to a receiver that takes messages of so many: past its limit it closes. */
static void receive_limit(uint32_t limit) {
    sctp_assoc_config config = default_config();
    config.max_receive_message_size = limit;
    join(&config, SIZE);
    write_bytes('h', 2);
    CHECK(send_due(A) == 1);
    deliver(B, 0);
    if (limit >= 2) {
        read_bytes('h', 2);
        CHECK(sctp_assoc_is_established(&ends[B]) && !answers(B, sctp_assoc_is_closed));
    } else {
        uint8_t byte;
        size_t length;
        uint32_t type;
        CHECK(sctp_assoc_read(&ends[B], STREAM, &byte, 1, &length, &type) == SCTP_ASSOC_NO_STREAM);
        CHECK(!sctp_assoc_is_established(&ends[B]) && answers(B, sctp_assoc_is_closed));
    }
    free_both(ends);
}

/* B's ABORT with the cause Out of Resource, under the tag 1; it was spelled apart from the library. */
static const uint8_t abort_packet[] = {0x13, 0x88, 0x13, 0x88, 0, 0, 0, 1, 0xa0, 0x8b,
                                       0x88, 0xb4, 6,    0,    0, 8, 0, 4, 0,    4};

/* What A's 3,601 bytes do to B, whose buffer has 2,000: two packets go out, and then nothing of it can be read or
 * come. B closes and tells A. */
static void exhausted_buffer(void) {
    sctp_assoc_config config = default_config();
    config.max_receive_buffer_size = 2000;
    join(&config, SIZE);
    write_bytes('a', 3601);
    CHECK(send_due(A) == 1);
    deliver(B, 0);
    expire(B, 200);
    CHECK(send_due(B) == 1);
    deliver(A, 0);
    CHECK(send_due(A) == 1);
    deliver(B, 1);
    CHECK(send_due(B) == 1 && sent[B][1].length == sizeof abort_packet);
    CHECK(memcmp(sent[B][1].bytes, abort_packet, sizeof abort_packet) == 0);
    deliver(A, 1);

    is_told(A, SCTP_ASSOC_EVENT_CONNECTED);
    is_told(A, SCTP_ASSOC_EVENT_STREAM_ENDED);
    is_told_loss(A, SCTP_ASSOC_REASON_CLOSED);
    is_told(B, SCTP_ASSOC_EVENT_CONNECTED);
    is_told(B, SCTP_ASSOC_EVENT_OPENED);
    is_told(B, SCTP_ASSOC_EVENT_DATAGRAM_RECEIVED);
    is_told(B, SCTP_ASSOC_EVENT_DATAGRAM_RECEIVED);
    is_told(B, SCTP_ASSOC_EVENT_STREAM_ENDED);
    is_told_loss(B, SCTP_ASSOC_REASON_BUFFER_EXHAUSTED);
    free_both(ends);
}

/* A writes many messages and gives them all out at once: 60 chunks of 20 bytes in each packet but the last one. B gets
 * all of these before it asks for the first event, or reads. */
static void many_waiting(void) {
    sctp_assoc_config config = default_config();
    size_t bytes;
    config.profile = SCTP_ASSOC_PROFILE_PORT; /* which knows no Max.Burst */
    join(&config, SIZE);
    for (int i = 0; i < MANY; i++)
        write_bytes('a', 1);
    CHECK(done(sctp_assoc_buffered_amount(&ends[A], STREAM, &bytes)) && bytes == MANY);
    CHECK(send_due(A) == 17);
    for (size_t number = 0; number < 17; number++)
        deliver(B, number);
    is_told(B, SCTP_ASSOC_EVENT_CONNECTED);
    is_told(B, SCTP_ASSOC_EVENT_OPENED);
    for (int i = 0; i < MANY; i++) {
        is_told(B, SCTP_ASSOC_EVENT_DATAGRAM_RECEIVED);
        is_told(B, SCTP_ASSOC_EVENT_READABLE);
        read_bytes('a', 1);
    }
    is_told_no_more(B);
    read_none();
    free_both(ends);
}

int main(void) {
    receive_limit(2);
    receive_limit(1);
    exhausted_buffer();
    many_waiting();
    puts("limits: ok");
    return 0;
}
