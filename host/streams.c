/* What is told of one stream: its marks, what it counts, and its end if both halves are closed before the peer has read
 * (RFC 6525). */
#include "steps.h"

static void begin(uint32_t type) {
    sctp_assoc_config config = default_config();
    join_for(type, &config, 1200);
}

/* What the stream counted at an end. */
static void has_counted(int end, uint64_t messages_sent, uint64_t bytes_sent, uint64_t messages_received,
                        uint64_t bytes_received) {
    sctp_assoc_counters counters;
    CHECK(done(sctp_assoc_stream_stats(&ends[end], STREAM, &counters)));
    CHECK(counters.messages_sent == messages_sent && counters.bytes_sent == bytes_sent);
    CHECK(counters.messages_received == messages_received && counters.bytes_received == bytes_received);
}

/* A message of two bytes goes past the marks of 1 and 2, and is acknowledged. Under a type of application data it is
 * counted at both ends. */
static void marks_and_counts(uint32_t type, bool is_counted) {
    begin(type);
    CHECK(done(sctp_assoc_set_low_mark(&ends[A], STREAM, 1)));
    CHECK(done(sctp_assoc_set_high_mark(&ends[A], STREAM, 2)));
    write_bytes('h', 2);
    CHECK(send_due(A) == 1);
    deliver(B, 0);
    read_bytes('h', 2);
    expire(B, 200);
    CHECK(send_due(B) == 1);
    deliver(A, 0);
    is_told(A, SCTP_ASSOC_EVENT_CONNECTED);
    is_told(A, SCTP_ASSOC_EVENT_BUFFERED_HIGH);
    is_told(A, SCTP_ASSOC_EVENT_BUFFERED_LOW);
    is_told_no_more(A);
    has_counted(A, is_counted, 2 * is_counted, 0, 0);
    has_counted(B, 0, 0, is_counted, 2 * is_counted);
    free_both(ends);
}

/* A closes both halves of the stream behind a message. Once B has acknowledged it, A's request goes out; B performs it
 * and asks for a reset itself, before the message is read. */
static void close_behind_a_message(void) {
    uint8_t byte = 1;
    size_t length;
    uint32_t type;
    write_bytes('o', 3);
    CHECK(done(sctp_assoc_close_stream(&ends[A], STREAM)));
    CHECK(sctp_assoc_write(&ends[A], STREAM, SCTP_ASSOC_PPID_OF_STREAM, &byte, 1) == SCTP_ASSOC_STREAM_CLOSED);
    CHECK(sctp_assoc_read(&ends[A], STREAM, &byte, 1, &length, &type) == SCTP_ASSOC_STREAM_CLOSED);
    CHECK(send_due(A) == 1);
    deliver(B, 0);
    expire(B, 200);
    CHECK(send_due(B) == 1);
    deliver(A, 0);
    CHECK(send_due(A) == 1);
    deliver(B, 1);
    CHECK(send_due(B) == 2);
    deliver(A, 1);
}

/* The message is read, and B is told behind it that the stream is finished. Once both directions are reset, the
 * identifier begins anew. */
static void closed_before_it_is_read(void) {
    uint8_t byte;
    size_t length;
    uint32_t type;
    begin(SCTP_ASSOC_PPID_BINARY);
    close_behind_a_message();
    read_bytes('o', 3);
    CHECK(sctp_assoc_read(&ends[B], STREAM, &byte, 1, &length, &type) == SCTP_ASSOC_NO_STREAM);
    is_told(B, SCTP_ASSOC_EVENT_CONNECTED);
    is_told(B, SCTP_ASSOC_EVENT_OPENED);
    is_told(B, SCTP_ASSOC_EVENT_DATAGRAM_RECEIVED);
    is_told(B, SCTP_ASSOC_EVENT_READABLE);
    is_told(B, SCTP_ASSOC_EVENT_FINISHED);
    is_told(B, SCTP_ASSOC_EVENT_STREAM_ENDED);
    is_told_no_more(B);
    deliver(A, 2);
    is_told(A, SCTP_ASSOC_EVENT_CONNECTED);
    is_told(A, SCTP_ASSOC_EVENT_BUFFERED_LOW);
    is_told(A, SCTP_ASSOC_EVENT_STREAM_ENDED);
    is_told(A, SCTP_ASSOC_EVENT_FINISHED);
    is_told(A, SCTP_ASSOC_EVENT_RESET_COMPLETE);
    is_told_no_more(A);
    CHECK(send_due(A) == 1);
    deliver(B, 2);
    is_told(B, SCTP_ASSOC_EVENT_RESET_COMPLETE);
    is_told_no_more(B);
    CHECK(send_due(A) == 0 && send_due(B) == 0);
    CHECK(done(sctp_assoc_open_stream(&ends[A], STREAM, SCTP_ASSOC_PPID_BINARY)));
    free_both(ends);
}

int main(void) {
    marks_and_counts(SCTP_ASSOC_PPID_BINARY, true);
    marks_and_counts(SCTP_ASSOC_PPID_DCEP, false);
    closed_before_it_is_read();
    puts("streams: ok");
    return 0;
}
