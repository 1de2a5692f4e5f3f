/* The reset of a stream (RFC 6525), which a stop or a close asks for: it ends the stream at both sides, which are told,
 * and it can be opened and used anew. Requests that the peer denies or does not answer, and want of memory. */
#include "support.h"

#define STREAM 7

static sctp_assoc ends[2];
static uint8_t bytes[PAYLOAD_SIZE + 28], wanted[100];
static size_t length;
static uint32_t type;
static sctp_assoc_event event;

/* Carries datagrams both ways, and lets time pass, until nothing is due any more. */
static void settle(void) {
    for (uint64_t now = 0; now < 10000 * MS; now += 100 * MS)
        for (int end = 0; end < 2; end++) {
            CHECK(done(sctp_assoc_handle_timeout(&ends[end], now)));
            pass_on(&ends[end], &ends[!end], now);
        }
}

static void carry(int from, uint32_t size) {
    fill(bytes, size, size);
    CHECK(done(sctp_assoc_write(&ends[from], STREAM, SCTP_ASSOC_PPID_BINARY, bytes, size)));
    settle();
}

static void begin(void) {
    sctp_assoc_config config = default_config();
    shake_hands(ends, &config, 0);
    CHECK(done(sctp_assoc_open_stream(&ends[0], STREAM, SCTP_ASSOC_PPID_BINARY)));
}

/* The next event of this kind at an end; all before it are passed over. */
static bool take_event(int end, uint32_t kind) {
    while (done(sctp_assoc_poll_event(&ends[end], &event)))
        if (event.kind == kind)
            return event.stream == STREAM;
    return false;
}

/* An end is told once that the stream is over, with its last counters, and has it no more. They come before all else, but
 * for what the peer ended while messages waited to be read: there they come once these are read. */
static void is_over(int end, bool with_counters_first, uint64_t messages_sent, uint64_t messages_received) {
    uint16_t ids[1];
    size_t count;
    unsigned ended = 0, finished = 0, reset = 0;
    while (done(sctp_assoc_poll_event(&ends[end], &event))) {
        ended += event.kind == SCTP_ASSOC_EVENT_STREAM_ENDED && event.stream == STREAM &&
                 event.counters.messages_sent == messages_sent && event.counters.messages_received == messages_received;
        finished += event.kind == SCTP_ASSOC_EVENT_FINISHED && event.stream == STREAM && ended == with_counters_first;
        reset += event.kind == SCTP_ASSOC_EVENT_RESET_COMPLETE && event.stream == STREAM && finished == 1;
    }
    CHECK(ended == 1 && finished == 1 && reset == 1);
    CHECK(done(sctp_assoc_stream_ids(&ends[end], ids, 1, &count)) && count == 0);
}

/* A message goes from this end to the other one, which is told and reads it. */
static void exchange(int from, uint32_t size) {
    size_t waiting;
    fill(wanted, size, size);
    carry(from, size);
    CHECK(take_event(!from, SCTP_ASSOC_EVENT_READABLE));
    memset(bytes, 0, size);
    CHECK(done(sctp_assoc_read(&ends[!from], STREAM, bytes, sizeof bytes, &length, &type)));
    CHECK(length == size && type == SCTP_ASSOC_PPID_BINARY && memcmp(bytes, wanted, size) == 0);
    CHECK(!done(sctp_assoc_read(&ends[!from], STREAM, bytes, sizeof bytes, &length, &type)));
    CHECK(done(sctp_assoc_buffered_amount(&ends[from], STREAM, &waiting)) && waiting == 0);
}

/* The stream, which the client opened, is used both ways. */
static void used_both_ways(uint32_t size) {
    uint16_t accepted;
    exchange(0, size);
    CHECK(done(sctp_assoc_accept_stream(&ends[1], &accepted)) && accepted == STREAM);
    exchange(1, size);
}

/* A call that ends a stream, and by which code a write is refused after it. */
static const struct way {
    sctp_assoc_code (*call)(sctp_assoc *, uint16_t);
    sctp_assoc_code refused;
} by_stop = {sctp_assoc_stop, SCTP_ASSOC_RESET_PENDING}, by_close = {sctp_assoc_close_stream, SCTP_ASSOC_STREAM_CLOSED};

/* The stream ends with a message that waits for a longer buffer, and is opened and used anew. */
static void ended(struct way way) {
    carry(1, 20);
    CHECK(sctp_assoc_read(&ends[0], STREAM, bytes, 19, &length, &type) == SCTP_ASSOC_NO_ROOM && length == 20);
    CHECK(done(way.call(&ends[0], STREAM)));
    CHECK(done(way.call(&ends[0], STREAM)));
    CHECK(sctp_assoc_read(&ends[0], STREAM, bytes, sizeof bytes, &length, &type) == SCTP_ASSOC_STREAM_CLOSED);
    CHECK(sctp_assoc_write(&ends[0], STREAM, SCTP_ASSOC_PPID_BINARY, bytes, 1) == way.refused);
    settle();
    is_over(0, true, 1, 2);
    is_over(1, true, 2, 1);
    CHECK(sctp_assoc_read(&ends[1], STREAM, bytes, sizeof bytes, &length, &type) == SCTP_ASSOC_NO_STREAM);
    CHECK(done(sctp_assoc_open_stream(&ends[0], STREAM, SCTP_ASSOC_PPID_BINARY)));
    used_both_ways(20);
}

static void ended_twice(struct way first, struct way second) {
    begin();
    used_both_ways(10);
    ended(first);
    ended(second);
    free_both(ends);
}

/* What the peer sent before the end can be read, and the end is told after it. */
static void read_to_the_end(void) {
    begin();
    carry(0, 30);
    CHECK(done(sctp_assoc_stop(&ends[0], STREAM)));
    settle();
    CHECK(take_event(1, SCTP_ASSOC_EVENT_READABLE));
    CHECK(!done(sctp_assoc_poll_event(&ends[1], &event)));
    CHECK(sctp_assoc_write(&ends[1], STREAM, SCTP_ASSOC_PPID_BINARY, bytes, 1) == SCTP_ASSOC_RESET_PENDING);
    CHECK(done(sctp_assoc_read(&ends[1], STREAM, bytes, sizeof bytes, &length, &type)) && length == 30);
    is_over(1, false, 0, 1);
    settle();
    is_over(0, true, 1, 0);
    free_both(ends);
}

static uint32_t checksum(const uint8_t *packet, size_t size) {
    uint32_t sum = UINT32_MAX; /* CRC32c, with the field of the sum as 0 (RFC 4960 appendix B) */
    for (size_t i = 0; i < size; i++) {
        sum ^= i >= 8 && i < 12 ? 0 : packet[i];
        for (int bit = 0; bit < 8; bit++)
            sum = sum >> 1 ^ (sum & 1 ? 0x82f63b78 : 0);
    }
    return ~sum;
}

/* The response of the peer, RE-CONFIG with one parameter (RFC 6525 section 4.4), is changed into one that denies. */
static void denied(void) {
    uint32_t fate;
    begin();
    CHECK(done(sctp_assoc_stop(&ends[0], STREAM)));
    pass_on(&ends[0], &ends[1], 0);
    do /* its own request goes first */
        CHECK(done(sctp_assoc_poll_transmit(&ends[1], 0, bytes, sizeof bytes, &length)) && bytes[12] == 130);
    while (bytes[17] != 16);
    CHECK(length == 28);
    bytes[27] = 2;
    uint32_t sum = checksum(bytes, length);
    for (int i = 0; i < 4; i++)
        bytes[8 + i] = (uint8_t)(sum >> (8 * i));
    CHECK(done(sctp_assoc_handle_datagram(&ends[0], 0, bytes, length, &fate)) && fate == SCTP_ASSOC_TAKEN);
    CHECK(take_event(0, SCTP_ASSOC_EVENT_RESET_FAILED) && event.reason == SCTP_ASSOC_REASON_RESET_DENIED);
    CHECK(sctp_assoc_write(&ends[0], STREAM, SCTP_ASSOC_PPID_BINARY, bytes, 1) == SCTP_ASSOC_RESET_PENDING);
    free_both(ends);
}

/* A request that is not answered is told as failed once, goes out again, and ends once it is answered. */
static void not_answered(void) {
    uint64_t moment = 0;
    unsigned told = 0;
    begin();
    CHECK(done(sctp_assoc_stop(&ends[0], STREAM)));
    for (int expiries = 0; expiries < 20; expiries++) {
        CHECK(done(sctp_assoc_handle_timeout(&ends[0], moment)));
        while (done(sctp_assoc_poll_transmit(&ends[0], moment, bytes, sizeof bytes, &length)))
            ;
        if (take_event(0, SCTP_ASSOC_EVENT_RESET_FAILED))
            told += event.reason == SCTP_ASSOC_REASON_RESET_FAILED;
        CHECK(done(sctp_assoc_poll_timeout(&ends[0], &moment)));
    }
    CHECK(told == 1);
    CHECK(sctp_assoc_write(&ends[0], STREAM, SCTP_ASSOC_PPID_BINARY, bytes, 1) == SCTP_ASSOC_RESET_PENDING);
    CHECK(done(sctp_assoc_handle_timeout(&ends[0], moment)));
    for (int turn = 0; turn < 4; turn++)
        pass_on(&ends[turn % 2], &ends[1 - turn % 2], moment);
    CHECK(take_event(0, SCTP_ASSOC_EVENT_RESET_COMPLETE));
    free_both(ends);
}

static void out_of_memory(void) {
    bool answer;
    begin();
    refused_from = growths + 1, refused_to = UINT64_MAX;
    CHECK(sctp_assoc_close_stream(&ends[0], STREAM) == SCTP_ASSOC_NO_MEMORY);
    refused_from = refused_to = 0;
    CHECK(done(sctp_assoc_is_failed(&ends[0], &answer)) && answer);
    free_both(ends);
}

int main(void) {
    TRY(ended_twice(by_stop, by_close));
    TRY(ended_twice(by_close, by_stop));
    TRY(read_to_the_end());
    TRY(denied());
    TRY(not_answered());
    TRY(out_of_memory());
    puts("resets: ok");
    return 0;
}
