/* A handshake, and messages of 1, 1,200 and 65,536 bytes both ways, in order and not, by datagrams and by tokens: read
 * at once, or by a buffer that is a byte too short first. A message whose DATA is lost. */
#include "support.h"

#define STREAM 7

static const size_t sizes[] = {1, 1200, 65536};
static uint8_t written[65536], read[65536];
static size_t length;
static uint32_t type;
static uint64_t now = 5 * MS;

/* Until a read of the stream with this room answers so; the clock goes on by the timers. */
static void wait_for(sctp_assoc ends[2], int reader, size_t room, sctp_assoc_code awaited) {
    for (int turns = 0; turns < 1000; turns++) {
        pass_on(&ends[!reader], &ends[reader], now);
        sctp_assoc_code code = sctp_assoc_read(&ends[reader], STREAM, read, room, &length, &type);
        if (code == awaited)
            return;
        CHECK(code == SCTP_ASSOC_NOTHING || code == SCTP_ASSOC_NO_STREAM);
        pass_on(&ends[reader], &ends[!reader], now);
        now += 10 * MS;
        for (int end = 0; end < 2; end++) {
            uint64_t due;
            if (done(sctp_assoc_poll_timeout(&ends[end], &due)) && due <= now)
                CHECK(done(sctp_assoc_handle_timeout(&ends[end], now)));
        }
    }
    CHECK(!"a message came");
}

/* Whether such an event of the stream is among those that wait, which are taken out. */
static bool is_told(sctp_assoc *end, uint32_t kind) {
    sctp_assoc_event event;
    bool told = false;
    while (done(sctp_assoc_poll_event(end, &event)))
        told = told || (event.kind == kind && event.stream == STREAM);
    return told;
}

/* A message of each size is told and read whole, and nothing behind it. Before that, if the buffer is short at first,
 * it stays. */
static void exchange(sctp_assoc ends[2], int writer, uint32_t written_type, bool is_short_first) {
    for (size_t i = 0; i < sizeof sizes / sizeof *sizes; i++) {
        size_t size = sizes[i];
        fill(written, size, (uint32_t)(i + 100 * writer));
        CHECK(done(sctp_assoc_write(&ends[writer], STREAM, written_type, written, size)));
        memset(read, 0, sizeof read);
        if (is_short_first) {
            wait_for(ends, !writer, size - 1, SCTP_ASSOC_NO_ROOM);
            CHECK(length == size);
        }
        wait_for(ends, !writer, size, SCTP_ASSOC_DONE);
        CHECK(length == size && memcmp(written, read, size) == 0);
        CHECK(type == (written_type == SCTP_ASSOC_PPID_OF_STREAM ? SCTP_ASSOC_PPID_BINARY : written_type));
        CHECK(sctp_assoc_read(&ends[!writer], STREAM, NULL, 0, &length, &type) == SCTP_ASSOC_NOTHING);
        CHECK(is_told(&ends[!writer], SCTP_ASSOC_EVENT_READABLE));
    }
}

/* Nothing is left that was accepted and not acknowledged. */
static void settle(sctp_assoc ends[2]) {
    now += 200 * MS;
    for (int end = 0; end < 2; end++) {
        CHECK(done(sctp_assoc_handle_timeout(&ends[end], now)));
        pass_on(&ends[end], &ends[!end], now);
        pass_on(&ends[!end], &ends[end], now);
    }
    for (int end = 0; end < 2; end++) {
        size_t bytes;
        CHECK(done(sctp_assoc_buffered_amount(&ends[end], STREAM, &bytes)) && bytes == 0);
    }
}

static void both_ways(sctp_assoc ends[2], bool is_short_first) {
    uint16_t accepted;
    CHECK(done(sctp_assoc_open_stream(&ends[0], STREAM, SCTP_ASSOC_PPID_BINARY)));
    exchange(ends, 0, SCTP_ASSOC_PPID_OF_STREAM, is_short_first);
    CHECK(done(sctp_assoc_accept_stream(&ends[1], &accepted)) && accepted == STREAM);
    CHECK(!done(sctp_assoc_accept_stream(&ends[1], &accepted)));
    exchange(ends, 1, SCTP_ASSOC_PPID_STRING, is_short_first);
    CHECK(done(sctp_assoc_set_reliability(&ends[0], STREAM, true, SCTP_ASSOC_RELIABLE, 0)));
    exchange(ends, 0, SCTP_ASSOC_PPID_STRING, is_short_first);
    settle(ends);
    free_both(ends);
}

static void by_handshake(bool is_short_first) {
    sctp_assoc ends[2] = {SCTP_ASSOC_EMPTY, SCTP_ASSOC_EMPTY};
    sctp_assoc_config config = default_config();
    shake_hands(ends, &config, now);
    both_ways(ends, is_short_first);
}

static void by_tokens(bool is_short_first) {
    sctp_assoc ends[2] = {SCTP_ASSOC_EMPTY, SCTP_ASSOC_EMPTY};
    sctp_assoc_config config = default_config();
    sctp_assoc_token tokens[2];
    CHECK(done(sctp_assoc_make_token(&config, 8, 80, &tokens[0])));
    CHECK(done(sctp_assoc_make_token(&config, 9, 90, &tokens[1])));
    CHECK(done(sctp_assoc_joined(&ends[0], &config, PAYLOAD_SIZE, &tokens[0], &tokens[1])));
    CHECK(done(sctp_assoc_joined(&ends[1], &config, PAYLOAD_SIZE, &tokens[1], &tokens[0])));
    both_ways(ends, is_short_first);
}

/* The first DATA is lost. It goes out again once its timer expires: after RTO.Initial of 3 s, as no round trip was
 * measured (RFC 4960 sections 6.3.1 and 6.3.2). */
static void lost_data(void) {
    sctp_assoc ends[2] = {SCTP_ASSOC_EMPTY, SCTP_ASSOC_EMPTY};
    sctp_assoc_config config = default_config();
    uint8_t datagram[PAYLOAD_SIZE + 28];
    uint64_t moment;
    size_t bytes;
    shake_hands(ends, &config, now);
    CHECK(done(sctp_assoc_open_stream(&ends[0], STREAM, SCTP_ASSOC_PPID_BINARY)));
    fill(written, 10, 3);
    CHECK(done(sctp_assoc_write(&ends[0], STREAM, SCTP_ASSOC_PPID_OF_STREAM, written, 10)));
    CHECK(done(sctp_assoc_set_reliability(&ends[0], STREAM, true, SCTP_ASSOC_RELIABLE, 0)));
    CHECK(done(sctp_assoc_poll_transmit(&ends[0], now, datagram, sizeof datagram, &length)));
    CHECK(!done(sctp_assoc_poll_transmit(&ends[0], now, datagram, sizeof datagram, &length)));
    CHECK(done(sctp_assoc_buffered_amount(&ends[0], STREAM, &bytes)) && bytes == 10);
    CHECK(done(sctp_assoc_poll_timeout(&ends[0], &moment)) && moment == now + 3000 * MS);
    wait_for(ends, 1, 10, SCTP_ASSOC_DONE);
    CHECK(length == 10 && memcmp(written, read, 10) == 0 && now >= moment);
    settle(ends);
    free_both(ends);
}

int main(void) {
    CHECK(sizeof(sctp_assoc) == 16);
    TRY(by_handshake(false));
    TRY(by_handshake(true));
    TRY(by_tokens(false));
    TRY(by_tokens(true));
    TRY(lost_data());
    puts("messages: ok");
    return 0;
}
