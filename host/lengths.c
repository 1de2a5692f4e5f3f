/* How long the datagrams get that grow with what they name, as the header says it, and that one which does not fit
 * stays: the room that it asks for is enough. The length of a message before it is read. An empty message of a peer
 * that breaks the rules is read and not written back. */
#include "support.h"

#define GAPS 400
#define STREAMS 1000
#define FIRST 1 /* the first stream */

static sctp_assoc ends[2];
static uint64_t now;
static uint8_t datagram[SCTP_ASSOC_MAX_DATAGRAM];

/* The type of a datagram's first chunk. */
enum { DATA = 0, SACK = 3, HEARTBEAT_ACK = 5, COOKIE_ECHO = 10, RE_CONFIG = 130, FORWARD_TSN = 192 };

static bool poll(int end, size_t *length) {
    return done(sctp_assoc_poll_transmit(&ends[end], now, datagram, sizeof datagram, length));
}

static void hand_in(int end, size_t length) {
    uint32_t fate;
    CHECK(done(sctp_assoc_handle_datagram(&ends[end], now, datagram, length, &fate)) && fate == SCTP_ASSOC_TAKEN);
}

/* The next datagram is of this type and so long. A buffer that is one byte too short is refused first: the datagram
 * stays, and its length is told. */
static void comes(int end, int type, size_t expected) {
    size_t length = 0, asked = 0;
    CHECK(sctp_assoc_poll_transmit(&ends[end], now, datagram, expected - 1, &asked) == SCTP_ASSOC_NO_ROOM);
    CHECK(asked == expected);
    CHECK(done(sctp_assoc_poll_transmit(&ends[end], now, datagram, asked, &length)));
    CHECK(length == expected && datagram[12] == type);
}

static void open_streams(int count) {
    for (int i = 0; i < count; i++)
        CHECK(done(sctp_assoc_open_stream(&ends[0], (uint16_t)(FIRST + i), SCTP_ASSOC_PPID_BINARY)));
}

static void write_one(uint16_t stream) {
    CHECK(done(sctp_assoc_write(&ends[0], stream, SCTP_ASSOC_PPID_OF_STREAM, (const uint8_t *)"1", 1)));
}

/* Lets time pass, and hands over what comes of it. */
static void go_on(uint64_t ms) {
    now += ms * MS;
    for (int end = 0; end < 2; end++)
        CHECK(done(sctp_assoc_handle_timeout(&ends[end], now)));
    for (int turn = 0; turn < 8; turn++) {
        size_t length;
        for (int from = 0; from < 2; from++)
            while (poll(from, &length))
                hand_in(!from, length);
    }
}

static void begin_by(uint32_t profile, int streams) {
    sctp_assoc_config config = default_config();
    config.profile = profile;
    now = 0;
    shake_hands(ends, &config, now);
    open_streams(streams);
}

static void begin(int streams) {
    begin_by(SCTP_ASSOC_PROFILE_RFC, streams);
}

/* Of messages in datagrams of their own every second one is lost: each leaves a gap. They go without a SACK, and so by
 * the port, which knows no Max.Burst. */
static void many_gaps(void) {
    size_t length;
    begin_by(SCTP_ASSOC_PROFILE_PORT, 1);
    for (int i = 0; i < 2 * GAPS; i++) {
        while (poll(1, &length)) /* the SACKs before the last one are lost, too */
            ;
        write_one(FIRST);
        CHECK(poll(0, &length) && datagram[12] == DATA);
        if (i % 2 == 1)
            hand_in(1, length);
    }
    comes(1, SACK, 28 + 4 * GAPS);
    free_both(ends);
}

/* Streams that are closed at once, and on which nothing waits. */
static void many_resets(void) {
    begin(STREAMS);
    for (int i = 0; i < STREAMS; i++)
        write_one((uint16_t)(FIRST + i));
    go_on(0);
    go_on(1000); /* what was delayed is acknowledged */
    for (int i = 0; i < STREAMS; i++)
        CHECK(done(sctp_assoc_close_stream(&ends[0], (uint16_t)(FIRST + i))));
    comes(0, RE_CONFIG, 32 + 2 * STREAMS);
    free_both(ends);
}

/* A message is lost on each stream, and none is sent again; by the port likewise. */
static void many_given_up(void) {
    size_t length;
    begin_by(SCTP_ASSOC_PROFILE_PORT, STREAMS);
    for (int i = 0; i < STREAMS; i++) {
        CHECK(done(sctp_assoc_set_reliability(&ends[0], (uint16_t)(FIRST + i), false, SCTP_ASSOC_REXMIT, 0)));
        write_one((uint16_t)(FIRST + i));
    }
    while (poll(0, &length))
        ;
    now += 10000 * MS;
    CHECK(done(sctp_assoc_handle_timeout(&ends[0], now)));
    comes(0, FORWARD_TSN, 20 + 4 * STREAMS);
    free_both(ends);
}

/* A HEARTBEAT with as much information as a datagram of this length has room for. */
static void long_heartbeat(size_t length) {
    static const uint8_t head[] = {0x13, 0x88, 0x13, 0x88, 0, 0, 0, 2, 0, 0, 0, 0, 4, 0};
    begin(1);
    memset(datagram, 7, length);
    memcpy(datagram, head, sizeof head); /* ports, the server's tag, and a HEARTBEAT .. */
    datagram[14] = (uint8_t)((length - 12) >> 8), datagram[15] = (uint8_t)(length - 12);
    datagram[16] = 0, datagram[17] = 1; /* .. with one parameter */
    datagram[18] = (uint8_t)((length - 16) >> 8), datagram[19] = (uint8_t)(length - 16);
    seal(datagram, length);
    hand_in(1, length);
    comes(1, HEARTBEAT_ACK, length);
    free_both(ends);
}

/* The INIT ACK of a server comes with so much more of a State Cookie, its last parameter but the extensions. */
static void long_cookie(size_t more) {
    sctp_assoc_config config = default_config();
    sctp_assoc_identity client = identity(1), server = identity(2);
    size_t length, cookie = 32; /* the parameters begin after the header of the packet and 20 bytes of INIT ACK */
    now = 0;
    CHECK(done(sctp_assoc_client(&ends[0], &config, PAYLOAD_SIZE, &client, now)));
    CHECK(done(sctp_assoc_server(&ends[1], &config, PAYLOAD_SIZE, &server, now)));
    CHECK(poll(0, &length));
    hand_in(1, length);
    CHECK(poll(1, &length));
    while (cookie < length && (datagram[cookie] << 8 | datagram[cookie + 1]) != 7) /* to the parameter of type 7 */
        cookie += (size_t)((datagram[cookie + 2] << 8 | datagram[cookie + 3]) + 3) / 4 * 4;
    size_t end = cookie + 36; /* four bytes of head, and 32 of cookie */
    CHECK(end <= length && datagram[cookie + 3] == 36);
    memmove(datagram + end + more, datagram + end, length - end);
    memset(datagram + end, 7, more);
    length += more;
    datagram[cookie + 2] = (uint8_t)((36 + more) >> 8), datagram[cookie + 3] = (uint8_t)(36 + more);
    datagram[14] = (uint8_t)((length - 12) >> 8), datagram[15] = (uint8_t)(length - 12);
    seal(datagram, length);
    hand_in(0, length);
    comes(0, COOKIE_ECHO, 16 + 32 + more);
    free_both(ends);
}

/* A message of one byte comes without it: DATA of no byte, which is an empty message. */
static void bring_empty(void) {
    size_t length;
    write_one(FIRST);
    CHECK(poll(0, &length) && length == 32);
    datagram[15] = 16; /* the length of the chunk, without its payload */
    seal(datagram, 28);
    hand_in(1, 28);
}

static void empty_message(void) {
    size_t read = 1;
    uint32_t type;
    begin(1);
    bring_empty();
    CHECK(done(sctp_assoc_read(&ends[1], FIRST, datagram, sizeof datagram, &read, &type)) && read == 0);
    CHECK(sctp_assoc_write(&ends[1], FIRST, type, datagram, read) == SCTP_ASSOC_EMPTY_MESSAGE);
    free_both(ends);
}

/* ---- The length of the next message ---- */

static uint8_t message[65536];

/* A message of so many bytes comes, and what acknowledges it goes. */
static void bring(size_t length) {
    fill(message, length, (uint32_t)length);
    CHECK(done(sctp_assoc_write(&ends[0], FIRST, SCTP_ASSOC_PPID_OF_STREAM, message, length)));
    for (int turn = 0; turn < 8; turn++)
        go_on(200);
}

/* So many bytes are next, also where that is asked again. */
static void is_next(size_t expected) {
    for (int i = 0; i < 2; i++) {
        size_t length = 0;
        CHECK(done(sctp_assoc_next_length(&ends[1], FIRST, &length)) && length == expected);
    }
}

/* The call answers this code, and writes nothing. */
static void has_no_length(sctp_assoc *end, sctp_assoc_code code) {
    size_t length = 77;
    CHECK(sctp_assoc_next_length(end, FIRST, &length) == code && length == 77);
}

/* The message that came last is read into as many bytes, and not into fewer. */
static void reads(size_t expected) {
    static uint8_t read[65536];
    size_t length;
    uint32_t type;
    CHECK(sctp_assoc_read(&ends[1], FIRST, read, expected - 1, &length, &type) == SCTP_ASSOC_NO_ROOM);
    CHECK(length == expected);
    CHECK(done(sctp_assoc_read(&ends[1], FIRST, read, expected, &length, &type)));
    CHECK(length == expected && type == SCTP_ASSOC_PPID_BINARY && memcmp(read, message, expected) == 0);
}

/* Messages of each length, with every code of the call. One whose length was asked counts as read, takes memory, and
 * stays until it is read, also in an end that is lost. */
static void next_length(void) {
    static const size_t lengths[] = {1, 1200, 65536};
    sctp_assoc none = SCTP_ASSOC_EMPTY;
    sctp_assoc_counters counters;
    has_no_length(&none, SCTP_ASSOC_EMPTY_SLOT);
    begin(1);
    has_no_length(&ends[0], SCTP_ASSOC_NOTHING);
    bring(10);
    refused_from = growths + 1, refused_to = UINT64_MAX;
    has_no_length(&ends[1], SCTP_ASSOC_NO_MEMORY);
    refused_from = refused_to = 0;
    is_next(10);
    CHECK(done(sctp_assoc_stream_stats(&ends[1], FIRST, &counters)) && counters.messages_received == 1);
    reads(10);
    for (size_t i = 0; i < sizeof lengths / sizeof *lengths; i++) {
        has_no_length(&ends[1], SCTP_ASSOC_NOTHING);
        bring(lengths[i]);
        is_next(lengths[i]);
        reads(lengths[i]);
    }
    bring(20);
    is_next(20);
    CHECK(done(sctp_assoc_close(&ends[1])));
    is_next(20);
    reads(20);
    has_no_length(&ends[1], SCTP_ASSOC_NO_STREAM);
    free_both(ends);
}

/* A stop drops a message whose length was asked. In a failed end no length is told. */
static void no_next_length(void) {
    size_t length;
    begin(1);
    bring(10);
    is_next(10);
    CHECK(done(sctp_assoc_stop(&ends[1], FIRST)));
    has_no_length(&ends[1], SCTP_ASSOC_STREAM_CLOSED);
    write_one(FIRST);
    refused_from = growths + 1, refused_to = UINT64_MAX;
    CHECK(sctp_assoc_poll_transmit(&ends[0], now, datagram, sizeof datagram, &length) == SCTP_ASSOC_NO_MEMORY);
    refused_from = refused_to = 0;
    has_no_length(&ends[0], SCTP_ASSOC_FAILED);
    free_both(ends);
}

/* Of a buffer of 4,000 bytes 3,000 are unread, and that is told. Once the length is asked the window is open, which a
 * SACK tells at once. */
static void next_length_opens_window(void) {
    sctp_assoc_config config = default_config();
    size_t length;
    config.max_receive_buffer_size = 4000;
    now = 0;
    shake_hands(ends, &config, now);
    open_streams(1);
    bring(3000);
    CHECK(!poll(1, &length));
    is_next(3000);
    comes(1, SACK, 28);
    CHECK(!poll(1, &length));
    reads(3000);
    CHECK(!poll(1, &length));
    free_both(ends);
}

/* Empty messages are dropped, and the length is that of the one behind them. */
static void next_length_drops_empty(void) {
    begin(1);
    bring_empty();
    bring_empty();
    has_no_length(&ends[1], SCTP_ASSOC_NOTHING);
    bring_empty();
    bring(1);
    is_next(1);
    reads(1);
    has_no_length(&ends[1], SCTP_ASSOC_NOTHING);
    free_both(ends);
}

int main(void) {
    many_gaps();
    many_resets();
    many_given_up();
    long_heartbeat(9000);
    long_cookie(1000);
    empty_message();
    next_length();
    no_next_length();
    next_length_opens_window();
    next_length_drops_empty();
    puts("lengths: ok");
    return 0;
}
