/* A receive window that the application opens, as it reads or stops a stream. By the rules of the RFCs an
 * acknowledgement tells it at once, for which the peer may wait, and by those of the port none does (RFC 4960 section
 * 6.2). The window is open where 2,400 bytes may come, two packets, or half of the receive buffer if that is less. */
#include "heal_steps.h"

#define STREAM 1
#define SOON 500 /* ms, with 20 of them for a round trip, and 200 for an acknowledgement that is delayed */

enum { SACK = 3, RE_CONFIG = 130 }; /* types of chunks */

static uint8_t datagram[SCTP_ASSOC_MAX_DATAGRAM];
static size_t length;

/* Whether B has a datagram to send. */
static bool sends(void) {
    return done(sctp_assoc_watched_poll_transmit(&ends[B].assoc, &watches[B], now, datagram, sizeof datagram, &length));
}

/* B has a SACK with this window to send (RFC 4960 section 3.3.4), which goes to A, and nothing else. */
static void tells_window(uint32_t window) {
    CHECK(sends() && first_chunk(datagram) == SACK && number_at(datagram + 20, 4) == window);
    send_in_case(B, datagram, length);
    CHECK(!sends());
}

/* Two ends of this profile and this limit of timeouts in a row, of which B has so long a buffer and reads nothing. A
 * opens the stream. */
static void begin_limited(uint32_t profile, uint32_t buffer, size_t limit) {
    config = default_config();
    config.profile = profile;
    config.max_receive_buffer_size = buffer;
    config.max_data_retransmits = limit;
    join();
    is_reading[B] = false;
    CHECK(opens(A, STREAM));
}

static void begin(uint32_t profile, uint32_t buffer) {
    begin_limited(profile, buffer, SCTP_ASSOC_NO_LIMIT);
}

/* ---- A reader that pauses ---- */

/* A writes more than B's buffer takes. */
static const struct pause {
    const char *name;
    uint32_t buffer;
    size_t length; /* of each message, in bytes */
    unsigned count;
    uint64_t ms;
} pauses[] = {
    {"long messages for 500 ms", 100000, 50000, 4, 500},
    {"long messages for 900 ms", 100000, 50000, 4, 900},
    {"long messages for 10 s", 100000, 50000, 4, 10000},
    {"long messages for 200 s", 100000, 50000, 4, 200000},
    {"short messages for 500 ms", 100000, 100, 2000, 500},
    {"a buffer of a few packets for 500 ms", 20000, 1000, 60, 500},
    {"a buffer of a few packets for 10 s", 20000, 1000, 60, 10000},
    {"a buffer of two packets for 500 ms", 5000, 1000, 20, 500},
    {"a buffer of one packet for 300 ms", 1500, 1000, 8, 300},
    {"a buffer of one packet for 10 s", 1500, 1000, 8, 10000},
};

/* B reads nothing until A's window is closed, and then all that came. */
static void goes_on_behind(const struct pause *pause, uint32_t profile) {
    sctp_assoc_path_values path;
    begin(profile, pause->buffer);
    CHECK(writes_many(A, STREAM, pause->length, pause->count));
    pass(pause->ms);
    CHECK(done(sctp_assoc_path(&ends[A].assoc, &path)) && path.peer_window == 0 && !is_acknowledged(A, STREAM));
    CHECK(!sends());
    is_reading[B] = true;
    read_all(B);
    if (profile == SCTP_ASSOC_PROFILE_RFC)
        tells_window(pause->buffer);
    CHECK(!sends());
    CHECK(is_acknowledged_within(A, STREAM, SOON) == (profile == SCTP_ASSOC_PROFILE_RFC));
    pass(60000);
    CHECK(is_acknowledged(A, STREAM) && read_counts[B][STREAM] == pause->count && goes_on());
    end_pair();
}

/* While B's window is closed, A's probes are dropped. By the rules of the RFCs they are no failures and say nothing of
 * the network: the limit of timeouts in a row is not met, and the congestion window stays. By those of the port A gives
 * up, with a window of one packet. */
static void probes_are_answered(uint32_t profile) {
    sctp_assoc_path_values path;
    begin_limited(profile, 20000, 3);
    CHECK(writes_many(A, STREAM, 1000, 60));
    pass(500);
    CHECK(done(sctp_assoc_path(&ends[A].assoc, &path)) && path.peer_window == 0);
    uint32_t window = path.congestion_window;
    pass(100000);
    CHECK(done(sctp_assoc_path(&ends[A].assoc, &path)) && path.peer_window == 0 && window > 4000);
    CHECK(path.congestion_window == (profile == SCTP_ASSOC_PROFILE_RFC ? window : path.mtu));
    is_reading[B] = true;
    turn(B);
    CHECK(is_acknowledged_within(A, STREAM, SOON) == (profile == SCTP_ASSOC_PROFILE_RFC));
    pass(100000);
    CHECK(is_acknowledged(A, STREAM) == (profile == SCTP_ASSOC_PROFILE_RFC));
    end_pair();
}

/* B reads all along, and its buffer has no room for a second message beside the first. */
static void goes_on_message_by_message(uint32_t profile) {
    begin(profile, 1500);
    is_reading[B] = true;
    CHECK(writes_many(A, STREAM, 1000, 20));
    CHECK(is_acknowledged_within(A, STREAM, SOON) == (profile == SCTP_ASSOC_PROFILE_RFC));
    pass(10000);
    CHECK(is_acknowledged(A, STREAM) && read_counts[B][STREAM] == 20 && goes_on());
    end_pair();
}

/* ---- When a window is open ---- */

/* Two messages wait in the buffer, and whether the window opens as the first one is read. */
static const struct opening {
    uint32_t buffer;
    size_t first, second;
    bool opens;
} openings[] = {
    {10000, 1400, 7600, true}, {10000, 1399, 7601, false}, {10000, 1, 7600, true},    {10000, 1000, 6600, false},
    {4801, 2400, 2401, true},  {4801, 2399, 2402, false},  {4799, 2399, 2399, true},  {4799, 2399, 2400, false},
    {1500, 700, 750, true},    {1500, 700, 751, false},    {1501, 700, 750, true},    {1501, 700, 751, false},
    {1500, 1, 750, true},      {1500, 10, 740, false},
};

/* The first message is read, at first perhaps into a buffer that is too short: the window opens then already. */
static void opens_by_a_read(const struct opening *opening, uint32_t profile, bool is_short_first) {
    bool is_told = opening->opens && profile == SCTP_ASSOC_PROFILE_RFC;
    size_t count;
    uint32_t type;
    begin(profile, opening->buffer);
    CHECK(writes(A, STREAM, opening->first) && writes(A, STREAM, opening->second));
    pass(1000);
    CHECK(is_acknowledged(A, STREAM) && !sends());
    for (int read = is_short_first ? 0 : 1; read < 2; read++) {
        sctp_assoc_code expected = read == 0 ? SCTP_ASSOC_NO_ROOM : SCTP_ASSOC_DONE;
        CHECK(sctp_assoc_read(&ends[B].assoc, STREAM, bytes, read == 0 ? 0 : sizeof bytes, &count, &type) == expected);
        CHECK(count == opening->first);
        if (is_told && (read == 0) == is_short_first)
            tells_window((uint32_t)(opening->buffer - opening->second));
        CHECK(!sends());
    }
    end_pair();
}

/* ---- Stops ---- */

/* B stops the stream, of which so many bytes are unread. By the rules of the RFCs they are dropped, which may open the
 * window, and by those of the port they stay. The request to reset the stream is due in any case, and nothing is behind
 * a second stop. */
static void drops_by_a_stop(size_t unread, bool opens_window, uint32_t profile) {
    begin(profile, 10000);
    CHECK(writes(A, STREAM, unread));
    pass(1000);
    CHECK(is_acknowledged(A, STREAM) && !sends());
    CHECK(done(sctp_assoc_stop(&ends[B].assoc, STREAM)));
    CHECK(sends() && first_chunk(datagram) == RE_CONFIG);
    if (opens_window && profile == SCTP_ASSOC_PROFILE_RFC)
        tells_window(10000);
    CHECK(!sends());
    CHECK(done(sctp_assoc_stop(&ends[B].assoc, STREAM)) && !sends());
    end_pair();
}

/* A reset the stream, and what B has not read of it is dropped by its stop. */
static void a_stop_tells_what_it_opens(uint32_t profile) {
    begin(profile, 10000);
    CHECK(writes(A, STREAM, 9000));
    pass(1000);
    CHECK(is_acknowledged(A, STREAM) && closes(A, STREAM));
    pass(1000);
    CHECK(!sends());
    CHECK(done(sctp_assoc_stop(&ends[B].assoc, STREAM)));
    if (profile == SCTP_ASSOC_PROFILE_RFC)
        tells_window(10000);
    CHECK(!sends());
    end_pair();
}

static void by_profile(uint32_t profile) {
    for (size_t i = 0; i < COUNT_OF(pauses); i++) {
        tried = pauses[i].name;
        goes_on_behind(&pauses[i], profile);
    }
    TRY(probes_are_answered(profile));
    TRY(goes_on_message_by_message(profile));
    for (size_t i = 0; i < COUNT_OF(openings); i++)
        for (int is_short_first = 0; is_short_first < 2; is_short_first++)
            TRY(opens_by_a_read(&openings[i], profile, is_short_first));
    TRY(drops_by_a_stop(100, false, profile));
    TRY(drops_by_a_stop(7600, false, profile));
    TRY(drops_by_a_stop(7601, true, profile));
    TRY(drops_by_a_stop(9000, true, profile));
    TRY(a_stop_tells_what_it_opens(profile));
}

int main(void) {
    by_profile(SCTP_ASSOC_PROFILE_RFC);
    by_profile(SCTP_ASSOC_PROFILE_PORT);
    puts("window: ok");
    return 0;
}
