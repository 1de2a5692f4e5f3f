/* The timers of an association (RFC 4960 sections 6.3 and 8): what measured round trips make of the retransmission
 * timeout, how it backs off, which expiry is one too many, when the timer begins anew, and that none of the timeouts
 * that are configured is 0. */
#include "support.h"

#define STREAM 1
#define COUNT_OF(array) (sizeof(array) / sizeof *(array))

static sctp_assoc ends[2];
static uint64_t now;

static void begin(const sctp_assoc_config *config) {
    sctp_assoc_token tokens[2];
    for (uint32_t side = 0; side < 2; side++)
        CHECK(done(sctp_assoc_make_token(config, side + 1, 100, &tokens[side])));
    for (int side = 0; side < 2; side++)
        CHECK(done(sctp_assoc_joined(&ends[side], config, PAYLOAD_SIZE, &tokens[side], &tokens[!side])));
    CHECK(done(sctp_assoc_open_stream(&ends[0], STREAM, SCTP_ASSOC_PPID_BINARY)));
    now = 0;
}

static uint64_t timeout_ms(void) {
    uint64_t ms;
    CHECK(done(sctp_assoc_rto(&ends[0], &ms)));
    return ms;
}

static uint64_t smoothed_ms(void) {
    sctp_assoc_path_values path;
    CHECK(done(sctp_assoc_path(&ends[0], &path)));
    return path.smoothed_round_trip_ms;
}

static uint64_t deadline(int end) {
    uint64_t moment;
    CHECK(done(sctp_assoc_poll_timeout(&ends[end], &moment)));
    return moment;
}

static void send_message(void) {
    CHECK(done(sctp_assoc_write(&ends[0], STREAM, SCTP_ASSOC_PPID_OF_STREAM, (const uint8_t *)"m", 1)));
}

/* What is due goes out, and is lost. */
static void lose_all(int end) {
    uint8_t datagram[PAYLOAD_SIZE + 28];
    size_t length;
    while (done(sctp_assoc_poll_transmit(&ends[end], now, datagram, sizeof datagram, &length)))
        ;
}

/* The next timer of an end expires, and what it asks for goes out and is lost. */
static void expire(int end) {
    now = deadline(end);
    CHECK(done(sctp_assoc_handle_timeout(&ends[end], now)));
    lose_all(end);
}

/* Whether an event of this kind waits. */
static bool is_told(int end, uint32_t kind) {
    sctp_assoc_event event;
    bool told = false;
    while (done(sctp_assoc_poll_event(&ends[end], &event)))
        told |= event.kind == kind;
    return told;
}

/* ---- The estimate ---- */

/* Whether all is forgotten before, a round trip, and then the smoothed one and the timeout, in ms. */
static const struct {
    bool is_first;
    uint64_t trip, smoothed, timeout;
} measurements[] = {
    {true, 600, 600, 1800},     {false, 200, 550, 1850},    {true, 0, 0, 1000},        {false, 100, 100, 1000},
    {true, 600, 600, 1800},     {false, 600, 600, 1500},    {false, 600, 600, 1275},   {false, 600, 600, 1106},
    {false, 600, 600, 1000},    {true, 100, 100, 1000},     {false, 30000, 3837, 33887}, {false, 100, 3369, 29643},
    {false, 30000, 6697, 53033}, {false, 100, 5872, 47221}, {false, 30000, 8888, 60000}, {false, 100, 7789, 57932},
    {true, 333, 333, 1000},     {false, 777, 388, 1331},    {false, 1500, 527, 2346},  {false, 20, 463, 2334},
    {false, 5000, 1030, 6970},
};

/* The peer acknowledges a message at once, and the acknowledgement takes so long. The clock of the peer is its own. */
static void take_trip(uint64_t ms) {
    send_message();
    pass_on(&ends[0], &ends[1], now);
    CHECK(done(sctp_assoc_handle_timeout(&ends[1], deadline(1))));
    now += ms * MS;
    pass_on(&ends[1], &ends[0], now);
}

static void measurements_are_smoothed(void) {
    sctp_assoc_config config = default_config();
    for (size_t i = 0; i < COUNT_OF(measurements); i++) {
        if (measurements[i].is_first) {
            begin(&config);
            CHECK(timeout_ms() == 3000 && smoothed_ms() == 0);
        }
        take_trip(measurements[i].trip);
        CHECK(smoothed_ms() == measurements[i].smoothed && timeout_ms() == measurements[i].timeout);
    }
    free_both(ends);
}

/* ---- Backing off ---- */

/* A timeout, how often it was over in a row, and the one after that, with 60,000 as the greatest one; in ms. */
static const struct {
    uint64_t first, retries, timeout;
} timeouts[] = {
    {1000, 3, 8000}, {1000, 6, 60000}, {1000, 31, 60000}, {1, 0, 1},      {1, 1, 2},      {1, 2, 4},
    {1, 15, 32768},  {1, 16, 60000},   {1, 30, 60000},    {1, 31, 60000}, {1, 63, 60000}, {1, 64, 60000},
};

static void timeouts_double_up_to_a_greatest_one(void) {
    for (size_t i = 0; i < COUNT_OF(timeouts); i++) {
        sctp_assoc_config config = default_config();
        config.rto_initial_ms = timeouts[i].first;
        begin(&config);
        send_message();
        lose_all(0);
        for (uint64_t retry = 0; retry < timeouts[i].retries; retry++)
            expire(0);
        CHECK(deadline(0) == now + timeouts[i].timeout * MS);
    }
    free_both(ends);
}

/* At the moment of its deadline the timer stays, and past that new DATA starts it again. */
static void a_stale_timer_starts_again(void) {
    sctp_assoc_config config = default_config();
    config.rto_initial_ms = 1000;
    begin(&config);
    send_message();
    lose_all(0);
    for (uint64_t past = 0; past < 2; past++) {
        now = 1000 * MS + past;
        send_message();
        lose_all(0);
        CHECK(deadline(0) == 1000 * MS + past * (1000 * MS + 1));
    }
    free_both(ends);
}

/* ---- Retries ---- */

/* INIT goes out again as often as the limit says; the expiry after that is told, and no timer runs any more. */
static void expiries_pass_the_limit(void) {
    static const size_t limits[] = {0, 2};
    for (size_t i = 0; i < COUNT_OF(limits); i++) {
        sctp_assoc_config config = default_config();
        sctp_assoc_identity client = identity(1);
        uint64_t moment;
        config.max_init_retransmits = limits[i];
        now = 0;
        CHECK(done(sctp_assoc_client(&ends[0], &config, PAYLOAD_SIZE, &client, now)));
        lose_all(0);
        for (size_t retries = 1; retries <= limits[i]; retries++) {
            expire(0);
            CHECK(!is_told(0, SCTP_ASSOC_EVENT_HANDSHAKE_FAILED) && deadline(0) == now + (3000 * MS << retries));
        }
        expire(0);
        CHECK(is_told(0, SCTP_ASSOC_EVENT_HANDSHAKE_FAILED) && !done(sctp_assoc_poll_timeout(&ends[0], &moment)));
    }
    CHECK(done(sctp_assoc_free(&ends[0])) && blocks == 0);
}

/* By default DATA goes out again ten times, at first after half a second, and the expiry after that ends the
 * association. */
static void the_default_ends_it(void) {
    sctp_assoc_config config = users_config();
    uint64_t moment;
    begin(&config);
    send_message();
    lose_all(0);
    CHECK(deadline(0) == 500 * MS);
    for (int retries = 0; retries < 10; retries++) {
        expire(0);
        CHECK(!is_told(0, SCTP_ASSOC_EVENT_LOST));
    }
    expire(0);
    CHECK(is_told(0, SCTP_ASSOC_EVENT_LOST) && now == 303500 * MS && !done(sctp_assoc_poll_timeout(&ends[0], &moment)));
    free_both(ends);
}

/* The peer's response (RFC 6525 section 4.4) says that the reset is in progress: the next expiry adds no retry. */
static void an_exempt_expiry_adds_no_retry(void) {
    sctp_assoc_config config = default_config();
    uint8_t datagram[PAYLOAD_SIZE + 28];
    size_t length;
    uint32_t fate;
    config.max_init_retransmits = 0;
    begin(&config);
    CHECK(done(sctp_assoc_stop(&ends[0], STREAM)));
    pass_on(&ends[0], &ends[1], now);
    do /* its own request goes first */
        CHECK(done(sctp_assoc_poll_transmit(&ends[1], now, datagram, sizeof datagram, &length)) && datagram[12] == 130);
    while (datagram[17] != 16);
    CHECK(length == 28);
    datagram[27] = 6;
    seal(datagram, length);
    CHECK(done(sctp_assoc_handle_datagram(&ends[0], now, datagram, length, &fate)) && fate == SCTP_ASSOC_TAKEN);
    lose_all(0);
    expire(0);
    CHECK(!is_told(0, SCTP_ASSOC_EVENT_RESET_FAILED) && deadline(0) == now + 3000 * MS);
    expire(0);
    CHECK(is_told(0, SCTP_ASSOC_EVENT_RESET_FAILED));
    free_both(ends);
}

/* ---- Timeouts of 0 ---- */

/* No side is made with this configuration, of which a timeout is 0. */
static void makes_no_side(const sctp_assoc_config *config) {
    sctp_assoc slot = SCTP_ASSOC_EMPTY;
    sctp_assoc_identity named = identity(1);
    sctp_assoc_token token;
    CHECK(done(sctp_assoc_make_token(config, 1, 100, &token)));
    CHECK(sctp_assoc_client(&slot, config, PAYLOAD_SIZE, &named, 0) == SCTP_ASSOC_BAD_TIMEOUT);
    CHECK(sctp_assoc_server(&slot, config, PAYLOAD_SIZE, &named, 0) == SCTP_ASSOC_BAD_TIMEOUT);
    CHECK(sctp_assoc_joined(&slot, config, PAYLOAD_SIZE, &token, &token) == SCTP_ASSOC_BAD_TIMEOUT);
    CHECK(!slot.live && blocks == 0);
}

/* With any of the three a timer would be due again as soon as it expired. */
static void timeouts_of_0_are_refused(void) {
    static const char *const names[] = {"rto_initial_ms", "rto_min_ms", "rto_max_ms"};
    for (size_t i = 0; i < COUNT_OF(names); i++) {
        sctp_assoc_config config = default_config();
        uint64_t *const fields[] = {&config.rto_initial_ms, &config.rto_min_ms, &config.rto_max_ms};
        tried = names[i];
        *fields[i] = 0;
        makes_no_side(&config);
    }
    tried = "";
}

int main(void) {
    measurements_are_smoothed();
    timeouts_double_up_to_a_greatest_one();
    a_stale_timer_starts_again();
    expiries_pass_the_limit();
    the_default_ends_it();
    an_exempt_expiry_adds_no_retry();
    timeouts_of_0_are_refused();
    puts("timeouts: ok");
    return 0;
}
