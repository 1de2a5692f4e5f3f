/* A stream that its reader stops or closes, or whose data channel it closes, while much of it is under way. By the
 * rules of the RFCs what comes of it is acknowledged and dropped, and all else goes on; by those of the port it stays
 * until it fills the receive buffer, which ends the association. The network may lose DATA, repeat all datagrams or
 * forge DATA. */
#include "heal_steps.h"

#define STREAM 1
#define OTHER_STREAM 2
#define LONG 65536
#define MANY 40          /* long messages, which are 2.5 times as long as the receive buffer */
#define SLACK 20000      /* bytes that an end may take for what goes through it */
#define FORGED 3000      /* datagrams with DATA, 3 times as long as the receive buffer */
#define FORGED_SIZE 1100 /* bytes of each piece */

static const uint32_t profiles[] = {SCTP_ASSOC_PROFILE_RFC, SCTP_ASSOC_PROFILE_PORT};

/* ---- What each end has of the heap ---- */

static uint64_t held[2], seen_bytes;
static uint64_t marked, most_since; /* what B had when a test marked it, and the most since then */

/* What changed on the heap since the last look was done by this end. */
static void account(int end) {
    held[end] += heap_bytes - seen_bytes;
    seen_bytes = heap_bytes;
    if (held[B] > most_since)
        most_since = held[B];
}

static void mark_heap(void) {
    account(B);
    marked = most_since = held[B];
}

/* Whether B took little more since then. */
static bool has_grown_little(void) {
    return most_since <= marked + SLACK;
}

/* ---- What the network does ---- */

enum network { FAIR, LOSING, REPEATING };
static enum network network;

static bool loses_some_data(int from, const uint8_t *datagram, size_t length) {
    (void)length;
    return from == A && first_chunk(datagram) == 0 && ++number_seen % 50 == 0;
}

static void send_in_network(int from, const uint8_t *datagram, size_t length) {
    send_in_case(from, datagram, length);
    if (network == REPEATING)
        put_on_way(!from, now + 5 * CASE_DELAY, datagram, length);
}

static void begin(uint32_t profile, enum network chosen, const struct run *counted_run) {
    config = default_config();
    config.profile = profile;
    network = chosen;
    held[A] = held[B] = seen_bytes = 0;
    join_for(counted_run);
    account(A);
    lose(network == LOSING ? loses_some_data : NULL);
}

/* ---- Streams ---- */

typedef sctp_assoc_code ending_call(sctp_assoc *slot, uint16_t stream);
static const struct run stream_run = {take_case_events, send_in_network, account, NULL};

/* Whether B reads a message, if A's stream is there already. */
static bool reads_one(void) {
    size_t length;
    uint32_t type;
    return sctp_assoc_read(&ends[B].assoc, STREAM, bytes, sizeof bytes, &length, &type) == SCTP_ASSOC_DONE;
}

static bool has_none_in_flight(int end) {
    sctp_assoc_path_values path;
    return done(sctp_assoc_path(&ends[end].assoc, &path)) && path.bytes_in_flight == 0;
}

/* B stops the stream behind its first message, and A's request to reset its half waits until all is acknowledged. By
 * the rules of the RFCs that ends, another stream and a later use of this one go on, and nothing of it is told or kept
 * meanwhile. */
static void ends_under_way(ending_call *ends_stream, uint32_t profile, enum network chosen) {
    begin(profile, chosen, &stream_run);
    turn_both();
    is_reading[B] = false;
    CHECK(opens(A, STREAM) && opens(A, OTHER_STREAM) && writes_many(A, STREAM, LONG, MANY));
    CHECK(writes(A, OTHER_STREAM, 100));
    while (!reads_one())
        pass(10);
    account(B);
    CHECK(done(ends_stream(&ends[B].assoc, STREAM)));
    mark_heap();
    unsigned told_readable = told(B, SCTP_ASSOC_EVENT_READABLE, STREAM);
    turn(B);
    is_reading[B] = true;
    pass(600000);
    if (profile == SCTP_ASSOC_PROFILE_PORT) {
        CHECK(watches[B].end == SCTP_ASSOC_END_BUFFER_EXHAUSTED && watches[A].end == SCTP_ASSOC_END_ABORT_CAME);
        end_pair();
        return;
    }
    CHECK(goes_on() && has_none_in_flight(A) && are_told_complete(STREAM, 1) && has_grown_little());
    CHECK(read_counts[B][STREAM] == 0 && told(B, SCTP_ASSOC_EVENT_READABLE, STREAM) == told_readable);
    CHECK(read_counts[B][OTHER_STREAM] == 1);
    CHECK(opens(A, STREAM) && writes(A, STREAM, 100) && writes(A, OTHER_STREAM, 100));
    pass(10000);
    CHECK(read_counts[B][STREAM] == 1 && read_counts[B][OTHER_STREAM] == 2 && goes_on());
    end_pair();
}

/* ---- Forged DATA ---- */

/* B gets DATA that A never sent, of a stream, with these flags (RFC 4960 section 3.3.1), and answers it. */
static void gets_forged(uint32_t tsn, uint16_t stream, uint8_t flags) {
    uint8_t forged[28 + FORGED_SIZE] = {0x13, 0x88, 0x13, 0x88, 0, 0, 0, 2, 0, 0, 0, 0, 0, flags};
    static uint8_t answer[SCTP_ASSOC_MAX_DATAGRAM];
    size_t length;
    uint32_t fate;
    forged[14] = (16 + FORGED_SIZE) >> 8, forged[15] = (16 + FORGED_SIZE) & 255;
    for (int i = 0; i < 4; i++)
        forged[16 + i] = (uint8_t)(tsn >> (24 - 8 * i));
    forged[20] = (uint8_t)(stream >> 8), forged[21] = (uint8_t)stream;
    seal(forged, sizeof forged);
    CHECK(done(sctp_assoc_watched_handle_datagram(&ends[B].assoc, &watches[B], now, forged, sizeof forged, &fate)));
    take_case_events(B);
    while (done(sctp_assoc_watched_poll_transmit(&ends[B].assoc, &watches[B], now, answer, sizeof answer, &length)))
        CHECK(length < LONG);
    account(B);
}

/* On the stream that B ended DATA is forged that contradicts itself, leaves gaps and comes again, and then whole
 * messages on another one. */
static void ends_forged(ending_call *ends_stream, uint32_t profile) {
    begin(profile, FAIR, &stream_run);
    turn_both();
    CHECK(opens(A, STREAM) && writes(A, STREAM, 100));
    pass(1000);
    CHECK(read_counts[B][STREAM] == 1 && done(ends_stream(&ends[B].assoc, STREAM)));
    turn(B);
    mark_heap();
    for (uint32_t i = 0; i < FORGED && goes_on(); i++)
        gets_forged(101 + (i % 3 == 2 ? i : i ^ 1), STREAM, (uint8_t)(i % 8));
    CHECK(goes_on() == (profile == SCTP_ASSOC_PROFILE_RFC));
    if (goes_on()) {
        CHECK(has_grown_little() && is_established(B));
        for (uint32_t i = 0; i < 3; i++)
            gets_forged(101 + FORGED + i, OTHER_STREAM, 7);
        CHECK(read_counts[B][STREAM] == 1 && read_counts[B][OTHER_STREAM] == 3 && goes_on());
    }
    end_pair();
}

/* ---- Data channels ---- */

static unsigned channel_told[2][SCTP_CHANNELS_EVENT_HANDSHAKE_FAILED + 1];
static uint32_t lost_reason;
static unsigned received[2]; /* by B, of the file and of the chat */
static uint16_t file, chat;
static const sctp_channels_options reliable = SCTP_CHANNELS_ORDERED_RELIABLE;

/* B closes the file behind its first message. */
static void receive_all(uint16_t channel) {
    size_t length;
    bool is_text;
    while (sctp_channels_receive(&ends[B], channel, bytes, sizeof bytes, &length, &is_text) == SCTP_ASSOC_DONE)
        if (received[channel == chat]++ == 0 && channel == file) {
            account(B);
            CHECK(done(sctp_channels_close(&ends[B], file)));
            mark_heap();
        }
}

static void take_channel_events(int side) {
    sctp_channels_event event;
    while (done(sctp_channels_poll_event(&ends[side], &event))) {
        channel_told[side][event.kind]++;
        if (event.kind == SCTP_CHANNELS_EVENT_MESSAGE && side == B)
            receive_all(event.id);
        if (event.kind == SCTP_CHANNELS_EVENT_LOST && side == B)
            lost_reason = event.reason;
    }
}

static const struct run channel_run = {take_channel_events, send_in_network, account, NULL};

static void open_channel(uint16_t *id) {
    CHECK(done(sctp_channels_open(&ends[A], &reliable, (const uint8_t *)"channel", 7, NULL, 0, id)));
    turn(A);
}

static void send_on(uint16_t channel, size_t length) {
    memset(bytes, 7, length);
    CHECK(done(sctp_channels_send(&ends[A], channel, false, bytes, length)));
    turn(A);
}

static void begin_sides(uint32_t profile, enum network chosen) {
    CHECK(done(sctp_channels_begin(&ends[A], SCTP_CHANNELS_CLIENT)));
    CHECK(done(sctp_channels_begin(&ends[B], SCTP_CHANNELS_SERVER)));
    begin(profile, chosen, &channel_run);
    memset(channel_told, 0, sizeof channel_told);
    memset(received, 0, sizeof received);
    lost_reason = SCTP_ASSOC_REASON_NONE;
    turn_both();
}

/* A sends a file on a channel that B closes behind the first message, and a line on another one. */
static void closes_under_way(uint32_t profile, enum network chosen) {
    begin_sides(profile, chosen);
    open_channel(&file);
    open_channel(&chat);
    pass(5000);
    CHECK(channel_told[A][SCTP_CHANNELS_EVENT_OPENED] == 2);
    for (int i = 0; i < MANY; i++)
        send_on(file, LONG);
    pass(600000);
    CHECK(received[0] == 1);
    if (profile == SCTP_ASSOC_PROFILE_PORT) {
        CHECK(lost_reason == SCTP_ASSOC_REASON_BUFFER_EXHAUSTED && watches[A].end == SCTP_ASSOC_END_ABORT_CAME);
        end_pair();
        return;
    }
    CHECK(goes_on() && lost_reason == SCTP_ASSOC_REASON_NONE && has_grown_little());
    CHECK(channel_told[A][SCTP_CHANNELS_EVENT_CLOSED] == 1 && channel_told[B][SCTP_CHANNELS_EVENT_CLOSED] == 1);
    send_on(chat, 100);
    pass(10000);
    CHECK(received[1] == 1 && goes_on());
    end_pair();
}

int main(void) {
    for (size_t i = 0; i < COUNT_OF(profiles); i++) {
        for (int each = FAIR; each <= REPEATING; each++) {
            TRY(ends_under_way(sctp_assoc_stop, profiles[i], (enum network)each));
            TRY(ends_under_way(sctp_assoc_close_stream, profiles[i], (enum network)each));
            TRY(closes_under_way(profiles[i], (enum network)each));
        }
        TRY(ends_forged(sctp_assoc_stop, profiles[i]));
        TRY(ends_forged(sctp_assoc_close_stream, profiles[i]));
    }
    puts("stopped: ok");
    return 0;
}
