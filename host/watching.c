/* A watch of each side, and an observer: what passed is counted and told, and each end of an association is noted at
 * both sides. ABORTs with a reason, the path, and the codes of these calls. */
#include "support.h"

#define STREAM 7

enum { IN, OUT };

static sctp_assoc ends[2];
static sctp_assoc_watch watches[2];
static sctp_assoc_config config;
static sctp_assoc_path_values path;
static sctp_assoc_event event;
static uint8_t bytes[70000];
static size_t length;
static uint32_t fate;
static uint64_t now;

/* What an observer of each end was told: datagrams and bytes, of each way. */
static struct told {
    uint64_t datagrams, bytes;
    uint64_t last; /* the moment */
} told[2][2];

static void observe(void *user, bool outgoing, uint64_t moment, const uint8_t *datagram, size_t size) {
    struct told *way = (struct told *)user + outgoing;
    CHECK(is_sealed(datagram, size) && moment >= way->last);
    way->datagrams++;
    way->bytes += size;
    way->last = moment;
}

/* Whether an end has a datagram to send, which is left in `bytes`. */
static bool sends(int end) {
    return done(sctp_assoc_observed_poll_transmit(&ends[end], &watches[end], observe, told[end], now, bytes,
                                                  sizeof bytes, &length));
}

static void receives(int end) {
    CHECK(done(sctp_assoc_observed_handle_datagram(&ends[end], &watches[end], observe, told[end], now, bytes, length,
                                                   &fate)));
}

static void carry(void) {
    for (bool any = true; any;) {
        any = false;
        for (int end = 0; end < 2; end++)
            while (sends(end)) {
                receives(!end);
                any = true;
            }
    }
}

/* Lets timers expire for so many ms. */
static void wait(uint64_t ms) {
    for (uint64_t until = now + ms * MS; now < until; now += 100 * MS)
        for (int end = 0; end < 2; end++) {
            CHECK(done(sctp_assoc_watched_handle_timeout(&ends[end], &watches[end], now)));
            carry();
        }
}

static bool is_told(int end, uint32_t kind) {
    while (done(sctp_assoc_watched_poll_event(&ends[end], &watches[end], &event)))
        if (event.kind == kind)
            return true;
    return false;
}

/* A client and a server with a watch each, after their handshake. */
static void begin(void) {
    sctp_assoc_identity client = identity(1), server = identity(2);
    memset(watches, 0, sizeof watches);
    memset(told, 0, sizeof told);
    now = 0;
    CHECK(done(sctp_assoc_client(&ends[0], &config, PAYLOAD_SIZE, &client, now)));
    CHECK(done(sctp_assoc_server(&ends[1], &config, PAYLOAD_SIZE, &server, now)));
    carry();
    for (int end = 0; end < 2; end++)
        CHECK(is_told(end, SCTP_ASSOC_EVENT_CONNECTED) && watches[end].end == SCTP_ASSOC_END_NONE);
    CHECK(done(sctp_assoc_open_stream(&ends[0], STREAM, SCTP_ASSOC_PPID_BINARY)));
}

static void write_bytes(size_t count) {
    fill(bytes, count, 1);
    CHECK(done(sctp_assoc_write(&ends[0], STREAM, SCTP_ASSOC_PPID_OF_STREAM, bytes, count)));
}

/* ---- What passed ---- */

/* What an end counted is what its observer was told, and what one end sent the other one received. */
static void is_counted(void) {
    for (int end = 0; end < 2; end++) {
        const sctp_assoc_watch *watch = &watches[end];
        CHECK(watch->datagrams_sent == told[end][OUT].datagrams && watch->bytes_sent == told[end][OUT].bytes);
        CHECK(watch->datagrams_received == told[end][IN].datagrams && watch->bytes_received == told[end][IN].bytes);
        CHECK(watch->datagrams_sent == watches[!end].datagrams_received);
        CHECK(watch->bytes_sent == watches[!end].bytes_received);
    }
}

/* INIT of 40 bytes and COOKIE ECHO of 48, against INIT ACK of 76, with a State Cookie of 32, and COOKIE ACK of 16; a
 * message of 100 bytes in a datagram of 128, and its SACK of 28; and one of 3,000 bytes in three datagrams. */
static void counts(void) {
    begin();
    is_counted();
    CHECK(watches[0].datagrams_sent == 2 && watches[1].datagrams_sent == 2);
    CHECK(watches[0].bytes_sent == 40 + 48 && watches[1].bytes_sent == 76 + 16);
    write_bytes(100);
    carry();
    wait(300);
    is_counted();
    CHECK(watches[0].datagrams_sent == 3 && watches[0].bytes_sent == 88 + 128);
    CHECK(watches[1].datagrams_sent == 3 && watches[1].bytes_sent == 92 + 28);
    write_bytes(3000);
    carry();
    wait(300);
    is_counted();
    CHECK(watches[0].datagrams_sent == 6 && watches[0].bytes_sent == 216 + 3 * 28 + 3000);
    free_both(ends);
}

/* What is not taken, or finds no room, is neither counted nor told. */
static void counts_no_other(void) {
    begin();
    write_bytes(100);
    CHECK(sctp_assoc_observed_poll_transmit(&ends[0], &watches[0], observe, told[0], now, bytes, 127, &length) ==
          SCTP_ASSOC_NO_ROOM);
    CHECK(watches[0].datagrams_sent == 2 && told[0][OUT].datagrams == 2);
    CHECK(sends(0) && length == 128);
    receives(0);
    CHECK(fate == SCTP_ASSOC_OTHER_TAG);
    bytes[100] ^= 1;
    receives(1);
    CHECK(fate == SCTP_ASSOC_NO_PACKET);
    CHECK(watches[0].datagrams_received == 2 && watches[1].datagrams_received == 2);
    CHECK(told[0][IN].datagrams == 2 && told[1][IN].datagrams == 2);
    bytes[100] ^= 1;
    receives(1);
    CHECK(fate == SCTP_ASSOC_TAKEN);
    is_counted();
    free_both(ends);
}

/* ---- Why it ended ---- */

/* An end is noted, stays so whatever is asked for after it, and the application is told it as LOST. */
static void ended(int end, uint32_t kind) {
    CHECK(sctp_assoc_is_drained(&ends[end]) && watches[end].end == kind);
    CHECK(done(sctp_assoc_watched_close(&ends[end], &watches[end])));
    CHECK(done(sctp_assoc_watched_abort(&ends[end], &watches[end], NULL, 0)));
    CHECK(is_told(end, SCTP_ASSOC_EVENT_LOST) && event.reason == SCTP_ASSOC_REASON_CLOSED);
    CHECK(watches[end].end == kind);
    CHECK(kind == SCTP_ASSOC_END_ABORT_CAME || (watches[end].cause == 0 && watches[end].reason_length == 0));
}

static void by_close(void) {
    begin();
    CHECK(done(sctp_assoc_watched_close(&ends[0], &watches[0])));
    carry();
    ended(0, SCTP_ASSOC_END_CLOSED);
    CHECK(watches[1].end == SCTP_ASSOC_END_NONE && !sctp_assoc_is_drained(&ends[1]));
    free_both(ends);
}

/* One end shuts down, with a message under way or without. */
static void by_shutdown(int end, size_t written) {
    begin();
    if (written)
        write_bytes(written);
    CHECK(done(sctp_assoc_shutdown(&ends[end])));
    carry();
    wait(1000);
    ended(0, SCTP_ASSOC_END_SHUT_DOWN);
    ended(1, SCTP_ASSOC_END_SHUT_DOWN);
    is_counted();
    free_both(ends);
}

/* The reason of an ABORT is noted at the peer, up to its first 128 bytes; 12 is the cause User-Initiated Abort. */
static void by_abort(size_t reason_length) {
    begin();
    uint8_t reason[300];
    fill(reason, sizeof reason, 3);
    CHECK(done(sctp_assoc_watched_abort(&ends[0], &watches[0], reason, reason_length)));
    carry();
    ended(0, SCTP_ASSOC_END_ABORTED);
    ended(1, SCTP_ASSOC_END_ABORT_CAME);
    CHECK(watches[1].cause == 12 && watches[1].reason_length == (reason_length < 128 ? reason_length : 128));
    CHECK(memcmp(watches[1].reason, reason, watches[1].reason_length) == 0);
    is_counted();
    free_both(ends);
}

/* Chunks that the server gets under this tag, behind a DATA chunk of the client or in its place, and the end that they
 * bring, with the cause and the reason that are noted. */
static const struct fault {
    const char *name;
    uint8_t tag;
    bool behind_data;
    uint8_t size, chunks[28];
    uint32_t end;
    uint16_t cause;
    const char *reason;
} faults[] = {
    {"ABORT without a cause", 2, false, 4, {6, 0, 0, 4}, SCTP_ASSOC_END_ABORT_CAME, 0, ""},
    {"ABORT under the peer's tag, with its T bit set", 1, false, 4, {6, 1, 0, 4}, SCTP_ASSOC_END_ABORT_CAME, 0, ""},
    {"ABORT with two causes behind DATA", 2, true, 20,
     {6, 0, 0, 20, 0, 13, 0, 8, 'l', 'a', 't', 'e', 0, 12, 0, 8, 'd', 'o', 'n', 'e'},
     SCTP_ASSOC_END_ABORT_CAME, 13, "late"},
    {"ABORT with two causes, the first one without a value", 2, false, 16,
     {6, 0, 0, 14, 0, 6, 0, 4, 0, 12, 0, 6, 'n', 'o', 0, 0}, SCTP_ASSOC_END_ABORT_CAME, 6, ""},
    {"two ABORTs behind COOKIE ACK", 2, false, 28,
     {11, 0, 0, 4, 6, 0, 0, 10, 0, 12, 0, 6, 'n', 'o', 0, 0, 6, 0, 0, 10, 0, 12, 0, 6, 'h', 'o', 0, 0},
     SCTP_ASSOC_END_ABORT_CAME, 12, "no"},
    {"a chunk of another type", 2, false, 4, {63, 0, 0, 4}, SCTP_ASSOC_END_FAULT, 0, ""},
    {"a chunk of another type behind ERROR", 2, false, 16, {9, 0, 0, 12, 0, 1, 0, 8, 0, 1, 0, 0, 63, 0, 0, 4},
     SCTP_ASSOC_END_FAULT, 0, ""},
};

static void by_fault(const struct fault *fault) {
    begin();
    write_bytes(4);
    CHECK(sends(0) && length == 32);
    length = fault->behind_data ? length : 12;
    bytes[7] = fault->tag;
    memcpy(bytes + length, fault->chunks, fault->size);
    length += fault->size;
    seal(bytes, length);
    receives(1);
    CHECK(fate == SCTP_ASSOC_TAKEN);
    ended(1, fault->end);
    CHECK(watches[1].cause == fault->cause && watches[1].reason_length == strlen(fault->reason));
    CHECK(memcmp(watches[1].reason, fault->reason, watches[1].reason_length) == 0);
    free_both(ends);
}

/* What the peer sends that ends the association: of ABORTs and their causes the first counts. */
static void by_faults(void) {
    for (size_t i = 0; i < sizeof faults / sizeof *faults; i++) {
        tried = faults[i].name;
        by_fault(&faults[i]);
    }
}

/* The server's receive buffer was exhausted. The call that left it so notes it, if it is a watched one, and else the
 * event that tells it. The peer gets an ABORT with the cause Out of Resource, which has no value (RFC 4960 section
 * 3.3.10.4). */
static void ended_exhausted(bool is_noted_at_once) {
    uint32_t noted_first = is_noted_at_once ? SCTP_ASSOC_END_BUFFER_EXHAUSTED : SCTP_ASSOC_END_NONE;
    CHECK(sctp_assoc_is_drained(&ends[1]) && watches[1].end == noted_first);
    CHECK(is_told(1, SCTP_ASSOC_EVENT_LOST) && event.reason == SCTP_ASSOC_REASON_BUFFER_EXHAUSTED);
    CHECK(watches[1].end == SCTP_ASSOC_END_BUFFER_EXHAUSTED);
    CHECK(watches[1].cause == 0 && watches[1].reason_length == 0);
    carry();
    ended(0, SCTP_ASSOC_END_ABORT_CAME);
    CHECK(watches[0].cause == 4 && watches[0].reason_length == 0);
    free_both(ends);
}

/* A message that doesn't fit into the receive buffer can never be read. A datagram fills it. */
static void by_exhaustion(void) {
    config.max_receive_buffer_size = 1500;
    begin();
    write_bytes(6000);
    for (int turn = 0; turn < 100 && !sctp_assoc_is_drained(&ends[1]); turn++) {
        carry();
        wait(1000);
    }
    ended_exhausted(true);
    config = default_config();
}

/* The same where beside it a message could be read, until it was, or its stream was stopped. */
static void by_exhaustion_behind(bool is_stop) {
    uint32_t type;
    config.max_receive_buffer_size = 1500;
    begin();
    write_bytes(100);
    CHECK(done(sctp_assoc_open_stream(&ends[0], STREAM + 1, SCTP_ASSOC_PPID_BINARY)));
    CHECK(done(sctp_assoc_write(&ends[0], STREAM + 1, SCTP_ASSOC_PPID_OF_STREAM, bytes, 6000)));
    carry();
    wait(5000);
    CHECK(!sctp_assoc_is_drained(&ends[1]) && watches[1].end == SCTP_ASSOC_END_NONE);
    if (is_stop)
        CHECK(done(sctp_assoc_stop(&ends[1], STREAM)));
    else
        CHECK(done(sctp_assoc_read(&ends[1], STREAM, bytes, sizeof bytes, &length, &type)) && length == 100);
    ended_exhausted(false);
    config = default_config();
}

/* What an end sends is lost, and its timers expire, so often at most. Answers how often, until the association ended or
 * no timer ran. */
static unsigned expires(int end, unsigned most) {
    uint64_t moment;
    for (unsigned count = 0; count < most; count++) {
        while (sends(end))
            ;
        if (sctp_assoc_is_drained(&ends[end]) || !done(sctp_assoc_poll_timeout(&ends[end], &moment)))
            return count;
        CHECK(watches[end].end == SCTP_ASSOC_END_NONE);
        now = moment;
        CHECK(done(sctp_assoc_watched_handle_timeout(&ends[end], &watches[end], now)));
    }
    return most;
}

/* An end whose peer is silent ends by it and is told so, or neither. */
static void ended_silent(int end, bool is_told) {
    CHECK(sctp_assoc_is_drained(&ends[end]) == is_told);
    if (is_told)
        ended(end, SCTP_ASSOC_END_SILENT);
    CHECK(is_told || watches[end].end == SCTP_ASSOC_END_NONE);
    CHECK(!sctp_assoc_is_drained(&ends[!end]) && watches[!end].end == SCTP_ASSOC_END_NONE);
    free_both(ends);
    config = default_config();
}

/* The network is dead. DATA goes out again twice, and the third expiry is one too many (RFC 4960 section 8.1). */
static void by_silence(uint32_t profile) {
    config.profile = profile;
    config.max_data_retransmits = 2;
    begin();
    write_bytes(100);
    CHECK(expires(0, 20) == 3);
    ended_silent(0, profile == SCTP_ASSOC_PROFILE_RFC);
}

/* So does the SHUTDOWN ACK that answers a SHUTDOWN (section 9.2). SHUTDOWN itself goes out again for ever, and by the
 * rules of the port SHUTDOWN ACK does, too. */
static void by_silence_at_the_end(uint32_t profile, bool is_answer) {
    bool is_told = is_answer && profile == SCTP_ASSOC_PROFILE_RFC;
    config.profile = profile;
    config.max_init_retransmits = 2;
    begin();
    CHECK(done(sctp_assoc_shutdown(&ends[0])));
    if (is_answer) {
        CHECK(sends(0));
        receives(1);
    }
    CHECK(expires(is_answer, 20) == (is_told ? 3u : 20u));
    ended_silent(is_answer, is_told);
}

/* Memory is refused as the association is to close: it fails, and no end is noted. Each of its streams has an event. */
static void refused_silence(void) {
    config.max_data_retransmits = 0;
    begin();
    for (uint16_t stream = STREAM + 1; stream < 100; stream++)
        CHECK(done(sctp_assoc_open_stream(&ends[0], stream, SCTP_ASSOC_PPID_BINARY)));
    write_bytes(1);
    while (sends(0))
        ;
    CHECK(done(sctp_assoc_poll_timeout(&ends[0], &now)));
    refused_from = growths + 1, refused_to = UINT64_MAX;
    CHECK(sctp_assoc_watched_handle_timeout(&ends[0], &watches[0], now) == SCTP_ASSOC_NO_MEMORY);
    refused_from = refused_to = 0;
    CHECK(sctp_assoc_watched_handle_timeout(&ends[0], &watches[0], now) == SCTP_ASSOC_FAILED);
    CHECK(watches[0].end == SCTP_ASSOC_END_NONE);
    free_both(ends);
    config = default_config();
}

/* ---- The path ---- */

/* A congestion window of 4,380 bytes at first (RFC 4960 section 7.2.1). A SACK takes 200 ms: that is the round trip. */
static void tells_path(void) {
    begin();
    CHECK(done(sctp_assoc_path(&ends[0], &path)));
    CHECK(path.mtu == PAYLOAD_SIZE + 28 && path.congestion_window == 4380);
    CHECK(path.slow_start_threshold == config.max_receive_buffer_size);
    CHECK(path.peer_window == config.max_receive_buffer_size && path.bytes_in_flight == 0);
    write_bytes(1000);
    CHECK(sends(0));
    receives(1);
    CHECK(done(sctp_assoc_path(&ends[0], &path)) && path.bytes_in_flight == 1000);
    CHECK(path.peer_window == config.max_receive_buffer_size - 1000);
    now = 200 * MS;
    CHECK(done(sctp_assoc_handle_timeout(&ends[1], now)));
    carry();
    CHECK(done(sctp_assoc_path(&ends[0], &path)) && path.bytes_in_flight == 0 && path.smoothed_round_trip_ms == 200);
    CHECK(done(sctp_assoc_watched_close(&ends[0], &watches[0])));
    CHECK(done(sctp_assoc_path(&ends[0], &path)) && path.smoothed_round_trip_ms == 200);
    free_both(ends);
}

/* ---- Codes ---- */

static void empty_slot(void) {
    sctp_assoc none = SCTP_ASSOC_EMPTY;
    sctp_assoc_watch watch = SCTP_ASSOC_WATCH_NEW, unchanged = SCTP_ASSOC_WATCH_NEW;
    CHECK(sctp_assoc_path(&none, &path) == SCTP_ASSOC_EMPTY_SLOT);
    CHECK(sctp_assoc_abort(&none, NULL, 0) == SCTP_ASSOC_EMPTY_SLOT);
    CHECK(sctp_assoc_watched_handle_datagram(&none, &watch, 0, bytes, 20, &fate) == SCTP_ASSOC_EMPTY_SLOT);
    CHECK(sctp_assoc_watched_poll_transmit(&none, &watch, 0, NULL, 0, &length) == SCTP_ASSOC_EMPTY_SLOT);
    CHECK(sctp_assoc_watched_handle_timeout(&none, &watch, 0) == SCTP_ASSOC_EMPTY_SLOT);
    CHECK(sctp_assoc_watched_poll_event(&none, &watch, &event) == SCTP_ASSOC_EMPTY_SLOT);
    CHECK(sctp_assoc_watched_close(&none, &watch) == SCTP_ASSOC_EMPTY_SLOT);
    CHECK(sctp_assoc_watched_abort(&none, &watch, NULL, 0) == SCTP_ASSOC_EMPTY_SLOT);
    CHECK(memcmp(&watch, &unchanged, sizeof watch) == 0);
}

/* An ABORT that is refused changes nothing; one before the handshake tells nobody. NULL stands for no bytes. */
static void refused_abort(void) {
    begin();
    CHECK(sctp_assoc_watched_abort(&ends[0], &watches[0], bytes, 65528) == SCTP_ASSOC_MESSAGE_TOO_LONG);
    refused_from = growths + 1, refused_to = UINT64_MAX;
    CHECK(sctp_assoc_watched_abort(&ends[0], &watches[0], bytes, 5) == SCTP_ASSOC_NO_MEMORY);
    refused_from = refused_to = 0;
    CHECK(!sctp_assoc_is_drained(&ends[0]) && watches[0].end == SCTP_ASSOC_END_NONE);
    write_bytes(1);
    CHECK(sctp_assoc_abort(&ends[0], bytes, 65527) == SCTP_ASSOC_DONE && sctp_assoc_is_drained(&ends[0]));
    CHECK(sends(0) && length == SCTP_ASSOC_MAX_DATAGRAM && !sends(0));
    CHECK(watches[0].end == SCTP_ASSOC_END_NONE); /* the watch was not asked */
    free_both(ends);

    sctp_assoc_identity client = identity(1);
    CHECK(done(sctp_assoc_client(&ends[0], &config, PAYLOAD_SIZE, &client, 0)));
    CHECK(done(sctp_assoc_abort(&ends[0], NULL, 0)) && sctp_assoc_is_drained(&ends[0]) && !sends(0));
    CHECK(done(sctp_assoc_abort(&ends[0], NULL, 0)) && !sends(0));
    CHECK(sctp_assoc_watched_handle_datagram(&ends[0], &watches[0], 0, NULL, 0, &fate) == SCTP_ASSOC_DONE);
    CHECK(fate == SCTP_ASSOC_NO_PACKET);
    CHECK(sctp_assoc_free(&ends[0]) == SCTP_ASSOC_DONE);
}

/* An association that found no memory refuses all but the question. */
static void failed_end(void) {
    begin();
    write_bytes(1);
    refused_from = growths + 1, refused_to = UINT64_MAX;
    CHECK(sctp_assoc_watched_poll_transmit(&ends[0], &watches[0], 0, bytes, sizeof bytes, &length) ==
          SCTP_ASSOC_NO_MEMORY);
    refused_from = refused_to = 0;
    CHECK(sctp_assoc_watched_poll_transmit(&ends[0], &watches[0], 0, bytes, sizeof bytes, &length) ==
          SCTP_ASSOC_FAILED);
    CHECK(sctp_assoc_watched_handle_datagram(&ends[0], &watches[0], 0, bytes, 20, &fate) == SCTP_ASSOC_FAILED);
    CHECK(sctp_assoc_watched_poll_event(&ends[0], &watches[0], &event) == SCTP_ASSOC_FAILED);
    CHECK(sctp_assoc_watched_close(&ends[0], &watches[0]) == SCTP_ASSOC_FAILED);
    CHECK(sctp_assoc_watched_abort(&ends[0], &watches[0], bytes, 1) == SCTP_ASSOC_FAILED);
    CHECK(sctp_assoc_abort(&ends[0], bytes, 1) == SCTP_ASSOC_FAILED);
    CHECK(watches[0].datagrams_sent == 2 && watches[0].end == SCTP_ASSOC_END_NONE);
    CHECK(done(sctp_assoc_path(&ends[0], &path)) && path.mtu == PAYLOAD_SIZE + 28);
    free_both(ends);
}

int main(void) {
    config = default_config();
    TRY(counts());
    TRY(counts_no_other());
    TRY(by_close());
    TRY(by_shutdown(0, 0));
    TRY(by_shutdown(1, 0));
    TRY(by_shutdown(1, 100));
    TRY(by_abort(3));
    TRY(by_abort(0));
    TRY(by_abort(300));
    TRY(by_faults());
    TRY(by_exhaustion());
    TRY(by_exhaustion_behind(false));
    TRY(by_exhaustion_behind(true));
    for (uint32_t profile = SCTP_ASSOC_PROFILE_RFC; profile <= SCTP_ASSOC_PROFILE_PORT; profile++) {
        TRY(by_silence(profile));
        TRY(by_silence_at_the_end(profile, false));
        TRY(by_silence_at_the_end(profile, true));
    }
    TRY(refused_silence());
    TRY(tells_path());
    TRY(empty_slot());
    TRY(refused_abort());
    TRY(failed_end());
    puts("watching: ok");
    return 0;
}
