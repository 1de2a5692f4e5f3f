/* The calls that ask what was counted and which streams there are, all numbers at once, and those that ask or set a
 * stream's values: each with every code that it has. */
#include "support.h"

static sctp_assoc ends[2];
static uint8_t bytes[2000];
static uint64_t ms;
static sctp_assoc_totals totals;
static sctp_assoc_counters counters;
static uint16_t ids[3];
static size_t count, low, high;
static uint32_t type;

/* All that is asked or set of one stream answers this code. If that is not DONE nothing is written. */
static void about_stream(sctp_assoc *slot, uint16_t stream, sctp_assoc_code code) {
    counters.bytes_sent = low = high = type = 77;
    CHECK(sctp_assoc_set_payload_type(slot, stream, SCTP_ASSOC_PPID_STRING) == code);
    CHECK(sctp_assoc_set_low_mark(slot, stream, 10) == code);
    CHECK(sctp_assoc_set_high_mark(slot, stream, 100) == code);
    CHECK(sctp_assoc_stream_stats(slot, stream, &counters) == code);
    CHECK(sctp_assoc_payload_type(slot, stream, &type) == code);
    CHECK(sctp_assoc_low_mark(slot, stream, &low) == code);
    CHECK(sctp_assoc_high_mark(slot, stream, &high) == code);
    if (code == SCTP_ASSOC_DONE)
        CHECK(type == SCTP_ASSOC_PPID_STRING && low == 10 && high == 100);
    else
        CHECK(type == 77 && low == 77 && high == 77 && counters.bytes_sent == 77);
}

/* What is asked at once is what each call answers by itself, and of a watch what it counted. */
static void at_once(sctp_assoc *slot, const sctp_assoc_watch *watch) {
    sctp_assoc_metrics metrics;
    sctp_assoc_path_values path;
    uint64_t moment = 0;
    bool answer;
    memset(&metrics, 77, sizeof metrics);
    CHECK(sctp_assoc_get_metrics(slot, watch, &metrics) == SCTP_ASSOC_DONE);
    CHECK(done(sctp_assoc_path(slot, &path)) && memcmp(&metrics.path, &path, sizeof path) == 0);
    CHECK(done(sctp_assoc_stats(slot, &totals)) && memcmp(&metrics.totals, &totals, sizeof totals) == 0);
    CHECK(done(sctp_assoc_rto(slot, &ms)) && metrics.rto_ms == ms);
    CHECK(metrics.timer_runs == done(sctp_assoc_poll_timeout(slot, &moment)) && metrics.next_timeout == moment);
    CHECK(done(sctp_assoc_is_closing(slot, &answer)) && metrics.closing == answer);
    CHECK(done(sctp_assoc_is_closed(slot, &answer)) && metrics.closed == answer);
    CHECK(done(sctp_assoc_is_failed(slot, &answer)) && metrics.failed == answer);
    CHECK(metrics.established == sctp_assoc_is_established(slot) && metrics.drained == sctp_assoc_is_drained(slot));
    CHECK(metrics.datagrams_sent == (watch ? watch->datagrams_sent : 0));
    CHECK(metrics.bytes_sent == (watch ? watch->bytes_sent : 0));
    CHECK(metrics.datagrams_received == (watch ? watch->datagrams_received : 0));
    CHECK(metrics.bytes_received == (watch ? watch->bytes_received : 0));
}

/* Numbers of a server that waits, of an end with a timer that runs, and of one that was closed. */
static void numbers_at_once(void) {
    sctp_assoc slot = SCTP_ASSOC_EMPTY;
    sctp_assoc_watch watch = {1, 2, 3, 4, SCTP_ASSOC_END_CLOSED, 0, 0, {0}};
    sctp_assoc_config config = default_config();
    sctp_assoc_identity named = identity(3);
    sctp_assoc_metrics metrics;
    CHECK(done(sctp_assoc_server(&slot, &config, PAYLOAD_SIZE, &named, 0)));
    at_once(&slot, NULL);
    CHECK(done(sctp_assoc_get_metrics(&slot, &watch, &metrics)) && metrics.closed && !metrics.timer_runs);
    CHECK(done(sctp_assoc_client(&slot, &config, PAYLOAD_SIZE, &named, 5)));
    at_once(&slot, &watch);
    CHECK(done(sctp_assoc_get_metrics(&slot, &watch, &metrics)) && !metrics.closed && !metrics.established);
    CHECK(metrics.timer_runs && metrics.next_timeout == 5 + 3000 * MS && metrics.rto_ms == 3000);
    CHECK(metrics.datagrams_sent == 1 && metrics.bytes_sent == 2 && metrics.datagrams_received == 3);
    CHECK(metrics.bytes_received == 4 && metrics.path.mtu == PAYLOAD_SIZE + 28);
    CHECK(done(sctp_assoc_close(&slot)));
    at_once(&slot, &watch);
    CHECK(done(sctp_assoc_get_metrics(&slot, NULL, &metrics)) && metrics.closed && metrics.drained);
    CHECK(!metrics.timer_runs && metrics.next_timeout == 0 && metrics.datagrams_sent == 0 && !metrics.failed);
    CHECK(sctp_assoc_free(&slot) == SCTP_ASSOC_DONE);
}

static void empty_slot(void) {
    static const sctp_assoc_metrics zeros;
    sctp_assoc none = SCTP_ASSOC_EMPTY;
    sctp_assoc_metrics metrics = zeros;
    CHECK(sctp_assoc_get_metrics(&none, NULL, &metrics) == SCTP_ASSOC_EMPTY_SLOT);
    CHECK(memcmp(&metrics, &zeros, sizeof zeros) == 0);
    about_stream(&none, 1, SCTP_ASSOC_EMPTY_SLOT);
    CHECK(sctp_assoc_stats(&none, &totals) == SCTP_ASSOC_EMPTY_SLOT);
    CHECK(sctp_assoc_rto(&none, &ms) == SCTP_ASSOC_EMPTY_SLOT);
    CHECK(sctp_assoc_stream_ids(&none, ids, 3, &count) == SCTP_ASSOC_EMPTY_SLOT);
    CHECK(sctp_assoc_set_max_send_message_size(&none, 1) == SCTP_ASSOC_EMPTY_SLOT);
    CHECK(!none.at && !none.live);
}

/* A stream is told what it was opened with, and what is set after that. */
static void set_streams(void) {
    CHECK(done(sctp_assoc_open_stream(&ends[0], 7, SCTP_ASSOC_PPID_BINARY)));
    CHECK(done(sctp_assoc_payload_type(&ends[0], 7, &type)) && type == SCTP_ASSOC_PPID_BINARY);
    CHECK(done(sctp_assoc_low_mark(&ends[0], 7, &low)) && low == 0);
    CHECK(done(sctp_assoc_high_mark(&ends[0], 7, &high)) && high == SIZE_MAX);
    about_stream(&ends[0], 7, SCTP_ASSOC_DONE);
    CHECK(!counters.messages_sent && !counters.bytes_sent && !counters.messages_received && !counters.bytes_received);
    about_stream(&ends[0], 8, SCTP_ASSOC_NO_STREAM);
}

static void list_streams(void) {
    CHECK(done(sctp_assoc_stream_ids(&ends[1], ids, 0, &count)) && count == 0);
    CHECK(done(sctp_assoc_open_stream(&ends[0], 3, SCTP_ASSOC_PPID_BINARY)));
    ids[0] = ids[1] = ids[2] = 77;
    CHECK(sctp_assoc_stream_ids(&ends[0], ids, 1, &count) == SCTP_ASSOC_NO_ROOM && count == 2 && ids[0] == 77);
    count = 0;
    refused_from = growths + 1, refused_to = UINT64_MAX;
    CHECK(sctp_assoc_stream_ids(&ends[0], ids, 3, &count) == SCTP_ASSOC_NO_MEMORY && count == 0 && ids[0] == 77);
    refused_from = refused_to = 0;
    CHECK(done(sctp_assoc_stream_ids(&ends[0], ids, 3, &count)) && count == 2);
    CHECK(ids[0] == 3 && ids[1] == 7 && ids[2] == 77);
    CHECK(done(sctp_assoc_stream_ids(&ends[0], ids, 2, &count)) && count == 2);
}

static void limit_messages(void) {
    CHECK(done(sctp_assoc_set_max_send_message_size(&ends[0], 100)));
    CHECK(sctp_assoc_write(&ends[0], 7, SCTP_ASSOC_PPID_OF_STREAM, bytes, 101) == SCTP_ASSOC_MESSAGE_TOO_LONG);
}

static bool take_event(sctp_assoc *end, uint32_t kind) {
    sctp_assoc_event event;
    while (done(sctp_assoc_poll_event(end, &event)))
        if (event.kind == kind && event.stream == 7)
            return true;
    return false;
}

/* One message of 100 bytes, whose acknowledgement takes 200 ms: RTO.Min of 1000 ms is above the measured timeout. */
static void carry_message(void) {
    uint8_t read[100];
    size_t length;
    CHECK(done(sctp_assoc_rto(&ends[0], &ms)) && ms == 3000);
    fill(bytes, 100, 1);
    CHECK(done(sctp_assoc_write(&ends[0], 7, SCTP_ASSOC_PPID_OF_STREAM, bytes, 100)));
    CHECK(take_event(&ends[0], SCTP_ASSOC_EVENT_BUFFERED_HIGH));
    pass_on(&ends[0], &ends[1], 0);
    CHECK(done(sctp_assoc_read(&ends[1], 7, read, sizeof read, &length, &type)));
    CHECK(length == 100 && type == SCTP_ASSOC_PPID_STRING && !memcmp(read, bytes, 100));
    CHECK(done(sctp_assoc_handle_timeout(&ends[1], 200 * MS)));
    pass_on(&ends[1], &ends[0], 200 * MS);
    CHECK(take_event(&ends[0], SCTP_ASSOC_EVENT_BUFFERED_LOW));
    CHECK(done(sctp_assoc_rto(&ends[0], &ms)) && ms == 1000);
}

static void counted(void) {
    CHECK(done(sctp_assoc_stats(&ends[0], &totals)) && totals.sacks == 1 && totals.data_chunks == 0);
    CHECK(totals.retransmission_timeouts == 0 && totals.fast_retransmissions == 0 && totals.ack_timeouts == 0);
    CHECK(done(sctp_assoc_stats(&ends[1], &totals)) && totals.data_chunks == 1 && totals.sacks == 0);
    CHECK(totals.ack_timeouts == 1 && totals.retransmission_timeouts == 0 && totals.fast_retransmissions == 0);
    CHECK(done(sctp_assoc_stream_stats(&ends[0], 7, &counters)));
    CHECK(counters.messages_sent == 1 && counters.bytes_sent == 100);
    CHECK(counters.messages_received == 0 && counters.bytes_received == 0);
    CHECK(done(sctp_assoc_stream_stats(&ends[1], 7, &counters)));
    CHECK(counters.messages_received == 1 && counters.bytes_received == 100);
    CHECK(counters.messages_sent == 0 && counters.bytes_sent == 0);
    CHECK(done(sctp_assoc_payload_type(&ends[1], 7, &type)) && type == SCTP_ASSOC_PPID_UNKNOWN);
}

/* An end that found no memory says so, and still tells what was counted. */
static void failed_end(void) {
    sctp_assoc_metrics metrics;
    CHECK(done(sctp_assoc_write(&ends[0], 7, SCTP_ASSOC_PPID_OF_STREAM, bytes, 1)));
    refused_from = growths + 1, refused_to = UINT64_MAX;
    CHECK(sctp_assoc_poll_transmit(&ends[0], 0, bytes, sizeof bytes, &count) == SCTP_ASSOC_NO_MEMORY);
    refused_from = refused_to = 0;
    about_stream(&ends[0], 7, SCTP_ASSOC_FAILED);
    CHECK(sctp_assoc_stream_ids(&ends[0], ids, 3, &count) == SCTP_ASSOC_FAILED);
    CHECK(done(sctp_assoc_set_max_send_message_size(&ends[0], 1)));
    CHECK(done(sctp_assoc_stats(&ends[0], &totals)) && totals.sacks == 1);
    CHECK(done(sctp_assoc_rto(&ends[0], &ms)) && ms == 1000);
    at_once(&ends[0], NULL);
    CHECK(done(sctp_assoc_get_metrics(&ends[0], NULL, &metrics)) && metrics.failed && !metrics.timer_runs);
    CHECK(metrics.established && metrics.totals.sacks == 1 && metrics.rto_ms == 1000);
}

int main(void) {
    sctp_assoc_config config = default_config();
    empty_slot();
    numbers_at_once();
    shake_hands(ends, &config, 0);
    set_streams();
    list_streams();
    limit_messages();
    carry_message();
    counted();
    for (int end = 0; end < 2; end++)
        at_once(&ends[end], NULL);
    failed_end();
    free_both(ends);
    puts("questions: ok");
    return 0;
}
