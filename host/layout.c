/* The size of each struct of the header, and offset and size of each of its fields, as host/layout.txt lists them. The
 * Rust crate compares its own with the same list, and host/layout.awk those of sctp_slots and sctp_c, which have all
 * structs but those that archive/ alone uses. That no field is left out here is seen as this is compiled: each struct
 * is filled by the place of its fields, of which -Wextra wants neither fewer nor more. */
#define SCTP_ASSOC_HEAP
#include "sctp_assoc.h"

#include <stdio.h>

#define STRUCT(name) printf("%s %zu\n", #name, sizeof(name))
#define FIELD(name, field) printf("%s.%s %zu %zu\n", #name, #field, offsetof(name, field), sizeof(((name *)0)->field))

static void slot(void) {
    sctp_assoc filled = {0, 0};
    (void)filled;
    STRUCT(sctp_assoc);
    FIELD(sctp_assoc, at);
    FIELD(sctp_assoc, live);
}

static void config(void) {
    sctp_assoc_config filled = {0, 0, 0, 0, 0, 0, 0, 0, 0, 0, 0, 0, 0};
    (void)filled;
    STRUCT(sctp_assoc_config);
    FIELD(sctp_assoc_config, max_receive_buffer_size);
    FIELD(sctp_assoc_config, max_send_message_size);
    FIELD(sctp_assoc_config, max_receive_message_size);
    FIELD(sctp_assoc_config, max_num_outbound_streams);
    FIELD(sctp_assoc_config, max_num_inbound_streams);
    FIELD(sctp_assoc_config, local_port);
    FIELD(sctp_assoc_config, remote_port);
    FIELD(sctp_assoc_config, profile);
    FIELD(sctp_assoc_config, rto_initial_ms);
    FIELD(sctp_assoc_config, rto_min_ms);
    FIELD(sctp_assoc_config, rto_max_ms);
    FIELD(sctp_assoc_config, max_init_retransmits);
    FIELD(sctp_assoc_config, max_data_retransmits);
}

static void identity(void) {
    sctp_assoc_identity filled = {0, 0, {0}};
    (void)filled;
    STRUCT(sctp_assoc_identity);
    FIELD(sctp_assoc_identity, tag);
    FIELD(sctp_assoc_identity, initial_tsn);
    FIELD(sctp_assoc_identity, cookie);
}

static void token(void) {
    sctp_assoc_token filled = {0, 0, 0, 0, 0, 0};
    (void)filled;
    STRUCT(sctp_assoc_token);
    FIELD(sctp_assoc_token, tag);
    FIELD(sctp_assoc_token, initial_tsn);
    FIELD(sctp_assoc_token, window);
    FIELD(sctp_assoc_token, num_outbound_streams);
    FIELD(sctp_assoc_token, num_inbound_streams);
    FIELD(sctp_assoc_token, forward_tsn);
}

static void counters(void) {
    sctp_assoc_counters filled = {0, 0, 0, 0};
    (void)filled;
    STRUCT(sctp_assoc_counters);
    FIELD(sctp_assoc_counters, messages_sent);
    FIELD(sctp_assoc_counters, bytes_sent);
    FIELD(sctp_assoc_counters, messages_received);
    FIELD(sctp_assoc_counters, bytes_received);
}

static void event(void) {
    sctp_assoc_event filled = {0, 0, 0, {0, 0, 0, 0}};
    (void)filled;
    STRUCT(sctp_assoc_event);
    FIELD(sctp_assoc_event, kind);
    FIELD(sctp_assoc_event, reason);
    FIELD(sctp_assoc_event, stream);
    FIELD(sctp_assoc_event, counters);
}

static void totals(void) {
    sctp_assoc_totals filled = {0, 0, 0, 0, 0};
    (void)filled;
    STRUCT(sctp_assoc_totals);
    FIELD(sctp_assoc_totals, data_chunks);
    FIELD(sctp_assoc_totals, sacks);
    FIELD(sctp_assoc_totals, retransmission_timeouts);
    FIELD(sctp_assoc_totals, ack_timeouts);
    FIELD(sctp_assoc_totals, fast_retransmissions);
}

static void path(void) {
    sctp_assoc_path_values filled = {0, 0, 0, 0, 0, 0};
    (void)filled;
    STRUCT(sctp_assoc_path_values);
    FIELD(sctp_assoc_path_values, mtu);
    FIELD(sctp_assoc_path_values, congestion_window);
    FIELD(sctp_assoc_path_values, slow_start_threshold);
    FIELD(sctp_assoc_path_values, peer_window);
    FIELD(sctp_assoc_path_values, bytes_in_flight);
    FIELD(sctp_assoc_path_values, smoothed_round_trip_ms);
}

static void watch(void) {
    sctp_assoc_watch filled = SCTP_ASSOC_WATCH_NEW;
    (void)filled;
    STRUCT(sctp_assoc_watch);
    FIELD(sctp_assoc_watch, datagrams_sent);
    FIELD(sctp_assoc_watch, bytes_sent);
    FIELD(sctp_assoc_watch, datagrams_received);
    FIELD(sctp_assoc_watch, bytes_received);
    FIELD(sctp_assoc_watch, end);
    FIELD(sctp_assoc_watch, cause);
    FIELD(sctp_assoc_watch, reason_length);
    FIELD(sctp_assoc_watch, reason);
}

static void metrics(void) {
    sctp_assoc_metrics filled = {{0, 0, 0, 0, 0, 0}, {0, 0, 0, 0, 0}, 0, 0, 0, 0, 0, 0, 0, 0, 0, 0, 0, 0};
    (void)filled;
    STRUCT(sctp_assoc_metrics);
    FIELD(sctp_assoc_metrics, path);
    FIELD(sctp_assoc_metrics, totals);
    FIELD(sctp_assoc_metrics, rto_ms);
    FIELD(sctp_assoc_metrics, datagrams_sent);
    FIELD(sctp_assoc_metrics, bytes_sent);
    FIELD(sctp_assoc_metrics, datagrams_received);
    FIELD(sctp_assoc_metrics, bytes_received);
    FIELD(sctp_assoc_metrics, next_timeout);
    FIELD(sctp_assoc_metrics, timer_runs);
    FIELD(sctp_assoc_metrics, established);
    FIELD(sctp_assoc_metrics, closing);
    FIELD(sctp_assoc_metrics, closed);
    FIELD(sctp_assoc_metrics, drained);
    FIELD(sctp_assoc_metrics, failed);
}

static void heap(void) {
    sctp_assoc_heap filled = {0, 0, 0, 0};
    (void)filled;
    STRUCT(sctp_assoc_heap);
    FIELD(sctp_assoc_heap, allocate);
    FIELD(sctp_assoc_heap, reallocate);
    FIELD(sctp_assoc_heap, release);
    FIELD(sctp_assoc_heap, user);
}

static void block(void) {
    sctp_assoc_block filled = {0, 0};
    (void)filled;
    STRUCT(sctp_assoc_block);
    FIELD(sctp_assoc_block, ok);
    FIELD(sctp_assoc_block, at);
}

int main(void) {
    slot();
    config();
    identity();
    token();
    counters();
    event();
    totals();
    path();
    watch();
    metrics();
    heap();
    block();
    return 0;
}
