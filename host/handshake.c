/* How an association begins: joined by tokens, or by a handshake (RFC 4960 section 5.1), packet by packet. The
 * datagrams were spelled apart from the library. */
#include "spelled.h"

/* INIT: initiate tag 0x12345678, window 131,072, 1024 streams each way, first TSN 1, Forward TSN supported, RE-CONFIG
 * and FORWARD TSN listed. */
#define INIT_CHUNK                                                                                                     \
    "0100002012345678000200000400040000000001"                                                                         \
    "8008000882c040c2c0000004"
#define INIT "1388138800000000925755c7" INIT_CHUNK

/* The same with a byte of its initiate tag changed and its sum left. */
#define INIT_CHANGED                                                                                                   \
    "1388138800000000925755c7"                                                                                         \
    "0100002012345679000200000400040000000001"                                                                         \
    "8008000882c040c2c0000004"

/* The same under the verification tag 1, with a right sum. */
#define INIT_UNDER_TAG "138813880000000130263038" INIT_CHUNK

/* The answer: INIT ACK under the tag 0x12345678 with initiate tag 2, window 1,048,576, 1024 streams each way, first TSN
 * 500, the State Cookie, RE-CONFIG and FORWARD TSN. */
#define INIT_ACK                                                                                                       \
    "13881388123456784d46dd23"                                                                                         \
    "0200003e000000020010000004000400000001f4"                                                                         \
    "000700244343434343434343434343434343434343434343434343434343434343434343"                                         \
    "8008000682c00000\n"

/* INIT ACK between the ports 5001 with initiate tag 2, 10 outbound and 20 inbound streams, and a State Cookie. */
#define INIT_ACK_OF_OTHER_PORTS                                                                                        \
    "1389138900000001a30bfaf4"                                                                                         \
    "0200003e0000000200100000000a0014000001f4"                                                                         \
    "000700244343434343434343434343434343434343434343434343434343434343434343"                                         \
    "8008000682c00000"

#define COOKIE_ECHO "0a0000244343434343434343434343434343434343434343434343434343434343434343"

/* A client's INIT: initiate tag 1, window 1,048,576, 65,535 streams each way, first TSN 100, RE-CONFIG and FORWARD
 * TSN. */
#define CLIENT_INIT                                                                                                    \
    "13881388000000003de19426"                                                                                         \
    "0100001a0000000100100000ffffffff00000064"                                                                         \
    "8008000682c00000\n"

/* HEARTBEAT under the tag 1 with the information 01 02 03, and HEARTBEAT ACK under the tag 2 with the same. */
#define HEARTBEAT "1388138800000001996eb3df0400000b0001000701020300"
#define HEARTBEAT_ACK "138813880000000248deef0e0500000b0001000701020300\n"

/* FORWARD TSN, and the ERROR under the tag 2 that answers it if it is not in use: Unrecognized Chunk Type. */
#define FORWARD_TSN "c0000008000001f4"
#define ERROR "1388138800000002dc90f3120900000800060004\n"

/* ABORT with its T bit set: it is taken under the peer's tag, once that is known (RFC 4960 section 8.5.1). */
#define REFLECTED_ABORT "06010004"

/* DATA to be acknowledged at once whose TSN is that before the peer's first one, 0 and 99. */
#define DATA_0 "000b001100000000000300000000003561000000"
#define DATA_99 "000b001100000063000300000000003561000000"

static sctp_assoc end;

static void begin_server(void) {
    sctp_assoc_config config = default_config();
    sctp_assoc_identity named = identity_of(2, 500);
    CHECK(done(sctp_assoc_server(&end, &config, 1200, &named, 0)));
}

static void begin_client(sctp_assoc *client, uint32_t tag, uint32_t initial_tsn, size_t max_init_retransmits) {
    sctp_assoc_config config = default_config();
    sctp_assoc_identity named = identity_of(tag, initial_tsn);
    config.max_init_retransmits = max_init_retransmits;
    CHECK(done(sctp_assoc_client(client, &config, 1200, &named, 0)));
}

/* ---- Joined ---- */

static void sizes_follow_the_payload_size(void) {
    static const uint32_t sizes[][3] = {{1, 29, 116}, {1200, 1228, 4380}, {LONG_PAYLOAD, 65547, 131094}};
    for (size_t i = 0; i < sizeof sizes / sizeof *sizes; i++) {
        CHECK(done(join(&end, sizes[i][0], 1, 2)));
        CHECK(path_of(&end).mtu == sizes[i][1] && path_of(&end).congestion_window == sizes[i][2]);
        release(&end);
    }
}

static void a_token_with_tag_0_is_refused(void) {
    CHECK(join(&end, 1200, 0, 2) == SCTP_ASSOC_BAD_TOKEN);
    CHECK(join(&end, 1200, 1, 0) == SCTP_ASSOC_BAD_TOKEN);
    CHECK(!end.live && blocks == 0);
}

static void a_joined_association_is_connected(void) {
    uint64_t timeout_ms;
    CHECK(done(join(&end, 1200, 1, 2)));
    CHECK(is_told(&end, SCTP_ASSOC_EVENT_CONNECTED, 0) && is_told_nothing(&end));
    CHECK(sctp_assoc_is_established(&end) && deadline(&end) == 0);
    sctp_assoc_path_values path = path_of(&end);
    CHECK(path.mtu == 1228 && path.congestion_window == 4380 && path.slow_start_threshold == 1048576);
    CHECK(path.peer_window == 1048576 && path.bytes_in_flight == 0 && path.smoothed_round_trip_ms == 0);
    CHECK(done(sctp_assoc_rto(&end, &timeout_ms)) && timeout_ms == 3000);
    CHECK(sends(&end, 0, "") && last_tsn(&end, 0, 1, OLD_DATA) == 499);
    release(&end);
}

static void a_heartbeat_is_answered_with_its_information(void) {
    CHECK(done(join(&end, 1200, 1, 2)));
    CHECK(comes(&end, 0, HEARTBEAT) == SCTP_ASSOC_TAKEN && sends(&end, 0, HEARTBEAT_ACK));
    release(&end);
}

/* ---- A server ---- */

/* A server that heard nothing yet is in Closed, and knows no peer. */
static bool is_new(void) {
    return answers(&end, sctp_assoc_is_closed) && !sctp_assoc_is_drained(&end) && deadline(&end) == 0 &&
           path_of(&end).peer_window == 0 && is_told_nothing(&end) && sends(&end, 0, "");
}

/* The window counts from the INIT on, and the first TSN once the handshake has ended. */
static void an_init_is_answered_by_an_init_ack(void) {
    begin_server();
    CHECK(is_new());
    CHECK(comes(&end, 0, INIT) == SCTP_ASSOC_TAKEN && sends(&end, 0, INIT_ACK));
    CHECK(answers(&end, sctp_assoc_is_closed) && deadline(&end) == 0 && is_told_nothing(&end));
    CHECK(path_of(&end).peer_window == 131072);
    CHECK(chunks_come(&end, 0, 2, COOKIE_ECHO) == SCTP_ASSOC_TAKEN && sctp_assoc_is_established(&end));
    CHECK(last_tsn(&end, 0, 2, DATA_0) == 0);
    release(&end);
}

static void a_datagram_that_does_not_decode_is_refused(void) {
    begin_server();
    CHECK(comes(&end, 0, "1388138800000000925755") == SCTP_ASSOC_NO_PACKET && is_new());
    CHECK(comes(&end, 0, INIT_CHANGED) == SCTP_ASSOC_NO_PACKET && is_new());
    release(&end);
}

static void an_init_under_a_tag_changes_nothing(void) {
    begin_server();
    CHECK(comes(&end, 0, INIT_UNDER_TAG) == SCTP_ASSOC_OTHER_TAG && is_new());
    CHECK(chunks_come(&end, 0, 2, INIT_CHUNK) == SCTP_ASSOC_OTHER_TAG && is_new());
    release(&end);
}

/* ---- A client ---- */

static void a_client_gives_up_after_its_last_init(void) {
    static const uint64_t moments[] = {0, 3000, 9000, 21000};
    sctp_assoc_event event;
    begin_client(&end, 1, 100, 2);
    for (int i = 0; i < 4; i++) {
        CHECK(done(sctp_assoc_handle_timeout(&end, moments[i] * MS)));
        CHECK(sends(&end, moments[i] * MS, i < 3 ? CLIENT_INIT : ""));
        CHECK(deadline(&end) == (i < 3 ? moments[i + 1] : 0));
    }
    CHECK(done(sctp_assoc_poll_event(&end, &event)) && event.kind == SCTP_ASSOC_EVENT_HANDSHAKE_FAILED);
    CHECK(event.reason == SCTP_ASSOC_REASON_NO_INIT_ACK && is_told_nothing(&end));
    release(&end);
}

/* Of it neither the window nor the FORWARD TSN counts, and the client waits on. */
static void of_an_init_ack_between_other_ports_the_tag_counts(void) {
    begin_client(&end, 1, 100, 8);
    CHECK(chunks_come(&end, 0, 2, REFLECTED_ABORT) == SCTP_ASSOC_OTHER_TAG);
    CHECK(comes(&end, 0, INIT_ACK_OF_OTHER_PORTS) == SCTP_ASSOC_TAKEN && sends(&end, 0, CLIENT_INIT));
    CHECK(path_of(&end).peer_window == 0 && deadline(&end) == 3000);
    CHECK(!sctp_assoc_is_established(&end) && !answers(&end, sctp_assoc_is_closed));
    CHECK(chunks_come(&end, 0, 1, FORWARD_TSN) == SCTP_ASSOC_TAKEN && sends(&end, 0, ERROR));
    CHECK(chunks_come(&end, 0, 2, REFLECTED_ABORT) == SCTP_ASSOC_TAKEN && sctp_assoc_is_drained(&end));
    release(&end);
}

/* ---- Two clients ---- */

/* What an end sends at a time. */
struct flight {
    size_t count, lengths[4];
    uint8_t datagrams[4][1500];
};

static void take_off(sctp_assoc *from, uint64_t now, struct flight *flight) {
    size_t length;
    flight->count = 0;
    while (done(sctp_assoc_poll_transmit(from, now, spelled, sizeof spelled, &length))) {
        CHECK(flight->count < 4 && length <= 1500);
        memcpy(flight->datagrams[flight->count], spelled, length);
        flight->lengths[flight->count++] = length;
    }
}

static void land(sctp_assoc *to, uint64_t now, const struct flight *flight) {
    for (size_t i = 0; i < flight->count; i++)
        CHECK(hand_over(to, now, flight->datagrams[i], flight->lengths[i]) == SCTP_ASSOC_TAKEN);
}

/* Both ends send, and then each gets all packets of the other. */
static void cross(sctp_assoc ends[2], uint64_t now) {
    static struct flight flights[2];
    for (int i = 0; i < 2; i++)
        take_off(&ends[i], now, &flights[i]);
    for (int i = 0; i < 2; i++)
        land(&ends[!i], now, &flights[i]);
}

static void are_established(sctp_assoc ends[2]) {
    for (int i = 0; i < 2; i++)
        CHECK(sctp_assoc_is_established(&ends[i]) && deadline(&ends[i]) == 0);
}

static void two_clients_that_meet_are_established(void) {
    static sctp_assoc ends[2];
    uint8_t read[10];
    size_t length;
    uint32_t type;
    begin_client(&ends[0], 1, 100, 8);
    begin_client(&ends[1], 2, 500, 8);
    for (int i = 0; i < 4; i++)
        cross(ends, 0);
    are_established(ends);
    CHECK(done(sctp_assoc_open_stream(&ends[0], 1, SCTP_ASSOC_PPID_BINARY)));
    CHECK(done(sctp_assoc_write(&ends[0], 1, SCTP_ASSOC_PPID_OF_STREAM, (const uint8_t *)"hi", 2)));
    cross(ends, 0);
    CHECK(is_told(&ends[1], SCTP_ASSOC_EVENT_CONNECTED, 0) && is_told(&ends[1], SCTP_ASSOC_EVENT_OPENED, 1));
    CHECK(is_told(&ends[1], SCTP_ASSOC_EVENT_DATAGRAM_RECEIVED, 0));
    CHECK(is_told(&ends[1], SCTP_ASSOC_EVENT_READABLE, 1));
    CHECK(done(sctp_assoc_read(&ends[1], 1, read, sizeof read, &length, &type)));
    CHECK(type == SCTP_ASSOC_PPID_BINARY && length == 2 && memcmp(read, "hi", 2) == 0);
    CHECK(last_tsn(&ends[1], 0, 2, DATA_99) == 100);
    free_both(ends);
}

/* Each has the other's INIT, and both INIT ACKs are lost. What goes out again is the same INIT, under the verification
 * tag 0 (RFC 4960 section 8.5.1) and not under that of the peer, which is known by then. */
static void an_init_goes_again_under_tag_0(void) {
    static sctp_assoc ends[2];
    static struct flight inits[2], sent;
    begin_client(&ends[0], 1, 100, 8);
    begin_client(&ends[1], 2, 500, 8);
    for (int i = 0; i < 2; i++)
        take_off(&ends[i], 0, &inits[i]);
    for (int i = 0; i < 2; i++)
        land(&ends[!i], 0, &inits[i]);
    for (int i = 0; i < 2; i++) {
        take_off(&ends[i], 0, &sent);
        CHECK(sent.count == 1 && sent.datagrams[0][12] == 2 && read_number(sent.datagrams[0] + 4, 4) != 0);
    }
    for (int i = 0; i < 2; i++) {
        CHECK(done(sctp_assoc_handle_timeout(&ends[i], 3000 * MS)));
        take_off(&ends[i], 3000 * MS, &sent);
        CHECK(sent.count == 1 && sent.datagrams[0][12] == 1 && read_number(sent.datagrams[0] + 4, 4) == 0);
        CHECK(sent.lengths[0] == inits[i].lengths[0]);
        CHECK(memcmp(sent.datagrams[0], inits[i].datagrams[0], sent.lengths[0]) == 0);
    }
    for (int i = 0; i < 2; i++)
        land(&ends[!i], 3000 * MS, &inits[i]);
    for (int i = 0; i < 3; i++)
        cross(ends, 3000 * MS);
    are_established(ends);
    free_both(ends);
}

int main(void) {
    sizes_follow_the_payload_size();
    a_token_with_tag_0_is_refused();
    a_joined_association_is_connected();
    a_heartbeat_is_answered_with_its_information();
    an_init_is_answered_by_an_init_ack();
    a_datagram_that_does_not_decode_is_refused();
    an_init_under_a_tag_changes_nothing();
    a_client_gives_up_after_its_last_init();
    of_an_init_ack_between_other_ports_the_tag_counts();
    two_clients_that_meet_are_established();
    an_init_goes_again_under_tag_0();
    puts("handshake: ok");
    return 0;
}
