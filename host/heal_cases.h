/* Sequences of two honest ends, made by hand. Each states what has to hold of it. */
#ifndef HEAL_CASES_H
#define HEAL_CASES_H

#include "heal_steps.h"

#define STREAM 1
#define OTHER_STREAM 2
#define THIRD_STREAM 3
#define LONG 65536

/* ---- Resets ---- */

/* Nobody closes the stream that B opened anew once it was told that all is complete. A reads what comes on it. */
static void is_of_use_anew(size_t read_before) {
    HOLDS(opens(B, STREAM) && writes(B, STREAM, 100));
    pass(5000);
    HOLDS(writes(B, STREAM, 100));
    pass(5000);
    HOLDS(read_counts[A][STREAM] == read_before + 2);
    HOLDS(told(A, SCTP_ASSOC_EVENT_FINISHED, STREAM) == 1 && told(B, SCTP_ASSOC_EVENT_FINISHED, STREAM) == 1);
}

/* A closes a stream, a second request would be lost once, and B opens the stream anew. */
static void reused(void) {
    join();
    lose(loses_second_request);
    CHECK(opens(A, STREAM) && writes(A, STREAM, 5));
    pass(1000);
    CHECK(closes(A, STREAM));
    pass(100);
    HOLDS(told(B, SCTP_ASSOC_EVENT_RESET_COMPLETE, STREAM) == 1);
    is_of_use_anew(0);
    end_pair();
}

/* Both sides close a stream at once, a second request of A would be lost once, and B opens the stream anew. */
static void crossing(void) {
    join();
    lose(loses_second_request);
    CHECK(opens(A, STREAM) && writes(A, STREAM, 5));
    pass(1000);
    CHECK(writes(B, STREAM, 5));
    pass(1000);
    CHECK(sctp_assoc_close_stream(&ends[A].assoc, STREAM) == SCTP_ASSOC_DONE && closes(B, STREAM));
    turn(A);
    pass(100);
    HOLDS(told(B, SCTP_ASSOC_EVENT_RESET_COMPLETE, STREAM) == 1);
    is_of_use_anew(1);
    end_pair();
}

/* The same where nothing is lost, and another stream goes on. */
static void crossing_unlost(void) {
    join();
    CHECK(opens(A, STREAM) && writes(A, STREAM, 5));
    pass(1000);
    CHECK(writes(B, STREAM, 5) && opens(A, OTHER_STREAM) && writes(A, OTHER_STREAM, 5));
    pass(1000);
    CHECK(sctp_assoc_close_stream(&ends[A].assoc, STREAM) == SCTP_ASSOC_DONE && closes(B, STREAM));
    turn(A);
    pass(100);
    HOLDS(are_told_complete(STREAM, 1));
    is_of_use_anew(1);
    HOLDS(writes(A, OTHER_STREAM, 5));
    pass(1000);
    HOLDS(read_counts[B][OTHER_STREAM] == 2);
    end_pair();
}

/* A request is given up in a black-out. Resets that either side asks for later are complete. */
static void dead_resets(void) {
    join();
    CHECK(opens(A, STREAM) && writes(A, STREAM, 5));
    pass(1000);
    is_black = true;
    CHECK(closes(A, STREAM));
    pass(300000);
    is_black = false;
    CHECK(opens(A, OTHER_STREAM) && writes(A, OTHER_STREAM, 5));
    pass(2000);
    CHECK(read_counts[B][OTHER_STREAM] == 1);
    HOLDS(closes(A, OTHER_STREAM));
    pass(70000); /* the request that was given up goes out again within a minute, and this one behind it */
    HOLDS(are_told_complete(STREAM, 1) && are_told_complete(OTHER_STREAM, 1));
    CHECK(opens(A, THIRD_STREAM) && writes(A, THIRD_STREAM, 5));
    pass(2000);
    CHECK(read_counts[B][THIRD_STREAM] == 1);
    HOLDS(closes(B, THIRD_STREAM));
    pass(5000);
    HOLDS(are_told_complete(THIRD_STREAM, 1));
    HOLDS(opens(B, THIRD_STREAM));
    end_pair();
}

/* A stream of which nothing came to the peer is closed: that ends, and the peer may open it. */
static void ends_unused(void) {
    HOLDS(closes(A, STREAM));
    pass(60000);
    HOLDS(told(A, SCTP_ASSOC_EVENT_RESET_COMPLETE, STREAM) == 1);
    HOLDS(opens(A, STREAM));
    HOLDS(opens(B, STREAM) && writes(B, STREAM, 5));
    pass(5000);
    HOLDS(read_counts[A][STREAM] == 1 && is_acknowledged(B, STREAM));
}

static void unused(void) {
    join();
    CHECK(opens(A, STREAM));
    ends_unused();
    end_pair();
}

/* The only message of the stream is given up in a black-out. */
static void unused_abandoned(void) {
    join();
    CHECK(opens(A, STREAM));
    set_reliable(A, STREAM, false);
    is_black = true;
    CHECK(writes(A, STREAM, 5));
    pass(1000);
    is_black = false;
    pass(5000);
    CHECK(is_acknowledged(A, STREAM) && read_counts[B][STREAM] == 0);
    ends_unused();
    end_pair();
}

/* B has not read what came before A reset the stream, and closes it when A uses it again. That use is reset, too, and
 * the next one is read. */
static void retiring(void) {
    join();
    is_reading[B] = false;
    CHECK(opens(A, STREAM) && writes(A, STREAM, 5));
    pass(1000);
    CHECK(closes(A, STREAM));
    pass(1000);
    CHECK(opens(A, STREAM) && writes(A, STREAM, 5));
    pass(1000);
    CHECK(closes(B, STREAM));
    pass(5000);
    is_reading[B] = true;
    HOLDS(are_told_complete(STREAM, 2));
    HOLDS(opens(A, STREAM) && writes(A, STREAM, 5));
    pass(1000);
    HOLDS(read_counts[B][STREAM] == 1 && is_acknowledged(A, STREAM));
    end_pair();
}

/* ---- The receive buffer ---- */

/* A stream on which much waits to be sent is closed by its reader. That ends it, and nothing else. */
static void cancelled(void) {
    join();
    CHECK(opens(A, STREAM) && opens(A, OTHER_STREAM));
    CHECK(writes_many(A, STREAM, LONG, 40));
    CHECK(writes(A, OTHER_STREAM, 100));
    for (int step = 0; step < 100 && read_counts[B][STREAM] == 0; step++)
        pass(10);
    CHECK(read_counts[B][STREAM] > 0 && read_counts[B][STREAM] < 40);
    CHECK(closes(B, STREAM));
    pass(60000);
    HOLDS(goes_on());
    HOLDS(read_counts[B][OTHER_STREAM] == 1);
    HOLDS(are_told_complete(STREAM, 1));
    end_pair();
}

/* The first message of an ordered stream is given up before any came. Those behind it are read. */
static void forgotten_skip(void) {
    config.max_receive_buffer_size = 20000;
    join();
    lose(loses_first_data);
    CHECK(opens(A, STREAM));
    set_reliable(A, STREAM, false);
    CHECK(writes(A, STREAM, 5));
    pass(5000);
    set_reliable(A, STREAM, true);
    CHECK(writes_many(A, STREAM, 100, 4));
    pass(10000);
    CHECK(is_acknowledged(A, STREAM));
    HOLDS(read_counts[B][STREAM] == 4);
    HOLDS(writes_many(A, STREAM, 100, 200));
    pass(60000);
    HOLDS(goes_on() && read_counts[B][STREAM] == 204);
    end_pair();
}

/* A reader stops for a while, with more written to it than its buffer takes. */
static void pause_reader(uint64_t ms) {
    config.max_receive_buffer_size = 100000;
    join();
    CHECK(opens(A, STREAM));
    is_reading[B] = false;
    CHECK(writes_many(A, STREAM, 50000, 4));
    pass(ms);
    CHECK(!is_acknowledged(A, STREAM));
    is_reading[B] = true;
    turn(B);
}

/* All comes soon after the reader goes on, however long it stopped. */
static void reopened(void) {
    static const uint64_t pauses[] = {5000, 10000, 20000, 200000};
    for (size_t i = 0; i < COUNT_OF(pauses); i++) {
        pause_reader(pauses[i]);
        HOLDS(is_acknowledged_within(A, STREAM, 500));
        pass(60000);
        CHECK(read_counts[B][STREAM] == 4);
        end_pair();
    }
}

/* The limit of retransmissions is not for a window that is closed as long as the reader stops. */
static void reopened_limited(void) {
    config.max_data_retransmits = 5;
    pause_reader(60000);
    HOLDS(is_acknowledged_within(A, STREAM, 120000));
    HOLDS(read_counts[B][STREAM] == 4);
    end_pair();
}

/* Queues that were long are of no weight once all is read and the stream is closed. */
static void heap(void) {
    join();
    pass(1000);
    uint64_t fresh = heap_bytes;
    CHECK(opens(A, STREAM));
    for (int i = 0; i < 20000; i++)
        CHECK(accepts(A, STREAM, 100));
    turn(A);
    pass(60000);
    CHECK(read_counts[B][STREAM] == 20000 && is_acknowledged(A, STREAM));
    CHECK(closes(A, STREAM));
    pass(10000);
    HOLDS(heap_bytes <= fresh + 100000);
    end_pair();
}

/* ---- Retransmission ---- */

/* A flight is large: of 15 of the greatest messages, or as much as the peer's window holds. */
static bool is_long_flight(const sctp_assoc_path_values *path) {
    return path->bytes_in_flight >= 15 * LONG;
}

static bool is_full_window(const sctp_assoc_path_values *path) {
    return path->bytes_in_flight >= 14 * LONG && path->peer_window < PAYLOAD_SIZE;
}

/* A sends until its flight is large. All that is on the way is lost, and T3-rtx expires. Answers how many datagrams go
 * out then. */
static uint64_t lose_flight(bool (*is_large)(const sctp_assoc_path_values *path)) {
    sctp_assoc_path_values path;
    join();
    CHECK(opens(A, STREAM) && writes_many(A, STREAM, LONG, 100));
    for (int i = 0; done(sctp_assoc_path(&ends[A].assoc, &path)) && !is_large(&path); i++) {
        CHECK(i < 2000);
        pass(1);
    }
    while (first_on_way)
        free(take_first());
    now = due_at(A);
    uint64_t sent_before = watches[A].datagrams_sent;
    turn(A);
    return watches[A].datagrams_sent - sent_before;
}

/* After T3-rtx expired one packet goes out (RFC 4960 sections 6.3.3, rule E3, and 7.2.3). */
static void burst(void) {
    HOLDS(lose_flight(is_long_flight) == 1);
    HOLDS(is_acknowledged_within(A, STREAM, 3000));
    end_pair();
}

/* The same where the flight filled the peer's window: it is soon sent again. */
static void burst_full(void) {
    HOLDS(lose_flight(is_full_window) == 1);
    HOLDS(is_acknowledged_within(A, STREAM, 3000));
    end_pair();
}

/* At most four packets of new DATA go beyond what came (Max.Burst, RFC 4960 section 6.1, rule D): from idle, where the
 * windows are large, and behind each SACK of two packets. */
static void max_burst(void) {
    join();
    CHECK(opens(A, STREAM) && writes_many(A, STREAM, LONG, 60));
    HOLDS(is_acknowledged_within(A, STREAM, 3000));
    uint64_t sent_before = watches[A].datagrams_sent;
    CHECK(writes_many(A, STREAM, LONG, 10));
    HOLDS(watches[A].datagrams_sent - sent_before == 4);
    turn(A);
    HOLDS(watches[A].datagrams_sent - sent_before == 4);
    pass(2 * CASE_DELAY / MS);
    HOLDS(watches[A].datagrams_sent - sent_before <= 4 + 2 * (2 + 4));
    HOLDS(is_acknowledged_within(A, STREAM, 1000));
    end_pair();
}

/* Over a narrow link with a short queue, a transfer takes no more than three times as long as the link needs for it. */
static void bottleneck(void) {
    static const uint64_t rates[] = {100, 1000, 1000}, rooms[] = {20, 20, 200};
    for (size_t i = 0; i < COUNT_OF(rates); i++) {
        link_rate = rates[i], link_room = rooms[i];
        join();
        lose(overflows_link);
        CHECK(opens(A, STREAM) && writes_many(A, STREAM, LONG, 100));
        HOLDS(is_acknowledged_within(A, STREAM, 3 * 1000 * (100 * LONG / PAYLOAD_SIZE) / link_rate));
        HOLDS(read_counts[B][STREAM] == 100);
        end_pair();
    }
}

/* A timer that expired is not due again at that moment, also with the least timeouts; without any no end is made. */
static void no_rto(void) {
    sctp_assoc_token token;
    config.rto_initial_ms = config.rto_min_ms = config.rto_max_ms = 0;
    CHECK(done(sctp_assoc_make_token(&config, 1, 100, &token)));
    HOLDS(sctp_assoc_joined(&ends[A].assoc, &config, PAYLOAD_SIZE, &token, &token) == SCTP_ASSOC_BAD_TIMEOUT);
    config.rto_initial_ms = config.rto_min_ms = config.rto_max_ms = 1;
    join();
    is_black = true;
    CHECK(opens(A, STREAM) && writes(A, STREAM, 5));
    for (int i = 0; i < 20; i++) {
        now = due_at(A);
        turn(A);
        HOLDS(due_at(A) > now);
    }
    end_pair();
}

/* ---- Handshake and shutdown ---- */

/* Each of two clients gets the other's INIT, and both INIT ACKs are lost. */
static void two_tags(void) {
    meet(true);
    lose(loses_two_init_acks);
    turn_both();
    pass(60000);
    CHECK(number_lost >= 2);
    HOLDS(is_established(A) && is_established(B));
    end_pair();
}

/* What an end has to send comes at once, but for datagrams that begin with a chunk of this type. */
static void hand_over(int from, uint8_t lost_type) {
    static uint8_t datagram[SCTP_ASSOC_MAX_DATAGRAM];
    size_t length;
    uint32_t fate;
    while (done(
        sctp_assoc_watched_poll_transmit(&ends[from].assoc, &watches[from], now, datagram, sizeof datagram, &length))) {
        show(first_chunk(datagram) == lost_type ? "is lost" : "comes", from, datagram, length);
        if (first_chunk(datagram) != lost_type)
            CHECK(done(
                sctp_assoc_watched_handle_datagram(&ends[!from].assoc, &watches[!from], now, datagram, length, &fate)));
    }
}

/* Of two clients B has DATA of A before A's COOKIE ACK, and then A's INIT comes once more. */
static void two_clients(void) {
    static uint8_t init[2000];
    size_t length;
    uint32_t fate;
    meet(true);
    CHECK(done(sctp_assoc_watched_poll_transmit(&ends[A].assoc, &watches[A], now, init, sizeof init, &length)));
    CHECK(done(sctp_assoc_watched_handle_datagram(&ends[B].assoc, &watches[B], now, init, length, &fate)));
    hand_over(B, UINT8_MAX);
    hand_over(A, 10); /* COOKIE ECHO */
    hand_over(B, UINT8_MAX);
    hand_over(A, 11); /* COOKIE ACK */
    CHECK(is_established(A) && !is_established(B) && opens(A, STREAM));
    CHECK(done(sctp_assoc_set_reliability(&ends[A].assoc, STREAM, true, SCTP_ASSOC_RELIABLE, 0)) &&
          accepts(A, STREAM, 4));
    hand_over(A, UINT8_MAX);
    take_case_events(B);
    CHECK(read_counts[B][STREAM] == 1);
    CHECK(done(sctp_assoc_watched_handle_datagram(&ends[B].assoc, &watches[B], now, init, length, &fate)));
    pass(60000);
    HOLDS(read_counts[B][STREAM] == 1);
    HOLDS(goes_on() && is_established(A) && is_established(B));
    end_pair();
}

/* What a client sent that crashed, and that comes late. */
static uint8_t late[2000];
static size_t late_length;

static void send_late(void) {
    CHECK(done(sctp_assoc_watched_poll_transmit(&ends[A].assoc, &watches[A], now, late, sizeof late, &late_length)));
}

static void late_comes(void) {
    uint32_t fate;
    show("comes", A, late, late_length);
    CHECK(done(sctp_assoc_watched_handle_datagram(&ends[B].assoc, &watches[B], now, late, late_length, &fate)));
    CHECK(fate == SCTP_ASSOC_TAKEN);
}

/* The client's program crashes, and is started anew. */
static void start_client_anew(void) {
    sctp_assoc_identity other = identity(3);
    say("A is started anew");
    CHECK(done(sctp_assoc_client(&ends[A].assoc, &config, PAYLOAD_SIZE, &other, now)));
}

/* A client is started anew, and the INIT of the old one comes once the new one's was answered. */
static void late_init(void) {
    meet(false);
    send_late();
    start_client_anew();
    hand_over(A, UINT8_MAX);
    hand_over(B, UINT8_MAX);
    late_comes();
    pass(60000);
    HOLDS(is_established(A) && is_established(B));
    end_pair();
}

/* A client is started anew, the answer to its INIT is lost, and then the COOKIE ECHO of the old one comes. */
static void late_echo(void) {
    meet(false);
    hand_over(A, UINT8_MAX);
    hand_over(B, UINT8_MAX);
    send_late();
    start_client_anew();
    hand_over(A, UINT8_MAX);
    hand_over(B, 2); /* INIT ACK */
    late_comes();
    pass(60000);
    HOLDS(is_established(A) && is_established(B));
    end_pair();
}

/* The server shuts down before the client has a COOKIE ACK. What the server wrote before comes, and both end. */
static void shut_early(void) {
    meet(false);
    lose(loses_cookie_acks);
    turn(A);
    pass(100);
    CHECK(!is_established(A) && opens(B, STREAM) && writes(B, STREAM, 5));
    CHECK(sctp_assoc_shutdown(&ends[B].assoc) == SCTP_ASSOC_DONE);
    turn(B);
    lose(NULL);
    pass(600000);
    HOLDS(told(A, SCTP_ASSOC_EVENT_CONNECTED, 0) == 1);
    HOLDS(read_counts[A][STREAM] == 1);
    HOLDS(are_shut_down());
    end_pair();
}

/* SHUTDOWN COMPLETE is lost once. */
static void lost_complete(void) {
    join();
    lose(loses_first_complete);
    CHECK(sctp_assoc_shutdown(&ends[A].assoc) == SCTP_ASSOC_DONE);
    turn(A);
    pass(600000);
    CHECK(number_lost >= 1);
    HOLDS(are_shut_down());
    end_pair();
}

#endif
