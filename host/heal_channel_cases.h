/* Sequences of two honest ends with data channels, made by hand. Each states what has to hold of it. */
#ifndef HEAL_CHANNEL_CASES_H
#define HEAL_CHANNEL_CASES_H

#include "heal_steps.h"

#define CHANNELS 8 /* identifiers of channels lie below it */

static unsigned channel_told[2][SCTP_CHANNELS_EVENT_HANDSHAKE_FAILED + 1][CHANNELS];
static size_t received[2][CHANNELS];
static bool closes_at_message; /* B closes a channel at its first message */
static const sctp_channels_options ordered_reliable = SCTP_CHANNELS_ORDERED_RELIABLE;

static void receive_all(int side, uint16_t channel) {
    size_t length;
    bool is_text;
    while (sctp_channels_receive(&ends[side], channel, bytes, sizeof bytes, &length, &is_text) == SCTP_ASSOC_DONE) {
        received[side][channel]++;
        if (side == B && closes_at_message) {
            closes_at_message = false;
            CHECK(done(sctp_channels_close(&ends[B], channel)));
        }
    }
}

static void take_channel_events(int side) {
    sctp_channels_event event;
    while (done(sctp_channels_poll_event(&ends[side], &event))) {
        CHECK(event.kind <= SCTP_CHANNELS_EVENT_HANDSHAKE_FAILED && event.id < CHANNELS);
        channel_told[side][event.kind][event.id]++;
        if (event.kind == SCTP_CHANNELS_EVENT_MESSAGE)
            receive_all(side, event.id);
        else
            say("%c is told event %u of channel %u, reason %u", "AB"[side], event.kind, event.id, event.reason);
    }
}

static void join_sides(void) {
    static const struct run channel_run = {take_channel_events, send_in_case, look_at_nothing, NULL};
    join_for(&channel_run);
    CHECK(done(sctp_channels_begin(&ends[A], SCTP_CHANNELS_CLIENT)));
    CHECK(done(sctp_channels_begin(&ends[B], SCTP_CHANNELS_SERVER)));
    memset(channel_told, 0, sizeof channel_told);
    memset(received, 0, sizeof received);
    closes_at_message = false;
    turn_both();
}

/* Whether A opens a channel, whose identifier is answered. */
static bool opens_channel(sctp_channels_options options, uint16_t *id) {
    bool is_opened =
        sctp_channels_open(&ends[A], &options, (const uint8_t *)"channel", 7, NULL, 0, id) == SCTP_ASSOC_DONE;
    turn(A);
    return is_opened;
}

static bool sends(int side, uint16_t channel, size_t length) {
    memset(bytes, 7, length);
    bool is_sent = sctp_channels_send(&ends[side], channel, false, bytes, length) == SCTP_ASSOC_DONE;
    turn(side);
    return is_sent;
}

static bool is_told_closed(int side, uint16_t channel) {
    return channel_told[side][SCTP_CHANNELS_EVENT_CLOSED][channel] == 1;
}

/* B closes a channel on which A has much to send. That ends it, and another channel goes on. */
static void channels_cancelled(void) {
    uint16_t file, chat;
    join_sides();
    CHECK(opens_channel(ordered_reliable, &file) && opens_channel(ordered_reliable, &chat));
    pass(1000);
    CHECK(channel_told[A][SCTP_CHANNELS_EVENT_OPENED][file] == 1);
    closes_at_message = true;
    for (int i = 0; i < 40; i++)
        CHECK(sends(A, file, 65536));
    pass(60000);
    CHECK(received[B][file] == 1 && !closes_at_message);
    HOLDS(goes_on() && channel_told[B][SCTP_CHANNELS_EVENT_LOST][0] == 0);
    HOLDS(is_told_closed(A, file) && is_told_closed(B, file));
    HOLDS(sends(A, chat, 5));
    pass(1000);
    HOLDS(received[B][chat] == 1);
    end_pair();
}

static bool loses_second_request_of_b(int from, const uint8_t *datagram, size_t length) {
    (void)length;
    return from == B && is_request(datagram) && ++number_seen == 2;
}

/* B closes A's channel, a second request of it would be lost once, and A opens another channel. */
static void channels_reused(void) {
    uint16_t first, second;
    join_sides();
    CHECK(opens_channel(ordered_reliable, &first));
    pass(1000);
    lose(loses_second_request_of_b);
    CHECK(done(sctp_channels_close(&ends[B], first)));
    turn(B);
    pass(100);
    HOLDS(is_told_closed(A, first));
    CHECK(opens_channel(ordered_reliable, &second));
    pass(10000);
    HOLDS(channel_told[A][SCTP_CHANNELS_EVENT_OPENED][second] == (first == second ? 2 : 1));
    HOLDS(sends(A, second, 5));
    pass(1000);
    HOLDS(received[B][second] == 1);
    end_pair();
}

/* ---- Each way in which a channel of A ends ---- */

static void close_at(int side, uint16_t id) {
    CHECK(done(sctp_channels_close(&ends[side], id)));
}

static void by_opener(uint16_t id) {
    close_at(A, id);
}

static void by_other(uint16_t id) {
    close_at(B, id);
}

static void by_both(uint16_t id) {
    close_at(A, id);
    close_at(B, id);
}

static void send_both_ways(uint16_t id) {
    for (int i = 0; i < 5; i++)
        CHECK(sends(A, id, 20000) && sends(B, id, 20000));
}

static void by_opener_under_way(uint16_t id) {
    send_both_ways(id);
    close_at(A, id);
}

static void by_other_under_way(uint16_t id) {
    send_both_ways(id);
    close_at(B, id);
}

static void by_both_under_way(uint16_t id) {
    send_both_ways(id);
    by_both(id);
}

static unsigned number_to_lose;

static bool loses_one(int from, const uint8_t *datagram, size_t length) {
    (void)from, (void)datagram, (void)length;
    return ++number_seen == number_to_lose;
}

/* One datagram of the end is lost. Both sides are told once, and the next channel of the identifier bears messages. */
static void ends_and_is_opened_anew(void (*end)(uint16_t id), uint64_t opened_for_ms, unsigned lost) {
    uint16_t id, next;
    join_sides();
    CHECK(opens_channel(ordered_reliable, &id));
    pass(opened_for_ms);
    number_to_lose = lost;
    lose(loses_one);
    end(id);
    turn_both();
    pass(10000);
    HOLDS(is_told_closed(A, id) && is_told_closed(B, id));
    HOLDS(opens_channel(ordered_reliable, &next) && next == id);
    pass(5000);
    size_t before[2] = {received[A][id], received[B][id]};
    HOLDS(sends(A, id, 5) && sends(B, id, 5));
    pass(5000);
    HOLDS(received[A][id] == before[A] + 1 && received[B][id] == before[B] + 1);
    HOLDS(is_told_closed(A, id) && is_told_closed(B, id) && goes_on());
    end_pair();
}

static void channels_end(void) {
    static void (*const ways[])(uint16_t id) = {by_opener,           by_other,           by_both,
                                                by_opener_under_way, by_other_under_way, by_both_under_way};
    for (unsigned lost = 0; lost < 12; lost++) {
        for (size_t way = 0; way < COUNT_OF(ways); way++)
            ends_and_is_opened_anew(ways[way], 1000, lost);
        ends_and_is_opened_anew(by_opener, 0, lost); /* before its OPEN was acknowledged */
    }
}

/* A negotiated channel that the peer did not open is closed, and can be opened anew. */
static void channels_negotiated(void) {
    sctp_channels_options negotiated = {.negotiated = true, .id = 4};
    uint16_t id;
    join_sides();
    CHECK(opens_channel(negotiated, &id) && id == 4);
    pass(1000);
    CHECK(done(sctp_channels_close(&ends[A], id)));
    turn(A);
    pass(60000);
    HOLDS(is_told_closed(A, id));
    HOLDS(opens_channel(negotiated, &id));
    pass(1000);
    HOLDS(channel_told[A][SCTP_CHANNELS_EVENT_OPENED][id] == 2);
    end_pair();
}

#endif
