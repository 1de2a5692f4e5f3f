/* Datagrams that are made by hand, and associations in states in which a datagram costs much. */
#ifndef STATES_H
#define STATES_H

#include "sctp_assoc.h"

#include <stdio.h>
#include <stdlib.h>
#include <string.h>

#define SIZE 1500
#define COOKIE_BYTE 7 /* of which the State Cookie is made, and the bytes of what is measured */
#define OWN_TAG 1
#define PEER_TAG 2
#define FIRST_TSN 500 /* of the peer, and the number of its first request to reset streams */
#define OWN_TSN 1000
#define HELD 32767       /* TSNs held past a gap, each with a gap in front of it */
#define WAITING 20000    /* messages that wait on one stream */
#define APART 10000      /* DATA that is kept apart, behind a reset */
#define STREAMS 65536
#define IN_FLIGHT 4000
#define RESET_STREAMS 30000 /* of one request of this side */
#define TORN 46500          /* unordered messages without an end */
#define SKIPPING 500        /* FORWARD TSN with as many entries as a datagram has room for */
#define ENTRIES 370
#define MS UINT64_C(1000000)

enum { BEGINS = 2, ENDS = 1, WHOLE = 3, UNORDERED = 4 };

static sctp_assoc ours, theirs;
static uint64_t now;
static uint8_t packet[SIZE + 64], payload[SIZE];
static size_t length, chunk_at;
static uint32_t next_tsn = FIRST_TSN, request_number = FIRST_TSN;

static void fail(const char *what) {
    fprintf(stderr, "dearest: %s\n", what);
    exit(1);
}

static bool done(sctp_assoc_code code) {
    if (code != SCTP_ASSOC_DONE && code != SCTP_ASSOC_NOTHING) {
        fprintf(stderr, "dearest: a call answered the code %u\n", (unsigned)code);
        exit(1);
    }
    return code == SCTP_ASSOC_DONE;
}

/* ---- Datagrams, made by hand ---- */

static void put(int width, uint32_t value) {
    for (int i = width - 1; i >= 0; i--)
        packet[length++] = (uint8_t)(value >> 8 * i);
}

static void put_bytes(size_t count) {
    memcpy(packet + length, payload, count);
    length += count;
}

static void begin_packet(uint32_t tag) {
    length = 0;
    put(2, 5000);
    put(2, 5000);
    put(4, tag);
    put(4, 0);
}

static void begin_chunk(uint8_t kind, uint8_t flags) {
    chunk_at = length;
    put(1, kind);
    put(1, flags);
    put(2, 0);
}

static void end_chunk(void) {
    size_t chunk_length = length - chunk_at;
    packet[chunk_at + 2] = (uint8_t)(chunk_length >> 8);
    packet[chunk_at + 3] = (uint8_t)chunk_length;
    while (length % 4 != 0)
        put(1, 0);
}

static void seal(void) {
    uint32_t sum = 0xffffffff;
    memset(packet + 8, 0, 4);
    for (size_t i = 0; i < length; i++) {
        sum ^= packet[i];
        for (int bit = 0; bit < 8; bit++)
            sum = sum >> 1 ^ (sum & 1 ? 0x82f63b78 : 0);
    }
    for (int i = 0; i < 4; i++)
        packet[8 + i] = (uint8_t)(~sum >> 8 * i);
}

static void put_data(uint8_t flags, uint32_t tsn, uint16_t stream, uint16_t ssn, size_t size) {
    begin_chunk(0, flags);
    put(4, tsn);
    put(2, stream);
    put(2, ssn);
    put(4, 53);
    put_bytes(size);
    end_chunk();
}

static void hand_in(void) {
    uint32_t fate;
    seal();
    if (!done(sctp_assoc_handle_datagram(&ours, now, packet, length, &fate)) || fate != SCTP_ASSOC_TAKEN)
        fail("a datagram was not taken");
}

/* The same chunk again and again, in datagrams of at most 1,500 bytes. */
static void add_data(uint8_t flags, uint32_t tsn, uint16_t stream, uint16_t ssn, size_t size) {
    if (length > 0 && length + 16 + size + 3 > SIZE) {
        hand_in();
        length = 0;
    }
    if (length == 0)
        begin_packet(OWN_TAG);
    put_data(flags, tsn, stream, ssn, size);
}

/* Hands in what add_data left. */
static void hand_in_rest(void) {
    if (length > 0)
        hand_in();
    length = 0;
}

/* So, and takes what this side has to tell and to send. */
static void settle(void) {
    static uint8_t buffer[SCTP_ASSOC_MAX_DATAGRAM];
    sctp_assoc_event event;
    size_t sent;
    hand_in_rest();
    while (done(sctp_assoc_poll_event(&ours, &event)))
        if (event.kind == SCTP_ASSOC_EVENT_LOST)
            fail("the association was lost too early");
    while (done(sctp_assoc_poll_transmit(&ours, now, buffer, sizeof buffer, &sent)))
        ;
}

/* ---- States ---- */

static sctp_assoc_identity identity(uint32_t tag, uint32_t tsn) {
    sctp_assoc_identity named = {.tag = tag, .initial_tsn = tsn};
    memset(named.cookie, COOKIE_BYTE, sizeof named.cookie);
    return named;
}

static void joined(void) {
    sctp_assoc_config config;
    sctp_assoc_token own, peer;
    sctp_assoc_default_config(&config);
    sctp_assoc_make_token(&config, OWN_TAG, OWN_TSN, &own);
    sctp_assoc_make_token(&config, PEER_TAG, FIRST_TSN, &peer);
    done(sctp_assoc_joined(&ours, &config, 1200, &own, &peer));
    done(sctp_assoc_joined(&theirs, &config, 1200, &peer, &own));
    settle();
}

static void server(void) {
    sctp_assoc_config config;
    sctp_assoc_identity named = identity(OWN_TAG, OWN_TSN);
    sctp_assoc_default_config(&config);
    done(sctp_assoc_server(&ours, &config, 1200, &named, now));
}

static void client(void) {
    sctp_assoc_config config;
    sctp_assoc_identity named = identity(OWN_TAG, OWN_TSN);
    sctp_assoc_default_config(&config);
    done(sctp_assoc_client(&ours, &config, 1200, &named, now));
    settle();
}

/* Whatever one side has to send to the other. */
static bool pass_on(sctp_assoc *from, sctp_assoc *to) {
    uint8_t datagram[2048];
    size_t sent;
    uint32_t fate;
    bool any = false;
    for (; done(sctp_assoc_poll_transmit(from, now, datagram, sizeof datagram, &sent)); any = true)
        done(sctp_assoc_handle_datagram(to, now, datagram, sent, &fate));
    return any;
}

static void exchange(void) {
    for (bool any = true; any;) {
        any = pass_on(&ours, &theirs);
        any |= pass_on(&theirs, &ours);
    }
}

/* Established by a handshake with this side as the server, so that it knows its State Cookie. */
static void shaken(void) {
    sctp_assoc_config config;
    sctp_assoc_identity named = identity(PEER_TAG, FIRST_TSN);
    sctp_assoc_default_config(&config);
    done(sctp_assoc_client(&theirs, &config, 1200, &named, now));
    server();
    exchange();
    settle();
}

/* Pieces in flight, each a message of 16 bytes, once the congestion window was opened. */
static void in_flight(void) {
    joined();
    done(sctp_assoc_open_stream(&ours, 1, SCTP_ASSOC_PPID_BINARY));
    for (int round = 0; round < 60; round++) {
        for (int i = 0; i < 400; i++)
            done(sctp_assoc_write(&ours, 1, SCTP_ASSOC_PPID_OF_STREAM, payload, 1200));
        for (int turn = 0; turn < 3; turn++) {
            exchange();
            now += 200 * MS;
            done(sctp_assoc_handle_timeout(&ours, now));
            done(sctp_assoc_handle_timeout(&theirs, now));
        }
        size_t read;
        uint32_t type;
        uint8_t message[1200];
        while (done(sctp_assoc_read(&theirs, 1, message, sizeof message, &read, &type)))
            ;
    }
    for (int i = 0; i < IN_FLIGHT; i++)
        done(sctp_assoc_write(&ours, 1, SCTP_ASSOC_PPID_OF_STREAM, payload, 16));
    settle();
}

/* Each second TSN of the 65,535 that can be held, with as many bytes as the receive buffer has room for: messages that
 * wait on stream 1, of which each third SSN is missing, and the others on stream 2. */
static void gaps(void) {
    joined();
    for (uint32_t k = 0; k < HELD; k++) {
        uint32_t tsn = FIRST_TSN + 1 + 2 * k;
        if (k < WAITING)
            add_data(WHOLE, tsn, 1, (uint16_t)(k / 2 * 3 + k % 2 + 1), 32);
        else
            add_data(WHOLE, tsn, 2, (uint16_t)(k - WAITING + 1), k + 1 < HELD ? 32 : 100);
    }
    settle();
}

/* A request to reset so many streams, or without any all of them; the streams follow it. */
static void begin_request(uint32_t last_tsn, uint32_t named) {
    begin_chunk(130, 0);
    put(2, 13);
    put(2, 16 + 2 * named);
    put(4, request_number++);
    put(4, OWN_TSN - 1);
    put(4, last_tsn);
}

static void ask_reset(uint32_t last_tsn) {
    begin_packet(OWN_TAG);
    begin_request(last_tsn, 0);
    end_chunk();
    hand_in();
    length = 0;
}

/* A reset of all streams waits for TSN 500, and behind it DATA of a stream is kept apart, each piece a message. */
static void apart(void) {
    joined();
    ask_reset(FIRST_TSN);
    for (uint32_t k = 0; k < APART; k++)
        add_data(WHOLE, FIRST_TSN + 100 + k, 1, (uint16_t)(k + 1), 1);
    settle();
}

/* All streams, each with the first piece of a message. */
static void streams(void) {
    joined();
    for (uint32_t k = 0; k < STREAMS; k++)
        add_data(BEGINS, next_tsn++, (uint16_t)k, 0, 1);
    settle();
}

/* So, and all of them reset, so that they wait for the rest of these messages, with whole unordered messages kept apart
 * behind that. */
static void retiring(void) {
    streams();
    ask_reset(next_tsn - 1);
    for (uint32_t k = 0; k < APART; k++)
        add_data(WHOLE | UNORDERED, next_tsn++, (uint16_t)k, 0, 1);
    hand_in_rest();
}

/* One stream waits so, and all that is kept apart are its ordered messages. */
static void retiring_one(void) {
    joined();
    add_data(BEGINS, next_tsn++, 1, 0, 1);
    settle();
    ask_reset(next_tsn - 1);
    for (uint32_t k = 0; k < APART; k++)
        add_data(WHOLE, next_tsn++, 1, (uint16_t)k, 1);
    settle();
}

/* Entries of FORWARD TSN: of stream 1 so many, and then of others. */
static void put_skips(uint8_t kind, uint32_t tsn, uint32_t of_one, uint32_t count) {
    begin_chunk(kind, 0);
    put(4, tsn);
    for (uint32_t k = 0; k < count; k++) {
        put(2, k < of_one ? 1 : 60000 + k);
        put(2, k < of_one ? APART : 0);
        if (kind == 194)
            put(4, 0);
    }
    end_chunk();
}

/* One stream waits so, and FORWARD TSN passed over its messages again and again. */
static void skipping(void) {
    joined();
    add_data(BEGINS, next_tsn++, 1, 0, 1);
    settle();
    ask_reset(next_tsn - 1);
    for (uint32_t k = 0; k < SKIPPING; k++) {
        begin_packet(OWN_TAG);
        put_skips(192, next_tsn++, ENTRIES, ENTRIES);
        settle();
    }
}

/* First pieces of unordered messages, without a byte, on two streams in turn. */
static void torn(void) {
    joined();
    for (uint32_t k = 0; k < TORN; k++, next_tsn++)
        add_data(BEGINS | UNORDERED, next_tsn, next_tsn % 2, 0, 0);
    settle();
}

/* One request of this side is on the way to reset many streams. */
static void asked(void) {
    joined();
    for (uint32_t k = 0; k < RESET_STREAMS; k++)
        done(sctp_assoc_open_stream(&ours, (uint16_t)k, SCTP_ASSOC_PPID_BINARY));
    for (uint32_t k = 0; k < RESET_STREAMS; k++)
        done(sctp_assoc_close_stream(&ours, (uint16_t)k));
    settle();
}

#endif
