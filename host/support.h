/* What the tests of the C interface share: a heap that can refuse, two ends and what goes between them. */
#ifndef SUPPORT_H
#define SUPPORT_H

#define SCTP_ASSOC_HEAP
#include "sctp_assoc.h"

#include <malloc.h>
#include <stdint.h>
#include <stdio.h>
#include <stdlib.h>
#include <string.h>

#define PAYLOAD_SIZE 1172
#define MS UINT64_C(1000000)

/* The case that is tried, if a test has several. */
static const char *tried = "";

/* Carries a case out, whose name is told if it fails. */
#define TRY(is_tried) (tried = #is_tried, (is_tried), tried = "")

/* Ends the program if something that a test states is not so. */
#define CHECK(is_so) ((is_so) ? (void)0 : failed(__FILE__, __LINE__, __func__, #is_so))

static void failed(const char *file, int line, const char *name, const char *stated) {
    fprintf(stderr, "%s:%d: %s: not so: %s%s%s\n", file, line, name, stated, *tried ? ", of " : "", tried);
    exit(1);
}

/* ---- A heap that can refuse ---- */

static uint64_t growths;                   /* how often memory was asked for */
static uint64_t refused_from, refused_to;  /* of these the first that is refused, and the first after it that is not */
static uint64_t blocks;                    /* blocks that were not given back */
static uint64_t heap_bytes;                /* their bytes */
static uint64_t most_heap_bytes;           /* and the most of these at a time, since a test set it */

static bool is_refused(void) {
    growths++;
    return growths >= refused_from && growths < refused_to;
}

/* What the library gets: a block in place of one of so many bytes, or a refusal. */
static sctp_assoc_block given(void *at, size_t replaced) {
    if (!at)
        return (sctp_assoc_block){false, &growths};
    heap_bytes = heap_bytes - replaced + malloc_usable_size(at);
    if (heap_bytes > most_heap_bytes)
        most_heap_bytes = heap_bytes;
    return (sctp_assoc_block){true, at};
}

sctp_assoc_block rattle_alloc(size_t size, size_t align) {
    CHECK(align <= 16);
    void *at = is_refused() ? NULL : malloc(size ? size : 1);
    blocks += at != NULL;
    return given(at, 0);
}

sctp_assoc_block rattle_realloc(void *old, size_t kept, size_t size, size_t align) {
    (void)kept;
    CHECK(align <= 16);
    size_t replaced = malloc_usable_size(old);
    return given(is_refused() ? NULL : realloc(old, size ? size : 1), replaced);
}

void rattle_dealloc(void *at) {
    CHECK(blocks > 0);
    blocks--;
    heap_bytes -= malloc_usable_size(at);
    free(at);
}

/* ---- Two ends ---- */

/* Whether the call was done; it may answer that there is nothing, and no other code. */
static bool done(sctp_assoc_code code) {
    if (code != SCTP_ASSOC_DONE && code != SCTP_ASSOC_NOTHING)
        fprintf(stderr, "code %u\n", (unsigned)code);
    CHECK(code == SCTP_ASSOC_DONE || code == SCTP_ASSOC_NOTHING);
    return code == SCTP_ASSOC_DONE;
}

static inline sctp_assoc_identity identity(uint32_t tag) {
    sctp_assoc_identity named = {.tag = tag, .initial_tsn = tag * 1000};
    memset(named.cookie, (int)tag, sizeof named.cookie);
    return named;
}

static inline sctp_assoc_config users_config(void) {
    sctp_assoc_config config;
    CHECK(sctp_assoc_default_config(&config) == SCTP_ASSOC_DONE);
    return config;
}

/* The default configuration with the timeouts of RFC 4960 section 15, by which the tests count, and no limit. */
static inline sctp_assoc_config default_config(void) {
    sctp_assoc_config config = users_config();
    config.rto_initial_ms = 3000;
    config.rto_min_ms = 1000;
    config.max_data_retransmits = SCTP_ASSOC_NO_LIMIT;
    return config;
}

/* The bytes of the message with this number; two numbers give other bytes from the fourth one on. */
static inline void fill(uint8_t *message, size_t length, uint32_t number) {
    for (size_t i = 0; i < length; i++)
        message[i] = (uint8_t)(i < 4 ? number >> (8 * i) : number * 31 + i * 7);
}

/* The checksum of a packet: CRC32c over it, with a checksum of 0 (RFC 4960 appendix B). */
static inline uint32_t sum_of(const uint8_t *packet, size_t length) {
    uint32_t sum = 0xffffffff;
    for (size_t i = 0; i < length; i++) {
        sum ^= i >= 8 && i < 12 ? 0 : packet[i];
        for (int bit = 0; bit < 8; bit++)
            sum = sum >> 1 ^ (sum & 1 ? 0x82f63b78 : 0);
    }
    return ~sum;
}

/* Writes the checksum of a packet. */
static inline void seal(uint8_t *packet, size_t length) {
    uint32_t sum = sum_of(packet, length);
    for (int i = 0; i < 4; i++)
        packet[8 + i] = (uint8_t)(sum >> 8 * i);
}

static inline bool is_sealed(const uint8_t *packet, size_t length) {
    if (length < 12)
        return false;
    uint32_t sum = sum_of(packet, length);
    return packet[8] == (uint8_t)sum && packet[9] == (uint8_t)(sum >> 8) && packet[10] == (uint8_t)(sum >> 16) &&
           packet[11] == sum >> 24;
}

/* Hands over all that `from` has to send at `now`. */
static inline void pass_on(sctp_assoc *from, sctp_assoc *to, uint64_t now) {
    uint8_t datagram[PAYLOAD_SIZE + 28];
    size_t length;
    while (done(sctp_assoc_poll_transmit(from, now, datagram, sizeof datagram, &length))) {
        uint32_t fate;
        CHECK(done(sctp_assoc_handle_datagram(to, now, datagram, length, &fate)));
        CHECK(fate == SCTP_ASSOC_TAKEN);
    }
}

/* Makes a client and a server, and lets them shake hands. */
static inline void shake_hands(sctp_assoc ends[2], const sctp_assoc_config *config, uint64_t now) {
    sctp_assoc_identity client = identity(1), server = identity(2);
    CHECK(done(sctp_assoc_client(&ends[0], config, PAYLOAD_SIZE, &client, now)));
    CHECK(done(sctp_assoc_server(&ends[1], config, PAYLOAD_SIZE, &server, now)));
    for (int i = 0; i < 2; i++) {
        pass_on(&ends[0], &ends[1], now);
        pass_on(&ends[1], &ends[0], now);
    }
    for (int end = 0; end < 2; end++) {
        sctp_assoc_event event;
        CHECK(done(sctp_assoc_poll_event(&ends[end], &event)) && event.kind == SCTP_ASSOC_EVENT_CONNECTED);
        CHECK(sctp_assoc_is_established(&ends[end]));
    }
}

static inline void free_both(sctp_assoc ends[2]) {
    for (int end = 0; end < 2; end++)
        CHECK(sctp_assoc_free(&ends[end]) == SCTP_ASSOC_DONE);
    CHECK(blocks == 0 && heap_bytes == 0);
}

#endif
