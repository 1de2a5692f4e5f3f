/* The work that one datagram causes: for each kind of chunk the dearest datagram of 1,500 bytes that a peer was thought
 * to be able to make, over the state in which it costs most, and an honest one over the same state.
 *
 *   dearest                        the names of the cases and how many chunks the dear datagram of each has
 *   dearest CASE honest            hands the honest datagram in, and says how long that took
 *   dearest CASE dear [CHUNKS]     the dear one, or as many chunks of it
 *
 * Under valgrind --tool=callgrind --instr-atstart=no the instructions of that one call alone are counted. */
#include "states.h"

#include <time.h>
#include <valgrind/callgrind.h>

/* ---- Datagrams that are measured: so many chunks, or parts of one ---- */

static uint8_t kind;        /* of the chunks of the case */
static size_t value_length; /* of each, if they are alike */

static void put_chunks(size_t count) {
    for (size_t k = 0; k < count; k++) {
        begin_chunk(kind, 0);
        put_bytes(value_length);
        end_chunk();
    }
}

static void dear_gaps(size_t count) { /* empty messages between those that wait, as far behind as can be */
    for (size_t k = 0; k < count; k++)
        put_data(WHOLE, FIRST_TSN + 2 + 2 * (uint32_t)k, 1, (uint16_t)(WAITING / 2 * 3 - 3 * (k + 1)), 0);
}

static void honest_data(size_t count) {
    (void)count;
    put_data(WHOLE, FIRST_TSN, 1, 0, SIZE - 12 - 16);
}

static void dear_apart(size_t count) { /* the first one has the last SSN and the first TSN of all */
    for (size_t k = 0; k < count; k++)
        put_data(WHOLE, FIRST_TSN + 1 + (uint32_t)k, 1, (uint16_t)(APART + count - k), 0);
}

static void honest_apart(size_t count) {
    (void)count;
    put_data(WHOLE, FIRST_TSN + 100 + APART, 1, APART + 1, SIZE - 12 - 16);
}

static void dear_torn(size_t count) {
    for (uint32_t k = 0; k < count; k++)
        put_data(BEGINS | UNORDERED, next_tsn + k, (next_tsn + k) % 2, 0, 0);
}

static void honest_torn(size_t count) {
    (void)count;
    put_data(WHOLE | UNORDERED, next_tsn, next_tsn % 2, 0, SIZE - 12 - 16);
}

static void dear_behind(size_t count) { /* of another stream, in order */
    for (uint32_t k = 0; k < count; k++)
        put_data(WHOLE, next_tsn + k, 3, (uint16_t)k, 0);
}

static void honest_behind(size_t count) {
    (void)count;
    put_data(WHOLE, next_tsn, 3, 0, SIZE - 12 - 16);
}

static void put_init(size_t parameters) {
    begin_chunk(kind, 0);
    put(4, PEER_TAG);
    put(4, 100000);
    put(2, 65535);
    put(2, 65535);
    put(4, FIRST_TSN);
    for (size_t k = 0; k < parameters; k++) {
        put(2, 0xc000);
        put(2, 4);
    }
}

static void put_parameter(uint16_t kind, size_t size) {
    put(2, kind);
    put(2, (uint32_t)size);
    put_bytes(size - 4);
}

static void dear_init(size_t count) {
    begin_packet(0);
    put_init(count);
    end_chunk();
}

static void honest_init(size_t count) {
    (void)count;
    begin_packet(0);
    put_init(0);
    put_parameter(0xc000, SIZE - 12 - 20);
    end_chunk();
}

static void dear_init_ack(size_t count) {
    put_init(count - 2);
    put_parameter(7, 8);
    end_chunk();
}

static void honest_init_ack(size_t count) {
    (void)count;
    put_init(0);
    put_parameter(7, SIZE - 12 - 20);
    end_chunk();
}

#define BLOCKS 368 /* the most in a datagram of that length */

static void put_sack(size_t blocks, uint32_t between, uint32_t first, uint32_t last) {
    uint64_t sent = 24000; /* in_flight sent so many before */
    begin_chunk(3, 0);
    put(4, OWN_TSN - 1 + (uint32_t)sent);
    put(4, 100000);
    put(2, (uint32_t)blocks);
    put(2, 0);
    for (uint32_t k = 0; k < blocks; k++) {
        put(2, first + k * between);
        put(2, last + k * between);
    }
    end_chunk();
}

static void dear_sack(size_t count) {
    put_sack(count, 0, 2, IN_FLIGHT);
}

static void honest_sack(size_t count) {
    (void)count;
    put_sack(BLOCKS, 10, 2, 6);
}

/* Each second piece in flight was acknowledged by a block. */
static void holes(void) {
    in_flight();
    for (uint32_t first = 2; first <= IN_FLIGHT; first += 2 * BLOCKS) {
        uint32_t left = (IN_FLIGHT - first) / 2 + 1;
        begin_packet(OWN_TAG);
        put_sack(left < BLOCKS ? left : BLOCKS, 2, first, first);
        hand_in();
    }
}

/* It fills all holes. */
static void dear_holes(size_t count) {
    put_sack(count, 0, 2, IN_FLIGHT);
}

/* It names what was acknowledged before. */
static void honest_holes(size_t count) {
    (void)count;
    put_sack(BLOCKS, 2, 2, 2);
}

static void dear_heartbeat(size_t count) {
    for (size_t k = 0; k < count; k++) {
        begin_chunk(4, 0);
        put_parameter(1, 4);
        end_chunk();
    }
}

static void honest_heartbeat(size_t count) {
    (void)count;
    begin_chunk(4, 0);
    put_parameter(1, SIZE - 12 - 4);
    end_chunk();
}

/* So many parameters, or causes, of this size. */
static void put_parts(size_t count, size_t size) {
    begin_chunk(kind, 0);
    for (size_t k = 0; k < count; k++)
        put_parameter(kind == 5 ? 0xc000 : 12, size);
    end_chunk();
}

static void dear_parts(size_t count) {
    put_parts(count, 4);
}

static void honest_parts(size_t count) {
    (void)count;
    put_parts(1, SIZE - 12 - 4);
}

static void dear_chunks(size_t count) {
    put_chunks(count);
}

static void honest_chunk(size_t count) { /* one, and DATA that fills the datagram */
    (void)count;
    put_chunks(1);
    put_data(WHOLE, FIRST_TSN, 1, 0, SIZE - length - 16);
}

static void dear_requests(size_t count) { /* of all streams, one after another */
    for (size_t k = 0; k < count; k++) {
        begin_request(next_tsn - APART - 1, 0);
        end_chunk();
    }
}

static void dear_request(size_t count) {
    (void)count;
    begin_request(next_tsn - 1, 0);
    end_chunk();
}

static void honest_request(size_t count) {
    (void)count;
    begin_request(next_tsn - 1, 734);
    for (uint32_t k = 0; k < 734; k++)
        put(2, 60000 + k);
    end_chunk();
}

static void dear_responses(size_t count) {
    for (size_t k = 0; k < count; k++) {
        begin_chunk(130, 0);
        put(2, 16);
        put(2, 12);
        put(4, OWN_TSN);
        put(4, k + 1 < count ? 6 : 1); /* in progress, and then performed */
        end_chunk();
    }
}

static void honest_response(size_t count) {
    (void)count;
    dear_responses(1);
}

static void dear_forward(size_t count) { /* one TSN further each */
    for (size_t k = 0; k < count; k++)
        put_skips(kind, next_tsn + (uint32_t)k, 0, 0);
}

static void honest_forward(size_t count) {
    (void)count;
    put_skips(kind, next_tsn, 0, kind == 192 ? ENTRIES : ENTRIES / 2);
}

static void dear_skips(size_t count) {
    put_skips(kind, next_tsn, (uint32_t)count, (uint32_t)count);
}

static void honest_skips(size_t count) {
    (void)count;
    put_skips(kind, next_tsn, 1, ENTRIES);
}

/* ---- Cases ---- */

struct dear_case {
    const char *name;
    void (*state)(void);
    size_t chunks; /* of the dear datagram, or its parameters, blocks or entries */
    void (*dear)(size_t count), (*honest)(size_t count);
    uint8_t kind;
    size_t value_length;
    bool closes, polls; /* that it closes the association; that the first poll for events after it is measured */
};

static const struct dear_case cases[] = {
    {"data", gaps, 93, dear_gaps, honest_data, 0, 0, false, false},
    {"data_apart", apart, 93, dear_apart, honest_apart, 0, 0, false, false},
    {"data_torn", torn, 93, dear_torn, honest_torn, 0, 0, false, false},
    {"data_skips", skipping, 93, dear_behind, honest_behind, 0, 0, false, false},
    {"init", server, 367, dear_init, honest_init, 1, 0, false, false},
    {"init_ack", client, 367, dear_init_ack, honest_init_ack, 2, 0, false, false},
    {"sack", in_flight, BLOCKS, dear_sack, honest_sack, 3, 0, false, false},
    {"sack_holes", holes, 1, dear_holes, honest_holes, 3, 0, false, false},
    {"heartbeat", joined, 186, dear_heartbeat, honest_heartbeat, 4, 0, false, false},
    {"heartbeat_ack", retiring, 371, dear_parts, honest_parts, 5, 0, true, false},
    {"abort", retiring, 371, dear_parts, honest_parts, 6, 0, true, false},
    {"error", retiring, 371, dear_parts, honest_parts, 9, 0, true, false},
    {"shutdown", in_flight, 186, dear_chunks, honest_chunk, 7, 4, false, false},
    {"shutdown_ack", joined, 372, dear_chunks, honest_chunk, 8, 0, false, false},
    {"cookie_echo", shaken, 41, dear_chunks, honest_chunk, 10, 32, false, false},
    {"cookie_ack", joined, 372, dear_chunks, honest_chunk, 11, 0, false, false},
    {"shutdown_complete", joined, 372, dear_chunks, honest_chunk, 14, 0, false, false},
    {"reset_request", retiring, 74, dear_requests, honest_request, 130, 0, false, false},
    {"reset_poll", streams, 1, dear_request, honest_request, 130, 0, false, true},
    {"reset_response", asked, 93, dear_responses, honest_response, 130, 0, false, false},
    {"forward_tsn", retiring, 186, dear_forward, honest_forward, 192, 0, false, false},
    {"forward_tsn_skips", retiring_one, 370, dear_skips, honest_skips, 192, 0, false, false},
    {"i_forward_tsn", retiring, 186, dear_forward, honest_forward, 194, 0, false, false},
};

static double cpu_us(void) {
    struct timespec used;
    clock_gettime(CLOCK_PROCESS_CPUTIME_ID, &used);
    return (double)used.tv_sec * 1e6 + (double)used.tv_nsec / 1e3;
}

static void measure(const struct dear_case *chosen, bool is_dear, size_t chunks) {
    uint32_t fate = SCTP_ASSOC_TAKEN;
    chosen->state();
    kind = chosen->kind;
    value_length = chosen->value_length;
    memset(payload, COOKIE_BYTE, sizeof payload);
    begin_packet(OWN_TAG);
    (is_dear ? chosen->dear : chosen->honest)(chunks);
    if (length > SIZE)
        fail("the datagram is too long");
    seal();
    sctp_assoc_event event;
    if (chosen->polls)
        hand_in();
    double began_us = cpu_us();
    CALLGRIND_START_INSTRUMENTATION;
    sctp_assoc_code code = chosen->polls ? sctp_assoc_poll_event(&ours, &event)
                                         : sctp_assoc_handle_datagram(&ours, now, packet, length, &fate);
    CALLGRIND_STOP_INSTRUMENTATION;
    double took_us = cpu_us() - began_us;
    if ((!chosen->polls && !done(code)) || fate != SCTP_ASSOC_TAKEN || sctp_assoc_is_drained(&ours) != chosen->closes)
        fail("the datagram was not taken, or closed the association");
    printf("{\"case\":\"%s\",\"bytes\":%zu,\"us\":%.1f}\n", chosen->name, length, took_us);
}

int main(int argc, char **argv) {
    for (size_t k = 0; k < sizeof cases / sizeof *cases; k++) {
        if (argc == 1)
            printf("%s %zu\n", cases[k].name, cases[k].chunks);
        else if (argc > 2 && !strcmp(argv[1], cases[k].name)) {
            size_t chunks = argc > 3 ? strtoull(argv[3], NULL, 10) : cases[k].chunks;
            measure(&cases[k], !strcmp(argv[2], "dear"), chunks);
            return 0;
        }
    }
    return argc == 1 ? 0 : 2;
}
