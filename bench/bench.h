/* What both benchmarks share: the wire between two ends, its losses, the clocks and the line that is printed. */
#ifndef BENCH_H
#define BENCH_H

#include <malloc.h>
#include <stdbool.h>
#include <stdint.h>
#include <stdio.h>
#include <stdlib.h>
#include <string.h>
#include <sys/resource.h>

#define PAYLOAD_SIZE 1200         /* greatest payload of one DATA chunk, in bytes */
#define PACKET_SIZE 1228          /* the packet that holds it */
#define MAX_WAITING 512           /* messages that are written and not read at a time .. */
#define MAX_WAITING_BYTES 1000000 /* .. and their bytes */
#define TICK_MS 10                /* by which the virtual clock goes on if both ends are idle */
#define IDLE_PAIRS 1000           /* associations whose memory is measured */

struct datagram {
    struct datagram *next;
    size_t length;
    uint8_t bytes[2048];
};

/* What one end sent and the other has not got yet, oldest first. */
struct wire {
    struct datagram *first, *last;
};

struct measure {
    const char *stack, *name;
    size_t size;
    uint64_t messages, datagrams, lost, allocations, virtual_ms;
    double cpu_us;
};

static struct datagram *spare;
static uint64_t datagrams_sent, datagrams_lost;
static uint32_t lost_per_million;
static uint32_t random_state = 1; /* of the draws of what is lost */

static void fail(const char *what) {
    fprintf(stderr, "bench: %s\n", what);
    exit(1);
}

/* LOSS_SEED in the environment, a number from 1 on, begins other draws of what is lost; 1 is the seed without it. */
static void seed_losses(void) {
    const char *seed = getenv("LOSS_SEED");
    if (seed && !(random_state = (uint32_t)strtoul(seed, NULL, 10)))
        fail("LOSS_SEED is no number from 1 on");
}

static uint32_t next_random(void) {
    random_state ^= random_state << 13;
    random_state ^= random_state >> 17;
    random_state ^= random_state << 5;
    return random_state;
}

static double cpu_us(void) {
    struct rusage used;
    getrusage(RUSAGE_SELF, &used);
    return used.ru_utime.tv_sec * 1e6 + used.ru_utime.tv_usec + used.ru_stime.tv_sec * 1e6 + used.ru_stime.tv_usec;
}

/* Room for one datagram. It is reused, so that neither stack's time has the harness's heap calls. */
static struct datagram *new_datagram(void) {
    struct datagram *room = spare;
    if (room)
        spare = room->next;
    else if (!(room = malloc(sizeof *room)))
        fail("no memory");
    return room;
}

static void give_back(struct datagram *room) {
    room->next = spare;
    spare = room;
}

/* Puts a datagram on the wire, or loses it. */
static void send_on(struct wire *wire, struct datagram *sent) {
    datagrams_sent++;
    if (lost_per_million && next_random() % 1000000 < lost_per_million) {
        datagrams_lost++;
        give_back(sent);
        return;
    }
    sent->next = NULL;
    if (wire->first)
        wire->last->next = sent;
    else
        wire->first = sent;
    wire->last = sent;
}

static struct datagram *take_from(struct wire *wire) {
    struct datagram *oldest = wire->first;
    if (oldest)
        wire->first = oldest->next;
    return oldest;
}

static void print_measure(const struct measure *m) {
    printf("{\"stack\":\"%s\",\"case\":\"%s\",\"size\":%zu,\"messages\":%llu,\"cpu_us\":%.3f,\"datagrams\":%llu,"
           "\"lost\":%llu,\"allocations\":%.2f,\"virtual_ms\":%llu}\n",
           m->stack, m->name, m->size, (unsigned long long)m->messages, m->cpu_us / m->messages,
           (unsigned long long)m->datagrams, (unsigned long long)m->lost, (double)m->allocations / m->messages,
           (unsigned long long)m->virtual_ms);
    fflush(stdout);
}

/* Bytes that the heap has given out and not got back. */
static size_t heap_bytes(void) {
    return mallinfo2().uordblks;
}

#endif
