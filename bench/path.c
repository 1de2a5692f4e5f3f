/* How long a file takes over a path that is late each way and loses packets, by the clock of the path.
 *
 *   path MEGABYTES DELAY_MS LOSS_PERCENT RTO_MIN_MS RTO_INITIAL_MS SEED
 *
 * It prints the seconds and the datagrams of the sender. Both ends have the default configuration but for these
 * timeouts; messages have 16 KiB, of which a mebibyte may wait, and are read as they come. */
#include <stdbool.h>
#include <stdint.h>
#include <stdio.h>
#include <stdlib.h>
#include <string.h>

#include "sctp_assoc.h"

#define PAYLOAD_SIZE 1164
#define MESSAGE_SIZE 16384
#define MAX_WAITING 1048576
#define STREAM 1
#define MS UINT64_C(1000000)

struct datagram {
    struct datagram *next;
    uint64_t arrives;
    size_t length;
    uint8_t bytes[];
};

static sctp_assoc ends[2];
static struct datagram *first[2], **last[2] = {&first[0], &first[1]}; /* sent by each end and not there yet */
static uint64_t now, delay, sent, bytes_read, random_state;
static uint32_t lost_per_million;

static bool done(sctp_assoc_code code) {
    if (code != SCTP_ASSOC_DONE && code != SCTP_ASSOC_NOTHING) {
        fprintf(stderr, "path: a call answered %s\n", sctp_assoc_code_name(code));
        exit(1);
    }
    return code == SCTP_ASSOC_DONE;
}

static bool is_lost(void) {
    random_state ^= random_state << 13;
    random_state ^= random_state >> 7;
    random_state ^= random_state << 17;
    return random_state % 1000000 < lost_per_million;
}

static void send_due(int end) {
    static uint8_t buffer[SCTP_ASSOC_MAX_DATAGRAM];
    size_t length;
    while (done(sctp_assoc_poll_transmit(&ends[end], now, buffer, sizeof buffer, &length))) {
        struct datagram *datagram;
        sent += end == 0;
        if (is_lost())
            continue;
        if (!(datagram = malloc(sizeof *datagram + length)))
            exit(1);
        *datagram = (struct datagram){.arrives = now + delay, .length = length};
        memcpy(datagram->bytes, buffer, length);
        *last[end] = datagram, last[end] = &datagram->next;
    }
}

static void read_all(int end) {
    static uint8_t message[MESSAGE_SIZE];
    sctp_assoc_event event;
    size_t length;
    uint32_t type;
    while (done(sctp_assoc_poll_event(&ends[end], &event))) {
        if (event.kind == SCTP_ASSOC_EVENT_LOST) {
            fprintf(stderr, "path: an end was lost\n");
            exit(1);
        }
        while (event.kind == SCTP_ASSOC_EVENT_READABLE &&
               done(sctp_assoc_read(&ends[end], event.stream, message, sizeof message, &length, &type)))
            bytes_read += length;
    }
}

/* Hands over what arrived at an end by now. */
static void take(int end) {
    struct datagram **way = &first[!end];
    uint32_t fate;
    while (*way && (*way)->arrives <= now) {
        struct datagram *came = *way;
        if (!(*way = came->next))
            last[!end] = way;
        done(sctp_assoc_handle_datagram(&ends[end], now, came->bytes, came->length, &fate));
        free(came);
        read_all(end);
        send_due(end);
    }
}

/* The next moment at which anything happens. */
static uint64_t next_moment(void) {
    uint64_t next = UINT64_MAX, due;
    for (int end = 0; end < 2; end++) {
        if (done(sctp_assoc_poll_timeout(&ends[end], &due)) && due < next)
            next = due;
        if (first[end] && first[end]->arrives < next)
            next = first[end]->arrives;
    }
    return next < now ? now : next;
}

static void write_more(uint64_t *left) {
    static const uint8_t message[MESSAGE_SIZE];
    size_t waiting;
    while (*left && done(sctp_assoc_buffered_amount(&ends[0], STREAM, &waiting)) && waiting < MAX_WAITING) {
        done(sctp_assoc_write(&ends[0], STREAM, SCTP_ASSOC_PPID_OF_STREAM, message, sizeof message));
        *left -= 1;
    }
    send_due(0);
}

static void join(uint64_t rto_min, uint64_t rto_initial) {
    sctp_assoc_config config;
    sctp_assoc_token tokens[2];
    done(sctp_assoc_default_config(&config));
    config.rto_min_ms = rto_min;
    config.rto_initial_ms = rto_initial;
    for (uint32_t end = 0; end < 2; end++)
        done(sctp_assoc_make_token(&config, end + 1, end + 1, &tokens[end]));
    for (int end = 0; end < 2; end++)
        done(sctp_assoc_joined(&ends[end], &config, PAYLOAD_SIZE, &tokens[end], &tokens[!end]));
    done(sctp_assoc_open_stream(&ends[0], STREAM, SCTP_ASSOC_PPID_BINARY));
}

int main(int argc, char **argv) {
    if (argc != 7) {
        fprintf(stderr, "usage: path MEGABYTES DELAY_MS LOSS_PERCENT RTO_MIN_MS RTO_INITIAL_MS SEED\n");
        return 2;
    }
    uint64_t left = strtoull(argv[1], NULL, 10) * 1000000 / MESSAGE_SIZE, goal = left * MESSAGE_SIZE;
    delay = strtoull(argv[2], NULL, 10) * MS;
    lost_per_million = (uint32_t)(strtod(argv[3], NULL) * 10000);
    random_state = strtoull(argv[6], NULL, 10) * UINT64_C(0x9e3779b97f4a7c15) | 1;
    join(strtoull(argv[4], NULL, 10), strtoull(argv[5], NULL, 10));
    while (bytes_read < goal) {
        write_more(&left);
        now = next_moment();
        for (int end = 0; end < 2; end++) {
            done(sctp_assoc_handle_timeout(&ends[end], now));
            send_due(end);
            take(end);
        }
    }
    printf("%.1f s, %llu datagrams\n", (double)now / 1e9, (unsigned long long)sent);
    return 0;
}
