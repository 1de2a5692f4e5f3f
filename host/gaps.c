/* A client of the echo servers that loses every second of 800 datagrams: the server's SACK, which names 400 gaps, is
 * longer than a link carries in one part, and the echo goes on. Then the stream and the association end in order.
 *   gaps PORT */
#define _DEFAULT_SOURCE
#include "support.h"

#include <arpa/inet.h>
#include <poll.h>
#include <time.h>
#include <unistd.h>

#define GAPS 400
#define STREAM 1
#define SECONDS 30 /* that all of it may take */

static sctp_assoc slot;
static uint8_t datagram[SCTP_ASSOC_MAX_DATAGRAM];
static int udp;
static size_t longest; /* of the datagrams that came */
static int echoed;
static bool is_up, is_reset;

static uint64_t now(void) {
    struct timespec t;
    clock_gettime(CLOCK_MONOTONIC, &t);
    return (uint64_t)t.tv_sec * 1000000000 + (uint64_t)t.tv_nsec;
}

/* Takes in what came, or lets it go. */
static void receive_all(bool takes) {
    ssize_t length;
    uint32_t fate;
    while ((length = recv(udp, datagram, sizeof datagram, MSG_DONTWAIT)) >= 0) {
        longest = (size_t)length > longest ? (size_t)length : longest;
        if (takes)
            done(sctp_assoc_handle_datagram(&slot, now(), datagram, (size_t)length, &fate));
    }
}

static void send_all(void) {
    size_t length;
    while (done(sctp_assoc_poll_transmit(&slot, now(), datagram, sizeof datagram, &length)))
        send(udp, datagram, length, 0);
}

/* The messages come back in order. After the last one the stream is closed, and after that the association. */
static void read_all(void) {
    uint8_t message[2];
    size_t length;
    uint32_t type;
    while (echoed < 2 * GAPS && done(sctp_assoc_read(&slot, STREAM, message, sizeof message, &length, &type))) {
        CHECK(length == 2 && message[0] == echoed % 256 && message[1] == echoed / 256);
        echoed++;
    }
    if (echoed == 2 * GAPS)
        done(sctp_assoc_close_stream(&slot, STREAM));
}

static void take_events(void) {
    sctp_assoc_event event;
    while (done(sctp_assoc_poll_event(&slot, &event))) {
        is_up |= event.kind == SCTP_ASSOC_EVENT_CONNECTED;
        if (event.kind == SCTP_ASSOC_EVENT_READABLE && echoed < 2 * GAPS)
            read_all();
        if (event.kind == SCTP_ASSOC_EVENT_RESET_COMPLETE) {
            is_reset = true;
            CHECK(done(sctp_assoc_shutdown(&slot)));
        }
    }
}

static void wait_for_datagram(void) {
    struct pollfd ready = {.fd = udp, .events = POLLIN};
    poll(&ready, 1, 10);
}

/* One turn of the loop. */
static void turn(void) {
    send_all();
    wait_for_datagram();
    done(sctp_assoc_handle_timeout(&slot, now()));
    receive_all(true);
    take_events();
}

static void write_with_gaps(void) {
    size_t length;
    for (int i = 0; i < 2 * GAPS; i++) {
        const uint8_t message[2] = {(uint8_t)(i % 256), (uint8_t)(i / 256)};
        CHECK(done(sctp_assoc_write(&slot, STREAM, SCTP_ASSOC_PPID_OF_STREAM, message, sizeof message)));
        CHECK(done(sctp_assoc_poll_transmit(&slot, now(), datagram, sizeof datagram, &length)));
        if (i % 2 == 0)
            continue;
        send(udp, datagram, length, 0);
        wait_for_datagram(); /* each gap is told at once, so that the sockets have room for all */
        receive_all(false);
    }
}

int main(int argc, char **argv) {
    CHECK(argc == 2);
    uint64_t end = now() + SECONDS * 1000 * MS;
    struct sockaddr_in peer = {.sin_family = AF_INET, .sin_port = htons((uint16_t)atoi(argv[1]))};
    peer.sin_addr.s_addr = htonl(INADDR_LOOPBACK);
    udp = socket(AF_INET, SOCK_DGRAM, 0);
    CHECK(udp >= 0 && connect(udp, (struct sockaddr *)&peer, sizeof peer) == 0);

    sctp_assoc_config config = default_config();
    config.profile = SCTP_ASSOC_PROFILE_PORT; /* all goes without a SACK, and the RFCs' rules have a Max.Burst */
    sctp_assoc_identity named = identity((uint32_t)now() | 1);
    CHECK(done(sctp_assoc_client(&slot, &config, PAYLOAD_SIZE, &named, now())));
    while (!is_up && now() < end)
        turn();
    CHECK(done(sctp_assoc_open_stream(&slot, STREAM, SCTP_ASSOC_PPID_BINARY)));
    write_with_gaps();
    while (!sctp_assoc_is_drained(&slot) && now() < end)
        turn();
    CHECK(sctp_assoc_is_drained(&slot) && is_reset && echoed == 2 * GAPS);
    CHECK(longest >= 28 + 4 * GAPS);
    send_all();
    CHECK(done(sctp_assoc_free(&slot)) && blocks == 0);
    puts("gaps: ok");
    return 0;
}
