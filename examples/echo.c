/*
 * Messages that come back, over UDP (RFC 6951): a server that echoes, and a client that sends COUNT messages of 1 to
 * 8,192 bytes and looks at what comes back. Then the client closes the stream, which ends at both sides, and shuts the
 * association down, which ends at both sides, too. At Ctrl-C either side shuts down what it has, and ends once that is
 * over or some seconds have passed; a second Ctrl-C ends it at once. docs/GUIDE.md explains the calls.
 *
 *   ./library                             builds the archive, once; a release has it in lib/, not in out/
 *   cc -O2 -Iinclude -o echo examples/echo.c out/libsctp_assoc.a
 *   ./echo server 9899                    serves up to 16 clients; at port 0 it takes a free one, and prints which
 *   ./echo client 127.0.0.1 9899 100
 */
#define _GNU_SOURCE
#include "sctp_assoc.h"

#include <arpa/inet.h>
#include <err.h>
#include <errno.h>
#include <poll.h>
#include <signal.h>
#include <stdio.h>
#include <stdlib.h>
#include <string.h>
#include <time.h>

#define SECOND UINT64_C(1000000000)
#define MAX_PAYLOAD_SIZE 1172 /* fits links of 1280 bytes, below UDP and IPv6 */
#define STREAM 1
#define ON_THE_WAY 10 /* messages that the client has out at a time; the sockets have room for so many */
#define END_WITHIN 20 /* seconds that a shutdown may take; a peer that is gone never answers it */

#define CLIENTS 16    /* that a server has at a time */
#define SILENT 60     /* seconds without a datagram, after which a client may lose its place to a new one */
#define PLACES (2 * CLIENTS)

/* One association, and the peer at the other end of it. */
struct end {
    sctp_assoc slot; /* empty if there is none */
    struct sockaddr_in peer;
    bool is_up;      /* its handshake is done */
    uint64_t heard;  /* when a datagram came last that was for it */
};

/* A client has the first alone. CLIENTS behind that of a server's client there is one beside it, for the same peer, if
 * that begins anew. */
static struct end ends[PLACES];
static sctp_assoc_config config;
static int udp;
static bool is_client, is_ending;
static uint64_t end_until; /* where it is ending */
static unsigned long count, sent, echoed;
static volatile sig_atomic_t is_interrupted;
static sigset_t while_waiting; /* the signals that are blocked then: not that of Ctrl-C */

/* Ends the program at a code that it does not go on with. Answers whether the call was done. */
static bool done(sctp_assoc_code code) {
    if (code != SCTP_ASSOC_DONE && code != SCTP_ASSOC_NOTHING)
        errx(1, "a call answered %s", sctp_assoc_code_name(code));
    return code == SCTP_ASSOC_DONE;
}

static uint64_t now(void) {
    struct timespec t;
    clock_gettime(CLOCK_MONOTONIC, &t);
    return (uint64_t)t.tv_sec * 1000000000 + (uint64_t)t.tv_nsec;
}

/* Makes the association of an end. */
static void begin(struct end *end, const struct sockaddr_in *peer) {
    sctp_assoc_identity identity;
    done(sctp_assoc_random_identity(&identity));
    done((is_client ? sctp_assoc_client : sctp_assoc_server)(&end->slot, &config, MAX_PAYLOAD_SIZE, &identity, now()));
    end->peer = *peer;
    end->is_up = false;
    end->heard = now();
}

static bool is_live(struct end *end) {
    bool answer;
    return sctp_assoc_is_closed(&end->slot, &answer) == SCTP_ASSOC_DONE;
}

/* The client's message with this number, in both of its ways. Answers its length. */
static size_t message(unsigned long number, uint8_t *bytes) {
    size_t length = 1 + number * 977 % 8192;
    for (size_t i = 0; i < length; i++)
        bytes[i] = (uint8_t)(number + i);
    return length;
}

/* Whether neither side has begun to end the association. */
static bool is_established(struct end *end) {
    return sctp_assoc_is_established(&end->slot);
}

static void send_more(struct end *end) {
    uint8_t bytes[8192];
    for (; sent < count && sent < echoed + ON_THE_WAY; sent++)
        done(sctp_assoc_write(&end->slot, STREAM, SCTP_ASSOC_PPID_OF_STREAM, bytes, message(sent, bytes)));
}

/* A server sends a message back, unless the stream has ended meanwhile, the client shuts down, or the message is empty,
 * as it comes from a peer that breaks the rules. */
static void send_back(struct end *end, uint16_t stream, uint32_t type, const uint8_t *bytes, size_t length) {
    sctp_assoc_code code = sctp_assoc_write(&end->slot, stream, type, bytes, length);
    if (code != SCTP_ASSOC_RESET_PENDING && code != SCTP_ASSOC_NO_STREAM && code != SCTP_ASSOC_NOT_ESTABLISHED &&
        code != SCTP_ASSOC_EMPTY_MESSAGE)
        done(code);
}

/* A stream that ended is read no more. */
static bool read_one(struct end *end, uint16_t stream, uint8_t *bytes, size_t room, size_t *length, uint32_t *type) {
    sctp_assoc_code code = sctp_assoc_read(&end->slot, stream, bytes, room, length, type);
    return code != SCTP_ASSOC_NO_STREAM && done(code);
}

/* A server sends each message back; a client looks at it, and closes the stream after the last one. */
static void read_all(struct end *end, uint16_t stream) {
    static uint8_t bytes[65536], wanted[8192];
    size_t length;
    uint32_t type;
    while (read_one(end, stream, bytes, sizeof bytes, &length, &type)) {
        if (!is_client)
            send_back(end, stream, type, bytes, length);
        else if (message(echoed++, wanted) != length || memcmp(wanted, bytes, length) != 0)
            errx(1, "another message came back than that with the number %lu", echoed - 1);
    }
    if (!is_client || !is_established(end))
        return;
    if (echoed == count)
        done(sctp_assoc_close_stream(&end->slot, stream));
    else
        send_more(end);
}

/* From now on this side ends, and does not wait for ever. */
static void begin_to_end(void) {
    is_ending = true;
    end_until = now() + END_WITHIN * SECOND;
}

static void on_client_event(struct end *end, const sctp_assoc_event *event) {
    if (event->kind == SCTP_ASSOC_EVENT_CONNECTED) {
        end->is_up = true;
        done(sctp_assoc_open_stream(&end->slot, STREAM, SCTP_ASSOC_PPID_BINARY));
        send_more(end);
    } else if (event->kind == SCTP_ASSOC_EVENT_READABLE && echoed < count) {
        read_all(end, event->stream);
    } else if (is_ending) {
        return; /* what else comes belongs to the end */
    } else if (event->kind == SCTP_ASSOC_EVENT_RESET_COMPLETE) {
        done(sctp_assoc_shutdown(&end->slot));
        begin_to_end();
    } else if (event->kind == SCTP_ASSOC_EVENT_RESET_FAILED) {
        errx(1, "the stream was not reset: %s", sctp_assoc_reason_name(event->reason));
    } else if (event->kind == SCTP_ASSOC_EVENT_LOST || event->kind == SCTP_ASSOC_EVENT_HANDSHAKE_FAILED) {
        errx(1, "the association ended: %s", sctp_assoc_reason_name(event->reason));
    }
}

/* Each stream that the peer opens is taken from the list of those that wait to be accepted, or the list would grow. */
static void on_server_event(struct end *end, const sctp_assoc_event *event) {
    uint16_t opened;
    if (event->kind == SCTP_ASSOC_EVENT_CONNECTED)
        end->is_up = true;
    else if (event->kind == SCTP_ASSOC_EVENT_OPENED)
        done(sctp_assoc_accept_stream(&end->slot, &opened));
    else if (event->kind == SCTP_ASSOC_EVENT_READABLE)
        read_all(end, event->stream);
}

/* Answers whether there was any. */
static bool take_events(struct end *end) {
    sctp_assoc_event event;
    bool any = false;
    for (; done(sctp_assoc_poll_event(&end->slot, &event)); any = true)
        (is_client ? on_client_event : on_server_event)(end, &event);
    return any;
}

/* Sends what is due. Most datagrams have up to MAX_PAYLOAD_SIZE and 28 bytes; one that names many gaps or streams may
 * have more, and the network then carries it in parts. */
static void send_all(struct end *end) {
    static uint8_t datagram[SCTP_ASSOC_MAX_DATAGRAM];
    size_t length;
    while (done(sctp_assoc_poll_transmit(&end->slot, now(), datagram, sizeof datagram, &length)))
        sendto(udp, datagram, length, 0, (struct sockaddr *)&end->peer, sizeof end->peer);
}

/* A server lets an association go. The one beside it, if there is any, takes its place. */
static void let_go(struct end *end) {
    if (end->is_up)
        puts("an association ended");
    fflush(stdout);
    done(sctp_assoc_free(&end->slot));
    if (end >= ends + CLIENTS)
        return;
    *end = end[CLIENTS]; /* a slot may be moved */
    end[CLIENTS].slot = (sctp_assoc)SCTP_ASSOC_EMPTY;
}

/* What is due at an end, until there is neither an event nor a datagram: each may bring the other. A server lets an
 * association go that is over. */
static void serve(struct end *end) {
    take_events(end);
    do
        send_all(end);
    while (take_events(end));
    if (!is_client && sctp_assoc_is_drained(&end->slot))
        let_go(end);
}

static struct end *find(const struct sockaddr_in *from) {
    for (struct end *end = ends; end < ends + CLIENTS; end++)
        if (is_live(end) && end->peer.sin_addr.s_addr == from->sin_addr.s_addr && end->peer.sin_port == from->sin_port)
            return end;
    return NULL;
}

/* A place for one more client: a free one, or else that of the client that was silent longest of those whose handshake
 * isn't done or that were silent for long. */
static struct end *place(void) {
    struct end *oldest = NULL;
    for (struct end *end = ends; end < ends + CLIENTS; end++) {
        if (!is_live(end))
            return end;
        if ((!end->is_up || now() - end->heard > SILENT * SECOND) && (!oldest || end->heard < oldest->heard))
            oldest = end;
    }
    return oldest;
}

/* A stranger gets a place only by a packet that a server answers: an INIT, whole and with the right checksum. So it is
 * handed to an association of its own first, and whoever is served goes on being served. */
static void meet(const struct sockaddr_in *from, const uint8_t *datagram, size_t length, struct end *chosen) {
    static uint8_t answer[SCTP_ASSOC_MAX_DATAGRAM];
    struct end stranger = {.slot = SCTP_ASSOC_EMPTY};
    uint32_t fate;
    if (!chosen || length <= 12 || datagram[12] != 1) /* the type of the first chunk; 1 is INIT */
        return;
    begin(&stranger, from);
    done(sctp_assoc_handle_datagram(&stranger.slot, now(), datagram, length, &fate));
    if (!done(sctp_assoc_poll_transmit(&stranger.slot, now(), answer, sizeof answer, &length))) {
        done(sctp_assoc_free(&stranger.slot));
        return;
    }
    sendto(udp, answer, length, 0, (const struct sockaddr *)from, sizeof *from);
    while (is_live(chosen))
        let_go(chosen);
    *chosen = stranger;
}

/* Hands a datagram in, and does what is due then. Answers what became of it. */
static uint32_t hand_in(struct end *end, const uint8_t *datagram, size_t length) {
    uint32_t fate;
    done(sctp_assoc_handle_datagram(&end->slot, now(), datagram, length, &fate));
    if (fate == SCTP_ASSOC_TAKEN)
        end->heard = now();
    serve(end);
    return fate;
}

/* A client that begins anew, as after a crash, is answered by an association beside its old one. That goes on being
 * served, as an INIT can be forged, and is let go once the new handshake is done. An INIT that comes meanwhile goes to
 * the one beside it, too: a copy is answered as the first one was, and a newer one takes its place. */
static void receive(const struct sockaddr_in *from, const uint8_t *datagram, size_t length) {
    struct end *end = find(from);
    uint32_t fate = end ? hand_in(end, datagram, length) : SCTP_ASSOC_OTHER_INIT;
    if (is_client || (fate != SCTP_ASSOC_OTHER_INIT && fate != SCTP_ASSOC_OTHER_TAG))
        return; /* it was for this association, or is for none */
    if (end && is_live(end + CLIENTS)) {
        hand_in(end + CLIENTS, datagram, length);
        if (end[CLIENTS].is_up)
            let_go(end);
    } else if (fate == SCTP_ASSOC_OTHER_INIT && !is_ending) {
        meet(from, datagram, length, end ? end + CLIENTS : place());
    }
}

static void receive_all(void) {
    static uint8_t datagram[65536];
    struct sockaddr_in from;
    socklen_t size = sizeof from;
    ssize_t length;
    while ((length = recvfrom(udp, datagram, sizeof datagram, MSG_DONTWAIT, (struct sockaddr *)&from, &size)) >= 0)
        receive(&from, datagram, (size_t)length);
}

/* The next moment at which a timer of any association expires, or the end has to be; UINT64_MAX if there is none. */
static uint64_t next_due(void) {
    uint64_t next = is_ending ? end_until : UINT64_MAX, due;
    for (struct end *end = ends; end < ends + PLACES; end++)
        if (sctp_assoc_poll_timeout(&end->slot, &due) == SCTP_ASSOC_DONE && due < next)
            next = due;
    return next;
}

/* Until a datagram comes, a timer expires, or Ctrl-C. */
static void wait_for_any(void) {
    uint64_t due = next_due(), at = now(), left = due > at ? due - at : 0;
    struct timespec limit = {.tv_sec = (time_t)(left / SECOND), .tv_nsec = (long)(left % SECOND)};
    struct pollfd ready = {.fd = udp, .events = POLLIN};
    ppoll(&ready, 1, due == UINT64_MAX ? NULL : &limit, &while_waiting);
}

static void meet_timers(void) {
    uint64_t due;
    for (struct end *end = ends; end < ends + PLACES; end++) {
        if (sctp_assoc_poll_timeout(&end->slot, &due) == SCTP_ASSOC_DONE && due <= now()) {
            done(sctp_assoc_handle_timeout(&end->slot, now()));
            serve(end);
        }
    }
}

/* At Ctrl-C: what is up is shut down, and what is not yet is freed, as all that is beside another one. */
static void meet_interrupt(void) {
    if (!is_interrupted || is_ending)
        return;
    begin_to_end();
    for (size_t place = PLACES; place-- > 0;) {
        struct end *end = &ends[place];
        if (!is_live(end))
            continue;
        if (end->is_up) {
            sctp_assoc_shutdown(&end->slot); /* refused if the peer has begun to, and then that goes on */
            serve(end);
        } else {
            done(sctp_assoc_free(&end->slot));
        }
    }
}

static bool is_any_left(void) {
    for (struct end *end = ends; end < ends + PLACES; end++)
        if (!sctp_assoc_is_drained(&end->slot))
            return true;
    return false;
}

/* A server goes on until Ctrl-C. Both sides end once all their associations are over, and do not wait for ever. */
static bool goes_on(void) {
    bool is_left = is_any_left();
    if (is_ending && is_left && now() > end_until)
        errx(1, "the shutdown was not answered within %d seconds", END_WITHIN);
    return is_left || (!is_client && !is_ending);
}

static void on_interrupt(int signal) {
    is_interrupted = signal == SIGINT;
}

/* Ctrl-C is taken in where the program waits, and nowhere else. A second one does what it does to any program. */
static void take_interrupt(void) {
    const struct sigaction once = {.sa_handler = on_interrupt, .sa_flags = SA_RESETHAND};
    sigset_t interrupt;
    sigemptyset(&interrupt);
    sigaddset(&interrupt, SIGINT);
    sigprocmask(SIG_BLOCK, &interrupt, &while_waiting);
    sigdelset(&while_waiting, SIGINT);
    sigaction(SIGINT, &once, NULL);
}

static void print_port(void) {
    struct sockaddr_in own;
    socklen_t size = sizeof own;
    if (getsockname(udp, (struct sockaddr *)&own, &size) != 0)
        err(1, "no port");
    printf("serving on port %u\n", (unsigned)ntohs(own.sin_port));
    fflush(stdout);
}

/* A number of the command line. */
static unsigned long number_in(const char *word, unsigned long least, unsigned long most) {
    char *end;
    errno = 0;
    unsigned long number = strtoul(word, &end, 10);
    if (*word < '0' || *word > '9' || *end || errno != 0 || number < least || number > most)
        errx(2, "%s is no number from %lu to %lu", word, least, most);
    return number;
}

static struct sockaddr_in address_of(const char *address, unsigned long port) {
    struct sockaddr_in at = {.sin_family = AF_INET, .sin_port = htons((uint16_t)port)};
    if (inet_pton(AF_INET, address, &at.sin_addr) != 1)
        errx(2, "%s is no IPv4 address", address);
    return at;
}

int main(int argc, char **argv) {
    is_client = argc == 5 && strcmp(argv[1], "client") == 0;
    if (!is_client && (argc != 3 || strcmp(argv[1], "server") != 0)) {
        fprintf(stderr, "usage: echo server PORT | echo client ADDRESS PORT COUNT\n");
        return 2;
    }
    struct sockaddr_in own = address_of("0.0.0.0", is_client ? 0 : number_in(argv[2], 0, UINT16_MAX));
    udp = socket(AF_INET, SOCK_DGRAM, 0);
    if (udp < 0 || bind(udp, (struct sockaddr *)&own, sizeof own) != 0)
        err(1, "no UDP socket");
    take_interrupt();
    done(sctp_assoc_default_config(&config));
    if (is_client) {
        struct sockaddr_in peer = address_of(argv[2], number_in(argv[3], 1, UINT16_MAX));
        count = number_in(argv[4], 1, UINT32_MAX);
        begin(&ends[0], &peer);
        serve(&ends[0]);
    } else {
        print_port();
    }
    while (goes_on()) {
        wait_for_any();
        meet_interrupt();
        meet_timers();
        receive_all();
    }
    if (echoed < count)
        errx(1, "Ctrl-C after %lu messages came back", echoed);
    if (is_client)
        printf("%lu messages came back, the stream ended at both sides, and so did the association\n", echoed);
    return is_client && !done(sctp_assoc_free(&ends[0].slot)) ? 1 : 0;
}
