/*
 * A chat by a data channel (RFC 8831, RFC 8832) between two UDP sockets of this machine (RFC 6951): each line of the
 * standard input goes as a text, and each text that comes is printed. One side waits, the other connects and opens the
 * channel. The end of either side's input, or Ctrl-C, ends the chat at both, once all that was said was sent and
 * acknowledged; a second Ctrl-C ends the program at once. docs/GUIDE.md explains the calls.
 *
 *   ./library channels            builds the archive, once; a release has it in lib/, not in out/
 *   cc -O2 -Iinclude -o chat examples/chat.c out/libsctp_channels.a
 *   ./chat serve                  takes a free port, and prints which
 *   ./chat connect 9899
 */
#define _GNU_SOURCE
#include "sctp_channels.h"

#include <arpa/inet.h>
#include <err.h>
#include <errno.h>
#include <poll.h>
#include <signal.h>
#include <stdio.h>
#include <stdlib.h>
#include <string.h>
#include <time.h>
#include <unistd.h>

#define SECOND UINT64_C(1000000000)
#define MAX_PAYLOAD_SIZE 1172 /* fits links of 1280 bytes, below UDP and IPv6 */
#define MAX_TEXT 65536        /* bytes; no longer message is sent or comes, as the association is configured */
#define MAX_BUFFERED 100000   /* bytes that may wait to be acknowledged before more input is read */
#define END_WITHIN 20         /* seconds that a shutdown may take; a peer that is gone never answers it */

static sctp_peer side;
static sctp_assoc_watch watch; /* says why its association ended */
static uint16_t channel;       /* where it is open */
static bool is_client, is_up, is_open, is_ending;
static uint64_t end_until; /* where it is ending */
static int udp;
static struct sockaddr_in peer; /* of a server, once a client came */
static volatile sig_atomic_t is_interrupted;
static sigset_t while_waiting; /* the signals that are blocked then: not that of Ctrl-C */

/* Ends the program at a code that it does not go on with. Answers whether the call was done. */
static bool done(sctp_assoc_code code) {
    if (code != SCTP_ASSOC_DONE && code != SCTP_ASSOC_NOTHING)
        errx(1, "a call answered %s", sctp_channels_code_name(code));
    return code == SCTP_ASSOC_DONE;
}

static uint64_t now(void) {
    struct timespec t;
    clock_gettime(CLOCK_MONOTONIC, &t);
    return (uint64_t)t.tv_sec * SECOND + (uint64_t)t.tv_nsec;
}

/* Makes the association and its channels. A client's own channel is opened once the handshake is done. */
static void begin(void) {
    const sctp_channels_options ordered_reliable = SCTP_CHANNELS_ORDERED_RELIABLE;
    sctp_assoc_config config;
    sctp_assoc_identity identity;
    done(sctp_assoc_default_config(&config));
    done(sctp_assoc_random_identity(&identity));
    done((is_client ? sctp_assoc_client : sctp_assoc_server)(&side.assoc, &config, MAX_PAYLOAD_SIZE, &identity, now()));
    done(sctp_channels_begin(&side, is_client ? SCTP_CHANNELS_CLIENT : SCTP_CHANNELS_SERVER));
    if (is_client)
        done(sctp_channels_open(&side, &ordered_reliable, (const uint8_t *)"chat", 4, NULL, 0, &channel));
}

static void print_all(uint16_t id) {
    static uint8_t text[MAX_TEXT];
    sctp_assoc_code code;
    size_t length;
    bool is_text;
    while ((code = sctp_channels_receive(&side, id, text, sizeof text, &length, &is_text)) == SCTP_CHANNELS_OTHER ||
           done(code))
        if (fwrite(text, 1, length, stdout) != length || putchar('\n') == EOF)
            err(1, "no output");
    fflush(stdout);
}

/* Whether messages can be sent: neither side has begun to end. */
static bool can_send(void) {
    return sctp_assoc_is_established(&side.assoc) && is_open;
}

/* Ends the association, once all that either side accepted is acknowledged. If the peer has begun to, that goes on. */
static void end(void) {
    if (sctp_assoc_shutdown(&side.assoc) != SCTP_ASSOC_DONE)
        return;
    is_ending = true;
    end_until = now() + END_WITHIN * SECOND;
}

/* The first channel that opens is that of the chat. */
static void take_channel(uint16_t id) {
    if (!is_open)
        channel = id;
    is_open = true;
}

static void on_event(const sctp_channels_event *event) {
    if (event->kind == SCTP_CHANNELS_EVENT_CONNECTED)
        is_up = true;
    else if (event->kind == SCTP_CHANNELS_EVENT_HANDSHAKE_FAILED)
        errx(1, "nobody answered: %s", sctp_assoc_reason_name(event->reason));
    else if (event->kind == SCTP_CHANNELS_EVENT_FAILED && is_client)
        errx(1, "no channel was begun on the stream %u", event->id);
    else if (event->kind == SCTP_CHANNELS_EVENT_OPENED || event->kind == SCTP_CHANNELS_EVENT_ANNOUNCED)
        take_channel(event->id);
    else if (event->kind == SCTP_CHANNELS_EVENT_MESSAGE)
        print_all(event->id);
    else if (event->kind == SCTP_CHANNELS_EVENT_CLOSED && is_open && event->id == channel)
        end();
}

/* Answers whether there was any. */
static bool take_events(void) {
    sctp_channels_event event;
    bool any = false;
    for (; done(sctp_channels_poll_event(&side, &event)); any = true)
        on_event(&event);
    return any;
}

/* Sends what is due. */
static void send_all(void) {
    static uint8_t datagram[SCTP_ASSOC_MAX_DATAGRAM];
    size_t length;
    while (done(sctp_assoc_watched_poll_transmit(&side.assoc, &watch, now(), datagram, sizeof datagram, &length)))
        sendto(udp, datagram, length, 0, (struct sockaddr *)&peer, sizeof peer);
}

/* Until there is neither an event nor a datagram: each may bring the other. */
static void serve(void) {
    take_events();
    do
        send_all();
    while (take_events());
}

/* A server's peer is whoever comes, until a handshake is done. */
static void receive_all(void) {
    static uint8_t datagram[65536];
    struct sockaddr_in from;
    socklen_t size = sizeof from;
    ssize_t length;
    uint32_t fate;
    while ((length = recvfrom(udp, datagram, sizeof datagram, MSG_DONTWAIT, (struct sockaddr *)&from, &size)) >= 0) {
        bool is_peer = from.sin_addr.s_addr == peer.sin_addr.s_addr && from.sin_port == peer.sin_port;
        if (!is_peer && (is_client || is_up))
            continue;
        done(sctp_assoc_watched_handle_datagram(&side.assoc, &watch, now(), datagram, (size_t)length, &fate));
        if (fate == SCTP_ASSOC_TAKEN)
            peer = from;
        serve();
    }
}

static void say(const uint8_t *text, size_t length) {
    done(sctp_channels_send(&side, channel, true, text, length));
}

/* Says the lines that are whole. The end of the input ends the last one, and the chat. */
static void take_input(void) {
    static uint8_t text[MAX_TEXT + 1];
    static size_t length;
    uint8_t *line_end;
    ssize_t came = read(STDIN_FILENO, text + length, sizeof text - length);
    if (came < 0)
        err(1, "no input");
    length += (size_t)came;
    while ((line_end = memchr(text, '\n', length))) {
        say(text, (size_t)(line_end - text));
        length -= (size_t)(line_end + 1 - text);
        memmove(text, line_end + 1, length);
    }
    if (length == sizeof text)
        errx(1, "a line has more bytes than %d", MAX_TEXT);
    if (came > 0)
        return;
    if (length > 0)
        say(text, length);
    end();
}

/* Whether the input is to be read: not before the channel is open, nor while much waits to be acknowledged. */
static bool wants_input(void) {
    size_t buffered;
    return can_send() && done(sctp_channels_buffered_amount(&side, channel, &buffered)) && buffered < MAX_BUFFERED;
}

/* The next moment at which a timer expires, or the end has to be; UINT64_MAX if there is none. */
static uint64_t next_due(void) {
    uint64_t next = is_ending ? end_until : UINT64_MAX, due;
    return done(sctp_assoc_poll_timeout(&side.assoc, &due)) && due < next ? due : next;
}

/* Until a datagram or input comes, a timer expires, or Ctrl-C. Takes the input. */
static void wait_for_any(void) {
    uint64_t due = next_due(), at = now(), left = due > at ? due - at : 0;
    struct timespec limit = {.tv_sec = (time_t)(left / SECOND), .tv_nsec = (long)(left % SECOND)};
    int input = wants_input() ? STDIN_FILENO : -1;
    struct pollfd ready[] = {{.fd = udp, .events = POLLIN}, {.fd = input, .events = POLLIN}};
    if (ppoll(ready, 2, due == UINT64_MAX ? NULL : &limit, &while_waiting) > 0 && ready[1].revents)
        take_input();
}

/* Ctrl-C ends the chat as the end of the input does. */
static void meet_interrupt(void) {
    if (!is_interrupted || is_ending)
        return;
    if (!is_up)
        errx(1, "Ctrl-C before anybody came");
    end();
}

static void meet_timer(void) {
    uint64_t due;
    if (done(sctp_assoc_poll_timeout(&side.assoc, &due)) && due <= now())
        done(sctp_assoc_watched_handle_timeout(&side.assoc, &watch, now()));
}

/* Until the association has ended, but not for ever. */
static bool goes_on(void) {
    bool is_over = sctp_assoc_is_drained(&side.assoc);
    if (is_ending && !is_over && now() > end_until)
        errx(1, "the end was not answered within %d seconds", END_WITHIN);
    return !is_over;
}

static void on_interrupt(int signal) {
    is_interrupted = signal == SIGINT;
}

/* Ctrl-C is taken in where the program waits, and nowhere else. A second one does what it does to any program. */
static void take_interrupt(void) {
    const struct sigaction once = {.sa_handler = on_interrupt, .sa_flags = SA_RESETHAND};
    sigset_t interrupt;
    sigemptyset(&interrupt);
    sigaddset(&interrupt, SIGINT);
    sigprocmask(SIG_BLOCK, &interrupt, &while_waiting);
    sigdelset(&while_waiting, SIGINT);
    sigaction(SIGINT, &once, NULL);
}

/* A number of the command line. */
static unsigned long number_in(const char *word, unsigned long least, unsigned long most) {
    char *word_end;
    errno = 0;
    unsigned long number = strtoul(word, &word_end, 10);
    if (*word < '0' || *word > '9' || *word_end || errno != 0 || number < least || number > most)
        errx(2, "%s is no number from %lu to %lu", word, least, most);
    return number;
}

/* A socket of this machine alone, as what goes over it is not encrypted. */
static void open_socket(void) {
    struct sockaddr_in own = {.sin_family = AF_INET, .sin_addr.s_addr = htonl(INADDR_LOOPBACK)};
    socklen_t size = sizeof own;
    udp = socket(AF_INET, SOCK_DGRAM, 0);
    if (udp < 0 || bind(udp, (struct sockaddr *)&own, sizeof own) != 0 ||
        getsockname(udp, (struct sockaddr *)&own, &size) != 0)
        err(1, "no UDP socket");
    if (!is_client)
        printf("serving on port %u\n", (unsigned)ntohs(own.sin_port));
    fflush(stdout);
}

int main(int argc, char **argv) {
    is_client = argc == 3 && strcmp(argv[1], "connect") == 0;
    if (!is_client && (argc != 2 || strcmp(argv[1], "serve") != 0)) {
        fprintf(stderr, "usage: chat serve | chat connect PORT\n");
        return 2;
    }
    peer.sin_family = AF_INET;
    peer.sin_addr.s_addr = htonl(INADDR_LOOPBACK);
    if (is_client)
        peer.sin_port = htons((uint16_t)number_in(argv[2], 1, UINT16_MAX));
    open_socket();
    take_interrupt();
    begin();
    serve();
    while (goes_on()) {
        wait_for_any();
        meet_interrupt();
        meet_timer();
        receive_all();
        serve();
    }
    done(sctp_peer_free(&side));
    if (watch.end != SCTP_ASSOC_END_SHUT_DOWN)
        errx(1, "the chat ended: %s", sctp_assoc_end_name(watch.end));
    return 0;
}
