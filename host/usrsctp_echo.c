/* usrsctp over UDP (RFC 6951), beside examples/echo.c: a server that echoes, or a client that sends COUNT messages of 1
 * to 8,192 bytes, looks at what comes back, resets the stream and shuts the association down. The server resets its half
 * of a stream once the peer reset the other one (RFC 8831 section 6.7), and ends with its association. LOSS of 1,000
 * datagrams are lost, each way.
 *
 *   usrsctp_echo server PORT LOSS           at 127.0.0.1; it prints its port, one that is free if PORT is 0
 *   usrsctp_echo client PORT LOSS COUNT     to PORT at 127.0.0.1
 */
#define _GNU_SOURCE
#include <arpa/inet.h>
#include <errno.h>
#include <poll.h>
#include <stdarg.h>
#include <stdbool.h>
#include <stdint.h>
#include <stdio.h>
#include <stdlib.h>
#include <string.h>
#include <sys/socket.h>
#include <time.h>
#include <unistd.h>
#include <usrsctp.h>

#define PORT 5000
#define STREAM 1
#define ON_THE_WAY 10
#define MAX_MESSAGE 8192

/* A message that waits to be sent back. */
struct message {
    struct message *next;
    size_t length;
    uint16_t stream;
    uint8_t bytes[];
};

static char link_name; /* its address names the link to usrsctp */
static int udp, loss;
static struct sockaddr_in peer;
static bool is_client, is_up, is_over;
static bool peer_half_is_reset, own_half_is_reset, reset_is_due, reset_is_asked; /* of STREAM */
static unsigned long count, sent, echoed;
static struct message *waiting, **waiting_end = &waiting;
static uint8_t coming[MAX_MESSAGE];
static size_t came;
static uint32_t random_state = 7;

static void stop(const char *what) {
    perror(what);
    exit(1);
}

static bool is_lost(void) {
    random_state ^= random_state << 13;
    random_state ^= random_state >> 17;
    random_state ^= random_state << 5;
    return random_state % 1000 < (uint32_t)loss;
}

static uint64_t now_ms(void) {
    struct timespec t;
    clock_gettime(CLOCK_MONOTONIC, &t);
    return (uint64_t)t.tv_sec * 1000 + (uint64_t)t.tv_nsec / 1000000;
}

/* The message with this number, as examples/echo.c makes it. */
static size_t message(unsigned long number, uint8_t *bytes) {
    size_t length = 1 + number * 977 % MAX_MESSAGE;
    for (size_t i = 0; i < length; i++)
        bytes[i] = (uint8_t)(number + i);
    return length;
}

static void quiet(const char *format, ...) { (void)format; }

static int on_packet(void *address, void *bytes, size_t length, uint8_t tos, uint8_t df) {
    (void)address, (void)tos, (void)df;
    if (!is_lost())
        sendto(udp, bytes, length, 0, (struct sockaddr *)&peer, sizeof peer);
    return 0;
}

static void on_message(uint16_t stream) {
    static uint8_t wanted[MAX_MESSAGE];
    if (is_client) {
        if (message(echoed++, wanted) != came || memcmp(wanted, coming, came) != 0)
            stop("another message came back");
        return;
    }
    struct message *back = malloc(sizeof *back + came);
    if (!back)
        stop("malloc");
    *back = (struct message){.length = came, .stream = stream};
    memcpy(back->bytes, coming, came);
    *waiting_end = back;
    waiting_end = &back->next;
}

static void on_reset(uint16_t flags) {
    if (flags & (SCTP_STREAM_RESET_DENIED | SCTP_STREAM_RESET_FAILED))
        stop("a reset failed");
    peer_half_is_reset |= (flags & SCTP_STREAM_RESET_INCOMING_SSN) != 0;
    own_half_is_reset |= (flags & SCTP_STREAM_RESET_OUTGOING_SSN) != 0;
    reset_is_due |= !is_client && !reset_is_asked && (flags & SCTP_STREAM_RESET_INCOMING_SSN);
}

static int on_receive(struct socket *socket, union sctp_sockstore from, void *data, size_t length,
                      struct sctp_rcvinfo info, int flags, void *none) {
    (void)socket, (void)from, (void)none;
    if (!data)
        return 1;
    if (flags & MSG_NOTIFICATION) {
        const union sctp_notification *told = data;
        if (told->sn_header.sn_type == SCTP_ASSOC_CHANGE) {
            is_up = told->sn_assoc_change.sac_state == SCTP_COMM_UP;
            is_over = !is_up;
        } else if (told->sn_header.sn_type == SCTP_STREAM_RESET_EVENT) {
            on_reset(told->sn_strreset_event.strreset_flags);
        }
    } else {
        if (came + length > sizeof coming)
            stop("a message is too long");
        memcpy(coming + came, data, length); /* it may come in parts */
        came += length;
        if (flags & MSG_EOR) {
            on_message(info.rcv_sid);
            came = 0;
        }
    }
    free(data);
    return 1;
}

static struct socket *new_socket(void) {
    struct socket *made = usrsctp_socket(AF_CONN, SOCK_STREAM, IPPROTO_SCTP, on_receive, NULL, 0, NULL);
    struct sctp_event change = {.se_assoc_id = SCTP_ALL_ASSOC, .se_on = 1, .se_type = SCTP_ASSOC_CHANGE};
    struct sctp_event reset = {.se_assoc_id = SCTP_ALL_ASSOC, .se_on = 1, .se_type = SCTP_STREAM_RESET_EVENT};
    struct sctp_assoc_value resets = {.assoc_id = SCTP_ALL_ASSOC, .assoc_value = SCTP_ENABLE_RESET_STREAM_REQ};
    struct sockaddr_conn own = {.sconn_family = AF_CONN, .sconn_port = htons(PORT), .sconn_addr = &link_name};
    if (!made || usrsctp_setsockopt(made, IPPROTO_SCTP, SCTP_EVENT, &change, sizeof change) < 0 ||
        usrsctp_setsockopt(made, IPPROTO_SCTP, SCTP_EVENT, &reset, sizeof reset) < 0 ||
        usrsctp_setsockopt(made, IPPROTO_SCTP, SCTP_ENABLE_STREAM_RESET, &resets, sizeof resets) < 0 ||
        usrsctp_bind(made, (struct sockaddr *)&own, sizeof own) < 0)
        stop("usrsctp_socket");
    usrsctp_set_non_blocking(made, 1);
    return made;
}

static bool send_message(struct socket *socket, uint16_t stream, const uint8_t *bytes, size_t length) {
    struct sctp_sndinfo how = {.snd_sid = stream, .snd_ppid = htonl(53), .snd_flags = SCTP_EOR};
    if (usrsctp_sendv(socket, bytes, length, NULL, 0, &how, sizeof how, SCTP_SENDV_SNDINFO, 0) >= 0)
        return true;
    if (errno != EWOULDBLOCK && errno != ENOTCONN && errno != ECONNRESET)
        stop("usrsctp_sendv");
    return false;
}

static void send_what_waits(struct socket *socket) {
    static uint8_t bytes[MAX_MESSAGE];
    while (is_client && sent < count && sent < echoed + ON_THE_WAY) {
        if (!send_message(socket, STREAM, bytes, message(sent, bytes)))
            return;
        sent++;
    }
    while (waiting && send_message(socket, waiting->stream, waiting->bytes, waiting->length)) {
        struct message *done = waiting;
        waiting = done->next;
        if (!waiting)
            waiting_end = &waiting;
        free(done);
    }
}

/* Asks for a reset of the own half of the stream, once: if datagrams are lost, that the peer reset its half may be
 * told again when the association is already closing. If an earlier request is open it stays due. */
static void reset_stream(struct socket *socket) {
    _Alignas(struct sctp_reset_streams) uint8_t room[sizeof(struct sctp_reset_streams) + sizeof(uint16_t)] = {0};
    struct sctp_reset_streams *which = (struct sctp_reset_streams *)room;
    which->srs_flags = SCTP_STREAM_RESET_OUTGOING;
    which->srs_number_streams = 1;
    which->srs_stream_list[0] = STREAM;
    reset_is_asked = usrsctp_setsockopt(socket, IPPROTO_SCTP, SCTP_RESET_STREAMS, which, sizeof room) >= 0;
    reset_is_due = !reset_is_asked;
    if (reset_is_due && errno != EALREADY && errno != EAGAIN)
        stop("usrsctp_setsockopt");
}

/* Hands in what came within some milliseconds, and the time that passed. */
static void go_on(void) {
    static uint64_t last;
    static uint8_t datagram[65536];
    struct pollfd ready = {.fd = udp, .events = POLLIN};
    struct sockaddr_in from;
    socklen_t size = sizeof from;
    ssize_t length;
    poll(&ready, 1, 5);
    while ((length = recvfrom(udp, datagram, sizeof datagram, MSG_DONTWAIT, (struct sockaddr *)&from, &size)) >= 0) {
        if (!is_client)
            peer = from;
        if (!is_lost())
            usrsctp_conninput(&link_name, datagram, (size_t)length, 0);
    }
    uint64_t now = now_ms();
    if (last != 0)
        usrsctp_handle_timers((uint32_t)(now - last));
    last = now;
}

static int serve(void) {
    struct socket *listener = new_socket(), *accepted = NULL;
    if (usrsctp_listen(listener, 1) < 0)
        stop("usrsctp_listen");
    for (go_on(); !is_over; go_on()) {
        if (!accepted && (accepted = usrsctp_accept(listener, NULL, NULL)))
            usrsctp_set_non_blocking(accepted, 1);
        if (accepted)
            send_what_waits(accepted);
        if (accepted && reset_is_due && !waiting)
            reset_stream(accepted);
    }
    puts("usrsctp: an association ended");
    return 0;
}

static int be_client(void) {
    struct socket *socket = new_socket();
    struct sockaddr_conn to = {.sconn_family = AF_CONN, .sconn_port = htons(PORT), .sconn_addr = &link_name};
    if (usrsctp_connect(socket, (struct sockaddr *)&to, sizeof to) < 0 && errno != EINPROGRESS)
        stop("usrsctp_connect");
    while (echoed < count && !is_over) {
        go_on();
        if (is_up)
            send_what_waits(socket);
    }
    for (reset_is_due = true; !(peer_half_is_reset && own_half_is_reset) && !is_over; go_on())
        if (reset_is_due)
            reset_stream(socket);
    bool is_reset = peer_half_is_reset && own_half_is_reset;
    usrsctp_shutdown(socket, SHUT_WR);
    for (uint64_t until = now_ms() + 60000; !is_over && now_ms() < until;)
        go_on();
    printf("usrsctp: %lu messages came back%s%s\n", echoed, is_reset ? ", the stream ended at both sides" : "",
           is_over ? ", and so did the association" : "");
    return echoed == count && is_reset && is_over ? 0 : 1;
}

static void print_port(void) {
    struct sockaddr_in own;
    socklen_t size = sizeof own;
    if (getsockname(udp, (struct sockaddr *)&own, &size) != 0)
        stop("getsockname");
    printf("serving on port %u\n", (unsigned)ntohs(own.sin_port));
    fflush(stdout);
}

int main(int argc, char **argv) {
    is_client = argc == 5 && strcmp(argv[1], "client") == 0;
    if (!is_client && (argc != 4 || strcmp(argv[1], "server") != 0))
        return fprintf(stderr, "usage: usrsctp_echo server PORT LOSS | usrsctp_echo client PORT LOSS COUNT\n"), 2;
    struct sockaddr_in at = {.sin_family = AF_INET, .sin_port = htons((uint16_t)atoi(argv[2]))};
    at.sin_addr.s_addr = htonl(INADDR_LOOPBACK);
    loss = atoi(argv[3]);
    udp = socket(AF_INET, SOCK_DGRAM, 0);
    if (is_client) {
        peer = at;
        count = strtoul(argv[4], NULL, 10);
    } else if (udp < 0 || bind(udp, (struct sockaddr *)&at, sizeof at) != 0) {
        stop("bind");
    }
    if (!is_client)
        print_port();
    usrsctp_init_nothreads(0, on_packet, quiet);
    usrsctp_sysctl_set_sctp_blackhole(2);
    usrsctp_register_address(&link_name);
    if (is_client)
        return be_client();
    return serve();
}
