/* The cases of the benchmark by usrsctp: two of its endpoints in one process and one thread, joined in memory.
 *
 *   usrsctp CASE COUNT SIZE     small, packet, large, unordered, lossy, handshake or memory
 *
 * Its clock is the benchmark's: it goes on by 10 ms if both ends are idle. LOSS_SEED=2, 3 and so on loses other
 * datagrams. */
#define _GNU_SOURCE
#include "bench.h"

#include <arpa/inet.h>
#include <errno.h>
#include <netinet/in.h>
#include <stdarg.h>
#include <sys/socket.h>
#include <sys/time.h>
#include <usrsctp.h>

#define PORT 5000
#define BUFFER (1024 * 1024)

/* usrsctp calls both sides of a link by one address: that of its end. */
static char ends[2];
static struct wire wires[2];
static uint64_t now_ms, messages_read, bytes_read;
static bool bundles; /* whether a writer waits for what fills a packet while DATA is in flight */
static int established[2];

/* usrsctp reads the wall clock beside its timers; here both are the same clock. */
int gettimeofday(struct timeval *restrict tv, void *restrict tz) {
    (void)tz;
    tv->tv_sec = 1700000000 + now_ms / 1000;
    tv->tv_usec = now_ms % 1000 * 1000;
    return 0;
}

/* The heap of the C library, whose allocations are counted. */
static uint64_t allocations;
void *__libc_malloc(size_t size);
void *__libc_calloc(size_t count, size_t size);
void *__libc_realloc(void *old, size_t size);

void *malloc(size_t size) {
    allocations++;
    return __libc_malloc(size);
}

void *calloc(size_t count, size_t size) {
    allocations++;
    return __libc_calloc(count, size);
}

void *realloc(void *old, size_t size) {
    allocations++;
    return __libc_realloc(old, size);
}

static void quiet(const char *format, ...) { (void)format; }

static int on_packet(void *address, void *bytes, size_t length, uint8_t tos, uint8_t df) {
    (void)tos, (void)df;
    struct datagram *sent = new_datagram();
    if (length > sizeof sent->bytes)
        fail("a packet is too long");
    memcpy(sent->bytes, bytes, length);
    sent->length = length;
    send_on(&wires[address == &ends[1]], sent);
    return 0;
}

static int on_receive(struct socket *socket, union sctp_sockstore from, void *data, size_t length,
                      struct sctp_rcvinfo info, int flags, void *end) {
    (void)socket, (void)from, (void)info;
    if (!data)
        return 1;
    if (flags & MSG_NOTIFICATION) {
        const union sctp_notification *told = data;
        if (told->sn_header.sn_type == SCTP_ASSOC_CHANGE && told->sn_assoc_change.sac_state == SCTP_COMM_UP)
            established[end == &ends[1]] = 1;
    } else {
        bytes_read += length;
        messages_read += !!(flags & MSG_EOR);
    }
    free(data);
    return 1;
}

static void set(struct socket *socket, int level, int option, const void *value, socklen_t length) {
    if (usrsctp_setsockopt(socket, level, option, value, length) < 0)
        fail("usrsctp_setsockopt");
}

static struct socket *new_socket(int end) {
    struct socket *socket = usrsctp_socket(AF_CONN, SOCK_STREAM, IPPROTO_SCTP, on_receive, NULL, 0, &ends[end]);
    if (!socket)
        fail("usrsctp_socket");
    int buffer = BUFFER, at_once = !bundles;
    set(socket, SOL_SOCKET, SO_RCVBUF, &buffer, sizeof buffer);
    set(socket, SOL_SOCKET, SO_SNDBUF, &buffer, sizeof buffer);
    set(socket, IPPROTO_SCTP, SCTP_NODELAY, &at_once, sizeof at_once);
    struct sctp_paddrparams path = {.spp_flags = SPP_PMTUD_DISABLE, .spp_pathmtu = PACKET_SIZE - 12};
    path.spp_address.ss_family = AF_CONN;
    set(socket, IPPROTO_SCTP, SCTP_PEER_ADDR_PARAMS, &path, sizeof path);
    struct sctp_event change = {.se_assoc_id = SCTP_ALL_ASSOC, .se_on = 1, .se_type = SCTP_ASSOC_CHANGE};
    set(socket, IPPROTO_SCTP, SCTP_EVENT, &change, sizeof change);
    usrsctp_set_non_blocking(socket, 1);
    return socket;
}

static struct sockaddr_conn address(int end, int port) {
    struct sockaddr_conn address = {.sconn_family = AF_CONN, .sconn_port = htons(port), .sconn_addr = &ends[end]};
    return address;
}

static struct socket *listening(void) {
    struct socket *socket = new_socket(1);
    struct sockaddr_conn own = address(1, PORT);
    if (usrsctp_bind(socket, (struct sockaddr *)&own, sizeof own) < 0 || usrsctp_listen(socket, 64) < 0)
        fail("usrsctp_listen");
    return socket;
}

/* Hands over the oldest datagram of each direction. */
static bool hand_over(void) {
    bool any = false;
    for (int end = 0; end < 2; end++) {
        struct datagram *came = take_from(&wires[end]);
        if (!came)
            continue;
        usrsctp_conninput(&ends[!end], came->bytes, came->length, 0);
        give_back(came);
        any = true;
    }
    return any;
}

static void hand_over_all(void) {
    while (hand_over())
        ;
}

static void go_on(void) {
    if (hand_over())
        return;
    now_ms += TICK_MS;
    usrsctp_handle_timers(TICK_MS);
}

/* One handshake: the client's socket and the server's. */
static void join(struct socket *listener, int client_port, struct socket *joined[2]) {
    established[0] = established[1] = 0;
    joined[0] = new_socket(0);
    struct sockaddr_conn own = address(0, client_port), peer = address(0, PORT);
    if (usrsctp_bind(joined[0], (struct sockaddr *)&own, sizeof own) < 0)
        fail("usrsctp_bind");
    if (usrsctp_connect(joined[0], (struct sockaddr *)&peer, sizeof peer) < 0 && errno != EINPROGRESS)
        fail("usrsctp_connect");
    while (!(joined[1] = usrsctp_accept(listener, NULL, NULL)))
        go_on();
    usrsctp_set_non_blocking(joined[1], 1);
    while (!established[0])
        go_on();
    hand_over_all();
}

static void abort_both(struct socket *joined[2]) {
    struct linger at_once = {.l_onoff = 1, .l_linger = 0};
    set(joined[0], SOL_SOCKET, SO_LINGER, &at_once, sizeof at_once);
    usrsctp_close(joined[0]);
    hand_over_all();
    usrsctp_close(joined[1]);
    hand_over_all();
}

static bool write_message(struct socket *socket, const uint8_t *message, size_t size, bool unordered) {
    struct sctp_sendv_spa how = {.sendv_flags = SCTP_SEND_SNDINFO_VALID};
    how.sendv_sndinfo.snd_sid = 1;
    how.sendv_sndinfo.snd_flags = SCTP_EOR | (unordered ? SCTP_UNORDERED : 0);
    how.sendv_sndinfo.snd_ppid = htonl(53);
    if (usrsctp_sendv(socket, message, size, NULL, 0, &how, sizeof how, SCTP_SENDV_SPA, 0) >= 0)
        return true;
    if (errno != EWOULDBLOCK)
        fail("usrsctp_sendv");
    return false;
}

static void messages(struct measure *m) {
    bundles = !strcmp(m->name, "small");
    struct socket *joined[2];
    join(listening(), PORT + 1, joined);
    uint8_t *message = calloc(1, m->size);
    bool unordered = !strcmp(m->name, "unordered");
    lost_per_million = strcmp(m->name, "lossy") ? 0 : 10000;
    uint64_t written = 0, began_ms = now_ms, began_datagrams = datagrams_sent, began_allocations = allocations;
    double began_us = cpu_us();
    while (messages_read < m->messages) {
        while (written < m->messages && written - messages_read < MAX_WAITING &&
               (written - messages_read) * m->size < MAX_WAITING_BYTES &&
               write_message(joined[0], message, m->size, unordered))
            written++;
        go_on();
        hand_over_all();
        if (now_ms - began_ms > 100000000)
            fail("nothing arrives any more");
    }
    m->cpu_us = cpu_us() - began_us;
    m->virtual_ms = now_ms - began_ms;
    m->datagrams = datagrams_sent - began_datagrams;
    m->lost = datagrams_lost;
    m->allocations = allocations - began_allocations;
    if (bytes_read != m->messages * m->size)
        fail("other bytes were read than written");
    free(message);
}

static void handshakes(struct measure *m) {
    struct socket *listener = listening(), *joined[2];
    double began_us = cpu_us();
    for (uint64_t i = 0; i < m->messages; i++) {
        join(listener, 10000 + (int)(i % 50000), joined);
        abort_both(joined);
        now_ms += 1;
        usrsctp_handle_timers(1);
    }
    m->cpu_us = cpu_us() - began_us;
    m->datagrams = datagrams_sent;
    m->allocations = allocations;
}

/* The heap's bytes for one idle association. */
static void memory(void) {
    struct socket *listener = listening(), *joined[2];
    join(listener, 10000, joined);
    size_t before = heap_bytes();
    for (int i = 0; i < IDLE_PAIRS; i++)
        join(listener, 10001 + i, joined);
    printf("{\"stack\":\"usrsctp\",\"case\":\"memory\",\"bytes\":%zu}\n",
           (heap_bytes() - before) / (2 * IDLE_PAIRS));
}

int main(int argc, char **argv) {
    if (argc != 4) {
        fprintf(stderr, "usage: usrsctp CASE COUNT SIZE\n");
        return 2;
    }
    struct measure m = {.stack = "usrsctp", .name = argv[1], .size = strtoull(argv[3], NULL, 10)};
    m.messages = strtoull(argv[2], NULL, 10);
    seed_losses();
    usrsctp_init_nothreads(0, on_packet, quiet);
    usrsctp_sysctl_set_sctp_ecn_enable(0);
    usrsctp_sysctl_set_sctp_blackhole(0);
    usrsctp_register_address(&ends[0]);
    usrsctp_register_address(&ends[1]);
    if (!strcmp(m.name, "memory")) {
        memory();
        return 0;
    }
    if (!strcmp(m.name, "handshake"))
        handshakes(&m);
    else
        messages(&m);
    print_measure(&m);
    return 0;
}
