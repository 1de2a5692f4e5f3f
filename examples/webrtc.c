/*
 * A page in a browser and this program, joined by data channels (RFC 8831, RFC 8832): a chat with the terminal, a file
 * that goes there and back, and what passes below. HTTP carries the page, its offer and the answer. Above a UDP socket
 * stand ICE-lite (RFC 8445 section 2.5), DTLS 1.2 by OpenSSL, and one association. docs/GUIDE.md explains the calls.
 *
 *   ./library channels            builds the archive, once; a release has it in lib/, not in out/
 *   cc -O2 -Iinclude -o webrtc examples/webrtc.c out/libsctp_channels.a -lssl -lcrypto
 *   ./webrtc                      then open the page that it names; Ctrl-C ends it
 *
 *   --address A, --port N         where it is, by TCP and UDP; else 127.0.0.1, which Firefox leaves out, and 8080
 *   --client                      to be the client of DTLS and of SCTP, and not the server
 *   --loss P, --delay MS          loses P percent of the SCTP packets of each direction, and delays the others
 */
#define _GNU_SOURCE
#include "sctp_channels.h"

#include <arpa/inet.h>
#include <err.h>
#include <getopt.h>
#include <netinet/tcp.h>
#include <openssl/err.h>
#include <openssl/ssl.h>
#include <poll.h>
#include <signal.h>
#include <sys/queue.h>

#define SECOND UINT64_C(1000000000)
#define MAX_PAYLOAD_SIZE 1164 /* fits links of 1280 bytes, below DTLS 1.2 with AES-GCM, UDP and IPv6 */
#define MAX_MESSAGE 262144    /* bytes; what the answer offers and what the association takes have to agree */
#define MAX_BUFFERED 1000000  /* bytes that may wait on a channel before more of its messages are received */

/* A packet of SCTP that waits until its delay is over. */
struct packet {
    STAILQ_ENTRY(packet) next;
    bool is_incoming;
    uint64_t due;
    size_t length;
    uint8_t bytes[];
};

/* The connection with one page, from its offer to its end. */
static struct {
    SSL *dtls;                  /* NULL if there is no connection */
    const char *end;            /* why it is over, or NULL */
    char secret[41];            /* this side's user name for STUN, 8 digits, and its password */
    char fingerprint[96];       /* of the page's certificate, by its offer */
    uint32_t max_message_size, sctp_port; /* of the page, by its offer, too */
    bool is_client, is_secure, has_address;
    int chat;                   /* the channel of the chat, or -1 */
    uint64_t heard;             /* when a STUN request came last */
    STAILQ_HEAD(, packet) packets;
    sctp_peer peer;             /* the page's: this side */
    sctp_assoc_watch watch;     /* says why the association ended */
} page;

static const char *address = "127.0.0.1";
static int port = 8080, udp, listener, input = STDIN_FILENO;
static bool prefers_client;
static double loss;
static uint64_t delay;
static volatile sig_atomic_t interrupts;
static SSL_CTX *dtls_context;
static char fingerprint[96]; /* of this side's certificate */

/* Ends the program at a code that it does not go on with. Answers whether the call was done. */
static bool done(sctp_assoc_code code) {
    if (code != SCTP_ASSOC_DONE && code != SCTP_ASSOC_NOTHING)
        errx(1, "a call answered %s", sctp_channels_code_name(code));
    return code == SCTP_ASSOC_DONE;
}

static uint64_t now(void) {
    struct timespec t;
    clock_gettime(CLOCK_MONOTONIC, &t);
    return (uint64_t)t.tv_sec * SECOND + (uint64_t)t.tv_nsec;
}

/* Empty if there is no such channel. */
static const char *label_of(uint16_t id) {
    static char label[65536];
    size_t length = 0;
    sctp_channels_label(&page.peer, id, (uint8_t *)label, sizeof label - 1, &length);
    label[length] = 0;
    return label;
}

/* On a channel whose stream is gone nothing waits. */
static size_t buffered_on(uint16_t id) {
    size_t bytes = 0;
    sctp_channels_buffered_amount(&page.peer, id, &bytes);
    return bytes;
}

static void print_stats(FILE *out) {
    static const char *const states[] = {"connecting", "open", "closing"};
    static uint16_t ids[65536];
    const char *before = "";
    sctp_assoc_path_values path;
    sctp_assoc_totals totals;
    sctp_channels_info info;
    size_t count, buffered = 0;
    done(sctp_assoc_path(&page.peer.assoc, &path));
    done(sctp_assoc_stats(&page.peer.assoc, &totals));
    done(sctp_assoc_stream_ids(&page.peer.assoc, ids, 65536, &count));
    fprintf(out, "{\"channels\":[");
    for (size_t i = 0; i < count; i++) {
        size_t bytes = buffered_on(ids[i]);
        if (sctp_channels_get_info(&page.peer, ids[i], &info) != SCTP_ASSOC_DONE)
            continue;
        fprintf(out, "%s{\"id\":%u,\"label\":\"", before, ids[i]);
        for (const char *at = label_of(ids[i]); *at; at++)
            fprintf(out, (uint8_t)*at < ' ' || *at == '"' || *at == '\\' ? "\\u%04x" : "%c", *at);
        fprintf(out, "\",\"state\":\"%s\",\"buffered\":%zu}", states[info.state], bytes);
        buffered += bytes;
        before = ",";
    }
    fprintf(out, "],\"buffered\":%zu,\"roundTrip\":%ju,\"inFlight\":%ju,\"congestionWindow\":%u,\"timeouts\":%ju,"
            "\"fastRetransmissions\":%ju}", buffered, path.smoothed_round_trip_ms, path.bytes_in_flight,
            path.congestion_window, totals.retransmission_timeouts, totals.fast_retransmissions);
}

/* Behind "open" stand label, protocol, unordered, kind, value, negotiated and identifier. "-" is an empty word. */
static void on_command(uint16_t id, const char *command) {
    static char answer[MAX_MESSAGE];
    char label[1000], protocol[1000];
    unsigned unordered, kind, value, negotiated;
    uint16_t channel = 0;
    FILE *out = fmemopen(answer, sizeof answer, "w");
    if (sscanf(command, "open %999s %999s %u %u %u %u %hu", label, protocol, &unordered, &kind, &value, &negotiated,
               &channel) == 7) {
        sctp_channels_options options = {kind, value, 0, channel, unordered != 0, negotiated != 0};
        sctp_assoc_code code = sctp_channels_open(
            &page.peer, &options, (uint8_t *)label, strcmp(label, "-") == 0 ? 0 : strlen(label), (uint8_t *)protocol,
            strcmp(protocol, "-") == 0 ? 0 : strlen(protocol), &channel);
        fprintf(out, "{\"code\":%u,\"id\":%u}", code, channel);
    } else if (sscanf(command, "close %hu", &channel) == 1)
        fprintf(out, "{\"code\":%u}", sctp_channels_close(&page.peer, channel));
    else if (strcmp(command, "stats") == 0)
        print_stats(out);
    else if (strcmp(command, "shutdown") == 0)
        sctp_assoc_shutdown(&page.peer.assoc);
    else if (sscanf(command, "abort %999s", label) == 1)
        sctp_assoc_watched_abort(&page.peer.assoc, &page.watch, (uint8_t *)label, strlen(label));
    else
        fprintf(out, "{\"code\":-1}");
    fclose(out);
    sctp_channels_send(&page.peer, id, true, (uint8_t *)answer, strlen(answer)); /* not after an end */
}

/* Sends back what came on a channel, unless it is for this program. While much waits there, the rest is left: then the
 * window closes, and the page waits, too. A channel that ends takes nothing more, and the page no message too long. */
static void receive_on(uint16_t id) {
    static uint8_t text[MAX_MESSAGE + 1];
    size_t length;
    sctp_assoc_code code;
    bool is_text, is_chat = strcmp(label_of(id), "chat") == 0, is_control = strcmp(label_of(id), "control") == 0;
    sctp_channels_set_low_threshold(&page.peer, id, MAX_BUFFERED / 2);
    page.chat = is_chat ? id : page.chat;
    while (buffered_on(id) < MAX_BUFFERED &&
           ((code = sctp_channels_receive(&page.peer, id, text, MAX_MESSAGE, &length, &is_text)) == SCTP_ASSOC_DONE ||
            code == SCTP_CHANNELS_OTHER)) {
        text[length] = 0;
        if (is_chat)
            printf("page: %s\n", (char *)text);
        else if (is_control)
            on_command(id, (char *)text);
        else if (code == SCTP_ASSOC_DONE)
            sctp_channels_send(&page.peer, id, is_text, text, length);
    }
}

static void on_event(const sctp_channels_event *event) {
    static const char *const ends[] = {"the page did not answer the handshake of SCTP", "it was closed here",
                                       "it was aborted here", "it was shut down in order", "the page aborted it",
                                       "the page broke a rule of SCTP", "no room is left", "the page is silent"};
    if (event->kind == SCTP_CHANNELS_EVENT_CONNECTED)
        puts("the page is connected");
    else if (event->kind == SCTP_CHANNELS_EVENT_LOST || event->kind == SCTP_CHANNELS_EVENT_HANDSHAKE_FAILED)
        page.end = event->reason == SCTP_ASSOC_REASON_BUFFER_EXHAUSTED ? "no room is left" : ends[page.watch.end];
    else if (event->kind != SCTP_CHANNELS_EVENT_CLOSED && event->kind != SCTP_CHANNELS_EVENT_FAILED)
        receive_on(event->id); /* it is open, a message came, or there is room again */
    else if (event->id == page.chat)
        page.chat = -1;
}

/* A packet of SCTP waits until its delay is over, or is lost, such as where there is no memory for it. */
static void hold(bool is_incoming, const uint8_t *bytes, size_t length) {
    static unsigned short seed[3] = {1, 2, 3};
    struct packet *packet = erand48(seed) * 100 < loss ? NULL : malloc(sizeof *packet + length);
    if (!packet)
        return;
    *packet = (struct packet){.is_incoming = is_incoming, .due = now() + delay, .length = length};
    memcpy(packet->bytes, bytes, length);
    STAILQ_INSERT_TAIL(&page.packets, packet, next);
}

/* Takes events, polls for packets and lets one through that is due by a moment, until none of it brings anything. */
static void serve(uint64_t by) {
    static uint8_t bytes[SCTP_ASSOC_MAX_DATAGRAM];
    sctp_assoc *assoc = &page.peer.assoc;
    sctp_channels_event event;
    struct packet *packet;
    size_t length;
    uint32_t fate;
    for (bool is_any = page.is_secure; is_any;) {
        for (is_any = false; done(sctp_channels_poll_event(&page.peer, &event)); is_any = true)
            on_event(&event);
        for (; done(sctp_assoc_watched_poll_transmit(assoc, &page.watch, now(), bytes, sizeof bytes, &length));
             is_any = true)
            hold(false, bytes, length);
        if (!(packet = STAILQ_FIRST(&page.packets)) || packet->due > by)
            continue;
        STAILQ_REMOVE_HEAD(&page.packets, next);
        if (packet->is_incoming)
            sctp_assoc_watched_handle_datagram(assoc, &page.watch, now(), packet->bytes, packet->length, &fate);
        else
            SSL_write(page.dtls, packet->bytes, (int)packet->length);
        free(packet);
        is_any = true;
    }
}

/* A server waits for the INIT, which browsers send in either role. */
static void begin_association(void) {
    sctp_assoc_config config;
    sctp_assoc_identity identity;
    done(sctp_assoc_default_config(&config));
    config.max_receive_message_size = MAX_MESSAGE;
    config.remote_port = (uint16_t)page.sctp_port;
    done(sctp_assoc_random_identity(&identity));
    done((page.is_client ? sctp_assoc_client : sctp_assoc_server)(&page.peer.assoc, &config, MAX_PAYLOAD_SIZE,
                                                                  &identity, now()));
    done(sctp_channels_begin(&page.peer, page.is_client ? SCTP_CHANNELS_CLIENT : SCTP_CHANNELS_SERVER));
    done(sctp_channels_set_max_message_size(&page.peer, page.max_message_size));
    page.is_secure = true;
}

static void print_fingerprint(const X509 *certificate, char text[96]) {
    uint8_t digest[32] = {0};
    X509_digest(certificate, EVP_sha256(), digest, NULL);
    OPENSSL_buf2hexstr_ex(text, 96, NULL, digest, sizeof digest, ':');
}

/* In WebRTC nobody vouches for a certificate but the fingerprint in the offer. */
static int is_expected(X509_STORE_CTX *context, void *expected) {
    char text[96];
    print_fingerprint(X509_STORE_CTX_get0_cert(context), text);
    return strcasecmp(text, expected) == 0;
}

static void make_certificate(void) {
    EVP_PKEY *key = EVP_EC_gen("P-256");
    X509 *certificate = X509_new();
    X509_gmtime_adj(X509_getm_notBefore(certificate), -24 * 3600);
    X509_gmtime_adj(X509_getm_notAfter(certificate), 30 * 24 * 3600);
    X509_NAME_add_entry_by_txt(X509_get_subject_name(certificate), "CN", MBSTRING_ASC, (uint8_t *)"webrtc", -1, -1, 0);
    X509_set_issuer_name(certificate, X509_get_subject_name(certificate));
    X509_set_pubkey(certificate, key);
    dtls_context = SSL_CTX_new(DTLS_method());
    if (!dtls_context || X509_sign(certificate, key, EVP_sha256()) == 0 ||
        SSL_CTX_use_certificate(dtls_context, certificate) != 1 || SSL_CTX_use_PrivateKey(dtls_context, key) != 1)
        errx(1, "no certificate");
    print_fingerprint(certificate, fingerprint);
    SSL_CTX_set_verify(dtls_context, SSL_VERIFY_PEER | SSL_VERIFY_FAIL_IF_NO_PEER_CERT, NULL);
    SSL_CTX_set_cert_verify_callback(dtls_context, is_expected, page.fingerprint);
    SSL_CTX_set_options(dtls_context, SSL_OP_NO_DTLSv1 | SSL_OP_NO_QUERY_MTU | SSL_OP_NO_RENEGOTIATION);
    SSL_CTX_set_tlsext_use_srtp(dtls_context, "SRTP_AES128_CM_SHA1_80"); /* some peers refuse a side without it */
}

/* It writes to the socket itself, but it is handed what comes, since that is not DTLS alone. */
static void begin_dtls(void) {
    BIO *in = BIO_new(BIO_s_mem()), *out = BIO_new_dgram(udp, BIO_NOCLOSE);
    if (!in || !out || !(page.dtls = SSL_new(dtls_context)))
        errx(1, "no DTLS");
    BIO_set_mem_eof_return(in, -1);
    SSL_set_bio(page.dtls, in, out);
    SSL_set_mtu(page.dtls, 1200);
    (page.is_client ? SSL_set_connect_state : SSL_set_accept_state)(page.dtls);
}

/* Goes on with the handshake once an address is known to send to, and takes out the packets that came. */
static void serve_dtls(void) {
    static uint8_t packet[1 << 14];
    int answer = 1, length;
    ERR_clear_error();
    DTLSv1_handle_timeout(page.dtls);
    if (!page.is_secure && page.has_address && (answer = SSL_do_handshake(page.dtls)) == 1)
        begin_association();
    if (answer != 1 && SSL_get_error(page.dtls, answer) != SSL_ERROR_WANT_READ)
        page.end = "the handshake of DTLS failed";
    while (page.is_secure && (length = SSL_read(page.dtls, packet, sizeof packet)) > 0)
        hold(true, packet, (size_t)length);
    if (SSL_get_shutdown(page.dtls) & SSL_RECEIVED_SHUTDOWN)
        page.end = "the page closed DTLS";
    serve(now());
}

/* Answers a Binding request of STUN (RFC 8489) under the password of this side, which ends, as those of ICE do, with
 * MESSAGE-INTEGRITY and FINGERPRINT. DTLS goes to the address that was nominated last, at first to any. */
static void on_stun(uint8_t *message, size_t length, const struct sockaddr_in *from) {
    uint8_t digest[20], answer[64] = {1, 1, [3] = 36, [21] = 0x20, [23] = 8, [25] = 1, /* XOR-MAPPED-ADDRESS */
                                      0x21, 0x12, 0x21, 0x12, 0xa4, 0x42, [33] = 8, [35] = 20, /* MESSAGE-INTEGRITY */
                                      [56] = 0x80, 0x28, [59] = 4}; /* FINGERPRINT */
    size_t before = length - 32;
    uint32_t crc = UINT32_MAX;
    if (length < 52 || memcmp(message, "\0\1", 2) != 0 || memcmp(message + before, "\0\x08\0\x14", 4) != 0)
        return;
    message[2] = (uint8_t)((before + 4) >> 8); /* its length without FINGERPRINT */
    message[3] = (uint8_t)(before + 4);
    HMAC(EVP_sha1(), page.secret + 8, 32, message, before, digest, NULL);
    if (CRYPTO_memcmp(digest, message + before + 4, 20) != 0)
        return;
    memcpy(answer + 4, message + 4, 16);
    for (size_t i = 0; i < 6; i++) /* port and address */
        answer[26 + i] ^= ((const uint8_t *)from)[offsetof(struct sockaddr_in, sin_port) + i];
    HMAC(EVP_sha1(), page.secret + 8, 32, answer, 32, answer + 36, NULL);
    answer[3] = 44;
    for (int bit = 0; bit < 56 * 8; bit++) { /* CRC-32 */
        crc ^= bit % 8 == 0 ? answer[bit / 8] : 0;
        crc = crc >> 1 ^ (crc & 1 ? 0xedb88320 : 0);
    }
    crc = htonl(~crc ^ 0x5354554e);
    memcpy(answer + 60, &crc, 4);
    sendto(udp, answer, sizeof answer, 0, (const struct sockaddr *)from, sizeof *from);
    page.heard = now();
    if (!page.has_address || memmem(message, before, "\0\x25\0\0", 4)) { /* USE-CANDIDATE */
        BIO_ADDR *to = BIO_ADDR_new();
        BIO_ADDR_rawmake(to, AF_INET, &from->sin_addr, sizeof from->sin_addr, from->sin_port);
        page.has_address = BIO_dgram_set_peer(SSL_get_wbio(page.dtls), to) == 1;
        BIO_ADDR_free(to);
    }
}

/* What is not of this page's DTLS is dropped there. */
static void on_udp(void) {
    static uint8_t datagram[65536];
    struct sockaddr_in from;
    socklen_t size = sizeof from;
    ssize_t length;
    for (int i = 0; i < 100 && !page.end; i++) {
        length = recvfrom(udp, datagram, sizeof datagram, MSG_DONTWAIT, (struct sockaddr *)&from, &size);
        if (length <= 0 || !page.dtls)
            return;
        if (datagram[0] < 4) /* RFC 7983 */
            on_stun(datagram, (size_t)length, &from);
        else if (page.has_address && BIO_write(SSL_get_rbio(page.dtls), datagram, (int)length) > 0)
            serve_dtls();
    }
}

/* Ends the connection, by an ABORT unless the association is over. */
static void take_down(const char *why) {
    sctp_assoc_watched_abort(&page.peer.assoc, &page.watch, (const uint8_t *)why, strlen(why));
    serve(UINT64_MAX);
    SSL_shutdown(page.dtls);
    printf("the connection ended: %s%s%.*s\n", why, page.watch.reason_length > 0 ? ": " : "", page.watch.reason_length,
           (char *)page.watch.reason);
    SSL_free(page.dtls);
    sctp_peer_free(&page.peer);
    memset(&page, 0, sizeof page);
}

/* What stands behind a name in a session description, with all that follows, or else another text. */
static const char *find(const char *sdp, const char *name, const char *otherwise) {
    const char *at = strstr(sdp, name);
    return at ? at + strlen(name) : otherwise;
}

static bool on_offer(const char *offer, char *answer, size_t room) {
    const char *mid = find(offer, "a=mid:", "0"), *setup = find(offer, "a=setup:", "actpass");
    int mid_length = (int)strcspn(mid, "\r\n"), sctp_port = atoi(find(offer, "a=sctp-port:", "5000"));
    uint8_t random[20];
    if (!strstr(offer, "m=application") || !strstr(offer, "a=fingerprint:sha-256 ") || !(uint16_t)sctp_port)
        return false;
    if (page.dtls)
        take_down("another page came");
    STAILQ_INIT(&page.packets);
    page.chat = -1;
    page.heard = now();
    page.is_client = strncmp(setup, "passive", 7) == 0 || (prefers_client && strncmp(setup, "active", 6) != 0);
    page.max_message_size = (uint32_t)strtoul(find(offer, "a=max-message-size:", "65536"), NULL, 10);
    page.sctp_port = (uint32_t)sctp_port;
    snprintf(page.fingerprint, sizeof page.fingerprint, "%s", find(offer, "a=fingerprint:sha-256 ", ""));
    if (getentropy(random, sizeof random) != 0)
        err(1, "a password");
    OPENSSL_buf2hexstr_ex(page.secret, sizeof page.secret, NULL, random, sizeof random, 0);
    begin_dtls();
    snprintf(answer, room,
             "v=0\r\no=- 1 1 IN IP4 %s\r\ns=-\r\nt=0 0\r\na=group:BUNDLE %.*s\r\na=ice-lite\r\n"
             "m=application %d UDP/DTLS/SCTP webrtc-datachannel\r\nc=IN IP4 %s\r\na=mid:%.*s\r\na=ice-ufrag:%.8s\r\n"
             "a=ice-pwd:%s\r\na=fingerprint:sha-256 %s\r\na=setup:%s\r\na=sctp-port:5000\r\na=max-message-size:%d\r\n"
             "a=candidate:1 1 udp 2130706431 %s %d typ host\r\na=end-of-candidates\r\n",
             address, mid_length, mid, port, address, mid_length, mid, page.secret, page.secret + 8, fingerprint,
             page.is_client ? "active" : "passive", MAX_MESSAGE, address, port);
    return true;
}

/* A connection is accepted once a request is there, so that little is waited for. */
static void on_http(void) {
    static char line[65536], body[65536], answer[65536];
    char request[100] = "", path[] = __FILE__ "tml";
    size_t length = 0;
    FILE *file, *http = fdopen(accept(listener, NULL, NULL), "r");
    if (!http)
        return;
    fgets(request, sizeof request, http);
    while (fgets(line, sizeof line, http) && line[0] != '\r')
        if (strncasecmp(line, "Content-Length:", 15) == 0)
            length = strtoul(line + 15, NULL, 10);
    body[fread(body, 1, length < sizeof body ? length : sizeof body - 1, http)] = 0;
    path[sizeof __FILE__ - 2] = 'h'; /* webrtc.html lies beside this source, webrtc.c */
    bool is_offer = strncmp(request, "POST /offer ", 12) == 0, is_page = strncmp(request, "GET / ", 6) == 0;
    if (is_page && (file = fopen(path, "r"))) {
        answer[fread(answer, 1, sizeof answer - 1, file)] = 0;
        fclose(file);
    } else if (!is_offer || !on_offer(body, answer, sizeof answer))
        answer[0] = 0;
    dprintf(fileno(http), "HTTP/1.1 %s\r\nContent-Type: %s\r\nAccess-Control-Allow-Origin: *\r\nConnection: close\r\n"
            "Content-Length: %zu\r\n\r\n%s", answer[0] ? "200 OK" : "404 Not Found",
            is_offer ? "application/sdp" : "text/html; charset=utf-8", strlen(answer), answer);
    fclose(http);
}

/* Waits for what comes and for what SCTP has due, and looks after the rest every 100 ms. Input waits for the chat. */
static void turn(void) {
    static char *line;
    static size_t room;
    bool has_room = page.dtls && page.chat >= 0 && buffered_on(page.chat) < MAX_BUFFERED;
    struct pollfd ready[] = {{udp, POLLIN, 0}, {listener, POLLIN, 0}, {has_room ? input : -1, POLLIN, 0}};
    uint64_t at = now(), due = at + SECOND / 10, timeout;
    if (sctp_assoc_poll_timeout(&page.peer.assoc, &timeout) == SCTP_ASSOC_DONE && timeout < due)
        due = timeout;
    if (STAILQ_FIRST(&page.packets) && STAILQ_FIRST(&page.packets)->due < due)
        due = STAILQ_FIRST(&page.packets)->due;
    poll(ready, 3, due > at ? (int)((due - at + 999999) / 1000000) : 0);
    on_udp();
    if (ready[1].revents)
        on_http();
    if (ready[2].revents && getline(&line, &room, stdin) <= 0)
        input = -1;
    else if (ready[2].revents)
        sctp_channels_send(&page.peer, page.chat, true, (uint8_t *)line, strcspn(line, "\n"));
    if (!page.dtls)
        return;
    sctp_assoc_watched_handle_timeout(&page.peer.assoc, &page.watch, now());
    serve_dtls();
    if (now() > page.heard + 30 * SECOND) /* RFC 7675 */
        page.end = "the page was not heard of for long (ICE consent)";
    if (page.end)
        take_down(page.end);
}

static void open_sockets(void) {
    const struct sockaddr_in own = {AF_INET, htons((uint16_t)port), {inet_addr(address)}, {0}};
    const struct timeval patience = {.tv_usec = 200000};
    const int on = 1, seconds = 60;
    listener = socket(AF_INET, SOCK_STREAM, 0);
    udp = socket(AF_INET, SOCK_DGRAM, 0);
    setsockopt(listener, SOL_SOCKET, SO_REUSEADDR, &on, sizeof on);
    setsockopt(listener, SOL_SOCKET, SO_RCVTIMEO, &patience, sizeof patience); /* of its connections, too */
    setsockopt(listener, IPPROTO_TCP, TCP_DEFER_ACCEPT, &seconds, sizeof seconds);
    if (bind(listener, (struct sockaddr *)&own, sizeof own) != 0 || listen(listener, 10) != 0 ||
        bind(udp, (struct sockaddr *)&own, sizeof own) != 0)
        err(1, "%s, port %d", address, port);
}

static void on_interrupt(int signal) { interrupts += signal == SIGINT; }

int main(int argc, char **argv) {
    static const struct option names[] = {{"address", 1, 0, 'a'}, {"port", 1, 0, 'p'},  {"client", 0, 0, 'c'},
                                          {"loss", 1, 0, 'l'},    {"delay", 1, 0, 'd'}, {0}};
    for (int name; (name = getopt_long(argc, argv, "", names, NULL)) != -1;) {
        switch (name) {
        case 'a': address = optarg; break;
        case 'p': port = atoi(optarg); break;
        case 'c': prefers_client = true; break;
        case 'l': loss = atof(optarg); break;
        case 'd': delay = strtoul(optarg, NULL, 10) * (SECOND / 1000); break;
        default: port = 0;
        }
    }
    if (port < 1 || port > UINT16_MAX || !(loss >= 0 && loss <= 100) || delay > 60 * SECOND)
        errx(2, "[--address A] [--port 1..65535] [--client] [--loss 0..100] [--delay 0..60000]");
    setvbuf(stdin, NULL, _IONBF, 0); /* no line is hidden from poll() in a buffer */
    setvbuf(stdout, NULL, _IOLBF, 0);
    signal(SIGINT, on_interrupt);
    signal(SIGPIPE, SIG_IGN);
    open_sockets();
    make_certificate();
    printf("http://%s:%d/\n", address, port);
    while (interrupts == 0)
        turn();
    /* The first Ctrl-C ends the association in order, but does not wait for ever; a second one ends it at once. */
    bool is_ending = sctp_assoc_shutdown(&page.peer.assoc) == SCTP_ASSOC_DONE;
    for (uint64_t until = now() + 3 * SECOND; is_ending && page.dtls && interrupts == 1 && now() < until;)
        turn();
    if (page.dtls)
        take_down("the program ends");
}
