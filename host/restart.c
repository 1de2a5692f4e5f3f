/* A peer that is started anew (RFC 4960 section 5.2.2): its INIT leaves the association as it was, and a server beside
 * that answers it. Besides copies of both INITs and one that is cut, an INIT that is replaced by another one, INITs
 * before the handshake and behind the end, and that neither server takes what is for the other. */
#include "spelled.h"

enum { OLD, NEW };
enum chunk { DATA = 0, INIT = 1, INIT_ACK = 2, COOKIE_ECHO = 10 };

#define STREAM 1

struct datagram {
    uint8_t bytes[PAYLOAD_SIZE + 28];
    size_t length;
};

/* The client of either generation, its INIT, and the server that answers that. */
static sctp_assoc clients[2], servers[2];
static struct datagram inits[2];

/* The next datagram of an end that begins with a chunk of this type. One in front of it is lost. */
static struct datagram sent_by(sctp_assoc *end, enum chunk type) {
    struct datagram datagram;
    do
        CHECK(done(sctp_assoc_poll_transmit(end, 0, datagram.bytes, sizeof datagram.bytes, &datagram.length)));
    while (datagram.bytes[12] != type);
    return datagram;
}

static uint32_t fate_at(sctp_assoc *end, const struct datagram *datagram) {
    return hand_over(end, 0, datagram->bytes, datagram->length);
}

static void begin(int generation) {
    sctp_assoc_config config = default_config();
    sctp_assoc_identity client = identity(generation == OLD ? 1 : 3), server = identity(generation == OLD ? 2 : 4);
    CHECK(done(sctp_assoc_client(&clients[generation], &config, PAYLOAD_SIZE, &client, 0)));
    CHECK(done(sctp_assoc_server(&servers[generation], &config, PAYLOAD_SIZE, &server, 0)));
    inits[generation] = sent_by(&clients[generation], INIT);
}

static void write_text(sctp_assoc *end, const char *text) {
    CHECK(done(sctp_assoc_write(end, STREAM, SCTP_ASSOC_PPID_STRING, (const uint8_t *)text, strlen(text))));
}

/* The next message of the stream is this one. What is told of it is passed over. */
static void read_text(sctp_assoc *end, const char *text) {
    uint8_t message[100];
    size_t length;
    uint32_t type;
    sctp_assoc_event event;
    while (done(sctp_assoc_poll_event(end, &event)))
        CHECK(event.kind != SCTP_ASSOC_EVENT_LOST);
    CHECK(done(sctp_assoc_read(end, STREAM, message, sizeof message, &length, &type)));
    CHECK(length == strlen(text) && memcmp(message, text, length) == 0);
}

/* Both are established, and a message goes each way. */
static void talk(int generation) {
    sctp_assoc *client = &clients[generation], *server = &servers[generation];
    CHECK(is_told(client, SCTP_ASSOC_EVENT_CONNECTED, 0) && is_told(server, SCTP_ASSOC_EVENT_CONNECTED, 0));
    CHECK(done(sctp_assoc_open_stream(client, STREAM, SCTP_ASSOC_PPID_STRING)));
    write_text(client, "question");
    pass_on(client, server, 0);
    read_text(server, "question");
    write_text(server, "answer");
    pass_on(server, client, 0);
    read_text(client, "answer");
}

static void shake_hands_of_old(void) {
    begin(OLD);
    CHECK(fate_at(&servers[OLD], &inits[OLD]) == SCTP_ASSOC_TAKEN);
    for (int i = 0; i < 2; i++) {
        pass_on(&servers[OLD], &clients[OLD], 0);
        pass_on(&clients[OLD], &servers[OLD], 0);
    }
    talk(OLD);
}

/* What the old server shows, which has nothing to send and nothing to tell. */
struct view {
    uint64_t deadline, rto, window, in_flight;
};

static struct view look(void) {
    sctp_assoc *server = &servers[OLD];
    struct view view = {.deadline = deadline(server)};
    CHECK(sctp_assoc_is_established(server) && is_told_nothing(server) && sends(server, 0, ""));
    CHECK(done(sctp_assoc_rto(server, &view.rto)));
    view.window = path_of(server).peer_window;
    view.in_flight = path_of(server).bytes_in_flight;
    return view;
}

/* The INIT of the new client, cut behind so many bytes of its chunk. */
static struct datagram cut_init(size_t length) {
    struct datagram cut = inits[NEW];
    cut.length = 12 + length;
    seal(cut.bytes, cut.length);
    return cut;
}

/* At an established server, whose timers run, INITs of either client change nothing. Four bytes of header are in front
 * of the initiate tag, and the first two say that the chunk is an INIT. */
static void inits_change_nothing(void) {
    struct view before = look(), after;
    CHECK(before.deadline > 0 && before.in_flight > 0);
    for (int i = 0; i < 2; i++) {
        CHECK(fate_at(&servers[OLD], &inits[NEW]) == SCTP_ASSOC_OTHER_INIT);
        CHECK(fate_at(&servers[OLD], &inits[OLD]) == SCTP_ASSOC_REPEATED_INIT);
    }
    for (size_t length = 2; length <= 20; length++) {
        struct datagram cut = cut_init(length);
        CHECK(fate_at(&servers[OLD], &cut) == (length < 8 ? SCTP_ASSOC_REPEATED_INIT : SCTP_ASSOC_OTHER_INIT));
    }
    after = look();
    CHECK(memcmp(&before, &after, sizeof before) == 0);
}

/* The server beside the old one takes an INIT of somebody else, whose answer the new client leaves, and then that of
 * the new client, twice. */
static void the_one_beside_takes_inits(void) {
    struct datagram forged = inits[NEW], answer;
    forged.bytes[16] ^= 1;
    seal(forged.bytes, forged.length);
    CHECK(fate_at(&servers[OLD], &forged) == SCTP_ASSOC_OTHER_INIT);
    CHECK(fate_at(&servers[NEW], &forged) == SCTP_ASSOC_TAKEN);
    answer = sent_by(&servers[NEW], INIT_ACK);
    CHECK(fate_at(&clients[NEW], &answer) == SCTP_ASSOC_OTHER_TAG);
    for (int i = 0; i < 2; i++) {
        CHECK(fate_at(&servers[NEW], &inits[NEW]) == SCTP_ASSOC_TAKEN);
        pass_on(&servers[NEW], &clients[NEW], 0);
    }
    CHECK(is_told_nothing(&servers[NEW]) && sctp_assoc_is_established(&servers[OLD]));
}

/* The COOKIE ECHO is for the one beside. What the old client sent last is for the old server, which still takes it. */
static void each_takes_its_own(const struct datagram *last) {
    struct datagram echo = sent_by(&clients[NEW], COOKIE_ECHO), question;
    CHECK(fate_at(&servers[OLD], &echo) == SCTP_ASSOC_OTHER_TAG);
    CHECK(fate_at(&servers[NEW], &echo) == SCTP_ASSOC_TAKEN && sctp_assoc_is_established(&servers[NEW]));
    pass_on(&servers[NEW], &clients[NEW], 0);
    talk(NEW);
    CHECK(fate_at(&servers[NEW], last) == SCTP_ASSOC_OTHER_TAG && is_told_nothing(&servers[NEW]));
    CHECK(fate_at(&servers[OLD], last) == SCTP_ASSOC_TAKEN);
    read_text(&servers[OLD], "last");
    write_text(&clients[NEW], "another question");
    question = sent_by(&clients[NEW], DATA);
    CHECK(fate_at(&servers[OLD], &question) == SCTP_ASSOC_OTHER_TAG);
    CHECK(fate_at(&servers[NEW], &question) == SCTP_ASSOC_TAKEN);
    read_text(&servers[NEW], "another question");
}

/* What waits at an end is lost. */
static void drain(sctp_assoc *end) {
    sctp_assoc_event event;
    uint8_t datagram[PAYLOAD_SIZE + 28];
    size_t length;
    while (done(sctp_assoc_poll_event(end, &event)) ||
           done(sctp_assoc_poll_transmit(end, 0, datagram, sizeof datagram, &length)))
        ;
}

/* The old server ends. INITs are told apart in its shutdown and behind its end, too, and by the new one. */
static void the_old_one_ends(void) {
    CHECK(done(sctp_assoc_shutdown(&servers[OLD])));
    CHECK(fate_at(&servers[OLD], &inits[NEW]) == SCTP_ASSOC_OTHER_INIT);
    CHECK(done(sctp_assoc_close(&servers[OLD])));
    drain(&servers[OLD]);
    CHECK(sctp_assoc_is_drained(&servers[OLD]));
    CHECK(fate_at(&servers[OLD], &inits[NEW]) == SCTP_ASSOC_OTHER_INIT);
    CHECK(fate_at(&servers[OLD], &inits[OLD]) == SCTP_ASSOC_REPEATED_INIT);
    CHECK(fate_at(&servers[NEW], &inits[NEW]) == SCTP_ASSOC_REPEATED_INIT);
    CHECK(fate_at(&servers[NEW], &inits[OLD]) == SCTP_ASSOC_OTHER_INIT);
    CHECK(done(sctp_assoc_free(&servers[OLD])));
    write_text(&servers[NEW], "another answer");
    pass_on(&servers[NEW], &clients[NEW], 0);
    read_text(&clients[NEW], "another answer");
}

static void a_client_is_started_anew(void) {
    struct datagram last;
    shake_hands_of_old();
    write_text(&clients[OLD], "last");
    last = sent_by(&clients[OLD], DATA);
    CHECK(done(sctp_assoc_free(&clients[OLD])));
    begin(NEW);
    inits_change_nothing();
    the_one_beside_takes_inits();
    each_takes_its_own(&last);
    the_old_one_ends();
    CHECK(done(sctp_assoc_free(&clients[NEW])));
    release(&servers[NEW]);
}

/* A side takes each INIT: a server that is new or has one, and a client in CookieWait and in CookieEchoed. */
static void before_the_handshake_each_init_is_taken(void) {
    struct datagram answer;
    begin(OLD);
    begin(NEW);
    CHECK(fate_at(&servers[OLD], &inits[OLD]) == SCTP_ASSOC_TAKEN);
    answer = sent_by(&servers[OLD], INIT_ACK);
    CHECK(fate_at(&servers[OLD], &inits[NEW]) == SCTP_ASSOC_TAKEN);
    CHECK(fate_at(&clients[OLD], &inits[NEW]) == SCTP_ASSOC_TAKEN);
    CHECK(fate_at(&clients[OLD], &answer) == SCTP_ASSOC_TAKEN);
    CHECK(fate_at(&clients[OLD], &inits[NEW]) == SCTP_ASSOC_TAKEN);
    CHECK(!sctp_assoc_is_established(&clients[OLD]) && !sctp_assoc_is_established(&servers[OLD]));
    CHECK(done(sctp_assoc_free(&clients[OLD])) && done(sctp_assoc_free(&servers[OLD])));
    CHECK(done(sctp_assoc_free(&clients[NEW])));
    release(&servers[NEW]);
}

int main(void) {
    TRY(a_client_is_started_anew());
    TRY(before_the_handshake_each_init_is_taken());
    puts("restart: ok");
    return 0;
}
