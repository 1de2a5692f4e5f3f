/* Datagrams that are left, and some of which each byte is known: under another verification tag (RFC 4960 section 8.5)
 * or with a wrong checksum, an INIT that comes again, an INIT for which there is no room, HEARTBEATs and their answers,
 * and the ABORT of a side that gives a reason. Those in hex were spelled apart from the library. */
#include "support.h"

/* HEARTBEAT under the tag 2, which is the server's, with the information 01 02 03, and its answer under the tag 1. */
static const char heartbeat[] = "1388138800000002780a9e3f0400000b0001000701020300";
static const char heartbeat_ack[] = "1388138800000001a9bac2ee0500000b0001000701020300";

/* ABORT under the tag 1, the client's, with its T bit set: the server's peer has this tag. */
static const char reflected_abort[] = "13881388000000011b93aa3806010004";

/* What the server leaves: the tag 3 is neither side's. */
static const struct left {
    const char *name, *datagram;
    uint32_t fate;
} left[] = {
    {"HEARTBEAT with a byte changed and its checksum left", "1388138800000002780a9e3f0400000b0001000701020400",
     SCTP_ASSOC_NO_PACKET},
    {"HEARTBEAT under another tag", "138813880000000327d67a600400000b0001000701020300", SCTP_ASSOC_OTHER_TAG},
    {"ABORT under another tag", "138813880000000304db7a7006000004", SCTP_ASSOC_OTHER_TAG},
    {"ABORT under another tag, with its T bit set", "13881388000000037a493bd506010004", SCTP_ASSOC_OTHER_TAG},
};

static sctp_assoc ends[2];
static sctp_assoc_config config;
static uint8_t bytes[PAYLOAD_SIZE + 28];
static size_t length;
static uint32_t fate;

static bool sends(int end) {
    return done(sctp_assoc_poll_transmit(&ends[end], 0, bytes, sizeof bytes, &length));
}

/* Writes what a text spells in hex, and answers how many bytes that are. */
static size_t spell(const char *text, uint8_t *at) {
    size_t count = strlen(text) / 2;
    for (size_t i = 0; i < count; i++) {
        unsigned byte;
        CHECK(sscanf(text + 2 * i, "%2x", &byte) == 1);
        at[i] = (uint8_t)byte;
    }
    return count;
}

/* What becomes of a datagram at the server. */
static uint32_t fate_of(const char *datagram) {
    uint8_t spelled[100];
    size_t size = spell(datagram, spelled);
    CHECK(done(sctp_assoc_handle_datagram(&ends[1], 0, spelled, size, &fate)));
    return fate;
}

static bool answers(int end, sctp_assoc_code (*question)(sctp_assoc *, bool *)) {
    bool answer;
    CHECK(done(question(&ends[end], &answer)));
    return answer;
}

/* The server is established, has nothing to say to its peer or its program, and awaits no moment. */
static void is_quiet(void) {
    sctp_assoc_event event;
    uint64_t moment;
    CHECK(sctp_assoc_is_established(&ends[1]));
    CHECK(!sends(1));
    CHECK(!done(sctp_assoc_poll_event(&ends[1], &event)));
    CHECK(!done(sctp_assoc_poll_timeout(&ends[1], &moment)));
}

static void leaves(void) {
    for (size_t i = 0; i < sizeof left / sizeof *left; i++) {
        tried = left[i].name;
        CHECK(fate_of(left[i].datagram) == left[i].fate);
        is_quiet();
    }
}

/* A HEARTBEAT under the own tag is answered, and an ABORT under the peer's tag closes. */
static void takes(void) {
    uint8_t answer[100];
    tried = "datagrams under a tag that is accepted";
    CHECK(fate_of(heartbeat) == SCTP_ASSOC_TAKEN);
    CHECK(sends(1) && length == spell(heartbeat_ack, answer) && memcmp(bytes, answer, length) == 0);
    is_quiet();
    CHECK(fate_of(reflected_abort) == SCTP_ASSOC_TAKEN);
    CHECK(answers(1, sctp_assoc_is_closed) && sctp_assoc_is_drained(&ends[1]) && !sends(1));
}

static void by_tag(void) {
    shake_hands(ends, &config, 0);
    leaves();
    takes();
    free_both(ends);
}

static void begin(void) {
    sctp_assoc_identity client = identity(1), server = identity(2);
    CHECK(done(sctp_assoc_client(&ends[0], &config, PAYLOAD_SIZE, &client, 0)));
    CHECK(done(sctp_assoc_server(&ends[1], &config, PAYLOAD_SIZE, &server, 0)));
}

/* An INIT that comes once more after the handshake changes nothing that shows, and a message still comes. */
static void leaves_init(void) {
    sctp_assoc_event event;
    uint8_t init[100], message[2];
    size_t init_length;
    uint16_t stream;
    uint32_t type;
    begin();
    CHECK(done(sctp_assoc_poll_transmit(&ends[0], 0, init, sizeof init, &init_length)));
    CHECK(done(sctp_assoc_handle_datagram(&ends[1], 0, init, init_length, &fate)) && fate == SCTP_ASSOC_TAKEN);
    for (int i = 0; i < 2; i++) {
        pass_on(&ends[1], &ends[0], 0);
        pass_on(&ends[0], &ends[1], 0);
    }
    CHECK(done(sctp_assoc_poll_event(&ends[1], &event)) && event.kind == SCTP_ASSOC_EVENT_CONNECTED);
    CHECK(done(sctp_assoc_handle_datagram(&ends[1], 0, init, init_length, &fate)));
    CHECK(fate == SCTP_ASSOC_REPEATED_INIT);
    is_quiet();
    CHECK(done(sctp_assoc_open_stream(&ends[0], 1, SCTP_ASSOC_PPID_BINARY)));
    CHECK(done(sctp_assoc_write(&ends[0], 1, SCTP_ASSOC_PPID_OF_STREAM, (const uint8_t *)"hi", 2)));
    pass_on(&ends[0], &ends[1], 0);
    CHECK(done(sctp_assoc_accept_stream(&ends[1], &stream)) && stream == 1);
    CHECK(done(sctp_assoc_read(&ends[1], 1, message, sizeof message, &length, &type)));
    CHECK(length == 2 && memcmp(message, "hi", 2) == 0);
    free_both(ends);
}

/* INIT has 40 bytes: the common header of 12, its own values of 20, and the supported extensions of 8. */
static void init_finds_room(void) {
    for (size_t room = 39; room <= 40; room++) {
        sctp_assoc_code code = room < 40 ? SCTP_ASSOC_NO_ROOM : SCTP_ASSOC_DONE;
        begin();
        memset(bytes, 77, sizeof bytes);
        CHECK(sctp_assoc_poll_transmit(&ends[0], 0, bytes, room, &length) == code && length == 40);
        CHECK((bytes[0] == 77) == (room < 40) && bytes[40] == 77);
    }
    free_both(ends);
}

/* The cause User-Initiated Abort, 12, of length 7 with its reason, in a chunk of type 6 and length 11, and padding
 * (RFC 4960 sections 3.3.7 and 3.3.10.12). Both ends are told that the association is lost, and another abort changes
 * nothing. */
static void aborts(void) {
    static const uint8_t tag[] = {0, 0, 0, 2}, chunk[] = {6, 0, 0, 11, 0, 12, 0, 7, 'b', 'y', 'e', 0};
    shake_hands(ends, &config, 0);
    for (int again = 0; again < 2; again++)
        CHECK(done(sctp_assoc_abort(&ends[0], (const uint8_t *)"bye", 3)));
    CHECK(sends(0) && length == 24 && is_sealed(bytes, length));
    CHECK(memcmp(bytes + 4, tag, sizeof tag) == 0 && memcmp(bytes + 12, chunk, sizeof chunk) == 0);
    CHECK(done(sctp_assoc_handle_datagram(&ends[1], 0, bytes, length, &fate)) && fate == SCTP_ASSOC_TAKEN);
    CHECK(!sends(0) && !sends(1));
    for (int end = 0; end < 2; end++) {
        sctp_assoc_event event;
        CHECK(done(sctp_assoc_poll_event(&ends[end], &event)) && event.kind == SCTP_ASSOC_EVENT_LOST);
        CHECK(event.reason == SCTP_ASSOC_REASON_CLOSED && sctp_assoc_is_drained(&ends[end]));
    }
    free_both(ends);
}

/* A HEARTBEAT of one's own has the moment in it and is answered, and neither changes anything else. Before the handshake,
 * behind the beginning of a shutdown and of an empty slot it is refused. By the port's rules nothing goes out. */
static void asks(uint32_t profile) {
    static const uint8_t heartbeat[] = {4, 0, 0, 16, 0, 1, 0, 12, 1, 2, 3, 4, 5, 6, 7, 8};
    bool is_sent = profile == SCTP_ASSOC_PROFILE_RFC;
    config.profile = profile;
    CHECK(sctp_assoc_heartbeat(&ends[0], 0) == SCTP_ASSOC_EMPTY_SLOT);
    begin();
    CHECK(sctp_assoc_heartbeat(&ends[0], 0) == SCTP_ASSOC_NOT_ESTABLISHED);
    CHECK(sctp_assoc_heartbeat(&ends[1], 0) == SCTP_ASSOC_NOT_ESTABLISHED);
    for (int i = 0; i < 2; i++) {
        pass_on(&ends[0], &ends[1], 0);
        pass_on(&ends[1], &ends[0], 0);
    }
    for (int end = 0; end < 2; end++) {
        CHECK(done(sctp_assoc_heartbeat(&ends[end], UINT64_C(0x0102030405060708))));
        CHECK(sends(end) == is_sent);
        if (!is_sent)
            continue;
        CHECK(length == 28 && memcmp(bytes + 12, heartbeat, sizeof heartbeat) == 0 && !sends(end));
        CHECK(done(sctp_assoc_handle_datagram(&ends[!end], 0, bytes, length, &fate)) && fate == SCTP_ASSOC_TAKEN);
        CHECK(sends(!end) && length == 28 && bytes[12] == 5 && memcmp(bytes + 13, heartbeat + 1, 15) == 0);
        CHECK(done(sctp_assoc_handle_datagram(&ends[end], 0, bytes, length, &fate)) && fate == SCTP_ASSOC_TAKEN);
        CHECK(!sends(0) && !sends(1) && sctp_assoc_is_established(&ends[end]));
    }
    CHECK(done(sctp_assoc_shutdown(&ends[0])));
    CHECK(sctp_assoc_heartbeat(&ends[0], 0) == SCTP_ASSOC_NOT_ESTABLISHED);
    free_both(ends);
    config = default_config();
}

static void asks_the_peer(void) {
    asks(SCTP_ASSOC_PROFILE_RFC);
    asks(SCTP_ASSOC_PROFILE_PORT);
}

int main(void) {
    config = default_config();
    TRY(by_tag());
    TRY(leaves_init());
    TRY(init_finds_room());
    TRY(aborts());
    TRY(asks_the_peer());
    puts("datagrams: ok");
    return 0;
}
