/* Data channels event by event and byte by byte: what a side tells, in this order and nothing else, and the messages of
 * DCEP (RFC 8832), which a plain association at the other end reads and writes. */
#include "sides.h"

/* Carries datagrams both ways and lets time pass, until nothing is due any more. No events are taken. */
static void carry(void) {
    for (uint64_t until = now + 10000 * MS; now < until; now += 100 * MS)
        for (int side = 0; side < 2; side++) {
            CHECK(done(sctp_assoc_handle_timeout(&sides[side].assoc, now)));
            pass_on(&sides[side].assoc, &sides[!side].assoc, now);
        }
}

/* ---- Events ---- */

static const char *const event_names[] = {
    [SCTP_CHANNELS_EVENT_CONNECTED] = "connected", [SCTP_CHANNELS_EVENT_ANNOUNCED] = "announced",
    [SCTP_CHANNELS_EVENT_OPENED] = "opened",       [SCTP_CHANNELS_EVENT_MESSAGE] = "message",
    [SCTP_CHANNELS_EVENT_CLOSED] = "closed",       [SCTP_CHANNELS_EVENT_FAILED] = "failed",
    [SCTP_CHANNELS_EVENT_LOST] = "lost",           [SCTP_CHANNELS_EVENT_HANDSHAKE_FAILED] = "handshake failed",
};

/* These events of a side wait, in this order, and no other ones but SCTP_CHANNELS_EVENT_BUFFERED_LOW. */
static void tells(int side, const char *awaited) {
    char line[1000] = "";
    count[side] = 0;
    poll_events(side);
    for (size_t k = 0; k < count[side]; k++) {
        const sctp_channels_event *event = &told[side][k];
        size_t at = strlen(line);
        if (event->kind == SCTP_CHANNELS_EVENT_BUFFERED_LOW)
            continue;
        at += (size_t)snprintf(line + at, sizeof line - at, "%s%s", at ? ", " : "", event_names[event->kind]);
        if (event->kind != SCTP_CHANNELS_EVENT_CONNECTED)
            snprintf(line + at, sizeof line - at, " %u", event->id);
    }
    if (strcmp(line, awaited) != 0)
        fprintf(stderr, "side %d told \"%s\" in place of \"%s\"\n", side, line, awaited);
    CHECK(strcmp(line, awaited) == 0);
}

/* A text, a binary message and an empty one of each are sent at once and received, and nothing is behind them. */
static void send_four(int from, uint16_t channel) {
    static const struct message {
        bool is_text;
        const char *bytes;
    } four[] = {{true, "t"}, {false, "bb"}, {true, ""}, {false, ""}};
    for (size_t k = 0; k < 4; k++)
        CHECK(done(send_on(from, channel, four[k].is_text, four[k].bytes)));
    carry();
    for (int side = 0; side < 2; side++) {
        count[side] = 0;
        poll_events(side);
    }
    CHECK(was_told(!from, SCTP_CHANNELS_EVENT_MESSAGE, channel));
    CHECK(was_told(from, SCTP_CHANNELS_EVENT_BUFFERED_LOW, channel));
    for (size_t k = 0; k < 4; k++) {
        text = !four[k].is_text;
        CHECK(done(receive_on(!from, channel, 100)) && text == four[k].is_text);
        CHECK(length == strlen(four[k].bytes) && memcmp(bytes, four[k].bytes, length) == 0);
    }
    CHECK(receive_on(!from, channel, 100) == SCTP_ASSOC_NOTHING);
}

/* The client's channel 0 is announced to the server, and then it is open. */
static void begins(void) {
    carry();
    tells(1, "announced 0, message 0");
    carry();
    tells(0, "opened 0, message 0");
}

/* The client closes its channel 0, which is gone at both sides once they told it. */
static void closes(void) {
    sctp_channels_info info;
    CHECK(done(sctp_channels_close(&sides[0], 0)));
    CHECK(done(sctp_channels_get_info(&sides[0], 0, &info)) && info.state == SCTP_CHANNELS_STATE_CLOSING);
    carry();
    tells(1, "closed 0");
    carry();
    tells(0, "closed 0");
    for (int side = 0; side < 2; side++)
        CHECK(sctp_channels_get_info(&sides[side], 0, &info) == SCTP_CHANNELS_NO_CHANNEL);
}

/* A channel that is opened before the handshake is used both ways and closed, and its identifier is used again. */
static void whole_life(void) {
    meet();
    CHECK(done(open_as(0, reliable, "chat", "p")) && id == 0);
    CHECK(send_on(0, 0, true, "t") == SCTP_CHANNELS_NOT_OPEN);
    carry();
    tells(0, "connected");
    tells(1, "connected");
    begins();
    send_four(0, 0);
    send_four(1, 0);
    closes();
    CHECK(done(open_as(0, reliable, "chat", "p")) && id == 0);
    tells(0, "");
    begins();
    free_sides();
}

/* A server's channels have the least odd identifiers that no channel has (RFC 8832 section 6), a client's even ones. */
static void identifiers(void) {
    meet();
    for (uint16_t side = 0; side < 2; side++) {
        CHECK(done(open_as(side, reliable, "chat", "p")) && id == side);
        CHECK(done(open_as(side, reliable, "chat", "p")) && id == side + 2);
        CHECK(done(sctp_channels_close(&sides[side], side)));
        CHECK(done(open_as(side, reliable, "chat", "p")) && id == side);
    }
    free_sides();
}

/* A channel that both sides agreed on in another way needs no OPEN. */
static void negotiated(void) {
    sctp_channels_options agreed = {.id = 7, .negotiated = true};
    meet();
    for (int side = 0; side < 2; side++)
        CHECK(done(open_as(side, agreed, "chat", "p")) && id == 7);
    CHECK(open_as(0, agreed, "chat", "p") == SCTP_CHANNELS_IDENTIFIER_TAKEN);
    carry();
    tells(0, "connected, opened 7, message 7");
    tells(1, "connected, opened 7, message 7");
    send_four(0, 7);
    free_sides();
}

/* Hands over what the client sends, and answers how many DATA chunks that are. Each has its U bit set, or none has (RFC
 * 4960 section 3.3.1). */
static unsigned data_sent(bool is_unordered) {
    unsigned chunks = 0;
    uint32_t fate;
    while (done(sctp_assoc_poll_transmit(&sides[0].assoc, now, bytes, sizeof bytes, &length))) {
        for (size_t at = 12; at < length; at += (size_t)((bytes[at + 2] << 8 | bytes[at + 3]) + 3) / 4 * 4)
            if (bytes[at] == 0) {
                CHECK(((bytes[at + 1] & 4) != 0) == is_unordered);
                chunks++;
            }
        CHECK(done(sctp_assoc_handle_datagram(&sides[1].assoc, now, bytes, length, &fate)) && fate == SCTP_ASSOC_TAKEN);
    }
    return chunks;
}

/* What an unordered channel sends before its ACK came is in order (RFC 8832 section 6), and then it is unordered. */
static void unordered(void) {
    sctp_channels_options options = {SCTP_ASSOC_REXMIT, 2, 256, 0, true, false};
    meet();
    carry();
    tells(0, "connected");
    tells(1, "connected");
    CHECK(done(open_as(0, options, "chat", "p")) && id == 0);
    tells(0, "");
    CHECK(done(send_on(0, 0, true, "first")));
    CHECK(data_sent(false) == 2);
    tells(1, "announced 0, message 0, message 0");
    CHECK(done(receive_on(1, 0, 100)) && text && length == 5 && memcmp(bytes, "first", 5) == 0);
    check_info(1, 0, options, "chat", "p");
    carry();
    tells(0, "opened 0, message 0");
    CHECK(done(send_on(0, 0, true, "second")));
    CHECK(data_sent(true) == 1);
    free_sides();
}

/* ---- Messages of DCEP: the second end is a plain association ---- */

static const uint8_t ack[] = {2};

static void writes(uint16_t stream, uint32_t type, const void *message, size_t size) {
    CHECK(done(sctp_assoc_write(&sides[1].assoc, stream, type, message, size)));
    pass_on(&sides[1].assoc, &sides[0].assoc, now);
}

static void reads_dcep(uint16_t stream, const uint8_t *message, size_t size) {
    uint8_t read[100];
    uint32_t type;
    pass_on(&sides[0].assoc, &sides[1].assoc, now);
    CHECK(done(sctp_assoc_read(&sides[1].assoc, stream, read, sizeof read, &length, &type)));
    CHECK(type == SCTP_ASSOC_PPID_DCEP && length == size && memcmp(read, message, size) == 0);
}

/* The channel types of RFC 8832 section 5.1. The reliability parameter of a reliable channel is 0. */
static const struct open {
    const char *name;
    sctp_channels_options options;
    uint8_t type;
    uint16_t parameter;
} opens[] = {
    {"DATA_CHANNEL_RELIABLE", {SCTP_ASSOC_RELIABLE, 7, 256, 0, false, false}, 0x00, 0},
    {"DATA_CHANNEL_RELIABLE_UNORDERED", {SCTP_ASSOC_RELIABLE, 7, 256, 0, true, false}, 0x80, 0},
    {"DATA_CHANNEL_PARTIAL_RELIABLE_REXMIT", {SCTP_ASSOC_REXMIT, 3, 256, 0, false, false}, 0x01, 3},
    {"DATA_CHANNEL_PARTIAL_RELIABLE_REXMIT_UNORDERED", {SCTP_ASSOC_REXMIT, 3, 256, 0, true, false}, 0x81, 3},
    {"DATA_CHANNEL_PARTIAL_RELIABLE_TIMED", {SCTP_ASSOC_TIMED, 500, 256, 0, false, false}, 0x02, 500},
    {"DATA_CHANNEL_PARTIAL_RELIABLE_TIMED_UNORDERED", {SCTP_ASSOC_TIMED, 500, 256, 0, true, false}, 0x82, 500},
};

/* An OPEN goes out as the RFC draws it, and an ACK answers it. */
static void writes_open(void) {
    join();
    tells(0, "connected");
    for (size_t k = 0; k < sizeof opens / sizeof *opens; k++) {
        const struct open *open = &opens[k];
        uint8_t message[] = {3, open->type, 1, 0, 0, 0, 0, 0, 0, 4, 0, 1, 'c', 'h', 'a', 't', 'p'};
        char opened[100];
        tried = open->name;
        message[6] = (uint8_t)(open->parameter >> 8), message[7] = (uint8_t)open->parameter;
        CHECK(done(open_as(0, open->options, "chat", "p")) && id == 2 * k);
        tells(0, "");
        reads_dcep(id, message, sizeof message);
        writes(id, SCTP_ASSOC_PPID_DCEP, ack, sizeof ack);
        snprintf(opened, sizeof opened, "opened %u, message %u", id, id);
        tells(0, opened);
    }
    free_sides();
}

/* An OPEN is read as the RFC draws it, and answered by an ACK. The reliability parameter of a reliable channel is not
 * looked at. */
static void reads_open(void) {
    static const sctp_channels_options rexmit = {SCTP_ASSOC_REXMIT, 3, 512, 0, false, false};
    static const sctp_channels_options loose = {SCTP_ASSOC_RELIABLE, 0, 513, 0, true, false};
    join();
    tells(0, "connected");
    CHECK(done(sctp_assoc_open_stream(&sides[1].assoc, 1, SCTP_ASSOC_PPID_BINARY)));
    writes(1, SCTP_ASSOC_PPID_DCEP, "\3\1\2\0\0\0\0\3\0\1\0\2lpp", 15);
    tells(0, "announced 1, message 1");
    check_info(0, 1, rexmit, "l", "pp");
    reads_dcep(1, ack, sizeof ack);
    CHECK(done(sctp_assoc_open_stream(&sides[1].assoc, 3, SCTP_ASSOC_PPID_BINARY)));
    writes(3, SCTP_ASSOC_PPID_DCEP, "\3\200\2\1\0\0\0\7\0\0\0\0", 12);
    tells(0, "announced 3, message 3");
    check_info(0, 3, loose, "", "");
    reads_dcep(3, ack, sizeof ack);
    free_sides();
}

/* First messages of a stream that are no OPEN. */
static const struct other {
    const char *name;
    uint32_t type;
    const char *message;
    size_t size;
} others[] = {
    {"a text in place of an OPEN", SCTP_ASSOC_PPID_STRING, "no OPEN", 7},
    {"an ACK in place of an OPEN", SCTP_ASSOC_PPID_DCEP, "\2", 1},
    {"an OPEN with a byte behind its label", SCTP_ASSOC_PPID_DCEP, "\3\0\0\0\0\0\0\0\0\1\0\0ab", 14},
    {"an OPEN of an unknown channel type", SCTP_ASSOC_PPID_DCEP, "\3\3\0\0\0\0\0\0\0\0\0\0", 12},
};

/* Such a stream fails, which is told once, and it is reset. */
static void no_open(void) {
    join();
    tells(0, "connected");
    for (size_t k = 0; k < sizeof others / sizeof *others; k++) {
        uint16_t stream = (uint16_t)(4 + 2 * k), ids[1];
        size_t streams;
        char failure[100];
        tried = others[k].name;
        CHECK(done(sctp_assoc_open_stream(&sides[1].assoc, stream, SCTP_ASSOC_PPID_BINARY)));
        writes(stream, others[k].type, others[k].message, others[k].size);
        snprintf(failure, sizeof failure, "failed %u", stream);
        tells(0, failure);
        carry();
        tells(0, "");
        CHECK(done(sctp_assoc_stream_ids(&sides[1].assoc, ids, 1, &streams)) && streams == 0);
        CHECK(send_on(0, stream, true, "t") == SCTP_CHANNELS_NO_CHANNEL);
    }
    free_sides();
}

/* A message of DCEP comes on an open channel. The application receives nothing, and the channel is in this state. */
static void is_dropped(const char *message, size_t size, uint32_t state) {
    sctp_channels_info info;
    writes(0, SCTP_ASSOC_PPID_DCEP, message, size);
    tells(0, "message 0");
    CHECK(receive_on(0, 0, 100) == SCTP_ASSOC_NOTHING);
    CHECK(done(sctp_channels_get_info(&sides[0], 0, &info)) && info.state == state);
}

/* An ACK of four bytes is one. What DCEP does not have is dropped, whatever its length; an OPEN, whatever its length,
 * ends the channel. */
static void long_ack(void) {
    uint32_t type;
    join();
    tells(0, "connected");
    CHECK(done(open_as(0, reliable, "chat", "p")) && id == 0);
    tells(0, "");
    reads_dcep(0, (const uint8_t *)"\3\0\0\0\0\0\0\0\0\4\0\1chatp", 17);
    writes(0, SCTP_ASSOC_PPID_DCEP, "\2\0\0", 4);
    tells(0, "opened 0, message 0");
    CHECK(receive_on(0, 0, 100) == SCTP_ASSOC_NOTHING);
    tells(0, "");
    is_dropped("\2", 1, SCTP_CHANNELS_STATE_OPEN);
    is_dropped("\2\0\0", 4, SCTP_CHANNELS_STATE_OPEN);
    is_dropped("\1\3", 2, SCTP_CHANNELS_STATE_OPEN);
    is_dropped("\377", 1, SCTP_CHANNELS_STATE_OPEN);
    writes(0, SCTP_ASSOC_PPID_STRING, "t", 1);
    tells(0, "message 0");
    CHECK(done(receive_on(0, 0, 100)) && text && length == 1 && bytes[0] == 't');
    CHECK(done(send_on(0, 0, true, "u")));
    pass_on(&sides[0].assoc, &sides[1].assoc, now);
    CHECK(done(sctp_assoc_read(&sides[1].assoc, 0, bytes, sizeof bytes, &length, &type)));
    CHECK(type == SCTP_ASSOC_PPID_STRING && length == 1 && bytes[0] == 'u');
    is_dropped("\3", 1, SCTP_CHANNELS_STATE_CLOSING);
    free_sides();
}

/* A message of a payload type that is none of a channel's is told by a code of its own, and the next one is received. */
static void other_type(void) {
    join();
    tells(0, "connected");
    CHECK(done(sctp_assoc_open_stream(&sides[1].assoc, 1, SCTP_ASSOC_PPID_BINARY)));
    writes(1, SCTP_ASSOC_PPID_DCEP, "\3\0\0\0\0\0\0\0\0\1\0\0x", 13);
    tells(0, "announced 1, message 1");
    writes(1, SCTP_ASSOC_PPID_UNKNOWN, "part", 4);
    writes(1, SCTP_ASSOC_PPID_STRING, "t", 1);
    text = false;
    CHECK(receive_on(0, 1, 3) == SCTP_ASSOC_NO_ROOM && length == 4);
    CHECK(receive_on(0, 1, 100) == SCTP_CHANNELS_OTHER && length == 4 && memcmp(bytes, "part", 4) == 0 && !text);
    CHECK(done(receive_on(0, 1, 100)) && text && length == 1);
    CHECK(receive_on(0, 1, 100) == SCTP_ASSOC_NOTHING);
    free_sides();
}

int main(void) {
    TRY(whole_life());
    TRY(identifiers());
    TRY(negotiated());
    TRY(unordered());
    TRY(writes_open());
    TRY(reads_open());
    TRY(no_open());
    TRY(long_ack());
    TRY(other_type());
    puts("dcep: ok");
    return 0;
}
