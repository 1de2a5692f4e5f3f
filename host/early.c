/* What comes for channels before the association is established, and how many streams it gets: a client whose peer is
 * spelled apart from the library (RFC 4960, RFC 8832), and whose COOKIE ACK comes late, as when it was lost. */
#include "packets.h"

#define OWN_TSN 500
#define PEER_TSN 100
#define STREAMS 10 /* on which the peer receives */

static const sctp_channels_options reliable = SCTP_CHANNELS_ORDERED_RELIABLE;
static const uint8_t open_message[] = {3, 0, 0, 0, 0, 0, 0, 0, 0, 1, 0, 0, 'x'};
static uint32_t next_tsn; /* of the peer's DATA */
static uint16_t id;

/* ---- What the peer sends ---- */

/* INIT ACK with a State Cookie of six bytes; RE-CONFIG and FORWARD TSN are listed. */
static void peer_meets(void) {
    struct packet packet = packet_for(OWN_TAG);
    add(&packet, 4, 0x02000026);
    add(&packet, 4, PEER_TAG);
    add(&packet, 4, WINDOW);
    add(&packet, 2, 65535);
    add(&packet, 2, STREAMS);
    add(&packet, 4, PEER_TSN);
    add(&packet, 4, 0x80080006);
    add(&packet, 4, 0x82c00000);
    add(&packet, 4, 0x0007000a);
    add(&packet, 4, 0x6f617465);
    add(&packet, 4, 0x6e210000);
    comes(packet, 0);
}

static void peer_accepts(void) {
    struct packet packet = packet_for(OWN_TAG);
    add(&packet, 4, 0x0b000004);
    comes(packet, 0);
}

/* DATA that is an ordered message. */
static void peer_writes(uint16_t stream, uint16_t ssn, uint32_t type, const void *message, size_t size) {
    struct packet packet = packet_for(OWN_TAG);
    add(&packet, 2, 0x0003);
    add(&packet, 2, 16 + (uint32_t)size);
    add(&packet, 4, next_tsn++);
    add(&packet, 2, stream);
    add(&packet, 2, ssn);
    add(&packet, 4, type);
    memcpy(packet.bytes + packet.length, message, size);
    packet.length += (size + 3) / 4 * 4;
    comes(packet, 0);
}

/* ---- What this side does ---- */

/* A client that sent its COOKIE ECHO, with its channels. */
static void greet(void) {
    sctp_assoc_config config = default_config();
    sctp_assoc_identity named = identity(OWN_TAG);
    named.initial_tsn = OWN_TSN;
    CHECK(done(sctp_assoc_client(&end.assoc, &config, PAYLOAD_SIZE, &named, 0)));
    CHECK(done(sctp_channels_begin(&end, SCTP_CHANNELS_SERVER)));
    next_tsn = PEER_TSN;
}

static void meet_peer(void) {
    CHECK(polls(0) && sent.bytes[12] == 1 && !polls(0));
    peer_meets();
    CHECK(polls(0) && sent.bytes[12] == 10 && !polls(0));
}

/* The next event is this one. */
static bool tells(uint32_t kind, uint16_t channel) {
    sctp_channels_event event;
    return done(sctp_channels_poll_event(&end, &event)) && event.kind == kind && event.id == channel;
}

static bool tells_nothing(void) {
    sctp_channels_event event;
    return !done(sctp_channels_poll_event(&end, &event));
}

/* A text of a channel is received, and nothing is behind it. */
static bool receives(uint16_t channel, const char *said) {
    uint8_t message[100];
    size_t length;
    bool is_text;
    return done(sctp_channels_receive(&end, channel, message, sizeof message, &length, &is_text)) && is_text &&
           length == strlen(said) && memcmp(message, said, length) == 0 &&
           !done(sctp_channels_receive(&end, channel, message, sizeof message, &length, &is_text));
}

static sctp_assoc_code send_text(uint16_t channel) {
    return sctp_channels_send(&end, channel, true, (const uint8_t *)"t", 1);
}

static sctp_assoc_code open_as(sctp_channels_options options) {
    return sctp_channels_open(&end, &options, (const uint8_t *)"x", 1, NULL, 0, &id);
}

/* This side sends an ACK on a stream, and perhaps more. */
static bool acknowledges(uint16_t channel) {
    bool is_sent = false;
    while (polls(0))
        for (size_t at = 12; at < sent.length; at += (get(sent.bytes + at + 2, 2) + 3) / 4 * 4)
            is_sent |= sent.bytes[at] == 0 && get(sent.bytes + at + 8, 2) == channel &&
                       get(sent.bytes + at + 12, 4) == SCTP_ASSOC_PPID_DCEP && sent.bytes[at + 16] == 2;
    return is_sent;
}

/* The peer's channel is announced and acknowledged once the association is established, and then its text is received. */
static void announced_once_established(void) {
    sctp_channels_info info;
    greet();
    meet_peer();
    peer_writes(0, 0, SCTP_ASSOC_PPID_DCEP, open_message, sizeof open_message);
    peer_writes(0, 1, SCTP_ASSOC_PPID_STRING, "early", 5);
    CHECK(tells_nothing() && !acknowledges(0) && tells_nothing());
    CHECK(sctp_channels_get_info(&end, 0, &info) == SCTP_CHANNELS_NO_CHANNEL);
    CHECK(send_text(0) == SCTP_CHANNELS_NO_CHANNEL);
    peer_accepts();
    CHECK(tells(SCTP_CHANNELS_EVENT_CONNECTED, 0));
    CHECK(tells(SCTP_CHANNELS_EVENT_ANNOUNCED, 0));
    CHECK(done(send_text(0)));
    CHECK(tells(SCTP_CHANNELS_EVENT_MESSAGE, 0));
    CHECK(receives(0, "early"));
    CHECK(acknowledges(0));
    finish();
}

/* A negotiated channel of which a message came is open once the association is established. */
static void negotiated_once_established(void) {
    sctp_channels_options agreed = {.id = 4, .negotiated = true};
    greet();
    CHECK(done(open_as(agreed)) && id == 4);
    meet_peer();
    peer_writes(4, 0, SCTP_ASSOC_PPID_STRING, "early", 5);
    CHECK(tells_nothing());
    CHECK(send_text(4) == SCTP_CHANNELS_NOT_OPEN);
    peer_accepts();
    CHECK(tells(SCTP_CHANNELS_EVENT_CONNECTED, 0));
    CHECK(tells(SCTP_CHANNELS_EVENT_OPENED, 4));
    CHECK(tells(SCTP_CHANNELS_EVENT_MESSAGE, 4));
    CHECK(receives(4, "early") && done(send_text(4)));
    finish();
}

/* Identifiers stop at the streams on which the peer receives, and before it told how many, at those that are offered. */
static void streams_agreed(void) {
    sctp_channels_options agreed = {.id = 5000, .negotiated = true};
    greet();
    CHECK(done(open_as(agreed)) && id == 5000);
    agreed.id = 65534;
    CHECK(done(open_as(agreed)) && id == 65534);
    meet_peer();
    peer_accepts();
    CHECK(tells(SCTP_CHANNELS_EVENT_CONNECTED, 0));
    CHECK(tells(SCTP_CHANNELS_EVENT_FAILED, 5000));
    CHECK(tells(SCTP_CHANNELS_EVENT_FAILED, 65534));
    CHECK(tells_nothing() && send_text(5000) == SCTP_CHANNELS_NO_CHANNEL);
    agreed.id = STREAMS;
    CHECK(open_as(agreed) == SCTP_CHANNELS_IDENTIFIER_PAST_STREAMS);
    agreed.id = 65535;
    CHECK(open_as(agreed) == SCTP_CHANNELS_IDENTIFIER_TAKEN);
    agreed.id = STREAMS - 1;
    CHECK(done(open_as(agreed)) && id == STREAMS - 1);
    for (uint16_t own = 1; own < STREAMS - 1; own += 2)
        CHECK(done(open_as(reliable)) && id == own);
    CHECK(open_as(reliable) == SCTP_CHANNELS_NO_IDENTIFIER_LEFT);
    finish();
}

int main(void) {
    TRY(announced_once_established());
    TRY(negotiated_once_established());
    TRY(streams_agreed());
    puts("early: ok");
    return 0;
}
