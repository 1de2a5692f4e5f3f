/* A peer that opens a channel anew on a stream of which this side does not know yet that its own reset was performed:
 * the response to that was lost. What the peer sends is spelled apart from the library (RFC 4960, RFC 6525, RFC 8832),
 * and this side has channels. */
#include "packets.h"

#define CHANNEL 0
#define OWN_TSN 500
#define PEER_TSN 100

static const uint8_t open_message[] = {3, 0, 0, 0, 0, 0, 0, 0, 0, 1, 0, 0, 'x'};
static uint64_t now;
static uint32_t next_tsn; /* of the peer's DATA */

/* ---- What the peer sends ---- */

/* DATA that is an ordered message of the channel's stream. */
static void peer_writes(uint16_t ssn, uint32_t type, const void *message, size_t size) {
    struct packet packet = packet_for(OWN_TAG);
    add(&packet, 2, 0x0003);
    add(&packet, 2, 16 + (uint32_t)size);
    add(&packet, 4, next_tsn++);
    add(&packet, 2, CHANNEL);
    add(&packet, 2, ssn);
    add(&packet, 4, type);
    memcpy(packet.bytes + packet.length, message, size);
    packet.length += (size + 3) / 4 * 4;
    comes(packet, now);
}

/* An OPEN, which begins a generation of the stream, and a text behind it. */
static void peer_opens(const char *said) {
    peer_writes(0, SCTP_ASSOC_PPID_DCEP, open_message, sizeof open_message);
    peer_writes(1, SCTP_ASSOC_PPID_STRING, said, strlen(said));
}

/* RE-CONFIG with an outgoing reset request of the channel's stream. */
static void peer_resets(void) {
    struct packet packet = packet_for(OWN_TAG);
    add(&packet, 4, 0x82000016);
    add(&packet, 4, 0x000d0012);
    add(&packet, 4, PEER_TSN);
    add(&packet, 4, OWN_TSN - 1);
    add(&packet, 4, next_tsn - 1);
    add(&packet, 4, CHANNEL << 16);
    comes(packet, now);
}

/* RE-CONFIG with the response that this side's first request was performed. */
static void peer_responds(void) {
    struct packet packet = packet_for(OWN_TAG);
    add(&packet, 4, 0x82000010);
    add(&packet, 4, 0x0010000c);
    add(&packet, 4, OWN_TSN);
    add(&packet, 4, 1);
    comes(packet, now);
}

/* ---- What this side does ---- */

/* The next event is this one. */
static bool tells(uint32_t kind) {
    sctp_channels_event event;
    return done(sctp_channels_poll_event(&end, &event)) && event.kind == kind &&
           (kind == SCTP_CHANNELS_EVENT_CONNECTED || event.id == CHANNEL);
}

static bool tells_nothing(void) {
    sctp_channels_event event;
    return !done(sctp_channels_poll_event(&end, &event));
}

/* The peer's channel is announced, its text is received, and that one came is told so often; nothing is behind that. */
static void announces(const char *said, unsigned times) {
    uint8_t message[100];
    size_t length;
    bool is_text;
    CHECK(tells(SCTP_CHANNELS_EVENT_ANNOUNCED));
    CHECK(tells(SCTP_CHANNELS_EVENT_MESSAGE));
    CHECK(done(sctp_channels_receive(&end, CHANNEL, message, sizeof message, &length, &is_text)));
    CHECK(is_text && length == strlen(said) && memcmp(message, said, length) == 0);
    CHECK(!done(sctp_channels_receive(&end, CHANNEL, message, sizeof message, &length, &is_text)));
    while (--times > 0)
        CHECK(tells(SCTP_CHANNELS_EVENT_MESSAGE));
    CHECK(tells_nothing());
}

/* This side sends an ACK on the channel's stream, and perhaps more. */
static bool acknowledges(void) {
    bool is_sent = false;
    while (polls(now))
        if (sent.bytes[12] == 0)
            is_sent = get(sent.bytes + 14, 2) == 17 && get(sent.bytes + 20, 2) == CHANNEL &&
                      get(sent.bytes + 24, 4) == SCTP_ASSOC_PPID_DCEP && sent.bytes[28] == 2;
    return is_sent;
}

/* This side sends its first request to reset the stream, and perhaps more. */
static bool asks(void) {
    bool is_sent = false;
    while (polls(now))
        if (sent.bytes[12] == 130 && sent.bytes[17] == 13)
            is_sent = get(sent.bytes + 20, 4) == OWN_TSN && get(sent.bytes + 32, 2) == CHANNEL;
    return is_sent;
}

/* Two sides with a channel that the peer opened, and of which it said something. */
static void meet(void) {
    begin(PAYLOAD_SIZE, OWN_TSN, PEER_TSN, WINDOW, WINDOW);
    CHECK(done(sctp_channels_begin(&end, SCTP_CHANNELS_SERVER)));
    now = 0, next_tsn = PEER_TSN;
    CHECK(tells(SCTP_CHANNELS_EVENT_CONNECTED) && tells_nothing());
    peer_opens("first");
    announces("first", 2);
    CHECK(acknowledges());
    comes(sack(OWN_TAG, OWN_TSN, WINDOW, NULL, 0), now);
    CHECK(tells(SCTP_CHANNELS_EVENT_BUFFERED_LOW) && tells_nothing());
}

/* A second channel comes on a stream whose channel still closes here: nothing is told of it until that one is gone,
 * and then it is announced, its message is received, and the peer gets its ACK. */
static void opens_while_closing(void) {
    sctp_channels_info info;
    meet();
    peer_resets();
    CHECK(tells_nothing() && asks());
    now += 1000 * MS;
    peer_opens("second");
    CHECK(tells_nothing());
    CHECK(done(sctp_channels_get_info(&end, CHANNEL, &info)) && info.state == SCTP_CHANNELS_STATE_CLOSING);
    for (int expiry = 0; expiry < 4; expiry++) {
        now = time_out();
        if (asks())
            break;
        CHECK(expiry < 3);
    }
    CHECK(tells_nothing());
    peer_responds();
    CHECK(tells(SCTP_CHANNELS_EVENT_CLOSED));
    announces("second", 1);
    CHECK(acknowledges());
    CHECK(done(sctp_channels_get_info(&end, CHANNEL, &info)) && info.state == SCTP_CHANNELS_STATE_OPEN);
    finish();
}

/* The same, where the second channel comes once the first one is gone. */
static void opens_when_closed(void) {
    meet();
    peer_resets();
    CHECK(tells_nothing() && asks());
    peer_responds();
    CHECK(tells(SCTP_CHANNELS_EVENT_CLOSED) && tells_nothing());
    peer_opens("second");
    announces("second", 2);
    CHECK(acknowledges());
    finish();
}

int main(void) {
    TRY(opens_while_closing());
    TRY(opens_when_closed());
    puts("closing: ok");
    return 0;
}
