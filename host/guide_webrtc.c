/* Runs the C code of docs/GUIDE.md on WebRTC, which host/run takes out of the page, against a peer that sends an INIT
 * as a browser does: channels that were wanted before the role was known, the greatest messages of each way, tokens in
 * INIT chunks, a channel that nobody acknowledges, and what is told of an end. */
#include "sides.h"

#include "guide_webrtc.h"

enum { OURS, BROWSER };

#define PEER_MAX_MESSAGE 65536

static struct wanted wanted[] = {{.label = "chat"}, {.label = "moves", .options = {.unordered = true}}};
static uint8_t message[MAX_MESSAGE + 1];

/* What both have to tell and to send, to and fro, with the time that delayed acknowledgements take. */
static void exchange(void) {
    count[OURS] = count[BROWSER] = 0;
    for (int round = 0; round < 40; round++) {
        for (int side = 0; side < 2; side++) {
            CHECK(done(sctp_assoc_handle_timeout(&sides[side].assoc, now)));
            if (sides[side].channels.live)
                poll_events(side);
            pass_on(&sides[side].assoc, &sides[!side].assoc, now);
        }
        now += 20 * MS;
    }
}

/* This side is the DTLS server, and the peer the client. */
static void meet_browser(void) {
    sctp_assoc_config config = default_config();
    sctp_assoc_identity named = identity(9);
    now = 0;
    config.max_receive_message_size = PEER_MAX_MESSAGE;
    CHECK(done(sctp_assoc_client(&sides[BROWSER].assoc, &config, PAYLOAD_SIZE, &named, now)));
    CHECK(done(sctp_channels_set_max_message_size(&sides[BROWSER], MAX_MESSAGE)));
    CHECK(done(sctp_channels_begin(&sides[BROWSER], SCTP_CHANNELS_CLIENT)));
    CHECK(done(begin_session(&sides[OURS], false, PEER_MAX_MESSAGE, now)));
    CHECK(done(open_wanted(&sides[OURS], wanted, 2)));
    exchange();
}

/* The channels that were wanted have the odd identifiers of a DTLS server, in their order. */
static void what_was_wanted_is_open(void) {
    meet_browser();
    for (uint16_t k = 0; k < 2; k++) {
        CHECK(wanted[k].id == 2 * k + 1);
        CHECK(was_told(OURS, SCTP_CHANNELS_EVENT_OPENED, wanted[k].id));
        CHECK(was_told(BROWSER, SCTP_CHANNELS_EVENT_ANNOUNCED, wanted[k].id));
        check_info(BROWSER, wanted[k].id, wanted[k].options, wanted[k].label, "");
    }
    free_sides();
}

static sctp_assoc_code send_bytes(int side, size_t size) {
    return sctp_channels_send(&sides[side], wanted[0].id, false, message, size);
}

/* One of so many bytes is taken, and comes whole. */
static void carry(int side, size_t size) {
    static uint8_t came[MAX_MESSAGE];
    fill(message, size, (uint32_t)size);
    CHECK(done(send_bytes(side, size)));
    exchange();
    CHECK(done(sctp_channels_receive(&sides[!side], wanted[0].id, came, sizeof came, &length, &text)));
    CHECK(length == size && !text && memcmp(came, message, size) == 0);
}

static void the_greatest_messages_come(void) {
    meet_browser();
    carry(BROWSER, MAX_MESSAGE);
    carry(OURS, PEER_MAX_MESSAGE);
    CHECK(send_bytes(OURS, PEER_MAX_MESSAGE + 1) == SCTP_ASSOC_MESSAGE_TOO_LONG);
    free_sides();
}

/* A peer that doesn't keep to the description ends the association, of which the next poll for events tells. */
static void a_longer_message_ends_it(void) {
    meet_browser();
    CHECK(done(sctp_channels_set_max_message_size(&sides[BROWSER], 0)));
    CHECK(done(send_bytes(BROWSER, MAX_MESSAGE + 1)));
    exchange();
    CHECK(was_told(OURS, SCTP_CHANNELS_EVENT_LOST, 0));
    free_sides();
}

static void a_close_is_told_as_loss(void) {
    meet_browser();
    count[OURS] = 0;
    CHECK(done(sctp_assoc_close(&sides[OURS].assoc)));
    poll_events(OURS);
    CHECK(count[OURS] == 1 && was_told(OURS, SCTP_CHANNELS_EVENT_LOST, 0));
    free_sides();
}

/* Joins both by the INIT chunks that each has of the other. */
static void join_both(void) {
    sctp_assoc_config config = default_config();
    sctp_assoc_token own[2];
    uint8_t inits[2][SCTP_ASSOC_MAX_INIT];
    size_t lengths[2];
    now = 0;
    for (int side = 0; side < 2; side++)
        CHECK(done(offer_token(&config, &own[side], inits[side], &lengths[side])));
    CHECK(join_by_init(&sides[OURS].assoc, &config, &own[OURS], inits[BROWSER], 19) == SCTP_ASSOC_BAD_INIT);
    CHECK(!sides[OURS].assoc.live);
    for (int side = 0; side < 2; side++)
        CHECK(done(join_by_init(&sides[side].assoc, &config, &own[side], inits[!side], lengths[!side])));
}

static void tokens_take_the_place_of_the_handshake(void) {
    join_both();
    begin_sides();
    CHECK(done(open_wanted(&sides[OURS], wanted, 1)));
    exchange();
    CHECK(wanted[0].id == 0 && was_told(OURS, SCTP_CHANNELS_EVENT_OPENED, 0));
    carry(OURS, 1000);
    carry(BROWSER, 1000);
    free_sides();
}

/* The peer takes the OPEN for any message. The channel can be sent on, and is closed. */
static void nobody_acknowledges_the_channel(void) {
    sctp_channels_info info;
    uint32_t type;
    join_both();
    CHECK(done(sctp_channels_begin(&sides[OURS], SCTP_CHANNELS_CLIENT)));
    CHECK(done(open_wanted(&sides[OURS], wanted, 1)));
    exchange();
    CHECK(was_told(OURS, SCTP_CHANNELS_EVENT_CONNECTED, 0));
    CHECK(!was_told(OURS, SCTP_CHANNELS_EVENT_OPENED, wanted[0].id));
    CHECK(done(sctp_channels_get_info(&sides[OURS], wanted[0].id, &info)));
    CHECK(info.state == SCTP_CHANNELS_STATE_CONNECTING && done(send_bytes(OURS, 5)));
    CHECK(done(sctp_channels_close(&sides[OURS], wanted[0].id)));
    exchange();
    while (sctp_assoc_read(&sides[BROWSER].assoc, 0, bytes, sizeof bytes, &length, &type) == SCTP_ASSOC_DONE)
        ;
    exchange();
    CHECK(sctp_channels_get_info(&sides[OURS], wanted[0].id, &info) == SCTP_CHANNELS_NO_CHANNEL);
    free_sides();
}

int main(void) {
    TRY(what_was_wanted_is_open());
    TRY(the_greatest_messages_come());
    TRY(a_longer_message_ends_it());
    TRY(a_close_is_told_as_loss());
    TRY(tokens_take_the_place_of_the_handshake());
    TRY(nobody_acknowledges_the_channel());
    puts("guide_webrtc: ok");
    return 0;
}
