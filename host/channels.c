/* The calls of data channels, each code and each event of theirs at least once, between two ends in memory: channels of
 * every type, text, binary and empty messages, labels, thresholds, and how channels end. */
#include "sides.h"

/* What both sides have to tell and to send, to and fro, with the time that delayed acknowledgements take. */
static void exchange(void) {
    count[0] = count[1] = 0;
    for (int round = 0; round < 6; round++) {
        for (int side = 0; side < 2; side++) {
            CHECK(done(sctp_assoc_handle_timeout(&sides[side].assoc, now)));
            poll_events(side);
            pass_on(&sides[side].assoc, &sides[!side].assoc, now);
            poll_events(!side);
        }
        now += 250 * MS;
    }
}

/* One message goes from a side to the other, as it is. */
static void send_over(int side, uint16_t channel, bool is_text, const char *message) {
    CHECK(done(send_on(side, channel, is_text, message)));
    exchange();
    CHECK(was_told(!side, SCTP_CHANNELS_EVENT_MESSAGE, channel));
    text = !is_text;
    CHECK(done(receive_on(!side, channel, sizeof bytes)));
    CHECK(text == is_text && length == strlen(message) && !memcmp(bytes, message, length));
    CHECK(receive_on(!side, channel, sizeof bytes) == SCTP_ASSOC_NOTHING);
}

/* Every call that needs the association and the channels answers so where one of them is missing. */
static void refuse_without_one(sctp_peer *peer) {
    sctp_channels_event event;
    CHECK(sctp_channels_open(peer, &reliable, bytes, 1, bytes, 1, &id) == SCTP_ASSOC_EMPTY_SLOT);
    CHECK(sctp_channels_poll_event(peer, &event) == SCTP_ASSOC_EMPTY_SLOT);
    CHECK(sctp_channels_send(peer, 0, true, bytes, 1) == SCTP_ASSOC_EMPTY_SLOT);
    CHECK(sctp_channels_receive(peer, 0, bytes, 1, &length, &text) == SCTP_ASSOC_EMPTY_SLOT);
    CHECK(sctp_channels_close(peer, 0) == SCTP_ASSOC_EMPTY_SLOT);
    CHECK(sctp_channels_buffered_amount(peer, 0, &length) == SCTP_ASSOC_EMPTY_SLOT);
    CHECK(sctp_channels_low_threshold(peer, 0, &length) == SCTP_ASSOC_EMPTY_SLOT);
    CHECK(sctp_channels_set_low_threshold(peer, 0, 1) == SCTP_ASSOC_EMPTY_SLOT);
}

/* So do those that need the channels alone where these are missing. */
static void refuse_without_channels(sctp_peer *peer) {
    sctp_channels_info info;
    refuse_without_one(peer);
    CHECK(sctp_channels_get_info(peer, 0, &info) == SCTP_ASSOC_EMPTY_SLOT);
    CHECK(sctp_channels_label(peer, 0, bytes, 1, &length) == SCTP_ASSOC_EMPTY_SLOT);
    CHECK(sctp_channels_protocol(peer, 0, bytes, 1, &length) == SCTP_ASSOC_EMPTY_SLOT);
}

static void empty_peer(void) {
    sctp_peer none = SCTP_PEER_EMPTY;
    refuse_without_channels(&none);
    CHECK(sctp_channels_set_max_message_size(&none, 1) == SCTP_ASSOC_EMPTY_SLOT);
    CHECK(sctp_peer_free(&none) == SCTP_ASSOC_EMPTY_SLOT && sctp_peer_free(NULL) == SCTP_ASSOC_EMPTY_SLOT);
    CHECK(!none.assoc.at && !none.assoc.live && !none.channels.at && !none.channels.live && blocks == 0);
}

static void association_alone(void) {
    sctp_peer peer = SCTP_PEER_EMPTY;
    sctp_assoc_config config = default_config();
    sctp_assoc_identity client = identity(1);
    CHECK(done(sctp_assoc_client(&peer.assoc, &config, PAYLOAD_SIZE, &client, 0)));
    refuse_without_channels(&peer);
    CHECK(peer.assoc.live && !peer.channels.at && !peer.channels.live);
    CHECK(done(sctp_channels_set_max_message_size(&peer, 1)));
    CHECK(sctp_peer_free(&peer) == SCTP_ASSOC_DONE && !peer.assoc.live && blocks == 0);
    CHECK(sctp_peer_free(&peer) == SCTP_ASSOC_EMPTY_SLOT);
}

/* Channels whose association was freed by itself. */
static void channels_alone(void) {
    sctp_channels_info info;
    join();
    CHECK(done(open_as(0, reliable, "label", "protocol")) && id == 0);
    CHECK(sctp_assoc_free(&sides[0].assoc) == SCTP_ASSOC_DONE);
    refuse_without_one(&sides[0]);
    CHECK(sides[0].channels.live && !sides[0].assoc.at && !sides[0].assoc.live);
    CHECK(sctp_channels_set_max_message_size(&sides[0], 1) == SCTP_ASSOC_EMPTY_SLOT);
    CHECK(done(sctp_channels_get_info(&sides[0], 0, &info)) && info.state == SCTP_CHANNELS_STATE_CONNECTING);
    CHECK(done(sctp_channels_label(&sides[0], 0, bytes, sizeof bytes, &length)) && length == 5);
    CHECK(done(sctp_channels_protocol(&sides[0], 0, bytes, sizeof bytes, &length)) && length == 8);
    free_sides();
    CHECK(!sides[0].channels.live && sctp_peer_free(&sides[0]) == SCTP_ASSOC_EMPTY_SLOT);
}

/* Refusals of calls about a channel that is not there. */
static void no_channel(void) {
    sctp_channels_info info;
    join();
    CHECK(send_on(0, 4, true, "none") == SCTP_CHANNELS_NO_CHANNEL);
    CHECK(receive_on(0, 4, sizeof bytes) == SCTP_CHANNELS_NO_CHANNEL);
    CHECK(sctp_channels_close(&sides[0], 4) == SCTP_CHANNELS_NO_CHANNEL);
    CHECK(sctp_channels_get_info(&sides[0], 4, &info) == SCTP_CHANNELS_NO_CHANNEL);
    CHECK(sctp_channels_label(&sides[0], 4, bytes, 1, &length) == SCTP_CHANNELS_NO_CHANNEL);
    CHECK(sctp_channels_protocol(&sides[0], 4, bytes, 1, &length) == SCTP_CHANNELS_NO_CHANNEL);
    CHECK(sctp_channels_buffered_amount(&sides[0], 4, &length) == SCTP_CHANNELS_NO_CHANNEL);
    CHECK(sctp_channels_low_threshold(&sides[0], 4, &length) == SCTP_CHANNELS_NO_CHANNEL);
    CHECK(sctp_channels_set_low_threshold(&sides[0], 4, 1) == SCTP_CHANNELS_NO_CHANNEL);
    free_sides();
}

/* Refusals of sctp_channels_open and _begin; nothing changes. */
static void refused_open(void) {
    sctp_channels_options agreed = {.negotiated = true};
    static uint8_t label[65536];
    join();
    CHECK(sctp_channels_open(&sides[0], &reliable, label, 65536, NULL, 0, &id) == SCTP_CHANNELS_LABEL_TOO_LONG);
    CHECK(sctp_channels_open(&sides[0], &reliable, NULL, 0, label, 65536, &id) == SCTP_CHANNELS_LABEL_TOO_LONG);
    agreed.id = 65535;
    CHECK(open_as(0, agreed, "", "") == SCTP_CHANNELS_IDENTIFIER_TAKEN);
    refused_from = growths + 1, refused_to = UINT64_MAX;
    CHECK(open_as(0, reliable, "chat", "") == SCTP_ASSOC_NO_MEMORY);
    CHECK(sctp_channels_begin(&sides[0], SCTP_CHANNELS_SERVER) == SCTP_ASSOC_NO_MEMORY);
    refused_from = refused_to = 0;
    for (uint32_t even = 0; even < 65536; even += 2) {
        agreed.id = (uint16_t)even;
        CHECK(done(open_as(0, agreed, "", "")) && id == even);
        CHECK(even || open_as(0, agreed, "", "") == SCTP_CHANNELS_IDENTIFIER_TAKEN);
    }
    CHECK(open_as(0, reliable, "", "") == SCTP_CHANNELS_NO_IDENTIFIER_LEFT);
    CHECK(done(open_as(1, reliable, "", "")) && id == 1);
    CHECK(done(sctp_channels_begin(&sides[0], SCTP_CHANNELS_CLIENT)));
    CHECK(done(open_as(0, reliable, "", "")) && id == 0);
    free_sides();
}

/* A channel of each type, opened by either side: the peer is told the same of it, and messages go both ways. */
static void each_type(void) {
    join();
    exchange();
    for (int side = 0; side < 2; side++)
        CHECK(was_told(side, SCTP_CHANNELS_EVENT_CONNECTED, 0));
    uint16_t next[2] = {0, 1};
    for (uint32_t type = 0; type < 12; type++) {
        int side = type % 2;
        sctp_channels_options options = {.reliability = type / 2 % 3, .priority = 256, .unordered = type >= 6};
        options.value = options.reliability == SCTP_ASSOC_RELIABLE ? 0 : 3000 + type;
        CHECK(done(open_as(side, options, "label", type % 3 ? "protocol" : "")) && id == next[side]);
        next[side] += 2;
        uint16_t channel = id;
        sctp_channels_info info;
        CHECK(done(sctp_channels_get_info(&sides[side], channel, &info)));
        CHECK(info.state == SCTP_CHANNELS_STATE_CONNECTING);
        CHECK(receive_on(side, channel, sizeof bytes) == SCTP_ASSOC_NOTHING);
        exchange();
        CHECK(was_told(side, SCTP_CHANNELS_EVENT_OPENED, channel));
        CHECK(was_told(!side, SCTP_CHANNELS_EVENT_ANNOUNCED, channel));
        for (int end = 0; end < 2; end++)
            check_info(end, channel, options, "label", type % 3 ? "protocol" : "");
        for (int end = 0; end < 2; end++) {
            send_over(end, channel, true, "a text");
            send_over(end, channel, false, "bytes");
            send_over(end, channel, true, "");
            send_over(end, channel, false, "");
        }
    }
    free_sides();
}

/* A channel that both sides agreed on in another way, opened before the handshake. */
static void negotiated(void) {
    sctp_channels_options agreed = {.reliability = SCTP_ASSOC_REXMIT, .value = 2, .id = 700, .negotiated = true};
    meet();
    for (int side = 0; side < 2; side++)
        CHECK(done(open_as(side, agreed, "agreed", "")) && id == 700);
    CHECK(send_on(0, 700, true, "early") == SCTP_CHANNELS_NOT_OPEN);
    CHECK(sctp_channels_buffered_amount(&sides[0], 700, &length) == SCTP_ASSOC_NO_STREAM);
    CHECK(done(open_as(0, reliable, "gone", "")) && id == 0);
    CHECK(done(sctp_channels_close(&sides[0], 0)));
    CHECK(sctp_channels_close(&sides[0], 0) == SCTP_CHANNELS_NO_CHANNEL);
    exchange();
    for (int side = 0; side < 2; side++) {
        CHECK(was_told(side, SCTP_CHANNELS_EVENT_CONNECTED, 0));
        CHECK(was_told(side, SCTP_CHANNELS_EVENT_OPENED, 700));
        check_info(side, 700, agreed, "agreed", "");
    }
    send_over(0, 700, true, "over");
    free_sides();
}

/* Messages, labels and protocols for which there is no room stay; those that are too long are refused. */
static void no_room(void) {
    join();
    CHECK(done(open_as(0, reliable, "label", "protocol")) && id == 0);
    exchange();
    CHECK(done(send_on(0, 0, false, "six bytes")));
    exchange();
    CHECK(receive_on(1, 0, 8) == SCTP_ASSOC_NO_ROOM && length == 9);
    CHECK(sctp_channels_receive(&sides[1], 0, NULL, 0, &length, &text) == SCTP_ASSOC_NO_ROOM && length == 9);
    CHECK(done(receive_on(1, 0, 9)) && length == 9 && !text && !memcmp(bytes, "six bytes", 9));
    bytes[0] = 'x';
    CHECK(sctp_channels_label(&sides[1], 0, bytes, 4, &length) == SCTP_ASSOC_NO_ROOM && length == 5);
    CHECK(sctp_channels_protocol(&sides[1], 0, NULL, 0, &length) == SCTP_ASSOC_NO_ROOM && length == 8);
    CHECK(bytes[0] == 'x');
    CHECK(done(sctp_channels_set_max_message_size(&sides[0], 5)));
    CHECK(send_on(0, 0, true, "longer") == SCTP_ASSOC_MESSAGE_TOO_LONG);
    send_over(0, 0, true, "short");
    CHECK(done(sctp_channels_set_max_message_size(&sides[0], 0)));
    send_over(0, 0, true, "longer");
    free_sides();
}

/* The buffered amount of a channel falls to its low threshold. */
static void buffered(void) {
    join();
    CHECK(done(open_as(0, reliable, "", "")) && id == 0);
    exchange();
    CHECK(done(sctp_channels_low_threshold(&sides[0], 0, &length)) && length == 0);
    CHECK(done(sctp_channels_set_low_threshold(&sides[0], 0, 3)));
    CHECK(done(sctp_channels_low_threshold(&sides[0], 0, &length)) && length == 3);
    CHECK(done(send_on(0, 0, true, "a message")));
    CHECK(done(sctp_channels_buffered_amount(&sides[0], 0, &length)) && length == 9);
    exchange();
    CHECK(was_told(0, SCTP_CHANNELS_EVENT_BUFFERED_LOW, 0));
    CHECK(done(sctp_channels_buffered_amount(&sides[0], 0, &length)) && length == 0);
    free_sides();
}

/* A channel is closed by the other side than opened it, and its identifier is free again. */
static void closed(void) {
    sctp_channels_info info;
    join();
    for (int again = 0; again < 2; again++) {
        CHECK(done(open_as(0, reliable, "", "")) && id == 0);
        exchange();
        send_over(0, 0, true, "before the end");
        CHECK(done(sctp_channels_close(&sides[1], 0)));
        CHECK(done(sctp_channels_get_info(&sides[1], 0, &info)) && info.state == SCTP_CHANNELS_STATE_CLOSING);
        CHECK(send_on(1, 0, true, "late") == SCTP_CHANNELS_NOT_OPEN);
        CHECK(done(sctp_channels_close(&sides[1], 0)));
        exchange();
        for (int side = 0; side < 2; side++) {
            CHECK(was_told(side, SCTP_CHANNELS_EVENT_CLOSED, 0));
            CHECK(sctp_channels_get_info(&sides[side], 0, &info) == SCTP_CHANNELS_NO_CHANNEL);
        }
    }
    free_sides();
}

/* A stream of the peer that begins with something else than an OPEN, and the end of the association. */
static void failed_and_lost(void) {
    join();
    CHECK(done(sctp_assoc_open_stream(&sides[1].assoc, 9, SCTP_ASSOC_PPID_STRING)));
    CHECK(done(sctp_assoc_write(&sides[1].assoc, 9, SCTP_ASSOC_PPID_OF_STREAM, (const uint8_t *)"no OPEN", 7)));
    exchange();
    CHECK(was_told(0, SCTP_CHANNELS_EVENT_FAILED, 9));
    CHECK(done(open_as(0, reliable, "", "")) && id == 0);
    exchange();
    CHECK(done(sctp_assoc_abort(&sides[0].assoc, NULL, 0)));
    CHECK(sctp_channels_close(&sides[0], 0) == SCTP_ASSOC_NO_STREAM);
    count[0] = count[1] = 0;
    for (int side = 0; side < 2; side++) {
        pass_on(&sides[0].assoc, &sides[1].assoc, now);
        poll_events(side);
        CHECK(was_told(side, SCTP_CHANNELS_EVENT_LOST, 0));
        CHECK(told[side][count[side] - 1].reason == SCTP_ASSOC_REASON_CLOSED);
    }
    CHECK(send_on(0, 0, true, "late") == SCTP_CHANNELS_NO_CHANNEL);
    CHECK(open_as(0, reliable, "late", "") == SCTP_CHANNELS_LOST);
    free_sides();
}

/* Roles and reliabilities without a name. */
static void numbers_without_a_name(void) {
    sctp_peer peer = SCTP_PEER_EMPTY;
    sctp_channels_options options = reliable;
    uint16_t id;
    CHECK(sctp_channels_begin(&peer, 2) == SCTP_CHANNELS_BAD_ROLE);
    CHECK(sctp_channels_begin(&peer, UINT32_MAX) == SCTP_CHANNELS_BAD_ROLE && !peer.channels.live && blocks == 0);
    options.reliability = 3;
    CHECK(sctp_channels_open(&peer, &options, NULL, 0, NULL, 0, &id) == SCTP_ASSOC_BAD_RELIABILITY);
}

/* INITs that nobody answers. */
static void handshake_failed(void) {
    sctp_assoc_config config = default_config();
    sctp_assoc_identity client = identity(1);
    config.max_init_retransmits = 1;
    CHECK(done(sctp_assoc_client(&sides[0].assoc, &config, PAYLOAD_SIZE, &client, 0)));
    CHECK(done(sctp_channels_begin(&sides[0], SCTP_CHANNELS_CLIENT)));
    CHECK(done(open_as(0, reliable, "", "")));
    count[0] = 0;
    uint64_t moment;
    while (done(sctp_assoc_poll_timeout(&sides[0].assoc, &moment))) {
        CHECK(done(sctp_assoc_handle_timeout(&sides[0].assoc, moment)));
        while (done(sctp_assoc_poll_transmit(&sides[0].assoc, moment, bytes, sizeof bytes, &length)))
            ;
    }
    poll_events(0);
    CHECK(was_told(0, SCTP_CHANNELS_EVENT_HANDSHAKE_FAILED, 0));
    CHECK(told[0][count[0] - 1].reason == SCTP_ASSOC_REASON_NO_INIT_ACK);
    CHECK(sctp_peer_free(&sides[0]) == SCTP_ASSOC_DONE);
    CHECK(blocks == 0);
}

/* Memory that is refused once, at each growth in turn: the call can be made again, or the association has failed. */
static void refused_memory(void) {
    for (uint64_t nth = 1, refused = 1; refused; nth++) {
        join();
        refused_from = growths + nth, refused_to = refused_from + 1;
        sctp_assoc_code code = open_as(0, reliable, "label", "protocol");
        CHECK(code == SCTP_ASSOC_DONE || code == SCTP_ASSOC_NO_MEMORY);
        sctp_channels_event event;
        do
            code = sctp_channels_poll_event(&sides[0], &event);
        while (code == SCTP_ASSOC_DONE || code == SCTP_ASSOC_NO_MEMORY);
        CHECK(code == SCTP_ASSOC_NOTHING || code == SCTP_ASSOC_FAILED);
        refused = growths >= refused_from;
        refused_from = refused_to = 0;
        free_sides();
    }
}

int main(void) {
    TRY(empty_peer());
    TRY(association_alone());
    TRY(channels_alone());
    TRY(no_channel());
    TRY(refused_open());
    TRY(each_type());
    TRY(negotiated());
    TRY(no_room());
    TRY(buffered());
    TRY(closed());
    TRY(failed_and_lost());
    TRY(numbers_without_a_name());
    TRY(handshake_failed());
    TRY(refused_memory());
    puts("channels: ok");
    return 0;
}
