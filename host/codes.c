/* Every code of the interface, every fate of a datagram and every reason that is told, each at least once. Only
 * SCTP_ASSOC_NO_STREAM_LEFT is not, which takes 2^64 streams; SCTP_ASSOC_NO_RANDOM is in identities.c, and
 * SCTP_ASSOC_BAD_INIT in tokens.c. */
#include "support.h"

static sctp_assoc ends[2];
static uint8_t bytes[70000];
static size_t length;
static uint64_t moment;
static uint32_t number;
static uint16_t stream;
static bool answer;
static sctp_assoc_event event;

/* Calls of an empty slot. */
static void empty_slot(void) {
    sctp_assoc none = SCTP_ASSOC_EMPTY;
    CHECK(sctp_assoc_free(&none) == SCTP_ASSOC_EMPTY_SLOT && sctp_assoc_free(NULL) == SCTP_ASSOC_EMPTY_SLOT);
    CHECK(sctp_assoc_shutdown(&none) == SCTP_ASSOC_EMPTY_SLOT);
    CHECK(sctp_assoc_close(&none) == SCTP_ASSOC_EMPTY_SLOT);
    CHECK(sctp_assoc_handle_datagram(&none, 0, bytes, 20, &number) == SCTP_ASSOC_EMPTY_SLOT);
    CHECK(sctp_assoc_poll_transmit(&none, 0, bytes, sizeof bytes, &length) == SCTP_ASSOC_EMPTY_SLOT);
    CHECK(sctp_assoc_poll_timeout(&none, &moment) == SCTP_ASSOC_EMPTY_SLOT);
    CHECK(sctp_assoc_handle_timeout(&none, 0) == SCTP_ASSOC_EMPTY_SLOT);
    CHECK(sctp_assoc_poll_event(&none, &event) == SCTP_ASSOC_EMPTY_SLOT);
    CHECK(sctp_assoc_poll_endpoint_event(&none) == SCTP_ASSOC_EMPTY_SLOT);
    CHECK(!sctp_assoc_is_established(&none) && sctp_assoc_is_drained(&none));
    CHECK(sctp_assoc_is_closing(&none, &answer) == SCTP_ASSOC_EMPTY_SLOT);
    CHECK(sctp_assoc_is_closed(&none, &answer) == SCTP_ASSOC_EMPTY_SLOT);
    CHECK(sctp_assoc_is_failed(&none, &answer) == SCTP_ASSOC_EMPTY_SLOT);
    CHECK(sctp_assoc_open_stream(&none, 1, 53) == SCTP_ASSOC_EMPTY_SLOT);
    CHECK(sctp_assoc_accept_stream(&none, &stream) == SCTP_ASSOC_EMPTY_SLOT);
    CHECK(sctp_assoc_write(&none, 1, 53, bytes, 1) == SCTP_ASSOC_EMPTY_SLOT);
    CHECK(sctp_assoc_read(&none, 1, bytes, sizeof bytes, &length, &number) == SCTP_ASSOC_EMPTY_SLOT);
    CHECK(sctp_assoc_finish(&none, 1) == SCTP_ASSOC_EMPTY_SLOT);
    CHECK(sctp_assoc_stop(&none, 1) == SCTP_ASSOC_EMPTY_SLOT);
    CHECK(sctp_assoc_close_stream(&none, 1) == SCTP_ASSOC_EMPTY_SLOT);
    CHECK(sctp_assoc_set_reliability(&none, 1, false, 0, 0) == SCTP_ASSOC_EMPTY_SLOT);
    CHECK(sctp_assoc_buffered_amount(&none, 1, &length) == SCTP_ASSOC_EMPTY_SLOT);
    CHECK(!none.at && !none.live);
}

/* A slot that is a const object, in memory that cannot be written to, can be asked; and one that is not empty stays as
 * it was. */
static void const_slot(void) {
    static const sctp_assoc none = SCTP_ASSOC_EMPTY;
    const sctp_assoc *asked = &ends[0];
    void *at = asked->at;
    CHECK(!sctp_assoc_is_established(&none) && sctp_assoc_is_drained(&none));
    CHECK(sctp_assoc_is_established(asked) && !sctp_assoc_is_drained(asked));
    CHECK(asked->at == at && asked->live);
}

/* Configurations that are refused, one fault in front of the other and both in front of all else. */
static void refused_configuration(void) {
    sctp_assoc slot = SCTP_ASSOC_EMPTY;
    sctp_assoc_config config = default_config();
    sctp_assoc_identity named = identity(1);
    sctp_assoc_token none;
    CHECK(config.profile == SCTP_ASSOC_PROFILE_RFC);
    memset(&none, 0, sizeof none);
    named.initial_tsn = 0;
    config.rto_max_ms = 0;
    for (uint32_t profile = 0; profile < 4; profile++) {
        sctp_assoc_code expected = profile < 2 ? SCTP_ASSOC_BAD_TIMEOUT : SCTP_ASSOC_BAD_PROFILE;
        config.profile = profile < 3 ? profile : UINT32_MAX;
        CHECK(sctp_assoc_client(&slot, &config, 0, &named, 0) == expected);
        CHECK(sctp_assoc_server(&slot, &config, 0, &named, 0) == expected);
        CHECK(sctp_assoc_joined(&slot, &config, 0, &none, &none) == expected);
    }
    config.rto_max_ms = 1;
    CHECK(sctp_assoc_client(&slot, &config, 0, &named, 0) == SCTP_ASSOC_BAD_PROFILE);
    config.profile = SCTP_ASSOC_PROFILE_PORT;
    CHECK(sctp_assoc_client(&slot, &config, 0, &named, 0) == SCTP_ASSOC_BAD_PAYLOAD_SIZE);
    CHECK(!slot.live && blocks == 0);
}

/* A configuration with one fault makes no side, nor does one of zeros. */
static void refused_by(const sctp_assoc_config *config, sctp_assoc_code expected) {
    sctp_assoc slot = SCTP_ASSOC_EMPTY;
    sctp_assoc_identity named = identity(1);
    sctp_assoc_token token = {.tag = 1, .initial_tsn = 1, .window = 1500};
    CHECK(sctp_assoc_client(&slot, config, PAYLOAD_SIZE, &named, 0) == expected);
    CHECK(sctp_assoc_server(&slot, config, PAYLOAD_SIZE, &named, 0) == expected);
    CHECK(sctp_assoc_joined(&slot, config, PAYLOAD_SIZE, &token, &token) == expected);
    CHECK(!slot.live && blocks == 0);
}

static void unusable_configurations(void) {
    static const sctp_assoc_config zeros;
    sctp_assoc_config config = default_config();
    refused_by(&zeros, SCTP_ASSOC_BAD_PORT);
    config.local_port = 0;
    refused_by(&config, SCTP_ASSOC_BAD_PORT);
    config = default_config(), config.remote_port = 0;
    refused_by(&config, SCTP_ASSOC_BAD_PORT);
    config = default_config(), config.max_num_outbound_streams = 0;
    refused_by(&config, SCTP_ASSOC_BAD_STREAMS);
    config = default_config(), config.max_num_inbound_streams = 0;
    refused_by(&config, SCTP_ASSOC_BAD_STREAMS);
    config = default_config(), config.max_receive_buffer_size = 1499;
    refused_by(&config, SCTP_ASSOC_BAD_WINDOW);
    config = default_config(), config.rto_min_ms = 0;
    refused_by(&config, SCTP_ASSOC_BAD_TIMEOUT);
}

/* A tag of 0 makes neither a client nor a server. */
static void tag_of_0(void) {
    sctp_assoc slot = SCTP_ASSOC_EMPTY;
    sctp_assoc_config config = default_config();
    sctp_assoc_identity named = identity(1);
    named.tag = 0;
    CHECK(sctp_assoc_client(&slot, &config, PAYLOAD_SIZE, &named, 0) == SCTP_ASSOC_BAD_TAG);
    CHECK(sctp_assoc_server(&slot, &config, PAYLOAD_SIZE, &named, 0) == SCTP_ASSOC_BAD_TAG);
    CHECK(!slot.live && blocks == 0);
}

/* Associations that are not made leave the slot as it was. */
static void refused_begin(void) {
    sctp_assoc slot = SCTP_ASSOC_EMPTY;
    sctp_assoc_config config = default_config();
    sctp_assoc_identity named = identity(1);
    CHECK(sctp_assoc_client(&slot, &config, 0, &named, 0) == SCTP_ASSOC_BAD_PAYLOAD_SIZE);
    CHECK(sctp_assoc_server(&slot, &config, 65520, &named, 0) == SCTP_ASSOC_BAD_PAYLOAD_SIZE);
    named.initial_tsn = 0;
    CHECK(sctp_assoc_client(&slot, &config, PAYLOAD_SIZE, &named, 0) == SCTP_ASSOC_BAD_INITIAL_TSN);
    sctp_assoc_token good, bad;
    CHECK(done(sctp_assoc_make_token(&config, 5, 6, &good)));
    CHECK(good.tag == 5 && good.initial_tsn == 6 && good.window == config.max_receive_buffer_size);
    bad = good;
    bad.window = 1499;
    CHECK(sctp_assoc_joined(&slot, &config, PAYLOAD_SIZE, &good, &bad) == SCTP_ASSOC_BAD_TOKEN);
    refused_from = growths + 1, refused_to = UINT64_MAX;
    CHECK(sctp_assoc_joined(&slot, &config, PAYLOAD_SIZE, &good, &good) == SCTP_ASSOC_NO_MEMORY);
    refused_from = refused_to = 0;
    CHECK(!slot.live && blocks == 0);
}

static void refused_streams(void) {
    CHECK(sctp_assoc_write(&ends[0], 1, 53, bytes, 1) == SCTP_ASSOC_NO_STREAM);
    CHECK(sctp_assoc_read(&ends[0], 1, bytes, sizeof bytes, &length, &number) == SCTP_ASSOC_NO_STREAM);
    CHECK(sctp_assoc_finish(&ends[0], 1) == SCTP_ASSOC_NO_STREAM);
    CHECK(sctp_assoc_stop(&ends[0], 1) == SCTP_ASSOC_NO_STREAM);
    CHECK(sctp_assoc_close_stream(&ends[0], 1) == SCTP_ASSOC_NO_STREAM);
    CHECK(sctp_assoc_set_reliability(&ends[0], 1, true, 0, 0) == SCTP_ASSOC_NO_STREAM);
    CHECK(sctp_assoc_buffered_amount(&ends[0], 1, &length) == SCTP_ASSOC_NO_STREAM);
    CHECK(done(sctp_assoc_open_stream(&ends[0], 1, SCTP_ASSOC_PPID_BINARY)));
    CHECK(sctp_assoc_open_stream(&ends[0], 1, SCTP_ASSOC_PPID_BINARY) == SCTP_ASSOC_STREAM_EXISTS);
    CHECK(sctp_assoc_write(&ends[0], 1, 53, bytes, 0) == SCTP_ASSOC_EMPTY_MESSAGE);
    CHECK(sctp_assoc_write(&ends[0], 1, 53, bytes, 65537) == SCTP_ASSOC_MESSAGE_TOO_LONG);
    CHECK(sctp_assoc_read(&ends[0], 1, bytes, sizeof bytes, &length, &number) == SCTP_ASSOC_NOTHING);
    CHECK(sctp_assoc_accept_stream(&ends[0], &stream) == SCTP_ASSOC_NOTHING);
    CHECK(sctp_assoc_poll_event(&ends[0], &event) == SCTP_ASSOC_NOTHING);
    CHECK(sctp_assoc_poll_transmit(&ends[0], 0, bytes, sizeof bytes, &length) == SCTP_ASSOC_NOTHING);
    CHECK(sctp_assoc_poll_timeout(&ends[0], &moment) == SCTP_ASSOC_NOTHING);
}

/* Payload protocol identifiers and reliabilities without a name, in front of all else; the stream stays as it was. */
static void numbers_without_a_name(void) {
    static const uint32_t unnamed[] = {1, 49, 52, 54, 58, UINT32_MAX - 1};
    for (size_t i = 0; i < sizeof unnamed / sizeof *unnamed; i++) {
        CHECK(sctp_assoc_open_stream(&ends[0], 1, unnamed[i]) == SCTP_ASSOC_BAD_PAYLOAD_TYPE);
        CHECK(sctp_assoc_write(&ends[0], 1, unnamed[i], bytes, 0) == SCTP_ASSOC_BAD_PAYLOAD_TYPE);
        CHECK(sctp_assoc_set_payload_type(&ends[0], 1, unnamed[i]) == SCTP_ASSOC_BAD_PAYLOAD_TYPE);
    }
    CHECK(sctp_assoc_open_stream(&ends[0], 2, SCTP_ASSOC_PPID_OF_STREAM) == SCTP_ASSOC_BAD_PAYLOAD_TYPE);
    CHECK(sctp_assoc_set_payload_type(&ends[0], 1, SCTP_ASSOC_PPID_OF_STREAM) == SCTP_ASSOC_BAD_PAYLOAD_TYPE);
    CHECK(sctp_assoc_set_reliability(&ends[0], 1, true, 3, 1) == SCTP_ASSOC_BAD_RELIABILITY);
    CHECK(sctp_assoc_set_reliability(&ends[0], 1, true, UINT32_MAX, 1) == SCTP_ASSOC_BAD_RELIABILITY);
    CHECK(done(sctp_assoc_payload_type(&ends[0], 1, &number)) && number == SCTP_ASSOC_PPID_BINARY);
    sctp_assoc empty = SCTP_ASSOC_EMPTY;
    CHECK(sctp_assoc_open_stream(&empty, 1, 52) == SCTP_ASSOC_BAD_PAYLOAD_TYPE);
    CHECK(sctp_assoc_write(&empty, 1, 52, bytes, 1) == SCTP_ASSOC_BAD_PAYLOAD_TYPE);
}

/* A datagram and a message that do not fit stay, until they do. */
static void no_room(void) {
    fill(bytes, 100, 1);
    CHECK(done(sctp_assoc_write(&ends[0], 1, 51, bytes, 100)));
    uint8_t datagram[200];
    length = 0;
    CHECK(sctp_assoc_poll_transmit(&ends[0], 0, datagram, 10, &length) == SCTP_ASSOC_NO_ROOM && length == 128);
    CHECK(sctp_assoc_poll_transmit(&ends[0], 0, datagram, 128, &length) == SCTP_ASSOC_DONE && length == 128);
    CHECK(done(sctp_assoc_handle_datagram(&ends[1], 0, datagram, 128, &number)) && number == SCTP_ASSOC_TAKEN);

    datagram[127] ^= 1;
    CHECK(done(sctp_assoc_handle_datagram(&ends[1], 0, datagram, 128, &number)) && number == SCTP_ASSOC_NO_PACKET);
    CHECK(done(sctp_assoc_handle_datagram(&ends[1], 0, datagram, 0, &number)) && number == SCTP_ASSOC_NO_PACKET);
    datagram[127] ^= 1;
    CHECK(done(sctp_assoc_handle_datagram(&ends[0], 0, datagram, 128, &number)) && number == SCTP_ASSOC_OTHER_TAG);

    uint8_t short_one[99], whole[100];
    CHECK(sctp_assoc_read(&ends[1], 1, short_one, 99, &length, &number) == SCTP_ASSOC_NO_ROOM && length == 100);
    CHECK(sctp_assoc_read(&ends[1], 1, whole, 100, &length, &number) == SCTP_ASSOC_DONE && length == 100);
    CHECK(number == SCTP_ASSOC_PPID_STRING && !memcmp(whole, bytes, 100));
    CHECK(sctp_assoc_read(&ends[1], 1, whole, 100, &length, &number) == SCTP_ASSOC_NOTHING);
}

/* An INIT that comes again changes nothing, and neither does one with another initiate tag. */
static void later_inits(void) {
    sctp_assoc_config config = default_config();
    sctp_assoc_identity client = identity(1), server = identity(2);
    uint8_t init[200], datagram[300];
    size_t init_length;
    CHECK(done(sctp_assoc_client(&ends[0], &config, PAYLOAD_SIZE, &client, 0)));
    CHECK(done(sctp_assoc_server(&ends[1], &config, PAYLOAD_SIZE, &server, 0)));
    CHECK(sctp_assoc_write(&ends[0], 1, 53, bytes, 1) == SCTP_ASSOC_NO_STREAM);
    CHECK(done(sctp_assoc_open_stream(&ends[0], 1, 53)));
    CHECK(sctp_assoc_write(&ends[0], 1, 53, bytes, 1) == SCTP_ASSOC_NOT_ESTABLISHED);
    CHECK(sctp_assoc_stop(&ends[0], 1) == SCTP_ASSOC_CANNOT_RESET);
    CHECK(sctp_assoc_close_stream(&ends[0], 1) == SCTP_ASSOC_CANNOT_RESET);
    CHECK(sctp_assoc_shutdown(&ends[0]) == SCTP_ASSOC_SHUTDOWN_NOT_ESTABLISHED);
    CHECK(sctp_assoc_poll_endpoint_event(&ends[0]) == SCTP_ASSOC_NOTHING);
    CHECK(done(sctp_assoc_is_closed(&ends[0], &answer)) && !answer);
    CHECK(done(sctp_assoc_is_closed(&ends[1], &answer)) && answer);
    CHECK(!sctp_assoc_is_drained(&ends[1]));
    CHECK(done(sctp_assoc_poll_transmit(&ends[0], 0, init, sizeof init, &init_length)));
    CHECK(done(sctp_assoc_poll_timeout(&ends[0], &moment)) && moment == 3000 * MS);
    CHECK(done(sctp_assoc_handle_datagram(&ends[1], 0, init, init_length, &number)) && number == SCTP_ASSOC_TAKEN);
    for (int i = 0; i < 2; i++) {
        pass_on(&ends[1], &ends[0], 0);
        pass_on(&ends[0], &ends[1], 0);
    }
    CHECK(sctp_assoc_is_established(&ends[1]));
    CHECK(done(sctp_assoc_handle_datagram(&ends[1], 0, init, init_length, &number)));
    CHECK(number == SCTP_ASSOC_REPEATED_INIT);
    init[16] ^= 1;
    seal(init, init_length);
    CHECK(done(sctp_assoc_handle_datagram(&ends[1], 0, init, init_length, &number)));
    CHECK(number == SCTP_ASSOC_OTHER_INIT);
    CHECK(!done(sctp_assoc_poll_transmit(&ends[1], 0, datagram, sizeof datagram, &length)));
    CHECK(sctp_assoc_is_established(&ends[1]));
    free_both(ends);
}

static bool take_event(sctp_assoc *end, uint32_t kind) {
    while (done(sctp_assoc_poll_event(end, &event)))
        if (event.kind == kind)
            return true;
    return false;
}

static void closed(void) {
    CHECK(done(sctp_assoc_finish(&ends[0], 1)));
    CHECK(sctp_assoc_write(&ends[0], 1, 53, bytes, 1) == SCTP_ASSOC_STREAM_CLOSED);
    CHECK(take_event(&ends[1], SCTP_ASSOC_EVENT_OPENED) && event.stream == 1);
    CHECK(take_event(&ends[1], SCTP_ASSOC_EVENT_DATAGRAM_RECEIVED));
    CHECK(take_event(&ends[1], SCTP_ASSOC_EVENT_READABLE) && event.stream == 1);
    CHECK(done(sctp_assoc_close(&ends[1])));
    CHECK(take_event(&ends[1], SCTP_ASSOC_EVENT_STREAM_ENDED) && event.stream == 1);
    CHECK(event.counters.messages_received == 1 && event.counters.bytes_received == 100);
    CHECK(take_event(&ends[1], SCTP_ASSOC_EVENT_LOST) && event.reason == SCTP_ASSOC_REASON_CLOSED);
    CHECK(done(sctp_assoc_is_closed(&ends[1], &answer)) && answer);
    CHECK(done(sctp_assoc_is_failed(&ends[1], &answer)) && !answer);
    CHECK(sctp_assoc_write(&ends[1], 1, 53, bytes, 1) == SCTP_ASSOC_NO_STREAM);
    CHECK(done(sctp_assoc_close(&ends[1])));
    CHECK(!done(sctp_assoc_poll_event(&ends[1], &event)));
}

/* A poll that finds no memory fails the association, and every call says so. */
static void out_of_memory(void) {
    CHECK(done(sctp_assoc_open_stream(&ends[0], 2, 53)));
    CHECK(done(sctp_assoc_write(&ends[0], 2, 53, bytes, 1)));
    CHECK(done(sctp_assoc_is_failed(&ends[0], &answer)) && !answer);
    refused_from = growths + 1, refused_to = UINT64_MAX;
    CHECK(sctp_assoc_poll_transmit(&ends[0], 0, bytes, sizeof bytes, &length) == SCTP_ASSOC_NO_MEMORY);
    refused_from = refused_to = 0;
    CHECK(done(sctp_assoc_is_failed(&ends[0], &answer)) && answer);
    CHECK(sctp_assoc_poll_transmit(&ends[0], 0, bytes, sizeof bytes, &length) == SCTP_ASSOC_FAILED);
    CHECK(sctp_assoc_handle_datagram(&ends[0], 0, bytes, 20, &number) == SCTP_ASSOC_FAILED);
    CHECK(sctp_assoc_handle_timeout(&ends[0], 0) == SCTP_ASSOC_FAILED);
    CHECK(sctp_assoc_poll_event(&ends[0], &event) == SCTP_ASSOC_FAILED);
    CHECK(sctp_assoc_open_stream(&ends[0], 3, 53) == SCTP_ASSOC_FAILED);
    CHECK(sctp_assoc_accept_stream(&ends[0], &stream) == SCTP_ASSOC_NOTHING);
    CHECK(sctp_assoc_write(&ends[0], 2, 53, bytes, 1) == SCTP_ASSOC_FAILED);
    CHECK(sctp_assoc_read(&ends[0], 2, bytes, sizeof bytes, &length, &number) == SCTP_ASSOC_FAILED);
    CHECK(sctp_assoc_finish(&ends[0], 2) == SCTP_ASSOC_FAILED);
    CHECK(sctp_assoc_stop(&ends[0], 2) == SCTP_ASSOC_FAILED);
    CHECK(sctp_assoc_close_stream(&ends[0], 2) == SCTP_ASSOC_FAILED);
    CHECK(sctp_assoc_set_reliability(&ends[0], 2, true, 0, 0) == SCTP_ASSOC_FAILED);
    CHECK(sctp_assoc_buffered_amount(&ends[0], 2, &length) == SCTP_ASSOC_FAILED);
    CHECK(sctp_assoc_shutdown(&ends[0]) == SCTP_ASSOC_FAILED);
    CHECK(sctp_assoc_close(&ends[0]) == SCTP_ASSOC_FAILED);
    CHECK(sctp_assoc_poll_timeout(&ends[0], &moment) == SCTP_ASSOC_NOTHING);
}

/* Lets the timers of a client expire until it gives up. */
static void expire_until_failed(sctp_assoc *end, uint32_t reason) {
    while (done(sctp_assoc_poll_timeout(end, &moment))) {
        CHECK(done(sctp_assoc_handle_timeout(end, moment)));
        while (done(sctp_assoc_poll_transmit(end, moment, bytes, sizeof bytes, &length)))
            ;
    }
    CHECK(take_event(end, SCTP_ASSOC_EVENT_HANDSHAKE_FAILED) && event.reason == reason);
}

static void failed_handshakes(void) {
    sctp_assoc_config config = default_config();
    sctp_assoc_identity client = identity(1), server = identity(2);
    config.max_init_retransmits = 2;
    CHECK(done(sctp_assoc_client(&ends[0], &config, PAYLOAD_SIZE, &client, 0)));
    expire_until_failed(&ends[0], SCTP_ASSOC_REASON_NO_INIT_ACK);
    CHECK(done(sctp_assoc_client(&ends[0], &config, PAYLOAD_SIZE, &client, 0)));
    CHECK(done(sctp_assoc_server(&ends[1], &config, PAYLOAD_SIZE, &server, 0)));
    pass_on(&ends[0], &ends[1], 0);
    pass_on(&ends[1], &ends[0], 0);
    expire_until_failed(&ends[0], SCTP_ASSOC_REASON_NO_COOKIE_ACK);
    free_both(ends);
}

/* A message that does not fit into the receive buffer can never be read. */
static void exhausted(void) {
    sctp_assoc_config config = default_config();
    config.max_receive_buffer_size = 1500;
    config.max_receive_message_size = 65536;
    shake_hands(ends, &config, 0);
    CHECK(done(sctp_assoc_open_stream(&ends[0], 1, 53)));
    CHECK(done(sctp_assoc_write(&ends[0], 1, 53, bytes, 6000)));
    for (uint64_t now = 0; now < 100000 * MS && !take_event(&ends[1], SCTP_ASSOC_EVENT_LOST); now += 100 * MS) {
        for (int end = 0; end < 2; end++) {
            CHECK(done(sctp_assoc_handle_timeout(&ends[end], now)));
            pass_on(&ends[end], &ends[!end], now);
        }
    }
    CHECK(event.kind == SCTP_ASSOC_EVENT_LOST && event.reason == SCTP_ASSOC_REASON_BUFFER_EXHAUSTED);
    free_both(ends);
}

int main(void) {
    sctp_assoc_config config = default_config();
    empty_slot();
    refused_configuration();
    unusable_configurations();
    tag_of_0();
    refused_begin();
    later_inits();
    shake_hands(ends, &config, 0);
    const_slot();
    refused_streams();
    numbers_without_a_name();
    no_room();
    closed();
    out_of_memory();
    free_both(ends);
    failed_handshakes();
    exhausted();
    puts("codes: ok");
    return 0;
}
