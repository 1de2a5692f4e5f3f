/* What comes to an association that tokens joined, and what it answers: SACKs with gap ack blocks, none at all, and
 * FORWARD TSNs; and where the bytes of a message lie that came. The datagrams were spelled apart from the library. */
#include "spelled.h"

#define STREAM 7

/* SACK under the tag 1: the cumulative TSN ack 99, window 1,048,576, and a block of the second TSN past the cumulative
 * TSN ack. */
#define SECOND_CAME                                                                                                    \
    "1388138800000001a0a59fec"                                                                                         \
    "0300001400000063001000000001000000020002"

/* The same with a block of the third and the fourth TSN past the cumulative TSN ack. */
#define FOURTH_CAME                                                                                                    \
    "138813880000000136d07f6f"                                                                                         \
    "0300001400000063001000000001000000030004"

/* FORWARD TSN under the tag 1: new cumulative TSN 502, stream 2 up to the SSN 2. */
#define AHEAD "13881388000000014a613f0ac000000c000001f600020002"

/* I-FORWARD-TSN under the tag 1: new cumulative TSN 502, stream 2 up to the message 65,538. */
#define I_AHEAD "13881388000000016094d973c2000010000001f60002000000010002"

/* FORWARD TSN under the tag 1: new cumulative TSN 499, no stream. */
#define BEHIND "138813880000000126993483c0000008000001f3"

/* SACK under the tag 2: cumulative TSN ack 499, window 1,048,576. */
#define SACK "138813880000000269adb45d03000010000001f30010000000000000\n"

/* ERROR under the tag 0 with the cause Unrecognized Chunk Type. */
#define ERROR "138813880000000016e057730900000800060004\n"

/* DATA of the message "abc" on stream 7 under the tag 2: TSN 100, SSN 0, of the type 51, and a byte of padding. */
#define ABC "1388138800000002bb4627d00003001300000064000700000000003361626300\n"

/* The same with the I bit (RFC 7053), as what goes again has it. */
#define ABC_AGAIN "1388138800000002b68ca00b000b001300000064000700000000003361626300\n"

static sctp_assoc end;

static void write_message(const char *message) {
    CHECK(done(sctp_assoc_write(&end, STREAM, SCTP_ASSOC_PPID_OF_STREAM, (const uint8_t *)message, strlen(message))));
}

static void begin_stream(void) {
    CHECK(done(join(&end, 1200, 1, 2)));
    CHECK(done(sctp_assoc_open_stream(&end, STREAM, SCTP_ASSOC_PPID_STRING)));
}

static bool has_buffered(size_t expected) {
    size_t buffered;
    CHECK(done(sctp_assoc_buffered_amount(&end, STREAM, &buffered)));
    return buffered == expected;
}

/* ---- SACKs, and none ---- */

/* Messages of three bytes, of two and of one are in flight, from TSN 100 on. */
static void begin_sending(void) {
    size_t length;
    begin_stream();
    write_message("abc");
    write_message("de");
    write_message("f");
    CHECK(done(sctp_assoc_poll_transmit(&end, 0, spelled, sizeof spelled, &length)));
    CHECK(has_buffered(6) && path_of(&end).bytes_in_flight == 6);
}

static void a_block_releases_the_bytes_that_it_names(void) {
    begin_sending();
    CHECK(comes(&end, 0, SECOND_CAME) == SCTP_ASSOC_TAKEN && sends(&end, 0, ""));
    CHECK(has_buffered(4) && path_of(&end).bytes_in_flight == 4);
    release(&end);
}

static void a_block_that_names_the_unsent_closes(void) {
    begin_sending();
    CHECK(comes(&end, 0, FOURTH_CAME) == SCTP_ASSOC_TAKEN && sends(&end, 0, ""));
    CHECK(answers(&end, sctp_assoc_is_closed) && sctp_assoc_is_drained(&end) && deadline(&end) == 0);
    release(&end);
}

/* A message that is too long is refused. What goes out and is not acknowledged goes out again at its deadline. */
static void data_that_is_lost_goes_out_again(void) {
    static uint8_t long_message[65537];
    sctp_assoc_totals totals;
    begin_stream();
    write_message("abc");
    CHECK(sctp_assoc_write(&end, STREAM, SCTP_ASSOC_PPID_OF_STREAM, long_message, 65537) ==
          SCTP_ASSOC_MESSAGE_TOO_LONG);
    CHECK(sends(&end, 0, ABC) && path_of(&end).peer_window == 1048573 && deadline(&end) == 3000);
    CHECK(done(sctp_assoc_handle_timeout(&end, 3000 * MS)) && sends(&end, 3000 * MS, ABC_AGAIN));
    CHECK(done(sctp_assoc_stats(&end, &totals)) && totals.retransmission_timeouts == 1);
    release(&end);
}

/* ---- FORWARD TSN ---- */

/* It is acknowledged after 200 ms. */
static void a_forward_tsn_moves_the_last_tsn(void) {
    static const char *const forwards[] = {AHEAD, I_AHEAD};
    for (int i = 0; i < 2; i++) {
        CHECK(done(join(&end, 1200, 1, 2)));
        CHECK(comes(&end, 0, forwards[i]) == SCTP_ASSOC_TAKEN && sends(&end, 0, "") && deadline(&end) == 200);
        CHECK(last_tsn(&end, 0, 1, OLD_DATA) == 502);
        release(&end);
    }
}

static void a_forward_tsn_that_is_behind_is_acknowledged_at_once(void) {
    CHECK(done(join(&end, 1200, 1, 2)));
    CHECK(comes(&end, 0, BEHIND) == SCTP_ASSOC_TAKEN && sends(&end, 0, SACK));
    CHECK(last_tsn(&end, 0, 1, OLD_DATA) == 499);
    release(&end);
}

/* A server to which nothing came knows no peer, and none that lists FORWARD TSN. */
static void a_forward_tsn_that_is_not_in_use_is_refused(void) {
    sctp_assoc_config config = default_config();
    sctp_assoc_identity named = identity_of(1, 500);
    CHECK(done(sctp_assoc_server(&end, &config, 1200, &named, 0)));
    CHECK(comes(&end, 0, AHEAD) == SCTP_ASSOC_TAKEN && sends(&end, 0, ERROR));
    CHECK(answers(&end, sctp_assoc_is_closed) && !sctp_assoc_is_drained(&end));
    CHECK(path_of(&end).peer_window == 0 && deadline(&end) == 0 && is_told_nothing(&end));
    release(&end);
}

/* ---- What was read ---- */

/* A message is copied in once, with its datagram, and lies there until it is read: nothing else is as long. */
static void what_is_read_lies_in_its_datagram(void) {
    static uint8_t message[LONG_PAYLOAD], read[LONG_PAYLOAD];
    const size_t slack = 4000; /* for all that is kept beside the bytes */
    size_t length = spell(spelled, "1388138800000001000000000003ffff000001f40001000000000035");
    uint32_t type;
    CHECK(done(join(&end, 1200, 1, 2)));
    fill(message, LONG_PAYLOAD, 1);
    memcpy(spelled + length, message, LONG_PAYLOAD);
    spelled[length + LONG_PAYLOAD] = 0; /* padding */
    length += LONG_PAYLOAD + 1;
    seal(spelled, length);
    uint64_t before = most_heap_bytes = heap_bytes;
    CHECK(hand_over(&end, 0, spelled, length) == SCTP_ASSOC_TAKEN && heap_bytes >= before + LONG_PAYLOAD);
    CHECK(done(sctp_assoc_read(&end, 1, read, sizeof read, &length, &type)));
    CHECK(length == LONG_PAYLOAD && memcmp(read, message, LONG_PAYLOAD) == 0);
    CHECK(most_heap_bytes < before + LONG_PAYLOAD + slack && heap_bytes < before + slack);
    release(&end);
}

int main(void) {
    a_block_releases_the_bytes_that_it_names();
    a_block_that_names_the_unsent_closes();
    data_that_is_lost_goes_out_again();
    a_forward_tsn_moves_the_last_tsn();
    a_forward_tsn_that_is_behind_is_acknowledged_at_once();
    a_forward_tsn_that_is_not_in_use_is_refused();
    what_is_read_lies_in_its_datagram();
    puts("sacks: ok");
    return 0;
}
