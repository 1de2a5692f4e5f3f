/* Packets of a peer that are spelled here, against an end that tokens join (RFC 4960 section 3.3): which gap ack blocks
 * it sends for the DATA that came, what the blocks that come acknowledge of its own, what it sends again and gives up;
 * and the parameters of the chunks with which an association begins and is tested. */
#include "packets.h"

#define MAX_PIECE 1200
#define RANGES 1000

/* DATA of the stream with payload type 51; `flags` has the bits U, B and E (4, 2, 1). */
static struct packet data(uint32_t flags, uint32_t tsn, const char *bytes) {
    struct packet packet = packet_for(OWN_TAG);
    add(&packet, 2, flags);
    add(&packet, 2, 16 + (uint32_t)strlen(bytes));
    add(&packet, 4, tsn);
    add(&packet, 2, STREAM);
    add(&packet, 2, 0);
    add(&packet, 4, SCTP_ASSOC_PPID_STRING);
    for (; *bytes; bytes++)
        add(&packet, 1, (uint8_t)*bytes);
    while (packet.length % 4 != 0)
        add(&packet, 1, 0);
    return packet;
}

/* The end sends this packet now, and no other one. */
static void sends(struct packet packet, uint64_t now) {
    seal(packet.bytes, packet.length);
    CHECK(polls(now));
    CHECK(sent.length == packet.length && memcmp(sent.bytes, packet.bytes, packet.length) == 0);
    CHECK(!polls(now));
}

/* Whether any of these TSNs is taken in: unordered messages of one byte come under them. */
static unsigned taken_in(const uint32_t *tsns, size_t count) {
    sctp_assoc_event event;
    unsigned taken = 0;
    for (size_t i = 0; i < count; i++)
        comes(data(7, tsns[i], "x"), 0);
    while (done(sctp_assoc_poll_event(&end.assoc, &event)))
        taken += event.kind == SCTP_ASSOC_EVENT_DATAGRAM_RECEIVED;
    return taken;
}

static void read_all(void) {
    uint8_t byte[1];
    size_t length;
    uint32_t type;
    while (done(sctp_assoc_read(&end.assoc, STREAM, byte, sizeof byte, &length, &type)))
        CHECK(length == 1 && byte[0] == 'x' && type == SCTP_ASSOC_PPID_STRING);
}

/* ---- What came ---- */

/* The TSNs from one on come in this order, each of them once or again, and are read; then the SACK says so. */
static void came(uint32_t first, const uint32_t *tsns, size_t count, unsigned taken, uint32_t cumulative,
                 const struct block *blocks, size_t number) {
    begin(MAX_PIECE, 100, first, 4660, WINDOW);
    CHECK(taken_in(tsns, count) == taken);
    read_all();
    sends(sack(PEER_TAG, cumulative, 4660, blocks, number), 0);
    finish();
}

static void gaps_are_told(void) {
    static const uint32_t example[] = {17, 15, 14, 12, 11, 10, 14}, joined[] = {102, 104, 103, 103};
    static const uint32_t over_a_range[] = {102, 104, 105, 107, 101}, wrapped[] = {0, UINT32_MAX};
    static const struct block two[] = {{2, 3}, {5, 5}}, one[] = {{2, 4}}, across[] = {{2, 3}};
    came(10, example, COUNT_OF(example), 6, 12, two, 2); /* the example of RFC 4960 section 3.3.4 */
    came(101, joined, COUNT_OF(joined), 3, 100, one, 1);
    came(101, over_a_range, COUNT_OF(over_a_range), 5, 102, two, 2);
    came(UINT32_MAX - 1, wrapped, COUNT_OF(wrapped), 2, UINT32_MAX - 2, across, 1);
}

/* A thousand ranges of one TSN each, which come scattered. */
static void many_gaps_are_told(void) {
    static struct block alone[RANGES];
    begin(MAX_PIECE, 100, 1, 4660, WINDOW);
    for (uint32_t i = 0; i < RANGES; i++) {
        uint32_t tsn = i * 373 % RANGES * 2 + 2;
        CHECK(taken_in(&tsn, 1) == 1);
        alone[i] = (struct block){(uint16_t)(2 * i + 2), (uint16_t)(2 * i + 2)};
    }
    read_all();
    sends(sack(PEER_TAG, 0, 4660, alone, RANGES), 0);
    finish();
}

/* Without credit DATA is taken in where it fills a gap, and not behind all that came. */
static void a_gap_is_filled_without_credit(void) {
    static const uint32_t past_a_gap[] = {1, 0}, behind[] = {2}, missing[] = {UINT32_MAX};
    char all_but_two[1499] = "";
    memset(all_but_two, 'x', 1498);
    begin(MAX_PIECE, 100, UINT32_MAX - 1, 1500, WINDOW);
    comes(data(7, UINT32_MAX - 1, all_but_two), 0);
    CHECK(taken_in(NULL, 0) == 1);
    CHECK(taken_in(past_a_gap, 2) == 2);
    CHECK(taken_in(behind, 1) == 0);
    CHECK(taken_in(missing, 1) == 1);
    sends(sack(PEER_TAG, 1, 0, NULL, 0), 0);
    finish();
}

/* FORWARD TSN takes away what is held up to its TSN, also where numbers wrapped; what follows it is in order then. */
static void tsns_up_to_one_leave(void) {
    static const uint32_t tsns[] = {2, 3, UINT32_MAX};
    struct packet packet = packet_for(OWN_TAG);
    begin(MAX_PIECE, 100, UINT32_MAX - 1, 4660, WINDOW);
    CHECK(taken_in(tsns, COUNT_OF(tsns)) == 3);
    add(&packet, 4, 192u << 24 | 8);
    add(&packet, 4, 2);
    comes(packet, 0);
    read_all();
    sends(sack(PEER_TAG, 3, 4660, NULL, 0), 0);
    finish();
}

/* The last piece of a message comes before the first one, and behind it the buffer stays as it was. */
static void pieces_are_put_together(void) {
    uint8_t buffer[7];
    size_t length;
    uint32_t type;
    begin(MAX_PIECE, 100, UINT32_MAX, 4660, WINDOW);
    comes(data(1, 0, "lo"), 0);
    comes(data(2, UINT32_MAX, "hel"), 0);
    memset(buffer, '.', sizeof buffer);
    CHECK(done(sctp_assoc_read(&end.assoc, STREAM, buffer, sizeof buffer, &length, &type)));
    CHECK(length == 5 && memcmp(buffer, "hello..", 7) == 0 && type == SCTP_ASSOC_PPID_STRING);
    CHECK(!done(sctp_assoc_read(&end.assoc, STREAM, buffer, sizeof buffer, &length, &type)));
    finish();
}

/* ---- What is sent ---- */

/* The end sends one packet now, with DATA of these TSNs; of none, nothing. */
static void sends_data(uint64_t now, const uint32_t *tsns, size_t count) {
    size_t found = 0;
    if (count > 0) {
        CHECK(polls(now));
        for (size_t at = 12; at < sent.length; at += (get(sent.bytes + at + 2, 2) + 3) / 4 * 4, found++)
            CHECK(found < count && sent.bytes[at] == 0 && get(sent.bytes + at + 4, 4) == tsns[found]);
        CHECK(found == count);
    }
    CHECK(!polls(now));
}

static size_t buffered(void) {
    size_t bytes;
    CHECK(done(sctp_assoc_buffered_amount(&end.assoc, STREAM, &bytes)));
    return bytes;
}

static const uint32_t four[] = {100, 101, 102, 103};

/* How many of so many marked pieces go again in the first packet behind a timeout: by the rules of the RFCs the first. */
static size_t going_again(size_t marked) {
    return kept_rules == SCTP_ASSOC_PROFILE_RFC && marked > 1 ? 1 : marked;
}

/* Two pieces go out in one packet, and by the port in one again after the timeout. */
static void data_goes_out_bundled(void) {
    begin(MAX_PIECE, 100, 500, WINDOW, WINDOW);
    write_messages(2, "ab");
    sends_data(0, four, 2);
    sends_data(time_out(), four, going_again(2));
    finish();
}

/* The peer reports the first of four pieces missing: the third report sends it again, and shrinks the window. */
static void the_third_report_sends_again(void) {
    begin(MAX_PIECE, 100, 500, WINDOW, WINDOW);
    write_messages(4, "ab");
    sends_data(0, four, 4);
    for (uint16_t last = 2; last < 5; last++) {
        const struct block named = {2, last};
        comes(sack(OWN_TAG, 99, WINDOW, &named, 1), 40 * MS);
        sends_data(40 * MS, four, last < 4 ? 0 : 1);
        CHECK(path().slow_start_threshold == (last < 4 ? WINDOW : 4 * (MAX_PIECE + 28)));
    }
    finish();
}

/* Blocks acknowledge what they name of four pieces, and each piece once; the others go out again after the timeout. */
static void blocks_acknowledge(const struct block *blocks, size_t count, size_t left, const uint32_t *tsns,
                               size_t number) {
    begin(MAX_PIECE, 100, 500, WINDOW, WINDOW);
    write_messages(4, "ab");
    sends_data(0, four, 4);
    comes(sack(OWN_TAG, 99, WINDOW, blocks, count), 40 * MS);
    CHECK(path().bytes_in_flight == left && buffered() == left);
    sends_data(time_out(), tsns, going_again(number));
    finish();
}

/* A message is given up once its first piece was sent: its rest is let go of, and takes one TSN. */
static void a_begun_message_is_given_up(void) {
    static uint8_t message[2 * MAX_PIECE];
    static const uint32_t begun[] = {UINT32_MAX}, next[] = {1};
    struct packet packet = packet_for(PEER_TAG);
    begin(MAX_PIECE, UINT32_MAX, 500, WINDOW, 1500); /* the second piece finds no room at the peer */
    write_messages(0, "");
    CHECK(done(sctp_assoc_set_reliability(&end.assoc, STREAM, false, SCTP_ASSOC_REXMIT, 0)));
    CHECK(done(sctp_assoc_write(&end.assoc, STREAM, SCTP_ASSOC_PPID_OF_STREAM, message, sizeof message)));
    sends_data(0, begun, 1);
    CHECK(buffered() == sizeof message);
    add(&packet, 4, 192u << 24 | 12); /* FORWARD TSN (RFC 3758 section 3.2) up to TSN 0, of SSN 0 */
    add(&packet, 4, 0);
    add(&packet, 2, STREAM);
    add(&packet, 2, 0);
    sends(packet, time_out());
    CHECK(buffered() == 0 && path().bytes_in_flight == 0);
    CHECK(done(sctp_assoc_write(&end.assoc, STREAM, SCTP_ASSOC_PPID_OF_STREAM, message, 2)));
    sends_data(3000 * MS, next, 1);
    finish();
}

static void what_is_sent(void) {
    static const struct block apart[] = {{2, 2}, {4, 4}}, overlapping[] = {{3, 4}, {2, 3}, {4, 4}, {3, 1}};
    static const uint32_t others[] = {100, 102};
    data_goes_out_bundled();
    the_third_report_sends_again();
    blocks_acknowledge(apart, COUNT_OF(apart), 4, others, 2);
    blocks_acknowledge(overlapping, COUNT_OF(overlapping), 2, others, 1);
    a_begun_message_is_given_up();
}

/* ---- Chunks with parameters ---- */

/* The parameters of the chunk that was sent, which is alone and of this type, begin `before` bytes behind its header.
 * Answers how many there are, and where the first value of the type `wanted` begins. */
static unsigned parameters(uint8_t type, size_t before, uint16_t wanted, const uint8_t **value) {
    unsigned count = 0;
    CHECK(sent.length >= 16 && sent.bytes[12] == type && (get(sent.bytes + 14, 2) + 3) / 4 * 4 == sent.length - 12);
    for (size_t at = 16 + before; at < sent.length; at += (get(sent.bytes + at + 2, 2) + 3) / 4 * 4, count++)
        if (get(sent.bytes + at, 2) == wanted)
            *value = sent.bytes + at + 4;
    return count;
}

/* INIT has the Supported Extensions alone, INIT ACK the cookie, too, and HEARTBEAT ACK what the HEARTBEAT had. */
static void chunks_have_their_parameters(void) {
    sctp_assoc_config config = default_config();
    sctp_assoc_identity client = identity(1), server = identity(2);
    const uint8_t *value = NULL;
    CHECK(done(sctp_assoc_client(&end.assoc, &config, MAX_PIECE, &client, 0)) && polls(0));
    CHECK(parameters(1, 16, 0x8008, &value) == 1 && get(value - 2, 2) == 6 && value[0] == 130 && value[1] == 192);
    struct packet init = sent;
    CHECK(done(sctp_assoc_server(&end.assoc, &config, MAX_PIECE, &server, 0)));
    comes(init, 0);
    CHECK(polls(0));
    CHECK(parameters(2, 16, 7, &value) == 2 && get(value - 2, 2) == 4 + sizeof server.cookie);
    CHECK(memcmp(value, server.cookie, sizeof server.cookie) == 0);
    finish();

    struct packet heartbeat = packet_for(OWN_TAG);
    add(&heartbeat, 4, 4u << 24 | 11);
    add(&heartbeat, 4, 1u << 16 | 7);
    add(&heartbeat, 4, (uint32_t)'a' << 24 | 'b' << 16 | 'c' << 8);
    begin(MAX_PIECE, 100, 500, WINDOW, WINDOW);
    comes(heartbeat, 0);
    CHECK(polls(0));
    CHECK(parameters(5, 0, 1, &value) == 1 && get(value - 2, 2) == 7 && memcmp(value, "abc", 3) == 0);
    finish();
}

int main(void) {
    gaps_are_told();
    many_gaps_are_told();
    a_gap_is_filled_without_credit();
    tsns_up_to_one_leave();
    pieces_are_put_together();
    what_is_sent();
    kept_rules = SCTP_ASSOC_PROFILE_PORT;
    what_is_sent();
    kept_rules = SCTP_ASSOC_PROFILE_RFC;
    chunks_have_their_parameters();
    puts("gap_blocks: ok");
    return 0;
}
