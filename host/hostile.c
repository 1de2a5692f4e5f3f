/* One association against a hostile peer: each chunk in each state, values that no honest peer sends, chunks that are
 * cut, and that none of these counts after a loss. Each row of hostile_rows.h is a case for each state that it names.
 *
 * An association is shown as items with a comma between them. Behind each step there are the chunks that it sends and
 * the events that it tells, or what became of a datagram that did not come to it; behind all of them the state, whether
 * a timer runs, the last TSN in order (`point`), how many DATA chunks and SACKs came, and the buffered amount, each if
 * it changed. No call tells the last TSN, nor all of the state: they are known by what the association answers. */
#include "spelled.h"

#include "hostile_chunks.h"
#include "hostile_rows.h"

#include <stdarg.h>

#define COUNT_OF(array) (sizeof(array) / sizeof *(array))
#define CHECK_ROWS(rows) check_rows(rows, COUNT_OF(rows))

static sctp_assoc end;
static bool was_told_lost;
static unsigned cases;

/* ---- What is shown ---- */

/* What the association shows. */
static char text[2000];
static size_t text_length;

static void forget(void) {
    text_length = 0;
    text[0] = 0;
}

static void add(const char *format, ...) __attribute__((format(printf, 1, 2)));

static void add(const char *format, ...) {
    va_list arguments;
    va_start(arguments, format);
    text_length += (size_t)vsnprintf(text + text_length, sizeof text - text_length, format, arguments);
    va_end(arguments);
    CHECK(text_length < sizeof text);
}

/* Begins the next item. */
static const char *comma(void) {
    return text_length > 0 ? ", " : "";
}

static void add_item(const char *name) {
    add("%s%s", comma(), name);
}

static void add_number(const char *name, uint64_t number) {
    add("%s%s %llu", comma(), name, (unsigned long long)number);
}

/* The next part of a text up to a separator, which the text is without then. Answers whether there was one. */
static bool take_part(const char **rest, char separator, char *part, size_t room) {
    size_t length = 0;
    while (**rest == ' ' || **rest == separator)
        ++*rest;
    while ((*rest)[length] != 0 && (*rest)[length] != separator)
        length++;
    CHECK(length < room);
    memcpy(part, *rest, length);
    part[length] = 0;
    *rest += length;
    return length > 0;
}

/* ---- Packets that come ---- */

static const char *hex_of(const char *name) {
    for (size_t i = 0; i < COUNT_OF(headers); i++)
        if (strcmp(headers[i].name, name) == 0)
            return headers[i].hex;
    for (size_t i = 0; i < COUNT_OF(chunks); i++)
        if (strcmp(chunks[i].name, name) == 0)
            return chunks[i].hex;
    fprintf(stderr, "%s\n", name);
    CHECK(!"there is a chunk of this name");
    return NULL;
}

/* Writes the header and the chunks of these names, and answers how many bytes they are; the sum is 0. */
static size_t make_packet(const char *names, uint8_t *bytes) {
    char name[60];
    size_t length = 0;
    while (take_part(&names, ' ', name, sizeof name))
        length += spell(bytes + length, hex_of(name));
    return length;
}

/* The packet comes with the sum that belongs to it. Answers what became of it. */
static uint32_t packet_comes(const char *names) {
    uint8_t bytes[2000];
    size_t length = make_packet(names, bytes);
    seal(bytes, length);
    return hand_over(&end, 0, bytes, length);
}

/* A packet of one chunk comes, cut after each byte before that chunk's end: under its own sum, for which fewer bytes
 * than a header have no room, and under that of the whole, which is wrong then. */
static void cut_packets_come(const char *names) {
    uint8_t whole[2000], front[2000];
    size_t length = make_packet(names, whole), chunk_end = 12 + read_number(whole + 14, 2);
    CHECK(chunk_end <= length);
    seal(whole, length);
    for (size_t cut = 0; cut < chunk_end; cut++) {
        memcpy(front, whole, cut);
        if (cut >= 12)
            seal(front, cut);
        uint32_t fate = hand_over(&end, 0, front, cut);
        CHECK((fate == SCTP_ASSOC_NO_PACKET) == (cut < 12));
        CHECK(hand_over(&end, 0, whole, cut) == SCTP_ASSOC_NO_PACKET);
    }
}

static void add_fate(uint32_t fate) {
    if (fate == SCTP_ASSOC_NO_PACKET)
        add_item("no packet");
    if (fate == SCTP_ASSOC_OTHER_TAG)
        add_item("other tag");
    if (fate == SCTP_ASSOC_REPEATED_INIT)
        add_item("repeated INIT");
    if (fate == SCTP_ASSOC_OTHER_INIT)
        add_item("other INIT");
}

/* ---- What goes out, and what is told ---- */

static const char *name_of_chunk(uint8_t type) {
    static const char *const names[] = {
        [0] = "DATA",          [1] = "INIT",         [2] = "INIT_ACK",    [3] = "SACK",
        [5] = "HEARTBEAT_ACK", [6] = "ABORT",        [7] = "SHUTDOWN",    [8] = "SHUTDOWN_ACK",
        [9] = "ERROR",         [10] = "COOKIE_ECHO", [11] = "COOKIE_ACK", [14] = "SHUTDOWN_COMPLETE",
        [130] = "RECONFIG",
    };
    return type < COUNT_OF(names) && names[type] ? names[type] : "another chunk";
}

/* A request of outgoing streams (13) with its streams, of which none stands for all; or how a request ended (16). */
static void add_parameter(const uint8_t *parameter) {
    static const char *const results[] = {[1] = "performed", [4] = "already", [5] = "bad number", [6] = "in progress"};
    uint32_t type = read_number(parameter, 2), length = read_number(parameter + 2, 2);
    if (type == 13) {
        add(length > 16 ? " of" : " of all");
        for (uint32_t at = 16; at < length; at += 2)
            add(" %u", (unsigned)read_number(parameter + at, 2));
    } else if (type == 16) {
        uint32_t result = read_number(parameter + 8, 4);
        add(" %s", result < COUNT_OF(results) && results[result] ? results[result] : "otherwise");
    }
}

static void add_chunk(const uint8_t *chunk) {
    add("%ssends %s", comma(), name_of_chunk(chunk[0]));
    if (chunk[0] == 130)
        add_parameter(chunk + 4);
}

/* Has all that goes out looked at, chunk by chunk. */
static void look_at_sent(void (*look_at)(const uint8_t *chunk)) {
    size_t length;
    while (done(sctp_assoc_poll_transmit(&end, 0, spelled, sizeof spelled, &length))) {
        CHECK(is_sealed(spelled, length));
        for (size_t at = 12; at < length; at += (read_number(spelled + at + 2, 2) + 3) / 4 * 4)
            look_at(spelled + at);
    }
}

static void add_lost(uint32_t reason) {
    CHECK(!was_told_lost);
    was_told_lost = true;
    add_item(reason == SCTP_ASSOC_REASON_CLOSED ? "lost closed" : "lost exhausted");
    CHECK(reason == SCTP_ASSOC_REASON_CLOSED || reason == SCTP_ASSOC_REASON_BUFFER_EXHAUSTED);
}

static void add_event(const sctp_assoc_event *event) {
    static const char *const of_streams[] = {
        [SCTP_ASSOC_EVENT_STREAM_ENDED] = "ended",
        [SCTP_ASSOC_EVENT_OPENED] = "opened",
        [SCTP_ASSOC_EVENT_READABLE] = "readable",
        [SCTP_ASSOC_EVENT_BUFFERED_LOW] = "low",
        [SCTP_ASSOC_EVENT_BUFFERED_HIGH] = "high",
        [SCTP_ASSOC_EVENT_FINISHED] = "finished",
        [SCTP_ASSOC_EVENT_RESET_COMPLETE] = "reset complete",
        [SCTP_ASSOC_EVENT_RESET_FAILED] = "reset failed",
    };
    if (event->kind == SCTP_ASSOC_EVENT_CONNECTED)
        add_item("connected");
    else if (event->kind == SCTP_ASSOC_EVENT_HANDSHAKE_FAILED)
        add_item("handshake failed");
    else if (event->kind == SCTP_ASSOC_EVENT_LOST)
        add_lost(event->reason);
    else if (event->kind == SCTP_ASSOC_EVENT_DATAGRAM_RECEIVED)
        add_item("datagram");
    else if (event->kind < COUNT_OF(of_streams) && of_streams[event->kind])
        add_number(of_streams[event->kind], event->stream);
    else
        add_item("another event");
}

static void settle(void) {
    sctp_assoc_event event;
    look_at_sent(add_chunk);
    while (done(sctp_assoc_poll_event(&end, &event)))
        add_event(&event);
}

/* ---- Steps ---- */

/* Messages of these lengths on stream 7. */
static void write_all(const char *lengths) {
    static const uint8_t message[10];
    char length[10];
    CHECK(done(sctp_assoc_open_stream(&end, 7, SCTP_ASSOC_PPID_BINARY)));
    while (take_part(&lengths, ' ', length, sizeof length))
        CHECK(done(sctp_assoc_write(&end, 7, SCTP_ASSOC_PPID_OF_STREAM, message, strtoul(length, NULL, 10))));
}

/* How many bytes the next message of a stream has. */
static void read_one(uint16_t stream) {
    uint8_t message[100];
    size_t length;
    uint32_t type;
    if (done(sctp_assoc_read(&end, stream, message, sizeof message, &length, &type)))
        add_number("reads", length);
    else
        add_item("reads none");
}

/* The application calls, or a datagram comes. */
static void take(const char *step) {
    char word[60];
    const char *rest = step;
    CHECK(take_part(&rest, ' ', word, sizeof word));
    if (strcmp(word, "shutdown") == 0)
        CHECK(done(sctp_assoc_shutdown(&end)));
    else if (strcmp(word, "close") == 0)
        CHECK(done(sctp_assoc_close(&end)));
    else if (strcmp(word, "open") == 0)
        CHECK(done(sctp_assoc_open_stream(&end, (uint16_t)strtoul(rest, NULL, 10), SCTP_ASSOC_PPID_BINARY)));
    else if (strcmp(word, "read") == 0)
        read_one((uint16_t)strtoul(rest, NULL, 10));
    else if (strcmp(word, "write") == 0)
        write_all(rest);
    else if (strcmp(word, "cut") == 0)
        cut_packets_come(rest);
    else
        add_fate(packet_comes(step));
}

static void carry_out(const char *steps) {
    char step[100];
    while (take_part(&steps, ';', step, sizeof step)) {
        take(step);
        settle();
    }
}

/* Makes an association and leads it into a state, which is not shown. */
static void lead(const struct way *way) {
    sctp_assoc_config config = default_config();
    sctp_assoc_identity named = identity_of(2, 100);
    bool is_client = strcmp(way->kind, "client") == 0;
    if (strcmp(way->kind, "narrow") == 0)
        config.max_receive_buffer_size = 1500;
    was_told_lost = false;
    CHECK(done((is_client ? sctp_assoc_client : sctp_assoc_server)(&end, &config, 1200, &named, 0)));
    carry_out(way->steps);
    forget();
}

/* ---- How it stands ---- */

static bool was_sent[256];     /* by the type of a chunk */
static uint64_t last_tsn_told; /* by a SACK */

#define NOT_TOLD UINT64_MAX

static void note_chunk(const uint8_t *chunk) {
    was_sent[chunk[0]] = true;
    if (chunk[0] == 3)
        last_tsn_told = read_number(chunk + 4, 4);
}

static bool is(sctp_assoc_code (*question)(sctp_assoc *, bool *)) {
    return answers(&end, question);
}

/* The state, by which of these packets counts: it is another one after that. */
static const char *find_state(void) {
    if (is(sctp_assoc_is_closed))
        return "Closed";
    if (sctp_assoc_is_established(&end))
        return "Established";
    if (!is(sctp_assoc_is_closing)) {
        packet_comes("to-2 COOKIE_ACK");
        return sctp_assoc_is_established(&end) ? "CookieEchoed" : "CookieWait";
    }
    packet_comes("to-2 SHUTDOWN_COMPLETE");
    if (sctp_assoc_is_drained(&end))
        return "ShutdownAckSent";
    packet_comes("to-2 SHUTDOWN_ACK");
    look_at_sent(note_chunk);
    if (sctp_assoc_is_drained(&end))
        return "ShutdownSent";
    memset(was_sent, 0, sizeof was_sent);
    packet_comes("to-2 SACK_102");
    look_at_sent(note_chunk);
    CHECK(was_sent[7] != was_sent[8]);
    return was_sent[7] ? "ShutdownPending" : "ShutdownReceived";
}

/* The last TSN in order, by the SACK that answers old DATA, if one does: the handshake ends before that. */
static uint64_t find_last_tsn(void) {
    last_tsn_told = NOT_TOLD;
    if (!sctp_assoc_is_established(&end) && !is(sctp_assoc_is_closing))
        packet_comes("to-2 COOKIE_ECHO");
    packet_comes("to-2 DATA_499");
    look_at_sent(note_chunk);
    return last_tsn_told;
}

static uint64_t last_tsn_after(const struct way *way, const char *steps) {
    lead(way);
    carry_out(steps);
    uint64_t tsn = find_last_tsn();
    release(&end);
    return tsn;
}

struct standing {
    bool is_timed;
    uint64_t datas, sacks;
    size_t buffered; /* of stream 7; 0 if there is none */
};

static struct standing stand(void) {
    struct standing standing = {.is_timed = deadline(&end) != 0};
    sctp_assoc_totals totals;
    sctp_assoc_code code = sctp_assoc_buffered_amount(&end, 7, &standing.buffered);
    CHECK(code == SCTP_ASSOC_DONE || code == SCTP_ASSOC_NO_STREAM);
    CHECK(done(sctp_assoc_stats(&end, &totals)));
    standing.datas = totals.data_chunks;
    standing.sacks = totals.sacks;
    CHECK(!is(sctp_assoc_is_failed) && sctp_assoc_is_drained(&end) == was_told_lost);
    CHECK(is(sctp_assoc_is_closed) || !was_told_lost);
    return standing;
}

/* ---- Cases ---- */

static void add_changes(const struct standing *before, const struct standing *now, uint64_t tsn_before, uint64_t tsn) {
    if (before->is_timed != now->is_timed)
        add_item(now->is_timed ? "timer" : "no timer");
    if (tsn != NOT_TOLD && tsn != tsn_before)
        add_number("point", tsn);
    if (now->datas != before->datas)
        add_number("DATA", now->datas);
    if (now->sacks != before->sacks)
        add_number("SACKs", now->sacks);
    if (now->buffered != before->buffered)
        add_number("buffered", now->buffered);
}

/* Shows what follows of these steps in a state. */
static void show(const struct way *way, const char *steps) {
    uint64_t tsn_before = last_tsn_after(way, ""), tsn = last_tsn_after(way, steps);
    lead(way);
    struct standing before = stand();
    carry_out(steps);
    struct standing now = stand();
    const char *state = find_state();
    if (strcmp(state, way->state) != 0)
        add("%sis %s", comma(), state);
    add_changes(&before, &now, tsn_before, tsn);
    if (text_length == 0)
        add("nothing");
    release(&end);
}

static void check_case(const struct way *way, const char *steps, const char *follows) {
    static char name[200];
    snprintf(name, sizeof name, "%s in %s", steps, way->name);
    tried = name;
    show(way, steps);
    if (strcmp(text, follows) != 0)
        fprintf(stderr, "shown:  %s\nwanted: %s\n", text, follows);
    CHECK(strcmp(text, follows) == 0);
    tried = "";
    cases++;
}

static const struct way *way_to(const char *name) {
    for (size_t i = 0; i < COUNT_OF(ways); i++)
        if (strcmp(ways[i].name, name) == 0)
            return &ways[i];
    fprintf(stderr, "%s\n", name);
    CHECK(!"there is a state of this name");
    return NULL;
}

static void check_rows(const struct row *rows, size_t count) {
    char name[30];
    for (size_t i = 0; i < count; i++)
        for (const char *states = rows[i].states; take_part(&states, ' ', name, sizeof name);)
            check_case(way_to(name), rows[i].steps, rows[i].follows);
}

static bool is_lost(const struct way *way) {
    return strncmp(way->name, "lost-", 5) == 0;
}

static void each_way_leads_to_its_state(void) {
    for (size_t i = 0; i < COUNT_OF(ways); i++) {
        tried = ways[i].name;
        lead(&ways[i]);
        CHECK(sctp_assoc_is_drained(&end) == is_lost(&ways[i]));
        CHECK(strcmp(find_state(), ways[i].state) == 0);
        release(&end);
        tried = "";
    }
}

static size_t count_rows(const char *packet, const char *state) {
    char name[30];
    size_t count = 0;
    for (size_t i = 0; i < COUNT_OF(table); i++)
        for (const char *states = table[i].states; take_part(&states, ' ', name, sizeof name);)
            count += strcmp(table[i].steps, packet) == 0 && strcmp(name, state) == 0;
    return count;
}

static void the_table_has_each_packet_in_each_state_once(void) {
    for (size_t i = 0; i < COUNT_OF(packets); i++)
        for (size_t j = 0; j < STATES_OF_TABLE; j++)
            CHECK(count_rows(packets[i], ways[j].name) == 1);
}

/* What follows a packet with this first chunk, given as in a packet, once the association was lost. The peer of each
 * way has the initiate tag 1. */
static const char *behind_a_loss(const char *chunk) {
    if (strncmp(chunk, "01", 2) == 0)
        return strncmp(chunk + 8, "00000001", 8) == 0 ? "repeated INIT" : "other INIT";
    return strncmp(chunk, "08", 2) == 0 ? "sends SHUTDOWN_COMPLETE" : "nothing";
}

/* However the association was lost, these packets change nothing. A SHUTDOWN ACK is answered (RFC 4960 section 8.4). */
static void after_a_loss_nothing_counts(void) {
    char packet[60];
    for (size_t i = 0; i < COUNT_OF(ways); i++) {
        for (size_t j = 0; j < COUNT_OF(packets) && is_lost(&ways[i]); j++) {
            bool is_shutdown_ack = strncmp(packets[j], "to-2 SHUTDOWN_ACK ", 18) == 0;
            check_case(&ways[i], packets[j], behind_a_loss(j == 0 ? hex_of("INIT") : is_shutdown_ack ? "08" : ""));
        }
        for (size_t j = 0; j < COUNT_OF(chunks) && is_lost(&ways[i]); j++) {
            bool is_init = strncmp(chunks[j].hex, "01", 2) == 0;
            snprintf(packet, sizeof packet, "%s %s", is_init ? "to-0" : "to-2", chunks[j].name);
            check_case(&ways[i], packet, behind_a_loss(chunks[j].hex));
        }
    }
}

int main(void) {
    each_way_leads_to_its_state();
    the_table_has_each_packet_in_each_state_once();
    CHECK_ROWS(table);
    CHECK_ROWS(last_tsns);
    CHECK_ROWS(greetings);
    CHECK_ROWS(forms);
    CHECK_ROWS(sacks);
    CHECK_ROWS(forwards);
    CHECK_ROWS(resets);
    CHECK_ROWS(pieces);
    CHECK_ROWS(cuts);
    after_a_loss_nothing_counts();
    printf("hostile: ok (%u cases)\n", cases);
    return 0;
}
