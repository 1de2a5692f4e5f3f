/* One session again and again, with another of its growths refused each time, and then with all growths from there on:
 * a handshake, messages of 1 to 65,536 bytes over three streams of which each fifth datagram is lost at first, a stream
 * that is reset, opened again and reset once more, and a shutdown.
 *
 * - All replies before the refusal are those of the full run: codes, datagrams, messages, events and moments. The call
 *   inside which it happens replies so, too, or by SCTP_ASSOC_NO_MEMORY.
 * - If that leaves the association as it was, the call is made again. After a growth that was refused alone, all
 *   replies go on as in the full run then.
 * - Whatever is refused, nothing is read that was not written, nothing twice, and on an ordered stream nothing out of
 *   order; an end that failed refuses all by name, and all blocks are given back.
 *
 *   refused_memory [EVERY]     tries each EVERY-th growth; 1 if nothing is said */
#include "support.h"

#define MESSAGES 6
#define MOST_REPLIES 100000
#define TURNS_AFTER_FAILURE 12

enum { IN_ORDER, IN_ANY_ORDER, BACK, RESET, STREAMS };

static const size_t sizes[STREAMS][MESSAGES] = {
    {1, 1200, 65536, 40, 5000, 300},
    {1, 1200, 5000, 40, 9000, 300},
    {1, 1200, 5000, 40, 9000, 300},
    {1, 1200, 5000, 40, 2000, 300},
};

static sctp_assoc ends[2];
static uint64_t now;
static uint32_t datagrams, written[STREAMS], read_count[STREAMS];
static bool was_read[STREAMS][MESSAGES], is_reset_complete;
static uint8_t bytes[65536], wanted[65536];

static bool is_failed(int end) {
    bool answer = false;
    sctp_assoc_is_failed(&ends[end], &answer);
    return answer;
}

/* ---- Replies, beside those of the full run ---- */

static uint64_t full[MOST_REPLIES]; /* of the full run: each with what it gave, as a number */
static size_t full_count, replies;
static bool is_full;      /* nothing is refused */
static bool has_diverged; /* a call was refused, and what follows may be otherwise */
static bool was_called_again;

/* A call of an end, which is made again if memory was refused and nothing changed. `output` is a number for what it
 * gives if it is done. */
#define CALL(end, call, output)                                                                                        \
    (refused_before = refusals(), code = (call), is_to_be_made_again(end) ? (code = (call)) : code,                    \
     replied(code == SCTP_ASSOC_DONE ? (output) : 0))
static sctp_assoc_code code;
static uint64_t refused_before;

/* How many growths were refused so far. */
static uint64_t refusals(void) {
    uint64_t past = growths + 1 < refused_to ? growths + 1 : refused_to;
    return past > refused_from && refused_to != 0 ? past - refused_from : 0;
}

static bool is_to_be_made_again(int end) {
    bool is_again = code == SCTP_ASSOC_NO_MEMORY && !is_failed(end);
    CHECK(code != SCTP_ASSOC_NO_MEMORY || refusals() > refused_before);
    was_called_again |= is_again;
    return is_again;
}

static uint64_t number_of(const void *data, size_t length) {
    uint64_t number = UINT64_C(0xcbf29ce484222325);
    for (size_t i = 0; i < length; i++)
        number = (number ^ ((const uint8_t *)data)[i]) * UINT64_C(0x100000001b3);
    return number;
}

/* Looks at the code and the output of a call, and answers the code. */
static sctp_assoc_code replied(uint64_t output) {
    uint64_t parts[2] = {code, output}, number = number_of(parts, sizeof parts);
    CHECK(replies < MOST_REPLIES);
    if (is_full)
        full[full_count++] = number;
    else if (code == SCTP_ASSOC_NO_MEMORY)
        has_diverged = true;
    else if (!has_diverged)
        CHECK(replies < full_count && full[replies] == number);
    replies++;
    return code;
}

/* ---- What is written and read ---- */

static uint32_t number_in(uint32_t stream, uint32_t place) {
    return place + 100 * (stream + 1);
}

static void write_message(int end, uint32_t stream) {
    uint32_t place = written[stream];
    fill(bytes, sizes[stream][place], number_in(stream, place));
    CALL(end, sctp_assoc_write(&ends[end], (uint16_t)stream, 53, bytes, sizes[stream][place]), 0);
    written[stream] += code == SCTP_ASSOC_DONE;
}

static void write_messages(int end, uint32_t stream) {
    do
        write_message(end, stream);
    while (code == SCTP_ASSOC_DONE && written[stream] < MESSAGES);
}

/* The message that was read is the next one of its stream, or any that was not read yet. */
static void look_at(uint32_t stream, size_t length) {
    CHECK(stream < STREAMS);
    for (uint32_t i = 0; i < written[stream]; i++) {
        fill(wanted, sizes[stream][i], number_in(stream, i));
        if (sizes[stream][i] != length || memcmp(wanted, bytes, length) != 0)
            continue;
        CHECK(!was_read[stream][i]);
        CHECK(stream == IN_ANY_ORDER || i == read_count[stream]);
        was_read[stream][i] = true;
        read_count[stream]++;
        return;
    }
    CHECK(!"what was read was written");
}

/* Of a stream: first into a buffer that is too short for most. */
static void read_messages(int end, uint16_t stream) {
    size_t length = 0;
    uint32_t type;
    for (;;) {
        CALL(end, sctp_assoc_read(&ends[end], stream, bytes, 100, &length, &type), number_of(bytes, length) ^ type);
        size_t needed = length;
        if (code == SCTP_ASSOC_NO_ROOM)
            CALL(end, sctp_assoc_read(&ends[end], stream, bytes, sizeof bytes, &length, &type),
                 number_of(bytes, length) ^ type);
        if (code != SCTP_ASSOC_DONE)
            return;
        CHECK(type == SCTP_ASSOC_PPID_BINARY && length == needed);
        look_at(stream, length);
    }
}

static uint64_t number_of_event(const sctp_assoc_event *event) {
    const uint64_t parts[] = {event->kind,
                              event->reason,
                              event->stream,
                              event->counters.messages_sent,
                              event->counters.bytes_sent,
                              event->counters.messages_received,
                              event->counters.bytes_received};
    return number_of(parts, sizeof parts);
}

static void take_events(int end) {
    sctp_assoc_event event;
    while (CALL(end, sctp_assoc_poll_event(&ends[end], &event), number_of_event(&event)) == SCTP_ASSOC_DONE) {
        if (event.kind == SCTP_ASSOC_EVENT_READABLE)
            read_messages(end, event.stream);
        is_reset_complete |= end == 0 && event.kind == SCTP_ASSOC_EVENT_RESET_COMPLETE;
    }
}

/* ---- What goes between the ends ---- */

/* Every fifth datagram of the first 60 is lost, so that DATA comes out of order and goes out again. */
static void pass_datagrams(int from) {
    uint8_t datagram[PAYLOAD_SIZE + 28];
    size_t room = sizeof datagram, length;
    uint32_t fate;
    while (CALL(from, sctp_assoc_poll_transmit(&ends[from], now, datagram, room, &length),
                number_of(datagram, length)) == SCTP_ASSOC_DONE) {
        datagrams++;
        if (datagrams < 60 && datagrams % 5 == 0)
            continue;
        CALL(!from, sctp_assoc_handle_datagram(&ends[!from], now, datagram, length, &fate), fate);
        take_events(!from);
    }
}

/* Until neither end has anything to send at this moment. */
static void pass_all(void) {
    for (uint32_t before = datagrams - 1; before != datagrams;) {
        before = datagrams;
        for (int end = 0; end < 2; end++) {
            pass_datagrams(end);
            take_events(end);
            for (uint16_t stream = 0; stream < STREAMS; stream++)
                read_messages(end, stream);
        }
    }
}

/* Some turns, or until neither end waits for anything. */
static void turns(int count) {
    for (int i = 0; i < count; i++) {
        pass_all();
        uint64_t least = UINT64_MAX, due;
        for (int end = 0; end < 2; end++)
            if (CALL(end, sctp_assoc_poll_timeout(&ends[end], &due), due) == SCTP_ASSOC_DONE && due < least)
                least = due;
        if (least == UINT64_MAX || (i >= TURNS_AFTER_FAILURE && (is_failed(0) || is_failed(1))))
            return;
        now = least > now ? least : now;
        for (int end = 0; end < 2; end++)
            CALL(end, sctp_assoc_handle_timeout(&ends[end], now), 0);
    }
}

/* ---- The session ---- */

static void begin(void) {
    sctp_assoc_config config = default_config();
    sctp_assoc_identity client = identity(1), server = identity(2);
    now = replies = datagrams = 0;
    has_diverged = was_called_again = is_reset_complete = false;
    memset(written, 0, sizeof written);
    memset(read_count, 0, sizeof read_count);
    memset(was_read, 0, sizeof was_read);
    CALL(0, sctp_assoc_client(&ends[0], &config, PAYLOAD_SIZE, &client, now), 0);
    CALL(1, sctp_assoc_server(&ends[1], &config, PAYLOAD_SIZE, &server, now), 0);
    turns(10);
}

/* The stream is opened, written and closed; both ends reset it. */
static void use_and_reset(void) {
    is_reset_complete = false;
    CALL(0, sctp_assoc_open_stream(&ends[0], RESET, SCTP_ASSOC_PPID_BINARY), 0);
    for (int i = 0; i < MESSAGES / 2; i++)
        write_message(0, RESET);
    CALL(0, sctp_assoc_close_stream(&ends[0], RESET), 0);
    turns(200);
}

static void session(void) {
    uint16_t ids[STREAMS];
    size_t count;
    begin();
    CALL(0, sctp_assoc_open_stream(&ends[0], IN_ORDER, SCTP_ASSOC_PPID_BINARY), 0);
    CALL(0, sctp_assoc_open_stream(&ends[0], IN_ANY_ORDER, SCTP_ASSOC_PPID_BINARY), 0);
    CALL(1, sctp_assoc_open_stream(&ends[1], BACK, SCTP_ASSOC_PPID_BINARY), 0);
    CALL(0, sctp_assoc_set_reliability(&ends[0], IN_ANY_ORDER, true, SCTP_ASSOC_RELIABLE, 0), 0);
    CALL(0, sctp_assoc_stream_ids(&ends[0], ids, STREAMS, &count), number_of(ids, count * sizeof *ids));
    write_messages(0, IN_ORDER);
    write_messages(0, IN_ANY_ORDER);
    write_messages(1, BACK);
    turns(200);
    for (int i = 0; i < 2; i++)
        use_and_reset();
    CHECK(is_reset_complete || has_diverged);
    CALL(0, sctp_assoc_shutdown(&ends[0]), 0);
    turns(20);
}

/* An end that failed does nothing any more, and says so. */
static void check_failed(int end) {
    uint64_t due;
    uint16_t stream;
    sctp_assoc_event event;
    CHECK(sctp_assoc_poll_timeout(&ends[end], &due) == SCTP_ASSOC_NOTHING);
    CHECK(sctp_assoc_accept_stream(&ends[end], &stream) == SCTP_ASSOC_NOTHING);
    CHECK(sctp_assoc_poll_event(&ends[end], &event) == SCTP_ASSOC_FAILED);
    CHECK(sctp_assoc_write(&ends[end], IN_ORDER, 53, bytes, 1) == SCTP_ASSOC_FAILED);
    CHECK(sctp_assoc_handle_timeout(&ends[end], now) == SCTP_ASSOC_FAILED);
    CHECK(sctp_assoc_shutdown(&ends[end]) == SCTP_ASSOC_FAILED);
    CHECK(sctp_assoc_close(&ends[end]) == SCTP_ASSOC_FAILED);
    CHECK(sctp_assoc_close_stream(&ends[end], IN_ORDER) == SCTP_ASSOC_FAILED);
}

static bool is_any_failed(void) {
    return is_failed(0) || is_failed(1);
}

static uint64_t failed_count, again_count; /* of growths that were refused alone */

/* Runs the session with these growths refused. Answers how many there were. */
static uint64_t refuse(uint64_t from, uint64_t to) {
    growths = 0;
    refused_from = from;
    refused_to = to;
    is_full = from == to;
    session();
    uint64_t count = growths;
    refused_from = refused_to = 0;
    for (int end = 0; end < 2; end++)
        if (is_failed(end))
            check_failed(end);
    if (to <= from + 1 && !is_any_failed()) {
        CHECK(!has_diverged && replies == full_count);
        for (int stream = 0; stream < STREAMS; stream++)
            CHECK(written[stream] == MESSAGES && read_count[stream] == MESSAGES);
        CHECK(sctp_assoc_is_drained(&ends[0]) && sctp_assoc_is_drained(&ends[1]));
    }
    failed_count += to == from + 1 && is_any_failed();
    again_count += to == from + 1 && was_called_again;
    sctp_assoc_close(&ends[0]);
    sctp_assoc_free(&ends[0]);
    sctp_assoc_free(&ends[1]);
    CHECK(blocks == 0 && heap_bytes == 0);
    return count;
}

int main(int argc, char **argv) {
    uint64_t every = argc > 1 ? strtoull(argv[1], NULL, 10) : 1, all = refuse(0, 0), tried = 0;
    CHECK(every > 0 && all > 100);
    for (uint64_t i = 1; i <= all; i += every, tried++) {
        refuse(i, i + 1);
        refuse(i, UINT64_MAX);
    }
    printf("refused_memory: ok (of %llu growths %llu refused: alone, %llu failed an end, for %llu the call was made "
           "again)\n",
           (unsigned long long)all, (unsigned long long)tried, (unsigned long long)failed_count,
           (unsigned long long)again_count);
    return 0;
}
