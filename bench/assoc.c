/* The cases of the benchmark by sctp_assoc: both ends in one process, each datagram handed over at once, and the end
 * that got it polled after each.
 *
 *   assoc CASE COUNT SIZE     small, observed, packet, large, unordered, lossy, handshake or memory
 *   channels channel COUNT SIZE   as small, over a data channel: compiled WITH_CHANNELS, over the archive that has them
 *   assoc CASE COUNT SIZE     streams, unread or in_flight: a message with little there, and with much
 *   assoc CASE COUNT SIZE     expired: COUNT ordered messages, whose lifetimes end in one poll
 *
 * Its clock goes on by 10 ms if both ends are idle. LOSS_SEED=2, 3 and so on loses other datagrams. */
#define SCTP_ASSOC_HEAP
#include "bench.h"
#include "sctp_channels.h"

#define STREAM 1
#define TICK_NS (TICK_MS * UINT64_C(1000000))
#define MANY_STREAMS 10000
#define MANY_UNREAD 20000
#define FEW_IN_FLIGHT 10
#define MANY_IN_FLIGHT 4000
#define LIFETIME_MS 50
#define ALL_EXPIRED 64000 /* messages of the case expired, in as many rounds as that takes */

/* End 0 writes and is the client, end 1 reads. */
static sctp_peer ends[2];
static struct wire wires[2];
static bool is_observed; /* each end has a watch, and an observer that does nothing */
static sctp_assoc_watch watches[2];
#ifdef WITHOUT_WATCHES /* the archive is from before there were watches, so that there is no case `observed` */
#define OBSERVED false
#else
#define OBSERVED is_observed
#endif
static bool is_channel, is_open; /* messages go over a data channel, which is open */
#ifdef WITH_CHANNELS
#define CHANNEL is_channel
#else /* the archive is the one without data channels, so that there is no case `channel` */
#define CHANNEL false
#endif
static sctp_assoc_config config;
static uint64_t now, written, messages_read, bytes_read, allocations;
static int established[2];
static uint32_t next_tag = 1;
static uint8_t *message;
static uint8_t buffer[65536];

/* The heap of the C library, whose allocations are counted. */
sctp_assoc_block rattle_alloc(size_t size, size_t align) {
    (void)align;
    void *at = malloc(size ? size : 1);
    allocations++;
    return (sctp_assoc_block){at, at ? at : buffer};
}

sctp_assoc_block rattle_realloc(void *old, size_t kept, size_t size, size_t align) {
    (void)kept, (void)align;
    void *at = realloc(old, size ? size : 1);
    allocations++;
    return (sctp_assoc_block){at, at ? at : buffer};
}

void rattle_dealloc(void *at) {
    free(at);
}

static bool done(sctp_assoc_code code) {
    if (code != SCTP_ASSOC_DONE && code != SCTP_ASSOC_NOTHING) {
        fprintf(stderr, "bench: a call answered the code %u\n", (unsigned)code);
        exit(1);
    }
    return code == SCTP_ASSOC_DONE;
}

static void observe(void *user, bool outgoing, uint64_t moment, const uint8_t *datagram, size_t length) {
    (void)user, (void)outgoing, (void)moment, (void)datagram, (void)length;
}

static bool transmits(int end, struct datagram *room) {
    if (OBSERVED)
        return done(sctp_assoc_observed_poll_transmit(&ends[end].assoc, &watches[end], observe, NULL, now, room->bytes,
                                                      sizeof room->bytes, &room->length));
    return done(sctp_assoc_poll_transmit(&ends[end].assoc, now, room->bytes, sizeof room->bytes, &room->length));
}

static void receives(int end, const struct datagram *came) {
    uint32_t fate;
    if (OBSERVED)
        done(sctp_assoc_observed_handle_datagram(&ends[end].assoc, &watches[end], observe, NULL, now, came->bytes,
                                                 came->length, &fate));
    else
        done(sctp_assoc_handle_datagram(&ends[end].assoc, now, came->bytes, came->length, &fate));
}

static bool has_event(int end, sctp_assoc_event *event) {
    return done(OBSERVED ? sctp_assoc_watched_poll_event(&ends[end].assoc, &watches[end], event)
                            : sctp_assoc_poll_event(&ends[end].assoc, event));
}

static void poll_end(int end) {
    struct datagram *room = new_datagram();
    while (transmits(end, room)) {
        send_on(&wires[end], room);
        room = new_datagram();
    }
    give_back(room);
}

static bool read_one(uint16_t stream) {
    size_t length;
    uint32_t type;
    bool is_text;
    if (!done(CHANNEL ? sctp_channels_receive(&ends[1], stream, buffer, sizeof buffer, &length, &is_text)
                      : sctp_assoc_read(&ends[1].assoc, stream, buffer, sizeof buffer, &length, &type)))
        return false;
    messages_read++;
    bytes_read += length;
    return true;
}

/* Takes all events of the channels of an end, and reads all messages. */
static void take_channel_events(int end) {
    sctp_channels_event event;
    while (done(sctp_channels_poll_event(&ends[end], &event))) {
        if (event.kind == SCTP_CHANNELS_EVENT_CONNECTED)
            established[end] = 1;
        else if (event.kind == SCTP_CHANNELS_EVENT_OPENED)
            is_open = true;
        else if (event.kind == SCTP_CHANNELS_EVENT_LOST)
            fail("an association was lost");
        while (end == 1 && event.kind == SCTP_CHANNELS_EVENT_MESSAGE && read_one(event.id))
            ;
    }
}

/* Takes all events of an end. If `reads`, all messages are read, too. */
static void take_events(int end, bool reads) {
    sctp_assoc_event event;
    if (CHANNEL) {
        take_channel_events(end);
        return;
    }
    while (has_event(end, &event)) {
        if (event.kind == SCTP_ASSOC_EVENT_CONNECTED)
            established[end] = 1;
        else if (event.kind == SCTP_ASSOC_EVENT_LOST)
            fail("an association was lost");
        while (reads && event.kind == SCTP_ASSOC_EVENT_READABLE && read_one(event.stream))
            ;
    }
}

/* Hands over the oldest datagram that this end sent. */
static bool hand_over_from(int end, bool reads) {
    struct datagram *came = take_from(&wires[end]);
    if (!came)
        return false;
    receives(!end, came);
    give_back(came);
    take_events(!end, reads);
    poll_end(!end);
    return true;
}

static void hand_over_all(void) {
    bool any = true;
    while (any) {
        any = hand_over_from(0, true);
        any |= hand_over_from(1, true);
    }
}

/* The clock goes on to the next timer. */
static void expire(void) {
    uint64_t least = UINT64_MAX, due;
    for (int end = 0; end < 2; end++)
        if (done(sctp_assoc_poll_timeout(&ends[end].assoc, &due)) && due < least)
            least = due;
    if (least == UINT64_MAX)
        fail("nothing arrives any more");
    now += TICK_NS;
    if (now < least)
        now += (least - now + TICK_NS - 1) / TICK_NS * TICK_NS;
    for (int end = 0; end < 2; end++) {
        done(sctp_assoc_handle_timeout(&ends[end].assoc, now));
        poll_end(end);
    }
}

static void begin(int end) {
    sctp_assoc_identity identity = {.tag = next_tag++, .initial_tsn = next_tag++};
    done((end == 0 ? sctp_assoc_client : sctp_assoc_server)(&ends[end].assoc, &config, PAYLOAD_SIZE, &identity, now));
    if (CHANNEL) /* so that the first channel of end 0 has the identifier STREAM */
        done(sctp_channels_begin(&ends[end], end == 0 ? SCTP_CHANNELS_SERVER : SCTP_CHANNELS_CLIENT));
}

static void join(void) {
    established[0] = established[1] = 0;
    begin(0);
    begin(1);
    poll_end(0);
    hand_over_all();
    if (!established[0] || !established[1])
        fail("a handshake failed");
}

/* A pair with these streams opened, from STREAM on. */
static void join_with(uint16_t streams) {
    join();
    for (uint16_t i = 0; i < streams; i++)
        done(sctp_assoc_open_stream(&ends[0].assoc, STREAM + i, SCTP_ASSOC_PPID_BINARY));
}

/* A pair with a data channel, which takes one message each way to open. */
static void join_with_channel(void) {
    const sctp_channels_options ordered_reliable = SCTP_CHANNELS_ORDERED_RELIABLE;
    uint16_t id;
    join();
    done(sctp_channels_open(&ends[0], &ordered_reliable, (const uint8_t *)"bench", 5, NULL, 0, &id));
    take_events(0, true);
    poll_end(0);
    hand_over_all();
    if (!is_open || id != STREAM)
        fail("the channel did not open");
    for (int end = 0; end < 2; end++) {
        sctp_assoc_totals totals;
        if (!done(sctp_assoc_stats(&ends[end].assoc, &totals)) || totals.data_chunks != 1)
            fail("the channel opened by more than an OPEN and an ACK");
    }
}

static void leave(void) {
    for (int end = 0; end < 2; end++) {
        done(sctp_assoc_free(&ends[end].assoc));
        for (struct datagram *left; (left = take_from(&wires[end]));)
            give_back(left);
    }
}

/* Writes as much as may wait, over so many streams in turn, and hands over all that comes of it. */
static void exchange(uint64_t count, size_t size, uint16_t streams) {
    uint64_t goal = messages_read + count;
    written = messages_read;
    while (messages_read < goal) {
        while (written < goal && written - messages_read < MAX_WAITING &&
               (written - messages_read) * size < MAX_WAITING_BYTES) {
            uint16_t stream = STREAM + (uint16_t)(written * 7919 % streams);
            done(CHANNEL ? sctp_channels_send(&ends[0], stream, false, message, size)
                         : sctp_assoc_write(&ends[0].assoc, stream, SCTP_ASSOC_PPID_OF_STREAM, message, size));
            written++;
        }
        poll_end(0);
        if (!wires[0].first && !wires[1].first)
            expire();
        hand_over_all();
    }
}

static void messages(struct measure *m) {
    is_observed = !strcmp(m->name, "observed");
#ifdef WITHOUT_WATCHES
    if (is_observed)
        fail("the archive has no watches");
#endif
    is_channel = !strcmp(m->name, "channel");
#ifndef WITH_CHANNELS
    if (is_channel)
        fail("the archive has no data channels");
#endif
    if (CHANNEL)
        join_with_channel();
    else
        join_with(1);
    if (!strcmp(m->name, "unordered"))
        done(sctp_assoc_set_reliability(&ends[0].assoc, STREAM, true, SCTP_ASSOC_RELIABLE, 0));
    lost_per_million = strcmp(m->name, "lossy") ? 0 : 10000;
    uint64_t began = now, began_datagrams = datagrams_sent, began_allocations = allocations;
    double began_us = cpu_us();
    exchange(m->messages, m->size, 1);
    m->cpu_us = cpu_us() - began_us;
    m->virtual_ms = (now - began) / 1000000;
    m->datagrams = datagrams_sent - began_datagrams;
    m->allocations = allocations - began_allocations;
    m->lost = datagrams_lost;
    if (bytes_read != m->messages * m->size)
        fail("other bytes were read than written");
}

static void handshakes(struct measure *m) {
    double began_us = cpu_us();
    for (uint64_t i = 0; i < m->messages; i++) {
        join();
        leave();
        now += 1000000;
    }
    m->cpu_us = cpu_us() - began_us;
    m->datagrams = datagrams_sent;
    m->allocations = allocations;
}

/* The heap's bytes for one idle association. */
static void memory(void) {
    static sctp_peer idle[2 * IDLE_PAIRS];
    join();
    leave();
    size_t before = heap_bytes();
    for (int i = 0; i < IDLE_PAIRS; i++) {
        join();
        memcpy(&idle[2 * i], ends, sizeof ends);
        memset(ends, 0, sizeof ends);
    }
    printf("{\"stack\":\"sctp_assoc\",\"case\":\"memory\",\"bytes\":%zu}\n",
           (heap_bytes() - before) / (2 * IDLE_PAIRS));
    for (int i = 0; i < 2 * IDLE_PAIRS; i++)
        done(sctp_assoc_free(&idle[i].assoc));
}

/* Microseconds for a message over so many streams. */
static double with_streams(uint64_t count, size_t size, uint64_t streams) {
    join_with((uint16_t)streams);
    exchange(streams * 2, size, (uint16_t)streams);
    double began_us = cpu_us();
    exchange(count, size, (uint16_t)streams);
    double took = cpu_us() - began_us;
    leave();
    return took / count;
}

/* One burst of messages to end 1, which does not read them. */
static void deliver_unread(uint64_t count, size_t size) {
    for (uint64_t i = 0; i < count; i++)
        done(sctp_assoc_write(&ends[0].assoc, STREAM, SCTP_ASSOC_PPID_OF_STREAM, message, size));
    poll_end(0);
    for (bool any = true; any;) {
        any = hand_over_from(0, false);
        any |= hand_over_from(1, false);
    }
}

/* Microseconds for a message while so many are unread: for each that comes one is read. */
static double with_unread(uint64_t count, size_t size, uint64_t unread) {
    join_with(1);
    for (uint64_t i = 0; i < unread; i += MAX_WAITING)
        deliver_unread(MAX_WAITING, size);
    double began_us = cpu_us();
    for (uint64_t i = 0; i < count; i += MAX_WAITING) {
        deliver_unread(MAX_WAITING, size);
        for (int k = 0; k < MAX_WAITING; k++)
            if (!read_one(STREAM))
                fail("a message cannot be read");
    }
    double took = cpu_us() - began_us;
    leave();
    return took / ((count + MAX_WAITING - 1) / MAX_WAITING * MAX_WAITING);
}

/* One message in a datagram of its own, and the oldest on the way is handed over, unless the way is to get longer. */
static void send_one(size_t size, bool hands_over) {
    done(sctp_assoc_write(&ends[0].assoc, STREAM, SCTP_ASSOC_PPID_OF_STREAM, message, size));
    poll_end(0);
    if (hands_over) {
        hand_over_from(0, true);
        while (hand_over_from(1, true))
            ;
    }
}

/* Microseconds for a message while so many are on the way. */
static double with_in_flight(uint64_t count, size_t size, uint64_t in_flight) {
    join_with(1);
    exchange(20000, PAYLOAD_SIZE, 1); /* opens the congestion window */
    uint64_t before = datagrams_sent;
    for (uint64_t i = 0; i < in_flight; i++)
        send_one(size, false);
    if (datagrams_sent - before != in_flight)
        fail("the congestion window holds too little");
    double began_us = cpu_us();
    for (uint64_t i = 0; i < count; i++)
        send_one(size, true);
    double took = cpu_us() - began_us;
    leave();
    return took / count;
}

/* So many messages are written, and their times begin with a poll, which sends what the congestion window holds. The
 * next poll abandons what is in flight and drops all the others. What went out arrives after that. */
static void expire_round(uint64_t count, size_t size) {
    size_t buffered;
    for (uint64_t i = 0; i < count; i++)
        done(sctp_assoc_write(&ends[0].assoc, STREAM, SCTP_ASSOC_PPID_OF_STREAM, message, size));
    poll_end(0);
    now += LIFETIME_MS * UINT64_C(1000000);
    poll_end(0);
    if (!done(sctp_assoc_buffered_amount(&ends[0].assoc, STREAM, &buffered)) || buffered != 0)
        fail("a message was not given up");
}

/* Ordered messages whose lifetimes end at once, from the writes to the poll that drops them. */
static void expired(struct measure *m) {
    uint64_t rounds = m->messages < ALL_EXPIRED ? ALL_EXPIRED / m->messages : 1;
    join_with(1);
    done(sctp_assoc_set_reliability(&ends[0].assoc, STREAM, false, SCTP_ASSOC_TIMED, LIFETIME_MS));
    uint64_t began_datagrams = datagrams_sent, began_allocations = allocations;
    for (uint64_t round = 0; round < rounds; round++) {
        double began_us = cpu_us();
        expire_round(m->messages, m->size);
        m->cpu_us += cpu_us() - began_us;
        hand_over_all();
    }
    m->cpu_us /= rounds;
    m->datagrams = (datagrams_sent - began_datagrams) / rounds;
    m->allocations = (allocations - began_allocations) / rounds;
    leave();
}

static void growth(const struct measure *m, uint64_t few, uint64_t many, double took(uint64_t, size_t, uint64_t)) {
    double small = took(m->messages, m->size, few), large = took(m->messages, m->size, many);
    printf("{\"stack\":\"sctp_assoc\",\"case\":\"%s\",\"size\":%zu,\"messages\":%llu,\"from\":%llu,\"to\":%llu,"
           "\"cpu_us_from\":%.3f,\"cpu_us_to\":%.3f,\"growth\":%.2f}\n",
           m->name, m->size, (unsigned long long)m->messages, (unsigned long long)few, (unsigned long long)many, small,
           large, large / small);
}

int main(int argc, char **argv) {
    if (argc != 4) {
        fprintf(stderr, "usage: assoc CASE COUNT SIZE\n");
        return 2;
    }
    struct measure m = {.stack = "sctp_assoc", .name = argv[1], .size = strtoull(argv[3], NULL, 10)};
    m.messages = strtoull(argv[2], NULL, 10);
    seed_losses();
    done(sctp_assoc_default_config(&config));
    config.rto_initial_ms = 3000, config.rto_min_ms = 1000; /* usrsctp's */
    message = calloc(1, m.size > PAYLOAD_SIZE ? m.size : PAYLOAD_SIZE);
    if (!message)
        fail("no memory");
    if (!strcmp(m.name, "memory")) {
        memory();
    } else if (!strcmp(m.name, "streams")) {
        growth(&m, 1, MANY_STREAMS, with_streams);
    } else if (!strcmp(m.name, "unread")) {
        growth(&m, 0, MANY_UNREAD, with_unread);
    } else if (!strcmp(m.name, "in_flight")) {
        growth(&m, FEW_IN_FLIGHT, MANY_IN_FLIGHT, with_in_flight);
    } else {
        if (!strcmp(m.name, "handshake"))
            handshakes(&m);
        else if (!strcmp(m.name, "expired"))
            expired(&m);
        else
            messages(&m);
        print_measure(&m);
    }
    return 0;
}
