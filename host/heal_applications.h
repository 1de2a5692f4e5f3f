/* The applications at both ends of a seed: what they write, read, close and leave for a while, all at random, and what
 * of it has to be read. */
#ifndef HEAL_APPLICATIONS_H
#define HEAL_APPLICATIONS_H

#include "heal_kinds.h"

#define STREAMS 12
#define LEAST_LENGTH 4 /* of a message: the bytes of its number */

enum join { SERVED, JOINED, TWO_CLIENTS };

/* What a seed chooses. Chances are of a thousand. */
static struct {
    enum join join;
    uint32_t max_payload_size, buffer_size[2], max_length;
    unsigned losses, repeats, delays, writes, pauses, closes, reliable, shutdowns;
    uint64_t delay, jitter, most_bytes; /* the last is what each end may write */
    uint64_t chaos_end;
    size_t max_init_retransmits;
    int streams; /* the first so many are used */
    bool has_black_outs;
    bool has_deaf_pauses;      /* in which an end takes no events either */
    bool is_first_reliable;    /* the first message of each use of a stream */
    bool is_gentle;            /* closes only streams of which all was read, and writes on none that the other stops */
    bool only_closes;          /* no finish and no stop */
    bool shuts_down_connected; /* not before both are */
    bool has_default_times;
    bool drops_beside; /* a server beside the association, if that hears of its peer once more */
    int crashes;       /* of programs, at most; those of the server by this chance: */
    unsigned server_crashes;
    uint64_t growths_for_refusal; /* one of so many is refused; 0 if none is */
} set;

/* A stream as the application at one end sees it. */
struct stream {
    bool is_stopping; /* it was stopped or closed here, and the end of that was not told */
    bool is_closed;   /* .. and it was not opened since by either side. A close before an earlier use was read ends the
                         next one, too, once the peer has reset that */
    bool is_readable;
    bool is_reset_failed; /* told, and no end of a reset since */
    bool is_finished;     /* told, and no end of a reset since */
    bool has_begun;       /* a message was written in this use */
    bool has_loose;       /* .. that may be given up */
    bool is_opened_by_peer;
    int ends, finishes; /* how often it was told here that both halves were reset, and the peer's */
    bool is_reliable, is_unordered;
    uint64_t complete_at;
    uint32_t next_number;  /* after that of the last ordered message that was read here */
    uint64_t unread_bytes; /* written here, and neither read nor excused .. */
    uint32_t owed;         /* .. and the messages of these that are reliable */
};

struct application {
    struct stream streams[STREAMS];
    bool is_connected, is_handshake_failed, has_shut_down, is_over, has_failed_resets;
    bool is_crossed; /* a server that the COOKIE ECHO of another client connected than that whose INIT it took last */
    bool is_paused;  /* reads nothing */
    bool is_deaf;    /* and takes no events */
    uint64_t pause_end, next_act, accepted_bytes;
};

struct message {
    uint8_t writer, place; /* the latter of the stream */
    bool is_ordered, is_reliable, was_read;
    bool is_excused; /* its reader closed the stream, or is over; or the client crashed */
    unsigned generation;
    uint32_t length;
};

static const uint16_t stream_ids[STREAMS] = {0, 1, 2, 3, 4, 5, 63, 64, 300, 9000, 65534, 65535};
static struct application applications[2];
static struct message *messages;
static uint32_t message_count, message_room;
static int closed_uses[STREAMS]; /* of the uses of a stream, those up to the last one that either side closed */
static uint8_t wanted[65536];

/* ---- Random numbers ---- */

static uint64_t random_state;

static uint64_t pick(uint64_t limit) {
    random_state ^= random_state << 13;
    random_state ^= random_state >> 7;
    random_state ^= random_state << 17;
    return (random_state >> 16) % limit;
}

static uint64_t pick_between(uint64_t least, uint64_t most) {
    return least + pick(most - least + 1);
}

static bool happens(unsigned chance) {
    return pick(1000) < chance;
}

/* ---- What has to be read ---- */

static int place_of(uint16_t id) {
    for (int place = 0; place < STREAMS; place++)
        if (stream_ids[place] == id)
            return place;
    CHECK(!"the stream is one of those that are used");
    return 0;
}

/* The message is owed no more. */
static void strike(const struct message *message) {
    struct stream *stream = &applications[message->writer].streams[message->place];
    if (message->was_read || message->is_excused)
        return;
    stream->unread_bytes -= message->length;
    stream->owed -= message->is_reliable;
}

/* What the peer wrote on the stream need not be read here. */
static void excuse(int reader, int place) {
    for (uint32_t i = 0; i < message_count; i++)
        if (messages[i].writer != reader && messages[i].place == place) {
            strike(&messages[i]);
            messages[i].is_excused = true;
        }
}

/* Whether the client was started anew, and the server stands for an earlier one. */
static bool are_apart(void) {
    return generations[A] != generations[B];
}

static void add_message(int end, int place, uint32_t length, bool is_reliable) {
    struct stream *stream = &applications[end].streams[place];
    if (message_count == message_room) {
        message_room = message_room ? 2 * message_room : 4096;
        messages = realloc(messages, message_room * sizeof *messages);
        CHECK(messages != NULL);
    }
    messages[message_count++] =
        (struct message){.writer = (uint8_t)end,
                         .place = (uint8_t)place,
                         .is_ordered = !stream->is_unordered,
                         .is_reliable = is_reliable,
                         .is_excused = applications[!end].streams[place].is_stopping || are_apart(),
                         .generation = generations[end],
                         .length = length};
    if (!messages[message_count - 1].is_excused) {
        stream->unread_bytes += length;
        stream->owed += is_reliable;
    }
    stream->has_begun = true;
    stream->has_loose |= !is_reliable;
    applications[end].accepted_bytes += length;
}

static void look_at(int reader, int place, size_t length) {
    struct stream *stream = &applications[reader].streams[place];
    uint32_t number = 0;
    for (int i = 0; i < LEAST_LENGTH; i++)
        number |= (uint32_t)bytes[i] << 8 * i;
    say("%c reads message %u of stream %u, %zu bytes", "AB"[reader], number, stream_ids[place], length);
    if (length < LEAST_LENGTH || number >= message_count) {
        find(READ_WRONG, "%c stream %u", "AB"[reader], stream_ids[place]);
        return;
    }
    struct message *message = &messages[number];
    fill(wanted, length, number);
    if (message->writer == reader || message->place != place || message->length != length ||
        memcmp(wanted, bytes, length) != 0)
        find(READ_WRONG, "%c stream %u message %u", "AB"[reader], stream_ids[place], number);
    if (message->generation != generations[reader])
        find(READ_OLD, "%c stream %u message %u of client %u as of %u", "AB"[reader], stream_ids[place], number,
             message->generation, generations[reader]);
    if (message->was_read)
        find(READ_TWICE, "%c stream %u message %u", "AB"[reader], stream_ids[place], number);
    if (message->is_ordered && number < stream->next_number)
        find(READ_OUT_OF_ORDER, "%c stream %u message %u", "AB"[reader], stream_ids[place], number);
    if (message->is_ordered)
        stream->next_number = number + 1;
    strike(message);
    message->was_read = true;
}

static void read_stream(int end, int place) {
    size_t length;
    uint32_t type;
    sctp_assoc_code code;
    while ((code = noted(end, sctp_assoc_read(&ends[end].assoc, stream_ids[place], bytes, sizeof bytes, &length,
                                              &type))) == SCTP_ASSOC_DONE)
        look_at(end, place, length);
    CHECK(code != SCTP_ASSOC_NO_ROOM && code != SCTP_ASSOC_EMPTY_SLOT);
    applications[end].streams[place].is_readable = code == SCTP_ASSOC_NO_MEMORY && !is_failed[end];
}

/* ---- What an application is told ---- */

static void note_end_of_reset(int end, int place) {
    struct stream *stream = &applications[end].streams[place];
    stream->is_stopping = stream->is_finished = stream->is_reset_failed = false;
    stream->complete_at = now;
    stream->ends++;
}

static void note_finished(int end, int place) {
    struct stream *stream = &applications[end].streams[place];
    stream->is_finished = true;
    if (stream->is_closed)
        excuse(end, place);
    if (stream->finishes++ >= closed_uses[place] && !set.has_deaf_pauses)
        find(SELF_CLOSED, "%c stream %u, use %d of which %d were closed", "AB"[end], stream_ids[place],
             stream->finishes, closed_uses[place]);
}

static void note_event(int end, const sctp_assoc_event *event) {
    static const char *const names[] = {
        "", "connected", "handshake failed", "lost",        "", "stream ended", "opened", "", "",
        "", "finished",  "reset complete",   "reset failed"};
    struct application *own = &applications[end];
    int place = place_of(event->stream);
    struct stream *stream = &own->streams[place];
    uint16_t id;
    CHECK(event->kind < COUNT_OF(names));
    if (*names[event->kind])
        say("%c is told: %s, stream %u, reason %u", "AB"[end], names[event->kind], event -> stream, event -> reason);
    switch (event->kind) {
    case SCTP_ASSOC_EVENT_CONNECTED:
        own->is_connected = true;
        break;
    case SCTP_ASSOC_EVENT_HANDSHAKE_FAILED:
        own->is_handshake_failed = true;
        break;
    case SCTP_ASSOC_EVENT_OPENED:
        done(sctp_assoc_accept_stream(&ends[end].assoc, &id));
        stream->is_opened_by_peer = true;
        stream->is_closed = false;
        break;
    case SCTP_ASSOC_EVENT_READABLE:
        stream->is_readable = true;
        break;
    case SCTP_ASSOC_EVENT_STREAM_ENDED:
        stream->has_begun = stream->has_loose = stream->is_opened_by_peer = false;
        break;
    case SCTP_ASSOC_EVENT_FINISHED:
        note_finished(end, place);
        break;
    case SCTP_ASSOC_EVENT_RESET_COMPLETE:
        note_end_of_reset(end, place);
        break;
    case SCTP_ASSOC_EVENT_RESET_FAILED:
        own->has_failed_resets = stream->is_reset_failed = true;
        break;
    }
}

static void take_events_of(int end) {
    struct application *own = &applications[end];
    sctp_assoc_event event;
    if (own->is_deaf)
        return;
    while (went(end, sctp_assoc_watched_poll_event(&ends[end].assoc, &watches[end], &event)))
        note_event(end, &event);
    for (int place = 0; place < STREAMS && !own->is_paused; place++)
        if (own->streams[place].is_readable)
            read_stream(end, place);
}

/* ---- What an application does ---- */

static void set_policy(int end, int place, bool is_reliable) {
    uint32_t kind = SCTP_ASSOC_RELIABLE, value = 0;
    if (!is_reliable) {
        kind = happens(500) ? SCTP_ASSOC_REXMIT : SCTP_ASSOC_TIMED;
        value = (uint32_t)pick(kind == SCTP_ASSOC_REXMIT ? 4 : 3000);
    }
    noted(end, sctp_assoc_set_reliability(&ends[end].assoc, stream_ids[place],
                                          applications[end].streams[place].is_unordered, kind, value));
}

static void choose_policy(int end, int place) {
    struct stream *stream = &applications[end].streams[place];
    stream->is_reliable = happens(set.reliable);
    stream->is_unordered = happens(300);
    set_policy(end, place, stream->is_reliable);
}

static uint32_t pick_length(void) {
    static const uint32_t spans[] = {1, 60, 1500, 8000};
    size_t which = pick(COUNT_OF(spans) + 1);
    uint64_t span = which < COUNT_OF(spans) ? spans[which] : set.max_length;
    uint64_t length = LEAST_LENGTH + pick(span);
    return (uint32_t)(length < set.max_length ? length : set.max_length);
}

static void write_one(int end, int place, uint32_t length) {
    struct stream *stream = &applications[end].streams[place];
    bool is_first = set.is_first_reliable && !stream->has_begun;
    if (set.is_gentle && applications[!end].streams[place].is_stopping)
        return;
    if (is_first)
        set_policy(end, place, true);
    fill(bytes, length, message_count);
    sctp_assoc_code code =
        noted(end, sctp_assoc_write(&ends[end].assoc, stream_ids[place], SCTP_ASSOC_PPID_BINARY, bytes, length));
    if (code != SCTP_ASSOC_DONE)
        return;
    bool is_reliable = stream->is_reliable || is_first;
    say("%c writes message %u on stream %u, %u bytes%s%s", "AB"[end], message_count, stream_ids[place], length,
        is_reliable ? "" : ", loose", stream->is_unordered ? ", unordered" : "");
    add_message(end, place, length, is_reliable);
    if (is_first && !stream->is_reliable)
        set_policy(end, place, false);
}

/* Opens a stream unless it is there. Answers the code. */
static sctp_assoc_code open_one(int end, int place) {
    struct stream *stream = &applications[end].streams[place];
    sctp_assoc_code code =
        noted(end, sctp_assoc_open_stream(&ends[end].assoc, stream_ids[place], SCTP_ASSOC_PPID_BINARY));
    if (code == SCTP_ASSOC_DONE) {
        say("%c opens stream %u", "AB"[end], stream_ids[place]);
        stream->has_begun = stream->has_loose = stream->is_closed = false;
    }
    return code;
}

static void write_some(int end) {
    struct application *own = &applications[end];
    int place = (int)pick((uint64_t)set.streams);
    if (own->accepted_bytes >= set.most_bytes)
        return;
    open_one(end, place);
    if (!own->streams[place].has_begun || (!set.is_first_reliable && happens(50)))
        choose_policy(end, place);
    for (uint64_t count = 1 + pick(happens(300) ? 40 : 3); count > 0 && own->accepted_bytes < set.most_bytes; count--)
        write_one(end, place, pick_length());
}

static void note_close(int end, int place) {
    struct stream *stream = &applications[end].streams[place];
    for (int each = 0; each < 2; each++)
        if (closed_uses[place] <= applications[each].streams[place].ends)
            closed_uses[place] = applications[each].streams[place].ends + 1;
    stream->is_stopping = stream->is_closed = true;
    stream->is_readable = false;
    excuse(end, place);
}

static void close_one(int end) {
    static const struct {
        const char *name;
        sctp_assoc_code (*call)(sctp_assoc *slot, uint16_t stream);
    } ways[] = {{"closes", sctp_assoc_close_stream}, {"finishes", sctp_assoc_finish}, {"stops", sctp_assoc_stop}};
    int place = (int)pick((uint64_t)set.streams);
    const struct stream *stream = &applications[end].streams[place];
    size_t way = set.only_closes || happens(500) ? 0 : 1 + pick(2);
    if (set.is_gentle &&
        (applications[!end].streams[place].unread_bytes > 0 || !(stream->has_begun || stream->is_opened_by_peer)))
        way = 1;
    if (noted(end, ways[way].call(&ends[end].assoc, stream_ids[place])) != SCTP_ASSOC_DONE)
        return;
    say("%c %s stream %u", "AB"[end], ways[way].name, stream_ids[place]);
    if (way != 1)
        note_close(end, place);
}

static void stop_reading(int end) {
    struct application *own = &applications[end];
    own->is_paused = true;
    own->is_deaf = set.has_deaf_pauses && happens(300);
    own->pause_end = now + (happens(200) ? pick_between(5000, 120000) : pick_between(50, 5000)) * MS;
    say("%c pauses for %llu ms%s", "AB"[end], (unsigned long long)((own->pause_end - now) / MS),
        own -> is_deaf ? " and is deaf" : "");
}

/* Something of what an application does. One that takes no events does nothing else. */
static void act(int end) {
    struct application *own = &applications[end];
    if (!is_running(end) || own->is_deaf)
        return;
    if (sctp_assoc_is_established(&ends[end].assoc) && !own->has_shut_down) {
        if (happens(set.writes))
            write_some(end);
        if (happens(set.closes))
            close_one(end);
        bool are_connected = applications[A].is_connected && applications[B].is_connected;
        if (happens(set.shutdowns) && (are_connected || !set.shuts_down_connected) &&
            noted(end, sctp_assoc_shutdown(&ends[end].assoc)) == SCTP_ASSOC_DONE) {
            say("%c shuts down", "AB"[end]);
            own->has_shut_down = true;
        }
    }
    if (!own->is_paused && happens(set.pauses))
        stop_reading(end);
}

#endif
