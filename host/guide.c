/* Runs the C code of docs/GUIDE.md, which host/run takes out of the page: a client and a server, whose datagrams go
 * through two queues, shake hands, exchange a message in each direction, close the stream and shut down. Two others are
 * watched, and one aborts. Of two more one keeps a timer of silence, and the other loses the consent of ICE. Of
 * the last two the client is started anew. */
#define _DEFAULT_SOURCE
#include "support.h"

#include <unistd.h>

#define WAITING 64 /* datagrams that may wait in a queue */

struct datagram {
    uint8_t bytes[PAYLOAD_SIZE + 28];
    size_t length;
};

static sctp_assoc ends[2];
static struct datagram queues[2][WAITING]; /* what waits for each end */
static size_t waiting[2];
static unsigned came; /* messages */

static void begin_to_write(sctp_assoc *slot);
static bool take_events(sctp_assoc *slot);

static void send_datagram(sctp_assoc *slot, const uint8_t *bytes, size_t length) {
    int to = slot == &ends[0];
    struct datagram *last = &queues[to][waiting[to]++];
    CHECK(waiting[to] <= WAITING && length <= sizeof last->bytes);
    memcpy(last->bytes, bytes, length);
    last->length = length;
}

static void take_message(sctp_assoc *slot, uint16_t stream, const uint8_t *message, size_t length) {
    CHECK(slot->live && stream == 1 && length == 5 && memcmp(message, "hello", 5) == 0);
    came++;
}

#include "guide.h"

/* The rest the guide says in words. */

/* ICE has no consent any more. */
static void lose_consent(sctp_assoc *slot) {
    sctp_assoc_close(slot); /* an ABORT may not go out */
    take_events(slot);      /* LOST is one of them */
}

/* Takes in and sends, as the turn does, and has the observer write of it. */
static void exchange(sctp_assoc *slot, sctp_assoc_watch *watch, FILE *lines, uint64_t now, const uint8_t *datagram,
                     size_t length) {
    static uint8_t out[SCTP_ASSOC_MAX_DATAGRAM];
    uint32_t fate;
    if (length > 0)
        sctp_assoc_observed_handle_datagram(slot, watch, write_line, lines, now, datagram, length, &fate);
    while (sctp_assoc_observed_poll_transmit(slot, watch, write_line, lines, now, out, sizeof out, &length) ==
           SCTP_ASSOC_DONE)
        send_datagram(slot, out, length);
}

static const char *end_of(const sctp_assoc_watch *watch) {
    switch (watch->end) {
    case SCTP_ASSOC_END_NONE:
        return "it goes on";
    case SCTP_ASSOC_END_CLOSED:
    case SCTP_ASSOC_END_ABORTED:
        return "it was ended here";
    case SCTP_ASSOC_END_SHUT_DOWN:
        return "it was shut down";
    case SCTP_ASSOC_END_ABORT_CAME:
        return "the peer aborted it"; /* watch->cause and watch->reason say why */
    case SCTP_ASSOC_END_BUFFER_EXHAUSTED:
        return "a message is longer than the receive buffer";
    case SCTP_ASSOC_END_SILENT:
        return "the peer is silent";
    default:
        return "the peer broke the protocol";
    }
}

/* A turn of an end, which leaves neither an event nor a datagram. */
static void turn_of(int end, uint64_t now, const uint8_t *bytes, size_t length) {
    sctp_assoc_event event;
    uint8_t datagram[PAYLOAD_SIZE + 28];
    turn(&ends[end], now, bytes, length);
    CHECK(sctp_assoc_poll_event(&ends[end], &event) == SCTP_ASSOC_NOTHING);
    CHECK(sctp_assoc_poll_transmit(&ends[end], now, datagram, sizeof datagram, &length) == SCTP_ASSOC_NOTHING);
}

/* Turns of both ends until none has a datagram for the other. */
static void go_on(uint64_t now) {
    turn_of(0, now, NULL, 0);
    turn_of(1, now, NULL, 0);
    while (waiting[0] + waiting[1] > 0) {
        for (int end = 0; end < 2; end++) {
            static struct datagram taken[WAITING];
            size_t count = waiting[end];
            memcpy(taken, queues[end], sizeof taken);
            waiting[end] = 0;
            for (size_t i = 0; i < count; i++)
                turn_of(end, now, taken[i].bytes, taken[i].length);
        }
    }
}

/* What waits for an end is handed in, and what it sends for that waits for the other one. */
static void exchange_all(sctp_assoc_watch watches[2], FILE *lines) {
    exchange(&ends[0], &watches[0], lines, 0, NULL, 0);
    for (int end = 1; waiting[0] + waiting[1] > 0; end = !end) {
        static struct datagram taken[WAITING];
        size_t count = waiting[end];
        memcpy(taken, queues[end], sizeof taken);
        waiting[end] = 0;
        for (size_t i = 0; i < count; i++)
            exchange(&ends[end], &watches[end], lines, 0, taken[i].bytes, taken[i].length);
    }
}

/* A client and a server are watched. The client aborts, which both are told, and each datagram has a line at each. */
static void watched(void) {
    sctp_assoc_watch watches[2] = {SCTP_ASSOC_WATCH_NEW, SCTP_ASSOC_WATCH_NEW};
    FILE *lines = tmpfile();
    CHECK(lines);
    begin(&ends[0], true, 0);
    begin(&ends[1], false, 0);
    exchange_all(watches, lines);
    CHECK(strcmp(end_of(&watches[0]), "it goes on") == 0);
    CHECK(done(sctp_assoc_watched_abort(&ends[0], &watches[0], (const uint8_t *)"bye", 3)));
    exchange_all(watches, lines);
    CHECK(strcmp(end_of(&watches[0]), "it was ended here") == 0);
    CHECK(strcmp(end_of(&watches[1]), "the peer aborted it") == 0 && memcmp(watches[1].reason, "bye", 3) == 0);
    uint64_t written = 0;
    rewind(lines);
    for (int c; (c = fgetc(lines)) != EOF;)
        written += c == '\n';
    CHECK(written == 2 * (watches[0].datagrams_sent + watches[1].datagrams_sent));
    fclose(lines);
    free_both(ends);
}

/* The peer is asked once it was silent for 10 s, and each 5 s from then on; after 30 s the association ends. A datagram
 * that is taken begins the time anew, one with another tag does not. */
static void silent(void) {
    struct silence silence = {0, 0};
    uint8_t datagram[PAYLOAD_SIZE + 28];
    size_t length;
    begin(&ends[0], true, 0);
    begin(&ends[1], false, 0);
    go_on(0);
    for (int tenths = 1; tenths <= 10; tenths++)
        go_on((uint64_t)tenths * 100 * MS);
    hear(&silence, SCTP_ASSOC_TAKEN, SECOND);
    hear(&silence, SCTP_ASSOC_OTHER_TAG, 2 * SECOND);
    CHECK(look_at_silence(&ends[0], &silence, 10 * SECOND) == 11 * SECOND);
    CHECK(!done(sctp_assoc_poll_transmit(&ends[0], 10 * SECOND, datagram, sizeof datagram, &length)));
    for (int looks = 0; looks < 2; looks++)
        CHECK(look_at_silence(&ends[0], &silence, 11 * SECOND) == 16 * SECOND);
    CHECK(done(sctp_assoc_poll_transmit(&ends[0], 11 * SECOND, datagram, sizeof datagram, &length)));
    CHECK(!done(sctp_assoc_poll_transmit(&ends[0], 11 * SECOND, datagram, sizeof datagram, &length)));
    CHECK(look_at_silence(&ends[0], &silence, 30 * SECOND) == 31 * SECOND && !sctp_assoc_is_drained(&ends[0]));
    CHECK(look_at_silence(&ends[0], &silence, 31 * SECOND) == UINT64_MAX && sctp_assoc_is_drained(&ends[0]));
    CHECK(!sctp_assoc_is_drained(&ends[1]));
    lose_consent(&ends[1]);
    CHECK(sctp_assoc_is_drained(&ends[1]) && !take_events(&ends[1]));
    free_both(ends);
    came = 0;
}

/* The client is started anew. A server beside the old one answers its INIT, and takes its place. */
static void started_anew(void) {
    static struct datagram taken[WAITING];
    sctp_assoc beside = SCTP_ASSOC_EMPTY;
    begin(&ends[0], true, 0);
    begin(&ends[1], false, 0);
    go_on(0);
    CHECK(came == 2);
    begin(&ends[0], true, 0);
    turn(&ends[0], 0, NULL, 0);
    for (int end = 1; waiting[0] + waiting[1] > 0; end = !end) {
        size_t count = waiting[end];
        memcpy(taken, queues[end], sizeof taken);
        waiting[end] = 0;
        for (size_t i = 0; i < count; i++) {
            if (end == 1)
                receive(&ends[1], &beside, 0, taken[i].bytes, taken[i].length);
            else
                turn(&ends[0], 0, taken[i].bytes, taken[i].length);
        }
    }
    CHECK(came == 4 && !beside.live);
    CHECK(sctp_assoc_is_established(&ends[0]) && sctp_assoc_is_established(&ends[1]));
    free_both(ends);
    came = 0;
}

int main(void) {
    watched();
    silent();
    started_anew();
    begin(&ends[0], true, 0);
    begin(&ends[1], false, 0);
    go_on(0);
    CHECK(came == 2);
    for (int tenths = 1; tenths <= 10; tenths++) /* what was delayed is acknowledged */
        go_on((uint64_t)tenths * 100 * MS);
    CHECK(done(sctp_assoc_close_stream(&ends[0], 1)));
    go_on(1100 * MS);
    size_t count = 77;
    CHECK(done(sctp_assoc_stream_ids(&ends[1], NULL, 0, &count)) && count == 0);
    CHECK(done(sctp_assoc_shutdown(&ends[0])));
    go_on(1200 * MS);
    CHECK(sctp_assoc_is_drained(&ends[0]) && sctp_assoc_is_drained(&ends[1]));
    free_both(ends);
    puts("guide: ok");
    return 0;
}
