/* What two ends of a seed still wait for, and what one of them came to. */
#ifndef HEAL_WAITING_H
#define HEAL_WAITING_H

#include "heal_applications.h"

/* Where what_waits found something. */
static int waiting_end, waiting_place;

static bool is_any_failed(void) {
    return is_failed[A] || is_failed[B];
}

/* Whether either end began a shutdown, or came to its end. */
static bool is_any_ending(void) {
    return applications[A].has_shut_down || applications[B].has_shut_down || applications[A].is_over ||
           applications[B].is_over;
}

static bool is_unknown(int end, int place) {
    sctp_assoc_counters counters;
    return sctp_assoc_stream_stats(&ends[end].assoc, stream_ids[place], &counters) == SCTP_ASSOC_NO_STREAM;
}

/* Of a stream at an end that is neither failed nor over. A reset is not waited for where one end shuts down. */
static enum kind what_waits_on(int end, int place) {
    const struct stream *stream = &applications[end].streams[place];
    size_t buffered;
    if (sctp_assoc_buffered_amount(&ends[end].assoc, stream_ids[place], &buffered) == SCTP_ASSOC_DONE && buffered > 0)
        return BUFFERED;
    if (is_any_ending())
        return WELL;
    if (stream->is_reset_failed ||
        (stream->is_stopping && (applications[A].has_failed_resets || applications[B].has_failed_resets)))
        return RESET_AFTER_FAILED;
    if (stream->is_stopping)
        return is_unknown(!end, place) ? RESET_UNUSED : RESET;
    return stream->is_finished ? RESET_UNANSWERED : WELL;
}

/* Whether either end was told of an end of a reset of the stream. */
static bool was_reset(int place) {
    return applications[A].streams[place].complete_at > 0 || applications[B].streams[place].complete_at > 0;
}

/* What one end wrote on a stream is owed as long as both go on, or its shutdown does. */
static enum kind what_is_unread(int writer, int place) {
    const struct stream *stream = &applications[writer].streams[place];
    if (stream->owed == 0 || is_any_failed() || applications[!writer].is_over)
        return WELL;
    if (applications[writer].is_over && watches[writer].end != SCTP_ASSOC_END_SHUT_DOWN)
        return WELL;
    return stream->has_loose && !set.is_first_reliable && !was_reset(place) ? UNREAD_SKIPPED : UNREAD;
}

static bool has_ended(int end) {
    return is_failed[end] || applications[end].is_over;
}

/* A shutdown is over once either end is: the last datagram of the other one may have been lost. */
static bool is_shutting_down(void) {
    return (applications[A].has_shut_down || applications[B].has_shut_down) && !has_ended(A) && !has_ended(B);
}

static bool has_no_handshake(int end) {
    return !applications[end].is_connected && applications[end].is_handshake_failed;
}

/* What has not come to its end, or WELL. */
static enum kind what_waits(void) {
    enum kind kind = WELL;
    waiting_end = applications[A].is_connected ? B : A, waiting_place = 0;
    if (has_no_handshake(A) || has_no_handshake(B))
        return WELL; /* who was told so has to end it */
    if (applications[B].is_crossed && !applications[A].is_connected)
        return HANDSHAKE_CROSSED;
    if (are_apart())
        return HANDSHAKE_ANEW;
    if (is_any_ending() && applications[A].is_connected != applications[B].is_connected && !is_any_failed())
        return HANDSHAKE_SHUT_DOWN;
    for (int pass = 0; pass < 2; pass++)
        for (waiting_end = 0; waiting_end < 2; waiting_end++)
            for (waiting_place = 0; waiting_place < STREAMS; waiting_place++) {
                if (pass == 0)
                    kind = has_ended(waiting_end) ? WELL : what_waits_on(waiting_end, waiting_place);
                else
                    kind = what_is_unread(waiting_end, waiting_place);
                if (kind != WELL)
                    return kind;
            }
    waiting_end = waiting_place = 0;
    return is_shutting_down() ? SHUTDOWN : WELL;
}

/* ---- What an end came to ---- */

/* Why a receive buffer may be full of what can never be read. */
static enum kind kind_of_exhaustion(int reader) {
    bool has_stopped = false, has_loose = false, has_reset = false;
    for (int place = 0; place < STREAMS; place++) {
        const struct stream *own = &applications[reader].streams[place];
        const struct stream *theirs = &applications[!reader].streams[place];
        has_stopped |= own->is_stopping;
        has_loose |= theirs->has_loose;
        has_reset |= was_reset(place) || (theirs->is_finished && !own->is_stopping);
    }
    if (has_reset)
        return EXHAUSTED;
    if (has_loose && !set.is_first_reliable)
        return EXHAUSTED_SKIPPED;
    return has_stopped ? EXHAUSTED_STOPPED : EXHAUSTED;
}

static enum kind kind_of_end(int end) {
    if (watches[end].end == SCTP_ASSOC_END_BUFFER_EXHAUSTED)
        return kind_of_exhaustion(end);
    if (watches[end].end == SCTP_ASSOC_END_ABORT_CAME && watches[!end].end == SCTP_ASSOC_END_BUFFER_EXHAUSTED)
        return kind_of_exhaustion(!end);
    return CLOSED;
}

static void note_over(int end) {
    applications[end].is_over = true;
    say("%c is over: end %u, cause %u", "AB"[end], watches[end].end, watches[end].cause);
    if (watches[end].end != SCTP_ASSOC_END_SHUT_DOWN && watches[end].end != SCTP_ASSOC_END_SILENT && !is_failed[!end])
        find(kind_of_end(end), "%c by end %u, cause %u at %llu ms", "AB"[end], watches[end].end, watches[end].cause,
             (unsigned long long)(now / MS));
    for (int place = 0; place < STREAMS; place++)
        excuse(end, place);
}

/* Looks at an end after each of its turns. One that is drained tells its loss also where nobody took events. */
static void look_at_end(int end) {
    sctp_assoc_path_values path;
    bool is_drained = sctp_assoc_is_drained(&ends[end].assoc);
    if (is_failed[end])
        return;
    CHECK(done(sctp_assoc_path(&ends[end].assoc, &path)));
    if (is_drained && applications[end].is_deaf) {
        applications[end].is_deaf = false;
        take_events_of(end);
    }
    if (!is_drained && path.bytes_in_flight > 0 && due_at(end) == NEVER)
        find(UNARMED, "%c at %llu ms", "AB"[end], (unsigned long long)(now / MS));
    if (expiries_at_once[end] > 20)
        find(SPINNING, "%c at %llu ms", "AB"[end], (unsigned long long)(now / MS));
    if (watches[end].end != SCTP_ASSOC_END_NONE && !applications[end].is_over)
        note_over(end);
}

#endif
