/* The watched calls: each makes the call that it is named after, and notes beside it what passed and why the association
 * ended. What a datagram says of an end is read by a proved call. */
#include "sctp_assoc.h"

/* Proved: writes the end, the cause and the reason that a datagram brought, which ended the association. */
void sctp_assoc_watch_ended_by(sctp_assoc_watch *watch, const uint8_t *datagram, size_t length);

/* Proved: whether the newest event tells that the receive buffer was exhausted. */
sctp_assoc_code sctp_assoc_tells_exhaustion(sctp_assoc *slot, bool *answer);

static void count(uint64_t *datagrams, uint64_t *bytes, size_t length) {
    if (*datagrams != UINT64_MAX)
        ++*datagrams;
    *bytes = length < UINT64_MAX - *bytes ? *bytes + length : UINT64_MAX;
}

/* An end that isn't an ABORT of the peer. */
static void end_as(sctp_assoc_watch *watch, uint32_t end) {
    const sctp_assoc_watch none = SCTP_ASSOC_WATCH_NEW;
    sctp_assoc_watch ended = none;
    ended.datagrams_sent = watch->datagrams_sent;
    ended.bytes_sent = watch->bytes_sent;
    ended.datagrams_received = watch->datagrams_received;
    ended.bytes_received = watch->bytes_received;
    ended.end = end;
    *watch = ended;
}

sctp_assoc_code sctp_assoc_watched_handle_datagram(sctp_assoc *slot, sctp_assoc_watch *watch, uint64_t now,
                                                   const uint8_t *datagram, size_t length, uint32_t *fate) {
    bool was_over = sctp_assoc_is_drained(slot);
    sctp_assoc_code code = sctp_assoc_handle_datagram(slot, now, datagram, length, fate);
    if (code == SCTP_ASSOC_DONE && *fate == SCTP_ASSOC_TAKEN)
        count(&watch->datagrams_received, &watch->bytes_received, length);
    if (was_over || !sctp_assoc_is_drained(slot))
        return code;
    bool exhausted = false;
    sctp_assoc_tells_exhaustion(slot, &exhausted);
    if (exhausted)
        end_as(watch, SCTP_ASSOC_END_BUFFER_EXHAUSTED);
    else
        sctp_assoc_watch_ended_by(watch, datagram, length);
    return code;
}

sctp_assoc_code sctp_assoc_watched_poll_transmit(sctp_assoc *slot, sctp_assoc_watch *watch, uint64_t now,
                                                 uint8_t *buffer, size_t room, size_t *length) {
    bool was_over = sctp_assoc_is_drained(slot);
    sctp_assoc_code code = sctp_assoc_poll_transmit(slot, now, buffer, room, length);
    if (code == SCTP_ASSOC_DONE)
        count(&watch->datagrams_sent, &watch->bytes_sent, *length);
    if (!was_over && sctp_assoc_is_drained(slot))
        end_as(watch, SCTP_ASSOC_END_SHUT_DOWN);
    return code;
}

sctp_assoc_code sctp_assoc_watched_handle_timeout(sctp_assoc *slot, sctp_assoc_watch *watch, uint64_t now) {
    bool was_over = sctp_assoc_is_drained(slot);
    sctp_assoc_code code = sctp_assoc_handle_timeout(slot, now);
    if (!was_over && sctp_assoc_is_drained(slot))
        end_as(watch, SCTP_ASSOC_END_SILENT);
    return code;
}

sctp_assoc_code sctp_assoc_watched_poll_event(sctp_assoc *slot, sctp_assoc_watch *watch, sctp_assoc_event *event) {
    sctp_assoc_code code = sctp_assoc_poll_event(slot, event);
    if (code == SCTP_ASSOC_DONE && event->kind == SCTP_ASSOC_EVENT_LOST &&
        event->reason == SCTP_ASSOC_REASON_BUFFER_EXHAUSTED)
        end_as(watch, SCTP_ASSOC_END_BUFFER_EXHAUSTED);
    return code;
}

sctp_assoc_code sctp_assoc_watched_close(sctp_assoc *slot, sctp_assoc_watch *watch) {
    bool was_over = sctp_assoc_is_drained(slot);
    sctp_assoc_code code = sctp_assoc_close(slot);
    if (!was_over && sctp_assoc_is_drained(slot))
        end_as(watch, SCTP_ASSOC_END_CLOSED);
    return code;
}

sctp_assoc_code sctp_assoc_watched_abort(sctp_assoc *slot, sctp_assoc_watch *watch, const uint8_t *reason,
                                         size_t length) {
    bool was_over = sctp_assoc_is_drained(slot);
    sctp_assoc_code code = sctp_assoc_abort(slot, reason, length);
    if (!was_over && sctp_assoc_is_drained(slot))
        end_as(watch, SCTP_ASSOC_END_ABORTED);
    return code;
}
