/* The numbers of an association at once: each is asked by the call that has it, of which none changes anything. */
#include "sctp_assoc.h"

static void count_traffic(const sctp_assoc_watch *watch, sctp_assoc_metrics *metrics) {
    static const sctp_assoc_watch none = SCTP_ASSOC_WATCH_NEW;
    const sctp_assoc_watch *counted = watch ? watch : &none;
    metrics->datagrams_sent = counted->datagrams_sent;
    metrics->bytes_sent = counted->bytes_sent;
    metrics->datagrams_received = counted->datagrams_received;
    metrics->bytes_received = counted->bytes_received;
}

/* All but the first are done if that is: an empty slot alone is refused. */
sctp_assoc_code sctp_assoc_get_metrics(sctp_assoc *slot, const sctp_assoc_watch *watch, sctp_assoc_metrics *metrics) {
    sctp_assoc_code code = sctp_assoc_path(slot, &metrics->path);
    if (code != SCTP_ASSOC_DONE)
        return code;
    sctp_assoc_stats(slot, &metrics->totals);
    sctp_assoc_rto(slot, &metrics->rto_ms);
    sctp_assoc_is_closing(slot, &metrics->closing);
    sctp_assoc_is_closed(slot, &metrics->closed);
    sctp_assoc_is_failed(slot, &metrics->failed);
    metrics->established = sctp_assoc_is_established(slot);
    metrics->drained = sctp_assoc_is_drained(slot);
    metrics->next_timeout = 0;
    metrics->timer_runs = sctp_assoc_poll_timeout(slot, &metrics->next_timeout) == SCTP_ASSOC_DONE;
    count_traffic(watch, metrics);
    return SCTP_ASSOC_DONE;
}
