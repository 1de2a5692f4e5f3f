/* Calls on a slot that differ from the proved ones: what is freed may be NULL, and two questions answer by themselves.
 * `./library` gives the proved calls the names that are declared here, and their own names to these. */
#include "sctp_assoc.h"

sctp_assoc_code sctp_assoc_free_at(sctp_assoc *slot);
sctp_assoc_code sctp_assoc_is_established_at(sctp_assoc *slot, bool *answer);
sctp_assoc_code sctp_assoc_is_drained_at(sctp_assoc *slot, bool *answer);

sctp_assoc_code sctp_assoc_free(sctp_assoc *slot) {
    return slot ? sctp_assoc_free_at(slot) : SCTP_ASSOC_EMPTY_SLOT;
}

/* What a proved question answers; of an empty slot `if_empty`. The question takes the association out of its slot and
 * puts it back, so it writes to the slot and leaves it as it was. It may: a slot that holds an association got it by a
 * call, so it is no const object. An empty slot may be one, and isn't written to. */
static bool ask(sctp_assoc_code (*question)(sctp_assoc *slot, bool *answer), const sctp_assoc *slot, bool if_empty) {
    bool answer = if_empty;
    if (slot->live)
        question((sctp_assoc *)slot, &answer);
    return answer;
}

bool sctp_assoc_is_established(const sctp_assoc *slot) {
    return ask(sctp_assoc_is_established_at, slot, false);
}

bool sctp_assoc_is_drained(const sctp_assoc *slot) {
    return ask(sctp_assoc_is_drained_at, slot, true);
}
