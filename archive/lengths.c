/* The length of the next message of a stream, by a read without room. */
#include "sctp_assoc.h"

/* Such a read leaves a message where it is and answers NO_ROOM. A message without a byte alone it takes out. */
sctp_assoc_code sctp_assoc_next_length(sctp_assoc *slot, uint16_t stream, size_t *length) {
    sctp_assoc_code code;
    size_t found;
    uint32_t payload_type;
    do
        code = sctp_assoc_read(slot, stream, NULL, 0, &found, &payload_type);
    while (code == SCTP_ASSOC_DONE);
    if (code != SCTP_ASSOC_NO_ROOM)
        return code;
    *length = found;
    return SCTP_ASSOC_DONE;
}
