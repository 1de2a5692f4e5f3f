/* The release that the archive tells, and NULL if no bytes or identifiers are meant: by each call that takes a
 * pointer and a length. */
#include "support.h"

static sctp_assoc ends[2];
static uint8_t bytes[2000];
static size_t length, count;
static uint32_t type, fate;
static uint16_t ids[1];

static void release(void) {
    CHECK(sctp_assoc_version() == SCTP_ASSOC_VERSION);
    CHECK(SCTP_ASSOC_VERSION == 10000 * SCTP_ASSOC_VERSION_MAJOR + 100 * SCTP_ASSOC_VERSION_MINOR +
                                    SCTP_ASSOC_VERSION_PATCH);
}

/* No bytes are no packet, no buffer has no room, and no message is an empty one. */
static void with_nothing(void) {
    fate = 77;
    CHECK(sctp_assoc_handle_datagram(&ends[0], 0, NULL, 0, &fate) == SCTP_ASSOC_DONE && fate == SCTP_ASSOC_NO_PACKET);
    CHECK(sctp_assoc_poll_transmit(&ends[0], 0, NULL, 0, &length) == SCTP_ASSOC_NOTHING);
    CHECK(sctp_assoc_stream_ids(&ends[0], NULL, 0, &count) == SCTP_ASSOC_DONE && count == 0);

    CHECK(done(sctp_assoc_open_stream(&ends[0], 1, SCTP_ASSOC_PPID_BINARY)));
    CHECK(sctp_assoc_write(&ends[0], 1, SCTP_ASSOC_PPID_OF_STREAM, NULL, 0) == SCTP_ASSOC_EMPTY_MESSAGE);
    CHECK(sctp_assoc_read(&ends[0], 1, NULL, 0, &length, &type) == SCTP_ASSOC_NOTHING);
    CHECK(sctp_assoc_stream_ids(&ends[0], NULL, 0, &count) == SCTP_ASSOC_NO_ROOM && count == 1);
}

/* What finds no room stays, and comes whole into a buffer. */
static void with_something(void) {
    CHECK(done(sctp_assoc_write(&ends[0], 1, SCTP_ASSOC_PPID_OF_STREAM, (const uint8_t *)"hello", 5)));
    CHECK(sctp_assoc_poll_transmit(&ends[0], 0, NULL, 0, &length) == SCTP_ASSOC_NO_ROOM && length == 36);
    CHECK(done(sctp_assoc_poll_transmit(&ends[0], 0, bytes, sizeof bytes, &length)) && length == 36);
    CHECK(done(sctp_assoc_handle_datagram(&ends[1], 0, bytes, length, &fate)) && fate == SCTP_ASSOC_TAKEN);

    CHECK(sctp_assoc_read(&ends[1], 1, NULL, 0, &length, &type) == SCTP_ASSOC_NO_ROOM && length == 5);
    CHECK(done(sctp_assoc_read(&ends[1], 1, bytes, sizeof bytes, &length, &type)));
    CHECK(length == 5 && memcmp(bytes, "hello", 5) == 0 && type == SCTP_ASSOC_PPID_BINARY);
    CHECK(done(sctp_assoc_stream_ids(&ends[1], ids, 1, &count)) && count == 1 && ids[0] == 1);
}

int main(void) {
    sctp_assoc_config config = default_config();
    release();
    shake_hands(ends, &config, 0);
    with_nothing();
    with_something();
    free_both(ends);
    puts("edges: ok");
    return 0;
}
