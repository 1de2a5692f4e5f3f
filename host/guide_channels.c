/* Runs the C code of docs/GUIDE.md on data channels, which host/run takes out of the page: a client and a server shake
 * hands, the client opens a channel, both say hello on it, and it is closed. */
#include "support.h"

#include "sctp_channels.h"

static unsigned came, forgotten; /* messages, channels */

static void take_message(uint16_t id, bool is_text, const uint8_t *message, size_t length) {
    CHECK(id == 0 && is_text && length == 5 && memcmp(message, "hello", 5) == 0);
    came++;
}

static void forget_channel(uint16_t id) {
    CHECK(id == 0);
    forgotten++;
}

#include "guide_channels.h"

static sctp_peer ends[2];

/* Both ends take their events, and send what they have to, so often that nothing is left. */
static void go_on(uint64_t now) {
    for (int turns = 0; turns < 10; turns++) {
        for (int end = 0; end < 2; end++) {
            CHECK(done(sctp_assoc_handle_timeout(&ends[end].assoc, now)));
            take_channel_events(&ends[end]);
            pass_on(&ends[end].assoc, &ends[!end].assoc, now);
        }
    }
}

int main(void) {
    sctp_assoc_config config = default_config();
    sctp_assoc_identity client = identity(1), server = identity(2);
    sctp_channels_info info;
    CHECK(done(sctp_assoc_client(&ends[0].assoc, &config, PAYLOAD_SIZE, &client, 0)));
    CHECK(done(sctp_assoc_server(&ends[1].assoc, &config, PAYLOAD_SIZE, &server, 0)));
    for (int end = 0; end < 2; end++)
        begin_channels(&ends[end], end == 0);
    go_on(0);
    CHECK(came == 2);
    CHECK(done(sctp_channels_get_info(&ends[1], 0, &info)));
    CHECK(info.unordered && info.reliability == SCTP_ASSOC_REXMIT && info.value == 2 && info.label_length == 5);
    for (uint64_t tenths = 1; tenths <= 10; tenths++) /* what was delayed is acknowledged */
        go_on(tenths * 100 * MS);
    CHECK(done(sctp_channels_close(&ends[0], 0)));
    go_on(1100 * MS);
    CHECK(forgotten == 2 && came == 2);
    for (int end = 0; end < 2; end++)
        CHECK(sctp_peer_free(&ends[end]) == SCTP_ASSOC_DONE);
    CHECK(blocks == 0 && heap_bytes == 0);
    puts("guide_channels: ok");
    return 0;
}
