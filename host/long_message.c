/* A message that is longer than those of the defaults goes over by tokens: as long as DATA_CHANNEL_OPEN gets, with label
 * and protocol of 65,535 bytes each (RFC 8832 section 5.1). */
#include "support.h"

#define STREAM 1
#define LENGTH (12 + 2 * 65535)

static sctp_assoc ends[2];
static uint8_t written[LENGTH], read[LENGTH];

static void join(void) {
    sctp_assoc_config config = default_config();
    sctp_assoc_token tokens[2];
    config.max_send_message_size = config.max_receive_message_size = 150000;
    for (uint32_t side = 0; side < 2; side++)
        CHECK(done(sctp_assoc_make_token(&config, side + 1, 100, &tokens[side])));
    for (int side = 0; side < 2; side++)
        CHECK(done(sctp_assoc_joined(&ends[side], &config, PAYLOAD_SIZE, &tokens[side], &tokens[!side])));
}

int main(void) {
    size_t length = 0;
    uint32_t type = 0;
    join();
    CHECK(done(sctp_assoc_open_stream(&ends[0], STREAM, SCTP_ASSOC_PPID_BINARY)));
    fill(written, LENGTH, 7);
    CHECK(done(sctp_assoc_write(&ends[0], STREAM, SCTP_ASSOC_PPID_DCEP, written, LENGTH)));
    for (uint64_t now = 0; now < 5000 * MS; now += 250 * MS)
        for (int end = 0; end < 2; end++) {
            CHECK(done(sctp_assoc_handle_timeout(&ends[end], now)));
            pass_on(&ends[end], &ends[!end], now);
        }
    CHECK(done(sctp_assoc_read(&ends[1], STREAM, read, LENGTH, &length, &type)));
    CHECK(length == LENGTH && type == SCTP_ASSOC_PPID_DCEP && memcmp(written, read, LENGTH) == 0);
    free_both(ends);
    puts("long_message: ok");
    return 0;
}
