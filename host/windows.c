/* How far the windows let DATA go out, how an acknowledgement opens them and a loss closes them, how DATA is bundled,
 * and what is counted of that. The numbers were reckoned apart from the library, after RFC 4960 sections 6.10 and 7.2:
 * the MTU is 1,228 bytes, the first congestion window 4,380, and no loss takes the threshold below four MTUs, 4,912. */
#include "steps.h"

#define SIZE 1200

static sctp_assoc_path_values path;
static sctp_assoc_totals totals;

static void begin(void) {
    sctp_assoc_config config = default_config();
    join(&config, SIZE);
}

/* What an end counted: DATA, SACK, timeouts of retransmission, of delayed acknowledgements, fast retransmissions. */
static void has_counted(int end, uint64_t data, uint64_t sacks, uint64_t timeouts, uint64_t delays, uint64_t fast) {
    CHECK(done(sctp_assoc_stats(&ends[end], &totals)));
    CHECK(totals.data_chunks == data && totals.sacks == sacks && totals.retransmission_timeouts == timeouts);
    CHECK(totals.ack_timeouts == delays && totals.fast_retransmissions == fast);
}

/* The datagram of B with this number is a SACK up to this TSN (RFC 4960 section 3.3.4). */
static void acknowledges(size_t number, uint8_t tsn) {
    const uint8_t *packet = sent[B][number].bytes;
    CHECK(packet[12] == 3 && packet[16] == 0 && packet[17] == 0 && packet[18] == 0 && packet[19] == tsn);
}

/* One message of two bytes: 12 bytes of common header, 16 of DATA, and two of padding. */
static void one_message(void) {
    begin();
    write_bytes('h', 2);
    CHECK(send_due(A) == 1 && sent[A][0].length == 32);
    deliver(B, 0);
    read_bytes('h', 2);
    expire(B, 200);
    CHECK(send_due(B) == 1);
    acknowledges(0, FIRST_TSN);
    deliver(A, 0);
    has_counted(A, 0, 1, 0, 0, 0);
    has_counted(B, 1, 0, 0, 1, 0);
    free_both(ends);
}

/* Three pieces of 12,000 bytes fill the first window; their acknowledgement opens it by one packet. */
static void slow_start(void) {
    begin();
    write_bytes('a', 12000);
    CHECK(send_due(A) == 3);
    for (size_t number = 0; number < 3; number++)
        deliver(B, number);
    CHECK(send_due(B) == 1);
    deliver(A, 0);
    CHECK(send_due(A) == 4);
    CHECK(done(sctp_assoc_path(&ends[A], &path)) && path.congestion_window == 5608);
    free_both(ends);
}

/* An acknowledgement of fewer bytes than a packet has, while others wait, opens the window by what came. */
static void slow_start_by_little(void) {
    begin();
    write_bytes('a', 1200);
    CHECK(send_due(A) == 1);
    write_bytes('b', 1);
    deliver(B, 0);
    expire(B, 200);
    CHECK(send_due(B) == 1);
    deliver(A, 0);
    CHECK(done(sctp_assoc_path(&ends[A], &path)) && path.congestion_window == 5580);
    free_both(ends);
}

/* A timeout leaves a window of one packet. */
static void timeout(void) {
    begin();
    write_bytes('a', 6000);
    CHECK(send_due(A) == 3);
    expire(A, 3000);
    CHECK(send_next(A));
    CHECK(done(sctp_assoc_path(&ends[A], &path)));
    CHECK(path.congestion_window == 1228 && path.slow_start_threshold == 4912);
    free_both(ends);
}

/* Of four messages the first one is lost, and three SACKs report it missing: it goes out again at once. */
static void fast_retransmission(void) {
    begin();
    for (uint8_t byte = 'a'; byte <= 'd'; byte++) {
        write_bytes(byte, 1);
        CHECK(send_due(A) == 1);
    }
    for (size_t number = 1; number <= 3; number++) {
        deliver(B, number);
        CHECK(send_due(B) == 1);
        deliver(A, number - 1);
    }
    CHECK(send_due(A) == 1);
    deliver(B, 4);
    for (uint8_t byte = 'a'; byte <= 'd'; byte++)
        read_bytes(byte, 1);
    has_counted(A, 0, 3, 0, 0, 1);
    CHECK(done(sctp_assoc_path(&ends[A], &path)));
    CHECK(path.congestion_window == 4912 && path.slow_start_threshold == 4912);
    free_both(ends);
}

/* Two messages share a packet if that is then no longer than the MTU: 12 bytes, and for each 16 and its own. */
static void bundles(void) {
    begin();
    write_bytes('a', 604);
    write_bytes('b', 592);
    CHECK(send_due(A) == 2 && sent[A][0].length == 632 && sent[A][1].length == 620);
    free_both(ends);
    begin();
    write_bytes('a', 592);
    write_bytes('b', 592);
    CHECK(send_due(A) == 1 && sent[A][0].length == 1228);
    free_both(ends);
}

/* Two pieces fill B's buffer of 2,000 bytes. The next message goes out as a probe, which B does not take in. Once B
 * has read, its SACK opens the window, and the probe goes out again when its timer expires. */
static void probe(void) {
    sctp_assoc_config config = default_config();
    config.max_receive_buffer_size = 2000;
    join(&config, SIZE);
    write_bytes('a', 2000);
    CHECK(send_due(A) == 2);
    deliver(B, 0);
    deliver(B, 1);
    CHECK(send_due(B) == 1);
    deliver(A, 0);
    write_bytes('b', 1);
    CHECK(send_due(A) == 1);
    deliver(B, 2);
    read_bytes('a', 2000);
    read_none();
    expire(B, 200);
    CHECK(send_due(B) == 1);
    acknowledges(1, FIRST_TSN + 1);
    deliver(A, 1);
    expire(A, 1000);
    CHECK(send_due(A) == 1);
    deliver(B, 3);
    read_bytes('b', 1);
    CHECK(done(sctp_assoc_stats(&ends[B], &totals)) && totals.data_chunks == 4);
    expire(B, 1200);
    CHECK(send_due(B) == 1);
    acknowledges(2, FIRST_TSN + 2);
    free_both(ends);
}

int main(void) {
    one_message();
    slow_start();
    slow_start_by_little();
    timeout();
    fast_retransmission();
    bundles();
    probe();
    puts("windows: ok");
    return 0;
}
