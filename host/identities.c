/* Identities from the system's random source. The C library's call for random bytes is replaced here by one that gives
 * the system's, chosen ones or none, so that the device behind it is read, and the code that stands for neither. */
#define _DEFAULT_SOURCE
#include "support.h"

#include <errno.h>
#include <sys/random.h>
#include <sys/resource.h>
#include <unistd.h>

static enum { OF_SYSTEM, OF_ZEROES, ASCENDING, MISSING } source;
static sctp_assoc_identity drawn, other;

int getentropy(void *bytes, size_t length) {
    CHECK(length == sizeof(sctp_assoc_identity));
    if (source == MISSING)
        errno = ENOSYS;
    for (size_t i = 0; source == ASCENDING && i < length; i++)
        ((uint8_t *)bytes)[i] = (uint8_t)(i + 1);
    if (source == OF_ZEROES)
        memset(bytes, 0, length);
    if (source == OF_SYSTEM)
        CHECK(getrandom(bytes, length, 0) == (ssize_t)length);
    return source == MISSING ? -1 : 0;
}

/* Two that are drawn differ, also in what is no cookie, and have no number that is forbidden. */
static void draw_two(void) {
    CHECK(done(sctp_assoc_random_identity(&drawn)));
    CHECK(done(sctp_assoc_random_identity(&other)));
    CHECK(drawn.tag != 0 && drawn.initial_tsn != 0 && other.tag != 0 && other.initial_tsn != 0);
    CHECK(drawn.tag != other.tag || drawn.initial_tsn != other.initial_tsn);
    CHECK(memcmp(drawn.cookie, other.cookie, sizeof drawn.cookie) != 0);
}

static void two_of_the_system_shake_hands(void) {
    sctp_assoc ends[2] = {SCTP_ASSOC_EMPTY, SCTP_ASSOC_EMPTY};
    sctp_assoc_config config = default_config();
    source = OF_SYSTEM;
    draw_two();
    CHECK(done(sctp_assoc_client(&ends[0], &config, PAYLOAD_SIZE, &drawn, 0)));
    CHECK(done(sctp_assoc_server(&ends[1], &config, PAYLOAD_SIZE, &other, 0)));
    for (int end = 0; end < 4; end++)
        pass_on(&ends[end % 2], &ends[!(end % 2)], 0);
    for (int end = 0; end < 2; end++)
        CHECK(sctp_assoc_is_established(&ends[end]));
    free_both(ends);
}

static void the_bytes_are_taken_as_they_come(void) {
    uint8_t bytes[sizeof drawn];
    source = ASCENDING;
    CHECK(getentropy(bytes, sizeof bytes) == 0);
    CHECK(done(sctp_assoc_random_identity(&drawn)) && memcmp(&drawn, bytes, sizeof bytes) == 0);
}

static void a_number_0_is_1(void) {
    static const uint8_t zeroes[sizeof drawn.cookie];
    source = OF_ZEROES;
    CHECK(done(sctp_assoc_random_identity(&drawn)));
    CHECK(drawn.tag == 1 && drawn.initial_tsn == 1 && memcmp(drawn.cookie, zeroes, sizeof zeroes) == 0);
}

static void without_the_call_the_device_is_read(void) {
    source = MISSING;
    draw_two();
}

/* No file can be opened, so that the device fails, too. */
static void without_either_it_is_refused(void) {
    struct rlimit limit;
    source = MISSING;
    CHECK(getrlimit(RLIMIT_NOFILE, &limit) == 0);
    rlim_t files = limit.rlim_cur;
    limit.rlim_cur = 0;
    CHECK(setrlimit(RLIMIT_NOFILE, &limit) == 0);
    drawn = other = identity(7);
    CHECK(sctp_assoc_random_identity(&drawn) == SCTP_ASSOC_NO_RANDOM);
    CHECK(memcmp(&drawn, &other, sizeof drawn) == 0);
    limit.rlim_cur = files;
    CHECK(setrlimit(RLIMIT_NOFILE, &limit) == 0);
}

int main(void) {
    two_of_the_system_shake_hands();
    the_bytes_are_taken_as_they_come();
    a_number_0_is_1();
    without_the_call_the_device_is_read();
    without_either_it_is_refused();
    puts("identities: ok");
    return 0;
}
