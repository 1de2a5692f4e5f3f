/* Identities from the system's random source. No other part of the archive asks the system for anything but memory, and
 * a program that doesn't make this call links none of this one. */
#define _DEFAULT_SOURCE
#include "sctp_assoc.h"

#include <errno.h>
#include <fcntl.h>
#include <unistd.h>

/* For a kernel or a sandbox that lacks the system call. */
static bool read_device(void *bytes, size_t length) {
    int device = open("/dev/urandom", O_RDONLY | O_CLOEXEC);
    ssize_t came;
    if (device < 0)
        return false;
    do
        came = read(device, bytes, length);
    while (came < 0 && errno == EINTR);
    close(device);
    return came == (ssize_t)length;
}

sctp_assoc_code sctp_assoc_random_identity(sctp_assoc_identity *identity) {
    sctp_assoc_identity drawn;
    if (getentropy(&drawn, sizeof drawn) != 0 && !read_device(&drawn, sizeof drawn))
        return SCTP_ASSOC_NO_RANDOM;
    drawn.tag = drawn.tag ? drawn.tag : 1;
    drawn.initial_tsn = drawn.initial_tsn ? drawn.initial_tsn : 1;
    *identity = drawn;
    return SCTP_ASSOC_DONE;
}
