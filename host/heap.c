/* A heap that the program sets: all that the library takes comes from it, each call of it is handed the program's
 * pointer, and each block goes back there. What it refuses the calls answer by SCTP_ASSOC_NO_MEMORY. Without one the
 * library takes memory from malloc. */
#define rattle_alloc support_alloc /* the heap of support.h, under names by which the library doesn't call it */
#define rattle_realloc support_realloc
#define rattle_dealloc support_dealloc
#include "support.h"

#include "sctp_channels.h"

#define STREAM 1

static int own; /* where the program's pointer leads */
static uint64_t calls;
static uint8_t written[65536], read[65536];

static void *allocate(void *user, size_t size, size_t align) {
    CHECK(user == &own && size > 0 && align > 0 && (align & (align - 1)) == 0);
    calls++;
    sctp_assoc_block block = support_alloc(size, align);
    return block.ok ? block.at : NULL;
}

static void *reallocate(void *user, void *at, size_t kept, size_t size, size_t align) {
    CHECK(user == &own && at && kept <= malloc_usable_size(at) && size > 0 && align > 0);
    calls++;
    sctp_assoc_block block = support_realloc(at, kept, size, align);
    return block.ok ? block.at : NULL;
}

static void release(void *user, void *at) {
    CHECK(user == &own && at);
    calls++;
    support_dealloc(at);
}

/* The struct is the program's again once the call returns. */
static void set_own(void) {
    sctp_assoc_heap heap = {allocate, reallocate, release, &own};
    CHECK(sctp_assoc_set_heap(&heap) == SCTP_ASSOC_DONE);
    memset(&heap, 0, sizeof heap);
}

/* A handshake and a message of 65,536 bytes. */
static void session(void) {
    sctp_assoc ends[2] = {SCTP_ASSOC_EMPTY, SCTP_ASSOC_EMPTY};
    sctp_assoc_config config = default_config();
    sctp_assoc_code code = SCTP_ASSOC_NOTHING;
    size_t length;
    uint32_t type;
    shake_hands(ends, &config, 0);
    CHECK(done(sctp_assoc_open_stream(&ends[0], STREAM, SCTP_ASSOC_PPID_BINARY)));
    fill(written, sizeof written, 1);
    CHECK(done(sctp_assoc_write(&ends[0], STREAM, SCTP_ASSOC_PPID_OF_STREAM, written, sizeof written)));
    for (uint64_t now = 0; code != SCTP_ASSOC_DONE; now += 200 * MS) {
        CHECK(now < 100000 * MS);
        for (int end = 0; end < 2; end++) {
            CHECK(done(sctp_assoc_handle_timeout(&ends[end], now)));
            pass_on(&ends[end], &ends[!end], now);
        }
        code = sctp_assoc_read(&ends[1], STREAM, read, sizeof read, &length, &type);
    }
    CHECK(length == sizeof written && memcmp(written, read, length) == 0);
    free_both(ends);
}

/* All blocks of an association and of channels are of the own heap. */
static void own_heap(void) {
    sctp_assoc_config config = default_config();
    sctp_assoc_identity named = identity(1);
    sctp_peer peer = SCTP_PEER_EMPTY;
    set_own();
    session();
    CHECK(growths > 0 && most_heap_bytes > sizeof written);
    CHECK(done(sctp_assoc_client(&peer.assoc, &config, PAYLOAD_SIZE, &named, 0)) && blocks > 0);
    uint64_t of_association = blocks;
    CHECK(done(sctp_channels_begin(&peer, SCTP_CHANNELS_CLIENT)) && blocks > of_association);
    CHECK(sctp_peer_free(&peer) == SCTP_ASSOC_DONE && blocks == 0 && heap_bytes == 0);
}

static void refusing_heap(void) {
    sctp_assoc_config config = default_config();
    sctp_assoc_identity named = identity(1);
    sctp_assoc slot = SCTP_ASSOC_EMPTY;
    refused_from = growths + 1, refused_to = UINT64_MAX;
    CHECK(sctp_assoc_client(&slot, &config, PAYLOAD_SIZE, &named, 0) == SCTP_ASSOC_NO_MEMORY);
    CHECK(!slot.live && blocks == 0);
    refused_from = refused_to = 0;
}

/* The own heap isn't called before it is set, nor once it is no longer. */
static void without_own(void) {
    uint64_t before = calls;
    session();
    CHECK(calls == before && blocks == 0);
}

int main(void) {
    without_own();
    own_heap();
    refusing_heap();
    CHECK(calls > 0);
    CHECK(sctp_assoc_set_heap(NULL) == SCTP_ASSOC_DONE);
    without_own();
    puts("heap: ok");
    return 0;
}
