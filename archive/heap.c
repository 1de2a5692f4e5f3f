/* The heap of the library if the program defines none of its own: the one that the program set, or else malloc, realloc
 * and free. It stands in a member of the archive by itself, so that a program which defines these three functions has
 * its own ones called. */
#define SCTP_ASSOC_HEAP
#include "sctp_assoc.h"

#include <stdlib.h>

/* What is called for a heap that was set stands apart, so that a program without one pays a comparison alone. */
#define APART __attribute__((cold, noinline))

static sctp_assoc_heap set; /* all 0 if there is none */

sctp_assoc_code sctp_assoc_set_heap(const sctp_assoc_heap *heap) {
    static const sctp_assoc_heap none;
    set = heap ? *heap : none;
    return SCTP_ASSOC_DONE;
}

static char elsewhere; /* where `at` leads when memory is refused */

static sctp_assoc_block block(void *at) {
    return (sctp_assoc_block){at != NULL, at ? at : &elsewhere};
}

APART static sctp_assoc_block allocate(size_t size, size_t align) {
    return block(set.allocate(set.user, size ? size : 1, align));
}

APART static sctp_assoc_block reallocate(void *at, size_t kept, size_t size, size_t align) {
    return block(set.reallocate(set.user, at, kept, size ? size : 1, align));
}

APART static void release(void *at) {
    set.release(set.user, at);
}

/* A block of malloc is aligned to each power of two up to 16 that its size has room for, and no more is asked for. */
sctp_assoc_block rattle_alloc(size_t size, size_t align) {
    return set.allocate ? allocate(size, align) : block(malloc(size ? size : 1));
}

sctp_assoc_block rattle_realloc(void *at, size_t kept, size_t size, size_t align) {
    return set.reallocate ? reallocate(at, kept, size, align) : block(realloc(at, size ? size : 1));
}

void rattle_dealloc(void *at) {
    if (set.release)
        release(at);
    else
        free(at);
}
