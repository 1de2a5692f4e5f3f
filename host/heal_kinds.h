/* How a seed may end, and what of it is open: the cases by hand that do not hold, with the kinds of ends that each of
 * them explains. */
#ifndef HEAL_KINDS_H
#define HEAL_KINDS_H

#include "heal_pair.h"

enum kind {
    WELL,
    READ_WRONG, /* what was read was not written so */
    READ_OLD,   /* .. or in an association before */
    READ_TWICE,
    READ_OUT_OF_ORDER,
    CLOSED,              /* an end closed by a fault that it saw, or by the peer's ABORT */
    EXHAUSTED_SKIPPED,   /* the receive buffer is full of what can never be read, where messages could be given up .. */
    EXHAUSTED_STOPPED,   /* .. where a stream was stopped .. */
    EXHAUSTED,           /* .. where neither is so, or a stream was reset before */
    SELF_CLOSED,         /* a use of a stream ended that neither side had closed */
    UNREAD_SKIPPED,      /* a reliable message is not read, where the first of its stream could be given up, and that
                            was never reset .. */
    UNREAD,              /* .. or where it could not */
    BUFFERED,            /* what was accepted is neither acknowledged nor given up */
    RESET_AFTER_FAILED,  /* a reset does not end, where an earlier one was given up */
    RESET_UNUSED,        /* .. or the other end has no such stream */
    RESET,               /* .. or neither is so */
    RESET_UNANSWERED,    /* the peer's half of a stream ended, and the own one does not */
    BLOCKED,             /* a stream cannot be opened, though the last reset of it was complete */
    HANDSHAKE,           /* a client is neither connected nor told that the handshake failed */
    HANDSHAKE_TWO,       /* .. of two */
    HANDSHAKE_ANEW,      /* a client that was started anew is not connected .. */
    HANDSHAKE_CROSSED,   /* .. and the server is, by one client's INIT and another one's COOKIE ECHO */
    HANDSHAKE_SHUT_DOWN, /* one end shut down, and the other one is neither connected nor told that it failed */
    HALF_OPEN,           /* one end is connected, and the other one is not told that the handshake failed */
    SHUTDOWN,            /* a shutdown does not end */
    SLOW,                /* all came to its end, later than the timers that ran and what was owed explain */
    UNARMED,             /* DATA is in flight, and no timer runs */
    SPINNING,            /* timers expire again and again at one moment */
    IDLE_TIMER,          /* a timer runs, though nothing is waited for */
    STORM,               /* more happens than a run of this length explains */
    KINDS
};

static const char *const kind_names[KINDS] = {
    [WELL] = "well",
    [READ_WRONG] = "read_wrong",
    [READ_OLD] = "read_old",
    [READ_TWICE] = "read_twice",
    [READ_OUT_OF_ORDER] = "read_out_of_order",
    [CLOSED] = "closed",
    [EXHAUSTED_SKIPPED] = "exhausted_skipped",
    [EXHAUSTED_STOPPED] = "exhausted_stopped",
    [EXHAUSTED] = "exhausted",
    [SELF_CLOSED] = "self_closed",
    [UNREAD_SKIPPED] = "unread_skipped",
    [UNREAD] = "unread",
    [BUFFERED] = "buffered",
    [RESET_AFTER_FAILED] = "reset_after_failed",
    [RESET_UNUSED] = "reset_unused",
    [RESET] = "reset",
    [RESET_UNANSWERED] = "reset_unanswered",
    [BLOCKED] = "blocked",
    [HANDSHAKE] = "handshake",
    [HANDSHAKE_TWO] = "handshake_two",
    [HANDSHAKE_ANEW] = "handshake_anew",
    [HANDSHAKE_CROSSED] = "handshake_crossed",
    [HANDSHAKE_SHUT_DOWN] = "handshake_shut_down",
    [HALF_OPEN] = "half_open",
    [SHUTDOWN] = "shutdown",
    [SLOW] = "slow",
    [UNARMED] = "unarmed",
    [SPINNING] = "spinning",
    [IDLE_TIMER] = "idle_timer",
    [STORM] = "storm",
};

#define OF(kind) (UINT32_C(1) << (kind))

/* The cases by hand that are open, and why. A case that holds is taken off, and a kind is open as long as a case that
 * explains it is. */
static const struct {
    const char *name;
    uint32_t kinds;
    const char *why;
} open_cases[] = {
    {"heap", 0, "Queues keep the room of the greatest length that they had."},
    {"late_init", OF(HANDSHAKE_CROSSED), "A server is for the client of the last INIT, whoever has its cookie."},
    {"late_echo", OF(HANDSHAKE_CROSSED), "It has one cookie for all, so the echo of an earlier client connects it."},
};

static uint32_t open_kinds(void) {
    uint32_t kinds = OF(WELL);
    for (size_t i = 0; i < COUNT_OF(open_cases); i++)
        kinds |= open_cases[i].kinds;
    return kinds;
}

/* ---- What was found in a seed ---- */

static enum kind found; /* the first that was, or WELL */
static char found_text[200];

static void find(enum kind kind, const char *format, ...) {
    va_list values;
    if (found != WELL)
        return;
    found = kind;
    va_start(values, format);
    vsnprintf(found_text, sizeof found_text, format, values);
    va_end(values);
    say("found: %s, %s", kind_names[kind], found_text);
}

#endif
