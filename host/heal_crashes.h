/* Programs that crash at random and are started anew, with other numbers and at the same address. What was under way
 * still comes, and nothing is owed that was written before. A server does what docs/GUIDE.md says of a peer that starts
 * anew. A client whose server crashed notices it some time, by the silence, and then begins anew itself. */
#ifndef HEAL_CRASHES_H
#define HEAL_CRASHES_H

#include "heal_waiting.h"

#define MOST_LATE (10 * SECOND) /* more than any datagram is delayed */

static sctp_assoc_config configs[2]; /* of the ends, also anew */
static int crashes_left;
static uint64_t next_crash; /* or the start of a client that crashed */
static bool is_left;        /* the server crashed since the client was started */

/* The server beside that at B, if there is one. */
static struct {
    sctp_assoc assoc;
    sctp_assoc_watch watch;
    unsigned generation; /* of the client whose INIT it took last .. */
    bool is_crossed;     /* .. and it was connected by another one */
    uint64_t heard;      /* when it took that */
} beside;

/* Any numbers but 0; the TSNs of one in ten wrap soon. */
static sctp_assoc_identity choose_identity(void) {
    sctp_assoc_identity chosen = {.tag = (uint32_t)pick(UINT32_MAX) + 1};
    chosen.initial_tsn = happens(100) ? UINT32_MAX - (uint32_t)pick(50) : (uint32_t)pick(UINT32_MAX) + 1;
    for (size_t i = 0; i < sizeof chosen.cookie; i++)
        chosen.cookie[i] = (uint8_t)pick(256);
    return chosen;
}

/* ---- The client ---- */

/* Many crashes come while the handshake may go on. */
static void choose_crash(void) {
    uint64_t left = set.chaos_end > now ? set.chaos_end - now : 0;
    next_crash = NEVER;
    if (left > 0 && crashes_left-- > 0)
        next_crash = now + pick(left > 3 * SECOND && happens(500) ? 3 * SECOND : left);
}

static uint64_t pick_pause(void) {
    if (happens(500))
        return pick(300 * MS);
    return pick(happens(200) ? 100 * SECOND : 8 * SECOND);
}

/* What the application at an end knew is gone, and no message is owed any more. */
static void forget(int end) {
    for (uint32_t i = 0; i < message_count; i++) {
        strike(&messages[i]);
        messages[i].is_excused = true;
    }
    applications[end] = (struct application){.next_act = applications[end].next_act};
    watches[end] = (sctp_assoc_watch)SCTP_ASSOC_WATCH_NEW;
    set.join = SERVED;
}

static void crash(void) {
    say("---- client %u %s ----", generations[A], is_left ? "notices that its server crashed" : "crashes");
    CHECK(sctp_assoc_free(&ends[A].assoc) == SCTP_ASSOC_DONE);
    forget(A);
    is_left = false;
    is_down[A] = true;
    generations[A]++;
    next_crash = now + pick_pause();
}

static void start_anew(void) {
    sctp_assoc_identity identity = choose_identity();
    say("---- client %u is started ----", generations[A]);
    CHECK(done(sctp_assoc_client(&ends[A].assoc, &configs[A], set.max_payload_size, &identity, now)));
    is_down[A] = false;
    choose_crash();
}

/* ---- The server ---- */

/* Notes for which client a server stands that is not connected yet. It answers each INIT, and the first COOKIE ECHO
 * connects it: no use of a stream is closed then. */
static void note_handshake(const struct datagram *taken, unsigned *generation, bool *is_crossed) {
    if (taken->bytes[12] == 1) /* INIT */
        *generation = taken->generation;
    if (taken->bytes[12] != 10) /* COOKIE ECHO */
        return;
    *is_crossed = taken->generation != *generation;
    memset(closed_uses, 0, sizeof closed_uses);
}

static void begin_beside(void) {
    sctp_assoc_identity identity = choose_identity();
    say("a server begins beside B");
    memset(&beside.watch, 0, sizeof beside.watch);
    CHECK(done(sctp_assoc_server(&beside.assoc, &configs[B], set.max_payload_size, &identity, now)));
}

static void drop_beside(void) {
    sctp_assoc_free(&beside.assoc);
    memset(&beside, 0, sizeof beside);
}

/* The server's program crashes, and is started anew at once. It has no client until one begins anew. */
static void crash_server(void) {
    sctp_assoc_identity identity = choose_identity();
    say("---- the server crashes ----");
    drop_beside();
    CHECK(done(sctp_assoc_server(&ends[B].assoc, &configs[B], set.max_payload_size, &identity, now)));
    forget(B);
    is_left = true;
    generations[B] = generations[A] + 1;
    next_crash = now + pick_pause();
}

static void crash_or_start(void) {
    if (is_down[A])
        start_anew();
    else if (!is_left && happens(set.server_crashes))
        crash_server();
    else
        crash();
}

/* The server beside is connected: the old one goes, and all that its application knew with it. */
static void take_place(void) {
    say("the server beside takes the place of B, for client %u%s", beside.generation,
        beside.is_crossed ? ", crossed" : "");
    CHECK(sctp_assoc_free(&ends[B].assoc) == SCTP_ASSOC_DONE);
    ends[B].assoc = beside.assoc; /* a slot may be moved */
    watches[B] = beside.watch;
    applications[B] = (struct application){.next_act = now + pick(SECOND), .is_crossed = beside.is_crossed};
    generations[B] = beside.generation;
    memset(&beside, 0, sizeof beside);
}

static void answer_from_beside(void) {
    static uint8_t datagram[SCTP_ASSOC_MAX_DATAGRAM];
    size_t length;
    uint64_t due;
    while (
        done(sctp_assoc_watched_poll_transmit(&beside.assoc, &beside.watch, now, datagram, sizeof datagram, &length)))
        run->send(B, datagram, length);
    CHECK(!done(sctp_assoc_poll_timeout(&beside.assoc, &due)));
}

/* A server beside B gets what B leaves. */
static void hand_to_beside(const struct datagram *came, uint32_t fate_at_b) {
    uint32_t fate;
    bool is_closed; /* as a server is until its handshake is done */
    if (fate_at_b == SCTP_ASSOC_OTHER_INIT && sctp_assoc_is_drained(&beside.assoc))
        begin_beside();
    if (sctp_assoc_is_drained(&beside.assoc))
        return;
    CHECK(
        done(sctp_assoc_watched_handle_datagram(&beside.assoc, &beside.watch, now, came->bytes, came->length, &fate)));
    CHECK(done(sctp_assoc_is_closed(&beside.assoc, &is_closed)));
    if (fate == SCTP_ASSOC_TAKEN) {
        note_handshake(came, &beside.generation, &beside.is_crossed);
        beside.heard = now;
    }
    if (is_closed)
        answer_from_beside();
    else
        take_place();
}

/* What becomes of a datagram of the client. An old INIT that came late leaves a server beside that nobody completes. */
static void meet_datagram(const struct datagram *came, uint32_t fate) {
    if (came->to != B || set.crashes == 0)
        return;
    if (fate == SCTP_ASSOC_OTHER_INIT || fate == SCTP_ASSOC_OTHER_TAG) {
        hand_to_beside(came, fate);
    } else if (fate == SCTP_ASSOC_TAKEN) {
        if (!applications[B].is_connected)
            note_handshake(came, &generations[B], &applications[B].is_crossed);
        if (set.drops_beside && now > beside.heard + MOST_LATE)
            drop_beside(); /* the peer is there, and not the one that asked */
    }
}

/* ---- The beginning and the end of a seed ---- */

static void begin_crashes(void) {
    drop_beside();
    crashes_left = set.crashes;
    is_left = false;
    choose_crash();
}

/* As the network heals, a client begins anew that has no server, or crashed. */
static void end_crashes(void) {
    if (is_left)
        crash();
    if (is_down[A])
        start_anew();
    next_crash = NEVER;
}

#endif
