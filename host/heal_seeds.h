/* A seed: two ends over a network that loses, repeats, delays, reorders and goes black, until it heals and everybody
 * reads. Then all that both began has to come to its end, and each stream has to be of use once more. */
#ifndef HEAL_SEEDS_H
#define HEAL_SEEDS_H

#include "heal_crashes.h"

#include <sys/wait.h>
#include <unistd.h>

#define CLASSES 11
#define HEALED_DELAY (10 * MS)
#define MOST_AFTER_HEALING (600 * SECOND)
#define MOST_STEPS 3000000

enum { ANY, NO_LOSS, NO_PAUSES, BLACK_OUTS, MEMORY, TWO, TAME, TAME_DEFAULT, TAME_TWO, TAME_LONG, CRASHES };

static int class;
static uint64_t seed, healed_at;
static bool is_healed;
static uint64_t black_from[2], black_until[2], next_black; /* of what each end sends */

/* ---- The network ---- */

static uint64_t pick_delay(void) {
    if (is_healed)
        return HEALED_DELAY;
    uint64_t delay = set.delay + pick(set.jitter + 1);
    if (happens(set.delays)) {
        delay += pick(3 * set.delay);
        delay += pick(happens(50) ? 5 * SECOND : 100 * MS);
    }
    return delay;
}

static void send_over_network(int from, const uint8_t *datagram, size_t length) {
    bool is_black = now >= black_from[from] && now < black_until[from];
    int copies = 1;
    if (!is_healed && (is_black || happens(set.losses)))
        copies = 0;
    else if (!is_healed && happens(set.repeats))
        copies = 2;
    show(copies > 0 ? "goes" : "is lost", from, datagram, length);
    for (; copies > 0; copies--)
        put_on_way(!from, now + pick_delay(), datagram, length);
}

/* One direction goes black, or both do. */
static void go_black(void) {
    uint64_t which = pick(3);
    uint64_t time = happens(150) ? pick_between(20000, 200000) * MS : pick_between(200, 10000) * MS;
    for (uint64_t from = 0; from < 2; from++)
        if (which == 2 || which == from)
            black_from[from] = now, black_until[from] = now + time;
    next_black = now + time + pick_between(100, 20000) * MS;
    say("black-out of %s for %llu ms", which == 2 ? "both" : which == A ? "A" : "B", (unsigned long long)(time / MS));
}

/* Has one of the next growths refused, if the last that was to be is past. */
static void refuse_again(void) {
    if (may_be_refused && growths >= refused_to) {
        refused_from = growths + 1 + pick(2 * set.growths_for_refusal);
        refused_to = refused_from + 1;
    }
}

/* ---- The life of a pair ---- */

/* When an application does something next, if that is before another moment. */
static uint64_t next_act(uint64_t other) {
    uint64_t next = other;
    for (int end = 0; end < 2; end++) {
        const struct application *own = &applications[end];
        if (!is_healed && own->next_act < next)
            next = own->next_act;
        if (own->is_paused && own->pause_end < next)
            next = own->pause_end;
    }
    if (!is_healed && next_crash < next)
        next = next_crash;
    return !is_healed && next_black < next ? next_black : next;
}

static void act_if_due(int end) {
    struct application *own = &applications[end];
    if (own->is_paused && now >= own->pause_end) {
        own->is_paused = own->is_deaf = false;
        say("%c reads again", "AB"[end]);
    }
    if (!is_healed && now >= own->next_act) {
        act(end);
        own->next_act = now + pick_between(1, set.growths_for_refusal ? 300 : 1000) * MS;
    }
}

static bool is_settled(void) {
    return found != WELL || (is_healed && what_waits() == WELL);
}

/* Until the limit; once the network has healed, until nothing is waited for. */
static void live(uint64_t limit) {
    for (uint64_t steps = 0; !is_settled(); steps++) {
        now = next_moment(next_act(limit));
        if (now >= limit)
            return;
        if (steps > MOST_STEPS)
            find(STORM, "at %llu ms", (unsigned long long)(now / MS));
        if (!is_healed && now >= next_black)
            go_black();
        if (!is_healed && now >= next_crash)
            crash_or_start();
        deliver_due();
        for (int end = 0; end < 2; end++) {
            act_if_due(end);
            turn(end);
        }
        refuse_again();
    }
}

/* Goes on, though nothing is waited for, until both are connected. */
static void live_until_connected(uint64_t limit) {
    while (found == WELL && !(applications[A].is_connected && applications[B].is_connected)) {
        now = next_moment(limit);
        if (now >= limit)
            return;
        deliver_due();
        turn_both();
    }
}

/* ---- What is judged once the network has healed ---- */

static void judge_waiting(uint64_t limit) {
    live(limit);
    enum kind kind = found == WELL && !is_any_failed() ? what_waits() : WELL;
    if (kind != WELL)
        find(kind, "%c stream %u, connected %d %d, failed resets %d %d", "AB"[waiting_end], stream_ids[waiting_place],
             applications[A].is_connected, applications[B].is_connected, applications[A].has_failed_resets,
             applications[B].has_failed_resets);
}

/* Two ends that are not connected yet are to be, or to be told why not. */
static void judge_handshake(void) {
    if (set.join == JOINED || is_any_failed() || applications[A].is_over || applications[B].is_over)
        return;
    live_until_connected(healed_at + MOST_AFTER_HEALING);
    bool is_up[2] = {applications[A].is_connected, applications[B].is_connected};
    int down = is_up[A] ? B : A;
    if (is_up[A] && is_up[B])
        return;
    bool is_told = applications[down].is_handshake_failed;
    if (is_up[!down] && !is_told && !applications[down].is_over && !(set.join == SERVED && down == B))
        find(applications[B].is_crossed ? HANDSHAKE_CROSSED : HALF_OPEN, "%c is not connected", "AB"[down]);
    else if (!is_up[!down] && !is_told)
        find(set.join == TWO_CLIENTS ? HANDSHAKE_TWO : HANDSHAKE, "neither is connected");
}

/* Whether an end may wait for ever, for one that is over or whose handshake failed. */
static bool is_any_left(void) {
    return applications[A].is_over != applications[B].is_over || has_no_handshake(A) || has_no_handshake(B);
}

/* Timers that run when all came to its end expire for good. */
static void judge_timers(void) {
    uint64_t from = now;
    for (int steps = 0; steps < 2000 && found == WELL && next_moment(NEVER) <= from + 1000 * SECOND; steps++) {
        now = next_moment(NEVER);
        deliver_due();
        turn_both();
    }
    for (int end = 0; end < 2; end++)
        if (due_at(end) != NEVER && !is_any_left() && !is_any_failed())
            find(IDLE_TIMER, "%c at %llu ms", "AB"[end], (unsigned long long)(due_at(end) / MS));
}

static void write_on_each(int end) {
    for (int place = 0; place < set.streams; place++) {
        struct stream *stream = &applications[end].streams[place];
        if (open_one(end, place) == SCTP_ASSOC_RESET_PENDING)
            find(BLOCKED, "%c stream %u", "AB"[end], stream_ids[place]);
        stream->is_reliable = true;
        stream->is_unordered = false;
        set_policy(end, place, true);
        write_one(end, place, 100 < set.max_length ? 100 : set.max_length);
    }
}

/* Each stream by one of the ends. */
static void close_each(int end) {
    for (int place = end; place < set.streams; place += 2) {
        const struct stream *stream = &applications[end].streams[place];
        if (!stream->is_stopping && !stream->is_reset_failed &&
            sctp_assoc_close_stream(&ends[end].assoc, stream_ids[place]) == SCTP_ASSOC_DONE)
            note_close(end, place);
    }
}

/* A message goes over each stream in both directions, and then each stream is reset. */
static void judge_use(void) {
    if (!sctp_assoc_is_established(&ends[A].assoc) || !sctp_assoc_is_established(&ends[B].assoc) || is_any_failed())
        return;
    for (int pass = 0; pass < 2 && found == WELL; pass++) {
        uint64_t from = now;
        say("---- each stream is %s ----", pass ? "closed" : "written");
        for (int end = 0; end < 2; end++)
            (pass ? close_each : write_on_each)(end);
        turn_both();
        judge_waiting(now + 120 * SECOND);
        if (now - from > 10 * SECOND)
            find(SLOW, "each stream was %s after %llu ms", pass ? "closed" : "read",
                 (unsigned long long)((now - from) / MS));
    }
}

/* All that both began comes to its end, in the time that the timers explain which ran, and half a piece of what was not
 * read in each delayed acknowledgement. */
static void judge_healing(void) {
    uint64_t unread = 0, wait = 0;
    for (uint32_t i = 0; i < message_count; i++)
        unread += messages[i].was_read || messages[i].generation != generations[A] ? 0 : messages[i].length;
    for (int end = 0; end < 2; end++)
        if (due_at(end) != NEVER && due_at(end) > now + wait)
            wait = due_at(end) - now;
    say("---- the network heals; %llu bytes are unread, timers run for %llu ms ----", (unsigned long long)unread,
        (unsigned long long)(wait / MS));
    turn_both();
    judge_waiting(healed_at + MOST_AFTER_HEALING);
    uint64_t least = set.buffer_size[A] < set.buffer_size[B] ? set.buffer_size[A] : set.buffer_size[B];
    uint64_t piece = least < set.max_payload_size ? least : set.max_payload_size;
    uint64_t fair = 2 * wait + 65 * SECOND + (2 * unread / piece + 2) * 240 * MS, took = now - healed_at;
    if (took > fair && !is_any_failed())
        find(SLOW, "%llu ms where %llu are fair", (unsigned long long)(took / MS), (unsigned long long)(fair / MS));
}

/* ---- The beginning of a seed ---- */

static void choose_network(void) {
    set.losses = class == NO_LOSS ? 0 : (unsigned)pick(happens(300) ? 400 : 100);
    set.repeats = class == NO_LOSS ? 0 : (unsigned)pick(100);
    set.delays = class == NO_LOSS ? 0 : (unsigned)pick(200);
    set.delay = pick_between(1, 200) * MS;
    set.jitter = class == NO_LOSS || happens(500) ? 0 : pick(set.delay);
    set.has_black_outs = class == BLACK_OUTS || (class != NO_LOSS && class != NO_PAUSES && happens(400));
    set.chaos_end = now + (happens(200) ? pick_between(60, 400) : pick_between(1, 60)) * SECOND;
    next_black = set.has_black_outs ? now + pick(set.chaos_end - now) : NEVER;
}

static void choose_sizes(bool is_default) {
    static const uint32_t payloads[] = {PAYLOAD_SIZE, PAYLOAD_SIZE, 1204, 500, 100, 17, 4000, 30000};
    static const uint32_t buffers[] = {1500, 2000, 5000, 20000, 100000, 1048576, 1048576, 1048576};
    uint32_t least = UINT32_MAX;
    set.max_payload_size = is_default ? PAYLOAD_SIZE : payloads[pick(COUNT_OF(payloads))];
    for (int end = 0; end < 2; end++) {
        set.buffer_size[end] = is_default ? 1048576 : buffers[pick(COUNT_OF(buffers))];
        least = set.buffer_size[end] < least ? set.buffer_size[end] : least;
    }
    set.max_length = least < 65536 ? least : 65536;
    if (set.max_length > 400 * set.max_payload_size)
        set.max_length = 400 * set.max_payload_size;
    set.most_bytes = happens(150) ? pick_between(100000, 3000000) : pick_between(1000, 150000);
    if (class == TAME_LONG)
        set.most_bytes = pick_between(1000000, 10000000);
    if (set.most_bytes > UINT64_C(400) * least)
        set.most_bytes = UINT64_C(400) * least;
    if (set.most_bytes > UINT64_C(3000) * set.max_payload_size && !is_default)
        set.most_bytes = UINT64_C(3000) * set.max_payload_size;
}

static void choose_applications(bool is_tame) {
    static const uint64_t growths_for_refusals[] = {50000, 10000, 2000, 500};
    set.writes = (unsigned)pick_between(50, 900);
    if (class == NO_LOSS)
        set.pauses = (unsigned)pick_between(20, 200);
    else if (class != NO_PAUSES && happens(500))
        set.pauses = (unsigned)pick(100);
    set.closes = happens(700) ? (unsigned)pick(200) : 0;
    set.reliable = happens(300) ? 1000 : (unsigned)pick(1000);
    set.shutdowns = happens(250) ? (unsigned)pick_between(1, 50) : 0;
    set.streams = (int)pick_between(1, STREAMS);
    set.only_closes = happens(300);
    set.is_first_reliable = is_tame || happens(700);
    set.is_gentle = is_tame || happens(600);
    set.has_deaf_pauses = !is_tame;
    set.shuts_down_connected = class == TAME_TWO || class == TAME_LONG;
    if (class == MEMORY || (class == TAME_TWO && happens(300)))
        set.growths_for_refusal = growths_for_refusals[pick(COUNT_OF(growths_for_refusals))];
    if (class == TAME_LONG) {
        set.losses = (unsigned)pick(100);
        set.pauses = (unsigned)pick(20);
    }
}

/* More comes late than elsewhere, as of a client that crashed. */
static void choose_crashes(void) {
    set.repeats += (unsigned)pick(200);
    set.delays += (unsigned)pick(300);
    set.crashes = (int)pick_between(1, 5);
    set.server_crashes = happens(400) ? (unsigned)pick(700) : 0;
    set.drops_beside = happens(500);
}

static void choose(void) {
    bool is_tame = class >= TAME, is_default = class == TAME_DEFAULT || class == TAME_LONG;
    memset(&set, 0, sizeof set);
    set.join = class == TWO ? TWO_CLIENTS : (enum join)pick(class == TAME_TWO ? 3 : 2);
    choose_network();
    choose_sizes(is_default);
    choose_applications(is_tame);
    set.has_default_times = is_default;
    set.max_init_retransmits = is_tame ? SCTP_ASSOC_NO_LIMIT : 8;
    if (!is_tame && !happens(700))
        set.max_init_retransmits = happens(500) ? SCTP_ASSOC_NO_LIMIT : pick(5);
    if (class == CRASHES)
        choose_crashes();
}

static sctp_assoc_config choose_config(int end) {
    sctp_assoc_config config = set.has_default_times ? users_config() : default_config();
    config.max_data_retransmits = SCTP_ASSOC_NO_LIMIT; /* no black-out of a seed ends an association */
    config.max_receive_buffer_size = set.buffer_size[end];
    config.max_init_retransmits = set.max_init_retransmits;
    if (!set.has_default_times && happens(500)) {
        config.rto_initial_ms = pick_between(100, 3000);
        config.rto_min_ms = pick_between(1, 1000);
        config.rto_max_ms = pick_between(2000, 60000);
    }
    timer_slack[end] = happens(200) ? pick(20 * MS) : 0;
    return config;
}

static void make_ends(void) {
    sctp_assoc_identity identities[2];
    sctp_assoc_token tokens[2];
    for (int end = 0; end < 2; end++) {
        configs[end] = choose_config(end);
        identities[end] = choose_identity();
        CHECK(
            done(sctp_assoc_make_token(&configs[end], identities[end].tag, identities[end].initial_tsn, &tokens[end])));
    }
    for (int end = 0; end < 2; end++) {
        bool is_client = end == A || set.join == TWO_CLIENTS;
        if (set.join == JOINED)
            CHECK(done(
                sctp_assoc_joined(&ends[end].assoc, &configs[end], set.max_payload_size, &tokens[end], &tokens[!end])));
        else
            CHECK(done((is_client ? sctp_assoc_client : sctp_assoc_server)(
                &ends[end].assoc, &configs[end], set.max_payload_size, &identities[end], now)));
        applications[end].next_act = now + pick(SECOND);
    }
}

/* A number of each seed of each class. Those of the first ten stay, however many classes there are. */
static uint64_t first_number(void) {
    return seed * 10 + (uint64_t) class % 10 + 1 + ((uint64_t) class / 10 << 40);
}

static void begin_seed(void) {
    static const struct run seed_run = {take_events_of, send_over_network, look_at_end, meet_datagram};
    begin_pair(&seed_run);
    random_state = first_number() * UINT64_C(0x9e3779b97f4a7c15);
    for (int i = 0; i < 8; i++)
        pick(2);
    memset(applications, 0, sizeof applications);
    memset(closed_uses, 0, sizeof closed_uses);
    memset(black_from, 0, sizeof black_from);
    memset(black_until, 0, sizeof black_until);
    message_count = 0;
    is_healed = false;
    found = WELL;
    choose();
    make_ends();
    begin_crashes();
    may_be_refused = set.growths_for_refusal > 0;
    growths = refused_from = refused_to = 0;
}

#define ROUND_TRIP (2 * HEALED_DELAY)
#define MOST_ROUND_TRIPS 1000

/* How many seeds went on for so many round trips past the timers that ran as the network healed. */
static uint64_t seeds_by_round_trips[MOST_ROUND_TRIPS + 1];

static void count_round_trips(uint64_t timers_end) {
    uint64_t round_trips = now > timers_end ? (now - timers_end + ROUND_TRIP - 1) / ROUND_TRIP : 0;
    seeds_by_round_trips[round_trips < MOST_ROUND_TRIPS ? round_trips : MOST_ROUND_TRIPS]++;
    say("all is there %llu round trips past the timers", (unsigned long long)round_trips);
}

/* Has an end's timers expire that hears nothing, and answers when the last of those did that ran at first. Of each kind
 * that is its first expiry: retransmission, acknowledgement, and all others. */
static uint64_t expire_all(int end) {
    uint64_t first[3] = {0}, last = healed_at, due;
    for (int expiries = 0; expiries < 16 && (due = due_at(end)) != NEVER; expiries++) {
        sctp_assoc_totals before, after;
        CHECK(done(sctp_assoc_stats(&ends[end].assoc, &before)));
        sctp_assoc_handle_timeout(&ends[end].assoc, due);
        CHECK(done(sctp_assoc_stats(&ends[end].assoc, &after)));
        bool is_data = after.retransmission_timeouts > before.retransmission_timeouts;
        int kind = is_data ? 0 : after.ack_timeouts > before.ack_timeouts ? 1 : 2;
        if (first[kind] == 0)
            first[kind] = due;
        last = first[kind] > last ? first[kind] : last;
    }
    return last;
}

/* When all timers of an end that run now will have expired. The library tells of the next one alone, so a process of its
 * own has them expire. */
static uint64_t last_due_at(int end) {
    uint64_t last;
    int ways[2];
    CHECK(pipe(ways) == 0);
    fflush(stdout);
    pid_t child = fork();
    CHECK(child >= 0);
    if (child == 0) {
        last = expire_all(end);
        _exit(write(ways[1], &last, sizeof last) != (ssize_t)sizeof last);
    }
    close(ways[1]);
    CHECK(read(ways[0], &last, sizeof last) == (ssize_t)sizeof last && waitpid(child, NULL, 0) == child);
    close(ways[0]);
    return last;
}

/* Runs the seed of the class, and leaves in `found` how it ended. */
static void run_seed(void) {
    begin_seed();
    refuse_again();
    turn_both();
    live(set.chaos_end);
    refused_from = refused_to = UINT64_MAX;
    end_crashes();
    healed_at = now;
    is_healed = true;
    for (int end = 0; end < 2; end++) {
        applications[end].is_paused = applications[end].is_deaf = false;
        timer_slack[end] = 0;
    }
    uint64_t timers_end = healed_at;
    for (int end = 0; end < 2; end++) {
        uint64_t last = due_at(end) == NEVER ? healed_at : last_due_at(end);
        timers_end = last > timers_end ? last : timers_end;
    }
    if (found == WELL)
        judge_healing();
    if (found == WELL)
        count_round_trips(timers_end);
    if (found == WELL)
        judge_handshake();
    if (found == WELL)
        judge_timers();
    if (found == WELL)
        judge_use();
    drop_beside();
    end_pair();
}

#endif
