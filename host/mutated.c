/* Mutated datagrams into live pairs, which shake hands, write, reset streams and shut down over a network that loses,
 * repeats and reorders.
 *
 *   mutated [COUNT [SEED]]     100,000 mutants and the seed 1 if nothing is said
 *
 * No mutant crashes an end, and what is refused changes nothing: that is so of all whose checksum is wrong, about half.
 * - A pair that gets only such mutants is not lost before its shutdown. What is read was written, whole, once, and in
 *   order on ordered streams. In the end all is read that was written on reliable streams, and both ends shut down.
 * - A mutant whose checksum was made right is forged. An end that it closes tells so by an event with a reason, and the
 *   datagram has a chunk that is a named cause. An end that took none itself still reads only what was written, once.
 * - Memory is bounded by what lives: in a pair without forged datagrams by the same bound however many mutants came,
 *   else by what the forged ones that were taken may leave. Nothing is left of a pair that was freed. */
#include "mutated_pair.h"

/* ---- What is sent ---- */

static void keep_recent(int to, const struct datagram *datagram) {
    size_t place = recent_count[to] < MOST_RECENT ? recent_count[to]++ : pick(MOST_RECENT);
    recent[to][place] = *datagram;
    pair_of[to][place] = pairs;
}

static void put_on_way(int to, const uint8_t *datagram, size_t length) {
    if (length > MAX_LENGTH || on_way_count[to] == MOST_ON_WAY || (!is_smooth && pick(10) == 0))
        return;
    struct datagram *sent = on_way[to][on_way_count[to]++];
    sent->length = length;
    memcpy(sent->bytes, datagram, length);
    keep_recent(to, sent);
}

static void note_sent(int from, size_t length) {
    for (size_t at = 12; at + 8 <= length; at = next_chunk(bytes, at))
        if (bytes[at] == 0 && get(bytes + at + 4, 4) >= unsent_tsn[from])
            unsent_tsn[from] = get(bytes + at + 4, 4) + 1;
}

/* Takes events, reads and sends until there is nothing more. Answers how much there was. */
static uint64_t drain(int end) {
    size_t length;
    uint64_t count = take_events(end);
    for (; done(sctp_assoc_poll_transmit(&ends[end], now, bytes, sizeof bytes, &length)); count++) {
        note_sent(end, length);
        put_on_way(!end, bytes, length);
    }
    return count + take_events(end);
}

/* ---- What may come of a datagram ---- */

struct view {
    uint64_t blocks, bytes, due, rto;
    sctp_assoc_totals totals;
    bool is_due, is_established, is_closing, is_closed, is_drained, is_failed;
};

static void look(int end, struct view *view) {
    sctp_assoc *slot = &ends[end];
    memset(view, 0, sizeof *view);
    view->blocks = blocks;
    view->bytes = heap_bytes;
    view->is_due = done(sctp_assoc_poll_timeout(slot, &view->due));
    CHECK(done(sctp_assoc_rto(slot, &view->rto)) && done(sctp_assoc_stats(slot, &view->totals)));
    view->is_established = sctp_assoc_is_established(slot);
    view->is_drained = sctp_assoc_is_drained(slot);
    CHECK(done(sctp_assoc_is_closing(slot, &view->is_closing)) && done(sctp_assoc_is_closed(slot, &view->is_closed)));
    CHECK(done(sctp_assoc_is_failed(slot, &view->is_failed)));
    CHECK(!view->is_failed && view->is_drained == is_lost[end] && (view->is_closed || !view->is_drained));
}

/* The places up to that of a stream, whose identifier stands here. */
static void allow_stream(int end, const uint8_t *id) {
    uint32_t page = id[0], needed = id[1] + 1u;
    if (needed <= place_counts[end][page])
        return;
    allowed_bytes += (needed - place_counts[end][page]) * PLACE_BYTES;
    place_counts[end][page] = (uint16_t)needed;
}

/* What a forged datagram may leave behind: its bytes, something for each chunk, and the places of streams, which DATA
 * and FORWARD TSN may make. */
static void allow(int end, const struct datagram *forged) {
    size_t at[MAX_CHUNKS + 1], count = find_chunks(forged, at);
    allowed_bytes += forged->length + count * CHUNK_BYTES;
    for (size_t k = 0; k < count; k++) {
        const uint8_t *chunk = forged->bytes + at[k];
        size_t length = forged->length - at[k];
        if (chunk[0] == 0 && length >= 12)
            allow_stream(end, chunk + 8);
        for (size_t entry = 8; chunk[0] == 192 && entry + 4 <= length; entry += 4)
            allow_stream(end, chunk + entry);
    }
}

static void check_memory(void) {
    CHECK(most_heap_bytes <= LIVE_BYTES + allowed_bytes);
    if (allowed_bytes == 0 && most_heap_bytes > most_plain)
        most_plain = most_heap_bytes;
    most_heap_bytes = heap_bytes;
}

static bool is_plain(void) {
    return !is_forged[0] && !is_forged[1];
}

/* Whether a chunk is there by which this reason can come: one that ends a shutdown, or, in a pair with forged datagrams
 * alone, one that may be a fault (docs/ARCHITECTURE.md, One datagram) or fill the receive buffer. Of SACKs without gap
 * ack blocks only those are faults that acknowledge what was not sent. */
static bool has_cause(int end, const struct datagram *packet, bool is_closing) {
    uint32_t first_tsn = identity(tags[end]).initial_tsn;
    bool has_any = false;
    for (size_t at = 12; at + 4 <= packet->length; at = next_chunk(packet->bytes, at)) {
        const uint8_t *chunk = packet->bytes + at;
        uint8_t kind = chunk[0];
        bool is_plain_sack = kind == 3 && at + 16 <= packet->length && get(chunk + 12, 2) == 0 &&
                             get(chunk + 4, 4) - (first_tsn - 1) <= unsent_tsn[end] - first_tsn;
        bool can_exhaust = kind == 0 || kind == 192 || kind == 194, ends_shutdown = kind == 8 || kind == 14;
        bool is_passed_over = kind == 5 || kind == 9 || (kind >= 128 && kind != 130);
        bool is_no_fault = kind == 4 || kind == 7 || kind == 10 || kind == 11 || is_passed_over;
        is_closing |= kind == 7;
        if (lost_reason[end] == SCTP_ASSOC_REASON_BUFFER_EXHAUSTED)
            has_any |= can_exhaust && !is_plain();
        else if (ends_shutdown)
            has_any |= is_closing;
        else
            has_any |= !is_no_fault && !is_plain_sack && !is_plain();
    }
    return has_any;
}

/* Hands a datagram to an end, which has nothing to tell, to send or to read. */
static void hand_in(int end, const struct datagram *came, bool is_honest) {
    struct view before, after;
    bool was_lost = is_lost[end], is_right = is_sealed(came->bytes, came->length);
    uint32_t fate;
    look(end, &before);
    CHECK(done(sctp_assoc_handle_datagram(&ends[end], now, came->bytes, came->length, &fate)));
    CHECK((fate == SCTP_ASSOC_NO_PACKET) == !is_right);
    CHECK(fate <= SCTP_ASSOC_OTHER_INIT);
    if (was_lost && fate == SCTP_ASSOC_TAKEN && came->length > 12 && came->bytes[12] == 8) {
        CHECK(drain(end) <= 1); /* a SHUTDOWN ACK behind the end is answered */
        return;
    }
    if (fate != SCTP_ASSOC_TAKEN || was_lost) {
        look(end, &after);
        CHECK(memcmp(&before, &after, sizeof before) == 0 && drain(end) == 0);
        return;
    }
    taken++;
    taken_bytes[end] += came->length;
    is_forged[end] |= !is_honest;
    if (!is_honest)
        allow(end, came);
    drain(end);
    look(end, &after);
    check_memory();
    if (is_lost[end]) {
        CHECK(has_cause(end, came, before.is_closing) && (is_ending || !is_plain()));
        closed++;
    }
}

/* ---- What a pair does ---- */

static void begin(int end, bool joins, const sctp_assoc_config *config) {
    sctp_assoc_identity named = identity(tags[end]);
    sctp_assoc_token tokens[2];
    for (int k = 0; k < 2; k++)
        sctp_assoc_make_token(config, tags[k], identity(tags[k]).initial_tsn, &tokens[k]);
    if (joins)
        CHECK(done(sctp_assoc_joined(&ends[end], config, PAYLOAD_SIZE, &tokens[end], &tokens[!end])));
    else
        CHECK(done((end == 0 ? sctp_assoc_client : sctp_assoc_server)(&ends[end], config, PAYLOAD_SIZE, &named, now)));
    is_forged[end] = is_lost[end] = is_channel_open[end] = false;
    unsent_tsn[end] = named.initial_tsn;
    taken_bytes[end] = read_bytes[end] = 0;
    written_count[end] = unread_count[end] = 0;
    on_way_count[end] = 0;
    memset(places[end], 0, sizeof places[end]);
    memset(next_place[end], 0, sizeof next_place[end]);
    memset(place_counts[end], 0, sizeof place_counts[end]);
}

static void begin_pair(void) {
    sctp_assoc_config config = default_config();
    bool joins = pick(4) == 0, is_small = pick(3) == 0;
    if (is_small)
        config.max_receive_buffer_size = 8000;
    most_length = is_small ? 1500 : 20000;
    is_ending = is_smooth = false;
    allowed_bytes = most_heap_bytes = 0;
    for (int end = 0; end < 2; end++)
        begin(end, joins, &config);
    for (int end = 0; end < 2; end++)
        drain(end);
}

/* A code that a call gives in a pair without forged datagrams, or one by which it refuses. */
static bool is_done(sctp_assoc_code code) {
    CHECK(code == SCTP_ASSOC_DONE || !is_plain() || is_ending);
    CHECK(code == SCTP_ASSOC_DONE || (code >= SCTP_ASSOC_STREAM_EXISTS && code <= SCTP_ASSOC_EMPTY_MESSAGE));
    return code == SCTP_ASSOC_DONE;
}

static bool can_write(int end) {
    size_t sum = 0, buffered;
    for (int kind = 0; kind < KINDS; kind++)
        if (sctp_assoc_buffered_amount(&ends[end], (uint16_t)(2 * kind + end), &buffered) == SCTP_ASSOC_DONE)
            sum += buffered;
    return sctp_assoc_is_established(&ends[end]) && sum < MOST_WAITING && unread_count[end] < MOST_UNREAD &&
           written_count[end] < MOST_MESSAGES;
}

static void open_stream(int end, enum kind kind) {
    uint16_t stream = (uint16_t)(2 * kind + end);
    uint32_t policy = kind == TIMED ? SCTP_ASSOC_TIMED : SCTP_ASSOC_RELIABLE;
    if (!is_done(sctp_assoc_open_stream(&ends[end], stream, SCTP_ASSOC_PPID_BINARY)))
        return;
    is_done(sctp_assoc_set_reliability(&ends[end], stream, kind == UNORDERED, policy, LIFETIME_MS));
}

static void write_one(int end) {
    enum kind kind = (enum kind)pick(KINDS);
    uint16_t stream = (uint16_t)(2 * kind + end);
    size_t length = 4 + pick(pick(4) ? 60 : pick(4) ? 2400 : 20000);
    uint32_t number = written_count[end];
    if (!can_write(end) || (kind == CHANNEL && is_channel_open[end]))
        return;
    if (kind == CHANNEL || places[end][kind] == 0)
        open_stream(end, kind);
    if (length > most_length)
        length = most_length;
    fill(bytes, length, number);
    if (!is_done(sctp_assoc_write(&ends[end], stream, SCTP_ASSOC_PPID_BINARY, bytes, length)))
        return;
    written[end][number] = (struct message){kind, places[end][kind]++, length, false};
    written_count[end]++;
    unread_count[end] += kind < TIMED;
    if (kind == CHANNEL)
        is_channel_open[end] = is_done(sctp_assoc_close_stream(&ends[end], stream));
}

/* No timer ends an association. It can be over before that is told: a close of a stream may find that forged DATA
 * exhausted the receive buffer. */
static void expire(int end) {
    bool was_drained = sctp_assoc_is_drained(&ends[end]);
    CHECK(is_lost[end] == was_drained || !is_plain());
    CHECK(done(sctp_assoc_handle_timeout(&ends[end], now)));
    drain(end);
    CHECK(is_lost[end] == was_drained);
    CHECK(!is_lost[end] || lost_reason[end] == SCTP_ASSOC_REASON_BUFFER_EXHAUSTED || was_drained);
}

static void deliver(int to) {
    if (on_way_count[to] == 0)
        return;
    size_t k = is_smooth || pick(4) ? 0 : pick((uint32_t)on_way_count[to]);
    struct datagram came = *on_way[to][k], *place = on_way[to][k];
    if (is_smooth || pick(20)) {
        on_way_count[to]--;
        memmove(&on_way[to][k], &on_way[to][k + 1], (on_way_count[to] - k) * sizeof place);
        on_way[to][on_way_count[to]] = place;
    }
    hand_in(to, &came, true);
}

/* ---- Mutants ---- */

/* Whether it is one that was sent in this pair. */
static bool was_sent(int to, const struct datagram *mutant) {
    for (size_t k = 0; k < recent_count[to]; k++)
        if (pair_of[to][k] == pairs && recent[to][k].length == mutant->length &&
            memcmp(recent[to][k].bytes, mutant->bytes, mutant->length) == 0)
            return true;
    return false;
}

static void make_mutant(struct datagram *mutant, int to) {
    *mutant = recent[to][pick((uint32_t)recent_count[to])];
    for (uint32_t i = 1 + pick(4); i > 0; i--)
        mutate_once(mutant, &recent[to][pick((uint32_t)recent_count[to])], unsent_tsn[pick(2)]);
}

/* One with the checksum that its datagram had, or with that of other bytes: it is wrong unless nothing changed. */
static void hand_in_broken(int to) {
    static struct datagram mutant;
    make_mutant(&mutant, to);
    if (mutant.length >= 12 && pick(4) == 0)
        put(mutant.bytes + 8, 4, pick(UINT32_MAX));
    mutants++;
    if (is_sealed(mutant.bytes, mutant.length) && !was_sent(to, &mutant))
        mutant.bytes[8] ^= 1;
    hand_in(to, &mutant, true);
}

static void hand_in_forged(int to) {
    static struct datagram mutant;
    make_mutant(&mutant, to);
    if (mutant.length < 12)
        return;
    if (pick(8))
        put(mutant.bytes + 4, 4, mutant.bytes[12] == 1 ? 0 : tags[to]);
    seal(mutant.bytes, mutant.length);
    mutants++;
    sealed++;
    hand_in(to, &mutant, was_sent(to, &mutant));
}

/* Something of what a pair does, and a mutant after it. */
static void turn(bool forges) {
    now += pick(4) ? 0 : pick(40) * MS;
    for (int end = 0; end < 2; end++) {
        if (pick(2))
            write_one(end);
        expire(end);
    }
    deliver((int)pick(2));
    int to = (int)pick(2);
    if (recent_count[to] == 0)
        return;
    if (forges)
        hand_in_forged(to);
    else
        hand_in_broken(to);
}

/* ---- Pairs ---- */

/* Until nothing is on the way and no timer runs. */
static void settle(void) {
    for (int turns = 0; turns < 3000; turns++) {
        uint64_t least = UINT64_MAX, due;
        for (int end = 0; end < 2; end++)
            while (on_way_count[end] > 0)
                deliver(end);
        if (on_way_count[0] + on_way_count[1] > 0)
            continue;
        for (int end = 0; end < 2; end++)
            if (done(sctp_assoc_poll_timeout(&ends[end], &due)) && due < least)
                least = due;
        if (least == UINT64_MAX)
            return;
        now = least > now ? least : now;
        expire(0);
        expire(1);
    }
    CHECK(!"the pair comes to rest");
}

/* All is read that had to come, little memory is left, and a shutdown ends both. */
static void end_plain(void) {
    is_smooth = true;
    settle();
    CHECK(!is_lost[0] && !is_lost[1] && is_plain());
    for (int end = 0; end < 2; end++)
        for (uint32_t k = 0; k < written_count[end]; k++)
            CHECK(written[end][k].was_read || written[end][k].kind >= TIMED);
    CHECK(heap_bytes <= QUIET_BYTES);
    if (heap_bytes > most_quiet)
        most_quiet = heap_bytes;
    is_ending = true;
    int end = (int)pick(2);
    CHECK(done(sctp_assoc_shutdown(&ends[end])));
    drain(end);
    settle();
    CHECK(is_lost[0] && is_lost[1]);
}

static void live_plain(uint64_t count) {
    begin_pair();
    for (uint64_t first = mutants; mutants - first < count;)
        turn(false);
    end_plain();
    free_both(ends);
}

static void live_forged(uint64_t count) {
    begin_pair();
    uint64_t beginning = pick(8) ? 0 : pick(MOST_FORGED); /* turns before a shutdown */
    for (uint64_t i = 0, first = mutants; mutants - first < count && !is_lost[0] && !is_lost[1]; i++) {
        turn(pick(16) != 0);
        is_ending |= i == beginning && i > 0 && sctp_assoc_shutdown(&ends[pick(2)]) == SCTP_ASSOC_DONE;
    }
    for (int i = 0; i < 3; i++) /* an end that is lost stays as it is */
        turn(true);
    free_both(ends);
}

int main(int argc, char **argv) {
    uint64_t count = argc > 1 ? strtoull(argv[1], NULL, 10) : 100000;
    random_state = argc > 2 ? strtoull(argv[2], NULL, 10) : 1;
    CHECK(random_state != 0);
    for (int end = 0; end < 2; end++)
        for (size_t k = 0; k < MOST_ON_WAY; k++)
            on_way[end][k] = &pool[end][k];
    for (; mutants < count; pairs++) {
        uint64_t left = count - mutants;
        if (2 * sealed < mutants)
            live_forged(left < MOST_FORGED ? left : MOST_FORGED);
        else
            live_plain(left < 2000 ? left : 1 + pick(2000));
    }
    printf("mutated: ok (%llu mutants into %llu pairs, %llu sealed, %llu datagrams taken, %llu closed an end, at most "
           "%llu bytes unforged, %llu at rest)\n",
           (unsigned long long)mutants, (unsigned long long)pairs, (unsigned long long)sealed,
           (unsigned long long)taken, (unsigned long long)closed, (unsigned long long)most_plain,
           (unsigned long long)most_quiet);
    return 0;
}
