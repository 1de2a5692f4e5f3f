/* Which of the pieces in flight go out again, where SACKs acknowledged some of them, for numbers of them up to one more
 * than a gap ack block can name: what the library finds by its searches is what a walk over all of them finds. By the
 * rules of the port, since those of the RFCs let no such flight go at once.
 *   in_flight [GREATEST]    passes over greater numbers of pieces */
#include "packets.h"

#define MAX_PIECE 65519
#define FIRST (UINT32_MAX - 2) /* TSNs wrap behind the third piece */
#define MOST 65536
#define MOST_BLOCKS 16000 /* of one SACK */
#define MOST_CHUNKS 3276  /* of DATA of one byte in a packet: (28 + MAX_PIECE - 12) / 20 */

static const size_t counts[] = {0, 1, 2, 5, 63, 64, 65, 66, MOST};

static size_t count, acked_first;          /* pieces that went out, and how many are acknowledged cumulatively */
static bool acked[MOST];                   /* what is acknowledged of all pieces */
static unsigned misses[MOST];              /* how many SACKs reported each missing, up to the third of any */
static bool is_lost;                       /* any was reported missing three times */
static uint32_t gone[MOST];                /* TSNs of what went out in a poll */
static size_t number_gone, packets_gone;

static void poll_all(uint64_t now) {
    number_gone = packets_gone = 0;
    for (; polls(now); packets_gone++)
        for (size_t at = 12; at < sent.length; at += (get(sent.bytes + at + 2, 2) + 3) / 4 * 4) {
            CHECK(sent.bytes[at] == 0 && number_gone < count);
            gone[number_gone++] = get(sent.bytes + at + 4, 4);
        }
}

/* What went out are the first pieces that were not acknowledged and reported missing so often, in order, at most so
 * many; by a walk. */
static void went_out(unsigned missed, size_t most) {
    size_t found = 0;
    for (size_t i = 0; i < count && found < most; i++)
        if (!acked[i] && misses[i] >= missed) {
            CHECK(found < number_gone && gone[found] == FIRST + (uint32_t)i);
            found++;
        }
    CHECK(found == number_gone);
}

/* A SACK comes whose blocks name these pieces, ascending and each in a block of its own. */
static void acknowledge(const size_t *pieces, size_t number, uint64_t now) {
    static struct block named[MOST_BLOCKS];
    size_t newest = 0, outstanding = 0;
    for (size_t k = 0; k < number; k++) {
        named[k].start = named[k].end = (uint16_t)(pieces[k] + 1 - acked_first);
        if (!acked[pieces[k]])
            newest = pieces[k];
        acked[pieces[k]] = true;
    }
    comes(sack(OWN_TAG, FIRST + (uint32_t)acked_first - 1, WINDOW, named, number), now);
    bool counts_misses = !is_lost;
    for (size_t i = acked_first; i < count; i++) {
        outstanding += !acked[i];
        if (counts_misses && !acked[i] && i < newest)
            is_lost |= ++misses[i] == 3;
    }
    CHECK(path().bytes_in_flight == outstanding);
}

/* Each second piece below an index, as many SACKs as that takes. */
static void acknowledge_each_second(size_t below, uint64_t now) {
    static size_t pieces[MOST_BLOCKS];
    size_t number = 0;
    for (size_t i = acked_first + 1 - acked_first % 2; i < below; i += 2) {
        pieces[number++] = i;
        if (number == MOST_BLOCKS) {
            acknowledge(pieces, number, now);
            number = 0;
        }
    }
    if (number > 0)
        acknowledge(pieces, number, now);
}

/* The last three pieces that a block can name are acknowledged, one after another, by three SACKs. */
static void report_missing(uint64_t now) {
    size_t end_of_blocks = count < MOST ? count : MOST - 1;
    for (size_t behind = 3; behind > 0; behind--)
        if (end_of_blocks > behind) {
            size_t piece = end_of_blocks - behind;
            acknowledge(&piece, 1, now);
        }
}

/* The first pieces, at most five, are acknowledged cumulatively, and what blocks named before is named again. */
static void pass_some(uint64_t now) {
    acked_first = count < 6 ? count / 2 : 5;
    for (size_t i = 0; i < acked_first; i++)
        acked[i] = true;
    acknowledge(NULL, 0, now);
    acknowledge_each_second(count < 3 ? 0 : count - 3, now);
}

/* The timer marks all that is outstanding, of which one more piece is acknowledged before the rest goes out. */
static void acknowledge_a_marked_piece(uint64_t now) {
    for (size_t i = acked_first + 1; i < count && i < MOST - 1; i++)
        if (!acked[i]) {
            acknowledge(&i, 1, now);
            return;
        }
}

static void search_among(size_t pieces) {
    uint64_t now = 0;
    count = pieces, acked_first = 0, is_lost = false;
    memset(acked, 0, sizeof acked);
    memset(misses, 0, sizeof misses);
    begin(MAX_PIECE, FIRST, 500, WINDOW, WINDOW);
    write_messages(count, "m");
    poll_all(now);
    went_out(0, count);
    acknowledge_each_second(count < 3 ? 0 : count - 3, now);
    report_missing(now);
    poll_all(now); /* fast retransmission: one packet */
    went_out(3, MOST_CHUNKS);
    CHECK(packets_gone == (number_gone > 0));
    for (int turn = 0; turn < 2 && path().bytes_in_flight > 0; turn++) {
        now = time_out();
        if (turn > 0)
            acknowledge_a_marked_piece(now);
        poll_all(now);
        went_out(0, count);
        pass_some(now);
    }
    poll_all(now);
    CHECK(number_gone == 0);
    finish();
}

int main(int argc, char **argv) {
    size_t greatest = argc > 1 ? (size_t)atoi(argv[1]) : MOST;
    kept_rules = SCTP_ASSOC_PROFILE_PORT;
    for (size_t i = 0; i < COUNT_OF(counts); i++)
        if (counts[i] <= greatest)
            search_among(counts[i]);
    puts("in_flight: ok");
    return 0;
}
