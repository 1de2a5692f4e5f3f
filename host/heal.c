/* Two honest ends over a network that loses, repeats, delays, reorders and goes black, with applications that write,
 * pause, close, open anew and shut down at random, some of them where memory is refused. Then the network heals and
 * everybody reads: all that was accepted on reliable streams is read, each reset and each shutdown ends, no end is lost
 * and each stream is of use. Beside these seeds stand cases by hand.
 *
 *   heal [SEEDS]                 all cases by hand, and so many seeds of each class; 100 if nothing is said
 *   heal CASE [v]                one case; v prints each step with its chunks
 *   heal CLASS FIRST LAST [v]    these seeds of a class, and each that does not end well
 *
 * Classes: 0 all at random, 1 no loss, 2 no pauses, 3 black-outs, 4 refused memory, 5 two clients. 6 to 10 keep out
 * what has a class of its own: handshakes and resets are never given up, the first message of each stream is reliable,
 * and streams are closed once they are read. 6 is 0 so, 7 has the default configuration, 8 also two clients and refused
 * memory, 9 the default configuration and megabytes, 10 programs that crash and are started anew.
 *
 * What is known not to go well stands in open_cases (heal_kinds.h). A case that does not hold and is not listed fails,
 * so does one that holds and is listed, and a seed that ends in a kind that no listed case explains. */
#include "heal_cases.h"
#include "heal_channel_cases.h"
#include "heal_seeds.h"

#define SEEDS_OF_THE_GATE 100 /* of each class */

#define CASE(name)                                                                                                     \
    { #name, name }
static const struct {
    const char *name;
    void (*play)(void);
} cases[] = {
    CASE(reused),
    CASE(crossing),
    CASE(crossing_unlost),
    CASE(dead_resets),
    CASE(unused),
    CASE(unused_abandoned),
    CASE(retiring),
    CASE(cancelled),
    CASE(forgotten_skip),
    CASE(reopened),
    CASE(reopened_limited),
    CASE(heap),
    CASE(burst),
    CASE(burst_full),
    CASE(max_burst),
    CASE(bottleneck),
    CASE(no_rto),
    CASE(two_tags),
    CASE(two_clients),
    CASE(late_init),
    CASE(late_echo),
    CASE(shut_early),
    CASE(lost_complete),
    CASE(channels_reused),
    CASE(channels_cancelled),
    CASE(channels_end),
    CASE(channels_negotiated),
};

static uint64_t kind_counts[KINDS];

/* ---- Cases by hand ---- */

/* Why the case is open, or NULL. */
static const char *why_open(const char *name) {
    for (size_t i = 0; i < COUNT_OF(open_cases); i++)
        if (strcmp(open_cases[i].name, name) == 0)
            return open_cases[i].why;
    return NULL;
}

/* Plays a case. Answers whether it is as the list of open cases says. */
static bool is_as_listed(size_t index) {
    const char *why = why_open(cases[index].name);
    *not_so = 0;
    config = default_config();
    tried = cases[index].name;
    cases[index].play();
    tried = "";
    if (*not_so && !why)
        fprintf(stderr, "heal: the case %s: not so: %s\n", cases[index].name, not_so);
    if (!*not_so && why)
        fprintf(stderr, "heal: the case %s holds: take it off open_cases\n", cases[index].name);
    return (why != NULL) == (*not_so != 0);
}

static bool are_cases_as_listed(void) {
    bool are_so = true;
    size_t listed = 0;
    for (size_t i = 0; i < COUNT_OF(cases); i++) {
        are_so &= is_as_listed(i);
        listed += why_open(cases[i].name) != NULL;
    }
    CHECK(listed == COUNT_OF(open_cases));
    return are_so;
}

static int play_one(const char *name) {
    for (size_t i = 0; i < COUNT_OF(cases); i++) {
        if (strcmp(cases[i].name, name) != 0)
            continue;
        bool is_so = is_as_listed(i);
        const char *why = why_open(name);
        printf("%s: %s\n", name, *not_so ? not_so : "holds");
        if (why)
            printf("open: %s\n", why);
        return is_so ? 0 : 1;
    }
    fprintf(stderr, "heal: there is no case %s\n", name);
    return 2;
}

/* ---- Seeds ---- */

/* Runs these seeds of a class. Answers whether each ends well, or in a kind that is open. */
static bool are_seeds_well(int of_class, uint64_t first, uint64_t last, bool tells_open) {
    bool are_so = true;
    char name[60];
    class = of_class;
    for (seed = first; seed <= last; seed++) {
        snprintf(name, sizeof name, "class %d seed %llu", class, (unsigned long long)seed);
        tried = name;
        run_seed();
        tried = "";
        kind_counts[found]++;
        bool is_open = (open_kinds() & OF(found)) != 0;
        if (!is_open || (tells_open && found != WELL))
            fprintf(is_open ? stdout : stderr, "%s: %s%s: %s\n", name, is_open ? "" : "not open: ", kind_names[found],
                    found_text);
        are_so &= is_open;
    }
    return are_so;
}

static void print_counts(void) {
    const char *between = "";
    for (int kind = 0; kind < KINDS; kind++) {
        if (kind_counts[kind] == 0)
            continue;
        printf("%s%llu %s", between, (unsigned long long)kind_counts[kind], kind_names[kind]);
        between = ", ";
    }
}

/* Within how many round trips past the timers that ran as the network healed all was there in 99 of 100 seeds. */
static uint64_t most_round_trips(void) {
    uint64_t seeds = 0, within = 0, round_trips = 0;
    for (int i = 0; i <= MOST_ROUND_TRIPS; i++)
        seeds += seeds_by_round_trips[i];
    while ((within += seeds_by_round_trips[round_trips]) * 100 < seeds * 99)
        round_trips++;
    return round_trips;
}

static int run_class(char **arguments, int count) {
    int of_class = atoi(arguments[0]);
    is_verbose = count > 3;
    CHECK(of_class >= 0 && of_class < CLASSES);
    bool are_so = are_seeds_well(of_class, strtoull(arguments[1], NULL, 10), strtoull(arguments[2], NULL, 10), true);
    printf("class %d: ", of_class);
    print_counts();
    printf("; 99 of 100 within %llu round trips past the timers\n", (unsigned long long)most_round_trips());
    return are_so ? 0 : 1;
}

static int run_all(uint64_t seeds) {
    bool are_so = are_cases_as_listed();
    for (int each = 0; each < CLASSES; each++)
        are_so &= are_seeds_well(each, 1, seeds, false);
    printf("heal: %s (%zu cases by hand, %zu of them open; seeds: ", are_so ? "ok" : "not ok", COUNT_OF(cases),
           COUNT_OF(open_cases));
    print_counts();
    puts(")");
    return are_so ? 0 : 1;
}

int main(int argc, char **argv) {
    bool is_number = argc > 1 && argv[1][0] >= '0' && argv[1][0] <= '9';
    if (argc > 3 && is_number)
        return run_class(argv + 1, argc - 1);
    if (argc < 3 && (argc == 1 || is_number))
        return run_all(argc > 1 ? strtoull(argv[1], NULL, 10) : SEEDS_OF_THE_GATE);
    is_verbose = argc > 2;
    return play_one(argv[1]);
}
