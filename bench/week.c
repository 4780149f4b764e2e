/* What a practice's own week takes: the sample week (examples/week.txt, on standard input) is read, solved and asked about, each call so many times in a
   loop; CPU microseconds of one call, the least of the loops. */
#include <stdio.h>
#include <string.h>
#include <time.h>

#include "jorrabide.h"

struct jorrabide_text {
    uint32_t refusal, place, n, m, s, t;
};
struct jorrabide_text jorrabide_read_text(
    const uint8_t *text, size_t, uint32_t *tails, size_t, uint32_t *heads, size_t, uint32_t *capacities, size_t,
    uint32_t *minimums, size_t);

enum { NODES = 512, ARCS = 4096, WORK = 4 * NODES + 3 * ARCS + 1, TEXT = 65536, LOOPS = 30, CALLS = 1000 };

static uint8_t text[TEXT], side[NODES];
static uint32_t tails[ARCS], heads[ARCS], capacities[ARCS], minimums[ARCS], flow[ARCS], work[WORK];
static uint32_t list[ARCS], sources[NODES], sinks[NODES], places[ARCS];
static size_t length;
static struct jorrabide_text week;
static uint32_t refusals;

#define ROWS tails, week.m, heads, week.m, capacities, week.m, minimums, week.m
#define TABLE week.n, week.s, week.t, 0, ROWS
#define LEFT flow, ARCS, side, NODES, work, WORK

static void read_text(void) { week = jorrabide_read_text(text, length, tails, ARCS, heads, ARCS, capacities, ARCS, minimums, ARCS), refusals += week.refusal; }
static void solve(void) { refusals += jorrabide_solve(TABLE, LEFT).refusal; }
static void list_chains(void) { refusals += jorrabide_list_chains(TABLE, LEFT, list, ARCS).answer.refusal; }
static void has_room_for(void) { refusals += jorrabide_has_room_for(TABLE, 150, work, WORK).refusal; }
static void find_openings(void) { refusals += jorrabide_find_openings(TABLE, LEFT, sources, NODES, sinks, NODES, places, ARCS).answer.refusal; }

static double now(void) {
    struct timespec t;
    clock_gettime(CLOCK_PROCESS_CPUTIME_ID, &t);
    return 1e6 * (double)t.tv_sec + 1e-3 * (double)t.tv_nsec;
}

int main(void) {
    const struct {
        const char *name;
        void (*call)(void);
    } calls[] = {{"read its text", read_text}, {"solve", solve}, {"list its chains", list_chains}, {"room for 150", has_room_for}, {"which openings help", find_openings}};
    length = fread(text, 1, TEXT, stdin);
    read_text();
    printf("n = %u, m = %u, %zu bytes of text\n", week.n, week.m, length);
    for (size_t k = 0; k < sizeof calls / sizeof *calls; k++) {
        double least = 1e9;
        for (int loop = 0; loop < LOOPS; loop++) {
            double begun = now();
            for (int call = 0; call < CALLS; call++) calls[k].call();
            double took = (now() - begun) / CALLS;
            if (took < least) least = took;
        }
        printf("| %s | %.1f |\n", calls[k].name, least);
    }
    return refusals == 0 ? 0 : 1;
}
