/* Microseconds of the marking alone at n = 512, m = 4,096, the least of many turns: a chain of 511 arcs whose places fall from source to sink,
   and as many arcs beside them between its first nodes; then the same chain with rising places. Every node is reached. */
#include <stdint.h>
#include <stdio.h>
#include <string.h>
#include <time.h>

enum { NODES = 512, ARCS = 4096, CHAIN = NODES - 1, WORK = 4 * NODES + 2 * ARCS + 1, TURNS = 40 };

void fill_lists(uint32_t n, const uint32_t *tails, size_t, const uint32_t *heads, size_t, uint32_t *work, size_t);
void mark_side(
    uint32_t n, uint32_t s, const uint32_t *tails, size_t, const uint32_t *heads, size_t, const uint32_t *capacities, size_t,
    const uint32_t *flow, size_t, const uint32_t *work, size_t, uint8_t *side, size_t);

static uint32_t tails[ARCS], heads[ARCS], capacities[ARCS], flow[ARCS], work[WORK];
static uint8_t side[NODES];

/* Seconds of this process on a processor, so that other work on the machine does not count. */
static double now(void) {
    struct timespec t;
    clock_gettime(CLOCK_PROCESS_CPUTIME_ID, &t);
    return (double)t.tv_sec + (double)t.tv_nsec / 1e9;
}

/* The chain at the first places, falling or rising, and full arcs between nodes 1 and 2 behind it. */
static void make_table(int falling) {
    for (uint32_t k = 0; k < ARCS; k++) {
        uint32_t i = k >= CHAIN ? 1 : falling ? CHAIN - k : k + 1;
        tails[k] = i;
        heads[k] = i + 1;
        capacities[k] = k < CHAIN;
        flow[k] = 0;
    }
    memset(work, 0, sizeof work);
    fill_lists(NODES, tails, ARCS, heads, ARCS, work, WORK);
}

/* The least microseconds of a marking. */
static double least(void) {
    double least = 1e9;
    for (int turn = 0; turn < TURNS; turn++) {
        double began = now();
        mark_side(NODES, 1, tails, ARCS, heads, ARCS, capacities, ARCS, flow, ARCS, work, WORK, side, NODES);
        double took = (now() - began) * 1e6;
        if (took < least) least = took;
    }
    return least;
}

int main(void) {
    for (int falling = 1; falling >= 0; falling--) {
        make_table(falling);
        double took = least();
        uint32_t marked = 0;
        for (int i = 0; i < NODES; i++) marked += side[i];
        printf("%s places: %.0f microseconds, %u nodes marked\n", falling ? "falling" : "rising", took, marked);
    }
    return 0;
}
