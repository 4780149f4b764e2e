/* Microseconds of solving a week table whole, and of reducing it first, at n = 64, 128, 256, 512 and m = 8n; each the least of a few turns.
   Value and side must be the same both ways. */
#include <stdio.h>
#include <stdlib.h>
#include <string.h>
#include <time.h>

#include "jorrabide.h"

enum { MOST_NODES = 512, MOST_ARCS = 8 * MOST_NODES, MOST_WORK = 4 * MOST_NODES + 2 * MOST_ARCS + 1, TURNS = 5 };

static uint32_t tails[MOST_ARCS], heads[MOST_ARCS], capacities[MOST_ARCS], minimums[MOST_ARCS], work[MOST_WORK];
static uint32_t flow[MOST_ARCS], whole_flow[MOST_ARCS];
static uint32_t small_tails[MOST_ARCS], small_heads[MOST_ARCS], small_capacities[MOST_ARCS], nodes_from[MOST_NODES], arcs_from[MOST_ARCS];
static uint8_t side[MOST_NODES], whole_side[MOST_NODES];
static uint32_t nodes, arcs, state;

/* A draw of docs/FAMILIES.md. */
static uint32_t draw(void) {
    state = state * 1664525u + 1013904223u;
    return state >> 8;
}

/* Microseconds of a clock. */
static double now(void) {
    struct timespec t;
    clock_gettime(CLOCK_PROCESS_CPUTIME_ID, &t);
    return (double)t.tv_sec * 1e6 + (double)t.tv_nsec / 1e3;
}

/* Sets one arc. */
static void arc(uint32_t k, uint32_t tail, uint32_t head, uint32_t capacity) {
    tails[k] = tail;
    heads[k] = head;
    capacities[k] = capacity;
}

/* The over-asked clinic week, family 2 of docs/FAMILIES.md. */
static void make_week(void) {
    const uint32_t q = (nodes - 2) / 3;
    state = 2026 + 2;
    for (uint32_t k = 0; k < arcs; k++) {
        uint32_t a = draw(), b = draw(), c = draw(), j = k % q, layer = k / q;
        if (layer == 0)
            arc(k, 1, 2 + j, 100 + c % 200);
        else if (layer == 1)
            arc(k, 2 + j, 2 + q + j, 50);
        else if (layer == 2)
            arc(k, 2 + q + j, 2 + 2 * q + j, 50);
        else if (layer == 3)
            arc(k, 2 + 2 * q + j, nodes, 1 + c % 20);
        else if (k % 2 == 0)
            arc(k, 2 + a % q, 2 + q + b % q, 1 + c % 30);
        else
            arc(k, 2 + q + a % q, 2 + 2 * q + b % q, 1 + c % 30);
    }
}

/* The same with half its arcs of capacity 0: every second one. */
static void make_halved(void) {
    make_week();
    for (uint32_t k = 1; k < arcs; k += 2) capacities[k] = 0;
}

/* The same, and groups that lead nowhere: a third of the chairs have no way to the sink any more. */
static void make_nowhere(void) {
    const uint32_t q = (nodes - 2) / 3;
    make_halved();
    for (uint32_t k = 0; k < arcs; k++)
        if (heads[k] == nodes && (tails[k] - 2 - 2 * q) % 3 == 0) capacities[k] = 0;
}

/* Ends the program where an answer is not what it must be. */
static void must(int holds, const char *what) {
    if (holds) return;
    printf("%s\n", what);
    exit(1);
}

/* Both ways of one table, and one line of what was measured. */
static void measure(const char *name) {
    double whole = 1e18, reduced = 1e18;
    struct jorrabide_reduced r = {0};
    uint64_t value = 0;
    for (int turn = 0; turn < TURNS && (turn == 0 || whole < 1e6); turn++) {
        double began = now();
        struct jorrabide_answer a = jorrabide_solve(
            nodes, 1, nodes, 7, tails, arcs, heads, arcs, capacities, arcs, minimums, arcs, whole_flow, arcs, whole_side, nodes, work, MOST_WORK);
        double took = now() - began;
        must(a.refusal == 0, "solving refuses");
        value = (uint64_t)a.value;
        if (took < whole) whole = took;
    }
    for (int turn = 0; turn < TURNS && (turn == 0 || reduced < 1e6); turn++) {
        double began = now();
        r = jorrabide_reduce(
            nodes, 1, nodes, 7, tails, arcs, heads, arcs, capacities, arcs, minimums, arcs, flow, arcs, side, nodes, work, MOST_WORK, small_tails, arcs,
            small_heads, arcs, small_capacities, arcs, nodes_from, nodes, arcs_from, arcs);
        double took = now() - began;
        must(r.answer.refusal == 0 && r.stamp == 8, "reducing refuses");
        if (took < reduced) reduced = took;
    }
    must(r.answer.value == (int64_t)value && memcmp(side, whole_side, nodes) == 0, "value or side differ");
    printf(
        "%-7s n %3u: %3u nodes and %4u of %4u arcs left; whole %.0f, reduced %.0f microseconds, ratio %.4f\n", name, nodes, r.nodes, r.arcs, arcs, whole,
        reduced, reduced / whole);
}

int main(void) {
    for (nodes = 64; nodes <= MOST_NODES; nodes *= 2) {
        arcs = 8 * nodes;
        make_week();
        measure("week");
        make_halved();
        measure("halved");
        make_nowhere();
        measure("nowhere");
    }
    return 0;
}
