/* Microseconds of opening one arc of a solved table, and of solving the new table afresh, at n = 64, 128, 256, 512 and m = 8n; each the least of a few turns.
   Value and side must be the same both ways. */
#include <stdio.h>
#include <stdlib.h>
#include <string.h>
#include <time.h>

#include "jorrabide.h"

enum { MOST_NODES = 512, MOST_ARCS = 8 * MOST_NODES, MOST_WORK = 4 * MOST_NODES + 2 * MOST_ARCS + 1, TURNS = 5, CHAIRS = 8 };

static uint32_t tails[MOST_ARCS], heads[MOST_ARCS], capacities[MOST_ARCS], work[MOST_WORK];
static const uint32_t none[MOST_ARCS];
static uint32_t old_flow[MOST_ARCS], flow[MOST_ARCS], fresh_flow[MOST_ARCS];
static uint8_t old_side[MOST_NODES], side[MOST_NODES], fresh_side[MOST_NODES];
static uint32_t nodes, arcs, state;

/* A draw of docs/FAMILIES.md. */
static uint32_t draw(void) {
    state = state * 1664525u + 1013904223u;
    return state >> 8;
}

/* Microseconds of this process on a processor, so that other work on the machine does not count. */
static double now(void) {
    struct timespec t;
    clock_gettime(CLOCK_PROCESS_CPUTIME_ID, &t);
    return (double)t.tv_sec * 1e6 + (double)t.tv_nsec / 1e3;
}

/* Sets one arc. */
static void arc(uint32_t k, uint32_t tail, uint32_t head, uint32_t capacity) {
    tails[k] = tail;
    heads[k] = head;
    capacities[k] = capacity;
}

/* The over-asked clinic week, family 2 of docs/FAMILIES.md. */
static void make_week(void) {
    const uint32_t q = (nodes - 2) / 3;
    state = 2026 + 2;
    for (uint32_t k = 0; k < arcs; k++) {
        uint32_t a = draw(), b = draw(), c = draw(), j = k % q, layer = k / q;
        if (layer == 0)
            arc(k, 1, 2 + j, 100 + c % 200);
        else if (layer == 1)
            arc(k, 2 + j, 2 + q + j, 50);
        else if (layer == 2)
            arc(k, 2 + q + j, 2 + 2 * q + j, 50);
        else if (layer == 3)
            arc(k, 2 + 2 * q + j, nodes, 1 + c % 20);
        else if (k % 2 == 0)
            arc(k, 2 + a % q, 2 + q + b % q, 1 + c % 30);
        else
            arc(k, 2 + q + a % q, 2 + 2 * q + b % q, 1 + c % 30);
    }
}

/* A shut door: nothing leaves the source until place 0 opens, and all other nodes are joined at random. */
static void make_door(void) {
    state = 2026;
    arc(0, 1, 2, 0);
    for (uint32_t k = 1; k < arcs; k++) {
        uint32_t a = draw(), b = draw(), c = draw(), x = a % (nodes - 1), y = (x + 1 + b % (nodes - 2)) % (nodes - 1);
        arc(k, 2 + x, 2 + y, c % 50001);
    }
}

/* A shut door before rows of eight nodes, each row joined to the next at random: long chains, and many of them. */
static void make_rows(void) {
    const uint32_t rows = (nodes - 3) / 8;
    state = 2027;
    arc(0, 1, 2, 0);
    for (uint32_t k = 1; k < arcs; k++) {
        uint32_t a = draw(), b = draw(), c = draw(), r = k % (rows + 1);
        uint32_t tail = r == 0 ? 2 : 3 + (r - 1) * 8 + a % 8, head = r == rows ? nodes : 3 + r * 8 + b % 8;
        arc(k, tail, head, 1 + c % 50);
    }
}

/* A line of n - 1 arcs with falling places, whose last opens; all other arcs are beside its first. */
static void make_line(void) {
    for (uint32_t k = 0; k < arcs; k++) {
        uint32_t i = k < nodes - 1 ? nodes - 1 - k : 1;
        arc(k, i, i + 1, k != 0);
    }
}

/* Ends the program where an answer is not what it must be. */
static void must(int holds, const char *what) {
    if (holds) return;
    printf("%s\n", what);
    exit(1);
}

/* Solves into these rows; the value. */
static int64_t solve(uint32_t *into, uint8_t *marks) {
    struct jorrabide_answer r =
        jorrabide_solve(nodes, 1, nodes, 7, tails, arcs, heads, arcs, capacities, arcs, none, arcs, into, arcs, marks, nodes, work, MOST_WORK);
    must(r.refusal == 0, "solving refuses");
    return r.value;
}

/* Sums over the openings of one table. */
static double opened_sum, opened_most, fresh_sum;
static uint64_t gained;
static int openings;

/* Opens the arc at a place of the solved table, and solves the new table afresh. */
static void open_place(uint32_t place, uint32_t capacity, int64_t old_value) {
    uint32_t before = capacities[place];
    double opened = 1e18, fresh = 1e18;
    int64_t value = 0, fresh_value = 0;
    for (int turn = 0; turn < TURNS; turn++) {
        memcpy(flow, old_flow, sizeof flow);
        memcpy(side, old_side, sizeof side);
        double began = now();
        struct jorrabide_answer r = jorrabide_open(
            nodes, 1, nodes, 7, tails, arcs, heads, arcs, capacities, arcs, none, arcs, place, capacity, flow, arcs, side, nodes, work, MOST_WORK);
        double took = now() - began;
        must(r.refusal == 0 && r.stamp == 8, "opening refuses");
        value = r.value;
        if (took < opened) opened = took;
    }
    capacities[place] = capacity;
    for (int turn = 0; turn < TURNS && (turn == 0 || fresh < 1e6); turn++) {
        double began = now();
        fresh_value = solve(fresh_flow, fresh_side);
        double took = now() - began;
        if (took < fresh) fresh = took;
    }
    capacities[place] = before;
    must(value == fresh_value && memcmp(side, fresh_side, nodes) == 0, "value or side differ");
    openings++;
    opened_sum += opened;
    if (opened > opened_most) opened_most = opened;
    fresh_sum += fresh;
    gained += value - old_value;
}

/* One line of what was measured. */
static void report(const char *name) {
    printf(
        "%-5s n %3u: %d opened, %llu more placed; opening %.0f (largest %.0f), afresh %.0f microseconds, ratio %.4f\n", name, nodes, openings,
        (unsigned long long)gained, opened_sum / openings, opened_most, fresh_sum / openings, opened_sum / fresh_sum);
    opened_sum = opened_most = fresh_sum = 0;
    gained = 0;
    openings = 0;
}

/* Solves the table, and opens place 0. */
static void open_first(const char *name, uint32_t capacity) {
    open_place(0, capacity, solve(old_flow, old_side));
    report(name);
}

int main(void) {
    for (nodes = 64; nodes <= MOST_NODES; nodes *= 2) {
        arcs = 8 * nodes;
        make_week();
        int64_t value = solve(old_flow, old_side);
        for (uint32_t k = 0; k < arcs && openings < CHAIRS; k++)
            if (heads[k] == nodes && old_side[tails[k] - 1] == 1) open_place(k, capacities[k] + 12, value);
        report("week");
        make_door();
        open_first("door", 1000000);
        make_rows();
        open_first("rows", 1000000);
        make_line();
        open_first("line", 1);
    }
    return 0;
}
