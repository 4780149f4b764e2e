/* Microseconds of processor time of solving a table and listing its chains and rings, at n = 64, 128, 256, 512 and m = 8n, beside the same call with
   a list row that is one number short: that solves, counts the list and refuses, so it has one pass over the pieces less. Each the least of a few
   turns. The pieces must add up to the flows and the chains to the value. */
#include <stdio.h>
#include <stdlib.h>
#include <string.h>
#include <time.h>

#include "jorrabide.h"

enum { MOST_NODES = 512, MOST_ARCS = 8 * MOST_NODES, MOST_WORK = 4 * MOST_NODES + 2 * MOST_ARCS + 1, MOST_LIST = MOST_ARCS * (3 + MOST_NODES), TURNS = 9 };

static uint32_t tails[MOST_ARCS], heads[MOST_ARCS], capacities[MOST_ARCS], minimums[MOST_ARCS], flow[MOST_ARCS], work[MOST_WORK], list[MOST_LIST];
static uint64_t carried[MOST_ARCS];
static uint8_t side[MOST_NODES];
static uint32_t nodes, arcs, state;

/* A draw of docs/FAMILIES.md. */
static uint32_t draw(void) {
    state = state * 1664525u + 1013904223u;
    return state >> 8;
}

/* Microseconds of processor time. */
static double now(void) {
    struct timespec t;
    clock_gettime(CLOCK_PROCESS_CPUTIME_ID, &t);
    return (double)t.tv_sec * 1e6 + (double)t.tv_nsec / 1e3;
}

/* Sets one arc. */
static void arc(uint32_t k, uint32_t tail, uint32_t head, uint32_t capacity) {
    tails[k] = tail;
    heads[k] = head;
    capacities[k] = capacity;
}

/* The over-asked clinic week, family 2 of docs/FAMILIES.md. */
static void make_week(void) {
    const uint32_t q = (nodes - 2) / 3;
    state = 2026 + 2;
    for (uint32_t k = 0; k < arcs; k++) {
        uint32_t a = draw(), b = draw(), c = draw(), j = k % q, layer = k / q;
        if (layer == 0)
            arc(k, 1, 2 + j, 100 + c % 200);
        else if (layer == 1)
            arc(k, 2 + j, 2 + q + j, 50);
        else if (layer == 2)
            arc(k, 2 + q + j, 2 + 2 * q + j, 50);
        else if (layer == 3)
            arc(k, 2 + 2 * q + j, nodes, 1 + c % 20);
        else if (k % 2 == 0)
            arc(k, 2 + a % q, 2 + q + b % q, 1 + c % 30);
        else
            arc(k, 2 + q + a % q, 2 + 2 * q + b % q, 1 + c % 30);
    }
}

/* Rows of eight nodes, each row joined to the next at random: long chains, and many of them. */
static void make_rows(void) {
    const uint32_t rows = (nodes - 2) / 8;
    state = 2027;
    for (uint32_t k = 0; k < arcs; k++) {
        uint32_t a = draw(), b = draw(), c = draw(), r = k % (rows + 1);
        uint32_t tail = r == 0 ? 1 : 2 + (r - 1) * 8 + a % 8, head = r == rows ? nodes : 2 + r * 8 + b % 8;
        arc(k, tail, head, 1 + c % 50);
    }
}

/* A line: eight arcs beside each other from each node to the next, all of them full, parted so that no two steps change their arc after the same
   amount. So each chain empties one arc of one step, and the list has m - n + 2 chains of n - 1 places: no list has more chains of that length.
   The arcs of a step stand far from each other. */
static void make_line(void) {
    const uint32_t steps = nodes - 1, whole = 16 * steps;
    for (uint32_t k = 0; k < arcs; k++) {
        uint32_t i = k % steps, layer = k / steps, upto = (layer + 1) * steps + i;
        uint32_t last = k + steps >= arcs, from = layer == 0 ? 0 : layer * steps + i;
        arc(k, i + 1, i + 2, (last ? whole : upto) - from);
    }
}

/* Ends the program where an answer is not what it must be. */
static void must(int holds, const char *what) {
    if (holds) return;
    printf("%s\n", what);
    exit(1);
}

/* The call, with this room for the list. */
static struct jorrabide_listed call(size_t room) {
    return jorrabide_list_chains(
        nodes, 1, nodes, 7, tails, arcs, heads, arcs, capacities, arcs, minimums, arcs, flow, arcs, side, nodes, work, MOST_WORK, list, room);
}

/* Adds the list up: its pieces and their places; ends the program where they are not the flow's. */
static void read_list(struct jorrabide_listed r, uint32_t *chains, uint32_t *rings, uint32_t *longest) {
    uint64_t value = 0;
    *chains = *rings = *longest = 0;
    memset(carried, 0, sizeof carried);
    for (uint32_t at = 0; at < r.filled; at += 3 + list[at + 2]) {
        must(list[at] == 1 || list[at] == 2, "neither chain nor ring");
        if (list[at] == 1) value += list[at + 1];
        *(list[at] == 1 ? chains : rings) += 1;
        if (list[at + 2] > *longest) *longest = list[at + 2];
        for (uint32_t q = 0; q < list[at + 2]; q++) carried[list[at + 3 + q]] += list[at + 1];
    }
    must((int64_t)value == r.answer.value, "the chains are not the value");
    for (uint32_t k = 0; k < arcs; k++) must(carried[k] == flow[k], "the pieces are not the flow");
    must(*chains + *rings <= arcs, "too many pieces");
}

/* Measures the call on the table, and prints a line. */
static void measure(const char *name) {
    double whole = 1e18, refused = 1e18;
    struct jorrabide_listed r = call(MOST_LIST);
    uint32_t chains, rings, longest;
    must(r.answer.refusal == 0, "listing refuses");
    read_list(r, &chains, &rings, &longest);
    for (int turn = 0; turn < TURNS; turn++) {
        double began = now();
        must(call(r.filled).answer.refusal == 0, "a list that just fits is refused");
        double took = now() - began;
        if (took < whole) whole = took;
        began = now();
        must(r.filled == 0 || call(r.filled - 1).answer.refusal == 5, "a list that is too long is not refused");
        took = now() - began;
        if (took < refused) refused = took;
    }
    printf(
        "%-5s n %3u: %4u chains, %u rings, %3u places the longest, %7u numbers; %.0f microseconds, refused at the end %.0f\n", name, nodes, chains,
        rings, longest, r.filled, whole, refused);
}

int main(void) {
    for (nodes = 64; nodes <= MOST_NODES; nodes *= 2) {
        arcs = 8 * nodes;
        make_week();
        measure("week");
        make_rows();
        measure("rows");
        make_line();
        measure("line");
    }
    return 0;
}
