/* Milliseconds of processor time of a month of 31 days of n = 64, 128, 256 and 512 nodes and 8n arcs in one call, and of the same days solved one by one; each the least of a
   few turns. Answers, flows and marks must be the same both ways. */
#include <stdio.h>
#include <stdlib.h>
#include <string.h>
#include <time.h>

#include "jorrabide.h"

enum { DAYS = 31, MOST_NODES = 512, MOST_ARCS = 8 * MOST_NODES, MOST_WORK = 4 * MOST_NODES + 2 * MOST_ARCS + 1, TURNS = 3 };

static uint32_t starts[DAYS], nodes[DAYS], sources[DAYS], sinks[DAYS], stamps[DAYS];
static uint32_t tails[DAYS * MOST_ARCS], heads[DAYS * MOST_ARCS], capacities[DAYS * MOST_ARCS], minimums[DAYS * MOST_ARCS];
static uint32_t flow[DAYS * MOST_ARCS], day_flow[MOST_ARCS], work[MOST_WORK];
static uint8_t side[512 * DAYS], day_side[512];
static uint64_t answers[9 * DAYS];
static uint32_t n, m, state;

/* A draw of docs/FAMILIES.md. */
static uint32_t draw(void) {
    state = state * 1664525u + 1013904223u;
    return state >> 8;
}

/* Milliseconds of processor time. */
static double now(void) {
    struct timespec t;
    clock_gettime(CLOCK_PROCESS_CPUTIME_ID, &t);
    return (double)t.tv_sec * 1e3 + (double)t.tv_nsec / 1e6;
}

/* Sets one arc. */
static void arc(uint32_t k, uint32_t tail, uint32_t head, uint32_t capacity) {
    tails[k] = tail;
    heads[k] = head;
    capacities[k] = capacity;
}

/* Day j: the over-asked clinic week, family 2 of docs/FAMILIES.md, at a seed of its own; or, where `fits`, chairs enough. */
static void make_day(uint32_t j, int fits) {
    const uint32_t q = (n - 2) / 3, first = j * m;
    state = 2026 + 2 + j;
    for (uint32_t k = 0; k < m; k++) {
        uint32_t a = draw(), b = draw(), c = draw(), i = k % q, layer = k / q;
        if (layer == 0)
            arc(first + k, 1, 2 + i, fits ? 1 + c % 20 : 100 + c % 200);
        else if (layer == 1)
            arc(first + k, 2 + i, 2 + q + i, 50);
        else if (layer == 2)
            arc(first + k, 2 + q + i, 2 + 2 * q + i, 50);
        else if (layer == 3)
            arc(first + k, 2 + 2 * q + i, n, fits ? 100 + c % 200 : 1 + c % 20);
        else if (k % 2 == 0)
            arc(first + k, 2 + a % q, 2 + q + b % q, 1 + c % 30);
        else
            arc(first + k, 2 + q + a % q, 2 + 2 * q + b % q, 1 + c % 30);
    }
    starts[j] = first;
    nodes[j] = sinks[j] = n;
    sources[j] = 1;
    stamps[j] = 7 + j;
}

/* Ends the program where an answer is not what it must be. */
static void must(int holds, const char *what) {
    if (holds) return;
    printf("%s\n", what);
    exit(1);
}

/* Solves the month in one call; milliseconds. */
static double solve_month(void) {
    double began = now();
    struct jorrabide_month r = jorrabide_solve_month(
        starts, DAYS, nodes, DAYS, sources, DAYS, sinks, DAYS, stamps, DAYS, tails, DAYS * m, heads, DAYS * m, capacities, DAYS * m, minimums, DAYS * m,
        flow, DAYS * m, side, 512 * DAYS, work, MOST_WORK, answers, 9 * DAYS);
    double took = now() - began;
    must(r.refusal == 0 && r.solved == DAYS, "the month is refused, or a day of it");
    return took;
}

/* Solves the days one by one, and compares each with the month's; milliseconds. */
static double solve_days(void) {
    double took = 0;
    for (uint32_t j = 0; j < DAYS; j++) {
        const uint32_t at = starts[j];
        double began = now();
        struct jorrabide_answer r = jorrabide_solve(
            n, 1, n, stamps[j], tails + at, m, heads + at, m, capacities + at, m, minimums + at, m, day_flow, m, day_side, n, work, MOST_WORK);
        took += now() - began;
        const uint64_t numbers[9] = {r.refusal, r.place, r.stamp, (uint64_t)r.value, r.scale, r.phases, r.saturating, r.nonsaturating, r.relabels};
        must(memcmp(numbers, answers + 9 * j, sizeof numbers) == 0, "answers differ");
        must(memcmp(day_flow, flow + at, m * sizeof *flow) == 0 && memcmp(day_side, side + 512 * j, n) == 0, "flows or marks differ");
    }
    return took;
}

int main(void) {
    for (int fits = 1; fits >= 0; fits--)
        for (n = 64; n <= MOST_NODES; n *= 2) {
            m = 8 * n;
            for (uint32_t j = 0; j < DAYS; j++) make_day(j, fits);
            double month = 1e18, days = 1e18;
            for (int turn = 0; turn < TURNS; turn++) {
                double one = solve_month(), other = solve_days();
                if (one < month) month = one;
                if (other < days) days = other;
            }
            printf(
                "%-9s n %3u: a month %.1f ms, a day %.2f; one by one %.1f ms, ratio %.3f\n", fits ? "fits" : "overasked", n, month, month / DAYS, days,
                month / days);
        }
    return 0;
}
