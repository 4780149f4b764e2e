/* The sample week (examples/week.txt) from C: solves it, opens Wednesday's chair 2, place 29, at ten instead of one, which is 24 quarter hours
   instead of 12, and reads that place before and after, with the table's stamp of each time. */
#include <stdio.h>

#include "jorrabide.h"

enum { NODES = 25, ARCS = 34, WORK = 4 * NODES + 2 * ARCS + 1, CHAIR = 29 };

static const uint32_t tails[ARCS] = {1,  1,  2,  2,  3,  4,  4,  4,  5,  5,  5,  6,  6,  6,  7,  8,  8,
                                     9,  10, 10, 11, 12, 13, 14, 15, 16, 17, 18, 19, 20, 21, 22, 23, 24};
static const uint32_t heads[ARCS] = {2,  3,  4,  5,  6,  7,  8,  10, 8,  9,  11, 12, 13, 14, 16, 17, 18,
                                     20, 21, 22, 24, 15, 19, 23, 25, 25, 25, 25, 25, 25, 25, 25, 25, 25};
static uint32_t capacities[ARCS] = {123, 70,  999, 999, 999, 24,  24,  12, 16, 24, 24, 28, 20, 28, 999, 999, 999,
                                    999, 999, 999, 999, 999, 999, 999, 32, 32, 32, 32, 32, 12, 32, 32,  32,  32};
static const uint32_t minimums[ARCS];
static uint32_t flow[ARCS], work[WORK];
static uint8_t side[NODES];

/* Reads the chair's place of the answer with this stamp, in the table that has that stamp now. */
static void read_chair(uint32_t stamp, uint32_t answer) {
    struct jorrabide_reading r = jorrabide_read_place(
        NODES, 1, NODES, stamp, tails, ARCS, heads, ARCS, capacities, ARCS, minimums, ARCS, answer, flow, ARCS, side, NODES,
        CHAIR);
    if (r.refusal != 0)
        printf("refusal %u at %u (9 is STALE, by so many rebuilds)\n", r.refusal, r.place);
    else
        printf("place %u takes %u of %u%s\n", CHAIR, r.flow, r.capacity, r.crossing ? " and is in the way" : "");
}

int main(void) {
    uint32_t stamp = 7;
    struct jorrabide_answer solved = jorrabide_solve(
        NODES, 1, NODES, stamp, tails, ARCS, heads, ARCS, capacities, ARCS, minimums, ARCS, flow, ARCS, side, NODES, work,
        WORK);
    printf("solved: %lld placed, stamp %u; ", (long long)solved.value, solved.stamp);
    read_chair(stamp, solved.stamp);

    struct jorrabide_answer opened = jorrabide_open(
        NODES, 1, NODES, stamp, tails, ARCS, heads, ARCS, capacities, ARCS, minimums, ARCS, CHAIR, 24, flow, ARCS,
        side, NODES, work, WORK);
    if (opened.refusal != 0) {
        printf("refusal %u at %u\n", opened.refusal, opened.place);
        return 1;
    }
    capacities[CHAIR] = 24;
    stamp = opened.stamp;
    printf("opened: %lld placed, stamp %u; ", (long long)opened.value, opened.stamp);
    read_chair(stamp, opened.stamp);
    printf("the old answer's stamp: ");
    read_chair(stamp, solved.stamp);
    return 0;
}
