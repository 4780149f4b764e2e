/* How much sooner a yes comes than a solved table: CPU microseconds of solving each table that is named, a text, and of asking whether it has room
   for a half, nine tenths and all of its value, and for one more; each the least of a few turns. Beside the time of a question stand its share of
   solving's time and its share of solving's steps. Yes and no must be right, and the work row all 0. */
#include <stdio.h>
#include <stdlib.h>
#include <string.h>
#include <time.h>

#include "jorrabide.h"

enum { MOST_NODES = 512, MOST_ARCS = 4096, MOST_WORK = 4 * MOST_NODES + 3 * MOST_ARCS + 1, TURNS = 5 };

static uint32_t tails[MOST_ARCS], heads[MOST_ARCS], capacities[MOST_ARCS], minimums[MOST_ARCS], flow[MOST_ARCS], work[MOST_WORK];
static uint8_t side[MOST_NODES];
static uint32_t nodes, arcs, source, sink;

/* Ends the program where something is not what it must be. */
static void must(int holds, const char *what) {
    if (holds) return;
    printf("%s\n", what);
    exit(1);
}

/* Microseconds of this process. */
static double now(void) {
    struct timespec t;
    clock_gettime(CLOCK_PROCESS_CPUTIME_ID, &t);
    return (double)t.tv_sec * 1e6 + (double)t.tv_nsec / 1e3;
}

/* Reads the text of a table. */
static void read_table(const char *name) {
    char line[128], end;
    uint32_t node, k = 0;
    FILE *text = fopen(name, "r");
    must(text != NULL, "no such text");
    while (fgets(line, sizeof line, text) != NULL) {
        if (sscanf(line, "p max %u %u", &nodes, &arcs) == 2) continue;
        if (sscanf(line, "n %u %c", &node, &end) == 2)
            *(end == 's' ? &source : &sink) = node;
        else if (k < MOST_ARCS && sscanf(line, "a %u %u %u", &tails[k], &heads[k], &capacities[k]) == 3)
            k++;
    }
    fclose(text);
    must(k == arcs, "a text has not as many arcs as it says");
}

/* Asks whether the table has room for q, whose value is known, and prints what that took beside solving's time and steps. */
static void ask(uint64_t q, uint64_t value, double solving, uint64_t all_steps) {
    double least = 1e18;
    struct jorrabide_room r;
    for (int turn = 0; turn < TURNS; turn++) {
        double began = now();
        r = jorrabide_has_room_for(
            nodes, source, sink, 7, tails, arcs, heads, arcs, capacities, arcs, minimums, arcs, q, work, 4 * nodes + 3 * arcs + 1);
        double took = now() - began;
        if (took < least) least = took;
    }
    uint64_t steps = r.saturating + r.nonsaturating + r.relabels;
    must(r.refusal == 0 && r.stamp == 7 && r.yes == (q <= value), "yes or no is wrong");
    must(r.value <= value && (r.yes ? q <= r.value : r.value == value && steps == all_steps), "the value or the steps are wrong");
    for (uint32_t k = 0; k < 4 * nodes + 3 * arcs + 1; k++) must(work[k] == 0, "the work row is not 0");
    printf(" | %.0f (%.3f, %.3f)", least, least / solving, all_steps == 0 ? 0 : (double)steps / (double)all_steps);
}

int main(int count, char **names) {
    printf("| table | value | steps | solved | a half | nine tenths | all | one more |\n|---|---|---|---|---|---|---|---|\n");
    for (int k = 1; k < count; k++) {
        read_table(names[k]);
        double solving = 1e18;
        uint64_t value = 0, steps = 0;
        for (int turn = 0; turn < TURNS; turn++) {
            double began = now();
            struct jorrabide_answer r = jorrabide_solve(
                nodes, source, sink, 7, tails, arcs, heads, arcs, capacities, arcs, minimums, arcs, flow, arcs, side, nodes, work, MOST_WORK);
            double took = now() - began;
            must(r.refusal == 0, "solving refuses");
            value = (uint64_t)r.value;
            steps = r.saturating + r.nonsaturating + r.relabels;
            if (took < solving) solving = took;
        }
        printf("| %s | %llu | %llu | %.0f", names[k], (unsigned long long)value, (unsigned long long)steps, solving);
        ask(value / 2, value, solving, steps);
        ask(value * 9 / 10, value, solving, steps);
        ask(value, value, solving, steps);
        ask(value + 1, value, solving, steps);
        printf(" |\n");
        fflush(stdout);
    }
    return 0;
}
