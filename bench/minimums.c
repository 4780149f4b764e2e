/* Milliseconds of solving tables with minimums, beside solving them without, each the least of a few calls: the families of docs/FAMILIES.md with minimums
   below a flow that is known, and tables made to need many chains; at n = 64, 128, 256, 512 and m = 8n. Every answer is checked: its bounds, what enters and
   leaves each node, and that the value is the capacity of the side's cut, so that no flow has a larger one. */
#include <stdio.h>
#include <stdlib.h>
#include <string.h>
#include <time.h>

#include "jorrabide.h"

enum { MOST_NODES = 512, MOST_ARCS = 8 * MOST_NODES, MOST_WORK = 4 * MOST_NODES + 2 * MOST_ARCS + 1, TURNS = 9, IMPOSSIBLE = 20 };

static uint32_t tails[MOST_ARCS], heads[MOST_ARCS], capacities[MOST_ARCS], minimums[MOST_ARCS], known[MOST_ARCS];
static uint32_t flow[MOST_ARCS], work[MOST_WORK], spare[MOST_ARCS];
static const uint32_t none[MOST_ARCS];
static uint8_t side[MOST_NODES];
static uint32_t nodes, arcs, state;

/* A draw of docs/FAMILIES.md. */
static uint32_t draw(void) {
    state = state * 1664525u + 1013904223u;
    return state >> 8;
}

/* Milliseconds of this process on a processor, so that other work on the machine does not count. */
static double now(void) {
    struct timespec t;
    clock_gettime(CLOCK_PROCESS_CPUTIME_ID, &t);
    return (double)t.tv_sec * 1e3 + (double)t.tv_nsec / 1e6;
}

/* Ends the program where an answer is not what it must be. */
static void must(int holds, const char *what) {
    if (holds) return;
    printf("%s\n", what);
    exit(1);
}

/* Sets one arc. */
static void arc(uint32_t k, uint32_t tail, uint32_t head, uint32_t capacity) {
    must(k < arcs && tail >= 1 && tail <= nodes && head >= 1 && head <= nodes, "no such arc");
    tails[k] = tail;
    heads[k] = head;
    capacities[k] = capacity;
}

static const char *const families[] = {"fits", "overasked", "hub", "uniform", "parallel", "disconnected", "grid", "chains"};
enum { FAMILIES = sizeof families / sizeof *families };

/* Families 1 to 8 of docs/FAMILIES.md. */
static void make_family(uint32_t number) {
    const uint32_t n = nodes, q = (n - 2) / 3, half = n / 2;
    state = 2026 + number;
    for (uint32_t k = 0; k < arcs; k++) {
        uint32_t a = draw(), b = draw(), c = draw(), j = k % q, layer = k / q;
        if (number <= 2 && layer == 0)
            arc(k, 1, 2 + j, number == 1 ? 1 + c % 20 : 100 + c % 200);
        else if (number <= 2 && layer <= 2)
            arc(k, 2 + (layer - 1) * q + j, 2 + layer * q + j, number == 1 ? 1000 : 50);
        else if (number <= 2 && layer == 3)
            arc(k, 2 + 2 * q + j, n, number == 1 ? 1000 : 1 + c % 20);
        else if (number <= 2)
            arc(k, 2 + k % 2 * q + a % q, 2 + (1 + k % 2) * q + b % q, 1 + c % 30);
        else if (number == 3 && k % 2 == 0)
            arc(k, a % 4 == 0 ? 1 : 3 + b % (n - 2), 2, 1 + c % 50);
        else if (number == 3)
            arc(k, 2, 3 + b % (n - 2), 1 + c % 50);
        else if (number == 4)
            arc(k, 1 + a % n, 1 + (a % n + 1 + b % (n - 1)) % n, c % 1000001);
        else if (number == 5) {
            uint32_t i = 1 + k / 8 % (n - 1);
            arc(k, b % 2 == 0 ? i : i + 1, b % 2 == 0 ? i + 1 : i, c % 1000);
        } else if (number == 6) {
            uint32_t first = a % 2 == 0 ? 0 : half, size = a % 2 == 0 ? half : n - half, x = a / 2 % size;
            arc(k, first + 1 + x, first + 1 + (x + 1 + b % (size - 1)) % size, 1 + c % 100);
        } else if (number == 7) {
            uint32_t g = k % (n - 2), turn = k / (n - 2) % 5, tail = turn == 2 ? 1 : 2 + g, head = n;
            if (turn == 0 && 3 + g < n) head = 3 + g;
            if (turn == 1 && 18 + g < n) head = 18 + g;
            if (turn == 2) head = 2 + g;
            if (turn == 3 && g > 0) head = 1 + g;
            if (turn == 4 && g >= 16) head = g - 14;
            arc(k, tail, head, 1 + c % 100);
        } else {
            uint32_t i = k % (n + 2);
            if (i < 4)
                arc(k, 1, 2 + i, 1 + c % 1000);
            else
                arc(k, i - 2, i + 2 > n ? n : i + 2, 1 + c % 1000);
        }
    }
}

/* Solves from s to t with these capacities and minimums. */
static struct jorrabide_answer solve(uint32_t s, uint32_t t, const uint32_t *most, const uint32_t *least) {
    return jorrabide_solve(nodes, s, t, 7, tails, arcs, heads, arcs, most, arcs, least, arcs, flow, arcs, side, nodes, work, MOST_WORK);
}

/* Checks the flow and side rows: bounds, conservation, and that the value is the net flow and the cut's capacity. */
static void check(uint32_t s, uint32_t t, const uint32_t *least, int64_t value) {
    static int64_t net[MOST_NODES + 1];
    int64_t cut = 0;
    memset(net, 0, sizeof net);
    for (uint32_t k = 0; k < arcs; k++) {
        must(least[k] <= flow[k] && flow[k] <= capacities[k], "a flow is out of its bounds");
        net[tails[k]] += flow[k];
        net[heads[k]] -= flow[k];
        if (side[tails[k] - 1] == 1 && side[heads[k] - 1] == 0) cut += capacities[k];
        if (side[tails[k] - 1] == 0 && side[heads[k] - 1] == 1) cut -= least[k];
    }
    for (uint32_t i = 1; i <= nodes; i++) must(i == s || i == t || net[i] == 0, "a node keeps or lacks something");
    must(net[s] == value && net[t] == -value && cut == value && side[s - 1] == 1 && side[t - 1] == 0, "the value is not that of flow and cut");
}

/* The least milliseconds of solving from node 1 to node n; the refusal must be this one. */
static double timed(const uint32_t *least, uint32_t refusal) {
    double took = 1e18;
    for (int turn = 0; turn < TURNS && (turn < 2 || took < 500); turn++) {
        memset(flow, 0xff, sizeof flow);
        memset(side, 0xff, sizeof side);
        double began = now();
        struct jorrabide_answer r = solve(1, nodes, capacities, least);
        double this = now() - began;
        if (this < took) took = this;
        must(r.refusal == refusal, "an answer where none can be, or none where one is");
        if (refusal == 0) check(1, nodes, least, r.value);
        for (uint32_t k = 0; refusal != 0 && k < arcs; k++) must(flow[k] == UINT32_MAX, "a refusal altered the flow row");
    }
    return took;
}

/* What was measured at this size; and of the table that is next, how long a run without minimums takes for the flow that its minimum asks for, or 0. */
static double times[64], run_took;
static int measured;

/* Measures one table with its minimums and without, and prints a line. */
static void measure(const char *name, const char *which, uint32_t refusal) {
    uint32_t many = 0;
    for (uint32_t k = 0; k < arcs; k++) many += minimums[k] != 0;
    if (many == 0) return;
    double with = timed(minimums, refusal), without = timed(none, 0);
    printf("| %s | %s | %u | %u | %.2f | %.2f |", name, which, nodes, many, with, without);
    if (run_took > 0) printf(" %.2f", run_took);
    printf(" |%s\n", refusal ? " impossible" : "");
    fflush(stdout);
    times[measured++] = with;
}

static int by_size(const void *a, const void *b) { return (*(const double *)a > *(const double *)b) - (*(const double *)a < *(const double *)b); }

/* Median and worst of what was measured since. */
static void report(const char *what) {
    qsort(times, measured, sizeof *times, by_size);
    printf("%s, n = %u: %d tables, median %.2f, worst %.2f ms\n", what, nodes, measured, times[measured / 2], times[measured - 1]);
    measured = 0;
}

/* Adds ways in a circle, found by walking at random over arcs with room, to the known flow. */
static void add_circles(void) {
    static uint32_t way[MOST_NODES], at[MOST_NODES + 1];
    for (uint32_t walk = 0; walk < nodes; walk++) {
        uint32_t length = 0, i = 1 + draw() % nodes;
        memset(at, 0xff, sizeof at);
        while (at[i] == UINT32_MAX) {
            uint32_t from = draw() % arcs, k = 0;
            while (k < arcs && !(tails[(from + k) % arcs] == i && known[(from + k) % arcs] < capacities[(from + k) % arcs])) k++;
            if (k == arcs) break;
            at[i] = length;
            way[length++] = (from + k) % arcs;
            i = heads[(from + k) % arcs];
        }
        if (at[i] == UINT32_MAX) continue;
        uint32_t room = UINT32_MAX;
        for (uint32_t p = at[i]; p < length; p++)
            if (capacities[way[p]] - known[way[p]] < room) room = capacities[way[p]] - known[way[p]];
        room = 1 + draw() % room;
        for (uint32_t p = at[i]; p < length; p++) known[way[p]] += room;
    }
}

/* The known flow: the largest of lowered capacities, and circles. */
static void know_another(void) {
    for (uint32_t k = 0; k < arcs; k++) spare[k] = draw() % (capacities[k] + 1);
    must(solve(1, nodes, spare, none).refusal == 0, "solving refuses");
    memcpy(known, flow, sizeof known);
    add_circles();
}

/* A family with minimums below the largest flow that solving without them finds, and below another flow: one arc in ten, all arcs, all arcs at that flow. */
static void measure_family(uint32_t number) {
    const char *name = families[number - 1];
    make_family(number);
    for (int another = 0; another < 2; another++) {
        if (another)
            know_another();
        else {
            must(solve(1, nodes, capacities, none).refusal == 0, "solving refuses");
            memcpy(known, flow, sizeof known);
        }
        for (int many = 0; many < 3; many++) {
            static const char *const which[2][3] = {
                {"largest, 1 in 10", "largest, all", "largest, itself"}, {"another, 1 in 10", "another, all", "another, itself"}};
            for (uint32_t k = 0; k < arcs; k++) minimums[k] = many == 2 ? known[k] : many == 0 && draw() % 10 != 0 ? 0 : draw() % (known[k] + 1);
            measure(name, which[another][many], 0);
        }
    }
}

/* Solves from s to t without minimums, and notes how long that takes. */
static struct jorrabide_answer run_between(uint32_t s, uint32_t t) {
    struct jorrabide_answer r = {0};
    run_took = 1e18;
    for (int turn = 0; turn < TURNS; turn++) {
        double began = now();
        r = solve(s, t, capacities, none);
        double this = now() - began;
        if (this < run_took) run_took = this;
    }
    must(r.refusal == 0 && r.value > 0 && r.value < 1000000, "no such minimum");
    return r;
}

/* Node 1 and node n stand apart, so that solving without minimums places nothing. The last arc leads from node n - 1 back to node 2, and its minimum is
   the largest flow the other way: all of it is to be found by chains. Then one more, which no flow keeps: that shows after the last chain. */
static void measure_forced(const char *name) {
    const uint32_t last = arcs - 1;
    arc(last, nodes - 1, 2, 0);
    struct jorrabide_answer r = run_between(2, nodes - 1);
    memset(minimums, 0, sizeof minimums);
    capacities[last] = minimums[last] = r.value;
    measure(name, "forced", 0);
    capacities[last] = minimums[last] = r.value + 1;
    measure(name, "one more", IMPOSSIBLE);
    run_took = 0;
}

/* Nodes joined at random. */
static void make_random(void) {
    state = 2026;
    for (uint32_t k = 0; k < arcs; k++) {
        uint32_t a = draw(), b = draw(), c = draw(), x = a % (nodes - 2), y = (x + 1 + b % (nodes - 3)) % (nodes - 2);
        arc(k, 2 + x, 2 + y, c % 50001);
    }
}

/* The same with minimums on all arcs, at a flow of circles alone. */
static void measure_circles(void) {
    memset(known, 0, sizeof known);
    for (int more = 0; more < 8; more++) add_circles();
    memcpy(minimums, known, sizeof minimums);
    measure("random", "circles", 0);
}

/* Rows of eight nodes, each joined to the next at random. */
static void make_rows(void) {
    const uint32_t rows = (nodes - 4) / 8;
    state = 2027;
    for (uint32_t k = 0; k < arcs; k++) {
        uint32_t a = draw(), b = draw(), c = draw(), r = k % (rows + 1);
        arc(k, r == 0 ? 2 : 3 + (r - 1) * 8 + a % 8, r == rows ? nodes - 1 : 3 + r * 8 + b % 8, 1 + c % 5000);
    }
}

/* A line of n - 2 nodes, eight arcs side by side from each to the next. */
static void make_line(void) {
    state = 2028;
    for (uint32_t k = 0; k < arcs; k++) {
        uint32_t i = k % (nodes - 3);
        arc(k, 2 + i, 3 + i, 1 + draw() % 50000);
    }
}

/* A line from node n to node 1, eight arcs side by side from each node to the next, but one in the middle, which is full at its minimum: the value is
   below 0. */
static void measure_back(void) {
    const uint32_t middle = nodes / 2;
    state = 2029;
    for (uint32_t k = 0; k < arcs; k++) {
        uint32_t i = k % (nodes - 1), c = 1 + draw() % 50000;
        arc(k, nodes - i, nodes - i - 1, i != middle ? c : k == middle ? 1000000 : 0);
    }
    struct jorrabide_answer r = run_between(nodes, 1);
    memset(minimums, 0, sizeof minimums);
    capacities[middle] = minimums[middle] = r.value;
    measure("back", "forced", 0);
    capacities[middle] = minimums[middle] = r.value + 1;
    measure("back", "one more", IMPOSSIBLE);
    run_took = 0;
}

/* Two sets of nodes, X and Y, with an arc of capacity 1 from each of X to each of Y, or to one of Y alone. A way from node 2 enters X and leaves Y, or enters
   Y, goes back over the arcs and leaves X, by turns: each turn enters one node further on a line from node 2 and leaves two nodes further from node n - 1. So
   in each turn chains of fewest arcs fill all arcs between X and Y, or empty them, one by one, and then must be longer. Where each of X leads to one of Y
   alone, each chain leaves a node behind from which nothing leads on. The sizes are those with most chains. */
static void make_turns(int to_one) {
    uint32_t size = 1, turns = 1, best = 0, most = 1, k = 0;
    for (uint32_t p = 1; 2 * p + 10 < nodes; p++)
        for (uint32_t r = 1, between = to_one ? p : p * p;
             3 * r - 1 + 4 + 2 * p + 2 <= nodes && between + 4 * p + r - 1 + 2 * (r - 1) + 2 * r + 1 <= arcs; r++)
            if (r * between > best && r * between < 1000000) best = r * between, size = p, turns = r, most = between;
    const uint32_t entry = 2, hubs = entry + turns, x = hubs + 4, y = x + size;
    for (uint32_t r = 0; r < turns; r++) {
        arc(k++, entry + r, hubs + r % 2, most);
        arc(k++, hubs + 2 + r % 2, nodes - 1 - 2 * r, most);
    }
    for (uint32_t r = 0; r + 1 < turns; r++) arc(k++, entry + r, entry + r + 1, best);
    for (uint32_t r = 0; r < 2 * (turns - 1); r++) arc(k++, nodes - 2 - r, nodes - 1 - r, best);
    for (uint32_t i = 0; i < size; i++)
        for (uint32_t j = 0; j < size; j++)
            if (!to_one || i == j) arc(k++, x + i, y + j, 1);
    for (uint32_t i = 0; i < size; i++) {
        arc(k++, hubs, x + i, best);
        arc(k++, hubs + 1, y + i, best);
        arc(k++, y + i, hubs + 2, best);
        arc(k++, x + i, hubs + 3, best);
    }
    for (; k < arcs; k++) arc(k, x + k % size, y + k / size % size, 0);
}

int main(int count, char **words) {
    const uint32_t least = count > 1 ? (uint32_t)atoi(words[1]) : 64;
    printf("| table | minimums | n | how many | with, ms | without, ms | the run for the minimum, ms |\n|---|---|---|---|---|---|---|\n");
    for (nodes = least; nodes <= MOST_NODES; nodes *= 2) {
        arcs = 8 * nodes;
        for (uint32_t number = 1; number <= FAMILIES; number++) measure_family(number);
        report("families");
        make_random();
        measure_circles();
        measure_forced("random");
        make_rows();
        measure_forced("rows");
        make_line();
        measure_forced("line");
        measure_back();
        make_turns(0);
        measure_forced("turns");
        make_turns(1);
        measure_forced("dead ends");
        report("made against it");
    }
    return 0;
}
