/* How much stack each call needs at n = 512 and m = 4,096: a thread runs it on a painted stack, and what is no longer painted is counted from the caller's
   frame on. What a thread needs to end, some 2 KB, is the least that is seen. */
#include <pthread.h>
#include <stdio.h>
#include <stdlib.h>
#include <string.h>

#include "jorrabide.h"
#include "jorrabide_server.h"

enum { NODES = 512, ARCS = 4096, WORK = 4 * NODES + 3 * ARCS + 1, STACK = 1 << 20, PAINT = 0xa5, TEXT = 73741 };

#define ROW(row) row, sizeof row / sizeof row[0]
#define TABLE ROW(tails), ROW(heads), ROW(capacities)

static uint8_t stack[STACK] __attribute__((aligned(4096)));
static uint32_t tails[ARCS], heads[ARCS], capacities[ARCS], flow[ARCS], work[WORK];
static uint32_t list[ARCS * (3 + NODES)], sources[NODES], sinks[NODES], places[ARCS], part[ARCS];
static uint32_t small_tails[ARCS], small_heads[ARCS], small_capacities[ARCS], nodes_from[NODES], arcs_from[ARCS];
static const uint32_t none[ARCS], start[1], sources_of[] = {1}, nodes_of[] = {NODES}, stamps_of[] = {7};
static const uint32_t sinks_of[] = {NODES};
static uint32_t some[ARCS];
static uint64_t answers[9];
static uint8_t side[NODES], text[TEXT], arc_bytes[12 * ARCS], flow_bytes[4 * ARCS], result[56];
static uint64_t refusal, value;
static size_t text_length;
static uint8_t *top;

static void solve(void) {
    struct jorrabide_answer r = jorrabide_solve(NODES, 1, NODES, 7, TABLE, ROW(none), ROW(flow), ROW(side), ROW(work));
    refusal = r.refusal;
    value = (uint64_t)r.value;
}

static void read_place(void) { refusal = jorrabide_read_place(NODES, 1, NODES, 7, TABLE, ROW(none), 7, ROW(flow), ROW(side), 3).refusal; }

static void open_arc(void) {
    refusal = jorrabide_open(NODES, 1, NODES, 7, TABLE, ROW(none), 0, capacities[0] + 900, ROW(flow), ROW(side), ROW(work)).refusal;
}

static void write_solution(void) {
    struct jorrabide_written r = jorrabide_write_solution(NODES, 1, NODES, TABLE, ROW(none), value, ROW(flow), ROW(text));
    refusal = r.refusal;
    text_length = r.filled;
}

static void read_solution(void) {
    refusal = jorrabide_read_solution(NODES, 1, NODES, TABLE, ROW(none), text, text_length, ROW(flow)).refusal;
}

static void check_plan(void) { refusal = jorrabide_check_plan(NODES, 1, NODES, TABLE, ROW(none), text, text_length, ROW(side)).refusal; }

static void list_chains(void) {
    refusal = jorrabide_list_chains(NODES, 1, NODES, 7, TABLE, ROW(none), ROW(flow), ROW(side), ROW(work), ROW(list)).answer.refusal;
}

static void has_room_for(void) { refusal = jorrabide_has_room_for(NODES, 1, NODES, 7, TABLE, ROW(none), value, ROW(work)).refusal; }

static void find_openings(void) {
    refusal = jorrabide_find_openings(NODES, 1, NODES, 7, TABLE, ROW(none), ROW(flow), ROW(side), ROW(work), ROW(sources), ROW(sinks), ROW(places))
                  .answer.refusal;
}

static void shorter(void) { refusal = jorrabide_shorter(ROW(sources), ROW(sinks), NODES, NODES, ROW(part)).refusal; }

static void reduce(void) {
    refusal = jorrabide_reduce(NODES, 1, NODES, 7, TABLE, ROW(none), ROW(flow), ROW(side), ROW(work), ROW(small_tails), ROW(small_heads),
                               ROW(small_capacities), ROW(nodes_from), ROW(arcs_from))
                  .answer.refusal;
}

static void solve_month(void) {
    refusal = jorrabide_solve_month(ROW(start), ROW(nodes_of), ROW(sources_of), ROW(sinks_of), ROW(stamps_of), TABLE, ROW(none), ROW(flow), ROW(side),
                                    ROW(work), ROW(answers))
                  .refusal;
}

static void solve_with_minimums(void) { refusal = jorrabide_solve(NODES, 1, NODES, 7, TABLE, ROW(some), ROW(flow), ROW(side), ROW(work)).refusal; }

static void server_solve(void) { refusal = jorrabide_server_solve(NODES, 1, NODES, 7, ROW(arc_bytes), ROW(flow_bytes), ROW(side), ROW(result)); }

static void server_place(void) {
    refusal = jorrabide_server_place(NODES, 1, NODES, 7, ROW(arc_bytes), 7, ROW(flow_bytes), ROW(side), 3, ROW(result));
}

/* Ends the program where something is not as it must be. */
static void must(int holds, const char *what) {
    if (holds) return;
    printf("%s\n", what);
    exit(1);
}

/* A thread that makes one call. */
static void *run(void *call) {
    top = __builtin_frame_address(0);
    (*(void (**)(void))call)();
    return NULL;
}

/* How many bytes of a painted stack a call leaves changed. */
static size_t touched(void (*call)(void)) {
    pthread_attr_t attributes;
    pthread_t thread;
    size_t k = 0;
    memset(stack, PAINT, sizeof stack);
    must(pthread_attr_init(&attributes) == 0 && pthread_attr_setstack(&attributes, stack, sizeof stack) == 0, "no stack");
    must(pthread_create(&thread, &attributes, run, &call) == 0 && pthread_join(thread, NULL) == 0, "no thread");
    must(refusal == 0, "a call refuses");
    while (k < sizeof stack && stack[k] == PAINT) k++;
    return (size_t)(top - (stack + k));
}

/* A ring over all nodes, and arcs at random; the ring's arcs can have a minimum. */
static void make_table(void) {
    uint32_t state = 2026;
    for (uint32_t k = 0; k < ARCS; k++) {
        uint32_t row[3];
        state = state * 1664525u + 1013904223u;
        tails[k] = k < NODES ? k + 1 : 1 + (state >> 8) % NODES;
        state = state * 1664525u + 1013904223u;
        heads[k] = k < NODES ? (k + 1) % NODES + 1 : 1 + (tails[k] + (state >> 8) % (NODES - 1)) % NODES;
        capacities[k] = 1 + (state >> 16) % 900;
        some[k] = k < NODES;
        row[0] = tails[k], row[1] = heads[k], row[2] = capacities[k];
        memcpy(arc_bytes + 12 * k, row, sizeof row);
    }
}

int main(void) {
    static const struct {
        const char *name;
        void (*call)(void);
    } calls[] = {{"solve", solve},
                 {"read_place", read_place},
                 {"write_solution", write_solution},
                 {"read_solution", read_solution},
                 {"check_plan", check_plan},
                 {"open", open_arc},
                 {"list_chains", list_chains},
                 {"has_room_for", has_room_for},
                 {"find_openings", find_openings},
                 {"shorter", shorter},
                 {"reduce", reduce},
                 {"solve_month", solve_month},
                 {"solve, with minimums", solve_with_minimums},
                 {"server_solve", server_solve},
                 {"server_place", server_place}};
    make_table();
    for (size_t k = 0; k < sizeof calls / sizeof calls[0]; k++)
        printf("%-20s %7zu bytes of stack\n", calls[k].name, touched(calls[k].call));
    return 0;
}
