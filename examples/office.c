/* The practice's office: reads table texts with the library, asks it one question and prints the answer. The script `desk` builds it and
   runs it.

   What is proved is the library: reading a text, and each call. This program only asks and prints, and is not proved; nor are names, which
   it looks up itself in the text's comments: a line `c node ID NAME` names a node, NAME to the line's end, and of two such lines for one
   node the first. A node without a name is printed as its number, as in `node 7`. */
#include <stdio.h>
#include <stdlib.h>
#include <string.h>

#include "jorrabide.h"

/* What reading a text returns, of the library desk_calls: a refusal's number and place and 0 elsewhere, or refusal 0 and the table's
   numbers. */
struct jorrabide_text {
    uint32_t refusal, place, n, m, s, t;
};
struct jorrabide_text jorrabide_read_text(
    const uint8_t *text, size_t text_length,
    uint32_t *tails, size_t tails_length,
    uint32_t *heads, size_t heads_length,
    uint32_t *capacities, size_t capacities_length,
    uint32_t *minimums, size_t minimums_length);

enum {
    NODES = 512,
    ARCS = 4096,
    DAYS = 31,
    WORK = 4 * NODES + 3 * ARCS + 1,
    LIST = ARCS * (3 + NODES),
    TEXT = 1048576 + 1, /* one byte more than a text may have, so that the library sees that it is too long */
    WRITTEN = ARCS * 20 + 20,
    REFUSED = 1,
    USAGE = 2
};

/* The arc rows have room for a month; a single table stands in their front. */
static uint32_t tails[DAYS * ARCS], heads[DAYS * ARCS], capacities[DAYS * ARCS], minimums[DAYS * ARCS], flow[DAYS * ARCS];
static uint32_t work[WORK], list[LIST], sources[NODES], sinks[NODES], places[ARCS], fewer[NODES];
static uint32_t small_tails[ARCS], small_heads[ARCS], small_capacities[ARCS], nodes_from[NODES], arcs_from[ARCS];
static uint8_t side[DAYS * NODES], text[TEXT], plan[TEXT], written[WRITTEN];
static uint64_t answers[9 * DAYS];
static struct jorrabide_text table;

/* Where a node's name stands in the text, from number 1. */
static struct {
    const uint8_t *start;
    size_t length;
} names[NODES + 1];

/* What every call on the table that was read begins with, with and without its stamp. */
#define TABLE_ROWS tails, table.m, heads, table.m, capacities, table.m, minimums, table.m
#define TABLE table.n, table.s, table.t, TABLE_ROWS
#define STAMPED_TABLE table.n, table.s, table.t, 0, TABLE_ROWS
#define ANSWER_ROWS flow, ARCS, side, NODES, work, WORK

/* The name of a refusal. */
static const char *refusal_name(uint64_t refusal) {
    static const char *const all[] = {
        "",          "NODES", "ROWS",  "ARCS", "ENDS",  "ROOM", "NODE",     "LOOP", "CAPACITY", "STALE",
        "UNORDERED", "AHEAD", "PLACE", "LINE", "COUNT", "LONG", "SOLUTION", "MANY", "STARTS",   "MINIMUM",
        "IMPOSSIBLE", "BOUNDED", "LOWER", "NOTMAX"};
    return refusal < sizeof all / sizeof *all ? all[refusal] : "UNKNOWN";
}

/* Prints a refusal as the desk does. */
static int refuse(uint32_t refusal, uint32_t place) {
    printf("refusal=%s\nplace=%u\n", refusal_name(refusal), place);
    return REFUSED;
}

/* Reads a file, or standard input for `-`, and returns how many bytes it has, at most one more than a text may have. */
static size_t read_file(const char *path, uint8_t *into) {
    FILE *file = strcmp(path, "-") == 0 ? stdin : fopen(path, "rb");
    size_t length = file == NULL ? 0 : fread(into, 1, TEXT, file);
    if (file == NULL || ferror(file)) {
        fprintf(stderr, "cannot read %s\n", path);
        exit(USAGE);
    }
    if (file != stdin) fclose(file);
    return length;
}

/* Skips blanks and tabs of a line. */
static const uint8_t *skip_blanks(const uint8_t *at, const uint8_t *end) {
    while (at < end && (*at == ' ' || *at == '\t')) at++;
    return at;
}

/* Keeps the name that a line `c node ID NAME` gives. Any other line gives none. */
static void read_name(const uint8_t *line, const uint8_t *end) {
    if (line == end || *line != 'c') return;
    const uint8_t *at = skip_blanks(line + 1, end);
    if (at == line + 1 || end - at < 5 || memcmp(at, "node", 4) != 0) return;
    const uint8_t *digits = skip_blanks(at + 4, end);
    if (digits == at + 4) return;
    uint32_t node = 0;
    for (at = digits; at < end && *at >= '0' && *at <= '9' && node <= NODES; at++) node = 10 * node + (*at - '0');
    const uint8_t *name = skip_blanks(at, end);
    while (end > name && (end[-1] == ' ' || end[-1] == '\t' || end[-1] == '\r')) end--;
    if (at == digits || name == at || name == end || node < 1 || node > NODES || names[node].start != NULL) return;
    names[node].start = name;
    names[node].length = (size_t)(end - name);
}

/* Keeps the names that a text's comments give. */
static void read_names(size_t length) {
    const uint8_t *line = text, *end = text + length;
    while (line < end) {
        const uint8_t *stop = memchr(line, '\n', (size_t)(end - line));
        if (stop == NULL) stop = end;
        read_name(line, stop);
        line = stop == end ? end : stop + 1;
    }
}

/* Reads the table and the names of a text. Returns 0, or prints the refusal. */
static int read_table(const char *path) {
    size_t length = read_file(path, text);
    table = jorrabide_read_text(text, length, tails, ARCS, heads, ARCS, capacities, ARCS, minimums, ARCS);
    if (table.refusal != 0) return refuse(table.refusal, table.place);
    read_names(length);
    return 0;
}

/* Prints a node's name, with ? for a byte that a terminal might obey. */
static void print_name(uint32_t node) {
    if (names[node].start == NULL) printf("node %u", node);
    for (size_t k = 0; k < names[node].length; k++) {
        uint8_t byte = names[node].start[k];
        putchar(byte < ' ' || byte == 127 ? '?' : byte);
    }
}

/* Prints a node's name and, because two chairs may have the same, its number. */
static void print_node(uint32_t node) {
    print_name(node);
    if (names[node].start != NULL) printf(" (%u)", node);
}

/* solution FILE: the solution text of the table's answer, and nothing else. */
static int show_solution(char **words) {
    if (read_table(words[0]) != 0) return REFUSED;
    struct jorrabide_answer answer = jorrabide_solve(STAMPED_TABLE, ANSWER_ROWS);
    if (answer.refusal != 0) return refuse(answer.refusal, answer.place);
    struct jorrabide_written made = jorrabide_write_solution(TABLE, (uint64_t)answer.value, flow, ARCS, written, WRITTEN);
    if (made.refusal != 0) return refuse(made.refusal, made.place);
    fwrite(written, 1, made.filled, stdout);
    return 0;
}

/* check PLAN FILE: whether another product's plan of the table is full. */
static int check_plan(char **words) {
    size_t length = read_file(words[0], plan);
    if (read_table(words[1]) != 0) return REFUSED;
    struct jorrabide_answer answer = jorrabide_solve(STAMPED_TABLE, ANSWER_ROWS);
    if (answer.refusal != 0) return refuse(answer.refusal, answer.place);
    struct jorrabide_checked checked = jorrabide_check_plan(TABLE, plan, length, side, NODES);
    if (checked.refusal != 0) return refuse(checked.refusal, checked.place);
    puts(checked.full ? "yes" : "no");
    return 0;
}

/* Prints a chain of so many places: the amount, what it is of, and behind a colon the way, without source and sink. */
static void print_chain(uint32_t amount, const uint32_t *chain, uint32_t count) {
    printf("%u ", amount);
    if (count == 1) {
        printf("straight to ");
        print_name(table.t);
    }
    for (uint32_t k = 0; k + 1 < count; k++) {
        if (k > 0) printf(k == 1 ? ": " : ", ");
        print_name(heads[chain[k]]);
    }
    putchar('\n');
}

/* Prints a ring of so many places. */
static void print_ring(uint32_t amount, const uint32_t *ring, uint32_t count) {
    printf("%u in a ring: ", amount);
    for (uint32_t k = 0; k < count; k++) {
        print_name(tails[ring[k]]);
        printf(", ");
    }
    printf("and back\n");
}

/* chains FILE: who sits where, a line for each chain or ring, then the total. */
static int show_chains(char **words) {
    if (read_table(words[0]) != 0) return REFUSED;
    struct jorrabide_listed listed = jorrabide_list_chains(STAMPED_TABLE, ANSWER_ROWS, list, LIST);
    if (listed.answer.refusal != 0) return refuse(listed.answer.refusal, listed.answer.place);
    uint32_t chains = 0, rings = 0;
    for (const uint32_t *piece = list; piece < list + listed.filled; piece += 3 + piece[2]) {
        if (piece[0] == 1) chains++, print_chain(piece[1], piece + 3, piece[2]);
        else rings++, print_ring(piece[1], piece + 3, piece[2]);
    }
    printf("total: %lld (chains: %u, rings: %u)\n", (long long)listed.answer.value, chains, rings);
    return 0;
}

/* room Q FILE: whether the table takes at least Q, and the steps that it took to say so. */
static int ask_room(char **words) {
    uint64_t q = 0;
    for (const char *at = words[0]; *at != '\0' || at == words[0]; at++) {
        uint64_t digit = (uint64_t)(*at - '0');
        if (*at < '0' || *at > '9' || q > (UINT64_MAX - digit) / 10) {
            fprintf(stderr, "not a number of quarter hours: %s\n", words[0]);
            return USAGE;
        }
        q = 10 * q + digit;
    }
    if (read_table(words[1]) != 0) return REFUSED;
    struct jorrabide_room room = jorrabide_has_room_for(STAMPED_TABLE, q, work, WORK);
    if (room.refusal != 0) return refuse(room.refusal, room.place);
    printf("%s\nvalue=%llu\n", room.yes ? "yes" : "no", (unsigned long long)room.value);
    printf("saturating=%llu\nnonsaturating=%llu\nrelabels=%llu\n", (unsigned long long)room.saturating,
           (unsigned long long)room.nonsaturating, (unsigned long long)room.relabels);
    return 0;
}

/* Prints how large both sides are, and who is on the shorter. */
static int print_sides(const struct jorrabide_openings *found) {
    printf("nodes that the source still reaches: %u; nodes that still reach the sink: %u\n", found->sources, found->sinks);
    struct jorrabide_part part = jorrabide_shorter(sources, NODES, sinks, NODES, found->sources, found->sinks, fewer, NODES);
    if (part.refusal != 0) return refuse(part.refusal, part.place);
    printf("the shorter list:");
    for (uint32_t k = 0; k < part.filled; k++) {
        printf(k == 0 ? " " : ", ");
        print_node(fewer[k]);
    }
    putchar('\n');
    return 0;
}

/* openings FILE: each place whose opening would help, or that none does by itself; then both sides. */
static int show_openings(char **words) {
    if (read_table(words[0]) != 0) return REFUSED;
    struct jorrabide_openings found = jorrabide_find_openings(STAMPED_TABLE, ANSWER_ROWS, sources, NODES, sinks, NODES, places, ARCS);
    if (found.answer.refusal != 0) return refuse(found.answer.refusal, found.answer.place);
    printf("%lld placed; ", (long long)found.answer.value);
    if (found.places == 0)
        puts("no place helps by itself:\n"
             "sets of full arcs lie one behind the other, so two places or more must open together (or arcs are missing)");
    else
        puts("one quarter hour more at any of these places places one more:");
    for (uint32_t k = 0; k < found.places; k++) {
        printf("place %u: ", places[k]);
        print_node(tails[places[k]]);
        printf(" to ");
        print_node(heads[places[k]]);
        printf(", now %u\n", capacities[places[k]]);
    }
    return print_sides(&found);
}

/* smaller FILE: how much of the table matters, and the value. */
static int show_smaller(char **words) {
    if (read_table(words[0]) != 0) return REFUSED;
    struct jorrabide_reduced small = jorrabide_reduce(
        STAMPED_TABLE, ANSWER_ROWS, small_tails, ARCS, small_heads, ARCS, small_capacities, ARCS, nodes_from, NODES, arcs_from, ARCS);
    if (small.answer.refusal != 0) return refuse(small.answer.refusal, small.answer.place);
    printf("nodes=%u of %u\narcs=%u of %u\nvalue=%lld\n", small.nodes, table.n, small.arcs, table.m, (long long)small.answer.value);
    return 0;
}

/* month FILE..: a line for each day, then the sums. */
static int show_month(char **words) {
    static uint32_t starts[DAYS + 1], nodes[DAYS + 1], from[DAYS + 1], to[DAYS + 1], stamps[DAYS + 1];
    static struct jorrabide_text days[DAYS];
    uint32_t count = 0, end = 0, refused = 0;
    while (words[count] != NULL && count <= DAYS) count++;
    for (uint32_t day = 0; day < count && count <= DAYS; day++) {
        fprintf(stderr, "day %u of %u: reading %s\n", day + 1, count, words[day]);
        size_t length = read_file(words[day], text);
        days[day] = jorrabide_read_text(
            text, length, tails + end, ARCS, heads + end, ARCS, capacities + end, ARCS, minimums + end, ARCS);
        /* A text that is refused gives a day of no nodes, which solving refuses too. */
        starts[day] = end;
        nodes[day] = days[day].n;
        from[day] = days[day].s;
        to[day] = days[day].t;
        end += days[day].m;
    }
    fprintf(stderr, "solving\n");
    struct jorrabide_month month = jorrabide_solve_month(
        starts, count, nodes, count, from, count, to, count, stamps, count, tails, end, heads, end, capacities, end, minimums,
        end, flow, DAYS * ARCS, side, DAYS * NODES, work, WORK, answers, 9 * DAYS);
    if (month.refusal != 0) return refuse(month.refusal, month.place);
    for (uint32_t day = 0; day < count; day++) {
        uint64_t refusal = days[day].refusal != 0 ? days[day].refusal : answers[9 * day];
        uint64_t place = days[day].refusal != 0 ? days[day].place : answers[9 * day + 1];
        printf("day %u, %s: ", day + 1, words[day]);
        if (refusal == 0) printf("%llu placed\n", (unsigned long long)answers[9 * day + 3]);
        else refused++, printf("refusal=%s place=%llu\n", refusal_name(refusal), (unsigned long long)place);
    }
    printf("solved=%u\ntotal=%llu\nleast=%u\n", month.solved, (unsigned long long)month.total, month.day);
    return refused == 0 ? 0 : REFUSED;
}

/* Runs the command that the words name. */
int main(int count, char **words) {
    static const struct {
        const char *name, *rest;
        int least, most;
        int (*run)(char **);
    } commands[] = {
        {"solution", "FILE", 1, 1, show_solution}, {"check", "PLAN FILE", 2, 2, check_plan}, {"chains", "FILE", 1, 1, show_chains},
        {"room", "Q FILE", 2, 2, ask_room},        {"openings", "FILE", 1, 1, show_openings}, {"smaller", "FILE", 1, 1, show_smaller},
        {"month", "FILE..", 1, 1000000, show_month}};
    for (size_t k = 0; k < sizeof commands / sizeof *commands; k++)
        if (count >= 2 && strcmp(words[1], commands[k].name) == 0 && count - 2 >= commands[k].least && count - 2 <= commands[k].most) {
            int status = commands[k].run(words + 2);
            if (fflush(stdout) == 0 && !ferror(stdout)) return status;
            perror("standard output");
            return USAGE;
        }
    for (size_t k = 0; k < sizeof commands / sizeof *commands; k++) fprintf(stderr, "office %s %s\n", commands[k].name, commands[k].rest);
    return USAGE;
}
