/* The caller: takes calls from standard input, makes them through the static libraries by the headers that customers
   get, and writes on standard output what came back and every lent row. Numbers are 32 bits and little-endian; marks,
   texts and what is served are bytes.

   A call: its kind, n, s, t, the table's stamp, the answer's stamp, the place, its new capacity, a 64-bit number (its
   lower half first), the lengths of the rows, then the rows. Numbers that a call doesn't have are 0, rows that it
   doesn't have are empty. For arc records the first four rows have one length; the records are made of them here, and
   the rows of the records afterwards. The server's calls take their arcs from the row of the text, and write their
   result to the row out; solution texts are written to the row out. The filled lengths of two lists stand as the place
   and the capacity. A month's starts, n, s, t and stamps stand in the five lists.
   What is written: fourteen 64-bit numbers (the fields of what came back in their order, then 0), then the rows, then 1
   if nothing was written beside them. */
#include <stdint.h>
#include <stdlib.h>
#include <string.h>
#include <unistd.h>

#include "jorrabide.h"
#include "jorrabide_server.h"

enum {
    SOLVE = 1, SOLVE_RECORDS, READ_PLACE, READ_TEXT, SERVE, OPEN, SERVER_SOLVE, SERVER_PLACE, WRITE_SOLUTION,
    READ_SOLUTION, CHECK_PLAN, LIST_CHAINS, HAS_ROOM_FOR, FIND_OPENINGS, SHORTER, REDUCE,
    SOLVE_MONTH
};
enum {
    TAILS, HEADS, CAPACITIES, MINIMUMS, FLOW, SIDE, WORK, TEXT, OUT, FLOW_BYTES,
    FIRST, SECOND, THIRD, FOURTH, FIFTH, ANSWERS, ROWS
};
enum { KIND, NODES, SOURCE, SINK, STAMP, ANSWER_STAMP, PLACE, CAPACITY, LOWER_HALF, UPPER_HALF, LENGTHS };
enum { HEADER = LENGTHS + ROWS };
enum { NUMBERS = 14, FENCE = 64, FENCE_BYTE = 0xA5 };

/* An arc record, and the entry over a row of them, which is not one of the calls for C. */
struct arc {
    uint32_t tail, head, capacity, minimum;
};
struct jorrabide_answer solve_records(
    uint32_t n, uint32_t s, uint32_t t, uint32_t stamp, const struct arc *arcs, size_t,
    uint32_t *flow, size_t, uint8_t *side, size_t, uint32_t *work, size_t);

/* Reading a text into four arc rows, and serving one, which are not among the calls for C either. */
struct jorrabide_text {
    uint32_t refusal, place, n, m, s, t;
};
struct jorrabide_text jorrabide_read_text(
    const uint8_t *text, size_t, uint32_t *tails, size_t, uint32_t *heads, size_t, uint32_t *capacities, size_t,
    uint32_t *minimums, size_t);
size_t jorrabide_serve(const uint8_t *text, size_t, uint8_t *out, size_t);

/* A row as the calls take it: where it begins and its length. */
#define LENT_NUMBERS(row) numbers(row), (row).length
#define LENT_BYTES(row) bytes(row), (row).length

/* The arguments that most calls begin with: the table's numbers, and its four rows. */
#define TABLE_ENDS call[NODES], call[SOURCE], call[SINK]
#define TABLE_NUMBERS TABLE_ENDS, call[STAMP]
#define TABLE_ROWS                                                                        \
    LENT_NUMBERS(rows[TAILS]), LENT_NUMBERS(rows[HEADS]), LENT_NUMBERS(rows[CAPACITIES]), \
        LENT_NUMBERS(rows[MINIMUMS])

/* The rows that solving writes. */
#define SOLVING_ROWS LENT_NUMBERS(rows[FLOW]), LENT_BYTES(rows[SIDE]), LENT_NUMBERS(rows[WORK])

struct row {
    unsigned char *memory;
    size_t start;
    size_t bytes;
    size_t length;
};

/* Reads exactly this many bytes; 0 at the end of the input. */
static int read_all(void *to, size_t bytes) {
    unsigned char *at = to;
    while (bytes > 0) {
        ssize_t got = read(STDIN_FILENO, at, bytes);
        if (got <= 0) return 0;
        at += got;
        bytes -= (size_t)got;
    }
    return 1;
}

/* Writes exactly this many bytes. */
static void write_all(const void *from, size_t bytes) {
    const unsigned char *at = from;
    while (bytes > 0) {
        ssize_t put = write(STDOUT_FILENO, at, bytes);
        if (put <= 0) exit(1);
        at += put;
        bytes -= (size_t)put;
    }
}

/* A row in memory of its own, between two fences. Rows of bytes begin at an odd address. */
static struct row new_row(size_t length, size_t width) {
    size_t start = width == 1 ? FENCE + 1 : FENCE;
    struct row row = {malloc(start + length * width + FENCE), start, length * width, length};
    if (row.memory == NULL) exit(1);
    memset(row.memory, FENCE_BYTE, start + row.bytes + FENCE);
    return row;
}

/* Reads a row. */
static struct row read_row(size_t length, size_t width) {
    struct row row = new_row(length, width);
    if (!read_all(row.memory + row.start, row.bytes)) exit(1);
    return row;
}

/* The bytes of a row. */
static uint8_t *bytes(struct row row) { return row.memory + row.start; }

/* The numbers of a row. */
static uint32_t *numbers(struct row row) { return (uint32_t *)bytes(row); }

/* The 64-bit numbers of a row. */
static uint64_t *long_numbers(struct row row) { return (uint64_t *)bytes(row); }

/* How many bytes a place of a row takes. */
static size_t width(int row) {
    if (row == ANSWERS) return 8;
    return row == SIDE || row == TEXT || row == OUT || row == FLOW_BYTES ? 1 : 4;
}

/* 1 if both fences of a row are as they were. */
static int is_fenced(struct row row) {
    for (size_t k = 0; k < row.start; k++)
        if (row.memory[k] != FENCE_BYTE) return 0;
    for (size_t k = 0; k < FENCE; k++)
        if (row.memory[row.start + row.bytes + k] != FENCE_BYTE) return 0;
    return 1;
}

/* The call's 64-bit number. */
static uint64_t long_number(const uint32_t *call) { return ((uint64_t)call[UPPER_HALF] << 32) + call[LOWER_HALF]; }

/* An answer's nine numbers. */
static void put_answer(struct jorrabide_answer answer, uint64_t *result) {
    const uint64_t fields[9] = {answer.refusal, answer.place, answer.stamp, (uint64_t)answer.value, answer.scale,
                                answer.phases, answer.saturating, answer.nonsaturating, answer.relabels};
    memcpy(result, fields, sizeof fields);
}

/* Makes the call of solving. */
static void call_solve(const uint32_t *call, const struct row *rows, uint64_t *result) {
    put_answer(jorrabide_solve(TABLE_NUMBERS, TABLE_ROWS, SOLVING_ROWS), result);
}

/* Makes the call of solving a row of arc records. */
static void call_solve_records(const uint32_t *call, const struct row *rows, uint64_t *result) {
    size_t length = rows[TAILS].length;
    for (int k = HEADS; k <= MINIMUMS; k++)
        if (rows[k].length != length) exit(1);
    struct row row = new_row(length, sizeof(struct arc));
    struct arc *arcs = (struct arc *)numbers(row);
    for (size_t k = 0; k < length; k++)
        arcs[k] = (struct arc){numbers(rows[TAILS])[k], numbers(rows[HEADS])[k], numbers(rows[CAPACITIES])[k],
                               numbers(rows[MINIMUMS])[k]};
    put_answer(solve_records(TABLE_NUMBERS, arcs, length, SOLVING_ROWS), result);
    for (size_t k = 0; k < length; k++) {
        numbers(rows[TAILS])[k] = arcs[k].tail;
        numbers(rows[HEADS])[k] = arcs[k].head;
        numbers(rows[CAPACITIES])[k] = arcs[k].capacity;
        numbers(rows[MINIMUMS])[k] = arcs[k].minimum;
    }
    if (!is_fenced(row)) exit(1);
    free(row.memory);
}

/* Makes the call of reading by place. */
static void call_read_place(const uint32_t *call, const struct row *rows, uint64_t *result) {
    struct jorrabide_reading reading = jorrabide_read_place(
        TABLE_NUMBERS, TABLE_ROWS, call[ANSWER_STAMP], LENT_NUMBERS(rows[FLOW]), LENT_BYTES(rows[SIDE]), call[PLACE]);
    const uint64_t fields[5] = {reading.refusal, reading.place, reading.flow, reading.capacity, reading.crossing};
    memcpy(result, fields, sizeof fields);
}

/* Makes the call of reading a text. */
static void call_read_text(const struct row *rows, uint64_t *result) {
    struct jorrabide_text text = jorrabide_read_text(LENT_BYTES(rows[TEXT]), TABLE_ROWS);
    const uint64_t fields[6] = {text.refusal, text.place, text.n, text.m, text.s, text.t};
    memcpy(result, fields, sizeof fields);
}

/* Makes the call of serving a text. */
static void call_serve(const struct row *rows, uint64_t *result) {
    result[0] = jorrabide_serve(LENT_BYTES(rows[TEXT]), LENT_BYTES(rows[OUT]));
}

/* Makes the call of opening a place. */
static void call_open(const uint32_t *call, const struct row *rows, uint64_t *result) {
    put_answer(jorrabide_open(TABLE_NUMBERS, TABLE_ROWS, call[PLACE], call[CAPACITY], SOLVING_ROWS), result);
}

/* Makes the server's call of solving. */
static void call_server_solve(const uint32_t *call, const struct row *rows, uint64_t *result) {
    result[0] = jorrabide_server_solve(
        TABLE_NUMBERS, LENT_BYTES(rows[TEXT]), LENT_BYTES(rows[FLOW_BYTES]), LENT_BYTES(rows[SIDE]),
        LENT_BYTES(rows[OUT]));
}

/* Makes the server's call of reading by place. */
static void call_server_place(const uint32_t *call, const struct row *rows, uint64_t *result) {
    result[0] = jorrabide_server_place(
        TABLE_NUMBERS, LENT_BYTES(rows[TEXT]), call[ANSWER_STAMP], LENT_BYTES(rows[FLOW_BYTES]),
        LENT_BYTES(rows[SIDE]), call[PLACE], LENT_BYTES(rows[OUT]));
}

/* Makes the call of writing a solution text. */
static void call_write_solution(const uint32_t *call, const struct row *rows, uint64_t *result) {
    struct jorrabide_written written = jorrabide_write_solution(
        TABLE_ENDS, TABLE_ROWS, long_number(call), LENT_NUMBERS(rows[FLOW]), LENT_BYTES(rows[OUT]));
    const uint64_t fields[3] = {written.refusal, written.place, written.filled};
    memcpy(result, fields, sizeof fields);
}

/* Makes the call of reading a solution text back. */
static void call_read_solution(const uint32_t *call, const struct row *rows, uint64_t *result) {
    struct jorrabide_read_back read = jorrabide_read_solution(
        TABLE_ENDS, TABLE_ROWS, LENT_BYTES(rows[TEXT]), LENT_NUMBERS(rows[FLOW]));
    const uint64_t fields[3] = {read.refusal, read.place, read.value};
    memcpy(result, fields, sizeof fields);
}

/* Makes the call of checking a plan. */
static void call_check_plan(const uint32_t *call, const struct row *rows, uint64_t *result) {
    struct jorrabide_checked checked = jorrabide_check_plan(
        TABLE_ENDS, TABLE_ROWS, LENT_BYTES(rows[TEXT]), LENT_BYTES(rows[SIDE]));
    const uint64_t fields[3] = {checked.refusal, checked.place, checked.full};
    memcpy(result, fields, sizeof fields);
}

/* Makes the call of listing chains. */
static void call_list_chains(const uint32_t *call, const struct row *rows, uint64_t *result) {
    struct jorrabide_listed listed = jorrabide_list_chains(
        TABLE_NUMBERS, TABLE_ROWS, SOLVING_ROWS, LENT_NUMBERS(rows[FIRST]));
    put_answer(listed.answer, result);
    result[9] = listed.filled;
}

/* Makes the call of asking whether there is room. */
static void call_has_room_for(const uint32_t *call, const struct row *rows, uint64_t *result) {
    struct jorrabide_room room =
        jorrabide_has_room_for(TABLE_NUMBERS, TABLE_ROWS, long_number(call), LENT_NUMBERS(rows[WORK]));
    const uint64_t fields[10] = {room.refusal, room.place, room.stamp, room.yes, room.value, room.scale,
                                 room.phases, room.saturating, room.nonsaturating, room.relabels};
    memcpy(result, fields, sizeof fields);
}

/* Makes the call of finding which openings would help. */
static void call_find_openings(const uint32_t *call, const struct row *rows, uint64_t *result) {
    struct jorrabide_openings found = jorrabide_find_openings(
        TABLE_NUMBERS, TABLE_ROWS, SOLVING_ROWS, LENT_NUMBERS(rows[FIRST]), LENT_NUMBERS(rows[SECOND]),
        LENT_NUMBERS(rows[THIRD]));
    put_answer(found.answer, result);
    const uint64_t filled[3] = {found.sources, found.sinks, found.places};
    memcpy(result + 9, filled, sizeof filled);
}

/* Makes the call of handing back the filled part of the shorter list. */
static void call_shorter(const uint32_t *call, const struct row *rows, uint64_t *result) {
    struct jorrabide_part part = jorrabide_shorter(
        LENT_NUMBERS(rows[FIRST]), LENT_NUMBERS(rows[SECOND]), call[PLACE], call[CAPACITY], LENT_NUMBERS(rows[THIRD]));
    const uint64_t fields[3] = {part.refusal, part.place, part.filled};
    memcpy(result, fields, sizeof fields);
}

/* Makes the call of making a table smaller. */
static void call_reduce(const uint32_t *call, const struct row *rows, uint64_t *result) {
    struct jorrabide_reduced reduced = jorrabide_reduce(
        TABLE_NUMBERS, TABLE_ROWS, SOLVING_ROWS, LENT_NUMBERS(rows[FIRST]), LENT_NUMBERS(rows[SECOND]),
        LENT_NUMBERS(rows[THIRD]), LENT_NUMBERS(rows[FOURTH]), LENT_NUMBERS(rows[FIFTH]));
    put_answer(reduced.answer, result);
    const uint64_t sizes[5] = {reduced.nodes, reduced.arcs, reduced.source, reduced.sink, reduced.stamp};
    memcpy(result + 9, sizes, sizeof sizes);
}

/* Makes the call of solving a month. */
static void call_solve_month(const struct row *rows, uint64_t *result) {
    struct jorrabide_month month = jorrabide_solve_month(
        LENT_NUMBERS(rows[FIRST]), LENT_NUMBERS(rows[SECOND]), LENT_NUMBERS(rows[THIRD]), LENT_NUMBERS(rows[FOURTH]),
        LENT_NUMBERS(rows[FIFTH]), TABLE_ROWS, SOLVING_ROWS, long_numbers(rows[ANSWERS]), rows[ANSWERS].length);
    const uint64_t fields[5] = {month.refusal, month.place, month.solved, month.total, month.day};
    memcpy(result, fields, sizeof fields);
}

int main(void) {
    uint32_t call[HEADER];
    while (read_all(call, sizeof call)) {
        struct row rows[ROWS];
        for (int k = 0; k < ROWS; k++) rows[k] = read_row(call[LENGTHS + k], width(k));
        uint64_t result[NUMBERS] = {0};
        switch (call[KIND]) {
            case SOLVE: call_solve(call, rows, result); break;
            case SOLVE_RECORDS: call_solve_records(call, rows, result); break;
            case READ_PLACE: call_read_place(call, rows, result); break;
            case READ_TEXT: call_read_text(rows, result); break;
            case SERVE: call_serve(rows, result); break;
            case OPEN: call_open(call, rows, result); break;
            case SERVER_SOLVE: call_server_solve(call, rows, result); break;
            case SERVER_PLACE: call_server_place(call, rows, result); break;
            case WRITE_SOLUTION: call_write_solution(call, rows, result); break;
            case READ_SOLUTION: call_read_solution(call, rows, result); break;
            case CHECK_PLAN: call_check_plan(call, rows, result); break;
            case LIST_CHAINS: call_list_chains(call, rows, result); break;
            case HAS_ROOM_FOR: call_has_room_for(call, rows, result); break;
            case FIND_OPENINGS: call_find_openings(call, rows, result); break;
            case SHORTER: call_shorter(call, rows, result); break;
            case REDUCE: call_reduce(call, rows, result); break;
            case SOLVE_MONTH: call_solve_month(rows, result); break;
            default: return 1;
        }
        write_all(result, sizeof result);
        uint32_t fenced = 1;
        for (int k = 0; k < ROWS; k++) {
            write_all(bytes(rows[k]), rows[k].bytes);
            if (!is_fenced(rows[k])) fenced = 0;
            free(rows[k].memory);
        }
        write_all(&fenced, sizeof fenced);
    }
    return 0;
}
