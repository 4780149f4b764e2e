/* A small booking server: keeps one table and one answer, takes a request a line from standard input, and answers each with a line.

       table N S T               begins a table of N nodes, source S and sink T, without arcs
       arc TAIL HEAD CAPACITY    adds an arc at the next place
       change PLACE CAPACITY     gives the arc at a place another capacity
       solve                     solves the table and keeps the answer
       place PLACE               reads the kept answer at a place of the table as it is now

   A request is its word and its numbers, one blank before each, to the line's end; a line ends in LF or CR LF, the last one may end without.
   A number is of digits only, at most 4,294,967,295. Any other line is answered by a word about it and changes nothing. Each change of the
   table raises its stamp by one, so that an answer of an earlier state is refused and says how old it is. Each answer is written out before
   the next line is read. The status is 0, or 2 if something could not be read or written. */
#include <inttypes.h>
#include <stdbool.h>
#include <stdio.h>
#include <string.h>

#include "jorrabide_server.h"

enum { NODES = 512, ARCS = 4096, LINE = 255 };

/* The table: its numbers, and its arcs as the call takes them. */
static uint32_t n, s, t, stamp;
static uint8_t arcs[12 * ARCS];
static size_t arcs_length;

/* The answer, once there is one: its stamp, flows and marks as the call leaves them. */
static bool is_solved;
static uint32_t answer_stamp;
static uint8_t flow[4 * ARCS], side[NODES];

/* Little-endian numbers in rows of bytes. */
static void put32(uint8_t *row, uint32_t x) {
    for (int k = 0; k < 4; k++) row[k] = (uint8_t)(x >> 8 * k);
}

static uint64_t get64(const uint8_t *row) {
    uint64_t x = 0;
    for (int k = 7; k >= 0; k--) x = x << 8 | row[k];
    return x;
}

/* Says what a refusal is. The place of STALE and AHEAD is the number of rebuilds between the table and the answer. */
static void refuse(uint64_t returned) {
    uint32_t refusal = (uint32_t)(returned >> 32), place = (uint32_t)returned;
    if (refusal == 9)
        printf("refusal 9, STALE: this answer is of %" PRIu32 " rebuilds ago\n", place);
    else if (refusal == 10)
        printf("refusal 10, UNORDERED: older or newer cannot be told\n");
    else if (refusal == 11)
        printf("refusal 11, AHEAD: the table is an old copy, %" PRIu32 " rebuilds behind\n", place);
    else
        printf("refusal %" PRIu32 " at %" PRIu32 "\n", refusal, place);
}

static void solve(void) {
    uint8_t result[56];
    uint64_t returned = jorrabide_server_solve(
        n, s, t, stamp, arcs, arcs_length, flow, sizeof flow, side, sizeof side, result, sizeof result);
    if (returned != 0) {
        refuse(returned);
        return;
    }
    is_solved = true;
    answer_stamp = (uint32_t)get64(result);
    printf("value %" PRIu64 ", stamp %" PRIu32 ", side", get64(result + 8), answer_stamp);
    for (uint32_t i = 0; i < n; i++)
        if (side[i] == 1) printf(" %" PRIu32, i + 1);
    printf("\n");
}

static void read_place(uint32_t place) {
    uint8_t result[24];
    if (!is_solved) {
        printf("no answer yet: solve first\n");
        return;
    }
    uint64_t returned = jorrabide_server_place(
        n, s, t, stamp, arcs, arcs_length, answer_stamp, flow, sizeof flow, side, sizeof side, place, result, sizeof result);
    if (returned != 0) {
        refuse(returned);
        return;
    }
    printf("flow %" PRIu64 " of %" PRIu64 "%s\n", get64(result), get64(result + 8), get64(result + 16) ? ", crosses the cut" : "");
}

/* Reads a number of digits only, to a blank or the end, and moves on behind it. */
static bool read_number(const char **at, uint32_t *number) {
    uint64_t x = 0;
    const char *digit = *at;
    for (; *digit >= '0' && *digit <= '9'; digit++) {
        x = 10 * x + (uint64_t)(*digit - '0');
        if (x > UINT32_MAX) return false;
    }
    if (digit == *at || (*digit != ' ' && *digit != '\0')) return false;
    *at = digit;
    *number = (uint32_t)x;
    return true;
}

/* Whether a line is this word and so many numbers behind it, one blank before each, and nothing else; then the numbers. */
static bool is_request(const char *line, const char *word, int count, uint32_t *numbers) {
    size_t length = strlen(word);
    if (strncmp(line, word, length) != 0) return false;
    const char *at = line + length;
    for (int k = 0; k < count; k++)
        if (*at++ != ' ' || !read_number(&at, &numbers[k])) return false;
    return *at == '\0';
}

/* Adds an arc at the next place. */
static void add_arc(const uint32_t *arc) {
    for (int k = 0; k < 3; k++) put32(arcs + arcs_length + 4 * k, arc[k]);
    arcs_length += 12;
}

/* Answers a request. */
static void answer(const char *line) {
    uint32_t x[3];
    if (is_request(line, "solve", 0, x)) {
        solve();
        return;
    }
    if (is_request(line, "place", 1, x)) {
        read_place(x[0]);
        return;
    }
    if (is_request(line, "table", 3, x)) {
        n = x[0], s = x[1], t = x[2];
        arcs_length = 0;
    } else if (is_request(line, "arc", 3, x)) {
        if (arcs_length == sizeof arcs) {
            printf("no room for another arc: %d are all that a table may have\n", ARCS);
            return;
        }
        add_arc(x);
    } else if (is_request(line, "change", 2, x)) {
        if (x[0] >= arcs_length / 12) {
            printf("no arc at place %" PRIu32 "\n", x[0]);
            return;
        }
        put32(arcs + 12 * (size_t)x[0] + 8, x[1]);
    } else {
        printf("not a request: %s\n", line);
        return;
    }
    stamp++;
    printf("stamp %" PRIu32 "\n", stamp);
}

/* Reads a line without its LF or CR LF. A line that is too long is read to its end and cut; `length` says how long it was. */
static bool read_line(char *line, size_t *length) {
    int byte = getchar();
    if (byte == EOF) return false;
    for (*length = 0; byte != EOF && byte != '\n'; byte = getchar())
        if ((*length)++ < LINE) line[*length - 1] = (char)byte;
    if (*length > 0 && *length <= LINE && line[*length - 1] == '\r') --*length;
    line[*length < LINE ? *length : LINE] = '\0';
    return true;
}

int main(void) {
    char line[LINE + 1];
    size_t length;
    while (read_line(line, &length) && !ferror(stdin)) {
        if (length > LINE) printf("not a request: a line of %zu bytes\n", length);
        else if (strlen(line) != length) printf("not a request: a line with a zero byte\n");
        else answer(line);
        if (fflush(stdout) != 0) {
            perror("standard output");
            return 2;
        }
    }
    if (ferror(stdin)) {
        perror("standard input");
        return 2;
    }
    return 0;
}
