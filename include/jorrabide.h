/* Jorrabide's calls for C, of the static library that `host/staticlib calls` writes (x86-64).
   docs/PROMISES.md says what each promises. Any numbers and rows are answered; rows that are written must not overlap another row. */
#ifndef JORRABIDE_H
#define JORRABIDE_H

#include <stddef.h>
#include <stdint.h>

#ifdef __cplusplus
extern "C" {
#endif

/* What solving and opening return: a refusal's number and place and 0 elsewhere, or refusal 0 and the results. */
struct jorrabide_answer {
    uint32_t refusal;
    uint32_t place;
    uint32_t stamp;
    int64_t value;
    uint64_t scale;
    uint32_t phases;
    uint64_t saturating;
    uint64_t nonsaturating;
    uint64_t relabels;
};

/* What reading by place returns: a refusal's number and place and 0 elsewhere, or refusal 0 and what stands there. The place of STALE (9)
   and AHEAD (11) is the number of rebuilds between the table and the answer. */
struct jorrabide_reading {
    uint32_t refusal;
    uint32_t place;
    uint32_t flow;
    uint32_t capacity;
    uint32_t crossing;
};

/* Solves the table of n nodes, source s, sink t and four rows of arcs; a minimum is the least flow of its arc, 0 where there is none. The flow
   row needs as many numbers as there are arcs, the side row n marks, the work row 4n + 2m + 1 numbers. The value is what leaves the source less
   what enters it: minimums can force it below 0. With a minimum above 0 the scale, the phases and the counts are 0.
   Needs about 201 KB of stack. */
struct jorrabide_answer jorrabide_solve(
    uint32_t n, uint32_t s, uint32_t t, uint32_t stamp,
    const uint32_t *tails, size_t tails_length,
    const uint32_t *heads, size_t heads_length,
    const uint32_t *capacities, size_t capacities_length,
    const uint32_t *minimums, size_t minimums_length,
    uint32_t *flow, size_t flow_length,
    uint8_t *side, size_t side_length,
    uint32_t *work, size_t work_length);

/* Reads an answer, its stamp, flow row and side row, at a place of the table that has this stamp now.
   Needs about 2 KB of stack. */
struct jorrabide_reading jorrabide_read_place(
    uint32_t n, uint32_t s, uint32_t t, uint32_t stamp,
    const uint32_t *tails, size_t tails_length,
    const uint32_t *heads, size_t heads_length,
    const uint32_t *capacities, size_t capacities_length,
    const uint32_t *minimums, size_t minimums_length,
    uint32_t answer_stamp,
    const uint32_t *flow, size_t flow_length,
    const uint8_t *side, size_t side_length,
    uint32_t place);

/* Opens the arc at a place of the table to a new capacity, not below the old: goes on from the flow row, which must hold a maximum flow
   of the table, and fills flow and side row as for the new table. The stamp comes back raised by one, with 0 for the scale, the phases and the
   counts. The capacities are not written: put the new one in its place yourself, and give the table the new stamp. Rows as for solving; no minimum may be above 0.
   Needs about 85 KB of stack. */
struct jorrabide_answer jorrabide_open(
    uint32_t n, uint32_t s, uint32_t t, uint32_t stamp,
    const uint32_t *tails, size_t tails_length,
    const uint32_t *heads, size_t heads_length,
    const uint32_t *capacities, size_t capacities_length,
    const uint32_t *minimums, size_t minimums_length,
    uint32_t place, uint32_t capacity,
    uint32_t *flow, size_t flow_length,
    uint8_t *side, size_t side_length,
    uint32_t *work, size_t work_length);

/* What writing a solution returns: a refusal's number and place and 0, or refusal 0 and how many bytes were filled. */
struct jorrabide_written {
    uint32_t refusal;
    uint32_t place;
    size_t filled;
};

/* What reading a solution back returns: a refusal's number and place and 0, or refusal 0 and the value. */
struct jorrabide_read_back {
    uint32_t refusal;
    uint32_t place;
    uint64_t value;
};

/* Writes the solution text of a value and a flow row: `s VALUE`, then `f TAIL HEAD FLOW` for each arc by place, each line ended by LF, to the
   front of the text row; the bytes after it stay. The text row must have room for this very text: 73,741 bytes hold that of any flow within
   the capacities. A minimum above 0 is BOUNDED (21). SOLUTION (16) names the first flow above its capacity, or the number of arcs for a value
   above 4,096,000,000. The value is not compared with the flows.
   Needs about 2 KB of stack. */
struct jorrabide_written jorrabide_write_solution(
    uint32_t n, uint32_t s, uint32_t t,
    const uint32_t *tails, size_t tails_length,
    const uint32_t *heads, size_t heads_length,
    const uint32_t *capacities, size_t capacities_length,
    const uint32_t *minimums, size_t minimums_length,
    uint64_t value,
    const uint32_t *flow, size_t flow_length,
    uint8_t *text, size_t text_length);

/* Reads such a text back against its table, byte for byte, and fills the flow row's first places, one for each arc. SOLUTION (16) names the
   first line, from 1, that no solution text of the table has there: one past the last if lines are missing, the last if its LF is. A text
   above 1,048,576 bytes is LONG (15).
   Needs about 20 KB of stack. */
struct jorrabide_read_back jorrabide_read_solution(
    uint32_t n, uint32_t s, uint32_t t,
    const uint32_t *tails, size_t tails_length,
    const uint32_t *heads, size_t heads_length,
    const uint32_t *capacities, size_t capacities_length,
    const uint32_t *minimums, size_t minimums_length,
    const uint8_t *text, size_t text_length,
    uint32_t *flow, size_t flow_length);

/* What checking a plan returns: a refusal's number and place and 0, or refusal 0 and 1 where the plan is full, else 0. */
struct jorrabide_checked {
    uint32_t refusal;
    uint32_t place;
    uint32_t full;
};

/* Checks another product's plan: its solution text, whose `f` lines may come in any order and are summed by ordered pair, and a side row of n
   marks. `full` is 1 exactly where the sums can be shared among the arcs of each pair within capacity as a flow, the net out of the source is
   the `s` line, the source is marked 1 and the sink is not, and the marked cut has that capacity; then no flow of the table is larger. SOLUTION
   (16) names the first line, from 1, that is not of its form, or one past the last if there is no `s` line. It writes nothing.
   Needs about 58 KB of stack. */
struct jorrabide_checked jorrabide_check_plan(
    uint32_t n, uint32_t s, uint32_t t,
    const uint32_t *tails, size_t tails_length,
    const uint32_t *heads, size_t heads_length,
    const uint32_t *capacities, size_t capacities_length,
    const uint32_t *minimums, size_t minimums_length,
    const uint8_t *text, size_t text_length,
    const uint8_t *side, size_t side_length);

/* What listing chains returns: what solving returns, and how many numbers of the list were filled, 0 on a refusal. */
struct jorrabide_listed {
    struct jorrabide_answer answer;
    uint32_t filled;
};

/* Solves the table and lists its chains from source to sink, and its rings: for each 1 for a chain or 2 for a ring, its amount, how many places
   it has, and these as walked. m (3 + n) numbers are always enough for the list; ROOM (5) where it is longer than its row, with nothing written.
   Minimums must be 0 (BOUNDED, 21). Other rows as for solving.
   Needs about 99 KB of stack. */
struct jorrabide_listed jorrabide_list_chains(
    uint32_t n, uint32_t s, uint32_t t, uint32_t stamp,
    const uint32_t *tails, size_t tails_length,
    const uint32_t *heads, size_t heads_length,
    const uint32_t *capacities, size_t capacities_length,
    const uint32_t *minimums, size_t minimums_length,
    uint32_t *flow, size_t flow_length,
    uint8_t *side, size_t side_length,
    uint32_t *work, size_t work_length,
    uint32_t *list, size_t list_length);

/* What a question for room returns: a refusal's number and place and 0 elsewhere, or refusal 0, 1 for yes or 0 for no, and the results of
   the run that stopped: the net flow into the sink at the stop and the steps taken, with the scale and the phases of the whole run. */
struct jorrabide_room {
    uint32_t refusal;
    uint32_t place;
    uint32_t stamp;
    uint32_t yes;
    uint64_t value;
    uint64_t scale;
    uint32_t phases;
    uint64_t saturating;
    uint64_t nonsaturating;
    uint64_t relabels;
};

/* Says whether the table has room for at least q: yes exactly where solving it would give a value of at least q, 0 included. The run stops as
   soon as q is reached, so a yes comes sooner than a solved table; no flow and no side come back. The minimums must all be 0, else the answer is
   BOUNDED (21). The work row needs 4n + 3m + 1 numbers here, which are 0 afterwards.
   Needs about 54 KB of stack. */
struct jorrabide_room jorrabide_has_room_for(
    uint32_t n, uint32_t s, uint32_t t, uint32_t stamp,
    const uint32_t *tails, size_t tails_length,
    const uint32_t *heads, size_t heads_length,
    const uint32_t *capacities, size_t capacities_length,
    const uint32_t *minimums, size_t minimums_length,
    uint64_t q,
    uint32_t *work, size_t work_length);

/* What finding the openings returns: solving's answer, and how many numbers of each list were filled, 0 with a refusal. */
struct jorrabide_openings {
    struct jorrabide_answer answer;
    uint32_t sources;
    uint32_t sinks;
    uint32_t places;
};

/* What handing back the shorter list returns: a refusal's number and place, or refusal 0 and how many numbers were copied. */
struct jorrabide_part {
    uint32_t refusal;
    uint32_t place;
    uint32_t filled;
};

/* Solves the table, whose minimums must all be 0, and lists, rising, the nodes on the source side, the nodes that reach the sink, and the
   places of the arcs that would help: raised by one unit, each by itself raises the value by one, and no other arc does. Where no place is
   listed, full arcs lie one behind the other, and two or more have to open together. A list that can't hold its numbers is ROOM (5), and
   nothing is written; n numbers are enough for each list of nodes, and as many as there are arcs for the places. Other rows as for solving.
   Needs about 101 KB of stack. */
struct jorrabide_openings jorrabide_find_openings(
    uint32_t n, uint32_t s, uint32_t t, uint32_t stamp,
    const uint32_t *tails, size_t tails_length,
    const uint32_t *heads, size_t heads_length,
    const uint32_t *capacities, size_t capacities_length,
    const uint32_t *minimums, size_t minimums_length,
    uint32_t *flow, size_t flow_length,
    uint8_t *side, size_t side_length,
    uint32_t *work, size_t work_length,
    uint32_t *sources, size_t sources_length,
    uint32_t *sinks, size_t sinks_length,
    uint32_t *places, size_t places_length);

/* Of two lists with their filled lengths copies the filled part of the shorter one to the front of the row `part`, that of the first if
   equal, and nothing if a filled length passes its list. ROOM (5), with nothing written, if it does not fit.
   Needs about 2 KB of stack. */
struct jorrabide_part jorrabide_shorter(
    const uint32_t *first, size_t first_length,
    const uint32_t *second, size_t second_length,
    uint32_t in_first, uint32_t in_second,
    uint32_t *part, size_t part_length);

/* What reducing returns: solving's answer of the smaller table under the old stamp; and the smaller table's nodes, arcs, source, sink and
   stamp, which is the old one raised by one. All 0 but number and place with a refusal. */
struct jorrabide_reduced {
    struct jorrabide_answer answer;
    uint32_t nodes;
    uint32_t arcs;
    uint32_t source;
    uint32_t sink;
    uint32_t stamp;
};

/* Throws out what can't matter: the arcs of capacity 0, and the nodes that the source does not reach, or that don't reach the sink, over the
   others. Writes the smaller table to the front of three rows, and to two more where each of its nodes (a number from 1) and arcs (a place
   from 0) came from; solves it, and puts its flow back, 0 elsewhere: a maximum flow of the old table, whose side is marked in the side row.
   The minimums must all be 0. The rows of the smaller table and of its arcs' origins need as many numbers as there are arcs, that of its
   nodes' origins n. Other rows as for solving.
   Needs about 161 KB of stack. */
struct jorrabide_reduced jorrabide_reduce(
    uint32_t n, uint32_t s, uint32_t t, uint32_t stamp,
    const uint32_t *tails, size_t tails_length,
    const uint32_t *heads, size_t heads_length,
    const uint32_t *capacities, size_t capacities_length,
    const uint32_t *minimums, size_t minimums_length,
    uint32_t *flow, size_t flow_length,
    uint8_t *side, size_t side_length,
    uint32_t *work, size_t work_length,
    uint32_t *small_tails, size_t small_tails_length,
    uint32_t *small_heads, size_t small_heads_length,
    uint32_t *small_capacities, size_t small_capacities_length,
    uint32_t *nodes_from, size_t nodes_from_length,
    uint32_t *arcs_from, size_t arcs_from_length);

/* What solving a month returns: a refusal of the whole call, its number and place and 0 elsewhere, or refusal 0 with the tables solved, their
   total value, and the first solved day of least value, counted from 1; 0 if none is solved. */
struct jorrabide_month {
    uint32_t refusal;
    uint32_t place;
    uint32_t solved;
    uint64_t total;
    uint32_t day;
};

/* Solves up to 31 day tables whose arcs are joined in shared rows, each as if given by itself. Day j, counted from 0, has the arcs from starts[j]
   up to where the next day starts, or the rows' end, with nodes[j], sources[j], sinks[j] and stamps[j]; a minimum above 0 is BOUNDED (21) for that
   day. Its flows stand in its arcs' places, its marks from 512 j, and nine numbers from 9 j of the answer row: the refusal or 0, the place within the
   day, the stamp, the value, the scale, the phases, the saturating pushes, nonsaturating pushes and relabels. For m arcs and k days the flow row needs
   m numbers, the side row 512 k marks, the answer row 9 k numbers; the work row 4n + 2m + 1 for the largest day, and a day that needs more is refused
   by itself (ROOM). A refused day leaves its flows and marks as they were.
   Needs about 41 KB of stack. */
struct jorrabide_month jorrabide_solve_month(
    const uint32_t *starts, size_t starts_length,
    const uint32_t *nodes, size_t nodes_length,
    const uint32_t *sources, size_t sources_length,
    const uint32_t *sinks, size_t sinks_length,
    const uint32_t *stamps, size_t stamps_length,
    const uint32_t *tails, size_t tails_length,
    const uint32_t *heads, size_t heads_length,
    const uint32_t *capacities, size_t capacities_length,
    const uint32_t *minimums, size_t minimums_length,
    uint32_t *flow, size_t flow_length,
    uint8_t *side, size_t side_length,
    uint32_t *work, size_t work_length,
    uint64_t *answers, size_t answers_length);

#ifdef __cplusplus
}
#endif

#endif
