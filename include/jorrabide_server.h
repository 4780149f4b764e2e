/* Jorrabide's calls for a booking server, of the static library that `host/staticlib server` writes (x86-64): on numbers and byte rows, all
   numbers little-endian. docs/PROMISES.md says what each promises. Any numbers and rows are answered; rows that are written must not overlap
   another row.

   Arcs are 12 bytes each: tail, head and capacity, 32 bits each. Flows are 32 bits each, marks one byte. The number returned is 0, or a
   refusal's number times 2^32 plus its place; then no byte was written. */
#ifndef JORRABIDE_SERVER_H
#define JORRABIDE_SERVER_H

#include <stddef.h>
#include <stdint.h>

#ifdef __cplusplus
extern "C" {
#endif

/* Solves the table of n nodes, source s, sink t and arcs. For m arcs the flow row needs 4m bytes, the side row n, the result row 56: seven
   numbers of 64 bits, which are the stamp, the value, the scale D, the phases K, and the saturating pushes, nonsaturating pushes and relabels.
   Needs about 145 KB of stack. */
uint64_t jorrabide_server_solve(
    uint32_t n, uint32_t s, uint32_t t, uint32_t stamp,
    const uint8_t *arcs, size_t arcs_length,
    uint8_t *flow, size_t flow_length,
    uint8_t *side, size_t side_length,
    uint8_t *result, size_t result_length);

/* Reads an answer, its stamp, flow row and side row, at a place of the table that has this stamp now. The result row needs 24 bytes: three
   numbers of 64 bits, which are the flow, the capacity, and 1 where the arc crosses the cut, else 0. The place of STALE (9) and AHEAD (11) is
   the number of rebuilds between the table and the answer.
   Needs about 83 KB of stack. */
uint64_t jorrabide_server_place(
    uint32_t n, uint32_t s, uint32_t t, uint32_t stamp,
    const uint8_t *arcs, size_t arcs_length,
    uint32_t answer_stamp,
    const uint8_t *flow, size_t flow_length,
    const uint8_t *side, size_t side_length,
    uint32_t place,
    uint8_t *result, size_t result_length);

#ifdef __cplusplus
}
#endif

#endif
