/* The exported functions of the static library libvarddohas.a (crates/varddohas). Nothing but the tests of hosts/run compares this file with the Rattle
 * source: a change there is made here too.
 *
 * Every function returns on all input. A slice is a pointer and its length in bytes. 16-bit words cross as two bytes each, low byte first; an odd
 * last byte is neither read nor written. Where a slice is empty its pointer may be anything, NULL too; a pointer to a number must not be NULL. Slices
 * and numbers that are written must not overlap anything else that is passed.
 *
 * The result is the case: VARDDOHAS_ANSWER (or yes), VARDDOHAS_NO (no, not contiguous, not extendable or no path), VARDDOHAS_REFUSED. On a refusal `number` and
 * `place` are those of document 01's table, and the values stay as they were; else `number` and `place` stay as they were, and so do values that the
 * case does not have.
 *
 * Nothing is allocated, and nothing is kept between calls: a call works on what is lent to it and on the stack. The figure above each function,
 * VARDDOHAS_STACK_.., says how many bytes of stack its call needs at most, whatever is lent, beside what the caller uses itself; on a thread with less
 * it may run into the guard page. VARDDOHAS_STACK is enough for every call. hosts/run measures that the figures hold (stack.c). */
#ifndef VARDDOHAS_H
#define VARDDOHAS_H

#include <stddef.h>
#include <stdint.h>

#ifdef __cplusplus
extern "C" {
#endif

enum { VARDDOHAS_ANSWER = 1, VARDDOHAS_YES = 1, VARDDOHAS_NO = 2, VARDDOHAS_REFUSED = 3 };

/* The most words that an area needs; one of a map of N nodes, L links and P ports needs 7 + 10 N + 9 L + 2 P. */
enum { VARDDOHAS_LARGEST_AREA = 31751 };

/* The most stack that a call needs, in bytes. */
#define VARDDOHAS_STACK 163840

/* Preparing: lays the tables of a map into the area. lines: K. Refusals 1 to 6. */
#define VARDDOHAS_STACK_PREPARE 81920
uint64_t varddohas_prepare(const uint8_t *map, size_t map_bytes, uint8_t *area, size_t area_bytes,
                           uint64_t *lines, uint64_t *number, uint64_t *place);

/* Line check: may the listed steps run as one block? count: the steps that the walk counted, on a no too. Refusals 1 to 5, 7, 8, 9, 10. */
#define VARDDOHAS_STACK_LINE_IS_NODE_CONVEX 135168
uint64_t varddohas_line_is_node_convex(const uint8_t *map, size_t map_bytes, uint8_t *area, size_t area_bytes,
                                       const uint8_t *list, size_t list_bytes,
                                       uint64_t *count, uint64_t *number, uint64_t *place);

/* Line check with ports. Refusals 1 to 5, 7, 8, 9, 10, 14. */
#define VARDDOHAS_STACK_LINE_IS_CONVEX 135168
uint64_t varddohas_line_is_convex(const uint8_t *map, size_t map_bytes, uint8_t *area, size_t area_bytes,
                                  const uint8_t *list, size_t list_bytes, const uint8_t *inputs, size_t inputs_bytes,
                                  const uint8_t *outputs, size_t outputs_bytes,
                                  uint64_t *count, uint64_t *number, uint64_t *place);

/* Order check: the same question by the order, of the list as a set; no count. Refusals 1 to 5, 7, 9. */
#define VARDDOHAS_STACK_TOPO_IS_NODE_CONVEX 135168
uint64_t varddohas_topo_is_node_convex(const uint8_t *map, size_t map_bytes, uint8_t *area, size_t area_bytes,
                                       const uint8_t *list, size_t list_bytes, uint64_t *number, uint64_t *place);

/* Order check with ports. Refusals 1 to 5, 7, 9, 14. */
#define VARDDOHAS_STACK_TOPO_IS_CONVEX 135168
uint64_t varddohas_topo_is_convex(const uint8_t *map, size_t map_bytes, uint8_t *area, size_t area_bytes,
                                  const uint8_t *list, size_t list_bytes, const uint8_t *inputs, size_t inputs_bytes,
                                  const uint8_t *outputs, size_t outputs_bytes, uint64_t *number, uint64_t *place);

/* Intervals of a list, as records of three words (line, lowest, highest position). count: the records written. NO: not contiguous.
 * Refusals 1 to 5, 7, 9, 10, 11. */
#define VARDDOHAS_STACK_GET_INTERVALS_FROM_NODES 147456
uint64_t varddohas_get_intervals_from_nodes(const uint8_t *map, size_t map_bytes, uint8_t *area, size_t area_bytes,
                                            const uint8_t *list, size_t list_bytes, uint8_t *buffer, size_t buffer_bytes,
                                            uint64_t *count, uint64_t *number, uint64_t *place);

/* Check by records, of which `many` stand in the bytes. Refusals 1 to 5, 7, 8, 12, 13. */
#define VARDDOHAS_STACK_IS_CONVEX_BY_INTERVALS 147456
uint64_t varddohas_is_convex_by_intervals(const uint8_t *map, size_t map_bytes, uint8_t *area, size_t area_bytes,
                                          const uint8_t *records, size_t records_bytes, size_t many,
                                          uint64_t *count, uint64_t *number, uint64_t *place);

/* Extends `many` records by a node, in their own buffer. count: the records there are then. NO: not extendable. Refusals 1 to 5, 7, 9, 12, 13, 11. */
#define VARDDOHAS_STACK_TRY_EXTEND_INTERVALS 163840
uint64_t varddohas_try_extend_intervals(const uint8_t *map, size_t map_bytes, uint8_t *area, size_t area_bytes,
                                        uint8_t *records, size_t records_bytes, size_t many, size_t node,
                                        uint64_t *count, uint64_t *number, uint64_t *place);

/* Nodes in `many` records, by position, then number. count: the nodes written. Refusals 1 to 5, 7, 12, 13, 11. */
#define VARDDOHAS_STACK_NODES_IN_INTERVALS 155648
uint64_t varddohas_nodes_in_intervals(const uint8_t *map, size_t map_bytes, uint8_t *area, size_t area_bytes,
                                      const uint8_t *records, size_t records_bytes, size_t many, uint8_t *buffer, size_t buffer_bytes,
                                      uint64_t *count, uint64_t *number, uint64_t *place);

/* Lines at a port. first: the place of the first one in its node's list; count: how many. Refusals 1 to 5, 7, 14. */
#define VARDDOHAS_STACK_LINES_AT_PORT 135168
uint64_t varddohas_lines_at_port(const uint8_t *map, size_t map_bytes, uint8_t *area, size_t area_bytes, size_t port,
                                 uint64_t *first, uint64_t *count, uint64_t *number, uint64_t *place);

/* The lines at a port themselves, as a part of the area. offset: the word that it starts at; count: how many words. Nothing is written to the area.
 * Refusals 1 to 5, 7, 14. */
#define VARDDOHAS_STACK_VIEW_LINES_AT_PORT 135168
uint64_t varddohas_view_lines_at_port(const uint8_t *map, size_t map_bytes, const uint8_t *area, size_t area_bytes, size_t port,
                                      uint64_t *offset, uint64_t *count, uint64_t *number, uint64_t *place);

/* The path that a no shows: steps from the list, out of it and back into it, each linked to the next, as few as can be; of several as short, read from the end
 * backwards, the one with the smaller step at the first difference. As 16-bit words into the buffer. count: the steps written, both ends included. NO: no path,
 * exactly where the line check says yes; that needs no room. No step stands on a path twice, so a word for each node of the map is room enough. Refusals
 * 1 to 5, 7, 8, 9, 10, 11. */
#define VARDDOHAS_STACK_SHOW_PATH 135168
uint64_t varddohas_show_path(const uint8_t *map, size_t map_bytes, uint8_t *area, size_t area_bytes,
                             const uint8_t *list, size_t list_bytes, uint8_t *buffer, size_t buffer_bytes,
                             uint64_t *count, uint64_t *number, uint64_t *place);

#ifdef __cplusplus
}
#endif

#endif
