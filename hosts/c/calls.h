/* Every export behind one struct, for the programs that call all of them: which one, what is lent to it, and what it told. */
#ifndef VARDDOHAS_CALLS_H
#define VARDDOHAS_CALLS_H

#include "varddohas.h"

enum exported { PREPARE, LINE, LINE_PORTS, TOPO, TOPO_PORTS, INTERVALS, BY_INTERVALS, EXTEND, NODES, PORT, VIEW, PATH, EXPORTS };

struct slice {
    uint8_t *at;
    size_t bytes;
};

/* list: the records too; node: the port too. An export takes what its parameters have and passes over the rest. */
struct call {
    enum exported which;
    struct slice map, area, list, inputs, outputs, buffer;
    size_t many, node;
};

struct told {
    uint64_t result, first, second, number, place;
};

#define LENT(slice) (slice).at, (slice).bytes
#define REFUSAL &told->number, &told->place

static void make_call(const struct call *c, struct told *told) {
    switch (c->which) {
    case PREPARE:
        told->result = varddohas_prepare(LENT(c->map), LENT(c->area), &told->first, REFUSAL);
        break;
    case LINE:
        told->result = varddohas_line_is_node_convex(LENT(c->map), LENT(c->area), LENT(c->list), &told->first, REFUSAL);
        break;
    case LINE_PORTS:
        told->result = varddohas_line_is_convex(LENT(c->map), LENT(c->area), LENT(c->list), LENT(c->inputs), LENT(c->outputs), &told->first, REFUSAL);
        break;
    case TOPO:
        told->result = varddohas_topo_is_node_convex(LENT(c->map), LENT(c->area), LENT(c->list), REFUSAL);
        break;
    case TOPO_PORTS:
        told->result = varddohas_topo_is_convex(LENT(c->map), LENT(c->area), LENT(c->list), LENT(c->inputs), LENT(c->outputs), REFUSAL);
        break;
    case INTERVALS:
        told->result = varddohas_get_intervals_from_nodes(LENT(c->map), LENT(c->area), LENT(c->list), LENT(c->buffer), &told->first, REFUSAL);
        break;
    case BY_INTERVALS:
        told->result = varddohas_is_convex_by_intervals(LENT(c->map), LENT(c->area), LENT(c->list), c->many, &told->first, REFUSAL);
        break;
    case EXTEND:
        told->result = varddohas_try_extend_intervals(LENT(c->map), LENT(c->area), LENT(c->list), c->many, c->node, &told->first, REFUSAL);
        break;
    case NODES:
        told->result = varddohas_nodes_in_intervals(LENT(c->map), LENT(c->area), LENT(c->list), c->many, LENT(c->buffer), &told->first, REFUSAL);
        break;
    case PORT:
        told->result = varddohas_lines_at_port(LENT(c->map), LENT(c->area), c->node, &told->first, &told->second, REFUSAL);
        break;
    case VIEW:
        told->result = varddohas_view_lines_at_port(LENT(c->map), LENT(c->area), c->node, &told->first, &told->second, REFUSAL);
        break;
    case PATH:
        told->result = varddohas_show_path(LENT(c->map), LENT(c->area), LENT(c->list), LENT(c->buffer), &told->first, REFUSAL);
        break;
    case EXPORTS:
        break;
    }
}

/* A slice's 16-bit word, low byte first. */
static void put_word(uint8_t *bytes, size_t at, unsigned word) {
    bytes[2 * at] = (uint8_t)(word % 256);
    bytes[2 * at + 1] = (uint8_t)(word / 256);
}

static struct slice put_words(uint8_t *bytes, const uint16_t *words, size_t many) {
    struct slice slice = {bytes, 2 * many};
    for (size_t i = 0; i < many; i++)
        put_word(bytes, i, words[i]);
    return slice;
}

#endif
