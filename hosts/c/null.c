/* NULL with length 0 is an empty slice: each slice parameter of each export in turn, on map B of document 01, and what the call must tell. */
#include "calls.h"

#include <inttypes.h>
#include <stddef.h>
#include <stdio.h>
#include <string.h>

static const uint16_t fields[] = {
    /* inputs and outputs of steps 0 to 6 */
    0, 1, 1, 2, 1, 0, 1, 0, 0, 1, 1, 1, 1, 0,
    /* links: from step, output, to step, input */
    0, 0, 1, 0, 1, 0, 2, 0, 1, 1, 3, 0, 4, 0, 5, 0, 5, 0, 6, 0,
    /* trailer: 4 N + 8 L, N, 8 L, L, and PGT1 */
    68, 7, 40, 5, 0x4750, 0x3154};

static uint8_t map[sizeof fields], prepared[2 * VARDDOHAS_LARGEST_AREA], area[sizeof prepared], list[4], record[6], buffer[24];

#define OF(slice) offsetof(struct call, slice)

/* The parameter that is NULL, how many records are said to be there, and what is told then. */
static const struct row {
    enum exported which;
    size_t parameter, many;
    uint64_t result, first, number, place;
} rows[] = {
    {PREPARE, OF(map), 0, VARDDOHAS_REFUSED, 0, 1, 0},
    {PREPARE, OF(area), 0, VARDDOHAS_REFUSED, 0, 3, 0},
    {LINE, OF(map), 0, VARDDOHAS_REFUSED, 0, 1, 0},
    {LINE, OF(area), 0, VARDDOHAS_REFUSED, 0, 3, 0},
    {LINE, OF(list), 0, VARDDOHAS_REFUSED, 0, 8, 0},
    {LINE_PORTS, OF(map), 0, VARDDOHAS_REFUSED, 0, 1, 0},
    {LINE_PORTS, OF(area), 0, VARDDOHAS_REFUSED, 0, 3, 0},
    {LINE_PORTS, OF(list), 0, VARDDOHAS_REFUSED, 0, 8, 0},
    {LINE_PORTS, OF(inputs), 0, VARDDOHAS_YES, 0, 0, 0},
    {LINE_PORTS, OF(outputs), 0, VARDDOHAS_YES, 0, 0, 0},
    {TOPO, OF(map), 0, VARDDOHAS_REFUSED, 0, 1, 0},
    {TOPO, OF(area), 0, VARDDOHAS_REFUSED, 0, 3, 0},
    {TOPO, OF(list), 0, VARDDOHAS_YES, 0, 0, 0},
    {TOPO_PORTS, OF(map), 0, VARDDOHAS_REFUSED, 0, 1, 0},
    {TOPO_PORTS, OF(area), 0, VARDDOHAS_REFUSED, 0, 3, 0},
    {TOPO_PORTS, OF(list), 0, VARDDOHAS_NO, 0, 0, 0},
    {TOPO_PORTS, OF(inputs), 0, VARDDOHAS_YES, 0, 0, 0},
    {TOPO_PORTS, OF(outputs), 0, VARDDOHAS_YES, 0, 0, 0},
    {INTERVALS, OF(map), 0, VARDDOHAS_REFUSED, 0, 1, 0},
    {INTERVALS, OF(area), 0, VARDDOHAS_REFUSED, 0, 3, 0},
    {INTERVALS, OF(list), 0, VARDDOHAS_ANSWER, 0, 0, 0},
    {INTERVALS, OF(buffer), 0, VARDDOHAS_REFUSED, 0, 11, 2},
    {BY_INTERVALS, OF(map), 1, VARDDOHAS_REFUSED, 0, 1, 0},
    {BY_INTERVALS, OF(area), 1, VARDDOHAS_REFUSED, 0, 3, 0},
    {BY_INTERVALS, OF(list), 1, VARDDOHAS_REFUSED, 0, 12, 0},
    {BY_INTERVALS, OF(list), 0, VARDDOHAS_REFUSED, 0, 8, 0},
    {EXTEND, OF(map), 1, VARDDOHAS_REFUSED, 0, 1, 0},
    {EXTEND, OF(area), 1, VARDDOHAS_REFUSED, 0, 3, 0},
    {EXTEND, OF(list), 1, VARDDOHAS_REFUSED, 0, 12, 0},
    {EXTEND, OF(list), 0, VARDDOHAS_REFUSED, 0, 11, 1},
    {NODES, OF(map), 1, VARDDOHAS_REFUSED, 0, 1, 0},
    {NODES, OF(area), 1, VARDDOHAS_REFUSED, 0, 3, 0},
    {NODES, OF(list), 1, VARDDOHAS_REFUSED, 0, 12, 0},
    {NODES, OF(list), 0, VARDDOHAS_ANSWER, 0, 0, 0},
    {NODES, OF(buffer), 1, VARDDOHAS_REFUSED, 0, 11, 1},
    {PORT, OF(map), 0, VARDDOHAS_REFUSED, 0, 1, 0},
    {PORT, OF(area), 0, VARDDOHAS_REFUSED, 0, 3, 0},
    {VIEW, OF(map), 0, VARDDOHAS_REFUSED, 0, 1, 0},
    {VIEW, OF(area), 0, VARDDOHAS_REFUSED, 0, 3, 0},
    {PATH, OF(map), 0, VARDDOHAS_REFUSED, 0, 1, 0},
    {PATH, OF(area), 0, VARDDOHAS_REFUSED, 0, 3, 0},
    {PATH, OF(list), 0, VARDDOHAS_REFUSED, 0, 8, 0},
    {PATH, OF(buffer), 0, VARDDOHAS_REFUSED, 0, 11, 3},
};

/* The call of a row without its NULL: steps 0 and 1, for a path 0 and 3, or the record of step 0, input port 1 and output port 0, all known to map B. */
static struct call whole(const struct row *row) {
    static const uint16_t steps[] = {0, 1}, apart[] = {0, 3}, of_step_0[] = {0, 0, 0}, port_1[] = {1}, port_0[] = {0};
    static uint8_t inputs[2], outputs[2];
    int records = row->which == BY_INTERVALS || row->which == EXTEND || row->which == NODES;
    struct call call = {.which = row->which, .map = {map, sizeof map}, .area = {area, sizeof area}, .many = row->many};
    call.list = records ? put_words(record, of_step_0, 3) : put_words(list, row->which == PATH ? apart : steps, 2);
    call.inputs = put_words(inputs, port_1, 1);
    call.outputs = put_words(outputs, port_0, 1);
    call.buffer.at = buffer;
    call.buffer.bytes = sizeof buffer;
    return call;
}

int main(void) {
    size_t many = sizeof rows / sizeof rows[0], wrong = 0;
    struct told told = {0, 0, 0, 0, 0};
    struct call first = {.which = PREPARE, .map = {map, sizeof map}, .area = {prepared, sizeof prepared}};
    put_words(map, fields, sizeof fields / sizeof fields[0]);
    make_call(&first, &told);
    if (told.result != VARDDOHAS_ANSWER) {
        printf("map refused %" PRIu64 " %" PRIu64 "\n", told.number, told.place);
        return 1;
    }
    for (size_t i = 0; i < many; i++) {
        const struct row *row = &rows[i];
        struct call call = whole(row);
        struct slice none = {NULL, 0};
        memcpy(area, prepared, sizeof area);
        memcpy((char *)&call + row->parameter, &none, sizeof none);
        memset(&told, 0, sizeof told);
        make_call(&call, &told);
        if (told.result != row->result || told.first != row->first || told.number != row->number || told.place != row->place) {
            printf("row %zu: told %" PRIu64 " %" PRIu64 " %" PRIu64 " %" PRIu64 "\n", i, told.result, told.first, told.number, told.place);
            wrong++;
        }
    }
    printf("NULL with length 0: %zu calls, %zu wrong\n", many, wrong);
    return wrong != 0;
}
