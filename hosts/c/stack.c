/* How much stack a call needs. Every export is called on a thread whose stack is painted beforehand, and what is no longer painted is counted: on a
 * small map and on a large one, with every answer and every refusal that the header names. To that comes what the loader needs to bind memset or its
 * like, where a call is the first to reach it. It prints a table, and fails when that is more than the header promises, when a promise is far above
 * it, or when other answers or refusals were met than the header names. */
#define _GNU_SOURCE
#include "calls.h"

#include <pthread.h>
#include <stdio.h>
#include <stdlib.h>
#include <string.h>

enum { STACK = 256 * 1024, PAINT = 0xa5, SLACK = 16 * 1024 };

#define R(number) (1u << (number))
#define OPENING (R(1) | R(2) | R(3) | R(4) | R(5))

/* What the header says of each export: the promise, whether it has a no, and its refusals, one bit each. */
static const struct promise {
    const char *name;
    size_t stack;
    int no;
    unsigned refusals;
} promises[EXPORTS] = {
    [PREPARE] = {"prepare", VARDDOHAS_STACK_PREPARE, 0, OPENING | R(6)},
    [LINE] = {"line_is_node_convex", VARDDOHAS_STACK_LINE_IS_NODE_CONVEX, 1, OPENING | R(7) | R(8) | R(9) | R(10)},
    [LINE_PORTS] = {"line_is_convex", VARDDOHAS_STACK_LINE_IS_CONVEX, 1, OPENING | R(7) | R(8) | R(9) | R(10) | R(14)},
    [TOPO] = {"topo_is_node_convex", VARDDOHAS_STACK_TOPO_IS_NODE_CONVEX, 1, OPENING | R(7) | R(9)},
    [TOPO_PORTS] = {"topo_is_convex", VARDDOHAS_STACK_TOPO_IS_CONVEX, 1, OPENING | R(7) | R(9) | R(14)},
    [INTERVALS] = {"get_intervals_from_nodes", VARDDOHAS_STACK_GET_INTERVALS_FROM_NODES, 1, OPENING | R(7) | R(9) | R(10) | R(11)},
    [BY_INTERVALS] = {"is_convex_by_intervals", VARDDOHAS_STACK_IS_CONVEX_BY_INTERVALS, 1, OPENING | R(7) | R(8) | R(12) | R(13)},
    [EXTEND] = {"try_extend_intervals", VARDDOHAS_STACK_TRY_EXTEND_INTERVALS, 1, OPENING | R(7) | R(9) | R(11) | R(12) | R(13)},
    [NODES] = {"nodes_in_intervals", VARDDOHAS_STACK_NODES_IN_INTERVALS, 0, OPENING | R(7) | R(11) | R(12) | R(13)},
    [PORT] = {"lines_at_port", VARDDOHAS_STACK_LINES_AT_PORT, 0, OPENING | R(7) | R(14)},
    [VIEW] = {"view_lines_at_port", VARDDOHAS_STACK_VIEW_LINES_AT_PORT, 0, OPENING | R(7) | R(14)},
    [PATH] = {"show_path", VARDDOHAS_STACK_SHOW_PATH, 1, OPENING | R(7) | R(8) | R(9) | R(10) | R(11)},
};

/* The most that each export used, and the results and refusals that were met. */
static struct {
    size_t stack;
    unsigned results, refusals;
} met[EXPORTS];

static uint8_t stack[STACK] __attribute__((aligned(4096)));
static uint8_t *frame;

/* How deep a function went below its caller's frame, on a thread with a painted stack. */
static size_t depth_of(void *(*called)(void *)) {
    pthread_attr_t attributes;
    pthread_t thread;
    size_t painted = 0;
    memset(stack, PAINT, STACK);
    if (pthread_attr_init(&attributes) != 0 || pthread_attr_setstack(&attributes, stack, STACK) != 0 ||
        pthread_create(&thread, &attributes, called, NULL) != 0 || pthread_join(thread, NULL) != 0) {
        puts("stack: no thread");
        exit(1);
    }
    pthread_attr_destroy(&attributes);
    while (stack[painted] == PAINT)
        painted++;
    return (size_t)(frame - stack) - painted;
}

static struct call call;
static struct told told;

static void *one_call(void *unused) {
    frame = __builtin_frame_address(0);
    make_call(&call, &told);
    return unused;
}

/* A function of the C library that nothing else here calls, so that the loader binds it at this first call. */
static void *one_search(void *text) {
    frame = __builtin_frame_address(0);
    return memmem(stack, 1, "PGT1", 4) == NULL ? text : NULL;
}

static void measure(void) {
    memset(&told, 0, sizeof told);
    size_t used = depth_of(one_call);
    if (used > met[call.which].stack)
        met[call.which].stack = used;
    met[call.which].results |= 1u << told.result;
    if (told.result == VARDDOHAS_REFUSED)
        met[call.which].refusals |= 1u << told.number;
}

/* The maps: a small one, one of 512 nodes that each link to the four after them, a chain of 512, whose ends have the longest path, and one for each of
 * refusals 1, 2, 4, 5 and 6. */
enum { SMALL, LARGE, CHAIN, MALFORMED, TOO_LARGE, MISSING, SECOND, RING, MAPS };
static uint8_t map_room[MAPS][4 * 513 + 8 * 2048 + 12];
static struct slice maps[MAPS];

static void put_map(int which, size_t nodes, uint16_t (*node)[2], size_t links, uint16_t (*link)[4]) {
    uint8_t *at = map_room[which];
    put_words(at, node[0], 2 * nodes);
    put_words(at + 4 * nodes, link[0], 4 * links);
    at += 4 * nodes + 8 * links;
    uint16_t trailer[] = {(uint16_t)(4 * nodes + 8 * links), (uint16_t)nodes, (uint16_t)(8 * links), (uint16_t)links};
    put_words(at, trailer, 4);
    memcpy(at + 8, "PGT1", 4);
    maps[which].at = map_room[which];
    maps[which].bytes = 4 * nodes + 8 * links + 12;
}

/* 512 nodes, each linked to so many after it. */
static void put_linked(int which, uint16_t after) {
    static uint16_t node[512][2], link[2048][4];
    size_t links = 0;
    for (uint16_t v = 0; v < 512; v++) {
        node[v][0] = node[v][1] = after;
        for (uint16_t j = 0; j < after && v + 1 + j < 512; j++, links++) {
            uint16_t to[] = {v, j, (uint16_t)(v + 1 + j), j};
            memcpy(link[links], to, sizeof to);
        }
    }
    put_map(which, 512, node, links, link);
}

static void put_maps(void) {
    static uint16_t node[513][2], link[1][4];
    uint16_t b[][2] = {{0, 1}, {1, 2}, {1, 0}, {1, 0}, {0, 1}, {1, 1}, {1, 0}}, ring[][2] = {{1, 1}, {1, 1}};
    uint16_t b_links[][4] = {{0, 0, 1, 0}, {1, 0, 2, 0}, {1, 1, 3, 0}, {4, 0, 5, 0}, {5, 0, 6, 0}};
    uint16_t ring_links[][4] = {{0, 0, 1, 0}, {1, 0, 0, 0}};
    put_map(SMALL, 7, b, 5, b_links);
    put_map(MALFORMED, 7, b, 5, b_links);
    maps[MALFORMED].bytes--;
    put_map(TOO_LARGE, 513, node, 0, link);
    put_map(RING, 2, ring, 2, ring_links);
    b_links[4][2] = 7;
    put_map(MISSING, 7, b, 5, b_links);
    b_links[4][2] = 5;
    put_map(SECOND, 7, b, 5, b_links);
    put_linked(LARGE, 4);
    put_linked(CHAIN, 1);
}

/* Words that are asked as a list, as port lists and as records. */
enum { LONGEST = 512, WORDS = 14 };
static const struct {
    size_t many;
    uint16_t words[6];
} some_words[WORDS] = {
    {0, {0}},
    {1, {0}},
    {1, {1}},
    {1, {9999}},
    {2, {0, 2}},
    {2, {0, 3}},
    {2, {0, 6}},
    {2, {0, 511}},
    {2, {3, 3}},
    {3, {0, 0, 0}},
    {3, {0, 0, 1}},
    {6, {0, 0, 0, 0, 0, 0}},
    {6, {0, 0, 0, 2, 2, 2}},
    {6, {0, 0, 1, 2, 1, 1}},
};

/* Slice `which` of those words; the one after them is every node of the large map. */
static struct slice words(uint8_t *room, size_t which) {
    uint16_t all[LONGEST];
    for (uint16_t i = 0; i < LONGEST; i++)
        all[i] = i;
    return which < WORDS ? put_words(room, some_words[which].words, some_words[which].many) : put_words(room, all, LONGEST);
}

static uint8_t list_room[2 * LONGEST], inputs_room[2 * LONGEST], outputs_room[2 * LONGEST], buffer_room[6 * 2560];
static uint8_t prepared[2 * VARDDOHAS_LARGEST_AREA], area_room[sizeof prepared];

/* How many lists, inputs, outputs, counts of records, nodes or ports, and buffers each export is asked with: 1 where it takes none. */
static const struct variety {
    size_t lists, inputs, outputs, manys, nodes, rooms;
} varieties[EXPORTS] = {
    [PREPARE] = {1, 1, 1, 1, 1, 1},
    [LINE] = {WORDS + 1, 1, 1, 1, 1, 1},
    [LINE_PORTS] = {WORDS + 1, 4, 4, 1, 1, 1},
    [TOPO] = {WORDS + 1, 1, 1, 1, 1, 1},
    [TOPO_PORTS] = {WORDS + 1, 4, 4, 1, 1, 1},
    [INTERVALS] = {WORDS + 1, 1, 1, 1, 1, 2},
    [BY_INTERVALS] = {WORDS + 1, 1, 1, 4, 1, 1},
    [EXTEND] = {WORDS + 1, 1, 1, 4, 4, 1},
    [NODES] = {WORDS + 1, 1, 1, 4, 1, 2},
    [PORT] = {1, 1, 1, 1, 4, 1},
    [VIEW] = {1, 1, 1, 1, 4, 1},
    [PATH] = {WORDS + 1, 1, 1, 1, 1, 2},
};

/* The digit of `rest` in a base, which is taken off it. */
static size_t digit(size_t *rest, size_t base) {
    size_t found = *rest % base;
    *rest /= base;
    return found;
}

/* All that one export is asked of one map in one area. */
static void ask_all(void) {
    static const size_t manys[] = {0, 1, 2, 9999}, nodes[] = {0, 2, 3, 9999}, rooms[] = {0, sizeof buffer_room};
    const struct variety *of = &varieties[call.which];
    size_t calls = of->lists * of->inputs * of->outputs * of->manys * of->nodes * of->rooms;
    for (size_t i = 0; i < calls; i++) {
        size_t rest = i;
        memcpy(area_room, prepared, sizeof prepared);
        call.list = words(list_room, digit(&rest, of->lists));
        call.inputs = words(inputs_room, digit(&rest, of->inputs));
        call.outputs = words(outputs_room, digit(&rest, of->outputs));
        call.many = manys[digit(&rest, of->manys)];
        call.node = nodes[digit(&rest, of->nodes)];
        call.buffer.at = buffer_room;
        call.buffer.bytes = rooms[digit(&rest, of->rooms)];
        measure();
    }
}

/* An export in the area that was prepared for the map, in one of 0, and in one that is too short. */
static void ask_in_areas(void) {
    static const size_t bytes[] = {sizeof area_room, sizeof area_room, 12};
    for (int area = 0; area < 3; area++) {
        struct call first = {.which = PREPARE, .map = call.map, .area = {prepared, sizeof prepared}};
        memset(prepared, 0, sizeof prepared);
        if (area == 0)
            make_call(&first, &told);
        call.area.at = area_room;
        call.area.bytes = bytes[area];
        ask_all();
    }
}

/* What is wrong with an export's promise, or nothing. */
static const char *fault_of(int i, size_t needed) {
    const struct promise *promise = &promises[i];
    unsigned results = 1u << VARDDOHAS_ANSWER | 1u << VARDDOHAS_REFUSED | (promise->no ? 1u << VARDDOHAS_NO : 0);
    if (needed > promise->stack)
        return ": deeper than promised";
    if (promise->stack - needed > SLACK)
        return ": promised far above that";
    if (met[i].results != results)
        return ": other results than the header names";
    if (met[i].refusals != promise->refusals)
        return ": other refusals than the header names";
    return "";
}

int main(void) {
    size_t wrong = 0, largest = 0, binding = depth_of(one_search);
    put_maps();
    for (int i = 0; i < EXPORTS; i++)
        for (int map = 0; map < MAPS; map++) {
            call.which = (enum exported)i;
            call.map = maps[map];
            ask_in_areas();
        }
    puts("bytes of stack                 call  binding  promised");
    for (int i = 0; i < EXPORTS; i++) {
        const struct promise *promise = &promises[i];
        const char *fault = fault_of(i, met[i].stack + binding);
        printf("%-26s %8zu %8zu %9zu%s\n", promise->name, met[i].stack, binding, promise->stack, fault);
        wrong += *fault != 0;
        largest = promise->stack > largest ? promise->stack : largest;
    }
    if (largest != VARDDOHAS_STACK)
        printf("VARDDOHAS_STACK is not the largest, %zu\n", largest);
    return wrong != 0 || largest != VARDDOHAS_STACK;
}
