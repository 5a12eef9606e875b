/* Asks of map B of document 01 whether a group of steps may run as one block: 0 3, which is a no. The path that shows why leaves the group at step 1, and the
 * group with that step is a yes. */
#include "varddohas.h"

#include <inttypes.h>
#include <stdio.h>
#include <string.h>

static const uint8_t map[] = {
    /* inputs and outputs of steps 0 to 6 */
    0, 0, 1, 0, 1, 0, 2, 0, 1, 0, 0, 0, 1, 0, 0, 0, 0, 0, 1, 0, 1, 0, 1, 0, 1, 0, 0, 0,
    /* links: from step, output, to step, input */
    0, 0, 0, 0, 1, 0, 0, 0, 1, 0, 0, 0, 2, 0, 0, 0, 1, 0, 1, 0, 3, 0, 0, 0, 4, 0, 0, 0, 5, 0, 0, 0, 5, 0, 0, 0, 6, 0, 0, 0,
    /* trailer: 4 N + 8 L, N, 8 L, L, mark */
    68, 0, 7, 0, 40, 0, 5, 0, 'P', 'G', 'T', '1'};

enum { STEPS = 7 };

static uint8_t area[2 * VARDDOHAS_LARGEST_AREA];

static void print_steps(const char *what, const uint8_t *steps, size_t bytes) {
    printf("%s", what);
    for (size_t i = 0; i < bytes; i += 2)
        printf(" %u", steps[i] + 256u * steps[i + 1]);
}

static void ask(const uint8_t *group, size_t bytes) {
    uint64_t count = 0, number = 0, place = 0;
    print_steps("steps", group, bytes);
    switch (varddohas_line_is_node_convex(map, sizeof map, area, sizeof area, group, bytes, &count, &number, &place)) {
    case VARDDOHAS_YES:
        printf(": yes, %" PRIu64 " counted\n", count);
        break;
    case VARDDOHAS_NO:
        printf(": no, %" PRIu64 " counted\n", count);
        break;
    default:
        printf(": refused %" PRIu64 " %" PRIu64 "\n", number, place);
    }
}

/* Adds the steps that a group's path has between its ends; answers how many bytes the group has then. */
static size_t add_path(uint8_t *group, size_t bytes) {
    uint8_t path[2 * STEPS];
    uint64_t count = 0, number = 0, place = 0;
    switch (varddohas_show_path(map, sizeof map, area, sizeof area, group, bytes, path, sizeof path, &count, &number, &place)) {
    case VARDDOHAS_ANSWER:
        print_steps("path", path, 2 * count);
        puts("");
        memcpy(group + bytes, path + 2, 2 * (count - 2));
        return bytes + 2 * (count - 2);
    case VARDDOHAS_NO:
        puts("no path");
        return bytes;
    default:
        printf("path refused %" PRIu64 " %" PRIu64 "\n", number, place);
        return bytes;
    }
}

int main(void) {
    static const uint8_t unknown[] = {0, 0, 7, 0};
    uint8_t group[2 * STEPS] = {0, 0, 3, 0};
    size_t bytes = 4;
    uint64_t lines = 0, number = 0, place = 0;
    if (varddohas_prepare(map, sizeof map, area, sizeof area, &lines, &number, &place) == VARDDOHAS_REFUSED) {
        printf("map refused %" PRIu64 " %" PRIu64 "\n", number, place);
        return 1;
    }
    printf("lines: %" PRIu64 "\n", lines);
    ask(group, bytes);
    bytes = add_path(group, bytes);
    ask(group, bytes);
    add_path(group, bytes);
    ask(unknown, sizeof unknown);
    return 0;
}
