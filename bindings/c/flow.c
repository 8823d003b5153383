/* The least-cost flow of a small network whose fourth arc has a table of costs, and some refusals. */
#include "yadvorkhul.h"
#include <inttypes.h>
#include <stdio.h>
#include <string.h>

#define ARCS 5

static uint64_t flow[ARCS + 1], starts[ARCS + 1], ends[ARCS + 1], ceilings[ARCS + 1], report[2];
static int64_t costs[ARCS + 1], worth[2];

/* Lends so many cells of each slice, with 7 in every cell. */
static uint64_t ask(const char *file, size_t place, const uint64_t *table, size_t entries, size_t cells, size_t told) {
    for (int k = 0; k <= ARCS; k++) flow[k] = starts[k] = ends[k] = ceilings[k] = 7, costs[k] = 7;
    report[0] = report[1] = 7, worth[0] = worth[1] = 7;
    return yadvorkhul_flow((const uint8_t *)file, strlen(file), place, table, entries, flow, cells, starts, cells, ends, cells,
                           ceilings, cells, costs, cells, report, told, worth, told);
}

/* How many cells from first on are not 7. */
static int written(size_t first) {
    int count = (report[1] != 7) + (worth[1] != 7);
    for (size_t k = first; k <= ARCS; k++) count += (flow[k] != 7) + (starts[k] != 7) + (ends[k] != 7) + (ceilings[k] != 7) + (costs[k] != 7);
    return count;
}

static void refused(const char *what, uint64_t number) {
    printf("%s: %" PRIu64 ", place %" PRIu64 ", cells written: %d\n", what, number, report[0], written(0) + (worth[0] != 7));
}

int main(void) {
    const char *file = "c from 1 to 4 by 2 or 3, or by both\n"
                       "p min 4 5\n"
                       "n 1 5\n"
                       "n 4 -5\n"
                       "a 1 2 0 4 3\n"
                       "a 1 3 0 3 1\n"
                       "a 3 2 0 2 -1\n"
                       "a 2 4 0 5 2\n"
                       "a 3 4 0 2 9\n";
    uint64_t table[] = {0, 10, 12, 14, 16, 40};
    uint64_t number = ask(file, 4, table, 6, ARCS + 1, 2);
    printf("answer %" PRIu64 ", arcs %" PRIu64 ", total %" PRId64 ", later cells written: %d\n", number, report[0], worth[0], written(ARCS));
    for (uint64_t k = 0; k < report[0]; k++)
        printf("%" PRIu64 " to %" PRIu64 ": %" PRIu64 " of %" PRIu64 " at %" PRId64 "\n", starts[k], ends[k], flow[k], ceilings[k], costs[k]);
    refused("a line too few", ask("p min 2 1\nn 1 1\n", 1, table, 2, ARCS, 2));
    refused("a short table", ask(file, 4, table, 5, ARCS, 2));
    refused("a short slice", ask(file, 4, table, 6, ARCS - 1, 2));
    refused("no flow", ask("p min 2 1\nn 1 2\nn 2 -2\na 1 2 0 1 0\n", 1, table, 2, ARCS, 2));
    refused("no report", ask(file, 4, table, 6, ARCS, 0));
}
