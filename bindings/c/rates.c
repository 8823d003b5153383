/* Plans the report's example with the square-root rates, and looks at every rate and at what is refused. */
#include "yadvorkhul.h"
#include <inttypes.h>
#include <stdio.h>

#define MOST YADVORKHUL_MOST_AMOUNT

/* How many of the rates for 0 to most are not the greatest r with r × r at most 10,000 × y. */
static int wrong(const uint64_t *to, uint64_t most) {
    int count = 0;
    for (uint64_t y = 0; y <= most; y++) {
        uint64_t r = to[y];
        if (r * r > 10000 * y || (r + 1) * (r + 1) <= 10000 * y) count++;
    }
    return count;
}

/* How many cells from first on are not 7. */
static int written(const uint64_t *to, uint64_t first, uint64_t cells) {
    int count = 0;
    for (uint64_t k = first; k < cells; k++) count += to[k] != 7;
    return count;
}

int main(void) {
    static uint64_t to[MOST + 2], table[201], splits[201];
    static int64_t freights[201];
    for (int k = 0; k < MOST + 2; k++) to[k] = 7;
    printf("above %d: %" PRIu64 ", too short: %" PRIu64, MOST, yadvorkhul_rates(MOST + 1, to, MOST + 2), yadvorkhul_rates(MOST, to, MOST));
    printf(", cells written: %d\n", written(to, 0, MOST + 2));
    printf("to %d: %" PRIu64, MOST, yadvorkhul_rates(MOST, to, MOST + 2));
    printf(", wrong: %d, later cells written: %d, last: %" PRIu64 "\n", wrong(to, MOST), written(to, MOST + 1, MOST + 2), to[MOST]);

    int64_t costs[] = {12, 1, 3, 4, 4, 9, 6, 2, 2, 6, 2, 10}, worth[2];
    uint64_t supplies[] = {200, 200, 150}, demands[] = {80, 180, 120, 70}, ceilings[12], plan[12], report[2];
    for (int k = 0; k < 12; k++) ceilings[k] = MOST;
    if (yadvorkhul_rates(200, table, 201)) return 1;
    if (yadvorkhul_plan(3, 4, 0, 0, costs, 12, supplies, 3, demands, 4, ceilings, 12, table, 201,
                        plan, 12, splits, 201, freights, 201, report, 2, worth, 2)) return 1;
    printf("split %" PRIu64 ", total %" PRId64 "\n", report[0], worth[0]);
}
