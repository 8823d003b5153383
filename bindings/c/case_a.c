/* Plans case A and cases made from it, and prints each plan with its freight curve, or the refusal; then which splits can be the
   cheapest where an entry is known between two bounds. */
#include "yadvorkhul.h"

#include <inttypes.h>
#include <stdio.h>

#define CELLS(a) (sizeof(a) / sizeof((a)[0]))

static const uint64_t supplies[] = {3, 3, 1};
static const uint64_t demands[] = {3, 2};

struct change {
    const char *name;
    uint64_t run1, run2;
    int64_t last_cost;
    uint64_t first_ceiling, last_ceiling, entry2, entry3;
};

static void print_plan(struct change c) {
    const int64_t costs[] = {2, 6, 5, 3, 1, c.last_cost};
    const uint64_t ceilings[] = {c.first_ceiling, 4000, 4000, 4000, 4000, c.last_ceiling};
    const uint64_t table[] = {99, 20, c.entry2, c.entry3};
    uint64_t plan[6], splits[3], report[YADVORKHUL_REPORT_CELLS];
    int64_t freights[3], worth[YADVORKHUL_WORTH_CELLS];
    uint64_t answer = yadvorkhul_plan(3, 2, c.run1, c.run2, costs, CELLS(costs), supplies, CELLS(supplies),
                                      demands, CELLS(demands), ceilings, CELLS(ceilings), table, CELLS(table),
                                      plan, CELLS(plan), splits, CELLS(splits), freights, CELLS(freights),
                                      report, CELLS(report), worth, CELLS(worth));
    printf("%s\n", c.name);
    if (answer != 0) {
        printf("  refusal %" PRIu64 " at place %" PRIu64 "\n", answer, report[0]);
        return;
    }
    printf("  split %" PRIu64 ", total %" PRId64 ", freight %" PRId64 "\n", report[0], worth[0], worth[1]);
    for (size_t i = 0; i < 3; i++)
        for (size_t j = 0; j < 2; j++)
            printf("  source %zu, terminal %zu: %" PRIu64 "\n", i + 1, j + 1, plan[i * 2 + j]);
    for (size_t k = 0; k < report[1]; k++)
        printf("  stop %" PRIu64 ": freight %" PRId64 "\n", splits[k], freights[k]);
}

/* Case A with its last entry known between 20 and this number, and so many cells for the answers. */
static void print_bounds(const char *name, uint64_t high3, size_t cells) {
    const int64_t costs[] = {2, 6, 5, 3, 1, 4};
    const uint64_t ceilings[] = {4000, 4000, 4000, 4000, 4000, 4000};
    const uint64_t low[] = {99, 20, 24, 20}, high[] = {99, 20, 24, high3};
    uint64_t answers[4] = {7, 7, 7, 7}, report[YADVORKHUL_REPORT_CELLS];
    int64_t worth[YADVORKHUL_WORTH_CELLS];
    uint64_t answer = yadvorkhul_bounds(3, 2, 0, 0, costs, CELLS(costs), supplies, CELLS(supplies),
                                        demands, CELLS(demands), ceilings, CELLS(ceilings), low, CELLS(low),
                                        high, CELLS(high), answers, cells, report, CELLS(report), worth, CELLS(worth));
    printf("%s\n", name);
    if (answer != 0) {
        printf("  refusal %" PRIu64 " at place %" PRIu64 "\n", answer, report[0]);
        return;
    }
    printf("  least total from %" PRId64 " to %" PRId64 "\n", worth[0], worth[1]);
    for (size_t k = 0; k < report[1]; k++)
        printf("  split %" PRIu64 ": %" PRIu64 "\n", report[0] + k, answers[k]);
    printf("  cell after them: %" PRIu64 "\n", answers[3]);
}

int main(void) {
    const struct change changes[] = {
        {"case A", 0, 0, 4, 4000, 4000, 24, 20},
        {"40 back for each drum from source 3 to terminal 2", 0, 0, -40, 4000, 4000, 24, 20},
        {"1,000,001 back", 0, 0, -1000001, 4000, 4000, 24, 20},
        {"entry 2 lowered: the least total lies between two others", 0, 0, 4, 4000, 4000, 20, 22},
        {"each plant makes 2 at least", 2, 2, 4, 4000, 4000, 24, 20},
        {"plant 2 makes 4 at least, and can make 3", 2, 4, 4, 4000, 4000, 24, 20},
        {"1 at most from source 1 to terminal 1", 0, 0, 4, 1, 4000, 24, 20},
        {"4,001 at most from source 3 to terminal 2", 0, 0, 4, 4000, 4001, 24, 20},
    };
    for (size_t k = 0; k < CELLS(changes); k++) print_plan(changes[k]);
    print_bounds("entry 3 between 20 and 21", 21, 4);
    print_bounds("entry 3 between 20 and 19", 19, 4);
    print_bounds("two cells for the answers", 21, 2);
    return 0;
}
