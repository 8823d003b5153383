/* The archive's own rate: the same case and the same changes as `yadvorkhul batch`, by one process or by several, with nothing around the call.
 * Reads numbers from standard input: m, n, the runs, costs, supplies, demands, ceilings, the count of entries and these, the count of changes
 * and of each the slice (0 costs, 1 supplies, 2 demands, 3 ceilings, 4 entries), the cell and the value. Arguments: times over all changes,
 * processes. Prints cases a second of processor time for one process, cases a second by the clock for all, and the sum of the totals. */
#include "../bindings/c/yadvorkhul.h"
#include <stdio.h>
#include <stdlib.h>
#include <sys/wait.h>
#include <time.h>
#include <unistd.h>

enum { MOST = 32 * 64, SPLITS = 4001 };
static int64_t costs[MOST], freights[SPLITS], worth[2];
static uint64_t supplies[32], demands[64], ceilings[MOST], table[SPLITS], plan[MOST], splits[SPLITS], report[2], runs[2];
static size_t m, n, entries, count;
static struct { int which; size_t cell; int64_t value; } *changes;

static int64_t number(void) {
    long long x;
    if (scanf("%lld", &x) != 1) exit(2);
    return x;
}

static void fill(uint64_t *cells, size_t length) {
    for (size_t k = 0; k < length; k++) cells[k] = number();
}

static void read_all(void) {
    m = number(), n = number();
    fill(runs, 2);
    for (size_t k = 0; k < m * n; k++) costs[k] = number();
    fill(supplies, m), fill(demands, n), fill(ceilings, m * n);
    fill(table, entries = number());
    changes = calloc(count = number(), sizeof *changes);
    for (size_t k = 0; k < count; k++) changes[k].which = number(), changes[k].cell = number(), changes[k].value = number();
}

static int64_t all_of_them(void) {
    int64_t sum = 0;
    uint64_t *slices[] = {(uint64_t *)costs, supplies, demands, ceilings, table};
    for (size_t k = 0; k < count; k++) {
        uint64_t *cell = slices[changes[k].which] + changes[k].cell, before = *cell;
        *cell = (uint64_t)changes[k].value;
        if (yadvorkhul_plan(m, n, runs[0], runs[1], costs, m * n, supplies, m, demands, n, ceilings, m * n, table, entries,
                            plan, m * n, splits, SPLITS, freights, SPLITS, report, 2, worth, 2) == 0)
            sum += worth[0];
        *cell = before;
    }
    return sum;
}

static double seconds(clockid_t which) {
    struct timespec now;
    clock_gettime(which, &now);
    return now.tv_sec + now.tv_nsec * 1e-9;
}

int main(int argc, char **argv) {
    int times = argc > 1 ? atoi(argv[1]) : 1, processes = argc > 2 ? atoi(argv[2]) : 1;
    read_all();
    int64_t sum = all_of_them();
    double start = seconds(CLOCK_PROCESS_CPUTIME_ID);
    for (int t = 0; t < times; t++) all_of_them();
    double one = times * count / (seconds(CLOCK_PROCESS_CPUTIME_ID) - start);
    start = seconds(CLOCK_MONOTONIC);
    for (int p = 0; p < processes; p++)
        if (fork() == 0) {
            for (int t = 0; t < times; t++) all_of_them();
            _exit(0);
        }
    while (wait(NULL) > 0) {}
    printf("%.0f %.0f %lld\n", one, (double)processes * times * count / (seconds(CLOCK_MONOTONIC) - start), (long long)sum);
}
