/* A thread of 256 kB of stack is enough for every function, with cases of 32 sources and 64 terminals and a network of 32 nodes and 64 arcs.
   Were it not, the program would end by a signal. */
#define _POSIX_C_SOURCE 200809L
#include "yadvorkhul.h"

#include <inttypes.h>
#include <pthread.h>
#include <stdio.h>

#define M YADVORKHUL_MOST_SOURCES
#define N YADVORKHUL_MOST_TERMINALS
#define ENTRIES YADVORKHUL_MOST_SPLITS
#define STACK (256 * 1024)

/* nothing large on the stack but what the functions take themselves */
static int64_t costs[M * N], freights[ENTRIES], worth[2], arc_costs[YADVORKHUL_MOST_ARCS];
static uint64_t supplies[M], demands[N], ceilings[M * N], table[ENTRIES], high[ENTRIES], plan[M * N], splits[ENTRIES], report[3];
static uint64_t store[YADVORKHUL_MOST_STORE], answers[ENTRIES], arcs[4][YADVORKHUL_MOST_ARCS];
static char network[4096];

static void draw_case(void) {
    for (size_t k = 0; k < M * N; k++) costs[k] = (int64_t)(k * 7919 % 1800) - 100, ceilings[k] = k % 5 ? 4000 : 60 + k % 90;
    for (size_t i = 0; i < M; i++) supplies[i] = i < 2 ? 4000 : 20 + i;
    for (size_t j = 0; j < N; j++) demands[j] = 60 + j;
    for (size_t y = 0; y < ENTRIES; y++) table[y] = 200000 + (y * 37 % 8000) * 5, high[y] = table[y] + 500;
}

static size_t draw_network(void) {
    int at = snprintf(network, sizeof network, "p min 32 64\nn 1 40\nn 32 -40\n");
    for (int k = 1; k < 32; k++) at += snprintf(network + at, sizeof network - at, "a %d %d 0 50 %d\n", k, k + 1, k * 13 % 29);
    for (int k = 1; k < 31; k++) at += snprintf(network + at, sizeof network - at, "a %d %d 0 9 %d\n", k, k + 2, k * 17 % 31 - 3);
    for (int k = 1; k < 4; k++) at += snprintf(network + at, sizeof network - at, "a %d 32 0 7 %d\n", k, k * 90);
    return (size_t)at;
}

#define CASE M, N, 100, 100, costs, M * N, supplies, M, demands, N, ceilings, M * N, table, ENTRIES

static void *calls(void *unused) {
    uint64_t answer = yadvorkhul_plan(CASE, plan, M * N, splits, ENTRIES, freights, ENTRIES, report, 2, worth, 2);
    printf("plan: %" PRIu64 ", %" PRIu64 " stops\n", answer, report[1]);
    answer = yadvorkhul_bounds(CASE, high, ENTRIES, answers, ENTRIES, report, 2, worth, 2);
    printf("bounds: %" PRIu64 ", %" PRIu64 " splits\n", answer, report[1]);
    answer = yadvorkhul_enter(CASE, store, YADVORKHUL_MOST_STORE, report, 2);
    printf("enter: %" PRIu64 "\n", answer);
    answer = yadvorkhul_plan_case(YADVORKHUL_PLANNER, store, YADVORKHUL_MOST_STORE, plan, M * N, splits, ENTRIES, freights, ENTRIES,
                                  report, 2, worth, 2);
    printf("plan_case: %" PRIu64 ", %" PRIu64 " stops\n", answer, report[1]);
    printf("rates: %" PRIu64 "\n", yadvorkhul_rates(4000, table, ENTRIES));
    for (size_t x = 0; x < 51; x++) table[x] = x * x;
    answer = yadvorkhul_flow((const uint8_t *)network, draw_network(), 1, table, 51, arcs[0], 64, arcs[1], 64, arcs[2], 64, arcs[3], 64,
                             arc_costs, 64, report, 1, worth, 1);
    printf("flow: %" PRIu64 ", %" PRIu64 " arcs\n", answer, report[0]);
    return unused;
}

int main(void) {
    pthread_t thread;
    pthread_attr_t small;
    draw_case();
    setvbuf(stdout, NULL, _IOLBF, 0);
    if (pthread_attr_init(&small) || pthread_attr_setstacksize(&small, STACK) || pthread_create(&thread, &small, calls, NULL)) return 1;
    return pthread_join(thread, NULL);
}
