/* One working case under threads: readers beside each other, each told its own place; then readers and an editor behind a lock. */
#define _POSIX_C_SOURCE 200809L
#include "yadvorkhul_case.h"

#include <inttypes.h>
#include <pthread.h>
#include <sched.h>
#include <stdio.h>

#define CELLS(a) (sizeof(a) / sizeof((a)[0]))
#define READERS 4
#ifndef ROUNDS
#define ROUNDS 40000
#endif

static struct yadvorkhul_case work = YADVORKHUL_CASE_NONE;
static pthread_rwlock_t lock = PTHREAD_RWLOCK_INITIALIZER;

static struct yadvorkhul_told opened(void) {
    const int64_t costs[] = {2, 6, 5, 3, 1, 4};
    const uint64_t supplies[] = {3, 3, 1}, demands[] = {3, 2}, table[] = {99, 20, 24, 20};
    const uint64_t ceilings[] = {4000, 4000, 4000, 4000, 4000, 4000};
    return yadvorkhul_case_open(&work, 3, 2, 0, 0, costs, CELLS(costs), supplies, CELLS(supplies), demands, CELLS(demands),
                                ceilings, CELLS(ceilings), table, CELLS(table));
}

static struct yadvorkhul_told plan(struct yadvorkhul_planned *planned) {
    uint64_t lanes[6], splits[4];
    int64_t freights[4];
    return yadvorkhul_case_plan(&work, YADVORKHUL_PLANNER, planned, lanes, CELLS(lanes), splits, CELLS(splits), freights,
                                CELLS(freights));
}

static struct yadvorkhul_told see_table(size_t role) {
    uint64_t table[4];
    return yadvorkhul_case_see_table(&work, role, table, CELLS(table));
}

/* A planner whose case is refused by 9 at entry 2. Counts what is told otherwise. */
static void *refused_planner(void *wrong) {
    struct yadvorkhul_planned planned = {0, 0, 0, 0};
    for (int k = 0; k < ROUNDS; k++) {
        struct yadvorkhul_told told = plan(&planned);
        sched_yield(); /* others have their turn before the place is looked at */
        *(uint64_t *)wrong += told.refusal != 9 || told.place != 2;
    }
    return NULL;
}

/* A depot, which may not see the table, and must learn no place of another's call. */
static void *refused_depot(void *wrong) {
    for (int k = 0; k < ROUNDS; k++) {
        struct yadvorkhul_told told = see_table(YADVORKHUL_DEPOT);
        sched_yield();
        *(uint64_t *)wrong += told.refusal != 31 || told.place != 0;
    }
    return NULL;
}

/* A planner behind the lock: total and freight belong to a demand of 2 or to one of 3. */
static void *planner(void *wrong) {
    struct yadvorkhul_planned planned = {0, 0, 0, 0};
    for (int k = 0; k < ROUNDS; k++) {
        pthread_rwlock_rdlock(&lock);
        struct yadvorkhul_told told = plan(&planned);
        pthread_rwlock_unlock(&lock);
        int two = planned.total == 33 && planned.freight == 13, three = planned.total == 36 && planned.freight == 16;
        *(uint64_t *)wrong += told.refusal != 0 || planned.split != 3 || !(two || three);
    }
    return NULL;
}

static void *editor(void *wrong) {
    for (int k = 0; k < ROUNDS; k++) {
        pthread_rwlock_wrlock(&lock);
        *(uint64_t *)wrong += yadvorkhul_case_edit_demand(&work, YADVORKHUL_DEPOT, 2, 2 + k % 2).refusal != 0;
        pthread_rwlock_unlock(&lock);
    }
    return NULL;
}

/* Runs the two by turns in so many threads. Answers how many answers were wrong. */
static uint64_t together(void *(*first)(void *), void *(*second)(void *)) {
    pthread_t threads[READERS];
    uint64_t wrong[READERS] = {0}, all = 0;
    for (int k = 0; k < READERS; k++) pthread_create(&threads[k], NULL, k % 2 ? second : first, &wrong[k]);
    for (int k = 0; k < READERS; k++) {
        pthread_join(threads[k], NULL);
        all += wrong[k];
    }
    return all;
}

int main(void) {
    printf("opened: %" PRIu64 "\n", opened().refusal);
    printf("entry 2 above the bound: %" PRIu64 "\n",
           yadvorkhul_case_edit_entry(&work, YADVORKHUL_PLANT, 2, 1000000001).refusal);
    printf("planners and depots beside each other: %" PRIu64 " wrong answers\n", together(refused_planner, refused_depot));
    printf("entry 2 as before: %" PRIu64 "\n", yadvorkhul_case_edit_entry(&work, YADVORKHUL_PLANT, 2, 24).refusal);
    printf("planners and editors behind a lock: %" PRIu64 " wrong answers\n", together(planner, editor));
    yadvorkhul_case_close(&work);
    return 0;
}
