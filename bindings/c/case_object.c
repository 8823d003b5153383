/* Case A as a working case that owns its store: each call of the object, what it says after a refused opening and after closing, and that
   each store is given back once, cleared. */
#include <stdint.h>
#include <stdlib.h>

static void *watched_malloc(size_t bytes);
static void watched_free(void *store);
#define malloc watched_malloc
#define free watched_free
#include "yadvorkhul_case.h"
#undef malloc
#undef free

#include <inttypes.h>
#include <stdio.h>

#define CELLS(a) (sizeof(a) / sizeof((a)[0]))

static size_t taken, given_back, uncleared, last_bytes;

static void *watched_malloc(size_t bytes) {
    taken++;
    last_bytes = bytes;
    return malloc(bytes);
}

/* All stores of this program are of one size. */
static void watched_free(void *store) {
    size_t k, left = 0;
    for (k = 0; store && k < last_bytes; k++) left += ((unsigned char *)store)[k] != 0;
    given_back += store != NULL;
    uncleared += left != 0;
    free(store);
}

static void say(const char *what, struct yadvorkhul_told told) {
    if (told.refusal == 0) printf("%s: done\n", what);
    else printf("%s: refusal %" PRIu64 " at place %" PRIu64 "\n", what, told.refusal, told.place);
}

static void plan(const struct yadvorkhul_case *work, size_t role) {
    uint64_t lanes[6], splits[YADVORKHUL_MOST_SPLITS];
    int64_t freights[YADVORKHUL_MOST_SPLITS];
    struct yadvorkhul_planned planned;
    struct yadvorkhul_told told =
        yadvorkhul_case_plan(work, role, &planned, lanes, CELLS(lanes), splits, CELLS(splits), freights, CELLS(freights));
    if (told.refusal) say("planned", told);
    else
        printf("planned: split %" PRIu64 ", total %" PRId64 ", freight %" PRId64 ", stops %" PRIu64 "\n", planned.split, planned.total,
               planned.freight, planned.stops);
}

static void plan_mark(const struct yadvorkhul_case *work, size_t role, size_t mark) {
    uint64_t lanes[6], splits[YADVORKHUL_MOST_SPLITS];
    int64_t freights[YADVORKHUL_MOST_SPLITS];
    struct yadvorkhul_planned planned;
    struct yadvorkhul_told told = yadvorkhul_case_plan_mark(work, role, mark, &planned, lanes, CELLS(lanes), splits, CELLS(splits), freights,
                                                            CELLS(freights));
    if (told.refusal) say("planned a mark", told);
    else printf("planned mark %zu: split %" PRIu64 ", total %" PRId64 "\n", mark, planned.split, planned.total);
}

static struct yadvorkhul_told open_case(struct yadvorkhul_case *work, size_t m, uint64_t demand) {
    const int64_t costs[] = {2, 6, 5, 3, 1, 4};
    const uint64_t supplies[] = {3, 3, 1}, table[] = {99, 20, 24, 20}, ceilings[] = {4000, 4000, 4000, 4000, 4000, 4000};
    uint64_t demands[] = {3, 2};
    demands[1] = demand;
    return yadvorkhul_case_open(work, m, 2, 0, 0, costs, CELLS(costs), supplies, CELLS(supplies), demands, CELLS(demands),
                                ceilings, CELLS(ceilings), table, CELLS(table));
}

int main(void) {
    struct yadvorkhul_case work = YADVORKHUL_CASE_NONE;
    uint64_t supplies[4] = {0, 0, 0, 77}, demands[2], table[6] = {0, 0, 0, 0, 0, 77};
    uint64_t runs[3] = {5, 5, 77}, ceilings[7] = {0, 0, 0, 0, 0, 0, 77}, marks[9] = {5, 5, 5, 5, 5, 5, 5, 5, 77};
    int64_t costs[6];
    size_t k;
    yadvorkhul_case_close(&work);
    say("33 sources", open_case(&work, 33, 2));
    say("demand 4,001", open_case(&work, 3, 4001));
    say("mark where no case was entered", yadvorkhul_case_mark(&work, YADVORKHUL_PLANNER, 1));
    say("case A", open_case(&work, 3, 2));
    plan(&work, YADVORKHUL_PLANNER);
    say("mark 3", yadvorkhul_case_mark(&work, YADVORKHUL_PLANNER, 3));
    say("depot, demand of terminal 2 to 3", yadvorkhul_case_edit_demand(&work, YADVORKHUL_DEPOT, 2, 3));
    plan(&work, YADVORKHUL_PLANNER);
    say("supply of plant 1 to 4", yadvorkhul_case_edit_supply(&work, YADVORKHUL_PLANNER, 1, 4));
    say("cost from 3 to 2 to -40", yadvorkhul_case_edit_cost(&work, YADVORKHUL_PLANNER, 3, 2, -40));
    say("plant, entry 4 to 50", yadvorkhul_case_edit_entry(&work, YADVORKHUL_PLANT, 4, 50));
    say("entry 5", yadvorkhul_case_edit_entry(&work, YADVORKHUL_PLANNER, 5, 50));
    plan(&work, YADVORKHUL_PLANNER);
    plan(&work, YADVORKHUL_DEPOT);
    say("reader, tariff", yadvorkhul_case_see_tariff(&work, YADVORKHUL_READER, costs, CELLS(costs), supplies, CELLS(supplies), demands, CELLS(demands)));
    printf("tariff: last cost %" PRId64 ", first supply %" PRIu64 ", second demand %" PRIu64 ", a later cell %" PRIu64 "\n", costs[5], supplies[0],
           demands[1], supplies[3]);
    say("reader, table", yadvorkhul_case_see_table(&work, YADVORKHUL_READER, table, CELLS(table)));
    say("plant, table", yadvorkhul_case_see_table(&work, YADVORKHUL_PLANT, table, CELLS(table)));
    printf("table: entry 4 is %" PRIu64 ", a later cell %" PRIu64 "\n", table[4], table[5]);
    say("planner, limits", yadvorkhul_case_see_limits(&work, YADVORKHUL_PLANNER, runs, CELLS(runs), ceilings, CELLS(ceilings)));
    printf("limits: second run %" PRIu64 ", last ceiling %" PRIu64 ", later cells %" PRIu64 " and %" PRIu64 "\n", runs[1], ceilings[5], runs[2],
           ceilings[6]);
    say("reader, limits", yadvorkhul_case_see_limits(&work, YADVORKHUL_READER, runs, CELLS(runs), ceilings, CELLS(ceilings)));
    say("planner, marks", yadvorkhul_case_marks(&work, YADVORKHUL_PLANNER, marks, CELLS(marks)));
    printf("marks:");
    for (k = 0; k < CELLS(marks); k++) printf(" %" PRIu64, marks[k]);
    printf("\n");
    say("depot, marks", yadvorkhul_case_marks(&work, YADVORKHUL_DEPOT, marks, CELLS(marks)));
    plan_mark(&work, YADVORKHUL_PLANNER, 3);
    plan_mark(&work, YADVORKHUL_PLANNER, 2);
    plan_mark(&work, YADVORKHUL_PLANNER, 9);
    plan_mark(&work, YADVORKHUL_DEPOT, 3);
    plan(&work, YADVORKHUL_PLANNER);
    say("back to 2", yadvorkhul_case_go_back(&work, YADVORKHUL_PLANNER, 2));
    say("back to 3", yadvorkhul_case_go_back(&work, YADVORKHUL_PLANNER, 3));
    plan(&work, YADVORKHUL_PLANNER);
    say("opened once more, demand 4,001", open_case(&work, 3, 4001));
    plan(&work, YADVORKHUL_PLANNER);
    say("opened once more, demand 3", open_case(&work, 3, 3));
    plan(&work, YADVORKHUL_PLANNER);
    yadvorkhul_case_close(&work);
    say("mark after closing", yadvorkhul_case_mark(&work, YADVORKHUL_PLANNER, 3));
    yadvorkhul_case_close(&work);
    printf("stores: %zu taken, %zu given back, %zu of them not cleared\n", taken, given_back, uncleared);
    return 0;
}
