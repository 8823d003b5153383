/* A working case as an object that owns its store, over the functions of yadvorkhul.h. None of this is proved.

     struct yadvorkhul_case work = YADVORKHUL_CASE_NONE;
     struct yadvorkhul_told told =
         yadvorkhul_case_open(&work, 3, 2, 0, 0, costs, 6, supplies, 3, demands, 2, ceilings, 6, table, 4);
     if (told.refusal) ..   its place: told.place
     yadvorkhul_case_mark(&work, YADVORKHUL_PLANNER, 3);
     yadvorkhul_case_edit_demand(&work, YADVORKHUL_DEPOT, 2, 3);
     yadvorkhul_case_go_back(&work, YADVORKHUL_PLANNER, 3);
     yadvorkhul_case_close(&work);

   Each call hands back what the function of yadvorkhul.h behind it answers: 0, or the number of a refusal with its place.
   A refused call changes nothing. An object begins as YADVORKHUL_CASE_NONE. It stays with whoever may see the entries: its
   store holds them all. It is not copied: two copies would own one store.

   Threads. Different objects have nothing in common. On one object the calls that take it as const (planning and seeing) may
   run beside each other. Opening, closing, edits, marks and returns run alone: no other call
   on that object may run meanwhile, so guard it with a lock, such as a pthread_rwlock_t. The proof assumes that nobody else
   writes a lent slice during a call: a planner beside an edit may read anything, and past its table. */
#ifndef YADVORKHUL_CASE_H
#define YADVORKHUL_CASE_H

#include "yadvorkhul.h"

#include <stdlib.h>

#ifdef __cplusplus
extern "C" {
#endif

#define YADVORKHUL_NO_MEMORY 35 /* the store could not be had: no number of the planner's */

struct yadvorkhul_case {
    uint64_t *store; /* null where no case was entered: every call but opening and closing is then refused by 11 */
    size_t cells;
};

/* An object without a case. Closing it is nothing. */
#define YADVORKHUL_CASE_NONE {NULL, 0}

/* What a call says. */
struct yadvorkhul_told {
    uint64_t refusal; /* 0 where it was done, or the number of the refusal */
    uint64_t place;   /* of the refusal; 0 where it was done */
};

/* What planning tells. */
struct yadvorkhul_planned {
    uint64_t split, stops;
    int64_t total, freight;
};

static inline struct yadvorkhul_told yadvorkhul_case_told(uint64_t answer, const uint64_t *report) {
    struct yadvorkhul_told told;
    told.refusal = answer;
    told.place = answer ? report[0] : 0;
    return told;
}

/* The store to be lent: a cell that holds no case where there is none. */
static inline uint64_t *yadvorkhul_case_store(const struct yadvorkhul_case *work, uint64_t *none) {
    *none = 0;
    return work->store ? work->store : none;
}

static inline size_t yadvorkhul_case_cells(const struct yadvorkhul_case *work) { return work->store ? work->cells : 1; }

/* Gives the store back. Its cells are cleared first: they hold the entries. */
static inline void yadvorkhul_case_close(struct yadvorkhul_case *work) {
    volatile uint64_t *cell = work->store;
    size_t k;
    for (k = 0; cell && k < work->cells; k++) cell[k] = 0;
    free(work->store);
    work->store = NULL;
    work->cells = 0;
}

/* Takes a store of the size and enters a case, passed as to yadvorkhul_plan. A case that was open before is closed then, its
   store cleared; on a refusal it stays as it was. */
static inline struct yadvorkhul_told yadvorkhul_case_open(struct yadvorkhul_case *work, size_t m, size_t n,
                                                          uint64_t run1, uint64_t run2,
                                                          const int64_t *costs, size_t costs_cells,
                                                          const uint64_t *supplies, size_t supplies_cells,
                                                          const uint64_t *demands, size_t demands_cells,
                                                          const uint64_t *ceilings, size_t ceilings_cells,
                                                          const uint64_t *table, size_t table_cells) {
    uint64_t report[YADVORKHUL_REPORT_CELLS] = {0, 0}, none, answer;
    struct yadvorkhul_case entered = YADVORKHUL_CASE_NONE;
    entered.cells = yadvorkhul_store_cells(m, n);
    entered.store = entered.cells ? (uint64_t *)malloc(entered.cells * sizeof(uint64_t)) : NULL;
    if (entered.cells && !entered.store) return yadvorkhul_case_told(YADVORKHUL_NO_MEMORY, report);
    answer = yadvorkhul_enter(m, n, run1, run2, costs, costs_cells, supplies, supplies_cells, demands, demands_cells,
                              ceilings, ceilings_cells, table, table_cells,
                              yadvorkhul_case_store(&entered, &none), yadvorkhul_case_cells(&entered), report,
                              YADVORKHUL_REPORT_CELLS);
    if (answer) {
        yadvorkhul_case_close(&entered);
    } else {
        yadvorkhul_case_close(work);
        *work = entered;
    }
    return yadvorkhul_case_told(answer, report);
}

static inline struct yadvorkhul_told yadvorkhul_case_edit_demand(struct yadvorkhul_case *work, size_t role,
                                                                 size_t terminal, uint64_t value) {
    uint64_t report[YADVORKHUL_REPORT_CELLS], none, *store = yadvorkhul_case_store(work, &none);
    uint64_t answer = yadvorkhul_edit_demand(role, terminal, value, store, yadvorkhul_case_cells(work), report,
                                             YADVORKHUL_REPORT_CELLS);
    return yadvorkhul_case_told(answer, report);
}

static inline struct yadvorkhul_told yadvorkhul_case_edit_supply(struct yadvorkhul_case *work, size_t role,
                                                                 size_t source, uint64_t value) {
    uint64_t report[YADVORKHUL_REPORT_CELLS], none, *store = yadvorkhul_case_store(work, &none);
    uint64_t answer = yadvorkhul_edit_supply(role, source, value, store, yadvorkhul_case_cells(work), report,
                                             YADVORKHUL_REPORT_CELLS);
    return yadvorkhul_case_told(answer, report);
}

static inline struct yadvorkhul_told yadvorkhul_case_edit_cost(struct yadvorkhul_case *work, size_t role, size_t source,
                                                               size_t terminal, int64_t value) {
    uint64_t report[YADVORKHUL_REPORT_CELLS], none, *store = yadvorkhul_case_store(work, &none);
    uint64_t answer = yadvorkhul_edit_cost(role, source, terminal, value, store, yadvorkhul_case_cells(work), report,
                                           YADVORKHUL_REPORT_CELLS);
    return yadvorkhul_case_told(answer, report);
}

static inline struct yadvorkhul_told yadvorkhul_case_edit_entry(struct yadvorkhul_case *work, size_t role, size_t split,
                                                                uint64_t value) {
    uint64_t report[YADVORKHUL_REPORT_CELLS], none, *store = yadvorkhul_case_store(work, &none);
    uint64_t answer = yadvorkhul_edit_entry(role, split, value, store, yadvorkhul_case_cells(work), report,
                                            YADVORKHUL_REPORT_CELLS);
    return yadvorkhul_case_told(answer, report);
}

static inline struct yadvorkhul_told yadvorkhul_case_mark(struct yadvorkhul_case *work, size_t role, size_t mark) {
    uint64_t report[YADVORKHUL_REPORT_CELLS], none, *store = yadvorkhul_case_store(work, &none);
    uint64_t answer = yadvorkhul_set_mark(role, mark, store, yadvorkhul_case_cells(work), report, YADVORKHUL_REPORT_CELLS);
    return yadvorkhul_case_told(answer, report);
}

static inline struct yadvorkhul_told yadvorkhul_case_go_back(struct yadvorkhul_case *work, size_t role, size_t mark) {
    uint64_t report[YADVORKHUL_REPORT_CELLS], none, *store = yadvorkhul_case_store(work, &none);
    uint64_t answer = yadvorkhul_go_back(role, mark, store, yadvorkhul_case_cells(work), report, YADVORKHUL_REPORT_CELLS);
    return yadvorkhul_case_told(answer, report);
}

static inline struct yadvorkhul_told yadvorkhul_case_plan(const struct yadvorkhul_case *work, size_t role,
                                                          struct yadvorkhul_planned *planned, uint64_t *plan,
                                                          size_t plan_cells, uint64_t *splits, size_t splits_cells,
                                                          int64_t *freights, size_t freights_cells) {
    uint64_t report[YADVORKHUL_REPORT_CELLS], none, *store = yadvorkhul_case_store(work, &none);
    int64_t worth[YADVORKHUL_WORTH_CELLS];
    uint64_t answer = yadvorkhul_plan_case(role, store, yadvorkhul_case_cells(work), plan, plan_cells, splits, splits_cells,
                                           freights, freights_cells, report, YADVORKHUL_REPORT_CELLS, worth, YADVORKHUL_WORTH_CELLS);
    if (answer == 0) {
        planned->split = report[0];
        planned->stops = report[1];
        planned->total = worth[0];
        planned->freight = worth[1];
    }
    return yadvorkhul_case_told(answer, report);
}

static inline struct yadvorkhul_told yadvorkhul_case_see_tariff(const struct yadvorkhul_case *work, size_t role,
                                                                int64_t *costs, size_t costs_cells, uint64_t *supplies,
                                                                size_t supplies_cells, uint64_t *demands,
                                                                size_t demands_cells) {
    uint64_t report[YADVORKHUL_REPORT_CELLS], none, *store = yadvorkhul_case_store(work, &none);
    uint64_t answer = yadvorkhul_see_tariff(role, store, yadvorkhul_case_cells(work), costs, costs_cells, supplies,
                                            supplies_cells, demands, demands_cells, report, YADVORKHUL_REPORT_CELLS);
    return yadvorkhul_case_told(answer, report);
}

static inline struct yadvorkhul_told yadvorkhul_case_see_table(const struct yadvorkhul_case *work, size_t role,
                                                               uint64_t *table, size_t table_cells) {
    uint64_t report[YADVORKHUL_REPORT_CELLS], none, *store = yadvorkhul_case_store(work, &none);
    uint64_t answer = yadvorkhul_see_table(role, store, yadvorkhul_case_cells(work), table, table_cells, report,
                                           YADVORKHUL_REPORT_CELLS);
    return yadvorkhul_case_told(answer, report);
}

/* Plans the case that a mark holds, without going back. */
static inline struct yadvorkhul_told yadvorkhul_case_plan_mark(const struct yadvorkhul_case *work, size_t role, size_t mark,
                                                               struct yadvorkhul_planned *planned, uint64_t *plan,
                                                               size_t plan_cells, uint64_t *splits, size_t splits_cells,
                                                               int64_t *freights, size_t freights_cells) {
    uint64_t report[YADVORKHUL_REPORT_CELLS], none, *store = yadvorkhul_case_store(work, &none);
    int64_t worth[YADVORKHUL_WORTH_CELLS];
    uint64_t answer = yadvorkhul_plan_mark(role, mark, store, yadvorkhul_case_cells(work), plan, plan_cells, splits, splits_cells,
                                           freights, freights_cells, report, YADVORKHUL_REPORT_CELLS, worth, YADVORKHUL_WORTH_CELLS);
    if (answer == 0) {
        planned->split = report[0];
        planned->stops = report[1];
        planned->total = worth[0];
        planned->freight = worth[1];
    }
    return yadvorkhul_case_told(answer, report);
}

static inline struct yadvorkhul_told yadvorkhul_case_see_limits(const struct yadvorkhul_case *work, size_t role, uint64_t *runs,
                                                                size_t runs_cells, uint64_t *ceilings, size_t ceilings_cells) {
    uint64_t report[YADVORKHUL_REPORT_CELLS], none, *store = yadvorkhul_case_store(work, &none);
    uint64_t answer = yadvorkhul_see_limits(role, store, yadvorkhul_case_cells(work), runs, runs_cells, ceilings, ceilings_cells,
                                            report, YADVORKHUL_REPORT_CELLS);
    return yadvorkhul_case_told(answer, report);
}

/* Which marks are set: 1 or 0 in the first eight cells of marks. */
static inline struct yadvorkhul_told yadvorkhul_case_marks(const struct yadvorkhul_case *work, size_t role, uint64_t *marks,
                                                           size_t marks_cells) {
    uint64_t report[YADVORKHUL_REPORT_CELLS], none, *store = yadvorkhul_case_store(work, &none);
    uint64_t answer = yadvorkhul_marks_set(role, store, yadvorkhul_case_cells(work), marks, marks_cells, report,
                                           YADVORKHUL_REPORT_CELLS);
    return yadvorkhul_case_told(answer, report);
}

#ifdef __cplusplus
}
#endif
#endif
