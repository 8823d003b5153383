/* Case A as a working case: edits, marks and returns, each plan beside that of the same case passed afresh, what is refused, and what
   a depot and a reader get of two stores that differ in production entries alone. */
#include "yadvorkhul.h"

#include <inttypes.h>
#include <stdio.h>
#include <string.h>

#define CELLS(a) (sizeof(a) / sizeof((a)[0]))

static const uint64_t ceilings[] = {4000, 4000, 4000, 4000, 4000, 4000};

/* A working case of 3 sources and 2 terminals. */
struct work {
    uint64_t cells[YADVORKHUL_MOST_STORE], report[YADVORKHUL_REPORT_CELLS];
    size_t count;
};

static struct work work, other;

static uint64_t enter(struct work *w, uint64_t run2, uint64_t entry3) {
    const int64_t costs[] = {2, 6, 5, 3, 1, 4};
    const uint64_t supplies[] = {3, 3, 1}, demands[] = {3, 2}, table[] = {99, 20, 24, entry3};
    w->count = yadvorkhul_store_cells(3, 2);
    return yadvorkhul_enter(3, 2, 0, run2, costs, CELLS(costs), supplies, CELLS(supplies), demands, CELLS(demands),
                            ceilings, CELLS(ceilings), table, CELLS(table), w->cells, w->count, w->report, CELLS(w->report));
}

static uint64_t demand(struct work *w, size_t role, size_t j, uint64_t v) {
    return yadvorkhul_edit_demand(role, j, v, w->cells, w->count, w->report, CELLS(w->report));
}

static uint64_t supply(struct work *w, size_t role, size_t i, uint64_t v) {
    return yadvorkhul_edit_supply(role, i, v, w->cells, w->count, w->report, CELLS(w->report));
}

static uint64_t cost(struct work *w, size_t role, size_t i, size_t j, int64_t v) {
    return yadvorkhul_edit_cost(role, i, j, v, w->cells, w->count, w->report, CELLS(w->report));
}

static uint64_t entry(struct work *w, size_t role, size_t y, uint64_t v) {
    return yadvorkhul_edit_entry(role, y, v, w->cells, w->count, w->report, CELLS(w->report));
}

static uint64_t mark(struct work *w, size_t role, size_t k) {
    return yadvorkhul_set_mark(role, k, w->cells, w->count, w->report, CELLS(w->report));
}

static uint64_t back(struct work *w, size_t role, size_t k) {
    return yadvorkhul_go_back(role, k, w->cells, w->count, w->report, CELLS(w->report));
}

static void say(const char *what, uint64_t answer) {
    if (answer == 0) printf("%s: done\n", what);
    else printf("%s: refusal %" PRIu64 " at place %" PRIu64 "\n", what, answer, work.report[0]);
}

/* What is got by a call that writes: the answer, and every lent cell. */
struct got {
    uint64_t answer, plan[6], splits[16], report[2], supplies[4], demands[3], table[16];
    int64_t freights[16], worth[2], costs[7];
};

static void clear(struct got *g) { memset(g, 7, sizeof *g); }

static void plan(const struct work *w, size_t role, struct got *g) {
    g->answer = yadvorkhul_plan_case(role, w->cells, w->count, g->plan, CELLS(g->plan), g->splits, CELLS(g->splits),
                                     g->freights, CELLS(g->freights), g->report, CELLS(g->report), g->worth, CELLS(g->worth));
}

static void tariff(const struct work *w, size_t role, struct got *g) {
    g->answer = yadvorkhul_see_tariff(role, w->cells, w->count, g->costs, CELLS(g->costs), g->supplies, CELLS(g->supplies),
                                      g->demands, CELLS(g->demands), g->report, CELLS(g->report));
}

static void table(const struct work *w, size_t role, struct got *g) {
    g->answer = yadvorkhul_see_table(role, w->cells, w->count, g->table, CELLS(g->table), g->report, CELLS(g->report));
}

/* Plans the working case, and the case that a planner sees in it passed afresh: split and total, and whether each lent cell agrees. */
static void compare(const char *what) {
    struct got a, b;
    clear(&a);
    clear(&b);
    tariff(&work, YADVORKHUL_PLANNER, &b);
    table(&work, YADVORKHUL_PLANNER, &b);
    b.answer = yadvorkhul_plan(3, 2, 0, 1, b.costs, 6, b.supplies, 3, b.demands, 2, ceilings, 6, b.table, b.supplies[0] + 1,
                               b.plan, CELLS(b.plan), b.splits, CELLS(b.splits), b.freights, CELLS(b.freights),
                               b.report, CELLS(b.report), b.worth, CELLS(b.worth));
    plan(&work, YADVORKHUL_PLANNER, &a);
    int same = a.answer == b.answer && !memcmp(a.plan, b.plan, sizeof a.plan) && !memcmp(a.splits, b.splits, sizeof a.splits)
               && !memcmp(a.freights, b.freights, sizeof a.freights) && !memcmp(a.report, b.report, sizeof a.report)
               && !memcmp(a.worth, b.worth, sizeof a.worth);
    printf("%s: ", what);
    if (a.answer == 0) printf("split %" PRIu64 ", total %" PRId64, a.report[0], a.worth[0]);
    else printf("refusal %" PRIu64 " at place %" PRIu64, a.answer, a.report[0]);
    printf(", afresh: %s\n", same ? "the same" : "NOT THE SAME");
}

/* What a role gets of both stores by one kind of call: the answer, and whether any cell differs. */
static void veiled(const char *what, size_t role, void (*call)(const struct work *, size_t, struct got *)) {
    struct got a, b;
    clear(&a);
    clear(&b);
    call(&work, role, &a);
    call(&other, role, &b);
    printf("%s: %" PRIu64 ", of both stores %s\n", what, a.answer, memcmp(&a, &b, sizeof a) ? "NOT THE SAME" : "the same");
}

int main(void) {
    const size_t planner = YADVORKHUL_PLANNER, plant = YADVORKHUL_PLANT, depot = YADVORKHUL_DEPOT, reader = YADVORKHUL_READER;
    printf("cells for 3 and 2: %zu, for 33 and 2: %zu\n", yadvorkhul_store_cells(3, 2), yadvorkhul_store_cells(33, 2));
    work.count = 100;
    say("mark before a case is entered", mark(&work, planner, 1));
    say("least run 4 of plant 2, which makes 3", enter(&work, 4, 20));
    say("case A with a least run of 1", enter(&work, 1, 20));
    compare("planned");
    say("mark 3", mark(&work, planner, 3));
    say("demand of terminal 2 to 4", demand(&work, depot, 2, 4));
    say("supply of plant 1 to 5", supply(&work, planner, 1, 5));
    compare("planned with entries 0 for 4 and 5");
    say("entry 5 to 1", entry(&work, plant, 5, 1));
    say("cost from 3 to 2 to -40", cost(&work, planner, 3, 2, -40));
    say("mark 8", mark(&work, planner, 8));
    compare("planned");
    say("back to 3", back(&work, planner, 3));
    compare("planned");
    say("back to 8", back(&work, planner, 8));
    compare("planned");
    say("mark 9", mark(&work, planner, 9));
    say("back to 0", back(&work, planner, 0));
    say("back to 2", back(&work, planner, 2));
    say("demand of terminal 3", demand(&work, planner, 3, 1));
    say("demand 4,001", demand(&work, planner, 2, 4001));
    say("supply 0 of plant 2", supply(&work, planner, 2, 0));
    say("cost 1,000,001", cost(&work, planner, 2, 1, 1000001));
    say("entry 6 of a table to 5", entry(&work, planner, 6, 1));
    say("depot, supply of plant 1", supply(&work, depot, 1, 4));
    say("depot, mark 9", mark(&work, depot, 9));
    say("role 5, demand", demand(&work, 5, 1, 1));
    compare("planned, nothing changed by what was refused");

    if (enter(&work, 1, 20) || enter(&other, 1, 2000000000)) return 1;
    if (mark(&work, planner, 1) || mark(&other, planner, 1) || entry(&other, planner, 1, 7)) return 1;
    veiled("depot, tariff", depot, tariff);
    veiled("depot, table", depot, table);
    veiled("depot, plan", depot, plan);
    veiled("reader, tariff", reader, tariff);
    veiled("reader, table", reader, table);
    veiled("reader, plan", reader, plan);
    return 0;
}
