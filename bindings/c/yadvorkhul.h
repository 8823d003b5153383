/* The proved two-plant production and freight planner, for C and C++.

   The archive target/staticlib/libyadvorkhul.a, which `bindings/archive` writes, defines the functions. tools/check-declarations
   compares these declarations with the Rattle source (crates/yadvorkhul/src): a slice there is a pointer and then a length
   here, and a usize is a size_t of 64 bits.

   Threads may call these functions beside each other: they keep no state. The proof assumes that nobody else writes a slice
   during the call that it is lent to; of a store this is so where no edit, mark or return runs beside another call on it. */
#ifndef YADVORKHUL_H
#define YADVORKHUL_H

#include <stddef.h>
#include <stdint.h>

#ifdef __cplusplus
extern "C" {
#endif

#define YADVORKHUL_VERSION 10000     /* 1.0.0, see yadvorkhul_version */
#define YADVORKHUL_MOST_SOURCES 32   /* m is 2 to 32 */
#define YADVORKHUL_MOST_TERMINALS 64 /* n is 1 to 64 */
#define YADVORKHUL_MOST_COST 1000000 /* a unit cost is -1,000,000 to 1,000,000 */
#define YADVORKHUL_MOST_AMOUNT 4000  /* a supply, a demand or a ceiling is 0 to 4,000 */
#define YADVORKHUL_MOST_SPLITS 4001  /* stops of a case are never more */
#define YADVORKHUL_REPORT_CELLS 2
#define YADVORKHUL_WORTH_CELLS 2
#define YADVORKHUL_SHORT_REPORT 34
#define YADVORKHUL_MOST_NODES 32     /* of a network */
#define YADVORKHUL_MOST_ARCS 64
#define YADVORKHUL_LONGEST_FILE 65536
#define YADVORKHUL_STORED_ENTRIES 4002 /* of a production file */
#define YADVORKHUL_READ_CELLS 3      /* of the report of yadvorkhul_read_case */
#define YADVORKHUL_PLAN_TEXT 174265
#define YADVORKHUL_BOUNDS_TEXT 172286
#define YADVORKHUL_FLOW_TEXT 5662
#define YADVORKHUL_MOST_STORE 73908 /* the cells of the largest store, of 32 sources and 64 terminals */

/* Who calls: the role that is handed to every call on a working case. */
enum yadvorkhul_role {
    YADVORKHUL_PLANNER = 1, /* may do all */
    YADVORKHUL_PLANT = 2,   /* may edit entries, see the tariff and the table */
    YADVORKHUL_DEPOT = 3,   /* may edit demands and supplies, the first supply aside, and see the tariff */
    YADVORKHUL_READER = 4   /* may see the tariff */
};

/* Plans a case, or refuses it. Any numbers and any lengths may be passed; nothing else is required of them.

   m, n         sources and terminals. Sources 1 and 2 are plants, the others depots.
   run1, run2   the least that plant 1 and plant 2 must make, at most its supply each; 0 for none
   costs        m × n unit costs, one source's together, row after row: source i to terminal j (from 0) at i × n + j;
                a rebate is a cost below 0
   supplies     m numbers: the most each of the plants can make, then each depot's stock, which must all leave
   demands      n numbers: what each terminal takes
   ceilings     m × n numbers, in the order of the costs: the most that each lane carries; 0 closes it,
                YADVORKHUL_MOST_AMOUNT on every lane is no bound
   table        one entry more than the first supply: entry y is the cost of both plants together when plant 1 makes y;
                of any shape, steps and fixed charges included
   plan         gets the amounts in its first m × n cells, in the order of the costs: of the cheapest plans at the split
                given, the one that has the smaller amount at the first lane where it differs from another
   splits       gets the stops of the freight curve, rising: l, u, and each split between where the slope changes, no others;
                give it one cell for each split, YADVORKHUL_MOST_SPLITS at most
   freights     gets the least freight at each stop; as long as splits
   report       at least YADVORKHUL_REPORT_CELLS cells; gets in its first cells
                  split, count of stops      where the answer is 0
                  the place of the refusal   where it is another
   worth        at least YADVORKHUL_WORTH_CELLS cells; gets in its first cells
                  total, freight             where the answer is 0

   The splits: with d for all demands minus all depot stock, plant 1 makes at least run1 and d - supplies[1], at most
   supplies[0] and d - run2, and plant 2 the rest of d. Of these splits l is the least and u the greatest at which a plan is
   within the ceilings. Where d is below run1 + run2 the answer is 7; where run1 or run2 is above its plant's supply it is 23,
   with place 1 or 2, tested straight after 4. Where the ceilings are not m × n the answer is 26 with place 0, where one is
   above 4,000 it is 26 with that lane as place, from 1 in the order of the costs, both tested after 5. Where the sums are in
   balance but no plan is within both the ceilings and the runs it is 27, tested after 8.

   Costs, freights and worth are signed; the total is -128,000,000,000 to 129,000,000,000. Each pointer is followed by its
   number of cells. It points at that many numbers that lie together and are aligned for uint64_t; it may not be null, even
   where the number is 0. plan, splits, freights, report and worth overlap nothing.

   Answers 0 where the case is planned, or the number of the first test that it fails (1 to 9, 11, 23, 26 and 27, see
   docs/refusals.md), or YADVORKHUL_SHORT_REPORT where report or worth is too short for anything to be told. On a refusal plan,
   splits, freights and worth keep their contents. All cells that are not named here keep theirs always. It needs about
   69 kB of stack, and no heap. */
uint64_t yadvorkhul_plan(size_t m, size_t n, uint64_t run1, uint64_t run2,
                         const int64_t *costs, size_t costs_cells,
                         const uint64_t *supplies, size_t supplies_cells,
                         const uint64_t *demands, size_t demands_cells,
                         const uint64_t *ceilings, size_t ceilings_cells,
                         const uint64_t *table, size_t table_cells,
                         uint64_t *plan, size_t plan_cells,
                         uint64_t *splits, size_t splits_cells,
                         int64_t *freights, size_t freights_cells,
                         uint64_t *report, size_t report_cells,
                         int64_t *worth, size_t worth_cells);

/* Writes the square-root rates, a production table for a house that has none: for each y from 0 to most, 100 times the
   square root of y, rounded down, in the first most + 1 cells of to, which is passed like the slices above.

   Answers 0; or 4 where most is above YADVORKHUL_MOST_AMOUNT, or 11 where to has fewer cells, and then writes nothing. Later
   cells keep their contents. It needs about 32 kB of stack. */
uint64_t yadvorkhul_rates(uint64_t most, uint64_t *to, size_t to_cells);

/* Tells which splits can be the cheapest where each production entry is known between a low and a high one only: a split can
   if some table of whole entries, between the bounds at every split, makes its total no greater than that of any other.

   m .. ceilings   as for yadvorkhul_plan
   low             one entry more than the first supply; it stands as the case's own table in tests 6 and 9
   high            as long as low; at each split from its low entry to 1,000,000,000
   answers         gets 1 or 0 for each split, from the first split up; give it one cell for each split,
                   YADVORKHUL_MOST_SPLITS at most
   report          at least YADVORKHUL_REPORT_CELLS cells; gets in its first cells
                     first split, count of splits   where the answer is 0
                     the place of the refusal       where it is another
   worth           at least YADVORKHUL_WORTH_CELLS cells; gets in its first cells, where the answer is 0, the smallest and the
                   largest that the least total can be

   Answers 0, or the number of the first test that fails: those of yadvorkhul_plan with low as the table, 11 aside; then 28
   where high is not as long as low (place 0), or its entry at split y is below the low one or above 1,000,000,000 (place y);
   then 11 where answers has fewer cells than there are splits; or YADVORKHUL_SHORT_REPORT, before all else. On a refusal answers
   and worth keep their contents. All cells that are not named here keep theirs always. What is said above of pointers holds
   here too; it needs about 181 kB of stack, and no heap. */
uint64_t yadvorkhul_bounds(size_t m, size_t n, uint64_t run1, uint64_t run2,
                           const int64_t *costs, size_t costs_cells,
                           const uint64_t *supplies, size_t supplies_cells,
                           const uint64_t *demands, size_t demands_cells,
                           const uint64_t *ceilings, size_t ceilings_cells,
                           const uint64_t *low, size_t low_cells,
                           const uint64_t *high, size_t high_cells,
                           uint64_t *answers, size_t answers_cells,
                           uint64_t *report, size_t report_cells,
                           int64_t *worth, size_t worth_cells);

/* A working case with marks 1 to 8, in a store that the caller keeps: yadvorkhul_store_cells(m, n) cells, which need not be
   cleared. yadvorkhul_enter puts a case into it; between calls it stays as the last call left it. Its cells are no business of
   the caller's: they hold every production entry, so whoever must not see these must not be handed the store. That the role
   is that of the person who asks is for the caller to see to.

   Sources, terminals and marks are counted from 1 here, entries from 0. Each function answers 0 where it has done what it
   says, or the number of the first test that fails, with its place in the first cell of report; nothing else is then
   changed. report has at least YADVORKHUL_REPORT_CELLS cells: else the answer is YADVORKHUL_SHORT_REPORT, and nothing is done.
   What is said above of pointers holds here too; slices that are written overlap nothing.

     31   before all else, entering aside: a deed that the role may not do, or no role (place 0)
     11   then: the store holds no working case (place 0)
     24   a mark outside 1 to 8, or an edit at a source, terminal, lane or entry that the case lacks (place 0)
     25   going back to a mark that was never set (place the mark)
     4    a demand or supply above 4,000 (place the source, or m + the terminal)
     5    a unit cost out of range (place the lane, from 1 in the order of the costs)
     23   a supply below its plant's least run (place the plant) */

/* How many cells a store for m sources and n terminals must have; 0 where no case has that size. */
size_t yadvorkhul_store_cells(size_t m, size_t n);

/* Enters a case, passed as to yadvorkhul_plan; no mark is set. Answers 0, or the number of the first of the tests 1 to 6 that
   fails (with 23 after 4 and 26 after 5), or 11 where the store is too short. Balance and entries are judged when the case is
   planned. */
uint64_t yadvorkhul_enter(size_t m, size_t n, uint64_t run1, uint64_t run2,
                          const int64_t *costs, size_t costs_cells,
                          const uint64_t *supplies, size_t supplies_cells,
                          const uint64_t *demands, size_t demands_cells,
                          const uint64_t *ceilings, size_t ceilings_cells,
                          const uint64_t *table, size_t table_cells,
                          uint64_t *store, size_t store_cells,
                          uint64_t *report, size_t report_cells);

/* Edits. Another first supply lengthens the table with zeros, or cuts it. An entry may be any number. */
uint64_t yadvorkhul_edit_demand(size_t role, size_t terminal, uint64_t value, uint64_t *store, size_t store_cells,
                                uint64_t *report, size_t report_cells);
uint64_t yadvorkhul_edit_supply(size_t role, size_t source, uint64_t value, uint64_t *store, size_t store_cells,
                                uint64_t *report, size_t report_cells);
uint64_t yadvorkhul_edit_cost(size_t role, size_t source, size_t terminal, int64_t value, uint64_t *store, size_t store_cells,
                              uint64_t *report, size_t report_cells);
uint64_t yadvorkhul_edit_entry(size_t role, size_t split, uint64_t value, uint64_t *store, size_t store_cells,
                               uint64_t *report, size_t report_cells);

/* Sets a mark: it holds the whole case as it is now, whatever it held before. */
uint64_t yadvorkhul_set_mark(size_t role, size_t mark, uint64_t *store, size_t store_cells,
                             uint64_t *report, size_t report_cells);

/* Makes the case what it was when the mark was last set; all marks keep theirs. */
uint64_t yadvorkhul_go_back(size_t role, size_t mark, uint64_t *store, size_t store_cells,
                            uint64_t *report, size_t report_cells);

/* Plans the working case: plan, splits, freights, report and worth as for yadvorkhul_plan, which the case as it is now would be
   passed to. It needs about 102 kB of stack, and no heap. */
uint64_t yadvorkhul_plan_case(size_t role, const uint64_t *store, size_t store_cells,
                              uint64_t *plan, size_t plan_cells,
                              uint64_t *splits, size_t splits_cells,
                              int64_t *freights, size_t freights_cells,
                              uint64_t *report, size_t report_cells,
                              int64_t *worth, size_t worth_cells);

/* Copies the tariff as it is now: m × n unit costs, m supplies and n demands. Later cells keep their contents; 11 where a slice
   is too short. */
uint64_t yadvorkhul_see_tariff(size_t role, const uint64_t *store, size_t store_cells,
                               int64_t *costs, size_t costs_cells,
                               uint64_t *supplies, size_t supplies_cells,
                               uint64_t *demands, size_t demands_cells,
                               uint64_t *report, size_t report_cells);

/* Copies the entries as they are now, one more than the first supply. Later cells keep their contents; 11 where the slice is
   too short: YADVORKHUL_MOST_SPLITS cells are always enough. */
uint64_t yadvorkhul_see_table(size_t role, const uint64_t *store, size_t store_cells,
                              uint64_t *table, size_t table_cells,
                              uint64_t *report, size_t report_cells);

/* Copies the limits of the case, which no call alters: the two least runs into the first cells of runs, m × n ceilings into those of
   ceilings. Later cells keep their contents; 11 where a slice is too short. The planner's alone. */
uint64_t yadvorkhul_see_limits(size_t role, const uint64_t *store, size_t store_cells,
                               uint64_t *runs, size_t runs_cells,
                               uint64_t *ceilings, size_t ceilings_cells,
                               uint64_t *report, size_t report_cells);

/* Writes 1 for each mark that is set, else 0, into the first eight cells of marks; 11 where there are fewer. The planner's alone. */
uint64_t yadvorkhul_marks_set(size_t role, const uint64_t *store, size_t store_cells,
                              uint64_t *marks, size_t marks_cells,
                              uint64_t *report, size_t report_cells);

/* Plans the case that a mark holds, without going back: as yadvorkhul_plan_case after yadvorkhul_go_back, and the store stays as it is.
   24 where the mark is none of 1 to 8, 25 where it was never set (place: the mark). The planner's alone. */
uint64_t yadvorkhul_plan_mark(size_t role, size_t mark, const uint64_t *store, size_t store_cells,
                              uint64_t *plan, size_t plan_cells,
                              uint64_t *splits, size_t splits_cells,
                              int64_t *freights, size_t freights_cells,
                              uint64_t *report, size_t report_cells,
                              int64_t *worth, size_t worth_cells);

/* Finds a least-cost whole flow of a network in DIMACS form, where a table replaces the cost of one arc. Any bytes, numbers and
   lengths may be passed.

   bytes      the file: lines c, p min, n and a, each ended by LF
   place      the arc whose cost the table replaces, by its place among the a lines, from 1
   table      one entry more than that arc's ceiling: entry x is the cost of x units on it, 0 to 1,000,000,000, of any shape
   flow       gets the flow on each arc, in file order
   starts     gets each arc's start, in file order; ends, ceilings and costs likewise. Give these five YADVORKHUL_MOST_ARCS cells
   report     at least one cell; gets in its first
                the count of arcs          where the answer is 0
                the place of the refusal   where it is another
   worth      at least one cell; gets the total in its first where the answer is 0

   Of the flows with the least total one with the smallest flow on the named arc is given; ties that are left are the program's.

   Answers 0, or the number of the first test that fails: 29 for a line that is not of the form (place: the line, from 1; a missing
   one is the one after the last); 30 for a size, range, node number, arc place or table length outside the limits, two n lines for
   one node, one of the five slices shorter than the arcs, or an arc from a node to itself (place 0); 27 where no flow exists
   (place 0); or YADVORKHUL_SHORT_REPORT, before all else. On a refusal all cells but the report's first keep their contents. All
   cells that are not named here keep theirs always. What is said above of pointers holds here too, the bytes' aside, which may lie
   anywhere; it needs about 218 kB of stack, and no heap. */
uint64_t yadvorkhul_flow(const uint8_t *bytes, size_t bytes_cells, size_t place,
                         const uint64_t *table, size_t table_cells,
                         uint64_t *flow, size_t flow_cells,
                         uint64_t *starts, size_t starts_cells,
                         uint64_t *ends, size_t ends_cells,
                         uint64_t *ceilings, size_t ceilings_cells,
                         int64_t *costs, size_t costs_cells,
                         uint64_t *report, size_t report_cells,
                         int64_t *worth, size_t worth_cells);

/* ---- from the bytes of files, as the programs plan, bounds, flow and tidy read and print them

   A file is lent as its bytes, which may lie anywhere; a text is written as bytes. Any bytes and any lengths may be passed. Each
   function answers 0 or the number of the refusal, and YADVORKHUL_SHORT_REPORT, before all else, where its report is too short;
   then nothing is done. The refusals of a file are 20 (longer than 65,536 bytes; lend so many where a file cannot be read),
   21 (a byte that cannot stand there, place its offset from 0) and 22 (another count of fields, place the record from 1). All
   cells that are not named here keep their contents. What is said above of pointers holds here too; the stack that each needs
   stands in docs/using.md. */

/* 10,000 times the major number of the archive's version, 100 times the minor one, and the patch: YADVORKHUL_VERSION, unless
   header and archive are of two builds. */
uint64_t yadvorkhul_version(void);

/* Reads the case of a tariff and a production file.

   costs      gets m × n unit costs; give it YADVORKHUL_MOST_SOURCES × YADVORKHUL_MOST_TERMINALS cells
   supplies   gets m numbers; YADVORKHUL_MOST_SOURCES cells are enough
   demands    gets n numbers; YADVORKHUL_MOST_TERMINALS cells are enough
   table      gets the entries, YADVORKHUL_STORED_ENTRIES at most, which is one more than any case that is planned has
   report     at least YADVORKHUL_READ_CELLS cells; gets in its first cells
                m, n, count of entries                                 where the answer is 0
                the place of the refusal, 1 for the tariff or 2 for
                the production file or 0 for neither                   where it is another

   Refusals: 20 to 22 of the tariff, then of the production file; then 1 or 2 where m is not 2 to 32 or n not 1 to 64, so that
   no such case is planned; then 11 where a slice is too short. On a refusal no number is stored. */
uint64_t yadvorkhul_read_case(const uint8_t *tariff, size_t tariff_cells,
                              const uint8_t *production, size_t production_cells,
                              int64_t *costs, size_t costs_cells,
                              uint64_t *supplies, size_t supplies_cells,
                              uint64_t *demands, size_t demands_cells,
                              uint64_t *table, size_t table_cells,
                              uint64_t *report, size_t report_cells);

/* Reads a production file alone: table as above, the count of entries or the refusal's place in the first cell of report, which
   has at least YADVORKHUL_REPORT_CELLS. Refusals 20 to 22, then 11. */
uint64_t yadvorkhul_read_table(const uint8_t *production, size_t production_cells,
                               uint64_t *table, size_t table_cells,
                               uint64_t *report, size_t report_cells);

/* Prints the plan of a tariff and a production file, or the refusal, as the program plan does: a case of two files has least runs 0
   and no ceilings. text gets as much of the text as it has room for: YADVORKHUL_PLAN_TEXT cells are always enough. report, of at
   least YADVORKHUL_REPORT_CELLS cells, gets in its first cells the text's whole length, and the refusal's place or 0. Refusals 20 to 22
   of the files, then those of yadvorkhul_plan. */
uint64_t yadvorkhul_plan_files(const uint8_t *tariff, size_t tariff_cells,
                               const uint8_t *production, size_t production_cells,
                               uint8_t *text, size_t text_cells,
                               uint64_t *report, size_t report_cells);

/* Prints which splits can be the cheapest, of a tariff and the production files of the low and the high entries, as the program
   bounds does; YADVORKHUL_BOUNDS_TEXT cells are always enough. Refusals 20 to 22 of the tariff, the low and the high file, then those
   of yadvorkhul_bounds. */
uint64_t yadvorkhul_bounds_files(const uint8_t *tariff, size_t tariff_cells,
                                 const uint8_t *low, size_t low_cells,
                                 const uint8_t *high, size_t high_cells,
                                 uint8_t *text, size_t text_cells,
                                 uint64_t *report, size_t report_cells);

/* Prints the least-cost flow of a network file, where the entries of a table file replace the cost of the arc that a text of one to
   four digits names, as the program flow does; YADVORKHUL_FLOW_TEXT cells are always enough. Refusals: 20 and 29 of the network,
   20 to 22 of the table file, 30, 27. */
uint64_t yadvorkhul_flow_files(const uint8_t *network, size_t network_cells,
                               const uint8_t *arc, size_t arc_cells,
                               const uint8_t *table, size_t table_cells,
                               uint8_t *text, size_t text_cells,
                               uint64_t *report, size_t report_cells);

/* Writes a case out as its two files; it has least runs 0 and no ceilings. m .. table as for yadvorkhul_plan. tariff and production
   get the texts: YADVORKHUL_LONGEST_FILE cells each are always enough. report, of at least YADVORKHUL_REPORT_CELLS cells, gets in its first
   cells both lengths, or the refusal's place. Refusals 1 to 9 as for yadvorkhul_plan, then 32 for a table entry above
   9,999,999,999 (place its split), then 33 where a slice is shorter than its text. On a refusal no text is written. */
uint64_t yadvorkhul_write_case(size_t m, size_t n,
                               const int64_t *costs, size_t costs_cells,
                               const uint64_t *supplies, size_t supplies_cells,
                               const uint64_t *demands, size_t demands_cells,
                               const uint64_t *table, size_t table_cells,
                               uint8_t *tariff, size_t tariff_cells,
                               uint8_t *production, size_t production_cells,
                               uint64_t *report, size_t report_cells);

/* Writes the case of two files as two new ones, in the one form that depends on the case alone; the rest as for
   yadvorkhul_write_case, with 20 to 22 of the files before all other refusals. */
uint64_t yadvorkhul_tidy_files(const uint8_t *tariff, size_t tariff_cells,
                               const uint8_t *production, size_t production_cells,
                               uint8_t *new_tariff, size_t new_tariff_cells,
                               uint8_t *new_production, size_t new_production_cells,
                               uint64_t *report, size_t report_cells);

#ifdef __cplusplus
}
#endif

#endif
