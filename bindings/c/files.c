/* Reads, plans, prints and writes out case A from the bytes of its files, and looks at what is refused. */
#include "yadvorkhul.h"
#include <inttypes.h>
#include <stdio.h>
#include <string.h>

static const uint8_t tariff[] = "2,6,3\r\n5,3,3\r\n1,4,1\r\n3,2,", production[] = "99\r\n20\r\n24\r\n20";
static const uint8_t network[] = "p min 2 2\nn 1 3\nn 2 -3\na 1 2 0 2 5\na 1 2 0 3 1\n", costs_of_arc[] = "0\r\n4\r\n6\r\n20";
static uint8_t text[YADVORKHUL_PLAN_TEXT], more[YADVORKHUL_LONGEST_FILE];
static int64_t costs[YADVORKHUL_MOST_SOURCES * YADVORKHUL_MOST_TERMINALS];
static uint64_t supplies[YADVORKHUL_MOST_SOURCES], demands[YADVORKHUL_MOST_TERMINALS], table[YADVORKHUL_STORED_ENTRIES];

#define LENGTH(bytes) (sizeof(bytes) - 1)

static uint64_t read_files(const uint8_t *t, size_t tl, const uint8_t *p, size_t pl, size_t table_cells, uint64_t *report) {
    return yadvorkhul_read_case(t, tl, p, pl, costs, sizeof costs / 8, supplies, YADVORKHUL_MOST_SOURCES,
                                demands, YADVORKHUL_MOST_TERMINALS, table, table_cells, report, YADVORKHUL_READ_CELLS);
}

static void print(const char *name, uint64_t number, const uint64_t *report) {
    printf("%s: %" PRIu64 ", %" PRIu64 " bytes, place %" PRIu64 "\n%.*s", name, number, report[0], report[1], (int)report[0], text);
}

int main(void) {
    uint64_t report[YADVORKHUL_READ_CELLS] = {7, 7, 7};
    printf("version: %s\n", yadvorkhul_version() == YADVORKHUL_VERSION ? "the header's" : "another");

    printf("read: %" PRIu64, read_files(tariff, LENGTH(tariff), production, LENGTH(production), YADVORKHUL_STORED_ENTRIES, report));
    printf(", m %" PRIu64 ", n %" PRIu64 ", entries %" PRIu64, report[0], report[1], report[2]);
    printf(", first cost %" PRId64 ", last entry %" PRIu64 "\n", costs[0], table[3]);
    uint64_t number = yadvorkhul_write_case(3, 2, costs, 6, supplies, 3, demands, 2, table, 4, text, sizeof text, more, sizeof more, report, 2);
    printf("written: %" PRIu64 ", %" PRIu64 " and %" PRIu64 " bytes, as they were: %s\n", number, report[0], report[1],
           memcmp(text, tariff, LENGTH(tariff)) || memcmp(more, production, LENGTH(production)) ? "no" : "yes");
    printf("too short for a text: %" PRIu64 "\n",
           yadvorkhul_write_case(3, 2, costs, 6, supplies, 3, demands, 2, table, 4, text, 5, more, sizeof more, report, 2));
    number = yadvorkhul_tidy_files(tariff, LENGTH(tariff), production, LENGTH(production), text, sizeof text, more, sizeof more, report, 2);
    printf("tidy: %" PRIu64 ", %" PRIu64 " and %" PRIu64 " bytes\n", number, report[0], report[1]);

    memset(table, 0, sizeof table);
    printf("no CR: %" PRIu64, read_files((const uint8_t *)"2,6,3\n", 6, production, LENGTH(production), YADVORKHUL_STORED_ENTRIES, report));
    printf(" at %" PRIu64 " of file %" PRIu64 "\n", report[0], report[1]);
    printf("too short: %" PRIu64, read_files(tariff, LENGTH(tariff), production, LENGTH(production), 3, report));
    printf(", entries stored: %d\n", table[0] != 0);
    printf("table: %" PRIu64, yadvorkhul_read_table(production, LENGTH(production), table, 4, report, 2));
    printf(", %" PRIu64 " entries, the last %" PRIu64 "\n", report[0], table[3]);

    number = yadvorkhul_plan_files(tariff, LENGTH(tariff), production, LENGTH(production), text, sizeof text, report, 2);
    print("plan", number, report);
    number = yadvorkhul_bounds_files(tariff, LENGTH(tariff), production, LENGTH(production), production, LENGTH(production), text, sizeof text, report, 2);
    print("bounds", number, report);
    number = yadvorkhul_flow_files(network, LENGTH(network), (const uint8_t *)"2", 1, costs_of_arc, LENGTH(costs_of_arc), text, sizeof text, report, 2);
    print("flow", number, report);
    number = yadvorkhul_plan_files(tariff, LENGTH(tariff), (const uint8_t *)"99;20", 5, text, sizeof text, report, 2);
    print("semicolon", number, report);
    printf("short report: %" PRIu64 "\n", yadvorkhul_plan_files(tariff, LENGTH(tariff), production, LENGTH(production), text, sizeof text, report, 1));
}
