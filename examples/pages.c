/* pages [FILE]: every lawful plan of a plan file (of standard input without FILE) with its cost, drawn page by page. */
#include <stdio.h>
#include <string.h>

#include "brennigou.h"

#define PLANS 100

/* A longer file is refused, and one byte more shows it. */
static uint8_t file[BRENNIGOU_FILE + 1];
static uint8_t arcs[BRENNIGOU_ARCS];
static int32_t cells[BRENNIGOU_CELLS];
static uint8_t page[PLANS * BRENNIGOU_SLOTS];
static uint8_t start[BRENNIGOU_SLOTS];

static int refused(uint32_t number) {
    printf("refused %u\n", (unsigned)number);
    return 1;
}

static void print_plan(const uint8_t *plan, size_t n, size_t len) {
    int32_t judged[BRENNIGOU_JUDGE_OUT];
    brennigou_judge(file, len, plan, n, judged, BRENNIGOU_JUDGE_OUT);
    printf("plan %d", (int)judged[1]);
    for (size_t i = 0; i < n; i++)
        printf(" %d", plan[i]);
    printf("\n");
}

int main(int argc, char **argv) {
    FILE *in = argc > 1 ? fopen(argv[1], "rb") : stdin;
    if (in == NULL) {
        perror(argv[1]);
        return 2;
    }
    size_t len = fread(file, 1, sizeof file, in);

    int32_t needs[BRENNIGOU_NEEDS_OUT];
    uint32_t number = brennigou_needs(file, len, BRENNIGOU_WIDTH, needs, BRENNIGOU_NEEDS_OUT);
    if (number != 0)
        return refused(number);
    size_t n = (size_t)needs[0], arcs_len = (size_t)needs[2], cells_len = (size_t)needs[3];

    /* The first page starts at the beginning, each other behind the last plan of the one before. */
    size_t start_len = 0;
    long listed = 0;
    int32_t drawn[BRENNIGOU_PAGE_OUT];
    do {
        number = brennigou_page(file, len, BRENNIGOU_WIDTH, BRENNIGOU_ROUNDS, BRENNIGOU_CEILING, start, start_len, arcs, arcs_len, cells,
                                cells_len, page, PLANS * n, drawn, BRENNIGOU_PAGE_OUT);
        if (number != 0)
            return refused(number);
        for (size_t k = 0; k < (size_t)drawn[0]; k++)
            print_plan(page + k * n, n, len);
        memcpy(start, page + (PLANS - 1) * n, n);
        start_len = n;
        listed += drawn[0];
    } while (drawn[1] == 1);
    printf("end %ld\n", listed);
    return 0;
}
