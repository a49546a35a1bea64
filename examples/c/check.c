/* The program `check` in C: runs the plan of the sheet on the standard input, writes its rows and its verdict.
 *
 *     (cd crates/unit && rt lib)
 *     mkdir -p target
 *     cc -O2 -Iinclude examples/c/check.c crates/unit/out/libunit.a -o target/check_c
 *     target/check_c < examples/bench.sheet
 */
#include <inttypes.h>
#include <stdio.h>

#include "krepuskilo.h"

int main(void)
{
    /* No accepted sheet is longer than 3,711 bytes, so the first 4,096 decide. */
    static uint8_t sheet[4096];
    uint64_t rows[KREPUSKILO_ROWS];
    uint32_t table[KREPUSKILO_TABLE];
    uint64_t info[KREPUSKILO_INFO];
    size_t n = fread(sheet, 1, sizeof sheet, stdin);
    size_t i;
    uint8_t answer;

    /* A row is written exactly if its place comes to stand in it. */
    for (i = 0; i < KREPUSKILO_ROWS; i++)
        rows[i] = UINT64_MAX;
    answer = krepuskilo_run(sheet, n, rows, KREPUSKILO_ROWS, table, KREPUSKILO_TABLE, info, KREPUSKILO_INFO);
    if (answer != 0) {
        printf("refused %u at %" PRIu64 "\n", answer, info[0]);
        return 0;
    }
    puts("place entries clauses");
    for (i = 0; 3 * i < KREPUSKILO_ROWS && rows[3 * i] == i; i++) {
        printf("%zu %" PRIu64 " ", i, rows[3 * i + 1]);
        if (rows[3 * i + 2] == KREPUSKILO_FULL_PICTURE)
            puts("-");
        else
            printf("%" PRIu64 "\n", rows[3 * i + 2]);
    }
    switch (info[1]) {
    case 0:
        puts("reached");
        break;
    case 1:
        puts("short");
        break;
    case 2:
        printf("stopped %" PRIu64 " at %" PRIu64 "\n", info[3], info[2]);
        break;
    default:
        printf("full at %" PRIu64 "\n", info[2]);
    }
    return 0;
}
