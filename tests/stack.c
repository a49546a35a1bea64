/* The stack that each call takes, measured: the call runs on a stack of its own that was filled with one byte value, and the deepest byte
 * that changed counts. The sheets are the files named as arguments and some made here, on which the calls go down as deep as they can: a
 * oneof-clause of eight alternatives, a move of eight conditions that each split, a search of eight moves over tables that all differ, so
 * that no memory cuts it short, which ends in such a move. A search with a memory is measured without slots and with four.
 * Fails if a call takes more than krepuskilo.h says. The last line is `N passed, M failed`. */
#include <stdio.h>
#include <string.h>
#include <ucontext.h>

#include "krepuskilo.h"

#define ROOM (1 << 20)
#define FILL 0xa5

enum { JUDGE, START, STEP, PICTURE, RUN, SEARCH, SEARCH_WITH, CALLS };
static const char *const names[CALLS] = {"judge", "start", "step", "picture", "run", "search", "search_with"};
static const size_t stated[CALLS] = {KREPUSKILO_STACK_JUDGE,  KREPUSKILO_STACK_START,  KREPUSKILO_STACK_STEP,       KREPUSKILO_STACK_PICTURE,
                                     KREPUSKILO_STACK_RUN,    KREPUSKILO_STACK_SEARCH, KREPUSKILO_STACK_SEARCH_WITH};
static size_t deepest[CALLS];

static uint8_t room[ROOM] __attribute__((aligned(64)));
static ucontext_t here, there;

/* What the call under measure works on. */
static int call;
static uint8_t sheet[4096], picture[KREPUSKILO_PICTURE], plan[KREPUSKILO_PLAN];
static size_t length;
static uint32_t table[KREPUSKILO_TABLE], memory[4 * KREPUSKILO_MEMORY_SLOT];
static size_t slots;
static uint64_t rows[KREPUSKILO_ROWS], info[KREPUSKILO_INFO], number;

static void work(void)
{
    switch (call) {
    case JUDGE:
        krepuskilo_judge(sheet, length, info, KREPUSKILO_INFO);
        break;
    case START:
        krepuskilo_start(sheet, length, table, KREPUSKILO_TABLE, info, KREPUSKILO_INFO);
        break;
    case STEP:
        krepuskilo_step(sheet, length, table, KREPUSKILO_TABLE, number, info, KREPUSKILO_INFO);
        break;
    case PICTURE:
        krepuskilo_picture(sheet, length, table, KREPUSKILO_TABLE, picture, KREPUSKILO_PICTURE, info, KREPUSKILO_INFO);
        break;
    case RUN:
        krepuskilo_run(sheet, length, rows, KREPUSKILO_ROWS, table, KREPUSKILO_TABLE, info, KREPUSKILO_INFO);
        break;
    case SEARCH:
        krepuskilo_search(sheet, length, number, plan, KREPUSKILO_PLAN, info, KREPUSKILO_INFO);
        break;
    default:
        krepuskilo_search_with(sheet, length, number, memory, slots * KREPUSKILO_MEMORY_SLOT, plan, KREPUSKILO_PLAN, info, KREPUSKILO_INFO);
    }
}

static void measure(int c, uint64_t n)
{
    size_t untouched = 0;

    call = c;
    number = n;
    memset(room, FILL, sizeof room);
    getcontext(&there);
    there.uc_stack.ss_sp = room;
    there.uc_stack.ss_size = sizeof room;
    there.uc_link = &here;
    makecontext(&there, work, 0);
    swapcontext(&here, &there);
    while (untouched < sizeof room && room[untouched] == FILL)
        untouched++;
    if (sizeof room - untouched > deepest[c])
        deepest[c] = sizeof room - untouched;
}

/* Every call on the sheet: the first table, its picture, its step by each of the first moves, the run, searches to a limit. */
static void measure_all(uint64_t limit)
{
    static uint32_t first[KREPUSKILO_TABLE];
    uint64_t m;

    measure(JUDGE, 0);
    measure(START, 0);
    memcpy(first, table, sizeof first);
    for (m = 0; m < 4; m++) {
        memcpy(table, first, sizeof first);
        measure(STEP, m);
        measure(PICTURE, 0);
    }
    measure(RUN, 0);
    measure(PICTURE, 0);
    for (slots = 0; slots <= 4; slots += 4)
        measure(SEARCH_WITH, limit);
    measure(SEARCH, limit);
}

static void put(unsigned byte) { sheet[length++] = (uint8_t)byte; }

/* A set of `count` literals, each the proposition from `p` on, true. */
static void put_set(unsigned count, unsigned p)
{
    unsigned i;
    put(count);
    for (i = 0; i < count; i++)
        put(2 * (p + i));
}

/* A oneof-clause of eight alternatives of four literals, and a move of eight conditions of four literals: 5^8 pieces. */
static void wide_sheet(void)
{
    unsigned i;
    length = 0;
    put(32), put(0), put(0), put(1), put(8);
    for (i = 0; i < 8; i++)
        put_set(4, 4 * i);
    put(1), put(0), put(8);
    for (i = 0; i < 8; i++)
        put_set(4, 4 * i), put_set(1, 4 * i);
    put(1), put_set(1, 0), put(1), put(0);
}

/* Known are propositions 20, which is true, and 21 to 28, which are false. Move 0 makes the next of them true, so that it leads to nine
 * tables one after the other; move 1 has eight conditions that each split some piece of the unknown rest, 2^4 + 2^4 and a few pieces in
 * all; no plan makes proposition 30 true. */
static void deep_sheet(void)
{
    unsigned i, j;
    length = 0;
    put(32), put(9), put(2 * 20);
    for (i = 21; i <= 28; i++)
        put(2 * i + 1);
    put(0), put(0), put(2);
    put(0), put(8);
    for (i = 20; i < 28; i++)
        put_set(1, i), put_set(1, i + 1);
    put(0), put(8);
    for (i = 0; i < 8; i++) {
        if (i < 4) {
            put_set(i + 1, 0);
        } else {
            put(4);
            for (j = 0; j < 3; j++)
                put(2 * j);
            put(2 * i);
        }
        put_set(1, 10 + i);
    }
    put(1), put_set(1, 30), put(8);
    for (i = 0; i < 8; i++)
        put(i == 7);
}

static int accepted(const char *name)
{
    uint8_t answer = krepuskilo_judge(sheet, length, info, KREPUSKILO_INFO);
    if (answer != 0)
        printf("stack: the %s sheet is refused %u at %u\n", name, answer, (unsigned)info[0]);
    return answer == 0;
}

int main(int argc, char **argv)
{
    int i, c, failed = 0;

    wide_sheet();
    failed += !accepted("wide");
    measure_all(2);
    deep_sheet();
    failed += !accepted("deep");
    measure_all(8);
    if (info[1] != 2) {
        puts("stack: the deep sheet is not searched to the end");
        failed++;
    }
    for (i = 1; i < argc; i++) {
        FILE *f = fopen(argv[i], "rb");
        if (!f) {
            printf("stack: %s cannot be read\n", argv[i]);
            return 2;
        }
        length = fread(sheet, 1, sizeof sheet, f);
        fclose(f);
        measure_all(2);
    }
    for (c = 0; c < CALLS; c++) {
        printf("stack: %-11s %6zu bytes, stated %6zu\n", names[c], deepest[c], stated[c]);
        failed += deepest[c] > stated[c];
    }
    printf("%d passed, %d failed\n", CALLS - (failed < CALLS ? failed : CALLS), failed);
    return failed != 0;
}
