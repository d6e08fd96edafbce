/* How much stack the calls take. Every call is made on the table that takes it deepest, on a stack of exactly
 * USH_STACK_BYTES that ends at a page that nobody may touch, so a call that takes more ends the program. The stack is
 * painted before each call; what is no longer painted afterwards was used, and the run prints it. `robust/run` builds
 * and runs it: `stack_c LAYOUT`, with the saved layout that takes a save deepest. */
#define _DEFAULT_SOURCE
#include "ushanderi.h"

#include <stdio.h>
#include <stdlib.h>
#include <string.h>
#include <sys/mman.h>
#include <ucontext.h>
#include <unistd.h>

enum { SOLIDS = 1000, WORDS = USH_MOST_RECORDS * USH_RECORD_WORDS, PAINT = 0xa5 };

/* A call, which gives its answer's number, and the table that takes it deepest. */
struct deepest {
    const char *name;
    void (*draw)(void);
    int32_t (*make)(void);
};

static int32_t table[WORDS], list[USH_MOST_RECORDS];
static uint8_t bytes[SOLIDS * USH_SAVED_BYTES];
static double shares[1];
static const char *layout;
static unsigned char *stack;
static ucontext_t outside, inside;
static const struct deepest *present;
static int32_t number;

static void must(int condition, const char *message)
{
    if (!condition) {
        fprintf(stderr, "%s\n", message);
        exit(1);
    }
}

static void put_word(uint8_t *place, int32_t word)
{
    for (int byte = 0; byte < 4; byte++) {
        place[byte] = (uint8_t)((uint32_t)word >> 8 * byte);
    }
}

/* Loads unit squares at every second cell, along x or along y, from the corner 0 0 on. */
static void load_squares(int count, int along_x)
{
    for (int square = 0; square < count; square++) {
        int32_t x = along_x ? 2 * square : 0, y = along_x ? 0 : 2 * square;
        const int32_t saved[] = {x, y, x + 1, y + 1, 1};
        for (int word = 0; word < 5; word++) {
            put_word(bytes + square * USH_SAVED_BYTES + 4 * word, saved[word]);
        }
    }
    ush_met loaded = ush_load(table, WORDS, bytes, (size_t)count * USH_SAVED_BYTES);
    must(loaded.number == USH_DONE, "the squares are not loaded");
}

/* 1,000 solids in a row. Space never lies beside space, so no chain of tiles, each at the right of the last, is longer
 * than the 2,001 of this row; so deep is the directed listing. */
static void row(void)
{
    load_squares(SOLIDS, 1);
}

/* A row of 1,000 solids, read from a file, whose order takes the sort of a save deepest: 19 of its calls stand on each
 * other, as many as it makes at most. At each pivot nearly all keys that are left lie under it, and the squares lie so that
 * the shuffle before the sort exchanges nothing. Other orders, 3,000 random ones among them, stay some 8 calls less deep. */
static void deepest_row(void)
{
    FILE *file = fopen(layout, "rb");
    must(file != NULL, "no layout");
    must(fread(bytes, 1, sizeof bytes, file) == sizeof bytes, "the layout has not 1,000 solids");
    fclose(file);
    must(ush_load(table, WORDS, bytes, sizeof bytes).number == USH_DONE, "the layout is not loaded");
}

/* A place for one solid more, at the right of 999 that stand above each other. */
static void column(void)
{
    load_squares(SOLIDS - 1, 0);
}

static int32_t create(void)
{
    return ush_create(table, WORDS, 10, 0, 11, 2 * SOLIDS, 7).number;
}

/* That solid too: it cuts all strips between the others. */
static void column_and_wall(void)
{
    column();
    must(create() == USH_DONE, "the wall is not drawn");
}

static int32_t fresh(void)
{
    return ush_fresh(table, WORDS).number;
}

static int32_t check(void)
{
    return ush_check(table, WORDS).number;
}

static int32_t find(void)
{
    return ush_find(table, WORDS, USH_EDGE - 1, -USH_EDGE, -1).number;
}

/* View has no answer number; it counts as DONE. */
static int32_t view(void)
{
    ush_view(table, WORDS, USH_MOST_RECORDS - 1);
    return USH_DONE;
}

static int32_t neighbours(void)
{
    return ush_neighbours(table, WORDS, 0, -1, USH_TOP_SIDE, list, USH_MOST_RECORDS).number;
}

static int32_t search(void)
{
    return ush_search(table, WORDS, 2 * SOLIDS, -USH_EDGE, USH_EDGE, USH_EDGE).number;
}

static int32_t enumerate(void)
{
    return ush_enumerate(table, WORDS, -USH_EDGE, -USH_EDGE, USH_EDGE, USH_EDGE, list, USH_MOST_RECORDS).number;
}

/* One window, which lists as much as enumerate does. */
static int32_t density(void)
{
    ush_density_report report = ush_density(table, WORDS, -USH_EDGE, -USH_EDGE, USH_EDGE, USH_EDGE, 2 * USH_EDGE,
                                            2 * USH_EDGE, shares, 1);
    return report.number;
}

static int32_t delete(void)
{
    return ush_delete(table, WORDS, 10, SOLIDS).number;
}

static int32_t save(void)
{
    return ush_save(table, WORDS, bytes, sizeof bytes).number;
}

static int32_t load(void)
{
    return ush_load(table, WORDS, bytes, sizeof bytes).number;
}

static const struct deepest calls[] = {
    {"fresh", row, fresh},
    {"check", row, check},
    {"find", row, find},
    {"view", row, view},
    {"neighbours", row, neighbours},
    {"search", row, search},
    {"enumerate", row, enumerate},
    {"density", row, density},
    {"create", column, create},
    {"delete", column_and_wall, delete},
    {"save", deepest_row, save},
    {"load", row, load},
};
enum { CALLS = sizeof calls / sizeof *calls };

static void make_present(void)
{
    number = present->make();
}

/* The bytes of the stack that the call used, with its caller's small frame. */
static size_t measure(const struct deepest *call)
{
    call->draw();
    present = call;
    memset(stack, PAINT, USH_STACK_BYTES);
    must(getcontext(&inside) == 0, "no context");
    inside.uc_stack.ss_sp = stack;
    inside.uc_stack.ss_size = USH_STACK_BYTES;
    inside.uc_link = &outside;
    makecontext(&inside, make_present, 0);
    must(swapcontext(&outside, &inside) == 0, "no context");
    size_t untouched = 0;
    while (untouched < USH_STACK_BYTES && stack[untouched] == PAINT) {
        untouched++;
    }
    return USH_STACK_BYTES - untouched;
}

int main(int count, char **arguments)
{
    must(count == 2, "usage: stack_c LAYOUT");
    layout = arguments[1];
    size_t page = (size_t)sysconf(_SC_PAGESIZE), most = 0;
    must(USH_STACK_BYTES % page == 0, "the stated size is no number of pages");
    unsigned char *all = mmap(NULL, USH_STACK_BYTES + page, PROT_NONE, MAP_PRIVATE | MAP_ANONYMOUS, -1, 0);
    stack = all + page;
    must(all != MAP_FAILED && mprotect(stack, USH_STACK_BYTES, PROT_READ | PROT_WRITE) == 0, "no memory");
    for (const struct deepest *call = calls; call < calls + CALLS; call++) {
        printf("%10s: ", call->name);
        fflush(stdout);
        size_t used = measure(call);
        printf("%6zu bytes of stack\n", used);
        must(number == USH_DONE, "the deepest call is refused");
        most = used > most ? used : most;
    }
    printf("%zu bytes at most, %d stated\n", most, USH_STACK_BYTES);
    return 0;
}
