/* The robustness run from C: all twelve calls on memory that ends, or begins, at a page that nobody may touch. What is
 * lent for reading lies in pages that cannot be written meanwhile. So a read or write outside the lent slices, or a
 * write to a slice lent for reading, ends the program; that holds for the archive's code too, which the sanitizers do
 * not see. The host's own side is built with the address and the undefined behaviour sanitizer. `robust/run` builds it
 * and runs `robust_c [CALLS]`. */
#define _DEFAULT_SOURCE
#include "ushanderi.h"

#include <stdio.h>
#include <stdlib.h>
#include <string.h>
#include <sys/mman.h>
#include <unistd.h>

enum { ANSWERS = 14, TURNS = 4, MOST_WORDS = 40200, MOST_LIST = 5000 };

/* A run of pages between two that cannot be touched, and the items lent, which begin or end there. */
struct ward {
    unsigned char *pages;
    size_t size;
    unsigned char *items;
    size_t bytes;
};

/* A call with random numbers, which looks at the answer if it is DONE. */
struct call {
    const char *name;
    ush_answer (*make)(void);
    int writes_table;
    size_t entry_bytes; /* of each entry that it writes to the list, as many as its value says */
    long counts[ANSWERS];
};

static struct ward table, list;
static int32_t before[MOST_WORDS];
static unsigned char list_before[4 * MOST_LIST];
static uint64_t state;
static long seed;

static const char *const answer_names[ANSWERS] = {
    "DONE", "SIZE", "UNSOUND", "POINT", "RECT", "LABEL", "OCCUPIED", "FULL", "SPACE", "SIDE", "SHORT", "FILE", "ROOM",
    "STEP",
};

static uint32_t random_word(void)
{
    state += 0x9e3779b97f4a7c15u;
    uint64_t z = (state ^ (state >> 30)) * 0xbf58476d1ce4e5b9u;
    z = (z ^ (z >> 27)) * 0x94d049bb133111ebu;
    return (uint32_t)(z >> 32);
}

static uint32_t below(uint32_t bound)
{
    return random_word() % bound;
}

static void must(int condition, const char *message)
{
    if (!condition) {
        fprintf(stderr, "DISAGREEMENT: seed %ld, %s\n", seed, message);
        exit(1);
    }
}

static struct ward make_ward(size_t bytes)
{
    size_t page = (size_t)sysconf(_SC_PAGESIZE);
    size_t size = (bytes + page - 1) / page * page;
    unsigned char *all = mmap(NULL, size + 2 * page, PROT_NONE, MAP_PRIVATE | MAP_ANONYMOUS, -1, 0);
    must(all != MAP_FAILED && mprotect(all + page, size, PROT_READ | PROT_WRITE) == 0, "no memory");
    return (struct ward){all + page, size, all + page, 0};
}

/* The items begin right after the lower forbidden page or end right before the upper one. */
static void place(struct ward *ward, size_t bytes)
{
    ward->bytes = bytes;
    ward->items = below(2) ? ward->pages : ward->pages + ward->size - bytes;
}

static void protect(const struct ward *ward, int reading_only)
{
    int allowed = reading_only ? PROT_READ : PROT_READ | PROT_WRITE;
    must(mprotect(ward->pages, ward->size, allowed) == 0, "protection refused");
}

static int32_t *words(void)
{
    return (int32_t *)(void *)table.items;
}

static size_t word_count(void)
{
    return table.bytes / sizeof(int32_t);
}

/* Numbers near a small layout, at the plane's rim, or anything. */
static int32_t coordinate(void)
{
    static const int32_t rim[] = {INT32_MIN, -USH_EDGE - 1, -USH_EDGE, -USH_EDGE + 1, -1, 0, USH_EDGE - 1, USH_EDGE,
                                  USH_EDGE + 1, INT32_MAX};
    switch (below(12)) {
    case 0:
        return rim[below(sizeof rim / sizeof *rim)];
    case 1:
        return (int32_t)random_word();
    default:
        return (int32_t)below(60);
    }
}

/* Mostly a line a few cells further. */
static int32_t edge_after(int32_t edge)
{
    return below(8) ? (int32_t)((uint32_t)edge + 1 + below(below(2) ? 9 : 40)) : coordinate();
}

static void damage(void)
{
    static const int32_t likely[] = {-2, -1, 0, 1, 2, 3, USH_EDGE, -USH_EDGE, INT32_MAX, INT32_MIN};
    for (uint32_t times = 1 + below(4); times > 0; times--) {
        size_t at = below((uint32_t)word_count());
        int32_t *word = words() + at;
        switch (below(4)) {
        case 0:
            *word = (int32_t)random_word();
            break;
        case 1:
            *word = likely[below(sizeof likely / sizeof *likely)];
            break;
        case 2:
            *word = (int32_t)((uint32_t)*word + 1);
            break;
        default:
            *word = words()[below((uint32_t)word_count())];
        }
    }
}

static ush_answer create(void);

/* A table that was drawn by the server, damaged or not; or random words; or a wrong size. */
static void draw_table(void)
{
    uint32_t records = 20 + below(below(10) ? 60 : 1500);
    size_t size = records * 10;
    if (below(10) == 0) {
        size = below(2) ? below(230) : 40150 + below(30);
    }
    place(&table, size * sizeof(int32_t));
    for (size_t at = 0; at < size; at++) {
        words()[at] = below(3) ? (int32_t)below(3) - 1 : (int32_t)random_word();
    }
    if (below(10) != 0 && ush_fresh(words(), size).number == USH_DONE) {
        for (uint32_t solids = below(40); solids > 0; solids--) {
            create();
        }
    }
    if (size > 0 && below(3) == 0) {
        damage();
    }
}

/* A list of whole entries, which are words unless they are larger. */
static void draw_list(size_t entry_bytes)
{
    size_t unit = entry_bytes > sizeof(int32_t) ? entry_bytes : sizeof(int32_t);
    place(&list, unit * below(below(4) ? 12 : MOST_LIST / 4));
    memset(list.items, 0xa5, list.bytes);
}

/* Some bytes that may be a saved layout. */
static void draw_bytes(void)
{
    place(&list, below(4) ? 20 * below(8) : below(200));
    for (size_t at = 0; at < list.bytes; at++) {
        list.items[at] = at % 4 == 0 ? (unsigned char)(below(30) + 8 * (at / 8 % 2)) : 0;
    }
}

static const int32_t *record(int32_t number)
{
    must(number >= 0 && (size_t)number < word_count() / USH_RECORD_WORDS, "an answer names no record");
    return words() + (size_t)number * USH_RECORD_WORDS;
}

/* Whether the tile in the record shares a cell with the area. */
static int meets(int32_t number, int32_t left, int32_t bottom, int32_t right, int32_t top)
{
    const int32_t *tile = record(number);
    return tile[USH_WORD_KIND] != USH_KIND_FREE && tile[USH_WORD_LEFT] < right && left < tile[USH_WORD_RIGHT]
        && tile[USH_WORD_BOTTOM] < top && bottom < tile[USH_WORD_TOP];
}

static int32_t *entries(void)
{
    return (int32_t *)(void *)list.items;
}

static size_t entry_room(void)
{
    return list.bytes / sizeof(int32_t);
}

static ush_answer fresh(void)
{
    return ush_fresh(words(), word_count());
}

static ush_answer check(void)
{
    return ush_check(words(), word_count());
}

static ush_answer find(void)
{
    int32_t x = coordinate(), y = coordinate();
    ush_answer answer = ush_find(words(), word_count(), x, y, coordinate());
    must(answer.number != USH_DONE || meets(answer.value, x, y, x + 1, y + 1), "the found tile does not hold the cell");
    return answer;
}

/* View has no answer number; it counts as DONE. */
static ush_answer view(void)
{
    int32_t number = below(2) ? coordinate() : (int32_t)below(1600);
    ush_part part = ush_view(words(), word_count(), number);
    must(part.len == 0 || (part.at == (size_t)number * USH_RECORD_WORDS && part.len == USH_RECORD_WORDS
                           && part.at + part.len <= word_count()), "view names no part of the table");
    return (ush_answer){USH_DONE, 0};
}

static ush_answer neighbours(void)
{
    int32_t x = coordinate(), y = coordinate();
    ush_answer answer =
        ush_neighbours(words(), word_count(), x, y, (int32_t)below(6) - 1, entries(), entry_room());
    for (int32_t entry = 0; answer.number == USH_DONE && entry < answer.value; entry++) {
        must(record(entries()[entry])[USH_WORD_KIND] != USH_KIND_FREE, "a neighbour is no tile");
    }
    return answer;
}

static ush_answer enumerate(void)
{
    int32_t left = coordinate(), bottom = coordinate(), right = edge_after(left), top = edge_after(bottom);
    ush_answer answer =
        ush_enumerate(words(), word_count(), left, bottom, right, top, entries(), entry_room());
    for (int32_t entry = 0; answer.number == USH_DONE && entry < answer.value; entry++) {
        must(meets(entries()[entry], left, bottom, right, top), "a listed tile is not in the area");
    }
    return answer;
}

/* A window's side, and the line that ends the area: mostly so many windows further, else anything of any sign. */
static int32_t window_side(int32_t low, int32_t *high)
{
    static const int32_t extremes[] = {INT32_MIN, -USH_EDGE, -1, 0, 1, USH_EDGE, 2 * USH_EDGE, INT32_MAX};
    int32_t side = 1 + (int32_t)below(below(2) ? 4 : 30);
    *high = (int32_t)((uint32_t)low + (uint32_t)side * (1 + below(below(2) ? 3 : 20)));
    return below(8) ? side : extremes[below(sizeof extremes / sizeof *extremes)];
}

/* The solids' cells in the area, from their records. */
static int64_t covered_cells(int32_t left, int32_t bottom, int32_t right, int32_t top)
{
    int64_t cells = 0;
    for (int32_t number = 0; (size_t)number < word_count() / USH_RECORD_WORDS; number++) {
        const int32_t *tile = record(number);
        if (tile[USH_WORD_KIND] == USH_KIND_SOLID && meets(number, left, bottom, right, top)) {
            int32_t from = tile[USH_WORD_LEFT] > left ? tile[USH_WORD_LEFT] : left;
            int32_t to = tile[USH_WORD_RIGHT] < right ? tile[USH_WORD_RIGHT] : right;
            int32_t under = tile[USH_WORD_BOTTOM] > bottom ? tile[USH_WORD_BOTTOM] : bottom;
            int32_t over = tile[USH_WORD_TOP] < top ? tile[USH_WORD_TOP] : top;
            cells += (int64_t)(to - from) * (over - under);
        }
    }
    return cells;
}

static ush_answer without_cell(ush_met met)
{
    must(met.x == 0 && met.y == 0, "an answer without a cell has one");
    return (ush_answer){met.number, met.value};
}

/* The cell lies in the area, the record is a solid that holds it, and no cell of the area that is read before it is
 * held by any. */
static ush_answer with_cell(ush_met met, int32_t left, int32_t bottom, int32_t right, int32_t top)
{
    must(left <= met.x && met.x < right && bottom <= met.y && met.y < top, "the cell in the way is not in the area");
    must(record(met.value)[USH_WORD_KIND] == USH_KIND_SOLID, "what is in the way is no solid");
    must(meets(met.value, met.x, met.y, met.x + 1, met.y + 1), "what is in the way does not hold the cell");
    must(covered_cells(left, met.y + 1, right, top) == 0, "a row over the cell in the way is not free");
    must(covered_cells(left, met.y, met.x, met.y + 1) == 0, "a cell left of the one in the way is not free");
    return (ush_answer){met.number, met.value};
}

static ush_answer search(void)
{
    int32_t left = coordinate(), bottom = coordinate(), right = edge_after(left), top = edge_after(bottom);
    ush_met met = ush_search(words(), word_count(), left, bottom, right, top);
    if (met.number == USH_DONE && met.value != -1) {
        return with_cell(met, left, bottom, right, top);
    }
    must(met.number != USH_DONE || covered_cells(left, bottom, right, top) == 0, "a free area holds a solid");
    return without_cell(met);
}

/* What is in the way of a create is what a search of its rectangle meets. */
static ush_answer create(void)
{
    int32_t left = coordinate(), bottom = coordinate(), right = edge_after(left), top = edge_after(bottom);
    ush_met met = ush_create(words(), word_count(), left, bottom, right, top, (int32_t)below(9));
    if (met.number != USH_OCCUPIED) {
        return without_cell(met);
    }
    ush_met seen = ush_search(words(), word_count(), left, bottom, right, top);
    must(seen.number == USH_DONE && seen.value == met.value && seen.x == met.x && seen.y == met.y,
         "a search of the rectangle meets something else");
    return with_cell(met, left, bottom, right, top);
}

static int same_bits(double one, double other)
{
    return memcmp(&one, &other, sizeof one) == 0;
}

/* Counts each window again. The division gives 0.0 for none and 1.0 for all, too. */
static void check_windows(const ush_density_report *report, const double *shares, int32_t left, int32_t right,
                          int32_t top, int32_t width, int32_t height)
{
    int64_t columns = (right - left) / width, cells = (int64_t)width * height;
    int64_t lowest = cells, highest = 0, covered = 0;
    for (int64_t window = 0; window < report->value; window++) {
        int32_t x = left + (int32_t)(window % columns) * width, y = top - (int32_t)(window / columns) * height;
        int64_t count = covered_cells(x, y - height, x + width, y);
        must(same_bits(shares[window], (double)count / (double)cells), "a window has another share");
        lowest = count < lowest ? count : lowest;
        highest = count > highest ? count : highest;
        covered += count;
    }
    must(report->covered == covered, "not the cells that are covered");
    must(same_bits(report->lowest, (double)lowest / (double)cells), "another lowest share");
    must(same_bits(report->highest, (double)highest / (double)cells), "another highest share");
}

/* On a sound table the first rule that is broken gives the number: the rectangle's, then the windows', then the list's,
 * whose value is the number of windows. */
static void check_refused(const ush_density_report *report, int32_t left, int32_t bottom, int32_t right, int32_t top,
                          int32_t width, int32_t height)
{
    int rect = -USH_EDGE <= left && left < right && right <= USH_EDGE && -USH_EDGE <= bottom && bottom < top &&
               top <= USH_EDGE;
    int step = rect && width > 0 && height > 0 && (right - left) % width == 0 && (top - bottom) % height == 0;
    int64_t windows = step ? (int64_t)((right - left) / width) * ((top - bottom) / height) : 0;
    int32_t broken = step ? USH_SHORT : rect ? USH_STEP : USH_RECT;
    if (report->number == USH_SIZE || report->number == USH_UNSOUND) {
        must(report->value == 0, "a refused table has a value");
    } else {
        must(report->number == broken, "another rule was broken first");
        must(report->value == windows, "not the value of the refusal");
    }
    must(same_bits(report->lowest, 0.0) && same_bits(report->highest, 0.0) && report->covered == 0,
         "a refused report tells shares");
}

/* Now and then the whole plane, whose cells no list takes. The answer tells how many entries are written. */
static ush_answer density(void)
{
    int32_t left = coordinate(), bottom = coordinate(), right, top;
    int32_t width = window_side(left, &right), height = window_side(bottom, &top);
    if (below(12) == 0) {
        left = bottom = -USH_EDGE;
        right = top = USH_EDGE;
    }
    double *shares = (double *)(void *)list.items;
    ush_density_report report = ush_density(words(), word_count(), left, bottom, right, top, width, height, shares,
                                            list.bytes / sizeof(double));
    if (report.number == USH_DONE) {
        check_windows(&report, shares, left, right, top, width, height);
        return (ush_answer){USH_DONE, (int32_t)report.value};
    }
    check_refused(&report, left, bottom, right, top, width, height);
    return (ush_answer){report.number, 0};
}

static ush_answer delete(void)
{
    return ush_delete(words(), word_count(), coordinate(), coordinate());
}

static ush_answer save(void)
{
    return ush_save(words(), word_count(), list.items, list.bytes);
}

/* No answer has a cell, also where a record overlaps an earlier one. */
static ush_answer load(void)
{
    return without_cell(ush_load(words(), word_count(), list.items, list.bytes));
}

static struct call calls[] = {
    {"fresh", fresh, 1, 0, {0}},
    {"check", check, 0, 0, {0}},
    {"find", find, 0, 0, {0}},
    {"view", view, 0, 0, {0}},
    {"neighbours", neighbours, 0, sizeof(int32_t), {0}},
    {"search", search, 0, 0, {0}},
    {"enumerate", enumerate, 0, sizeof(int32_t), {0}},
    {"density", density, 0, sizeof(double), {0}},
    {"create", create, 1, 0, {0}},
    {"delete", delete, 1, 0, {0}},
    {"save", save, 0, 1, {0}},
    {"load", load, 1, 0, {0}},
};
enum { CALLS = sizeof calls / sizeof *calls };

/* The calls that only read the table. Of the list they write as many entries as they say, and none with a refusal. */
static ush_answer try_reading(const struct call *call)
{
    draw_list(call->entry_bytes);
    memcpy(list_before, list.items, list.bytes);
    protect(&table, 1);
    ush_answer answer = call->make();
    protect(&table, 0);
    size_t written = answer.number == USH_DONE ? (size_t)answer.value * call->entry_bytes : 0;
    must(written <= list.bytes, "more entries than the list takes");
    must(memcmp(list_before + written, list.items + written, list.bytes - written) == 0,
         "written to the list where nothing is promised");
    return answer;
}

/* The calls that write it; a refusal leaves the table as it was, but for a load of which a record was refused. */
static ush_answer try_editing(const struct call *call)
{
    draw_bytes();
    memcpy(before, table.items, table.bytes);
    protect(&list, 1);
    ush_answer answer = call->make();
    protect(&list, 0);
    int emptied = call->make == load && answer.number >= USH_RECT && answer.number <= USH_FULL;
    if (answer.number == USH_DONE || emptied) {
        must(ush_check(words(), word_count()).number == USH_DONE, "an edit left the table unsound");
    } else {
        must(memcmp(before, table.items, table.bytes) == 0, "a refused call wrote to the table");
    }
    if (call->make == fresh || call->make == load) {
        memcpy(table.items, before, table.bytes);
    }
    return answer;
}

static void report(long tables)
{
    for (const struct call *call = calls; call < calls + CALLS; call++) {
        printf("%10s:", call->name);
        for (int number = 0; number < ANSWERS; number++) {
            if (call->counts[number] > 0) {
                printf(" %ld %s", call->counts[number], answer_names[number]);
            }
        }
        printf("\n");
    }
    printf("%ld tables, %ld calls, no disagreement\n", tables, tables * CALLS * TURNS);
}

int main(int count, char **arguments)
{
    long wanted = count > 1 ? atol(arguments[1]) : 1000000;
    long tables = (wanted + CALLS * TURNS - 1) / (CALLS * TURNS);
    table = make_ward(MOST_WORDS * sizeof(int32_t));
    list = make_ward(MOST_LIST * sizeof(int32_t));
    for (seed = 0; seed < tables; seed++) {
        state = (uint64_t)seed << 20;
        draw_table();
        for (int turn = 0; turn < CALLS * TURNS; turn++) {
            struct call *call = &calls[turn % CALLS];
            ush_answer answer = call->writes_table ? try_editing(call) : try_reading(call);
            must(answer.number >= 0 && answer.number < ANSWERS, "a number that no answer has");
            call->counts[answer.number]++;
        }
    }
    report(tables);
    return 0;
}
