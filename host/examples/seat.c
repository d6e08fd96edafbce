/* A seat in C: makes a plane, draws a clock trunk with branches, asks what is beside it, where is room or what blocks
 * it, and how much is metal, shows refusals, removes a branch, and saves. Prints the same lines every time; seat.txt
 * holds them. A file that is named is given the saved layout, for `draw` and the lister to read. From the folder above:
 *
 *   gcc -std=c11 -Wall -Wextra -Werror -I. examples/seat.c ../target/staticlib/libushanderi.a -o ../target/seat
 *   ../target/seat [FILE] | diff - examples/seat.txt */
#include "ushanderi.h"

#include <stdio.h>

enum { SOLIDS = 40, RECORDS = USH_RECORDS_FOR(SOLIDS), WORDS = RECORDS * USH_RECORD_WORDS, BRANCHES = 4, WINDOWS = 4 };
enum { TRUNK_NET = 1, BRANCH_NET = 2 };

static int32_t table[WORDS];
static int32_t list[RECORDS];
static uint8_t saved[SOLIDS * USH_SAVED_BYTES];
static double shares[WINDOWS];

static const char *const names[] = {
    "done", "size", "unsound", "point", "rect", "label", "occupied", "full", "space", "side", "short", "file", "room",
    "step",
};

/* Prints a tile by its rectangle: which record it has is the server's affair. */
static void print_tile(int32_t record)
{
    ush_part part = ush_view(table, WORDS, record);
    const int32_t *tile = table + part.at;
    if (part.len == 0) {
        printf("no tile\n");
        return;
    }
    printf("%s %d: %d %d %d %d\n", tile[USH_WORD_KIND] == USH_KIND_SOLID ? "solid" : "space", (int)tile[USH_WORD_LABEL],
           (int)tile[USH_WORD_LEFT], (int)tile[USH_WORD_BOTTOM], (int)tile[USH_WORD_RIGHT], (int)tile[USH_WORD_TOP]);
}

static void print_list(const char *title, ush_answer answer)
{
    printf("%s: %s, %d\n", title, names[answer.number], (int)answer.value);
    for (int32_t entry = 0; answer.number == USH_DONE && entry < answer.value; entry++) {
        printf("  ");
        print_tile(list[entry]);
    }
}

/* Where a marker would be drawn, and what is in the way there. */
static void print_blocked(ush_met met)
{
    printf("blocked at (%d, %d) by ", (int)met.x, (int)met.y);
    print_tile(met.value);
}

static void draw(int32_t left, int32_t bottom, int32_t right, int32_t top, int32_t label)
{
    ush_met met = ush_create(table, WORDS, left, bottom, right, top, label);
    printf("create %d %d %d %d, net %d: %s\n", (int)left, (int)bottom, (int)right, (int)top, (int)label,
           names[met.number]);
    if (met.number == USH_OCCUPIED) {
        printf("  ");
        print_blocked(met);
    }
}

static void ask_whether_free(int32_t left, int32_t bottom, int32_t right, int32_t top)
{
    ush_met met = ush_search(table, WORDS, left, bottom, right, top);
    printf("search %d %d %d %d: ", (int)left, (int)bottom, (int)right, (int)top);
    if (met.number == USH_DONE && met.value >= 0) {
        print_blocked(met);
        return;
    }
    printf("%s\n", met.number == USH_DONE ? "free" : names[met.number]);
}

static void print_density(int32_t width, int32_t height)
{
    ush_density_report report = ush_density(table, WORDS, 40, 0, 180, 100, width, height, shares, WINDOWS);
    printf("density of 40 0 180 100, windows of %d by %d: %s, %d\n", (int)width, (int)height, names[report.number],
           (int)report.value);
    for (int64_t window = 0; report.number == USH_DONE && window < report.value; window++) {
        printf("  share %.4f\n", shares[window]);
    }
    printf("  from %.4f to %.4f, %d cells\n", report.lowest, report.highest, (int)report.covered);
}

/* How many bytes were saved. */
static size_t save_and_load_again(void)
{
    ush_answer short_answer = ush_save(table, WORDS, saved, 3);
    printf("save to 3 bytes: %s, %d needed\n", names[short_answer.number], (int)short_answer.value);
    ush_answer answer = ush_save(table, WORDS, saved, sizeof saved);
    printf("save: %s, %d bytes, the first solid begins at column %d\n", names[answer.number], (int)answer.value,
           saved[0] | saved[1] << 8);
    ush_met loaded = ush_load(table, WORDS, saved, (size_t)answer.value);
    printf("load: %s, %d solids\n", names[loaded.number], (int)loaded.value);
    return (size_t)answer.value;
}

static int write_file(const char *name, size_t bytes)
{
    FILE *file = fopen(name, "wb");
    int written = file != NULL && fwrite(saved, 1, bytes, file) == bytes;
    if (file == NULL || fclose(file) != 0 || !written) {
        perror(name);
        return 1;
    }
    return 0;
}

static void draw_trunk_and_branches(void)
{
    draw(100, 0, 110, 100, TRUNK_NET);
    for (int32_t branch = 0; branch < BRANCHES; branch++) {
        int32_t bottom = 15 + 20 * branch;
        draw(branch % 2 ? 40 : 110, bottom, branch % 2 ? 100 : 170, bottom + 4, BRANCH_NET + branch);
    }
}

int main(int count, char **arguments)
{
    printf("fresh: %s\n", names[ush_fresh(table, WORDS).number]);
    draw_trunk_and_branches();
    printf("check: %d solids\n", (int)ush_check(table, WORDS).value);
    print_list("right of the trunk", ush_neighbours(table, WORDS, 105, 50, USH_RIGHT_SIDE, list, RECORDS));
    print_list("left of it, list too short", ush_neighbours(table, WORDS, 105, 50, USH_LEFT_SIDE, list, 2));
    print_list("in 120 10 160 60", ush_enumerate(table, WORDS, 120, 10, 160, 60, list, RECORDS));
    ask_whether_free(120, 20, 160, 50);
    ask_whether_free(120, 20, 160, 60);
    print_density(70, 50);
    print_density(70, 25);
    print_density(60, 50);
    draw(150, 0, 155, 100, 9);
    draw(150, 0, 150, 100, 9);
    printf("delete at (160, 56): label %d\n", (int)ush_delete(table, WORDS, 160, 56).value);
    printf("delete there again: %s\n", names[ush_delete(table, WORDS, 160, 56).number]);
    ask_whether_free(120, 20, 160, 60);
    size_t bytes = save_and_load_again();
    return count > 1 ? write_file(arguments[1], bytes) : 0;
}
