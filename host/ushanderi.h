/* The tile server's calls by C names. Link target/staticlib/libushanderi.a, which `tools/archives` writes.
 *
 * The plane is every cell (x, y) with -USH_EDGE <= x, y < USH_EDGE. A tile holds the cells with left <= x < right and
 * bottom <= y < top: its lower and left edges belong to it, the upper and right ones do not. A table keeps the solids
 * of a layout and the space between them, in the widest strips, as records of ten 32-bit words: left, bottom, right,
 * top, tr, rt, bl, lb, kind, label. A stitch is the record of the tile that holds a cell, or -1 outside the plane:
 * tr (right, top - 1), rt (right - 1, top), bl (left - 1, bottom), lb (left, bottom - 1). Space has label 0; a free
 * record is ten zeros. A table of R records takes (R - 16) / 4 solids, rounded down.
 *
 * Every call answers any numbers and any words, and keeps nothing between calls. Its caller sees to what it cannot ask:
 * - A slice is a pointer and a length, and the length is true: so many items lie there, to be read, and to be written
 *   where the pointer is not const. Any words are any contents.
 * - The pointer is aligned for its items and not null, also where the length is 0, and a slice has fewer than 2^63
 *   bytes. Two slices of one call do not overlap.
 * - During a call nobody else writes the lent memory, or reads what the call may write.
 * - A call takes at most USH_STACK_BYTES of stack below its caller's frame.
 * - The machine rounds floats to the nearest, as it does unless a program has changed that: ush_density divides. */
#ifndef USHANDERI_H
#define USHANDERI_H

#include <stddef.h>
#include <stdint.h>

#ifdef __cplusplus
extern "C" {
#endif

/* The answer numbers. Each call names those that it may give in the order in which they are tried: the first that holds
 * is the answer, and DONE if none does. A refusal's value is 0 unless said, and it writes nothing unless said. */
enum {
    USH_DONE = 0,
    USH_SIZE = 1,      /* words not a multiple of ten, or the records not in 20..4,016 */
    USH_UNSOUND = 2,   /* the table is not sound */
    USH_POINT = 3,     /* the cell is outside the plane */
    USH_RECT = 4,      /* right <= left, top <= bottom, or an edge outside -16,777,216..16,777,216 */
    USH_LABEL = 5,     /* label below 1 */
    USH_OCCUPIED = 6,  /* some solid shares a cell with the rectangle; of a create, value and cell are ush_search's */
    USH_FULL = 7,      /* as many solids as the table takes are present */
    USH_SPACE = 8,     /* the cell to delete at is held by space */
    USH_SIDE = 9,      /* side is not 0..3 */
    USH_SHORT = 10,    /* the lent list is shorter than needed; value: the length needed */
    USH_FILE = 11,     /* saved bytes not a multiple of 20 */
    USH_ROOM = 12,     /* no record of the table is free at entry */
    USH_STEP = 13      /* a window's width or height is below 1, or does not divide the area's */
};

/* The sides of a tile, and the order in which the neighbours along each are listed. */
enum {
    USH_RIGHT_SIDE = 0,   /* from top to bottom */
    USH_LEFT_SIDE = 1,    /* from bottom to top */
    USH_TOP_SIDE = 2,     /* from right to left */
    USH_BOTTOM_SIDE = 3   /* from left to right */
};

/* The ten words of a record, by their places, and what the word `kind` may be. */
enum {
    USH_WORD_LEFT, USH_WORD_BOTTOM, USH_WORD_RIGHT, USH_WORD_TOP, USH_WORD_TR, USH_WORD_RT, USH_WORD_BL, USH_WORD_LB,
    USH_WORD_KIND, USH_WORD_LABEL, USH_RECORD_WORDS
};
enum { USH_KIND_FREE = 0, USH_KIND_SPACE = 1, USH_KIND_SOLID = 2 };

#define USH_EDGE 16777216
#define USH_LEAST_RECORDS 20
#define USH_MOST_RECORDS 4016
#define USH_RECORDS_FOR(solids) (4 * (solids) + 16)   /* for 1 to 1,000 solids */
#define USH_SAVED_BYTES 20                            /* of one solid in a saved layout */
#define USH_STACK_BYTES 327680                        /* 320 KiB; enumerate takes most, on 1,000 solids in a row */

typedef struct { int32_t number; int32_t value; } ush_answer;

/* What ush_search, ush_create and ush_load answer. x and y are the first occupied cell of the area of a search or of
 * the rectangle of a create, rows read from the top down and each row from left to right. It is always a cell of that
 * area, and so not the solid's own first cell where the solid reaches out of the area there. An answer that has no such
 * cell carries 0 and 0. As (0, 0) is a cell too, number and value tell whether there is one. */
typedef struct { int32_t number; int32_t value; int32_t x; int32_t y; } ush_met;

typedef struct { size_t at; size_t len; } ush_part;             /* words table[at .. at + len) */
typedef struct { int32_t number; int64_t value; double lowest; double highest; int64_t covered; } ush_density_report;

/* Makes the table an empty plane: record 0 is the one space tile with four stitches of -1, all other words are 0.
 * Answers SIZE; DONE with value 0. */
ush_answer ush_fresh(int32_t *table, size_t words);

/* Says whether the table is sound: its used records are exactly the tiles of a set of solids that the table may
 * hold, each once, with right stitches, and its free records are zeros.
 * Answers SIZE, UNSOUND; DONE with the number of solids. Writes nothing. */
ush_answer ush_check(const int32_t *table, size_t words);

/* Finds the tile that holds the cell (x, y). A hint is any number and changes only the time it takes.
 * Answers SIZE, UNSOUND, POINT; DONE with the tile's record. Writes nothing. */
ush_answer ush_find(const int32_t *table, size_t words, int32_t x, int32_t y, int32_t hint);

/* Says where the ten words of a record stand in the caller's table: at = ten times the record, len = 10. On a SIZE
 * fault, or where the table has no record of that number, len = 0. Soundness is not looked at. Writes nothing. */
ush_part ush_view(const int32_t *table, size_t words, int32_t record);

/* Lists the tiles along one side of the tile that holds (x, y), in the side's order; a shared corner is no shared side.
 * Answers SIZE, UNSOUND, POINT, SIDE, SHORT; DONE with how many there are, and as many first entries of the list are
 * their records. Writes nothing else. */
ush_answer ush_neighbours(const int32_t *table, size_t words, int32_t x, int32_t y, int32_t side,
                          int32_t *list, size_t room);

/* Looks for the first solid in an area, rows read from the top down and each row from left to right.
 * Answers SIZE, UNSOUND, RECT; DONE with -1 if the area is free, else with the record of the solid that holds its first
 * occupied cell, and with that cell. Every other answer carries 0 and 0 for the cell. Writes nothing. */
ush_met ush_search(const int32_t *table, size_t words, int32_t left, int32_t bottom, int32_t right, int32_t top);

/* Lists the tiles that share a cell with the area, in directed order: those that begin at or before the area's left
 * are roots, from top to bottom; any other hangs under the tile left of its lowest cell inside the area; each is
 * followed by what hangs under it, from top to bottom.
 * Answers SIZE, UNSOUND, RECT, SHORT; DONE with how many there are, and as many first entries of the list are their
 * records. Writes nothing else. */
ush_answer ush_enumerate(const int32_t *table, size_t words, int32_t left, int32_t bottom, int32_t right, int32_t top,
                         int32_t *list, size_t room);

/* Tells how much of each window of an area is metal. Windows are width by height cells, taken row by row from the top
 * and each row from left to right. A window's share, a 64-bit float, is 0.0 where no cell of it is held by a solid, 1.0
 * where all are, and else one division of the covered cells by the window's; of two windows the one with more covered
 * cells has the larger share.
 * Answers SIZE, UNSOUND, RECT, STEP, SHORT; DONE with how many windows there are, up to 2^50, the lowest and the
 * highest share of all windows, and the covered cells of the area; as many first entries of the list are the shares.
 * Writes nothing else. A refusal, SHORT too, has 0.0 for both shares and 0 for the covered cells. */
ush_density_report ush_density(const int32_t *table, size_t words, int32_t left, int32_t bottom, int32_t right,
                               int32_t top, int32_t width, int32_t height, double *shares, size_t room);

/* Draws a solid. The solids that are there keep their records.
 * Answers SIZE, UNSOUND, RECT, LABEL, OCCUPIED (value and cell: those that ush_search gives for the rectangle), FULL;
 * DONE with the new solid's record. Every answer but OCCUPIED carries 0 and 0 for the cell. Writes the table only. */
ush_met ush_create(int32_t *table, size_t words, int32_t left, int32_t bottom, int32_t right, int32_t top,
                   int32_t label);

/* Removes the solid that holds the cell. The other solids keep their records.
 * Answers SIZE, UNSOUND, POINT, SPACE, ROOM (which no sound table gives: one of its records is always free); DONE with
 * the label removed. Writes the table only. */
ush_answer ush_delete(int32_t *table, size_t words, int32_t x, int32_t y);

/* Saves the solids, 20 bytes each: left, bottom, right, top, label, 32-bit two's complement, low byte first; highest
 * top first, ties by smaller left.
 * Answers SIZE, UNSOUND, SHORT; DONE with how many bytes there are, which are the first ones. Writes nothing else. */
ush_answer ush_save(const int32_t *table, size_t words, uint8_t *bytes, size_t room);

/* Makes the table the plane of a saved layout, as a fresh call and one create for each record would, whatever the table
 * held. No bytes make a fresh plane.
 * Answers SIZE, FILE; then RECT, LABEL, OCCUPIED or FULL of the first refused record, with that record's index from 0,
 * and the table is a fresh plane; DONE with the number of records. Every answer carries 0 and 0 for the cell, OCCUPIED
 * too. Writes the table only. */
ush_met ush_load(int32_t *table, size_t words, const uint8_t *bytes, size_t count);

#ifdef __cplusplus
}
#endif

#endif
