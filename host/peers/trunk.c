/* A clock trunk with k branches: delete the trunk and create it again. The trunk is 10 wide and 10 k high, and its branches
 * leave it at the right, at the left, at both sides in turn, at the right with a gap between, or stand on each other at the
 * right or the left; or it is a strap 10 high and 10 k wide with its branches above. The trunk's label is no branch's, so
 * that Magic keeps them apart. */
#include <stdio.h>
#include "side.h"

#define MOST 998
#define CELL 5, 5                       /* of the trunk */
enum { RIGHT, LEFT, BOTH, GAP, STACKED_RIGHT, STACKED_LEFT, STRAP, SHAPES };
static const char *const SHAPE[] = {"right", "left", "both", "gap", "stacked right", "stacked left", "wide strap"};

typedef struct {
    int k, times;                       /* branches; repetitions in a sample */
    int rects[MOST + 1][4], labels[MOST + 1];
    int *trunk, label;
    ours *table, *fewer;                /* fewer: without the trunk */
    void *plane;
} work;

static volatile long sink;

static void make(work *w, int shape, int k)
{
    int refused;
    w->k = k;
    w->times = shape == STRAP ? 16 : 2000 / k;
    for (int i = 0; i < k; i++) {
        int *r = w->rects[i], right = shape == RIGHT || shape == GAP || shape == STACKED_RIGHT || (shape == BOTH && i % 2);
        int stacked = shape == STACKED_RIGHT || shape == STACKED_LEFT;
        int gap = shape == GAP ? 5 + i % 3 : 0, more = stacked ? i % 7 : 0;
        int across[2] = {right ? 10 + gap : -40 - more, right ? 50 + more : 0};
        int along[2] = {10 * i + (stacked ? 0 : 2), 10 * i + (stacked ? 10 : 6)};
        r[0] = across[0]; r[2] = across[1]; r[1] = along[0]; r[3] = along[1];
        if (shape == STRAP) { r[0] = along[0]; r[2] = along[1]; r[1] = 10; r[3] = 50; }
        w->labels[i] = 1 + i % 254;
    }
    w->trunk = w->rects[k];
    w->label = w->labels[k] = 255;
    w->trunk[0] = w->trunk[1] = 0;
    w->trunk[2] = shape == STRAP ? 10 * k : 10;
    w->trunk[3] = shape == STRAP ? 10 : 10 * k;

    unsigned char *saved = our_saved(k + 1, w->rects);
    w->table = our_new(k + 1);
    our_load(w->table, saved, k + 1);
    w->fewer = our_copy(w->table);
    our_delete(w->fewer, CELL);
    w->plane = mag_load(k + 1, w->rects, w->labels, &refused);
    if (refused) die("Magic refused rectangles", refused, k);
    same(w->table, w->plane, k + 1);
}

/* The first check warms the caches and is not timed. */
static void o_check(void *on, double *us)
{
    work *w = on;
    double t0 = 0;
    for (int n = -1; n < 20; n++) { if (n == 0) t0 = now(); sink += our_check(w->table); }
    us[0] = since(t0) / 20;
}
static void m_check(void *on, double *us)
{
    work *w = on;
    double t0 = 0;
    for (int n = -1; n < 20; n++) { if (n == 0) t0 = now(); sink += mag_check(w->plane); }
    us[0] = since(t0) / 20;
}

/* Whole calls: delete and create in turn, the first pair not timed. */
#define IN_TURN(delete, create) do { \
        us[0] = us[1] = 0; \
        for (int n = 0; n <= w->times; n++) { \
            double a_ = now(); delete; \
            double d_ = since(a_); \
            a_ = now(); create; \
            if (n) { us[1] += since(a_) / w->times; us[0] += d_ / w->times; } \
        } \
    } while (0)
static void o_calls(void *on, double *us)
{
    work *w = on;
    IN_TURN(our_delete(w->table, CELL), our_create(w->table, w->trunk));
}
static void m_calls(void *on, double *us)
{
    work *w = on;
    int refused = 0;
    IN_TURN(refused += mag_delete(w->plane, CELL), refused += mag_create(w->plane, w->trunk, w->label));
    if (refused) die("Magic refused the trunk", refused, w->k);
}

/* Less the check that each of our calls begins with; Magic has none. */
static void o_work(void *on, double *us)
{
    double check[PARTS];
    o_check(on, check);
    o_calls(on, us);
    us[0] -= check[0];
    us[1] -= check[0];
}

/* Inner work: create and delete again, from like hints. */
static void o_edit(void *on, double *us)
{
    work *w = on;
    double a = now();
    our_edits(w->fewer, w->trunk, w->times);
    double b = now();
    our_edits(w->fewer, w->trunk, 0);
    us[0] = (b - a - (now() - b)) / w->times;
}
static void m_edit(void *on, double *us)
{
    work *w = on;
    void *hints[16];
    mag_clear(w->plane, w->trunk);
    hint_tiles(w->table, w->plane, w->times, w->trunk[0], w->trunk[1], hints);
    mag_edits(w->plane, w->trunk, w->label, NULL, 1);
    double a = now();
    mag_edits(w->plane, w->trunk, w->label, hints, w->times);
    us[0] = since(a) / w->times;
    if (mag_create(w->plane, w->trunk, w->label)) die("Magic refused the trunk", 0, w->k);
}

void trunk(int samples)
{
    static const int SIZES[] = {249, 499, MOST};
    static work w[3];
    printf("-- trunk: each number of branches beside the one before, twice as many\n");
    for (int shape = 0; shape < SHAPES; shape++) {
        task t[12];
        for (int s = 0; s < 3; s++) {
            const char *name = SHAPE[shape];
            int k = SIZES[s], smaller = s > 0;
            make(&w[s], shape, k);
            t[s] = (task) {{named("trunk %s, %d: check [a]", name, k)}, o_check, m_check, &w[s], smaller};
            t[3 + s] = (task) {{named("trunk %s, %d: edit pair, inner [h]", name, k)}, o_edit, m_edit, &w[s], smaller};
            t[6 + s] = (task) {{named("trunk %s, %d: whole delete [%s]", name, k, shape == STRAP ? "e,g" : "e"),
                                named("trunk %s, %d: whole create [e]", name, k)},
                               o_calls, m_calls, &w[s], smaller};
            t[9 + s] = (task) {{named("trunk %s, %d: delete, check off%s", name, k, shape == STRAP ? " [g]" : ""),
                                named("trunk %s, %d: create, check off", name, k)},
                               o_work, m_calls, &w[s], smaller};
        }
        measure(t, 12, samples);
        for (int s = 0; s < 3; s++) {
            same(w[s].table, w[s].plane, w[s].k + 1);
            our_free(w[s].table);
            our_free(w[s].fewer);
            mag_free(w[s].plane);
        }
    }
}
