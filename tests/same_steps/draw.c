/*
 * Random accounts of a class, always the same ones. Prices stand near each other, at four sizes, so that each of two can be
 * the larger one; every number is within the limits of document 01.
 */
#include "same_steps.h"

#include <string.h>

#define MOST_TICKS 10000000u

/* How many accounts of a class are drawn for one that is stepped through, and how many draws that may take. */
#define CHOICE 50
#define MOST_DRAWS 100000

/* The next random number, below k. */
static uint32_t draw(uint32_t k)
{
    static uint64_t state = 20030814;

    state = state * 6364136223846793005u + 1442695040888963407u;
    return (uint32_t)(state >> 33) % k;
}

static uint32_t at_most(uint32_t most, uint32_t number)
{
    return number < most ? number : most;
}

static void draw_series(struct series *s, uint32_t type)
{
    static const uint32_t sizes[4] = {10, 100, 10000, 4000000};

    s->type = type;
    s->pv = 2 + draw(sizes[draw(4)]);
    s->fa = 1000000 + draw(draw(8) == 0 ? 9000001 : 1000000);
    s->fb = draw(8) == 0 ? draw(s->fa + 1) : at_most(s->fa, 300000 + draw(900000));
    s->f3 = draw(3) == 0 ? 0 : draw(draw(8) == 0 ? 1000001 : 600000);
    s->m = 1 + draw(1000);
}

static uint32_t draw_rebate(const struct series *s)
{
    return draw(4) == 0 ? 0 : draw(s->pv);
}

static uint32_t draw_barrier(const struct series *s, const struct class *c)
{
    int up = c->kind == UP_IN || c->kind == UP_OUT;

    if (c->kind == NO_BARRIER)
        return 0;
    if (c->other_side)
        return up ? 1 + draw(s->pv) : s->pv + draw(s->pv);
    return up ? s->pv + 1 + draw(s->pv) : 1 + draw(s->pv - 1);
}

/* Above PE for a call, below it for a put. */
static uint32_t draw_limiter(const struct series *s, uint32_t pe)
{
    return s->type == CALL ? at_most(MOST_TICKS, pe + 1 + draw(s->pv)) : pe - 1 - draw(pe);
}

static void draw_written(const struct series *s, const struct class *c, struct row *w)
{
    w->kind = c->kind;
    w->flags = EUROPEAN + (c->knocked_in ? KNOCKED_IN : 0) + (c->limited ? LIMITED : 0);
    w->q = c->rows == 1 ? 1 + draw(100000) : 1;
    w->pe = 1 + draw(2 * s->pv);
    w->pb = c->limited ? draw_limiter(s, w->pe) : 0;
    w->barrier = draw_barrier(s, c);
    w->reb = c->kind == NO_BARRIER ? 0 : draw_rebate(s);
}

/*
 * A held row beside a written one. Its barrier is equal to the written one or farther from PV, its limiter equal to the
 * written one in one account of two or farther from it. A number out of its range is found by in_range. The premium is
 * above 0: the sum of the premiums asks for that and passes over rows without a premium, which is no maximum.
 */
static void draw_held(const struct series *s, const struct class *c, const struct row *w, struct row *h)
{
    uint32_t farther = draw(2) == 0 ? 0 : draw(s->pv);

    h->kind = c->kind;
    h->flags = EUROPEAN + (c->held_limited ? LIMITED : 0);
    h->q = 1;
    h->pe = c->order == 0 ? draw(w->pe) : c->order == 1 ? w->pe : w->pe + 1 + draw(s->pv);
    if (c->held_limited)
        h->pb = s->type == CALL ? w->pb + farther : w->pb - at_most(w->pb, farther);
    h->barrier = w->barrier;
    if (c->kind == UP_OUT && !c->equal_barriers)
        h->barrier += 1 + draw(s->pv);
    if (c->kind == DOWN_OUT && !c->equal_barriers)
        h->barrier = draw(w->barrier);
    h->reb = c->kind == NO_BARRIER ? 0 : draw_rebate(s);
    h->premium = 1 + draw(s->pv);
}

/* Whether a held row is within the limits of document 01. */
static int in_range(const struct series *s, const struct row *h)
{
    if (h->pe == 0 || h->pe > MOST_TICKS || h->barrier > MOST_TICKS || h->pb > MOST_TICKS)
        return 0;
    if (h->kind != NO_BARRIER && h->barrier == 0)
        return 0;
    if (!(h->flags & LIMITED))
        return 1;
    return s->type == CALL ? h->pe < h->pb : h->pb < h->pe;
}

/* Draws an account and says whether it is one of the class. */
static int draw_account(const struct class *c, struct account *a)
{
    const struct series *s = &a->series;
    struct row *w = &a->row[0], *h = &a->row[1];
    struct outcomes none = {0, 0, 0};

    memset(a, 0, sizeof *a);
    a->rows = c->rows;
    draw_series(&a->series, c->type);
    draw_written(s, c, w);
    if (is_reachable(s, w) != (int)c->reachable)
        return 0;
    if (c->rows == 1)
        return 1;
    draw_held(s, c, w, h);
    return in_range(s, h) && (spread_margin(s, w, h, &none) < unit_margin(s, w, &none)) == (int)c->pairs;
}

/* How the comparisons of the account's rules come out is added to the sum. */
void add_outcomes(struct outcomes *sum, const struct account *a)
{
    unit_margin(&a->series, &a->row[0], sum);
    if (a->rows == 2)
        spread_margin(&a->series, &a->row[0], &a->row[1], sum);
}

/* How many outcomes an account shows that were not shown before. */
static int count_fresh(const struct outcomes *shown, const struct account *a)
{
    struct outcomes o = {0, 0, 0};

    add_outcomes(&o, a);
    return __builtin_popcount(o.below & ~shown->below) + __builtin_popcount(o.above & ~shown->above);
}

/* Of accounts drawn the one that shows most fresh outcomes, and how many; or -1 where none is of the class. */
int choose(const struct class *c, const struct outcomes *shown, struct outcomes *drawn, struct account *best)
{
    struct account a;
    int draws, found = 0, most = -1, fresh;

    for (draws = 0; draws < MOST_DRAWS && found < CHOICE; draws++) {
        if (!draw_account(c, &a))
            continue;
        found++;
        add_outcomes(drawn, &a);
        fresh = count_fresh(shown, &a);
        if (fresh > most) {
            most = fresh;
            *best = a;
        }
    }
    return most;
}
