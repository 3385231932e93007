/*
 * The margin of one written row and of a pair by document 01, in plain arithmetic, and how each maximum and minimum on the
 * way came out. Numbers are fine units.
 */
#include "same_steps.h"

static int64_t fine(uint32_t ticks)
{
    return (int64_t)ticks * 1000000;
}

static int64_t product(uint32_t ticks, uint32_t factor)
{
    return (int64_t)ticks * factor;
}

static void compare(struct outcomes *o, enum comparison which, int64_t a, int64_t b)
{
    o->made |= 1u << which;
    o->below |= (uint32_t)(a < b) << which;
    o->above |= (uint32_t)(a > b) << which;
}

static int64_t larger(struct outcomes *o, enum comparison which, int64_t a, int64_t b)
{
    compare(o, which, a, b);
    return a > b ? a : b;
}

static int64_t smaller(struct outcomes *o, enum comparison which, int64_t a, int64_t b)
{
    compare(o, which, a, b);
    return a < b ? a : b;
}

static int64_t plain_larger(int64_t a, int64_t b)
{
    return a > b ? a : b;
}

/* The largest of three. Which two the engine compares first is left open, so that every number is compared with each
 * other one and with the larger of the other two: six comparisons from the first one on. */
static int64_t largest(struct outcomes *o, enum comparison first, int64_t a, int64_t b, int64_t c)
{
    compare(o, first, a, b);
    compare(o, first + 1, a, c);
    compare(o, first + 2, b, c);
    compare(o, first + 3, a, plain_larger(b, c));
    compare(o, first + 4, b, plain_larger(a, c));
    compare(o, first + 5, c, plain_larger(a, b));
    return plain_larger(a, plain_larger(b, c));
}

static uint32_t kind_in_force(const struct row *r)
{
    return r->flags & KNOCKED_IN ? NO_BARRIER : r->kind;
}

int is_reachable(const struct series *s, const struct row *r)
{
    uint32_t kind = kind_in_force(r);

    if (kind == UP_IN || kind == UP_OUT)
        return product(s->pv, s->fa) >= fine(r->barrier);
    if (kind == DOWN_IN || kind == DOWN_OUT)
        return product(s->pv, s->fb) <= fine(r->barrier);
    return 0;
}

/* H of a call, L of a put, or what takes its place where the barrier is reachable. */
static int64_t price_in_force(const struct series *s, const struct row *r)
{
    uint32_t kind = is_reachable(s, r) ? kind_in_force(r) : NO_BARRIER;

    if (s->type == CALL && kind == DOWN_IN)
        return product(r->barrier, s->fa);
    if (s->type == PUT && kind == UP_IN)
        return product(r->barrier, s->fb);
    if ((s->type == CALL && kind == UP_OUT) || (s->type == PUT && kind == DOWN_OUT))
        return fine(r->barrier);
    return product(s->pv, s->type == CALL ? s->fa : s->fb);
}

/* max(0; C) or max(0; P): the rules have it in a maximum with MM, which is 0 or more. */
static int64_t payoff(const struct series *s, const struct row *r, struct outcomes *o)
{
    int64_t price = price_in_force(s, r);

    if (s->type == CALL) {
        if (r->flags & LIMITED)
            price = smaller(o, LIMITER_PRICE, fine(r->pb), price);
        return larger(o, PAYOFF_ZERO, price - fine(r->pe), 0);
    }
    if (r->flags & LIMITED)
        price = larger(o, LIMITER_PRICE, price, fine(r->pb));
    return larger(o, PAYOFF_ZERO, fine(r->pe) - price, 0);
}

int64_t unit_margin(const struct series *s, const struct row *w, struct outcomes *o)
{
    uint32_t kind = kind_in_force(w);
    int64_t mm = product(s->pv, s->f3);
    int64_t reb = kind == NO_BARRIER ? 0 : fine(w->reb);
    int reachable = is_reachable(s, w);

    if ((kind == UP_IN || kind == DOWN_IN) && !reachable)
        return larger(o, MM_REB, mm, reb);
    if ((kind == UP_OUT || kind == DOWN_OUT) && !reachable)
        return larger(o, MM_PAYOFF, mm, payoff(s, w, o));
    return largest(o, MM_REB, mm, reb, payoff(s, w, o));
}

/* max(0; D), also where the rule does not ask for it: the engine may work it out before it looks at the strikes. */
static int64_t difference(const struct series *s, const struct row *w, const struct row *h, struct outcomes *o)
{
    int64_t price = price_in_force(s, w);

    if (s->type == CALL)
        return larger(o, D_ZERO, smaller(o, STRIKE_PRICE, fine(h->pe), price) - fine(w->pe), 0);
    return larger(o, D_ZERO, fine(w->pe) - larger(o, STRIKE_PRICE, price, fine(h->pe)), 0);
}

/* Both rows without barrier or both knocking out by the same kind, no limiter or barrier barring the pair. */
int64_t spread_margin(const struct series *s, const struct row *w, const struct row *h, struct outcomes *o)
{
    int64_t mm = product(s->pv, s->f3), r = fine(w->reb), d;
    int covers = s->type == CALL ? h->pe <= w->pe : h->pe >= w->pe;
    int reachable = is_reachable(s, w);

    if (w->kind == NO_BARRIER)
        return covers ? 0 : s->type == CALL ? fine(h->pe) - fine(w->pe) : fine(w->pe) - fine(h->pe);
    if (h->barrier == w->barrier)
        r = larger(o, REBW_REBH, fine(w->reb), fine(h->reb)) - fine(h->reb);
    d = difference(s, w, h, o);
    if (covers)
        return reachable ? r : 0;
    return reachable ? largest(o, MM_R, mm, r, d) : larger(o, MM_D, mm, d);
}

/* The product can pass 64 bits. C11 has no such type, gcc has. */
__extension__ typedef unsigned __int128 wide;

/* unit × M × Q, divided by 1,000,000 and rounded up once, to a multiple of 100 centavos. A real is 10^8 of the product. */
uint64_t amount_of(int64_t unit, uint32_t m, uint32_t q)
{
    const wide real = 100000000;

    return (uint64_t)(((wide)unit * m * q + real - 1) / real * 100);
}
