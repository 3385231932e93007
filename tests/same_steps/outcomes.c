/*
 * The outcomes of comparisons that a class cannot have, each with the reason. All others must be shown.
 */
#include "same_steps.h"

#include <stdio.h>

#define ONE(which) (1u << (which))
#define OF_UNIT (ONE(MM_REB) | ONE(MM_PAYOFF) | ONE(REB_PAYOFF) | ONE(MM_OTHERS) | ONE(REB_OTHERS) | ONE(PAYOFF_OTHERS))

static const char *const names[COMPARISONS] = {
    "PB against the price",
    "payoff against 0",
    "MM against REB",
    "MM against payoff",
    "REB against payoff",
    "MM against REB and payoff",
    "REB against MM and payoff",
    "payoff against MM and REB",
    "REBw against REBh",
    "PEh against the price",
    "D against 0",
    "MM against R",
    "MM against D",
    "R against D",
    "MM against R and D",
    "R against MM and D",
    "D against MM and R",
};

/* A row without barrier has REB 0, and neither MM nor the payoff is below 0. */
static void without_rebate(struct outcomes *o)
{
    o->below |= ONE(MM_REB);
    o->above |= ONE(REB_PAYOFF) | ONE(REB_OTHERS);
}

/* No pair although the spread margin is 0: the unit margin is 0 too, and with it everything in its maximum. The price is not
 * beyond PEw (nor beyond an equal PEh); PB is beyond PEw, so that it is not below the price. */
static void unit_is_zero(const struct class *c, struct outcomes *o)
{
    o->below |= OF_UNIT | ONE(LIMITER_PRICE);
    o->above |= OF_UNIT | ONE(PAYOFF_ZERO);
    if (c->order == 1)
        o->below |= ONE(STRIKE_PRICE);
}

/* No pair although the spread margin is R, at most REBw: REBw is the unit margin, and nothing in its maximum is above it. */
static void unit_is_rebate(struct outcomes *o)
{
    o->below |= ONE(REB_PAYOFF) | ONE(REB_OTHERS);
    o->above |= ONE(MM_REB) | ONE(MM_OTHERS) | ONE(PAYOFF_OTHERS);
}

/* A pair whose spread margin is at least MM and D, and at least REBw where the unit margin has it: the unit margin is above
 * them, so that it is the payoff. The payoff is above D: so PEh is below the price, and D is PEh against PEw, above 0. */
static void unit_is_payoff(struct outcomes *o)
{
    o->below |= ONE(PAYOFF_ZERO) | ONE(PAYOFF_OTHERS) | ONE(D_ZERO);
    o->above |= ONE(MM_PAYOFF) | ONE(REB_PAYOFF) | ONE(MM_OTHERS) | ONE(REB_OTHERS) | ONE(STRIKE_PRICE);
}

/* Two rows. The held strike covers where a call's is not above the written one, a put's not below it. */
static void of_spread(const struct class *c, struct outcomes *o)
{
    int covers = c->order == 1 || c->order == (c->type == CALL ? 0 : 2);

    if (covers) {
        o->above |= ONE(D_ZERO); /* PEh is not beyond PEw */
        if (!c->pairs && !c->reachable)
            unit_is_zero(c, o);
        if (!c->pairs && c->reachable)
            unit_is_rebate(o);
        if (c->pairs && c->reachable && !c->equal_barriers)
            o->above |= ONE(REB_OTHERS); /* the spread margin is REBw, and the unit margin above it */
    } else if (c->pairs && c->kind != NO_BARRIER) {
        o->above |= ONE(MM_OTHERS); /* the spread margin is at least MM, and the unit margin above it */
        if (!c->reachable || !c->equal_barriers)
            unit_is_payoff(o);
    }
}

/* Of the comparisons made in a class, those where the first number is never the smaller or never the larger one. */
static struct outcomes never(const struct class *c, uint32_t made)
{
    struct outcomes o = {made, 0, 0};

    if (c->kind == NO_BARRIER || c->knocked_in)
        without_rebate(&o);
    if (c->rows == 2)
        of_spread(c, &o);
    o.below &= made;
    o.above &= made;
    return o;
}

static void print_outcomes(uint32_t below, uint32_t above)
{
    uint32_t i;

    for (i = 0; i < COMPARISONS; i++) {
        if (below & ONE(i))
            printf("  %s: below\n", names[i]);
        if (above & ONE(i))
            printf("  %s: above\n", names[i]);
    }
}

/* Whether accounts of a class have shown an outcome that it cannot have. */
int has_impossible(const struct class *c, const struct outcomes *drawn)
{
    struct outcomes no = never(c, drawn->made);

    return (drawn->below & no.below) != 0 || (drawn->above & no.above) != 0;
}

void print_impossible(const struct class *c, const struct outcomes *drawn)
{
    struct outcomes no = never(c, drawn->made);

    print_outcomes(drawn->below & no.below, drawn->above & no.above);
}

/* Whether accounts of a class have shown every other outcome. */
int has_all(const struct class *c, const struct outcomes *shown)
{
    struct outcomes no = never(c, shown->made);

    return (shown->below | no.below) == shown->made && (shown->above | no.above) == shown->made;
}

void print_missing(const struct class *c, const struct outcomes *shown)
{
    struct outcomes no = never(c, shown->made);

    print_outcomes(shown->made & ~(shown->below | no.below), shown->made & ~(shown->above | no.above));
}
