/*
 * The classes of accounts, each under a number. A number can have no class: then what it says does not go together.
 */
#include "same_steps.h"

#include <stdio.h>

/* The least digit of a number whose digits count to below base. */
static uint32_t digit(uint32_t *number, uint32_t base)
{
    uint32_t least = *number % base;

    *number /= base;
    return least;
}

/* One written row. Flag 1 is for knock-ins, and the rules do not ask whether the barrier of a row with it is reachable; but
 * the reading may ask on which side of PV the barrier is before it asks for flag 1 (refusal 11), which is no maximum. */
static int one_row(uint32_t number, struct class *c)
{
    c->rows = 1;
    c->type = digit(&number, 2);
    c->limited = digit(&number, 2);
    c->reachable = digit(&number, 2);
    c->knocked_in = digit(&number, 2);
    c->other_side = digit(&number, 2);
    c->kind = digit(&number, 5);
    if (number != 0 || (c->knocked_in && c->kind != UP_IN && c->kind != DOWN_IN) || (c->other_side && !c->knocked_in))
        return 0;
    return !c->reachable || (c->kind != NO_BARRIER && !c->knocked_in);
}

/* A written and a held row that no limiter and no barrier bars from pairing. */
static int two_rows(uint32_t number, struct class *c)
{
    static const uint32_t kinds[3] = {NO_BARRIER, UP_OUT, DOWN_OUT};
    uint32_t limiters;

    c->rows = 2;
    c->type = digit(&number, 2);
    limiters = digit(&number, 3);
    c->limited = limiters > 0;
    c->held_limited = limiters > 1;
    c->reachable = digit(&number, 2);
    c->equal_barriers = digit(&number, 2);
    c->order = digit(&number, 3);
    c->pairs = digit(&number, 2);
    c->kind = kinds[digit(&number, 3)];
    if (number != 0)
        return 0;
    return c->kind != NO_BARRIER || (!c->reachable && !c->equal_barriers);
}

/* The class of a number below CLASS_NUMBERS, or 0 where there is none. */
int class_of_number(uint32_t number, struct class *c)
{
    *c = (struct class){.rows = 0};
    if (number < CLASS_NUMBERS / 2)
        return one_row(number, c);
    return two_rows(number - CLASS_NUMBERS / 2, c);
}

void print_class(const struct class *c)
{
    static const char *const kinds[5] = {"no barrier", "up-and-in", "down-and-in", "up-and-out", "down-and-out"};
    static const char *const orders[3] = {"below", "at", "above"};

    printf("%s, %s", c->type == CALL ? "call" : "put", kinds[c->kind]);
    if (c->knocked_in)
        printf(", knocked in%s", c->other_side ? ", barrier on the other side of PV" : "");
    else if (c->kind != NO_BARRIER)
        printf(", %s", c->reachable ? "reachable" : "not reachable");
    printf(", %s", c->held_limited ? "limiters on both rows" : c->limited ? "limiter on the written row" : "no limiter");
    if (c->rows == 1)
        return;
    if (c->kind != NO_BARRIER)
        printf(", barriers %s", c->equal_barriers ? "equal" : "not equal");
    printf(", held strike %s the written one, %s", orders[c->order], c->pairs ? "a pair" : "no pair");
}
