/*
 * What the files of the test of same steps have in common: accounts, classes of accounts, comparisons and steps.
 * main.c says what is tested.
 */
#ifndef SAME_STEPS_H
#define SAME_STEPS_H

#include <stddef.h>
#include <stdint.h>

/* Accounts of one series and one or two rows, by the names of document 01. Row 0 is written, row 1 held. */
enum { CALL, PUT };
enum { NO_BARRIER, UP_IN, DOWN_IN, UP_OUT, DOWN_OUT };
enum { KNOCKED_IN = 1, LIMITED = 2, EUROPEAN = 4 };

struct series {
    uint32_t pv, fa, fb, f3, m, type;
};

struct row {
    uint32_t kind, flags, q, pe, pb, barrier, reb, premium;
};

struct account {
    struct series series;
    uint32_t rows;
    struct row row[2];
};

/*
 * The comparisons of the maxima and minima in the rules. The price is H of a call and L of a put, or what the rules put in
 * its place for the barrier. PB and PEh count as below the price where they are what the minimum or the maximum gives: lower
 * than the price for a call, higher for a put.
 */
enum comparison {
    LIMITER_PRICE, /* PB against the price */
    PAYOFF_ZERO,   /* payoff against 0 */
    MM_REB,        /* the unit margin: max(MM; REB; payoff), six comparisons */
    MM_PAYOFF,
    REB_PAYOFF,
    MM_OTHERS, /* MM against the larger of REB and payoff */
    REB_OTHERS,
    PAYOFF_OTHERS,
    REBW_REBH,    /* REBw against REBh, where the barriers are equal */
    STRIKE_PRICE, /* PEh against the price */
    D_ZERO,       /* D against 0 */
    MM_R,         /* the spread margin: max(MM; R; D), six comparisons */
    MM_D,
    R_D,
    MM_OTHERS_OF_SPREAD, /* MM against the larger of R and D */
    R_OTHERS,
    D_OTHERS,
    COMPARISONS
};

/* Sets of comparisons, a bit for each: those made, those where the first number was the smaller and the larger one. */
struct outcomes {
    uint32_t made, below, above;
};

/* What accounts have in common that must have the same steps. other_side: the barrier of a row with flag 1 is not on the
 * side of PV where it must be without that flag. order: the held strike is below (0), at (1) or above (2) the written one.
 * The last four are of accounts with two rows. */
struct class {
    uint32_t rows, type, kind, limited, reachable, knocked_in, other_side;
    uint32_t held_limited, equal_barriers, order, pairs;
};

/* The steps of a call: how many instructions it executed, and a number made of their addresses in their order. */
struct steps {
    uint64_t count, hash;
};

/* step.c: stepping through a call. */
#define MOST_STEPS 65536
void prepare_stepping(void);
struct steps steps_of(void (*call)(void));
void record_steps(void (*call)(void), uint64_t *addresses);

/* control.c: whether stepping can tell. */
int stepping_tells(void);

/* classes.c: the classes, by numbers below CLASS_NUMBERS. */
#define CLASS_NUMBERS 1000
int class_of_number(uint32_t number, struct class *c);
void print_class(const struct class *c);

/* rules.c: document 01. */
int is_reachable(const struct series *s, const struct row *r);
int64_t unit_margin(const struct series *s, const struct row *w, struct outcomes *o);
int64_t spread_margin(const struct series *s, const struct row *w, const struct row *h, struct outcomes *o);
uint64_t amount_of(int64_t unit, uint32_t m, uint32_t q);

/* outcomes.c: what comparisons come out as in a class. */
int has_impossible(const struct class *c, const struct outcomes *drawn);
void print_impossible(const struct class *c, const struct outcomes *drawn);
int has_all(const struct class *c, const struct outcomes *shown);
void print_missing(const struct class *c, const struct outcomes *shown);

/* draw.c: random accounts. */
void add_outcomes(struct outcomes *sum, const struct account *a);
int choose(const struct class *c, const struct outcomes *shown, struct outcomes *drawn, struct account *best);

/* calls.c: the calls of the library. */
int step_account(const struct account *a, struct steps *s);
void print_account(const struct account *a);
void print_difference(const struct account *a, const struct account *b);

#endif
