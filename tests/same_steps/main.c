/*
 * The maximum and the minimum in the margin rules are computed without a branch (document 02, request 4). This test shows
 * it of the compiled code, also where it is inlined: two calls that differ in which of two numbers is the larger execute
 * the same instructions in the same order.
 *
 * Accounts are put into classes by what the rules and the pairing themselves ask: type, barrier, flag 1, limiter, whether
 * the barrier is reachable, and for a written and a held row whether their barriers are equal, their strikes' order and
 * whether they pair. In each class accounts are drawn until every comparison of the rules' maxima and minima has come out
 * both ways, where the class leaves both open, and all their calls must have the same steps. For one row the call is
 * serpentgleam_position_amount, for two rows serpentgleam_margin. The answers are compared with the test's own arithmetic.
 *
 * What this cannot show: max(0; PEh - PEw) of calls and max(0; PEw - PEh) of puts without barrier, since the pairing looks
 * for strikes above and below the written one by different instructions, so that their order belongs to the class; the
 * smaller of H and an upper barrier and the larger of L and a lower one, since whether the barrier is reachable does; and
 * the minima of the pairing, which are no margin rules and come out one way in accounts of two rows with a contract each.
 *
 * Prints one line and gives exit status 0; or what is wrong, and 1. For Linux on x86-64.
 */
#include "same_steps.h"

#include <inttypes.h>
#include <stdio.h>

/* The least number of accounts stepped through in a class of accounts with so many rows. */
static const int least_calls[3] = {0, 12, 3};

/* How often accounts are drawn before a class is given up. */
#define MOST_CHOICES 1000

static uint64_t calls;

/* The first account of a class that was stepped through, and its steps. */
struct first {
    struct account account;
    struct steps steps;
};

static int failed(const struct class *c, const char *why)
{
    printf("same steps: %s: ", why);
    print_class(c);
    printf("\n");
    return 0;
}

/* Steps through an account and compares with the first of its class, if it is not the first itself. */
static int try_account(const struct class *c, const struct account *a, int is_first, struct first *first)
{
    struct steps s;

    calls++;
    if (!step_account(a, &s)) {
        failed(c, "a wrong answer");
        print_account(a);
        return 0;
    }
    if (is_first)
        *first = (struct first){*a, s};
    if (s.count == first->steps.count && s.hash == first->steps.hash)
        return 1;
    failed(c, "the steps differ");
    print_account(&first->account);
    printf("  and\n");
    print_account(a);
    print_difference(&first->account, a);
    return 0;
}

static int try_class(const struct class *c)
{
    struct outcomes shown = {0, 0, 0}, drawn = {0, 0, 0};
    struct account a;
    struct first first;
    int choices, stepped = 0, least = least_calls[c->rows], fresh;

    for (choices = 0; choices < MOST_CHOICES; choices++) {
        fresh = choose(c, &shown, &drawn, &a);
        if (fresh < 0)
            return failed(c, "no account was drawn");
        if (has_impossible(c, &drawn)) {
            failed(c, "an outcome that is listed as impossible");
            print_impossible(c, &drawn);
            return 0;
        }
        if (fresh == 0 && stepped >= least)
            continue;
        if (!try_account(c, &a, stepped == 0, &first))
            return 0;
        stepped++;
        add_outcomes(&shown, &a);
        if (stepped >= least && has_all(c, &shown))
            return 1;
    }
    failed(c, "an outcome was never drawn");
    print_missing(c, &shown);
    return 0;
}

int main(void)
{
    struct class c;
    uint32_t number, classes = 0, wrong = 0;

    prepare_stepping();
    if (!stepping_tells()) {
        printf("same steps: the stepping does not tell a jump from a conditional move\n");
        return 1;
    }
    for (number = 0; number < CLASS_NUMBERS; number++)
        if (class_of_number(number, &c)) {
            classes++;
            wrong += !try_class(&c);
        }
    if (wrong > 0) {
        printf("same steps: %" PRIu32 " of %" PRIu32 " classes failed\n", wrong, classes);
        return 1;
    }
    printf("same steps: %" PRIu32 " classes, %" PRIu64 " calls, every outcome that a class can have, the same steps in each class\n",
           classes, calls);
    return 0;
}
