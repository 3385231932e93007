/*
 * Whether the stepping can tell: a maximum made with a jump must have two kinds of steps, one made with a conditional
 * move only one. Both are written as instructions, so that no compiler makes the one into the other, and come after a
 * call of memset, which is not stepped through.
 */
#include "same_steps.h"

#include <string.h>

static volatile uint64_t left, right, answer;
static uint8_t space[256];
static volatile size_t length = sizeof space;

static void larger_by_jump(void)
{
    uint64_t a = left, b = right;

    memset(space, 1, length);
    __asm__ volatile("cmpq %1, %0\n\t"
                     "jae 1f\n\t"
                     "movq %1, %0\n"
                     "1:"
                     : "+r"(a)
                     : "r"(b)
                     : "cc");
    answer = a;
}

static void larger_by_move(void)
{
    uint64_t a = left, b = right;

    memset(space, 2, length);
    __asm__ volatile("cmpq %1, %0\n\t"
                     "cmovbq %1, %0"
                     : "+r"(a)
                     : "r"(b)
                     : "cc");
    answer = a;
}

/* The steps of a maximum of two numbers; counts in wrong where the answer is not the larger one. */
static struct steps steps_with(void (*call)(void), uint64_t a, uint64_t b, int *wrong)
{
    struct steps s;

    left = a;
    right = b;
    s = steps_of(call);
    *wrong += answer != (a < b ? b : a);
    return s;
}

/* Whether a maximum has other steps where the first number is the larger one. */
static int differ(void (*call)(void), int *wrong)
{
    struct steps s = steps_with(call, 3, 8, wrong), t = steps_with(call, 8, 3, wrong);

    return s.count != t.count || s.hash != t.hash;
}

int stepping_tells(void)
{
    int wrong = 0;
    int by_jump = differ(larger_by_jump, &wrong);
    int by_move = differ(larger_by_move, &wrong);

    return by_jump && !by_move && wrong == 0;
}
