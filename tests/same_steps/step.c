/*
 * Steps through a call with the trap flag of the processor: with it set, the processor stops after every instruction and
 * the system sends SIGTRAP, whose handler is given the address of the next one.
 */
#define _GNU_SOURCE
#include "same_steps.h"

#include <signal.h>
#include <stdio.h>
#include <stdlib.h>
#include <string.h>
#include <ucontext.h>
#include <x86intrin.h>

#define TRAP_FLAG 0x100ull

static volatile uint64_t count, hash;
static uint64_t *volatile record;

static void fold(uint64_t number)
{
    hash = (hash ^ number) * 0x100000001b3u;
}

static void on_step(int number, siginfo_t *information, void *context)
{
    uint64_t address = (uint64_t)((ucontext_t *)context)->uc_mcontext.gregs[REG_RIP];

    (void)number;
    (void)information;
    if (record != NULL && count < MOST_STEPS)
        record[count] = address;
    count++;
    fold(address);
}

/*
 * The library's calls of memset come here (the linker's option --wrap). What memset does depends on the place and the
 * length alone, and would be nineteen in twenty of all steps: it is done without the trap flag, and counts by its length.
 */
void *__real_memset(void *to, int byte, size_t length);
void *__wrap_memset(void *to, int byte, size_t length);

void *__wrap_memset(void *to, int byte, size_t length)
{
    uint64_t flags = __readeflags();

    __writeeflags(flags & ~TRAP_FLAG);
    fold(length);
    __real_memset(to, byte, length);
    __writeeflags(flags);
    return to;
}

void prepare_stepping(void)
{
    struct sigaction action;

    memset(&action, 0, sizeof action);
    action.sa_sigaction = on_step;
    action.sa_flags = SA_SIGINFO;
    if (sigaction(SIGTRAP, &action, NULL) != 0) {
        perror("same steps: sigaction");
        exit(1);
    }
}

/* The one place where calls are stepped through, so that the instructions around them are the same. */
__attribute__((noinline)) struct steps steps_of(void (*call)(void))
{
    uint64_t flags = __readeflags();

    count = 0;
    hash = 0;
    __writeeflags(flags | TRAP_FLAG);
    call();
    __writeeflags(flags);
    return (struct steps){count, hash};
}

/* The addresses of a call's instructions in their order, at most MOST_STEPS of them, then zeros. */
void record_steps(void (*call)(void), uint64_t *addresses)
{
    memset(addresses, 0, MOST_STEPS * sizeof *addresses);
    record = addresses;
    steps_of(call);
    record = NULL;
}
