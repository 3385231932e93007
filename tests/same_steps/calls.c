/*
 * The calls that are stepped through, and whether their answers are right. Every call has its file and its list of lines at
 * the same place in memory.
 */
#include "same_steps.h"
#include "serpentgleam.h"

#include <inttypes.h>
#include <stdio.h>

static uint8_t file[12 + 24 + 2 * 32];
static size_t length;
static struct serpentgleam_line lines[SERPENTGLEAM_MOST_LINES];
static int64_t amount;
static struct serpentgleam_result margin;

static uint8_t *put(uint8_t *to, uint32_t number)
{
    to[0] = number & 255;
    to[1] = number >> 8 & 255;
    to[2] = number >> 16 & 255;
    to[3] = number >> 24 & 255;
    return to + 4;
}

static uint8_t *put_row(uint8_t *to, const struct row *r, uint32_t side)
{
    to = put(to, side << 16 | r->kind << 24);
    to = put(to, r->flags);
    to = put(put(put(to, r->q), r->pe), r->pb);
    return put(put(put(to, r->barrier), r->reb), r->premium);
}

/* Writes the account's file (document 01). */
static void put_account(const struct account *a)
{
    const struct series *s = &a->series;
    uint8_t *to = file;
    uint32_t i;

    to = put(put(put(to, s->pv), s->fa), s->fb);
    to = put(put(put(to, s->f3), s->m), s->type);
    for (i = 0; i < a->rows; i++)
        to = put_row(to, &a->row[i], i == 0);
    to = put(to, 1 | a->rows << 16);
    to = put(put(to, 12 + 24 + 32 * a->rows), 0);
    length = (size_t)(to - file);
}

static void call_amount(void)
{
    amount = serpentgleam_position_amount(file, length, 0);
}

static void call_margin(void)
{
    margin = serpentgleam_margin(file, length, lines, SERPENTGLEAM_MOST_LINES);
}

/* The amount of the only row is what it should be. */
static int amount_is_right(const struct account *a)
{
    struct outcomes none = {0, 0, 0};
    int64_t unit = unit_margin(&a->series, &a->row[0], &none);

    return amount == (int64_t)amount_of(unit, a->series.m, a->row[0].q);
}

/* The margin of two rows with a contract each is what it should be. */
static int margin_is_right(const struct account *a)
{
    struct outcomes none = {0, 0, 0};
    const struct row *w = &a->row[0], *h = &a->row[1];
    int64_t unit = unit_margin(&a->series, w, &none), spread = spread_margin(&a->series, w, h, &none);
    uint64_t premium = (uint64_t)h->premium * a->series.m;

    if (margin.refusal != 0 || margin.lines != (spread < unit ? 1 : 2))
        return 0;
    if (lines[0].kind != (spread < unit ? SERPENTGLEAM_PAIR : SERPENTGLEAM_LEFT))
        return 0;
    return margin.total == amount_of(spread < unit ? spread : unit, a->series.m, 1) + premium;
}

/* Steps through the account's call; gives 0 where its answer is wrong. */
int step_account(const struct account *a, struct steps *s)
{
    put_account(a);
    *s = steps_of(a->rows == 1 ? call_amount : call_margin);
    return a->rows == 1 ? amount_is_right(a) : margin_is_right(a);
}

static void record_account(const struct account *a, uint64_t *addresses)
{
    put_account(a);
    record_steps(a->rows == 1 ? call_amount : call_margin, addresses);
}

static void print_row(const char *side, const struct row *r)
{
    printf("  %s: kind %" PRIu32 " flags %" PRIu32 " Q %" PRIu32 " PE %" PRIu32 " PB %" PRIu32 " barrier %" PRIu32
           " REB %" PRIu32 " premium %" PRIu32 "\n",
           side, r->kind, r->flags, r->q, r->pe, r->pb, r->barrier, r->reb, r->premium);
}

void print_account(const struct account *a)
{
    const struct series *s = &a->series;

    printf("  series: PV %" PRIu32 " fa %" PRIu32 " fb %" PRIu32 " f3 %" PRIu32 " M %" PRIu32 " type %" PRIu32 "\n", s->pv,
           s->fa, s->fb, s->f3, s->m, s->type);
    print_row("written", &a->row[0]);
    if (a->rows == 2)
        print_row("held", &a->row[1]);
}

/* Steps through two accounts' calls again and prints the first instruction after which they go on differently. Its address
 * is the one that nm and objdump print for the program. */
void print_difference(const struct account *a, const struct account *b)
{
    static uint64_t first[MOST_STEPS], second[MOST_STEPS];
    uint32_t i = 1;

    record_account(a, first);
    record_account(b, second);
    while (i < MOST_STEPS && first[i] == second[i])
        i++;
    if (i == MOST_STEPS)
        printf("  not by an instruction's address: by the length of a memset, or not this time\n");
    else
        printf("  after %" PRIu32 " steps, at the instruction at 0x%" PRIx64 " of the program: on to 0x%" PRIx64
               " and to 0x%" PRIx64 "\n",
               i, first[i - 1], first[i], second[i]);
}
