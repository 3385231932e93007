/*
 * A small program for an installation to be tried with, as C and as C++: installed_client FILE prints the version, the
 * lines, premiums and total of the account file and its first row's amount, how many entries after the lines have kept
 * their content, and the answer where the list is NULL and has no entries; then the refusal of a file without bytes,
 * instalments of pairs, then pairs taken apart, the entries that each changed and the amount after it, factors that are
 * there and factors that are not, days of series row 0 that are refused and one that is done twice, how many bytes each of
 * them changed, the total after it, a load and its total, loads that are refused, how many bytes each changed, and what is
 * said of the numbers 3 and 15, which no refusal has.
 */
#include <serpentgleam.h>

#include <inttypes.h>
#include <stdio.h>
#include <string.h>

static uint8_t file[SERPENTGLEAM_MOST_BYTES + 1];
static uint8_t file_before[SERPENTGLEAM_MOST_BYTES + 1];
static struct serpentgleam_line lines[SERPENTGLEAM_MOST_LINES];
static struct serpentgleam_line before[SERPENTGLEAM_MOST_LINES];

/* How many entries after the lines are as they were before the call. */
static int kept_after(uint64_t count)
{
    uint64_t i;
    int kept = 0;

    for (i = count; i < SERPENTGLEAM_MOST_LINES; i++)
        kept += memcmp(&lines[i], &before[i], sizeof lines[i]) == 0;
    return kept;
}

/* Prints a call's answer, how many entries it changed and the amount after it, with so many pairs. */
static void print_answer(const char *call, struct serpentgleam_answer answer, size_t length, uint64_t count)
{
    printf("%s: refusal %" PRIu64 ", row %" PRIu64 ", value %" PRIu64 ", entries changed %d, amount %" PRIu64 "\n", call,
           answer.refusal, answer.row, answer.value, SERPENTGLEAM_MOST_LINES - kept_after(0),
           serpentgleam_amount_so_far(file, length, lines, SERPENTGLEAM_MOST_LINES, count).value);
}

/* Makes pairs after the first count. */
static uint64_t print_pair(size_t length, uint64_t count, uint64_t allowance)
{
    struct serpentgleam_answer made;

    memcpy(before, lines, sizeof before);
    made = serpentgleam_pair(file, length, lines, SERPENTGLEAM_MOST_LINES, count, allowance);
    print_answer("pair", made, length, count + made.value);
    return made.value;
}

/* Takes the latest k of the first count pairs apart. */
static void print_apart(size_t length, uint64_t count, uint64_t k)
{
    struct serpentgleam_answer left;

    memcpy(before, lines, sizeof before);
    left = serpentgleam_take_apart(file, length, lines, SERPENTGLEAM_MOST_LINES, count, k);
    print_answer("apart", left, length, left.refusal == 0 ? left.value : count);
}

/* Prints what it comes to that half of these pairs are taken apart and made again, what is refused, and that all are. */
static void print_all_apart(size_t length, uint64_t count)
{
    struct serpentgleam_answer left;

    print_apart(length, count, count / 2);
    print_pair(length, count - count / 2, count / 2);
    print_apart(length, count, count + 1);
    print_apart(length, UINT64_MAX, UINT64_MAX);
    print_apart(0, count, count);
    print_apart(length, count, count);
    left = serpentgleam_take_apart(file, length, NULL, 0, 0, 0);
    printf("no list: refusal %" PRIu64 ", row %" PRIu64 ", value %" PRIu64 "\n", left.refusal, left.row, left.value);
    printf("%d: %s\n", SERPENTGLEAM_REFUSED_ABOVE_COUNT, serpentgleam_refusal_sentence(SERPENTGLEAM_REFUSED_ABOVE_COUNT));
}

/* Prints what instalments make of a list without lines, two that are refused, and the answer without a list. */
static void print_all_pairs(size_t length)
{
    struct serpentgleam_answer made;
    uint64_t count = 0;

    memset(lines, 0xa5, sizeof lines);
    count += print_pair(length, count, 0);
    count += print_pair(length, count, 1);
    count += print_pair(length, count, UINT64_MAX);
    print_pair(length, UINT64_MAX, 1);
    print_pair(0, count, 1);
    made = serpentgleam_pair(file, length, NULL, 0, 0, 8);
    printf("no list: refusal %" PRIu64 ", row %" PRIu64 ", value %" PRIu64 ", amount %" PRIu64 "\n", made.refusal, made.row,
           made.value, serpentgleam_amount_so_far(file, length, NULL, 0, 0).value);
    printf("%d: %s\n", SERPENTGLEAM_REFUSED_NOT_FIRST_PAIRS,
           serpentgleam_refusal_sentence(SERPENTGLEAM_REFUSED_NOT_FIRST_PAIRS));
    print_all_apart(length, count);
}

/* Prints the answer for a code and days. */
static void print_factors(uint64_t code, uint64_t days)
{
    struct serpentgleam_factors factors = serpentgleam_factors(code, days);

    printf("factors %" PRIu64 " %" PRIu64 ", refusal %" PRIu64 ", row %" PRIu64 "\n", factors.fa, factors.fb,
           factors.refusal, factors.row);
}

/* Prints the answers for codes and days that have factors and that have none, and the sentence of the refusal. */
static void print_all_factors(void)
{
    print_factors(SERPENTGLEAM_FCI, 720);
    print_factors(SERPENTGLEAM_OFV, SERPENTGLEAM_MOST_DAYS);
    print_factors(SERPENTGLEAM_OFV, SERPENTGLEAM_MOST_DAYS + 1);
    print_factors(SERPENTGLEAM_OFV + 1, 0);
    print_factors(UINT64_MAX, UINT64_MAX);
    printf("%d: %s\n", SERPENTGLEAM_REFUSED_FACTORS_ASKED_FOR,
           serpentgleam_refusal_sentence(SERPENTGLEAM_REFUSED_FACTORS_ASKED_FOR));
}

/* Puts a day into the file and prints the answer, and how many bytes it changed. */
static void print_day(size_t length, uint64_t series, uint64_t high, uint64_t low, uint64_t close)
{
    struct serpentgleam_answer day;
    size_t i, changed = 0;

    memcpy(file_before, file, sizeof file);
    day = serpentgleam_day(file, length, series, high, low, close);
    for (i = 0; i < sizeof file; i++)
        changed += file[i] != file_before[i];
    printf("day: refusal %" PRIu64 ", row %" PRIu64 ", value %" PRIu64 ", bytes changed %u\n", day.refusal, day.row, day.value,
           (unsigned)changed);
}

/* Prints what days do that are refused, and what one does that is done twice. */
static void print_all_days(size_t length)
{
    print_day(length, UINT64_MAX, 3100, 2900, 3050);
    print_day(length, 0, 2900, 3100, 3050);
    print_day(0, 0, 3100, 2900, 3050);
    print_day(length, 0, 3100, 2900, 3050);
    print_day(length, 0, 3100, 2900, 3050);
    printf("total after it %" PRIu64 "\n", serpentgleam_margin(file, length, lines, SERPENTGLEAM_MOST_LINES).total);
    printf("%d: %s\n", SERPENTGLEAM_REFUSED_SERIES_ASKED_FOR,
           serpentgleam_refusal_sentence(SERPENTGLEAM_REFUSED_SERIES_ASKED_FOR));
    printf("%d: %s\n", SERPENTGLEAM_REFUSED_DAY_PRICES, serpentgleam_refusal_sentence(SERPENTGLEAM_REFUSED_DAY_PRICES));
}

/* Makes a load in so many bytes, of which each is 0xa5, and prints the answer, how many bytes are others and the total. */
static void print_load(uint64_t seed, uint64_t p, size_t room)
{
    struct serpentgleam_answer load;
    size_t i, changed = 0;

    memset(file, 0xa5, sizeof file);
    load = serpentgleam_load(seed, p, room == 0 ? NULL : file, room);
    for (i = 0; i < sizeof file; i++)
        changed += file[i] != 0xa5;
    printf("load: refusal %" PRIu64 ", row %" PRIu64 ", value %" PRIu64 ", bytes changed %u, total %" PRIu64 "\n", load.refusal,
           load.row, load.value, (unsigned)changed,
           serpentgleam_margin(file, (size_t)load.value, lines, SERPENTGLEAM_MOST_LINES).total);
}

/* Prints loads that are made and that are refused, and the sentence of the refusal. */
static void print_all_loads(void)
{
    print_load(99, 8, 292);
    print_load(SERPENTGLEAM_MOST_SEED, SERPENTGLEAM_MOST_POSITIONS, SERPENTGLEAM_MOST_LOAD);
    print_load(99, 8, 291);
    print_load(99, 8, 0);
    print_load(UINT64_MAX, UINT64_MAX, sizeof file);
    printf("%d: %s\n", SERPENTGLEAM_REFUSED_LOAD_ASKED_FOR,
           serpentgleam_refusal_sentence(SERPENTGLEAM_REFUSED_LOAD_ASKED_FOR));
}

int main(int count, char **words)
{
    FILE *in = count == 2 ? fopen(words[1], "rb") : NULL;
    struct serpentgleam_result margin;
    struct serpentgleam_answer premiums;
    size_t length;
    uint64_t i;

    if (in == NULL)
        return 2;
    length = fread(file, 1, sizeof file, in);
    fclose(in);

    printf("version %s\n", SERPENTGLEAM_VERSION);
    memset(before, 0xa5, sizeof before);
    memcpy(lines, before, sizeof lines);
    margin = serpentgleam_margin(file, length, lines, SERPENTGLEAM_MOST_LINES);
    for (i = 0; i < margin.lines; i++)
        printf("%s %" PRIu64 "\n", lines[i].kind == SERPENTGLEAM_PAIR ? "pair" : "left",
               lines[i].kind == SERPENTGLEAM_PAIR ? lines[i].fourth : lines[i].third);
    printf("entries kept %d\n", kept_after(margin.lines));
    premiums = serpentgleam_premiums(file, length);
    printf("premium %" PRIu64 ", refusal %" PRIu64 "\n", premiums.value, premiums.refusal);
    printf("total %" PRIu64 ", refusal %" PRIu64 "\n", margin.total, margin.refusal);
    printf("amount %" PRId64 "\n", serpentgleam_position_amount(file, length, 0));
    margin = serpentgleam_margin(file, length, NULL, 0);
    printf("no list: refusal %" PRIu64 ", row %" PRIu64 ", lines %" PRIu64 ", total %" PRIu64 "\n", margin.refusal,
           margin.row, margin.lines, margin.total);
    premiums = serpentgleam_premiums(NULL, 0);
    printf("refused %" PRIu64 " %" PRIu64 ": %s\n", premiums.refusal, premiums.row,
           serpentgleam_refusal_sentence(premiums.refusal));
    print_all_pairs(length);
    print_all_factors();
    print_all_days(length);
    print_all_loads();
    printf("3: %s\n", serpentgleam_refusal_sentence(3));
    printf("15: %s\n", serpentgleam_refusal_sentence(15));
    return 0;
}
