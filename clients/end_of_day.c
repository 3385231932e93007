/*
 * The question after the close: what the day's prices of a series do to an account's collateral.
 *
 * end_of_day FILE SERIES HIGH LOW CLOSE    prints the total before and after the day, in centavos, or the refusal. The day
 *                                          is put into the file's bytes in memory; the file on disk stays as it is. Exit
 *                                          status 0 with totals, 1 with a refusal, 2 where the file cannot be read or the
 *                                          words are wrong.
 */
#include "account_file.h"
#include "serpentgleam.h"
#include "whole_number.h"

#include <inttypes.h>
#include <stdio.h>

/* The total of an account file; of one that is refused it is not used. */
static uint64_t total(const uint8_t *file, size_t length)
{
    static struct serpentgleam_line lines[SERPENTGLEAM_MOST_LINES];

    return serpentgleam_margin(file, length, lines, SERPENTGLEAM_MOST_LINES).total;
}

int main(int count, char **words)
{
    static uint8_t file[ACCOUNT_SPACE];
    struct serpentgleam_answer day;
    uint64_t series, high, low, close, before;
    size_t length;

    if (count != 6) {
        fprintf(stderr, "usage: end_of_day FILE SERIES HIGH LOW CLOSE\n");
        return 2;
    }
    if (!whole_number(words[2], &series) || !whole_number(words[3], &high) || !whole_number(words[4], &low)
        || !whole_number(words[5], &close)) {
        fprintf(stderr, "end_of_day: series, high, low and close are whole numbers from 0 on\n");
        return 2;
    }
    if (!read_account_file("end_of_day", words[1], file, &length))
        return 2;

    before = total(file, length);
    day = serpentgleam_day(file, length, series, high, low, close);
    if (day.refusal != 0) {
        printf("refused %" PRIu64 " %" PRIu64 ": %s\n", day.refusal, day.row, serpentgleam_refusal_sentence(day.refusal));
        return 1;
    }
    /* The day was done, so the file was accepted before it and is accepted after it. */
    printf("total %" PRIu64 " before, %" PRIu64 " after\n", before, total(file, length));
    return 0;
}
