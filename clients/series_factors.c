/*
 * The desk's question: the factors of a series from the code of its contract and the days to expiry.
 *
 * series_factors CODE DAYS    prints fa and fb in millionths, as a series row of an account file holds them, or the
 *                             refusal. CODE is FCI, FPI, OFC or OFV, or its number. Exit status 0 with factors, 1 with a
 *                             refusal, 2 where the words are wrong.
 */
#include "serpentgleam.h"
#include "whole_number.h"

#include <inttypes.h>
#include <stdio.h>
#include <string.h>

/* Gives 1 and the number of a code by its name or its number, or 0. */
static int code_number(const char *word, uint64_t *number)
{
    static const struct {
        const char *name;
        uint64_t number;
    } codes[] = {{"FCI", SERPENTGLEAM_FCI}, {"FPI", SERPENTGLEAM_FPI}, {"OFC", SERPENTGLEAM_OFC}, {"OFV", SERPENTGLEAM_OFV}};
    size_t i;

    for (i = 0; i < sizeof codes / sizeof codes[0]; i++) {
        if (strcmp(word, codes[i].name) == 0) {
            *number = codes[i].number;
            return 1;
        }
    }
    return whole_number(word, number);
}

int main(int count, char **words)
{
    struct serpentgleam_factors answer;
    uint64_t code, days;

    if (count != 3) {
        fprintf(stderr, "usage: series_factors CODE DAYS\n");
        return 2;
    }
    if (!code_number(words[1], &code)) {
        fprintf(stderr, "series_factors: the code is FCI, FPI, OFC or OFV, or its number: %s\n", words[1]);
        return 2;
    }
    if (!whole_number(words[2], &days)) {
        fprintf(stderr, "series_factors: the days are a whole number from 0 on: %s\n", words[2]);
        return 2;
    }

    answer = serpentgleam_factors(code, days);
    if (answer.refusal != 0) {
        printf("refused %" PRIu64 " %" PRIu64 ": %s\n", answer.refusal, answer.row,
               serpentgleam_refusal_sentence(answer.refusal));
        return 1;
    }
    printf("%" PRIu64 " %" PRIu64 "\n", answer.fa, answer.fb);
    return 0;
}
