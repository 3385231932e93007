/*
 * The limit screen's question: the amount of one position of an account file.
 *
 * limit_screen FILE ROW    prints the amount in centavos, a multiple of 100 if the row is written, or why there is none.
 *                          Exit status 0 with an amount, 1 with a refusal, 2 where the file cannot be read or the words
 *                          are wrong.
 */
#include "account_file.h"
#include "serpentgleam.h"

#include <errno.h>
#include <inttypes.h>
#include <stdio.h>
#include <stdlib.h>
#include <string.h>

int main(int count, char **words)
{
    static uint8_t file[ACCOUNT_SPACE];
    char *end;
    size_t length;
    uint64_t row;
    int64_t answer;

    if (count != 3) {
        fprintf(stderr, "usage: limit_screen FILE ROW\n");
        return 2;
    }
    errno = 0;
    row = strtoull(words[2], &end, 10);
    if (errno != 0 || end == words[2] || *end != '\0' || strchr(words[2], '-') != NULL) {
        fprintf(stderr, "limit_screen: the row is a whole number from 0 on: %s\n", words[2]);
        return 2;
    }
    if (!read_account_file("limit_screen", words[1], file, &length))
        return 2;

    answer = serpentgleam_position_amount(file, length, row);
    if (answer < 0) {
        printf("refused %" PRId64 ": %s\n", -answer, serpentgleam_refusal_sentence((uint64_t)-answer));
        return 1;
    }
    printf("%" PRId64 "\n", answer);
    return 0;
}
