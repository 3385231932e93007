/*
 * The collateral call's question: the lines, the premiums and the total of an account file.
 *
 * collateral_call FILE    prints a line for each pair and each row left, in multiples of 100 centavos, the premiums and the
 *                         total in centavos; or the refusal. Exit status 0 with a total, 1 with a refusal, 2 where the file
 *                         cannot be read.
 */
#include "account_file.h"
#include "serpentgleam.h"

#include <inttypes.h>
#include <stdio.h>

static void print_line(const struct serpentgleam_line *line)
{
    if (line->kind == SERPENTGLEAM_PAIR)
        printf("written row %" PRIu64 ", held row %" PRIu64 ": %" PRIu64 " contracts, %" PRIu64 "\n", line->first,
               line->second, line->third, line->fourth);
    else
        printf("row %" PRIu64 ": %" PRIu64 " contracts, %" PRIu64 "\n", line->first, line->second, line->third);
}

int main(int count, char **words)
{
    static uint8_t file[ACCOUNT_SPACE];
    static struct serpentgleam_line lines[SERPENTGLEAM_MOST_LINES];
    struct serpentgleam_result answer;
    size_t length;
    uint64_t i;

    if (count != 2) {
        fprintf(stderr, "usage: collateral_call FILE\n");
        return 2;
    }
    if (!read_account_file("collateral_call", words[1], file, &length))
        return 2;

    answer = serpentgleam_margin(file, length, lines, SERPENTGLEAM_MOST_LINES);
    if (answer.refusal != 0) {
        printf("refused %" PRIu64 " %" PRIu64 ": %s\n", answer.refusal, answer.row,
               serpentgleam_refusal_sentence(answer.refusal));
        return 1;
    }
    for (i = 0; i < answer.lines; i++)
        print_line(&lines[i]);
    /* The file was accepted above, so this is done too. */
    printf("premium %" PRIu64 "\n", serpentgleam_premiums(file, length).value);
    printf("total %" PRIu64 "\n", answer.total);
    return 0;
}
