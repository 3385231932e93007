/*
 * Support's question: the account of a load, which is the same on every machine, and its margin.
 *
 * load_account SEED P    prints the bytes of the account file of a seed and a number of positions, how many lines its margin
 *                        has and its total in centavos, or the refusal. The file is made in memory and not written. Exit
 *                        status 0 with a load, 1 with a refusal, 2 where the words are wrong.
 */
#include "serpentgleam.h"
#include "whole_number.h"

#include <inttypes.h>
#include <stdio.h>

int main(int count, char **words)
{
    static uint8_t file[SERPENTGLEAM_MOST_LOAD];
    static struct serpentgleam_line lines[SERPENTGLEAM_MOST_LINES];
    struct serpentgleam_answer load;
    struct serpentgleam_result margin;
    uint64_t seed, p;

    if (count != 3) {
        fprintf(stderr, "usage: load_account SEED P\n");
        return 2;
    }
    if (!whole_number(words[1], &seed) || !whole_number(words[2], &p)) {
        fprintf(stderr, "load_account: seed and number of positions are whole numbers from 0 on\n");
        return 2;
    }

    load = serpentgleam_load(seed, p, file, sizeof file);
    if (load.refusal != 0) {
        printf("refused %" PRIu64 " %" PRIu64 ": %s\n", load.refusal, load.row, serpentgleam_refusal_sentence(load.refusal));
        return 1;
    }
    /* Every file of a load is accepted. */
    margin = serpentgleam_margin(file, (size_t)load.value, lines, SERPENTGLEAM_MOST_LINES);
    printf("bytes %" PRIu64 ", lines %" PRIu64 ", total %" PRIu64 "\n", load.value, margin.lines, margin.total);
    return 0;
}
