/*
 * Makes the calls for instalments that stand in a file of cases, and prints their answers.
 *
 * instalments < cases    prints for each call a line, `made`, `amount` or `count` with the value, or `refused` with number
 *                        and row; then all entries, each in a line; after the last call of a case an empty line. Exit
 *                        status 1 where a case is cut off, or a call wrote to its file.
 *
 * A case is its length in four little-endian bytes, then numbers of eight: room, entries, calls; of each call 0 for pairs, 1
 * for the amount or 2 for taking apart, count, and allowance or k; of each entry its five. The rest is the account file. The
 * first `room` entries are handed over as the list, with room 0 as NULL, and each call gets them as the one before it left
 * them.
 */
#include "serpentgleam.h"

#include <inttypes.h>
#include <stdio.h>
#include <stdlib.h>
#include <string.h>

static void failed(const char *why)
{
    fflush(stdout);
    fprintf(stderr, "instalments: %s\n", why);
    exit(1);
}

static void *space(size_t bytes)
{
    void *at = malloc(bytes + (bytes == 0));

    if (at == NULL)
        failed("no memory");
    return at;
}

/* A little-endian number of standard input, of so many bytes. There is one, or at its end none where that is allowed. */
static int read_number(size_t bytes, uint64_t *number, int may_end)
{
    uint8_t read[8];
    size_t i, count = fread(read, 1, bytes, stdin);

    if (count == 0 && may_end)
        return 0;
    if (count != bytes)
        failed("a case is cut off");
    *number = 0;
    for (i = bytes; i > 0; i--)
        *number = *number << 8 | read[i - 1];
    return 1;
}

static uint64_t next_number(void)
{
    uint64_t number;

    read_number(8, &number, 0);
    return number;
}

static void print_answer(struct serpentgleam_answer answer, const char *word)
{
    if (answer.refusal != 0)
        printf("refused %" PRIu64 " %" PRIu64, answer.refusal, answer.row);
    else
        printf("%s %" PRIu64, word, answer.value);
    /* Of a refusal the value is 0, and of any other answer the row. */
    if (answer.refusal != 0 ? answer.value != 0 : answer.row != 0)
        printf(", value %" PRIu64 " and row %" PRIu64, answer.value, answer.row);
    printf("\n");
}

static void print_entries(const struct serpentgleam_line *entries, uint64_t count)
{
    uint64_t i;

    for (i = 0; i < count; i++)
        printf("%" PRIu64 " %" PRIu64 " %" PRIu64 " %" PRIu64 " %" PRIu64 "\n", entries[i].kind, entries[i].first,
               entries[i].second, entries[i].third, entries[i].fourth);
}

/* Makes a case's calls on its entries and prints what comes of each. */
static void make_calls(const uint64_t *calls, uint64_t count, const uint8_t *file, size_t length,
                       struct serpentgleam_line *entries, uint64_t entry_count, uint64_t room)
{
    struct serpentgleam_line *list = room == 0 ? NULL : entries;
    uint64_t i;

    for (i = 0; i < count; i++) {
        const uint64_t *call = &calls[3 * i];

        if (call[0] == 0)
            print_answer(serpentgleam_pair(file, length, list, room, call[1], call[2]), "made");
        else if (call[0] == 1)
            print_answer(serpentgleam_amount_so_far(file, length, list, room, call[1]), "amount");
        else
            print_answer(serpentgleam_take_apart(file, length, list, room, call[1], call[2]), "count");
        print_entries(entries, entry_count);
    }
    printf("\n");
}

/* Reads the case of so many bytes and makes its calls. The file's space is no longer than the file. */
static void make_case(uint64_t bytes)
{
    uint64_t room = next_number(), entry_count = next_number(), call_count = next_number(), i;
    uint64_t *calls = space(24 * call_count);
    struct serpentgleam_line *entries = space(entry_count * sizeof *entries);
    size_t length = bytes - 24 - 24 * call_count - 40 * entry_count;
    uint8_t *file = space(length), *before = space(length);

    for (i = 0; i < 3 * call_count; i++)
        calls[i] = next_number();
    for (i = 0; i < entry_count; i++) {
        entries[i].kind = next_number();
        entries[i].first = next_number();
        entries[i].second = next_number();
        entries[i].third = next_number();
        entries[i].fourth = next_number();
    }
    if (fread(file, 1, length, stdin) != length)
        failed("a case is cut off");
    memcpy(before, file, length);
    make_calls(calls, call_count, file, length, entries, entry_count, room);
    if (memcmp(before, file, length) != 0)
        failed("a file was written to");
    free(before);
    free(file);
    free(entries);
    free(calls);
}

int main(void)
{
    uint64_t bytes;

    while (read_number(4, &bytes, 1))
        make_case(bytes);
    return 0;
}
