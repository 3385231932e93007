/*
 * The limit screen's question on a large account: its amount while it is paired, a few pairs at a time.
 *
 * instalments FILE [ROW SOLD]    pairs the account 8 pairs at a time; prints how many pairs there are and the amount so far
 *                                in centavos, before any pair and after each call that made some; or the refusal. With ROW
 *                                and SOLD the client then sells SOLD contracts, fewer than Q and none of the blocked ones,
 *                                of the held position row ROW: the pairs from the first that names the row on are taken
 *                                apart, Q falls by SOLD in the file's bytes in memory, each with the amount after it, and
 *                                the account is paired again; the file on disk stays as it is. Exit status 0 with amounts,
 *                                1 with a refusal, 2 where the file cannot be read or the words are wrong.
 */
#include "account_file.h"
#include "serpentgleam.h"
#include "whole_number.h"

#include <inttypes.h>
#include <stdio.h>

#define ALLOWANCE 8

/* The end of an account file: position rows, and the trailer, in which their number has two bytes. */
#define TRAILER_BYTES 12
#define TRAILER_POSITIONS 2
#define ROW_BYTES 32

/* Of a position row: the byte that is 0 if it is held, three for the contracts blocked and four for Q, the least first. */
#define ROW_SIDE 2
#define ROW_BLOCKED 5
#define BLOCKED_BYTES 3
#define ROW_Q 8
#define Q_BYTES 4

static struct serpentgleam_line lines[SERPENTGLEAM_MOST_LINES];

/* Prints how many pairs there are and the amount after them. */
static void print_amount(const uint8_t *file, size_t length, uint64_t pairs)
{
    printf("%" PRIu64 " pairs, %" PRIu64 "\n", pairs,
           serpentgleam_amount_so_far(file, length, lines, SERPENTGLEAM_MOST_LINES, pairs).value);
}

/* Makes all pairs after the first ones, prints the amounts and gives how many pairs there then are. */
static uint64_t pair_on(const uint8_t *file, size_t length, uint64_t pairs)
{
    uint64_t made;

    do {
        made = serpentgleam_pair(file, length, lines, SERPENTGLEAM_MOST_LINES, pairs, ALLOWANCE).value;
        pairs += made;
        if (made > 0)
            print_amount(file, length, pairs);
    } while (made == ALLOWANCE);
    return pairs;
}

/* A number in the file's bytes. */
static uint64_t number_at(const uint8_t *bytes, int size)
{
    uint64_t number = 0;

    while (size > 0)
        number = number << 8 | bytes[--size];
    return number;
}

/* The bytes of a held position row of an accepted file, or NULL where it has no such row. */
static uint8_t *held_row(uint8_t *file, size_t length, uint64_t row)
{
    uint8_t *trailer = file + length - TRAILER_BYTES;
    uint64_t positions = number_at(trailer + TRAILER_POSITIONS, 2);
    uint8_t *bytes;

    if (row >= positions)
        return NULL;
    bytes = trailer - (positions - row) * ROW_BYTES;
    return bytes[ROW_SIDE] == 0 ? bytes : NULL;
}

/* Takes apart the pairs from the first that names the held row on, and gives how many are left. */
static uint64_t take_apart_from(const uint8_t *file, size_t length, uint64_t pairs, uint64_t row)
{
    uint64_t left = 0;

    while (left < pairs && lines[left].second != row)
        left++;
    return serpentgleam_take_apart(file, length, lines, SERPENTGLEAM_MOST_LINES, pairs, pairs - left).value;
}

/* Lowers Q in the bytes of a position row. */
static void sell(uint8_t *bytes, uint64_t sold)
{
    uint64_t contracts = number_at(bytes + ROW_Q, Q_BYTES) - sold;
    int at;

    for (at = 0; at < Q_BYTES; at++)
        bytes[ROW_Q + at] = (uint8_t)(contracts >> 8 * at);
}

/* The client's sale after all pairs are made, and the pairs after it. */
static void print_sale(uint8_t *file, size_t length, uint64_t pairs, uint64_t row, uint64_t sold)
{
    pairs = take_apart_from(file, length, pairs, row);
    printf("taken apart: ");
    print_amount(file, length, pairs);
    /* The row is in none of the pairs left, and with fewer of its contracts each of them is still the nearest of the allowed
       ones: these pairs are the first of the file after the sale too. */
    sell(held_row(file, length, row), sold);
    printf("sold: ");
    print_amount(file, length, pairs);
    pair_on(file, length, pairs);
}

/* Has the held row so many contracts that are not blocked, and more contracts than these? */
static int can_be_sold(uint8_t *file, size_t length, uint64_t row, uint64_t sold)
{
    const uint8_t *bytes = held_row(file, length, row);
    uint64_t contracts, blocked;

    if (bytes == NULL)
        return 0;
    contracts = number_at(bytes + ROW_Q, Q_BYTES);
    blocked = number_at(bytes + ROW_BLOCKED, BLOCKED_BYTES);
    return sold > 0 && sold < contracts && sold <= contracts - blocked;
}

int main(int count, char **words)
{
    static uint8_t file[ACCOUNT_SPACE];
    struct serpentgleam_answer start;
    uint64_t pairs, row = 0, sold = 0;
    size_t length;

    if (count != 2 && (count != 4 || !whole_number(words[2], &row) || !whole_number(words[3], &sold))) {
        fprintf(stderr, "usage: instalments FILE [ROW SOLD]\n");
        return 2;
    }
    if (!read_account_file("instalments", words[1], file, &length))
        return 2;

    start = serpentgleam_amount_so_far(file, length, lines, SERPENTGLEAM_MOST_LINES, 0);
    if (start.refusal != 0) {
        printf("refused %" PRIu64 " %" PRIu64 ": %s\n", start.refusal, start.row,
               serpentgleam_refusal_sentence(start.refusal));
        return 1;
    }
    if (count == 4 && !can_be_sold(file, length, row, sold)) {
        fprintf(stderr,
                "instalments: ROW is a held position row, SOLD 1 or more, fewer than its contracts and none blocked\n");
        return 2;
    }
    /* The file is accepted and the list is the one that the calls before wrote, so no call below is refused. */
    print_amount(file, length, 0);
    pairs = pair_on(file, length, 0);
    if (count == 4)
        print_sale(file, length, pairs, row, sold);
    return 0;
}
