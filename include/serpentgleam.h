/*
 * Serpentgleam: margin of flexible options by circular 081/2003.
 *
 * For C99 and later and for C++. Link with the archive libserpentgleam.a, which `make` puts into target/staticlib, or after
 * `make install` with the archive or the shared object as `pkg-config --cflags --libs serpentgleam` says.
 *
 * The library has no state, takes no memory from a heap, starts no thread and calls nothing of the operating system: every
 * call may be made from any thread, and calls on different threads do not affect each other. A call that takes a list needs
 * about 37 KB of stack or less, serpentgleam_pair about 31 KB; the one for factors needs about 8 KB, the others, a load too,
 * less than 1 KB. From version 0.9.0 on serpentgleam_margin and serpentgleam_amount_so_far need about 7 KB more than before,
 * for twice as many lines, and serpentgleam_pair and serpentgleam_take_apart less than 1 KB more. (Of the archive that the
 * toolchain before today's compiled.)
 *
 * It reads the bytes handed over during the call alone and keeps no pointer to them; the caller owns them before, during
 * and after. Two calls write to bytes, during the call alone: serpentgleam_day to those of its file, and serpentgleam_load
 * to those of its buffer. Until the call is done they must not be handed to another one. The same holds of a list of lines,
 * which serpentgleam_margin, serpentgleam_pair and serpentgleam_take_apart write during the call alone; the last two and
 * serpentgleam_amount_so_far read it. It must not overlap the file's bytes.
 *
 * An account file has at most 65,536 bytes. Any bytes may be handed over: a file that is not in order is refused, and
 * nothing is read or written outside it. With length 0 the pointer may be NULL.
 *
 * Amounts are in centavos, as whole numbers. Premiums are exact. The margin of a written position by itself and the amount
 * of a line are rounded up to whole reais, multiples of 100, each by itself and once. Before version 0.6.0 these two were
 * rounded up to one centavo: with the same calls, structs and shared object's name, the amount of a line or of a written
 * position is now 0 to 99 centavos more. Which library is installed is said by `pkg-config --modversion serpentgleam`.
 *
 * Of a held position some contracts, or all, may be blocked: they are pledged elsewhere and serve in no pair. Bytes 5 to 7
 * of its row say how many, at most Q, the least byte first; of a written row they are 0. The amount of a held position and
 * the premiums are those of all its contracts. A library before version 0.9.0 refuses a row with blocked contracts with
 * SERPENTGLEAM_REFUSED_POSITION_TERMS.
 *
 * A refusal is a number from 1 to 20, below with a name for each; serpentgleam_refusal_sentence gives its sentence. The
 * numbers 3 and 15 are not used. An account without positions is accepted, with no lines, premiums 0 and total 0.
 */
#ifndef SERPENTGLEAM_H
#define SERPENTGLEAM_H

#include <stddef.h>
#include <stdint.h>

/* The version of this header and of the library that it came with. */
#define SERPENTGLEAM_VERSION "0.10.0"
#define SERPENTGLEAM_VERSION_MAJOR 0
#define SERPENTGLEAM_VERSION_MINOR 10
#define SERPENTGLEAM_VERSION_PATCH 0

/* Limits of every account: bytes of its file, series and positions. */
#define SERPENTGLEAM_MOST_BYTES 65536
#define SERPENTGLEAM_MOST_SERIES 32
#define SERPENTGLEAM_MOST_POSITIONS 256

/*
 * The entries of a list of lines that is long enough for every account. An account of p positions has at most 2 x p - 1
 * lines, and fewer than 2 x p entries are refused. A program compiled with a header before 0.9.0 lends lists of 256 entries,
 * which are enough for accounts of up to 128 positions.
 */
#define SERPENTGLEAM_MOST_LINES 512

/* The kinds of a line. */
#define SERPENTGLEAM_PAIR 1
#define SERPENTGLEAM_LEFT 2

/* The codes of the circular's table of factors, and the most days to expiry that there are factors for. */
#define SERPENTGLEAM_FCI 0
#define SERPENTGLEAM_FPI 1
#define SERPENTGLEAM_OFC 2
#define SERPENTGLEAM_OFV 3
#define SERPENTGLEAM_MOST_DAYS 1800

/* The largest seed of a load, and the bytes of a buffer that is long enough for every load: 36 + 32 x 256. */
#define SERPENTGLEAM_MOST_SEED 2147483646
#define SERPENTGLEAM_MOST_LOAD 8228

/* The refusals. None has the number 3 or 15: before version 0.2.0 an account without positions was refused with 3. */
#define SERPENTGLEAM_REFUSED_FILE_SIZE 1
#define SERPENTGLEAM_REFUSED_TRAILER 2
#define SERPENTGLEAM_REFUSED_DISTANCE 4
#define SERPENTGLEAM_REFUSED_SERIES_RANGE 5
#define SERPENTGLEAM_REFUSED_SERIES_TYPE 6
#define SERPENTGLEAM_REFUSED_POSITION_TERMS 7
#define SERPENTGLEAM_REFUSED_POSITION_RANGE 8
#define SERPENTGLEAM_REFUSED_LIMITER_PRICE 9
#define SERPENTGLEAM_REFUSED_BARRIER_PRICE 10
#define SERPENTGLEAM_REFUSED_BARRIER_SIDE 11
#define SERPENTGLEAM_REFUSED_LIST_TOO_SHORT 12
#define SERPENTGLEAM_REFUSED_ROW_ASKED_FOR 13
#define SERPENTGLEAM_REFUSED_FACTORS_ASKED_FOR 14
#define SERPENTGLEAM_REFUSED_SERIES_ASKED_FOR 16
#define SERPENTGLEAM_REFUSED_DAY_PRICES 17
#define SERPENTGLEAM_REFUSED_NOT_FIRST_PAIRS 18
#define SERPENTGLEAM_REFUSED_ABOVE_COUNT 19
#define SERPENTGLEAM_REFUSED_LOAD_ASKED_FOR 20

#ifdef __cplusplus
extern "C" {
#endif

/* The sentence of a refusal's number, in English, without a full stop. Nobody frees it. */
static inline const char *serpentgleam_refusal_sentence(uint64_t number)
{
    switch (number) {
    case SERPENTGLEAM_REFUSED_FILE_SIZE:
        return "the file has fewer than 12 or more than 65,536 bytes";
    case SERPENTGLEAM_REFUSED_TRAILER:
        return "series count not 1 to 32, position count above 256, or one of the last four bytes not zero";
    case SERPENTGLEAM_REFUSED_DISTANCE:
        return "the distance to the first series row is not 12 + 24 x series + 32 x positions, or longer than the file";
    case SERPENTGLEAM_REFUSED_SERIES_RANGE:
        return "a series row: PV, fa, fb, f3 or M outside its range";
    case SERPENTGLEAM_REFUSED_SERIES_TYPE:
        return "a series row: type above 1, or a spare byte not zero";
    case SERPENTGLEAM_REFUSED_POSITION_TERMS:
        return "a position row: series, side, kind or flags wrong, or blocked contracts on a written row";
    case SERPENTGLEAM_REFUSED_POSITION_RANGE:
        return "a position row: Q, PE, REB or premium wrong, or more contracts blocked than Q";
    case SERPENTGLEAM_REFUSED_LIMITER_PRICE:
        return "a position row: PB wrong";
    case SERPENTGLEAM_REFUSED_BARRIER_PRICE:
        return "a position row: barrier price outside its rule or range, or REB without a barrier";
    case SERPENTGLEAM_REFUSED_BARRIER_SIDE:
        return "a position row: barrier on the wrong side of PV";
    case SERPENTGLEAM_REFUSED_LIST_TOO_SHORT:
        return "the list of lines has fewer entries than twice the account's positions";
    case SERPENTGLEAM_REFUSED_ROW_ASKED_FOR:
        return "there is no position row of the number asked for";
    case SERPENTGLEAM_REFUSED_FACTORS_ASKED_FOR:
        return "there are no factors of the code and days asked for: code not 0 to 3, or days above 1,800";
    case SERPENTGLEAM_REFUSED_SERIES_ASKED_FOR:
        return "there is no series of the number asked for";
    case SERPENTGLEAM_REFUSED_DAY_PRICES:
        return "the day's prices: high below low, close outside them, or one of the three not 1 to 10,000,000";
    case SERPENTGLEAM_REFUSED_NOT_FIRST_PAIRS:
        return "the lines in the list are not the account's first pairs";
    case SERPENTGLEAM_REFUSED_ABOVE_COUNT:
        return "more pairs to take apart than there are in the list";
    case SERPENTGLEAM_REFUSED_LOAD_ASKED_FOR:
        return "the load asked for: seed not 1 to 2,147,483,646, p not 1 to 256, or a buffer below 36 + 32 x p bytes";
    default:
        return "there is no refusal of this number";
    }
}

/*
 * The amount in centavos of one position of an account.
 *
 * file, length: the account file's bytes.
 * row: the position row, counted from 0 in the order of the file.
 *
 * Answers the amount, 0 or more: of a written position its margin by itself, a multiple of 100, and of a held one its
 * unsettled premium for all contracts, blocked ones too, exact. Answers minus the refusal's number where the file is
 * refused, or minus SERPENTGLEAM_REFUSED_ROW_ASKED_FOR where the file is accepted and has no such row. The largest amount
 * is 9,999,999,900,000,000.
 */
int64_t serpentgleam_position_amount(const uint8_t *file, size_t length, uint64_t row);

/*
 * A line of an account's margin: five whole numbers. The amount is for the line's contracts together, a multiple of 100.
 *
 * SERPENTGLEAM_PAIR:  first = written row, second = held row, third = contracts, fourth = amount in centavos.
 * SERPENTGLEAM_LEFT:  first = row, second = contracts, third = amount in centavos (0 if held), fourth = 0.
 *
 * The contracts of a left line are those of the row that no pair took; of a held row they count the blocked ones too.
 */
struct serpentgleam_line {
    uint64_t kind;
    uint64_t first;
    uint64_t second;
    uint64_t third;
    uint64_t fourth;
};

/*
 * A file's margin. refusal is 0 where the file is accepted: then lines is how many lines were written and total the margin
 * in centavos, the amounts of the lines and the premiums added up. The sum is not rounded: with premiums it need not be a
 * multiple of 100. Otherwise refusal is the refusal's number and row the row it was given for, counted from 0 in its own
 * table (0 where it was not given for a row), and lines and total are 0.
 */
struct serpentgleam_result {
    uint64_t refusal;
    uint64_t row;
    uint64_t lines;
    uint64_t total;
};

/*
 * Margins an account: pairs held and written positions and writes the pairs as made, then the rows with contracts left in
 * row order, into the caller's list. Pairs use at most Q less the blocked of a held row: it is paired while some of these
 * are left. A row of which all contracts are blocked is in no pair.
 *
 * file, length: the account file's bytes.
 * lines, room: the list and how many entries it has. SERPENTGLEAM_MOST_LINES are enough for every account; fewer than
 * 2 x positions are refused with SERPENTGLEAM_REFUSED_LIST_TOO_SHORT, however many lines there would be. With room 0, which
 * is enough for an account without positions, the pointer may be NULL.
 *
 * Entries after the last line keep their content, and on a refusal every entry does. The largest amount of a line is
 * 9,999,999,900,000,000, and the largest total is 2,559,999,974,400,000,000, which a signed number of 64 bits holds.
 *
 * A pair can raise the total, by at most 100 centavos, since its line and that of the contracts left are each rounded by
 * itself. A further row can change which pairs are made, and the total by more. Promised is the cover: where every fb is at
 * most 1,000,000, the total and what the held rows pay for their contracts in pairs are on every path at least what the
 * written rows pay. No blocked contract is in a pair, so none counts in the cover. With any fb the same is promised of every
 * account that has no written put with an up-and-in barrier not yet knocked in within a series whose fb is above 1,000,000.
 */
struct serpentgleam_result serpentgleam_margin(const uint8_t *file, size_t length, struct serpentgleam_line *lines, size_t room);

/*
 * An answer that is one number. refusal is 0 where the call was done: then value is the number, and row is 0. Otherwise
 * refusal is the refusal's number and row the row it was given for, counted from 0 in its own table (0 where it was not
 * given for a row), and value is 0.
 */
struct serpentgleam_answer {
    uint64_t refusal;
    uint64_t row;
    uint64_t value;
};

/*
 * The unsettled premiums of all held rows of an account together, in centavos: premium x M x Q of each, exact, whatever is
 * blocked. They are part of the total that serpentgleam_margin gives.
 *
 * file, length: the account file's bytes.
 */
struct serpentgleam_answer serpentgleam_premiums(const uint8_t *file, size_t length);

/*
 * The factors of a series. refusal is 0 where there are some: then fa is the high stress factor and fb the low one, both in
 * millionths as a series row of an account file holds them, and row is 0. Otherwise refusal is the refusal's number, and
 * row, fa and fb are 0.
 */
struct serpentgleam_factors {
    uint64_t refusal;
    uint64_t row;
    uint64_t fa;
    uint64_t fb;
};

/*
 * The factors by the circular's row of a code, for so many days to expiry. Takes no file.
 *
 * code: SERPENTGLEAM_FCI, SERPENTGLEAM_FPI, SERPENTGLEAM_OFC or SERPENTGLEAM_OFV.
 * days: calendar days to expiry, 0 to SERPENTGLEAM_MOST_DAYS.
 *
 * Any two numbers may be handed over: another code or more days are refused with SERPENTGLEAM_REFUSED_FACTORS_ASKED_FOR.
 * fa is always 1,000,000 to 10,000,000 and fb at most fa, so that a series row with them is within its limits.
 *
 * The call and its struct share a name: in C++ too the type is written with the word struct before it.
 */
struct serpentgleam_factors serpentgleam_factors(uint64_t code, uint64_t days);

/*
 * Brings an account file up to date after a day of one series.
 *
 * file, length: the account file's bytes, which are written to.
 * series: the series row, counted from 0 in the order of the file.
 * high, low, close: the day's prices in whole ticks.
 *
 * In the position rows of the series flag 1, already knocked in, is set where high is at or above an up-and-in barrier or
 * low at or below a down-and-in one, and flag 16, already knocked out, where high is at or above an up-and-out barrier or
 * low at or below a down-and-out one. PV of the series becomes close. No flag is taken away, and every other byte keeps its
 * content, those of the blocked contracts too. The file is then accepted as before, and the same day once more changes no
 * byte.
 *
 * Answers value 0, or the refusal: that of the file; then SERPENTGLEAM_REFUSED_SERIES_ASKED_FOR where the account has no
 * such series row; then SERPENTGLEAM_REFUSED_DAY_PRICES where high is below low, close is below low or above high, or one
 * of the three is not 1 to 10,000,000. The last two have row 0. On a refusal every byte keeps its content.
 */
struct serpentgleam_answer serpentgleam_day(uint8_t *file, size_t length, uint64_t series, uint64_t high, uint64_t low,
                                            uint64_t close);

/*
 * Pairs an account in instalments: makes the next pairs, at most as many as are allowed, and writes them into the caller's
 * list after those that are there. All calls together make the pairs that serpentgleam_margin makes, in its order.
 *
 * file, length: the account file's bytes, the same in each call: nothing is kept between calls.
 * lines, room: the list and how many entries it has, 2 x positions or more as for serpentgleam_margin; with room 0 the
 * pointer may be NULL.
 * count: how many pair lines are in the list already, in its entries 0 to count - 1.
 * allowance: the most pairs that this call makes. With 0 it makes none.
 *
 * A caller begins with count 0 and a list of any content. The value is how many pairs this call made: they are pair lines in
 * the entries from count on, and the next call has count + value. All pairs are made when a call makes fewer than it was
 * allowed; the last call may make none. Every other entry keeps its content: no left lines are written. The whole list with
 * these is written by serpentgleam_margin.
 *
 * Answers the value, or the refusal: that of the file; then SERPENTGLEAM_REFUSED_LIST_TOO_SHORT with fewer than 2 x
 * positions entries; then SERPENTGLEAM_REFUSED_NOT_FIRST_PAIRS where one of the five numbers of one of the first count
 * entries is not that of the account's pair, or count is above the number of the account's pairs, or above room. The last
 * two have row 0. On a refusal every entry keeps its content. Any count and any allowance may be handed over. A call takes
 * at most about as long as serpentgleam_margin does.
 */
struct serpentgleam_answer serpentgleam_pair(const uint8_t *file, size_t length, struct serpentgleam_line *lines, size_t room,
                                             uint64_t count, uint64_t allowance);

/*
 * The amount in centavos of an account that is paired in instalments: the amounts of its pairs so far, of each row with
 * contracts left after them the amount that its left line would have (0 if held), and the premiums of all held rows.
 *
 * file, length, lines, room, count: as for serpentgleam_pair, with the same refusals: the list has 2 x positions entries or
 * more. It is not written to.
 *
 * After all pairs it is the total of serpentgleam_margin, and it is never larger than the largest total named there. It need
 * not fall with each pair: a pair can raise it, by at most 100 centavos. Promised is the cover, whatever the count: where
 * every fb is at most 1,000,000, the amount so far and what the held rows pay for their contracts in the pairs so far are on
 * every path at least what the written rows pay. No blocked contract counts in it. With any fb the same is promised of the
 * accounts named at serpentgleam_margin.
 */
struct serpentgleam_answer serpentgleam_amount_so_far(const uint8_t *file, size_t length, const struct serpentgleam_line *lines,
                                                      size_t room, uint64_t count);

/*
 * Takes pairs apart, as when a client sells a held option during the day: removes the latest k pair lines of an account that
 * is paired in instalments. Their contracts are left again in their rows, and their entries become all zeros.
 *
 * file, length, lines, room, count: as for serpentgleam_pair, the list of 2 x positions entries or more too. The file is
 * still the one that the pairs were made of.
 * k: how many pairs are taken apart, the latest ones. With 0 none is.
 *
 * The value is how many pair lines are then in the list, count - k, and the next call has it as its count. The five numbers
 * of each of the entries from value to count - 1 become 0. Every other entry keeps its content.
 *
 * Promised: where serpentgleam_pair made some pairs, taking apart as many gives back the former count and the former
 * contracts left in every row, and pairing with the same allowance again writes the same lines. What stood in their entries
 * before the pairs were made does not come back.
 *
 * Answers the value, or the refusal: those of serpentgleam_pair in their order; then SERPENTGLEAM_REFUSED_ABOVE_COUNT, with
 * row 0, where k is above count. On a refusal every entry keeps its content. Any count and any k may be handed over. A call
 * takes at most about as long as serpentgleam_margin does.
 */
struct serpentgleam_answer serpentgleam_take_apart(const uint8_t *file, size_t length, struct serpentgleam_line *lines,
                                                   size_t room, uint64_t count, uint64_t k);

/*
 * Makes an account of a load, for support and for a bench: the same seed and the same number of positions give the same
 * account file on every machine. Takes no file.
 *
 * seed: 1 to SERPENTGLEAM_MOST_SEED.
 * p: how many positions the account has, 1 to SERPENTGLEAM_MOST_POSITIONS.
 * buffer, room: the bytes that the file is written to, and how many they are: 36 + 32 x p or more. SERPENTGLEAM_MOST_LOAD
 * are enough for every load. With room 0, which is always refused, the pointer may be NULL.
 *
 * The file stands from the buffer's first byte on, and the value is how many bytes it has, 36 + 32 x p: with buffer and value
 * it is handed to the other calls. Bytes after it keep their content.
 *
 * The account has one series and no cover sheet. A state that begins with the seed goes from t to 48271 x t mod 2147483647
 * with every draw, and draw(k) is the next state mod k. Of the series are drawn, in this order: PV 1000 + draw(9000), fa
 * 1000000 + draw(500000), fb 500000 + draw(500001), M 1 + draw(10), type draw(2); f3 is 50000. Of each position: side draw(2),
 * kind draw(5), Q 1 + draw(100), PE 1 + draw(10000), and if the kind is above 0 the barrier, PV + 1 + draw(1000) when up or
 * 1 + draw(PV - 1) when down, then REB draw(100). All are European, without limiter and premium, and none are blocked.
 *
 * Promised: every such file is accepted, and its rows are the ones drawn.
 *
 * Answers the value, or SERPENTGLEAM_REFUSED_LOAD_ASKED_FOR with row 0 where the seed or p is not in its range or the buffer
 * has fewer than 36 + 32 x p bytes. On a refusal every byte of the buffer keeps its content. Any numbers may be handed over.
 */
struct serpentgleam_answer serpentgleam_load(uint64_t seed, uint64_t p, uint8_t *buffer, size_t room);

#ifdef __cplusplus
}
#endif

#endif
