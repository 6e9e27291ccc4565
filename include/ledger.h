/* The forward default ledger (document 01) for C.
 *
 * Make the library and link it:
 *
 *     tools/build exports                                   (writes target/staticlib/libexports.a)
 *     cc -I include main.c target/staticlib/libexports.a
 *
 * Every function is proved against its contract in crates/exports/src/lib.rt: the answers and all that is shown are those of the machine that
 * document 01 describes, for every input. No function fails, allocates, keeps anything between two calls or reads or writes outside the runs
 * that it is lent. The caller sees to what no proof can: that a pointer is valid for its length and aligned for its type, that a run that
 * is written overlaps no other run, and that the stack has 1 MB left. Where a length is 0 the pointer is not followed.
 *
 * A case cannot be handed over, since it holds more than numbers. So a caller keeps the calls made so far as one run of bytes, hands them over
 * with each call, and is shown what they lead to. A call that was answered by a number other than 0 changed nothing and may be left out.
 *
 * A price is held as cents + 1,000,000: 0 is -10,000.00 and 2,000,000 is 10,000.00. Other money is in cents.
 */
#ifndef LEDGER_H
#define LEDGER_H

#include <stdbool.h>
#include <stddef.h>
#include <stdint.h>

#ifdef __cplusplus
extern "C" {
#endif

enum { LEDGER_POOLS = 4, LEDGER_KINDS = 5, LEDGER_MEMBERS = 32, LEDGER_LAYERS = 6, LEDGER_BIDS = 256 };

/* The stages: S setup, B bidding, A after a round, C calls out, F finished. */
enum { LEDGER_NO_CASE = 0, LEDGER_S = 1, LEDGER_B = 2, LEDGER_A = 3, LEDGER_C = 4, LEDGER_F = 5 };

/* What is shown of a case. All is 0 where there is no case; from `loss` on, all is 0 before an accepted FINISH. What stands at the place of a member
 * that is not in the set has no meaning. */
struct ledger_shown {
    bool present;                           /* whether there is a case */
    uint8_t stage;                          /* one of the stages above */
    uint8_t round;                          /* 1 or 2 in stages B and A (1 in the A that a SALE made without a round), else 0 */
    uint8_t pools;                          /* how many POOLs were accepted */
    size_t bids;                            /* how many BIDs were accepted; they are numbered from 0, so the next one gets this number */
    bool stands[LEDGER_BIDS];               /* whether the bid with the number stands; false once it is withdrawn, and where there is none */
    uint64_t counts[LEDGER_POOLS * LEDGER_KINDS]; /* open, sold (by bid or by agreement), allocated, moved, torn of pool 0, then of pools 1 to 3 */
    int64_t prices;                         /* the sum of the prices of the units not open, in cents */
    uint64_t requirement;
    uint64_t prefunded;
    uint64_t owes[LEDGER_MEMBERS];          /* by member */
    uint64_t loss;
    uint64_t charges[LEDGER_LAYERS];        /* margin, defaulter's fund, first tranche, contributions, second tranche, payments */
    uint64_t uncovered;
    uint8_t ranks[LEDGER_MEMBERS];          /* by member; 1 is the most senior */
    uint64_t contributions[LEDGER_MEMBERS]; /* charged on contributions, by member */
    uint64_t payments[LEDGER_MEMBERS];      /* charged on payments, by member */
};

/* Takes the fields of a whole input in turn, as the program `ledger` does, and answers how many it took: all of them, or as many as there is room
 * for answers. Their answers stand in front in `answers`; the rest of it is as it was. */
size_t ledger_run(const uint8_t *input, size_t input_len, uint8_t *answers, size_t answers_len);

/* Whether a whole text was written, and its length. */
struct ledger_printed {
    bool whole;
    size_t len;
};

/* Takes the fields of a whole input in turn and writes the text that the program `ledger` prints for it at the front of `out`, with no 0 byte behind it.
 * Where out_len is less than 4 * input_len + 4096, `whole` is false and `out` is as it was. */
struct ledger_printed ledger_print(const uint8_t *input, size_t input_len, uint8_t *out, size_t out_len);

/* Takes calls in turn, from no case on, and shows what they lead to. A call is any string of bytes, also one that is not exactly one field: call k is
 * the bytes from ends[k - 1] (call 0: from 0) on, below ends[k]. An end below the last one or above bytes_len is held to them. The answers stand in
 * front in `answers`, as far as there is room; the rest of it is as it was. */
struct ledger_shown ledger_calls(const uint8_t *bytes, size_t bytes_len, const size_t *ends, size_t ends_len, uint8_t *answers, size_t answers_len);

/* After the same calls: units[k] is how many units of pool pools[k] the member members[k] holds at the price prices[k] (cents + 1,000,000). As many
 * questions are answered as all four runs have; the rest of `units` is as it was. */
void ledger_holdings(const uint8_t *bytes, size_t bytes_len, const size_t *ends, size_t ends_len, const uint8_t *members, size_t members_len,
                     const uint8_t *pools, size_t pools_len, const uint32_t *prices, size_t prices_len, uint64_t *units, size_t units_len);

/* What is read of the requirement: 0 and its cents, or 2 and 0 where there is no case. */
struct ledger_reading {
    uint8_t answer;
    uint64_t cents;
};

/* After the same calls: the requirement (document 02, C-16), hedge loss + other loss less the sum of the prices of the units that have left the house, at least 0.
 * It is read from running sums, to which each call adds what it changes; nothing is added up over the units. */
struct ledger_reading ledger_requirement(const uint8_t *bytes, size_t bytes_len, const size_t *ends, size_t ends_len);

/* After the same calls: the running sum of a pool, the prices of its units that have left the house, in cents; it is below 0 where the house paid. The sums of pools
 * 0 to 3 add up to `prices` of ledger_calls. It is 0 where there is no case, and for a pool that the case lacks. */
int64_t ledger_pool_prices(const uint8_t *bytes, size_t bytes_len, const size_t *ends, size_t ends_len, uint8_t pool);

/* ---- The program. `tools/build stream` writes libstream.a, which has this, and needs the kit's C code of `os` (libos_c.a). */

/* Runs the program `ledger` from standard input to standard output, and says whether the input ended and all was written; a C program can end with that as
 * its status. */
bool ledger_stream(void);

/* ---- Splitting and the auction alone. `tools/build splitting auction` writes libsplitting.a and libauction.a, which have these. */

/* Splits q by the weights into the shares and answers 0: what the floors leave goes one each to the largest remainders of q * weight by the sum of the weights, a
 * tie to the larger weight, and only then to the earlier place (document 02, C-15). It answers 1 where the runs differ in length or have more than 512 places, and 5
 * where q is above 16,000,000,000 or a weight above 1,000,000,000; the shares are then as they were. */
uint8_t ledger_split(uint64_t q, const uint64_t *weights, size_t weights_len, uint64_t *shares, size_t shares_len);

/* What a ranking led to. */
struct ledger_ranked {
    uint8_t answer; /* 0, or 1 or 5 where ledger_split answers them */
    size_t named;   /* how many places are named: all, or none where the weights add up to 0 or the answer is not 0 */
};

/* Ranks the places of the weights, 0 the first of them, in the order in which a split hands out what the floors leave (document 02, C-13): larger remainders of
 * q * weight by the sum of the weights first, a tie to the larger weight, and only then to the earlier place (C-15). `places` is as long as the weights; where none
 * is named it is as it was. */
struct ledger_ranked ledger_ranking(uint64_t q, const uint64_t *weights, size_t weights_len, size_t *places, size_t places_len);

/* A bid: its units, and its price in cents, positive paid to the house and negative by the house. */
struct ledger_bid {
    uint16_t units;
    int32_t price;
};

/* Allots open units to bids, each wins counts[k], and answers 0. It answers 1 where the runs differ in length or have more than 256 bids, and 5 where a number is out
 * of range (open units to 1,000, a bid's units 1 to 1,000, a price from -1,000,000 to 1,000,000 cents); the counts are then as they were. */
uint8_t ledger_auction_records(const struct ledger_bid *bids, size_t bids_len, uint16_t open_units, int32_t reserve, uint64_t *counts, size_t counts_len);

/* The same over flat runs of units and prices, with prices as cents + 1,000,000. */
uint8_t ledger_auction(uint64_t open_units, uint32_t reserve, const uint64_t *units, size_t units_len, const uint32_t *prices, size_t prices_len,
                       uint64_t *counts, size_t counts_len);

/* ---- Expected units from daily positions (document 02, C-11). `tools/build positions` writes libpositions.a, which has these.
 *
 * A day is a record of 4 bytes, big-endian, for each member of the set, in member order; bit i of the set is member i. The shares are 32 numbers by member, 0
 * outside the set. */

enum { LEDGER_DAYS = 66 };

/* Splits the units by the sums of the members' positions over the last 66 days of a whole run, or over the days there are, and answers 0. It answers 5 where the
 * set is empty or the units are not 1 to 1,000, before any record is looked at; then the first bad record decides: 1 where it is cut short, 5 where a
 * position is above 10,000,000. The shares are then as they were. */
uint8_t ledger_expected(uint32_t set, uint64_t units, const uint8_t *days, size_t days_len, uint64_t shares[LEDGER_MEMBERS]);

/* What a part of a run led to. */
struct ledger_days {
    size_t row;     /* goes with the next part */
    size_t used;    /* how many of the bytes were records that were taken */
    uint8_t answer; /* 0, or 5 where the next record has a position above 10,000,000 or the set is empty: the run has then ended */
};

/* Takes the whole records of a part of a run. A run begins with a ring and sums of zeros and row 0. The bytes that were not used, less than a record, go in
 * front of the next part; parts may be cut anywhere. After every part the sums, in member order from the front on, are those over the last 66 days. */
struct ledger_days ledger_take_days(uint32_t ring[LEDGER_DAYS * LEDGER_MEMBERS], uint64_t sums[LEDGER_MEMBERS], size_t row, uint32_t set, const uint8_t *days,
                                    size_t days_len);

/* Ends a run that no part has ended: splits the units by the sums and answers 0, or answers 5 where the set is empty or the units are not 1 to 1,000, then 1
 * where bytes of a record are left. The shares are then as they were. */
uint8_t ledger_end_days(const uint64_t sums[LEDGER_MEMBERS], uint32_t set, uint64_t units, size_t left, uint64_t shares[LEDGER_MEMBERS]);

#ifdef __cplusplus
}
#endif

#endif
