/* The example of document 01 through include/ledger.h. From the top of the repository, after `tools/build exports auction positions splitting`:
 *
 *     cc -std=c11 -Wall -Wextra -Werror -I include tests/linked/example.c target/staticlib/lib{exports,auction,positions,splitting}.a -o target/example && target/example
 *
 * It prints what document 01 prints, and ends with 1 where a number differs. */
#include <ledger.h>
#include <stdio.h>
#include <string.h>

/* One field a line: tag, length, value. */
static const uint8_t input[] = {
    0x01, 0x00, 0x1b, 0x01, 0x00, 0x01, 0x00, 0x00, 0x00, 0x07, 0x00, 0x00, 0x00, 0x00, 0x00, 0x00, 0x00, 0x00, 0x00, 0x00, 0x00, 0x14,
    0x00, 0x00, 0x00, 0x0a, 0x00, 0x00, 0x00, 0x32,                                                 /* HEAD */
    0x02, 0x00, 0x04, 0x00, 0x00, 0x0a, 0x00,                                                       /* POOL */
    0x03, 0x00, 0x0d, 0x00, 0x00, 0x00, 0x00, 0x64, 0x00, 0x04, 0x00, 0x00, 0x00, 0x00, 0x00, 0x00, /* MEMBER */
    0x03, 0x00, 0x0d, 0x01, 0x00, 0x00, 0x00, 0x64, 0x00, 0x03, 0x00, 0x00, 0x00, 0x00, 0x00, 0x00, /* MEMBER */
    0x03, 0x00, 0x0d, 0x02, 0x00, 0x00, 0x00, 0x3c, 0x00, 0x03, 0x00, 0x00, 0x00, 0x00, 0x00, 0x00, /* MEMBER */
    0x04, 0x00, 0x04, 0xff, 0xff, 0xff, 0xe2,                                                       /* ROUND */
    0x05, 0x00, 0x08, 0x00, 0x00, 0x00, 0x04, 0xff, 0xff, 0xff, 0xf6,                               /* BID */
    0x05, 0x00, 0x08, 0x00, 0x01, 0x00, 0x05, 0xff, 0xff, 0xff, 0xec,                               /* BID */
    0x05, 0x00, 0x08, 0x00, 0x02, 0x00, 0x03, 0xff, 0xff, 0xff, 0xec,                               /* BID */
    0x05, 0x00, 0x08, 0x00, 0x02, 0x00, 0x05, 0xff, 0xff, 0xff, 0xd8,                               /* BID */
    0x06, 0x00, 0x00,                                                                               /* CLOSE */
    0x0d, 0x00, 0x00,                                                                               /* FINISH */
};

/* The printed text of document 01's example. */
static const char expected[] = "s 1 0\ns 2 0\ns 3 0\ns 3 0\ns 3 0\ns 4 0\ns 5 0\ns 5 0\ns 5 0\ns 5 0\ns 6 0\ns 13 0\n"
                               "p 0 0 10 0 0 0\nl 160 20 10 30 100 0 0 0\nm 0 2 40 0\nm 1 1 0 0\nm 2 3 60 0\n";

enum { MOST = 16 };

static char text[1024];
static size_t at;

static void number(const char *before, uint64_t n) {
    at += (size_t)snprintf(text + at, sizeof text - at, "%s%llu", before, (unsigned long long)n);
}

static void line_end(void) {
    at += (size_t)snprintf(text + at, sizeof text - at, "\n");
}

int main(void) {
    /* The whole input at once. */
    uint8_t run_answers[MOST];
    size_t fields = ledger_run(input, sizeof input, run_answers, MOST);

    /* Its text. */
    static uint8_t printed_text[4 * sizeof input + 4096];
    struct ledger_printed printed = ledger_print(input, sizeof input, printed_text, sizeof printed_text);

    /* The same fields as calls, each handed over with all calls before it. */
    size_t ends[MOST];
    size_t calls = 0;
    uint8_t answers[MOST];
    struct ledger_shown shown = ledger_calls(input, 0, ends, 0, answers, 0);
    int wrong = shown.present || shown.stage != LEDGER_NO_CASE;
    for (size_t from = 0; from < sizeof input;) {
        size_t to = from + 3 + 256u * input[from + 1] + input[from + 2];
        ends[calls++] = to;
        shown = ledger_calls(input, to, ends, calls, answers, MOST);
        wrong |= answers[calls - 1] != run_answers[calls - 1];
        number("s ", input[from]);
        number(" ", answers[calls - 1]);
        line_end();
        from = to;
    }
    wrong |= fields != calls || shown.stage != LEDGER_F;
    wrong |= shown.bids != 4 || !shown.stands[0] || !shown.stands[3] || shown.stands[4];

    for (int pool = 0; pool < shown.pools; pool++) {
        number("p ", (uint64_t)pool);
        for (int kind = 0; kind < LEDGER_KINDS; kind++) {
            number(" ", shown.counts[pool * LEDGER_KINDS + kind]);
        }
        line_end();
    }
    number("l ", shown.loss);
    for (int layer = 0; layer < LEDGER_LAYERS; layer++) {
        number(" ", shown.charges[layer]);
    }
    number(" ", shown.uncovered);
    line_end();
    for (int member = 0; member < 3; member++) {
        number("m ", (uint64_t)member);
        number(" ", shown.ranks[member]);
        number(" ", shown.contributions[member]);
        number(" ", shown.payments[member]);
        line_end();
    }

    /* Document 02, C-14: in front of CLOSE member 1 withdraws its bid, which has the number 1. A second time is declined by 18, and CLOSE sells 4 and 3 units. */
    static const uint8_t more[] = {0x0f, 0x00, 0x03, 0x01, 0x00, 0x01, 0x0f, 0x00, 0x03, 0x01, 0x00, 0x01, 0x06, 0x00, 0x00};
    const size_t bidden = sizeof input - 6;
    uint8_t withdrawn[sizeof input + sizeof more];
    memcpy(withdrawn, input, bidden);
    memcpy(withdrawn + bidden, more, sizeof more);
    size_t until[MOST];
    memcpy(until, ends, sizeof until);
    until[10] = bidden + 6;
    until[11] = bidden + 12;
    until[12] = bidden + 15;
    struct ledger_shown after = ledger_calls(withdrawn, bidden + sizeof more, until, 13, answers, MOST);
    wrong |= answers[10] != 0 || answers[11] != 18 || answers[12] != 0;
    wrong |= after.bids != 4 || !after.stands[0] || after.stands[1] || !after.stands[2] || after.counts[0] != 3 || after.counts[1] != 7;

    /* What members 0 and 1 hold of pool 0 at -0.10 and at -0.20. */
    const uint8_t members[] = {0, 1, 1};
    const uint8_t pools[] = {0, 0, 0};
    const uint32_t prices[] = {1000000 - 10, 1000000 - 20, 1000000 - 10};
    uint64_t units[] = {9, 9, 9, 9};
    ledger_holdings(input, sizeof input, ends, calls, members, 3, pools, 3, prices, 3, units, 4);
    wrong |= units[0] != 4 || units[1] != 4 || units[2] != 0 || units[3] != 9;

    /* Document 02, C-16: the requirement and the running sum of pool 0 before CLOSE and after FINISH; with no case the reading is declined by 2. */
    struct ledger_reading reading = ledger_requirement(input, bidden, ends, calls);
    wrong |= reading.answer != 0 || reading.cents != 0 || ledger_pool_prices(input, bidden, ends, calls, 0) != 0;
    reading = ledger_requirement(input, sizeof input, ends, calls);
    wrong |= reading.answer != 0 || reading.cents != 160 || ledger_pool_prices(input, sizeof input, ends, calls, 0) != -160;
    wrong |= ledger_pool_prices(input, sizeof input, ends, calls, 1) != 0 || ledger_pool_prices(input, sizeof input, ends, calls, 4) != 0;
    reading = ledger_requirement(input, sizeof input, ends, 0);
    wrong |= reading.answer != 2 || reading.cents != 0 || ledger_pool_prices(input, sizeof input, ends, 0, 0) != 0;

    /* Splitting and the auction alone: 6 by 5 and 3, and the four bids of the example. */
    const uint64_t weights[] = {5, 3};
    uint64_t shares[] = {0, 0};
    wrong |= ledger_split(6, weights, 2, shares, 2) != 0 || shares[0] != 4 || shares[1] != 2;
    /* Its places by remainder, with one of weight 0 in front; none where the weights add up to 0 or the runs differ in length. */
    const uint64_t ranked_weights[] = {0, 3, 5};
    size_t places[] = {9, 9, 9};
    struct ledger_ranked ranked = ledger_ranking(6, ranked_weights, 1, places, 1);
    wrong |= ranked.answer != 0 || ranked.named != 0 || places[0] != 9;
    ranked = ledger_ranking(6, ranked_weights, 3, places, 2);
    wrong |= ranked.answer != 1 || ranked.named != 0 || places[0] != 9;
    ranked = ledger_ranking(6, ranked_weights, 3, places, 3);
    wrong |= ranked.answer != 0 || ranked.named != 3 || places[0] != 2 || places[1] != 1 || places[2] != 0;
    const struct ledger_bid bids[] = {{4, -10}, {5, -20}, {3, -20}, {5, -40}};
    uint64_t counts[] = {0, 0, 0, 0};
    wrong |= ledger_auction_records(bids, 4, 10, -30, counts, 4) != 0;
    wrong |= counts[0] != 4 || counts[1] != 4 || counts[2] != 2 || counts[3] != 0;
    const uint64_t flat_units[] = {4, 5, 3, 5};
    const uint32_t flat_prices[] = {1000000 - 10, 1000000 - 20, 1000000 - 20, 1000000 - 40};
    uint64_t flat_counts[] = {0, 0, 0, 0};
    wrong |= ledger_auction(10, 1000000 - 30, flat_units, 4, flat_prices, 4, flat_counts, 4) != 0;
    wrong |= memcmp(counts, flat_counts, sizeof counts) != 0;

    /* Expected units: 10 by the positions of members 0 and 2 on two days, 1 + 2 and 3 + 2; at once, and in two parts of 3 and 13 bytes. */
    const uint8_t days[] = {0, 0, 0, 1, 0, 0, 0, 3, 0, 0, 0, 2, 0, 0, 0, 2};
    uint64_t expects[LEDGER_MEMBERS] = {9, 9, 9};
    wrong |= ledger_expected(5, 10, days, 15, expects) != 1 || expects[0] != 9;
    wrong |= ledger_expected(5, 10, days, sizeof days, expects) != 0 || expects[0] != 4 || expects[1] != 0 || expects[2] != 6;
    static uint32_t ring[LEDGER_DAYS * LEDGER_MEMBERS];
    uint64_t sums[LEDGER_MEMBERS] = {0};
    struct ledger_days part = ledger_take_days(ring, sums, 0, 5, days, 3);
    wrong |= part.answer != 0 || part.used != 0;
    part = ledger_take_days(ring, sums, part.row, 5, days, sizeof days);
    wrong |= part.answer != 0 || part.used != sizeof days || sums[0] != 3 || sums[1] != 5;
    uint64_t again[LEDGER_MEMBERS];
    wrong |= ledger_end_days(sums, 5, 10, 0, again) != 0 || memcmp(again, expects, sizeof again) != 0;

    fputs(text, stdout);
    wrong |= strcmp(text, expected) != 0 || shown.prices != -160;
    wrong |= !printed.whole || printed.len != strlen(expected) || memcmp(printed_text, expected, printed.len) != 0;
    if (wrong) {
        fputs("differs from document 01\n", stderr);
    }
    return wrong ? 1 : 0;
}
