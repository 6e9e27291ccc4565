"""Deliberate mistakes in the counts model, a few in the roll, and in the model's ranking, auction alone and expected units, some that let a reserve out, and some
in the making of pairs: name, file, the text that is there once, and what stands there instead."""

COUNTS = "model/src/counts.rs"
ROLL = "model/src/roll.rs"
SPLIT = "model/src/split.rs"
AUCTION = "model/src/auction.rs"
TEXT = "model/src/text.rs"
FIELD = "model/src/field.rs"
POSITIONS = "model/src/positions.rs"
PAIRS = "generator/src/reserves.rs"

# The number of the first bid of the round, for the mistakes that go by it.
ROUND_BEGINS = (
    "    to_allot: Vec<usize>,\n", "    to_allot: Vec<usize>,\n    round_begins: usize,\n",
    "        self.stage = Some(Stage::Bidding(round));\n", "        self.round_begins = self.bids.len();\n        self.stage = Some(Stage::Bidding(round));\n")
# The numbers of the bids withdrawn in any round, for the mistakes that go by them.
WITHDRAWN = ("    to_allot: Vec<usize>,\n", "    to_allot: Vec<usize>,\n    withdrawn: Vec<usize>,\n")
TAKEN_BACK = "        self.to_allot.remove(place);\n"
NOTED = (*WITHDRAWN, TAKEN_BACK, TAKEN_BACK + "        self.withdrawn.push(number);\n")
# A withdrawal is noted and the bid stays among those to allot.
NOTED_ALONE = (*WITHDRAWN, TAKEN_BACK, "        let _ = place;\n        if self.withdrawn.contains(&number) {\n            return 18;\n        }\n        self.withdrawn.push(number);\n")
NOT_FOUND = "binary_search(&number) else {\n            return 18;\n"
NUMBER = "let (member, number) = (usize::from(value[0]), usize::from(u16_at(value, 1)));\n"
MEMBER_OF_WITHDRAW = "        if !self.has_member(member) {\n            return 4;\n        }\n        let Ok(place)"
KEPT = "        self.bids.push(Bid { pool, member, units, price, won: 0, sold: 0 });\n        self.to_allot.push(self.bids.len() - 1);\n"

# Where the running sum of a pool changes, by call; TEAR and MISS share TORN.
SUM = "self.pool.iter().map(|pool| pool.prices).sum()"
SOLD_BY_AGREEMENT = "        pool.prices += units as i64 * price;\n"
SOLD = "        self.pool[bid.pool].prices += units as i64 * bid.price;\n"
ALLOCATED = "        pool.prices += placed as i64 * price;\n"
TORN = "        self.pool[pool].prices += units as i64 * price;\n        self.torn"
BY_TEAR = "        self.tear_units(pool, price, units);\n"
MOVED = "        self.pool[pool].prices += saved as i64;\n"
GIVEN_BACK = "            pool.prices -= allocated[p] as i64 * pool.allocated_price;\n"
BY_MISS = "                self.tear_units(p, price, allocated[p] + moved[p]);\n"
LOSSES = "        self.losses = (hedge + other) as i64;\n"
READ = "            Some(_) => (0, self.required()),\n"


def after_each_call(then):
    """The mistakes that touch the sums after every call."""
    return ("        match tag {\n            1 => self.head(value),", "        let answer = match tag {\n            1 => self.head(value),",
            "            _ => self.withdraw(value),\n        }\n", "            _ => self.withdraw(value),\n        };\n" + then + "        answer\n")


# What a split goes by where remainders tie, and the keys of a sort that does so: C-15 has the larger weight and then the earlier.
BY_TIE = "Reverse((product(weights[i]) % sum, weights[i]))"
OTHER_TIES = [
    ("to the earlier, whatever the weights", "(Reverse(remainder(i)), i)"),
    ("to the smaller weight", "(Reverse(remainder(i)), weights[i])"),
    ("of like weights to the later", "(Reverse(remainder(i)), Reverse(weights[i]), Reverse(i))"),
]
USES_SPLIT = "use crate::split::split;\n"


def other_split(key):
    """A split of the file's own, with ties by the key."""
    return (USES_SPLIT, USES_SPLIT + f"""
fn other_split(q: u64, weights: &[u64]) -> Vec<u64> {{
    use std::cmp::Reverse;
    let sum: u128 = weights.iter().map(|&w| u128::from(w)).sum();
    if sum == 0 {{
        return vec![0; weights.len()];
    }}
    let mut shares = crate::split::floors(q, weights);
    let left = crate::split::odd_cents(q, &shares);
    let remainder = |i: usize| u128::from(q) * u128::from(weights[i]) % sum;
    let mut order: Vec<usize> = (0..weights.len()).collect();
    order.sort_by_key(|&i| {key});
    order[..left].iter().for_each(|&i| shares[i] += 1);
    shares
}}
""")


def other_ties(name, file, *splits):
    """The mistakes of one split alone: its calls go to the other split."""
    for ties, key in OTHER_TIES:
        edits = [edit for call in splits for edit in (call, call.replace("split(", "other_split(", 1))]
        yield (f"ties {ties}, {name} alone", file, *other_split(key), *edits)


def other_auction(name, call):
    """The mistakes of the auction run alone: CLOSE's rule with the split that is handed to it."""
    for ties, key in OTHER_TIES:
        yield (f"ties {ties}, {name}", AUCTION, *other_split(key),
               "pub fn allot(open: u64, reserve: i64, bids: &[(u64, i64)]) -> Vec<u64> {\n",
               "pub fn allot(open: u64, reserve: i64, bids: &[(u64, i64)]) -> Vec<u64> {\n    allot_by(open, reserve, bids, split)\n}\n\n"
               "fn allot_by(open: u64, reserve: i64, bids: &[(u64, i64)], by: fn(u64, &[u64]) -> Vec<u64>) -> Vec<u64> {\n",
               "zip(split(left, &units))", "zip(by(left, &units))",
               call, call.replace("allot(", "allot_by(")[:-1] + ", other_split)")


# Each of these shows in the program's text.
IN_TEXT = [
    # Splitting and the auction
    ("ties of a split to the earlier, whatever the weights", SPLIT, BY_TIE, "Reverse(product(weights[i]) % sum)"),
    ("ties of a split to the smaller weight", SPLIT, BY_TIE, "(Reverse(product(weights[i]) % sum), weights[i])"),
    ("ties of a split of like weights to the later", SPLIT,
     "let mut order: Vec<usize> = (0..weights.len()).collect();",
     "let mut order: Vec<usize> = (0..weights.len()).rev().collect();"),
    ("ties of a split to the later, whatever the weights", SPLIT,
     "let mut order: Vec<usize> = (0..weights.len()).collect();",
     "let mut order: Vec<usize> = (0..weights.len()).rev().collect();",
     BY_TIE, "Reverse(product(weights[i]) % sum)"),
    ("what is left to the first, not to the largest remainder", SPLIT, BY_TIE, "Reverse(product(weights[i]) % 1)"),
    ("what is left to the smallest remainder", SPLIT, BY_TIE, "(product(weights[i]) % sum, Reverse(weights[i]))"),
    ("what is left to the largest weight", SPLIT, BY_TIE, "Reverse((weights[i], product(weights[i]) % sum))"),
    *other_ties("CLOSE", AUCTION, "split(left, &units)"),
    *other_ties("ALLOCATE", COUNTS, "split(placed, &shortfalls)"),
    *other_ties("CALL", COUNTS, "split(called, &weights)"),
    *other_ties("FINISH by contributions", COUNTS, "split(charged, &weights)"),
    *other_ties("FINISH by payments", COUNTS, "split(outcome.charges[5], &payments)"),
    ("a bid at the reserve is not valid", AUCTION, "bids[i].1 >= reserve", "bids[i].1 > reserve"),
    ("bids at the cut-off win all or nothing", AUCTION, "won[i] = share;", "won[i] = 0 * share;"),
    ("what is left at the cut-off goes to lower prices", AUCTION,
     "for (&i, share) in level.iter().zip(split(left, &units)) {",
     "let total: u64 = units.iter().sum();\n            let all = left;\n            for (&i, share) in level.iter().zip(units.iter().map(|u| all * u / total)) {\n                left -= share;",
     "            break;\n", ""),
    ("losing bids of round 1 live on in round 2", COUNTS,
     "let to_allot = std::mem::take(&mut self.to_allot);", "let to_allot = self.to_allot.clone();",
     "        self.stage = Some(Stage::After(round));\n", "        self.to_allot.retain(|&number| self.bids[number].won == 0);\n        self.stage = Some(Stage::After(round));\n"),
    ("the last bid wins the odd unit", AUCTION,
     "for (&i, share) in level.iter().zip(split(left, &units)) {",
     "let mut shares = split(left, &units);\n            if let Some(last) = shares.len().checked_sub(1) { if shares[0] > 0 && units[0] == units[last] && shares[0] > shares[last] { shares.swap(0, last); } }\n            for (&i, share) in level.iter().zip(shares) {"),
    # Order of the reasons
    ("9 before 8", COUNTS,
     "        if self.pool[number].open == 0 {\n            return 8;\n        }\n        if self.pool[number].positive_mark {\n            return 9;\n        }\n",
     "        if self.pool[number].positive_mark {\n            return 9;\n        }\n        if self.pool[number].open == 0 {\n            return 8;\n        }\n"),
    ("10 before 9", COUNTS,
     "        if self.pool[number].positive_mark {\n            return 9;\n        }\n        let shortfalls = self.shortfalls(number);\n        let short: u64 = shortfalls.iter().sum();\n        if short == 0 {\n            return 10;\n        }\n",
     "        let shortfalls = self.shortfalls(number);\n        let short: u64 = shortfalls.iter().sum();\n        if short == 0 {\n            return 10;\n        }\n        if self.pool[number].positive_mark {\n            return 9;\n        }\n"),
    ("ALLOCATE: 8 before 5", COUNTS,
     "        if !price_fits(price) {\n            return 5;\n        }\n        if self.pool[number].open == 0 {\n            return 8;\n        }\n",
     "        if self.pool[number].open == 0 {\n            return 8;\n        }\n        if !price_fits(price) {\n            return 5;\n        }\n"),
    ("TEAR: 8 before 5", COUNTS,
     "        if !price_fits(price) {\n            return 5;\n        }\n        if self.pool[pool].open == 0 {\n            return 8;\n        }\n        let units",
     "        if self.pool[pool].open == 0 {\n            return 8;\n        }\n        if !price_fits(price) {\n            return 5;\n        }\n        let units"),
    ("BID: 4 before 3", COUNTS,
     "        if pool >= self.pools {\n            return 3;\n        }\n        if !self.has_member(member) {\n            return 4;\n        }\n",
     "        if !self.has_member(member) {\n            return 4;\n        }\n        if pool >= self.pools {\n            return 3;\n        }\n"),
    ("BID: 5 before 4", COUNTS,
     "        if !self.has_member(member) {\n            return 4;\n        }\n        if units == 0 || units > UNITS_LIMIT || !price_fits(price) {\n            return 5;\n        }\n",
     "        if units == 0 || units > UNITS_LIMIT || !price_fits(price) {\n            return 5;\n        }\n        if !self.has_member(member) {\n            return 4;\n        }\n"),
    ("BID: 6 before 5", COUNTS,
     "        if units == 0 || units > UNITS_LIMIT || !price_fits(price) {\n            return 5;\n        }\n        if units < self.least_bid {\n            return 6;\n        }\n",
     "        if units < self.least_bid {\n            return 6;\n        }\n        if units == 0 || units > UNITS_LIMIT || !price_fits(price) {\n            return 5;\n        }\n"),
    ("BID: 7 before 6", COUNTS,
     "        if units < self.least_bid {\n            return 6;\n        }\n        if self.bids.len() >= BIDS_LIMIT {\n            return 7;\n        }\n",
     "        if self.bids.len() >= BIDS_LIMIT {\n            return 7;\n        }\n        if units < self.least_bid {\n            return 6;\n        }\n"),
    ("BID: 8 before 7", COUNTS,
     "        if self.bids.len() >= BIDS_LIMIT {\n            return 7;\n        }\n        if self.pool[pool].open == 0 {\n            return 8;\n        }\n",
     "        if self.pool[pool].open == 0 {\n            return 8;\n        }\n        if self.bids.len() >= BIDS_LIMIT {\n            return 7;\n        }\n"),
    ("POOL: 5 before 3", COUNTS,
     "        if number >= self.pools || number != self.pools_given {\n            return 3;\n        }\n",
     "        if value[3] > 1 {\n            return 5;\n        }\n        if number >= self.pools || number != self.pools_given {\n            return 3;\n        }\n"),
    ("MEMBER: 5 before 4", COUNTS,
     "        if !self.has_member(number) || self.members_given >> number & 1 == 1 {\n",
     "        if u32_at(value, 1) > 500_000_000 {\n            return 5;\n        }\n        if !self.has_member(number) || self.members_given >> number & 1 == 1 {\n"),
    ("PAY: 5 before 4", COUNTS,
     "        if !self.has_member(member) {\n            return 4;\n        }\n        if amount == 0 || amount > PAYMENT_LIMIT {\n            return 5;\n        }\n",
     "        if amount == 0 || amount > PAYMENT_LIMIT {\n            return 5;\n        }\n        if !self.has_member(member) {\n            return 4;\n        }\n"),
    ("PAY: 14 before 5", COUNTS,
     "        if amount == 0 || amount > PAYMENT_LIMIT {\n            return 5;\n        }\n",
     "        if amount > PAYMENT_LIMIT {\n            return 14;\n        }\n        if amount == 0 {\n            return 5;\n        }\n"),
    ("MISS: 16 before 5", COUNTS,
     "        if !price_fits(price) {\n            return 5;\n        }\n        let Member { allocated, moved, .. } = self.member[number];\n        if allocated == [0; POOLS] && moved == [0; POOLS] {\n            return 16;\n        }\n",
     "        let Member { allocated, moved, .. } = self.member[number];\n        if allocated == [0; POOLS] && moved == [0; POOLS] {\n            return 16;\n        }\n        if !price_fits(price) {\n            return 5;\n        }\n"),
    ("MISS: 5 before 4", COUNTS,
     "        if !self.has_member(number) {\n            return 4;\n        }\n        if !price_fits(price) {\n            return 5;\n        }\n",
     "        if !price_fits(price) {\n            return 5;\n        }\n        if !self.has_member(number) {\n            return 4;\n        }\n"),
    ("ROUND: 10 before 5", COUNTS,
     "        let reserve = |pool: usize| price_at(value, 4 * pool);\n",
     "        let reserve = |pool: usize| price_at(value, 4 * pool);\n        if self.pools_given < self.pools {\n            return 10;\n        }\n"),
    ("ROUND: 8 before 5", COUNTS,
     "        if !(0..self.pools).all(|pool| price_fits(reserve(pool))) {\n            return 5;\n        }\n        if round == 2 && !self.any_open() {\n            return 8;\n        }\n",
     "        if round == 2 && !self.any_open() {\n            return 8;\n        }\n        if !(0..self.pools).all(|pool| price_fits(reserve(pool))) {\n            return 5;\n        }\n"),
    ("reserves of sold-out pools are not held to their range", COUNTS,
     ".all(|pool| price_fits(reserve(pool)))", ".all(|p| price_fits(reserve(p)) || (self.pool[p].open == 0 && round == 2))"),
    ("CALL: 12 before 11", COUNTS,
     "        if self.any_open() {\n            return 11;\n        }\n        let (required",
     "        if self.held_ready() >= self.required() {\n            return 12;\n        }\n        if self.any_open() {\n            return 11;\n        }\n        let (required"),
    ("FINISH: 13 before 11", COUNTS,
     "            Some(Stage::After(_)) if self.any_open() => return 11,\n            Some(Stage::After(_)) if self.held_ready() < self.required() => return 13,\n",
     "            Some(Stage::After(_)) if self.held_ready() < self.required() => return 13,\n            Some(Stage::After(_)) if self.any_open() => return 11,\n"),
    ("2 before 1 after FINISH", COUNTS,
     "        if !self.length_fits(tag, value.len()) {\n            return 1;",
     "        if !self.length_fits(tag, value.len()) {\n            if self.stage == Some(Stage::Finished) && (1..=13).contains(&tag) { return 2; }\n            return 1;"),
    ("HEAD: 5 before 2", COUNTS,
     "        if self.stage.is_some() {\n            return 2;\n        }\n",
     "        if self.stage.is_some() {\n            return if value[0] == 0 || value[0] > 4 { 5 } else { 2 };\n        }\n"),
    # Limits
    ("ROUND's length by the POOLs given", COUNTS, "4 => length == 4 * self.pools,", "4 => length == 4 * self.pools_given,"),
    ("ROUND with no case: any length goes on to 2", COUNTS, "matches!(length, 4 | 8 | 12 | 16)", "length % 4 == 0"),
    ("ROUND with no case: 1 always", COUNTS, "matches!(length, 4 | 8 | 12 | 16)", "false"),
    ("257 bids kept", COUNTS, "const BIDS_LIMIT: usize = 256;", "const BIDS_LIMIT: usize = 257;"),
    ("255 bids kept", COUNTS, "const BIDS_LIMIT: usize = 256;", "const BIDS_LIMIT: usize = 255;"),
    ("256 bids kept in each round", COUNTS, *ROUND_BEGINS, "self.bids.len() >= BIDS_LIMIT", "self.bids.len() - self.round_begins >= BIDS_LIMIT"),
    ("the least bid waived where less is open", COUNTS,
     "if units < self.least_bid {", "if units < self.least_bid.min(self.pool[pool].open.max(1)) {"),
    ("a bid at the least declined", COUNTS, "if units < self.least_bid {", "if units <= self.least_bid && units > 1 {"),
    ("a bid above the open units declined", COUNTS,
     "        if self.pool[pool].open == 0 {\n            return 8;\n        }\n        self.bids",
     "        if self.pool[pool].open < units {\n            return 8;\n        }\n        self.bids"),
    ("a bid below the reserve declined", COUNTS,
     "        if self.pool[pool].open == 0 {\n            return 8;\n        }\n        self.bids",
     "        if self.pool[pool].open == 0 || price < self.pool[pool].reserve {\n            return 8;\n        }\n        self.bids"),
    ("losses limited together", COUNTS, "hedge.max(other) <= LOSS_LIMIT", "hedge + other <= LOSS_LIMIT"),
    ("the defaulter's fund limited like the margin", COUNTS, "&& fund <= FUND_LIMIT", "&& fund <= MARGIN_LIMIT"),
    ("house money limited like a loss", COUNTS, "&& house <= HOUSE_LIMIT", "&& house <= LOSS_LIMIT"),
    ("a margin at its limit declined", COUNTS, "&& margin <= MARGIN_LIMIT", "&& margin < MARGIN_LIMIT"),
    ("an empty set accepted", COUNTS, "&& set != 0", ""),
    ("a contribution one past its limit accepted", COUNTS, "if contribution > FUND_LIMIT", "if contribution > FUND_LIMIT + 1"),
    ("expected units of 1,000 declined", COUNTS, "any(|&units| units > UNITS_LIMIT)", "any(|&units| units >= UNITS_LIMIT)"),
    ("expected units for a pool the case lacks accepted", COUNTS, "any(|&units| units != 0)", "any(|&units| units > UNITS_LIMIT)"),
    ("a price one past its limit accepted", COUNTS, "(-PRICE_LIMIT..=PRICE_LIMIT)", "(-PRICE_LIMIT..=PRICE_LIMIT + 1)"),
    ("the lowest price declined", COUNTS, "(-PRICE_LIMIT..=PRICE_LIMIT)", "(1 - PRICE_LIMIT..=PRICE_LIMIT)"),
    ("any mark accepted", COUNTS, " || value[3] > 1 {", " {"),
    ("marks changed about", COUNTS, "value[3] == 1;", "value[3] == 0;"),
    ("members read as five bits", COUNTS,
     "        if !self.has_member(member) {\n            return 4;\n        }\n        if amount",
     "        let member = member % 32;\n        if !self.has_member(member) {\n            return 4;\n        }\n        if amount"),
    ("a payment of more than 10^9 is 14", COUNTS, "amount == 0 || amount > PAYMENT_LIMIT", "amount == 0"),
    ("POOLs in any turn", COUNTS, "number >= self.pools || number != self.pools_given", "number >= self.pools || self.pool[number].open > 0"),
    ("ROUND forgets missing members", COUNTS, "        if self.pools_given < self.pools || self.members_given != self.set {\n            return 10;\n        }\n        for", "        if self.pools_given < self.pools {\n            return 10;\n        }\n        for"),
    ("ROUND forgets missing pools", COUNTS, "        if self.pools_given < self.pools || self.members_given != self.set {\n            return 10;\n        }\n        for", "        if self.members_given != self.set {\n            return 10;\n        }\n        for"),
    ("the first ROUND with no POOL at all is 8", COUNTS, "if round == 2 && !self.any_open() {", "if !self.any_open() {"),
    ("a third round", COUNTS, "Some(Stage::After(1)) => 2,", "Some(Stage::After(_)) => 2,"),
    # Rounds and reserves
    ("the reserves of both rounds count always", COUNTS, "} else if pool.open > 0 {", "} else {"),
    ("the first reserve counts alone", COUNTS, "pool.worst_reserve.min(pool.reserve)", "pool.worst_reserve"),
    ("the second reserve counts alone", COUNTS, "pool.worst_reserve.min(pool.reserve)", "pool.reserve"),
    ("the better reserve counts", COUNTS, "pool.worst_reserve.min(pool.reserve)", "pool.worst_reserve.max(pool.reserve)"),
    ("the worst reserve decides who is valid", COUNTS,
     "allot(self.pool[pool].open, self.pool[pool].reserve, &offers)", "allot(self.pool[pool].open, self.pool[pool].worst_reserve, &offers)"),
    ("the second reserve counts only where the round sells", COUNTS, *ROUND_BEGINS,
     "        self.stage = Some(Stage::After(round));\n        0",
     "        if round == 2 {\n            for p in 0..self.pools {\n                if !self.bids[self.round_begins..].iter().any(|b| b.pool == p && b.won > 0) {\n                    self.pool[p].worst_reserve = self.pool[p].first_reserve;\n                }\n            }\n        }\n        self.stage = Some(Stage::After(round));\n        0",
     "                pool.worst_reserve = pool.reserve;\n", "                pool.worst_reserve = pool.reserve;\n                pool.first_reserve = pool.reserve;\n",
     "    reserve: i64,\n", "    reserve: i64,\n    first_reserve: i64,\n"),
    # ALLOCATE and TEAR
    ("allocating above the expectation", COUNTS, "let placed = short.min(self.pool[number].open);", "let placed = self.pool[number].open;"),
    ("shortfall without the units won", COUNTS, "let has = member.won[pool] + member.ever_allocated[pool];", "let has = member.ever_allocated[pool];"),
    ("shortfall without the units ever allocated", COUNTS, "let has = member.won[pool] + member.ever_allocated[pool];", "let has = member.won[pool];"),
    ("shortfall by units held now, not ever allocated", COUNTS, "let has = member.won[pool] + member.ever_allocated[pool];", "let has = member.won[pool] + member.allocated[pool];"),
    ("shortfall by the last round's units", COUNTS,
     "self.member[bid.member].won[bid.pool] += units;", "self.member[bid.member].won[bid.pool] = units;"),
    ("allocation by expected units", COUNTS,
     "split(placed, &shortfalls))", "split(placed, &self.members().zip(&shortfalls).map(|(m, s)| if *s > 0 { self.member[m].expected[number] } else { 0 }).collect::<Vec<_>>()))"),
    ("TEAR declines mark 1", COUNTS,
     "        let units = std::mem::take(&mut self.pool[pool].open);", "        if self.pool[pool].positive_mark {\n            return 9;\n        }\n        let units = std::mem::take(&mut self.pool[pool].open);"),
    ("torn units have no price", COUNTS, "        self.pool[pool].prices += units as i64 * price;\n        self.torn", "        self.torn"),
    ("allocated units have no price", COUNTS, "        pool.prices += placed as i64 * price;\n", ""),
    # Requirement and calls
    ("the requirement below 0 taken positive", COUNTS, "u64::try_from(self.losses - self.prices()).unwrap_or(0)", "(self.losses - self.prices()).unsigned_abs()"),
    ("house money not prefunded", COUNTS, "self.margin + self.fund + self.house + self.contributions", "self.margin + self.fund + self.house * 3 / 5 + self.contributions"),
    ("contributions not prefunded", COUNTS, "self.margin + self.fund + self.house + self.contributions", "self.margin + self.fund + self.house"),
    ("CALL beyond the contributions", COUNTS, "(required - ready).min(self.contributions)", "(required - ready)"),
    ("CALL of all contributions", COUNTS, "(required - ready).min(self.contributions)", "self.contributions"),
    ("CALL at the requirement met exactly", COUNTS, "if ready >= required {", "if ready > required {"),
    ("FINISH above prefunded by one", COUNTS, "if self.held_ready() < self.required() => return 13,", "if self.held_ready() + 1 < self.required() => return 13,"),
    ("CALL declined with no contribution", COUNTS, "if ready >= required {", "if ready >= required || self.contributions == 0 {"),
    ("FINISH in C held to 13", COUNTS,
     "            Some(Stage::CallsOut) if self.owing != 0 => return 15,", "            Some(Stage::CallsOut) if self.held_ready() + self.member.iter().map(|m| m.paid).sum::<u64>() < self.required() => return 13,\n            Some(Stage::CallsOut) if self.owing != 0 => return 15,"),
    ("a payment above the debt cut to it", COUNTS,
     "        if amount > owed {\n            return 14;\n        }\n", "        if owed == 0 {\n            return 14;\n        }\n        let amount = amount.min(owed);\n"),
    ("a payment in part ends the debt", COUNTS, "if amount == owed {", "if amount <= owed {"),
    ("a member may finish while it owes", COUNTS, "Some(Stage::CallsOut) if self.owing != 0 => return 15,", "Some(Stage::CallsOut) if self.owing.count_ones() > 1 => return 15,"),
    # MOVE
    ("the debt kept after an empty MOVE", COUNTS,
     "        self.move_sold(member, still_owed);\n        self.owing &= !(1 << member);", "        let before = self.prices();\n        self.move_sold(member, still_owed);\n        if still_owed < owed || self.prices() != before {\n            self.owing &= !(1 << member);\n        }"),
    ("an empty MOVE declined", COUNTS,
     "        let still_owed = self.move_allocated(member, owed);", "        if !self.bids.iter().any(|b| b.sold > 0 && b.price < 0) && !self.pool.iter().any(|p| p.allocated > 0 && p.allocated_price < 0) {\n            return 14;\n        }\n        let still_owed = self.move_allocated(member, owed);"),
    ("MOVE that saves too little keeps the debt", COUNTS,
     "        let still_owed = self.move_allocated(member, owed);\n        self.move_sold(member, still_owed);\n        self.owing &= !(1 << member);",
     "        let before = self.prices();\n        let still_owed = self.move_allocated(member, owed);\n        self.move_sold(member, still_owed);\n        if (self.prices() - before) as u64 >= owed {\n            self.owing &= !(1 << member);\n        }"),
    ("MOVE: lowest member first", COUNTS, "for holder in (0..MEMBERS).rev() {", "for holder in 0..MEMBERS {"),
    ("MOVE: lower pool first", COUNTS, "(self.pool[p].allocated_price, Reverse(p))", "(self.pool[p].allocated_price, p)"),
    ("MOVE: pool before price", COUNTS, "(self.pool[p].allocated_price, Reverse(p))", "(Reverse(p), self.pool[p].allocated_price)"),
    ("MOVE: highest price first among allocated", COUNTS, "(self.pool[p].allocated_price, Reverse(p))", "(Reverse(self.pool[p].allocated_price), Reverse(p))"),
    ("MOVE: earlier bid first", COUNTS, "(self.bids[b].price, Reverse(b))", "(self.bids[b].price, b)"),
    ("MOVE: later bid before price", COUNTS, "(self.bids[b].price, Reverse(b))", "(Reverse(b), self.bids[b].price)"),
    ("MOVE: highest price first among sold", COUNTS, "(self.bids[b].price, Reverse(b))", "(Reverse(self.bids[b].price), Reverse(b))"),
    ("MOVE: higher pool first among sold", COUNTS, "(self.bids[b].price, Reverse(b))", "(self.bids[b].price, Reverse(self.bids[b].pool), Reverse(b))"),
    ("MOVE: sold units first", COUNTS,
     "        let still_owed = self.move_allocated(member, owed);\n        self.move_sold(member, still_owed);", "        let before = self.prices();\n        self.move_sold(member, owed);\n        let still_owed = owed.saturating_sub((self.prices() - before) as u64);\n        self.move_allocated(member, still_owed);"),
    ("MOVE: no sold units", COUNTS, "        self.move_sold(member, still_owed);\n", "        let _ = still_owed;\n"),
    ("MOVE: its own allocated units stay", COUNTS,
     "                let units = units_to_move(self.member[holder].allocated[pool], price, needed);", "                if holder == to {\n                    continue;\n                }\n                let units = units_to_move(self.member[holder].allocated[pool], price, needed);"),
    ("MOVE: its own sold units stay", COUNTS, "filter(|&b| self.bids[b].sold > 0 && self.bids[b].price < 0)", "filter(|&b| self.bids[b].sold > 0 && self.bids[b].price < 0 && self.bids[b].member != to)"),
    ("MOVE: sold units of mark 1 stay", COUNTS, "filter(|&b| self.bids[b].sold > 0 && self.bids[b].price < 0)", "filter(|&b| self.bids[b].sold > 0 && self.bids[b].price < 0 && !self.pool[self.bids[b].pool].positive_mark)"),
    ("MOVE: only the last round's units", COUNTS, *ROUND_BEGINS,
     "            (0..self.bids.len()).filter(|&b| self.bids[b].sold > 0", "            (self.round_begins..self.bids.len()).filter(|&b| self.bids[b].sold > 0"),
    ("MOVE: stops before it saves too much", COUNTS, "needed.div_ceil(price.unsigned_abs())", "(needed / price.unsigned_abs())"),
    ("MOVE: one unit more where it saves exactly", COUNTS, "needed.div_ceil(price.unsigned_abs())", "(if needed == 0 { 0 } else { needed / price.unsigned_abs() + 1 })"),
    ("MOVE: by the call, not by what is owed", COUNTS, "let still_owed = self.move_allocated(member, owed);", "let still_owed = self.move_allocated(member, self.member[member].call);"),
    ("MOVE: payments come back", COUNTS, "        self.move_sold(member, still_owed);\n", "        self.move_sold(member, still_owed);\n        self.member[member].paid = 0;\n"),
    ("MOVE: saves nothing", COUNTS, "        self.pool[pool].prices += saved as i64;\n", ""),
    ("MOVE: all of a bid at once", COUNTS, "let units = units_to_move(sold, price, needed);", "let units = if needed > 0 { sold } else { 0 };"),
    ("MOVE: units still counted as sold", COUNTS, "            self.pool[pool].sold -= units;\n", ""),
    ("MOVE: units won are lowered", COUNTS, "            self.bids[number].sold -= units;\n", "            self.bids[number].sold -= units;\n            self.bids[number].won -= units;\n            let holder = self.bids[number].member;\n            self.member[holder].won[pool] -= units;\n"),
    ("MOVE: moved units count as won", COUNTS, "        self.member[to].moved[pool] += units;\n", "        self.member[to].moved[pool] += units;\n        self.member[to].won[pool] += units;\n"),
    # MISS
    ("MISS: moved units stay", COUNTS,
     "        let Member { allocated, moved, .. } = self.member[number];\n", "        let Member { allocated, .. } = self.member[number];\n        let moved = [0; POOLS];\n",
     "        self.member[number].moved = [0; POOLS];\n", ""),
    ("MISS: allocated units stay", COUNTS,
     "        let Member { allocated, moved, .. } = self.member[number];\n", "        let Member { moved, .. } = self.member[number];\n        let allocated = [0; POOLS];\n",
     "        self.member[number].allocated = [0; POOLS];\n", ""),
    ("MISS: keeps the old prices", COUNTS, "            pool.prices -= allocated[p] as i64 * pool.allocated_price;\n", ""),
    ("MISS: ends the debt", COUNTS, "        self.member[number].moved = [0; POOLS];\n", "        self.member[number].moved = [0; POOLS];\n        self.owing &= !(1 << number);\n"),
    ("MISS: units ever allocated fall away", COUNTS, "        self.member[number].moved = [0; POOLS];\n", "        self.member[number].moved = [0; POOLS];\n        self.member[number].ever_allocated = [0; POOLS];\n"),
    ("MISS: in A alone", COUNTS, "if !self.is_after() && self.stage != Some(Stage::CallsOut) {", "if !self.is_after() {"),
    ("MISS: in C alone", COUNTS, "if !self.is_after() && self.stage != Some(Stage::CallsOut) {", "if self.stage != Some(Stage::CallsOut) {"),
    ("MISS: one pool alone", COUNTS, "        for p in 0..self.pools {\n            let pool = &mut self.pool[p];\n", "        for p in 0..1 {\n            let pool = &mut self.pool[p];\n"),
    ("MISS: units become open again", COUNTS, "                self.tear_units(p, price, allocated[p] + moved[p]);\n", "                self.pool[p].open += allocated[p] + moved[p];\n"),
    ("MISS: accepted with nothing to tear", COUNTS, "            return 16;\n", "            return 0;\n"),
    # Rank
    ("allocated units counted as won", COUNTS,
     "            won: self.member[member].won.iter().sum(),", "            won: self.member[member].won.iter().sum::<u64>() + self.member[member].ever_allocated.iter().sum::<u64>(),"),
    ("the average price rounded before comparing", COUNTS,
     "            premium: own.map(premium).sum(),", "            premium: own.map(premium).sum::<u64>() / self.member[member].won.iter().sum::<u64>().max(1) * self.member[member].won.iter().sum::<u64>(),"),
    ("with nothing won a member ties with all", COUNTS, "let (a_won, b_won) = (a.won.max(1), b.won.max(1));", "let (a_won, b_won) = (a.won, b.won);"),
    ("no categories", COUNTS, "            (Some(_), None) => Ordering::Greater,\n            (None, Some(_)) => Ordering::Less,\n", "            (Some(_), None) | (None, Some(_)) => average,\n"),
    ("A: the average without the excess", COUNTS, "let left = a.premium * a_excess * b_won;\n                let right = b.premium * b_excess * a_won;", "let left = a.premium * b_won;\n                let right = b.premium * a_won;"),
    ("A: the premium without the divisor", COUNTS, "let left = a.premium * a_excess * b_won;\n                let right = b.premium * b_excess * a_won;", "let left = a.premium * a_excess;\n                let right = b.premium * b_excess;"),
    ("A: no second criterion", COUNTS, ".then(a_excess.cmp(&b_excess))", ""),
    ("A: no third criterion", COUNTS, "left.cmp(&right).then(a_excess.cmp(&b_excess)).then(average)", "left.cmp(&right).then(a_excess.cmp(&b_excess))"),
    ("A: lower excess first", COUNTS, ".then(a_excess.cmp(&b_excess))", ".then(b_excess.cmp(&a_excess))"),
    ("B: the average times the deficit", COUNTS, "let left = a.premium * b_won * b_deficit;\n                let right = b.premium * a_won * a_deficit;", "let left = a.premium * b_won * a_deficit;\n                let right = b.premium * a_won * b_deficit;"),
    ("B: no second criterion", COUNTS, ".then(b_deficit.cmp(&a_deficit))", ""),
    ("B: higher deficit first", COUNTS, ".then(b_deficit.cmp(&a_deficit))", ".then(a_deficit.cmp(&b_deficit))"),
    ("B: like A", COUNTS, "let left = a.premium * b_won * b_deficit;\n                let right = b.premium * a_won * a_deficit;", "let left = a.premium * b_won;\n                let right = b.premium * a_won;"),
    ("excess in the first pool alone", COUNTS, "            expected: counted.map(|p| self.member[member].expected[p]).sum(),", "            expected: counted.take(1).map(|p| self.member[member].expected[p]).sum(),"),
    ("deficits of one pool not netted", COUNTS, "            expected: counted.map(|p| self.member[member].expected[p]).sum(),", "            expected: counted.map(|p| self.member[member].expected[p].min(self.member[member].won[p])).sum(),"),
    ("ranks without gaps", COUNTS,
     "                ranks[i] = seniors as u64 + 1;", "                ranks[i] = by_seniority[..seniors].chunk_by(equal).count() as u64 + 1;"),
    ("ranks of equals by member", COUNTS, "is_eq();\n        let mut seniors", "is_eq() && a == b;\n        let mut seniors"),
    # Layers
    ("contributions from the most senior rank", COUNTS,
     "        let mut seniors = members.len();\n        for group in by_seniority.chunk_by(equal).rev() {\n            seniors -= group.len();",
     "        let mut passed = 0;\n        for group in by_seniority.chunk_by(equal) {\n            let seniors = passed;\n            passed += group.len();"),
    ("an equal rank charged member after member", COUNTS, "zip(split(charged, &weights)) {\n                ranks", "zip(weights.iter().scan(charged, |rest, &w| { let c = w.min(*rest); *rest -= c; Some(c) })) {\n                ranks"),
    ("an equal rank charged evenly", COUNTS, "zip(split(charged, &weights)) {\n                ranks", "zip(split(charged, &vec![1; weights.len()])) {\n                ranks"),
    ("payments before the second tranche", COUNTS,
     "        outcome.charges[4] = layers.charge(self.house - first_tranche);\n        let payments: Vec<u64> = members.iter().map(|&m| self.member[m].paid).collect();\n        outcome.charges[5] = layers.charge(payments.iter().sum());\n",
     "        let payments: Vec<u64> = members.iter().map(|&m| self.member[m].paid).collect();\n        outcome.charges[5] = layers.charge(payments.iter().sum());\n        outcome.charges[4] = layers.charge(self.house - first_tranche);\n"),
    ("the second tranche before contributions", COUNTS,
     "        outcome.charges[2] = layers.charge(first_tranche);\n", "        outcome.charges[2] = layers.charge(first_tranche);\n        outcome.charges[4] = layers.charge(self.house - first_tranche);\n",
     "        outcome.charges[4] = layers.charge(self.house - first_tranche);\n        let payments", "        let payments"),
    ("the fund before the margin", COUNTS,
     "        outcome.charges[0] = layers.charge(self.margin);\n        outcome.charges[1] = layers.charge(self.fund);\n", "        outcome.charges[1] = layers.charge(self.fund);\n        outcome.charges[0] = layers.charge(self.margin);\n"),
    ("tranches rounded up", COUNTS, "self.house * 3 / 5", "(self.house * 3).div_ceil(5)"),
    ("tranches from fifths", COUNTS, "self.house * 3 / 5", "self.house / 5 * 3"),
    ("tranches changed about", COUNTS, "self.house * 3 / 5", "self.house * 2 / 5"),
    ("payments split by contribution", COUNTS, "let on_payments = split(outcome.charges[5], &payments);", "let on_payments = split(outcome.charges[5], &members.iter().map(|&m| self.member[m].contribution).collect::<Vec<_>>());"),
    ("payments split by call", COUNTS, "let on_payments = split(outcome.charges[5], &payments);", "let on_payments = split(outcome.charges[5], &members.iter().map(|&m| self.member[m].call).collect::<Vec<_>>());"),
    ("the loss without what is uncovered", COUNTS, "        outcome.uncovered = layers.rest;\n", "        outcome.uncovered = layers.rest;\n        outcome.loss -= layers.rest;\n"),
    # Sale by agreement
    ("SALE: 17 without the other sales", COUNTS, "if self.losses - prices > (self.margin", "if self.losses - units as i64 * price > (self.margin"),
    ("SALE: 17 without the gains of other sales", COUNTS, "if self.losses - prices > (self.margin", "if self.losses - (self.prices().min(0) + units as i64 * price) > (self.margin"),
    ("SALE: 17 by the other sales alone", COUNTS, "if self.losses - prices > (self.margin", "if self.losses - self.prices() > (self.margin"),
    ("SALE: 17 by one unit's price", COUNTS, "if self.losses - prices > (self.margin", "if self.losses - self.prices() - price > (self.margin"),
    ("SALE: 17 without the losses", COUNTS, "if self.losses - prices > (self.margin", "if -prices > (self.margin"),
    ("SALE: 17 at equality", COUNTS, "if self.losses - prices > (self.margin", "if self.losses - prices >= (self.margin"),
    ("SALE: 17 one cent late", COUNTS, "if self.losses - prices > (self.margin", "if self.losses - prices - 1 > (self.margin"),
    ("SALE: a gain is never 17", COUNTS, "if self.losses - prices > (self.margin", "if price < 0 && self.losses - prices > (self.margin"),
    ("SALE: 17 by the margin alone", COUNTS, "> (self.margin + self.fund) as i64 {", "> self.margin as i64 {"),
    ("SALE: 17 by all that is prefunded", COUNTS, "> (self.margin + self.fund) as i64 {", "> self.held_ready() as i64 {"),
    ("SALE: 17 by the first tranche too", COUNTS, "> (self.margin + self.fund) as i64 {", "> (self.margin + self.fund + self.house * 3 / 5) as i64 {"),
    ("SALE: what is lost in 32 bits", COUNTS, "if self.losses - prices > (self.margin", "if (self.losses - prices) % (1 << 32) > (self.margin"),
    ("SALE: margin and fund in 32 bits", COUNTS, "> (self.margin + self.fund) as i64 {", "> ((self.margin + self.fund) % (1 << 32)) as i64 {"),
    ("SALE: 10 before 8", COUNTS,
     "        if units == 0 {\n            return 8;\n        }\n        if self.pools_given < self.pools || self.members_given != self.set {\n            return 10;\n        }\n        // In",
     "        if self.pools_given < self.pools || self.members_given != self.set {\n            return 10;\n        }\n        if units == 0 {\n            return 8;\n        }\n        // In"),
    ("SALE: 17 before 10", COUNTS,
     "        let units = self.pool[number].open;\n        if units == 0 {\n            return 8;\n        }\n",
     "        let units = self.pool[number].open;\n        if units == 0 {\n            return 8;\n        }\n        if self.losses - self.prices() - units as i64 * price > (self.margin + self.fund) as i64 {\n            return 17;\n        }\n"),
    ("SALE: 8 before 5", COUNTS,
     "        if !price_fits(price) {\n            return 5;\n        }\n        let units = self.pool[number].open;\n        if units == 0 {\n            return 8;\n        }\n",
     "        let units = self.pool[number].open;\n        if units == 0 {\n            return 8;\n        }\n        if !price_fits(price) {\n            return 5;\n        }\n"),
    ("SALE: 5 before 4", COUNTS,
     "        if !self.has_member(member) {\n            return 4;\n        }\n        if !price_fits(price) {\n            return 5;\n        }\n        let units",
     "        if !price_fits(price) {\n            return 5;\n        }\n        if !self.has_member(member) {\n            return 4;\n        }\n        let units"),
    ("SALE: 4 before 3", COUNTS,
     "        if number >= self.pools {\n            return 3;\n        }\n        if !self.has_member(member) {\n            return 4;\n        }\n        if !price_fits(price) {\n            return 5;\n        }\n        let units",
     "        if !self.has_member(member) {\n            return 4;\n        }\n        if number >= self.pools {\n            return 3;\n        }\n        if !price_fits(price) {\n            return 5;\n        }\n        let units"),
    ("SALE: a pool not given is 3", COUNTS,
     "price_at(value, 2));\n        if number >= self.pools {", "price_at(value, 2));\n        if number >= self.pools_given {"),
    ("SALE: a member not given is 4", COUNTS,
     "        if !self.has_member(member) {\n            return 4;\n        }\n        if !price_fits(price) {\n            return 5;\n        }\n        let units",
     "        if !self.has_member(member) || self.members_given >> member & 1 == 0 {\n            return 4;\n        }\n        if !price_fits(price) {\n            return 5;\n        }\n        let units"),
    ("SALE: a pool so sold may be sold again", COUNTS,
     "        let units = self.pool[number].open;\n        if units == 0 {",
     "        let units = self.pool[number].open + self.pool[number].sold;\n        if units == 0 {",
     "        let prices = self.prices() + units as i64 * price;\n",
     "        let before = self.pool[number].agreed.map_or(0, |a| a.units as i64 * a.price);\n        let prices = self.prices() - before + units as i64 * price;\n",
     "        pool.prices += units as i64 * price;\n", "        pool.prices = units as i64 * price;\n"),
    ("SALE: before all is given", COUNTS,
     "        if self.pools_given < self.pools || self.members_given != self.set {\n            return 10;\n        }\n        // In", "        // In"),
    ("SALE: forgets missing members", COUNTS, "        if self.pools_given < self.pools || self.members_given != self.set {\n            return 10;\n        }\n        // In", "        if self.pools_given < self.pools {\n            return 10;\n        }\n        // In"),
    ("SALE: forgets missing pools", COUNTS, "        if self.pools_given < self.pools || self.members_given != self.set {\n            return 10;\n        }\n        // In", "        if self.members_given != self.set {\n            return 10;\n        }\n        // In"),
    ("SALE: mark 1 declined", COUNTS, "        // In stage S no unit", "        if self.pool[number].positive_mark {\n            return 9;\n        }\n        // In stage S no unit"),
    ("SALE: a pool below the least bid declined", COUNTS, "        let units = self.pool[number].open;\n        if units == 0 {", "        let units = self.pool[number].open;\n        if units < self.least_bid && units > 0 {\n            return 6;\n        }\n        if units == 0 {"),
    ("SALE: takes a place among the 256 bids", COUNTS, "if self.bids.len() >= BIDS_LIMIT {", "if self.bids.len() + self.pool.iter().filter(|p| p.agreed.is_some()).count() >= BIDS_LIMIT {"),
    ("SALE: the stage stays S with no unit open", COUNTS, "        if !self.any_open() {\n            self.stage = Some(Stage::After(1));\n        }\n", ""),
    ("SALE: the stage becomes A1 at once", COUNTS, "        if !self.any_open() {\n            self.stage = Some(Stage::After(1));\n        }\n", "        self.stage = Some(Stage::After(1));\n"),
    ("SALE: the stage becomes A2 with no unit open", COUNTS, "            self.stage = Some(Stage::After(1));\n", "            self.stage = Some(Stage::After(2));\n"),
    ("SALE: ROUND accepted after the last", COUNTS, "if round == 2 && !self.any_open() {", "if round == 2 && !self.any_open() && self.pool[..self.pools].iter().any(|p| p.agreed.is_none()) {"),
    ("SALE: ROUND is 8 after the last whatever its reserves", COUNTS,
     "        if !(0..self.pools).all(|pool| price_fits(reserve(pool))) {", "        if self.pool[..self.pools].iter().all(|p| p.agreed.is_some()) {\n            return 8;\n        }\n        if !(0..self.pools).all(|pool| price_fits(reserve(pool))) {"),
    ("SALE: the reserve of a pool so sold is not held to its range", COUNTS,
     ".all(|pool| price_fits(reserve(pool)))", ".all(|p| price_fits(reserve(p)) || self.pool[p].agreed.is_some())"),
    ("SALE: allowed after a round", COUNTS,
     "    fn sell_by_agreement(&mut self, value: &[u8]) -> u8 {\n        if self.stage != Some(Stage::Setup) {", "    fn sell_by_agreement(&mut self, value: &[u8]) -> u8 {\n        if self.stage != Some(Stage::Setup) && self.stage != Some(Stage::After(1)) {"),
    ("SALE: a bid in a pool so sold is kept", COUNTS,
     "        if self.pool[pool].open == 0 {\n            return 8;\n        }\n        self.bids", "        if self.pool[pool].open == 0 && self.pool[pool].agreed.is_none() {\n            return 8;\n        }\n        self.bids"),
    ("SALE: units counted as allocated", COUNTS, "        pool.sold = units;\n", "        pool.allocated = units;\n"),
    ("SALE: the prices are not in the sum", COUNTS, "        pool.prices += units as i64 * price;\n", ""),
    ("SALE: MOVE takes units so sold before those of bids", COUNTS,
     "    fn move_sold(&mut self, to: usize, mut needed: u64) {\n",
     "    fn move_sold(&mut self, to: usize, mut needed: u64) {\n        for p in 0..self.pools {\n            if let Some(a) = self.pool[p].agreed.filter(|a| a.price < 0) {\n                let units = units_to_move(a.units, a.price, needed);\n                self.pool[p].agreed = Some(Agreed { units: a.units - units, ..a });\n                self.pool[p].sold -= units;\n                needed = self.take_over(to, p, a.price, units, needed);\n            }\n        }\n"),
    ("SALE: MOVE takes units so sold where nothing else is left", COUNTS,
     "            self.bids[number].sold -= units;\n            self.pool[pool].sold -= units;\n            needed = self.take_over(to, pool, price, units, needed);\n        }\n",
     "            self.bids[number].sold -= units;\n            self.pool[pool].sold -= units;\n            needed = self.take_over(to, pool, price, units, needed);\n        }\n        for p in 0..self.pools {\n            if let Some(a) = self.pool[p].agreed.filter(|a| a.price < 0) {\n                let units = units_to_move(a.units, a.price, needed);\n                self.pool[p].agreed = Some(Agreed { units: a.units - units, ..a });\n                self.pool[p].sold -= units;\n                needed = self.take_over(to, p, a.price, units, needed);\n            }\n        }\n"),
    ("SALE: MOVE counts what units so sold would save", COUNTS,
     "        let still_owed = self.move_allocated(member, owed);\n",
     "        let own: u64 = self.pool.iter().filter_map(|p| p.agreed).filter(|a| a.member == member && a.price < 0).map(|a| a.units * a.price.unsigned_abs()).sum();\n        let still_owed = self.move_allocated(member, owed.saturating_sub(own));\n"),
    ("SALE: MISS tears units so sold", COUNTS,
     "        for p in 0..self.pools {\n            let pool = &mut self.pool[p];\n            pool.allocated -= allocated[p];\n",
     "        for p in 0..self.pools {\n            if let Some(a) = self.pool[p].agreed.take_if(|a| a.member == number) {\n                self.pool[p].sold -= a.units;\n                self.pool[p].prices -= a.units as i64 * a.price;\n                self.tear_units(p, price, a.units);\n            }\n            let pool = &mut self.pool[p];\n            pool.allocated -= allocated[p];\n"),
    ("SALE: MISS accepted for units so sold alone", COUNTS,
     "        if allocated == [0; POOLS] && moved == [0; POOLS] {", "        if allocated == [0; POOLS] && moved == [0; POOLS] && !self.pool.iter().any(|p| p.agreed.is_some_and(|a| a.member == number)) {"),
    ("SALE: units expected in the pool count for rank", COUNTS, "let counted = (0..POOLS).filter(|&p| self.pool[p].agreed.is_none());", "let counted = 0..POOLS;"),
    ("SALE: the buyer's expected units alone fall away", COUNTS, "filter(|&p| self.pool[p].agreed.is_none());", "filter(|&p| self.pool[p].agreed.is_none_or(|a| a.member != member));"),
    ("SALE: all but the buyer's expected units fall away", COUNTS, "filter(|&p| self.pool[p].agreed.is_none());", "filter(|&p| self.pool[p].agreed.is_none_or(|a| a.member == member));"),
    ("SALE: units so sold count as won", COUNTS, "        pool.agreed = Some(Agreed { member, price, units });\n", "        pool.agreed = Some(Agreed { member, price, units });\n        self.member[member].won[number] = units;\n"),
    ("SALE: of any length from 6 on", COUNTS, "14 => length == 6,", "14 => length >= 6,"),
    ("tag 15 is a SALE", COUNTS, "15 => length == 3,", "15 => length == 6,", "14 => self.sell_by_agreement(value),", "14 | 15 => self.sell_by_agreement(value),"),
    ("tag 16 is a SALE", COUNTS, "14 => length == 6,", "14 | 16 => length == 6,", "14 => self.sell_by_agreement(value),", "14 | 16 => self.sell_by_agreement(value),"),
    # Taking back a bid
    ("WITHDRAW: accepted and changes nothing", COUNTS, TAKEN_BACK, "        let _ = place;\n"),
    ("WITHDRAW: the bid is still allotted", COUNTS, *NOTED_ALONE),
    ("WITHDRAW: the bid counts among the valid units alone", COUNTS, *NOTED_ALONE,
     "                self.sell(number, units);\n", "                if !self.withdrawn.contains(&number) {\n                    self.sell(number, units);\n                }\n"),
    ("WITHDRAW: what the bid would have won goes to the bid after it", COUNTS, *NOTED_ALONE,
     "                self.sell(number, units);\n", "                let next = numbers.iter().copied().find(|n| *n >= number && !self.withdrawn.contains(n));\n                if let Some(n) = next {\n                    let before = self.bids[n].won;\n                    self.sell(n, units);\n                    self.bids[n].won += before;\n                    self.bids[n].sold += before;\n                }\n"),
    ("WITHDRAW: the place comes free", COUNTS, *NOTED, "if self.bids.len() >= BIDS_LIMIT {", "if self.bids.len() - self.withdrawn.len() >= BIDS_LIMIT {"),
    ("WITHDRAW: the place comes free in the second round", COUNTS, *NOTED,
     "if self.bids.len() >= BIDS_LIMIT {", "if self.bids.len() - if self.stage == Some(Stage::Bidding(2)) { self.withdrawn.len() } else { 0 } >= BIDS_LIMIT {"),
    ("WITHDRAW: the numbers of later bids move down", COUNTS, *NOTED,
     "if self.bids.len() >= BIDS_LIMIT {", "if self.bids.len() + self.withdrawn.len() >= BIDS_LIMIT {",
     "        self.withdrawn.push(number);\n", "        self.withdrawn.push(number);\n        self.bids.remove(number);\n        self.to_allot.iter_mut().filter(|n| **n > number).for_each(|n| *n -= 1);\n"),
    ("WITHDRAW: the number is given again", COUNTS, *NOTED,
     KEPT, "        if let Some(number) = self.withdrawn.pop() {\n            self.bids[number] = Bid { pool, member, units, price, won: 0, sold: 0 };\n            let place = self.to_allot.partition_point(|n| *n < number);\n            self.to_allot.insert(place, number);\n            return 0;\n        }\n" + KEPT),
    ("WITHDRAW: the number is given again where the last bid is withdrawn", COUNTS, TAKEN_BACK, TAKEN_BACK + "        if number + 1 == self.bids.len() {\n            self.bids.pop();\n        }\n"),
    ("WITHDRAW: a bid sent again has its old place among those at its price", COUNTS, *NOTED,
     "            let numbers: Vec<usize> =\n", "            let mut numbers: Vec<usize> =\n",
     "            let offers: Vec<(u64, i64)> =\n", "            let like = |a: &Bid, b: &Bid| (a.pool, a.member, a.units, a.price) == (b.pool, b.member, b.units, b.price);\n            numbers.sort_by_key(|&n| self.withdrawn.iter().copied().filter(|&o| o < n && like(&self.bids[o], &self.bids[n])).min().unwrap_or(n));\n            let offers: Vec<(u64, i64)> =\n"),
    ("WITHDRAW: the last bid takes the place of the one withdrawn", COUNTS, TAKEN_BACK, "        self.to_allot.swap_remove(place);\n"),
    ("WITHDRAW: a bid of the first round in the second", COUNTS, *ROUND_BEGINS,
     NOT_FOUND, "binary_search(&number) else {\n            return if number < self.round_begins && self.bids[number].member == member { 0 } else { 18 };\n"),
    ("WITHDRAW: a bid of the first round that won nothing in the second", COUNTS, *ROUND_BEGINS,
     NOT_FOUND, "binary_search(&number) else {\n            return if number < self.round_begins && self.bids[number].member == member && self.bids[number].won == 0 { 0 } else { 18 };\n"),
    ("WITHDRAW: another member's bid", COUNTS, "        if self.bids[number].member != member {\n            return 18;\n        }\n", ""),
    ("WITHDRAW: another member's bid is 4", COUNTS, "        if self.bids[number].member != member {\n            return 18;\n", "        if self.bids[number].member != member {\n            return 4;\n"),
    ("WITHDRAW: a second one accepted", COUNTS, *NOTED, "let to_allot = std::mem::take(&mut self.to_allot);", "self.withdrawn.clear();\n        let to_allot = std::mem::take(&mut self.to_allot);",
     NOT_FOUND, "binary_search(&number) else {\n            return if self.withdrawn.contains(&number) && self.bids[number].member == member { 0 } else { 18 };\n"),
    ("WITHDRAW: a second one brings the bid back", COUNTS, *NOTED, "let to_allot = std::mem::take(&mut self.to_allot);", "self.withdrawn.clear();\n        let to_allot = std::mem::take(&mut self.to_allot);",
     NOT_FOUND, "binary_search(&number) else {\n            if self.withdrawn.contains(&number) && self.bids[number].member == member {\n                self.withdrawn.retain(|n| *n != number);\n                let place = self.to_allot.partition_point(|n| *n < number);\n                self.to_allot.insert(place, number);\n                return 0;\n            }\n            return 18;\n"),
    ("WITHDRAW: the bid comes back in the second round", COUNTS, *NOTED,
     "        self.stage = Some(Stage::After(round));\n", "        self.to_allot = std::mem::take(&mut self.withdrawn);\n        self.stage = Some(Stage::After(round));\n"),
    ("WITHDRAW: a number that no bid has before 4", COUNTS,
     MEMBER_OF_WITHDRAW, "        let Ok(place)",
     "        if self.bids[number].member != member {\n            return 18;\n        }\n", "        if !self.has_member(member) {\n            return 4;\n        }\n        if self.bids[number].member != member {\n            return 18;\n        }\n"),
    ("WITHDRAW: the member is not checked", COUNTS, MEMBER_OF_WITHDRAW, "        let Ok(place)"),
    ("WITHDRAW: a member past 31 taken modulo 32", COUNTS, NUMBER, NUMBER.replace("usize::from(value[0])", "usize::from(value[0] % 32)")),
    ("WITHDRAW: a number past 255 before 4", COUNTS, MEMBER_OF_WITHDRAW, "        if number > 255 {\n            return 18;\n        }\n" + MEMBER_OF_WITHDRAW),
    ("WITHDRAW: a number past 255 is 5", COUNTS, "        let Ok(place)", "        if number > 255 {\n            return 5;\n        }\n        let Ok(place)"),
    ("WITHDRAW: a number past 255 is 7", COUNTS, "        let Ok(place)", "        if number > 255 {\n            return 7;\n        }\n        let Ok(place)"),
    ("WITHDRAW: a number past 255 is 1", COUNTS, "15 => length == 3,", "15 => length == 3 && !self.number_is_far,", "    to_allot: Vec<usize>,\n", "    to_allot: Vec<usize>,\n    number_is_far: bool,\n",
     "        if !self.length_fits(tag, value.len()) {\n", "        self.number_is_far = tag == 15 && value.len() == 3 && value[1] > 0;\n        if !self.length_fits(tag, value.len()) {\n"),
    ("WITHDRAW: the number by its last byte", COUNTS, NUMBER, NUMBER.replace("u16_at(value, 1)", "value[2]")),
    ("WITHDRAW: the number by its first byte", COUNTS, NUMBER, NUMBER.replace("u16_at(value, 1)", "value[1]")),
    ("WITHDRAW: the number's bytes exchanged", COUNTS, NUMBER, NUMBER.replace("u16_at(value, 1)", "u16_at(value, 1).swap_bytes()")),
    ("WITHDRAW: the number before the member", COUNTS, NUMBER, "let (member, number) = (usize::from(value[2]), usize::from(u16_at(value, 0)));\n"),
    ("WITHDRAW: numbers from 1", COUNTS, "binary_search(&number) else {", "binary_search(&number.wrapping_sub(1)) else {", "if self.bids[number].member != member {", "if self.bids[number - 1].member != member {"),
    ("WITHDRAW: numbers from the round's first bid", COUNTS, *ROUND_BEGINS, NUMBER, NUMBER + "        let number = number + self.round_begins;\n"),
    ("WITHDRAW: numbers among the bids of the pool", COUNTS, NUMBER, NUMBER + "        let number = (0..self.bids.len()).filter(|&n| self.bids[n].pool == 0).nth(number).unwrap_or(number);\n"),
    ("WITHDRAW: numbers among the member's bids", COUNTS, NUMBER, NUMBER + "        let number = (0..self.bids.len()).filter(|&n| self.bids[n].member == member).nth(number).unwrap_or(999);\n"),
    ("WITHDRAW: 2 before 1", COUNTS, "15 => length == 3,", "15 => length == 3 || !self.is_bidding(),"),
    ("WITHDRAW: 4 before 2", COUNTS, "    fn withdraw(&mut self, value: &[u8]) -> u8 {\n", "    fn withdraw(&mut self, value: &[u8]) -> u8 {\n        if self.stage.is_some() && !self.has_member(value[0].into()) {\n            return 4;\n        }\n"),
    ("WITHDRAW: 18 after the cut-off", COUNTS, "    fn withdraw(&mut self, value: &[u8]) -> u8 {\n        if !self.is_bidding() {", "    fn withdraw(&mut self, value: &[u8]) -> u8 {\n        if !self.is_bidding() && !self.is_after() {"),
    ("WITHDRAW: 18 before the round", COUNTS, "    fn withdraw(&mut self, value: &[u8]) -> u8 {\n        if !self.is_bidding() {", "    fn withdraw(&mut self, value: &[u8]) -> u8 {\n        if !self.is_bidding() && self.stage != Some(Stage::Setup) {"),
    ("WITHDRAW: in the first round alone", COUNTS, "    fn withdraw(&mut self, value: &[u8]) -> u8 {\n        if !self.is_bidding() {", "    fn withdraw(&mut self, value: &[u8]) -> u8 {\n        if self.stage != Some(Stage::Bidding(1)) {"),
    ("WITHDRAW: in the second round alone", COUNTS, "    fn withdraw(&mut self, value: &[u8]) -> u8 {\n        if !self.is_bidding() {", "    fn withdraw(&mut self, value: &[u8]) -> u8 {\n        if self.stage != Some(Stage::Bidding(2)) {"),
    ("WITHDRAW: with 256 kept it is 7", COUNTS, "        let Ok(place)", "        if self.bids.len() >= BIDS_LIMIT {\n            return 7;\n        }\n        let Ok(place)"),
    ("WITHDRAW: bid 255 is 18", COUNTS, "        let Ok(place)", "        if number >= 255 {\n            return 18;\n        }\n        let Ok(place)"),
    ("WITHDRAW: once in a round", COUNTS, *WITHDRAWN, TAKEN_BACK, "        if !self.withdrawn.is_empty() {\n            return 18;\n        }\n        self.withdrawn.push(number);\n" + TAKEN_BACK,
     "let to_allot = std::mem::take(&mut self.to_allot);", "self.withdrawn.clear();\n        let to_allot = std::mem::take(&mut self.to_allot);"),
    ("WITHDRAW: the last bid alone", COUNTS, TAKEN_BACK, "        if number + 1 != self.bids.len() {\n            return 18;\n        }\n" + TAKEN_BACK),
    ("WITHDRAW: the round's only standing bid is 18", COUNTS, TAKEN_BACK, "        if self.to_allot.len() == 1 {\n            return 18;\n        }\n" + TAKEN_BACK),
    ("WITHDRAW: a bid below the reserve is 18", COUNTS, TAKEN_BACK, "        if self.bids[number].price < self.pool[self.bids[number].pool].reserve {\n            return 18;\n        }\n" + TAKEN_BACK),
    ("WITHDRAW: all bids of the member", COUNTS, TAKEN_BACK, TAKEN_BACK + "        self.to_allot.retain(|&n| self.bids[n].member != member);\n"),
    ("WITHDRAW: all bids of the member in the pool", COUNTS, TAKEN_BACK, TAKEN_BACK + "        let pool = self.bids[number].pool;\n        self.to_allot.retain(|&n| (self.bids[n].member, self.bids[n].pool) != (member, pool));\n"),
    ("WITHDRAW: all bids like it", COUNTS, TAKEN_BACK, TAKEN_BACK + "        let bid = self.bids[number];\n        self.to_allot.retain(|&n| self.bids[n] != bid);\n"),
    ("WITHDRAW: later bids too", COUNTS, TAKEN_BACK, "        self.to_allot.truncate(place);\n"),
    ("WITHDRAW: the units count as won", COUNTS, TAKEN_BACK, TAKEN_BACK + "        let Bid { pool, units, .. } = self.bids[number];\n        self.member[member].won[pool] += units;\n"),
    ("WITHDRAW: the premium counts", COUNTS, TAKEN_BACK, TAKEN_BACK + "        self.bids[number].won = self.bids[number].units;\n"),
    ("WITHDRAW: the units are no longer expected", COUNTS, TAKEN_BACK, TAKEN_BACK + "        let Bid { pool, units, .. } = self.bids[number];\n        let expected = &mut self.member[member].expected[pool];\n        *expected = expected.saturating_sub(units);\n"),
    ("WITHDRAW: the prices are in the sum", COUNTS, TAKEN_BACK, TAKEN_BACK + "        self.pool[self.bids[number].pool].prices += self.bids[number].units as i64 * self.bids[number].price;\n"),
    ("WITHDRAW: the round is closed with its last bid", COUNTS, TAKEN_BACK, TAKEN_BACK + "        if self.to_allot.is_empty() {\n            return self.close();\n        }\n"),
    ("WITHDRAW: a pool whose bids are gone has no reserve in the round", COUNTS, *NOTED,
     "        self.stage = Some(Stage::After(round));\n        0",
     "        if round == 2 {\n            for p in 0..self.pools {\n                let gone = self.withdrawn.iter().any(|&n| self.bids[n].pool == p);\n                if gone && !to_allot.iter().any(|&n| self.bids[n].pool == p) {\n                    self.pool[p].worst_reserve = self.pool[p].first_reserve;\n                }\n            }\n        }\n        self.withdrawn.clear();\n        self.stage = Some(Stage::After(round));\n        0",
     "                pool.worst_reserve = pool.reserve;\n", "                pool.worst_reserve = pool.reserve;\n                pool.first_reserve = pool.reserve;\n",
     "    reserve: i64,\n", "    reserve: i64,\n    first_reserve: i64,\n"),
    ("WITHDRAW: of any length from 3 on", COUNTS, "15 => length == 3,", "15 => length >= 3,"),
    ("WITHDRAW: a number of one byte", COUNTS, "15 => length == 3,", "15 => length == 2,", NUMBER, NUMBER.replace("u16_at(value, 1)", "value[1]")),
    ("tag 16 is a WITHDRAW", COUNTS, "15 => length == 3,", "15 | 16 => length == 3,"),
    ("tag 15 is no call", COUNTS, "            15 => length == 3,\n", ""),
    # Widths
    ("asked units in 16 bits", AUCTION, "level.iter().map(|&i| u128::from(bids[i].0)).sum();", "level.iter().map(|&i| u128::from(bids[i].0)).sum::<u128>() % 65_536;"),
    ("premium in 32 bits", COUNTS, "premium: own.map(premium).sum(),", "premium: own.map(premium).sum::<u64>() % (1 << 32),"),
    ("requirement in 32 bits", COUNTS, "u64::try_from(self.losses - self.prices()).unwrap_or(0)", "u64::try_from(self.losses - self.prices()).unwrap_or(0) % (1 << 32)"),
    ("prefunded in 32 bits", COUNTS, "self.margin + self.fund + self.house + self.contributions", "(self.margin + self.fund + self.house + self.contributions) % (1 << 32)"),
    ("all contributions in 32 bits", COUNTS, "self.contributions += contribution;", "self.contributions = (self.contributions + contribution) % (1 << 32);"),
    ("contributions of a rank in 32 bits", COUNTS, "layers.charge(weights.iter().sum());", "layers.charge(weights.iter().sum::<u64>() % (1 << 32));"),
    ("sum of prices in 32 bits", COUNTS, "u64::try_from(self.losses - self.prices()).unwrap_or(0)", "u64::try_from(self.losses - i64::from(self.prices() as i32)).unwrap_or(0)"),
    ("three times house money in 32 bits", COUNTS, "self.house * 3 / 5", "self.house * 3 % (1 << 32) / 5"),
    ("rank products in 32 bits", COUNTS, "let left = a.premium * a_excess * b_won;\n                let right = b.premium * b_excess * a_won;", "let left = a.premium * a_excess * b_won % (1 << 32);\n                let right = b.premium * b_excess * a_won % (1 << 32);"),
    ("rank products in 52 bits", COUNTS, "let left = a.premium * a_excess * b_won;\n                let right = b.premium * b_excess * a_won;", "let left = a.premium * a_excess * b_won % (1 << 52);\n                let right = b.premium * b_excess * a_won % (1 << 52);"),
    ("split products in 32 bits", SPLIT, "u128::from(q) * u128::from(w)", "u128::from(q) * u128::from(w) % (1 << 32)"),
    ("split products in 61 bits", SPLIT, "u128::from(q) * u128::from(w)", "u128::from(q) * u128::from(w) % (1 << 61)"),
    # The program's text
    ("p for HEAD's pools", COUNTS, "        self.pools_given as u8\n", "        self.pools as u8\n"),
    ("a lone tag prints nothing", TEXT, "    if end > 0 {\n", "    if end > 1 {\n"),
    ("a cut-off value prints nothing", TEXT, "    if end > 0 {\n", "    if end > 0 && end < 4 {\n"),
    ("a long field swallows what follows it", TEXT, "            start += size;\n", "            start += size;\n            if size > 40_000 { start = end; }\n"),
    ("three-digit tags cut", TEXT, "b'0' + number / 100", "b'0' + number / 200"),
    ("lengths read in the wrong order", FIELD, "3 + usize::from(u16_at(bytes, 1))", "3 + usize::from(u16::from_le_bytes([bytes[1], bytes[2]]))"),
    ("lengths of one byte", FIELD, "3 + usize::from(u16_at(bytes, 1))", "3 + usize::from(bytes[2])"),
    ("HEAD opens a new case after FINISH", COUNTS, "        if self.stage.is_some() {\n            return 2;\n        }\n", "        if self.stage == Some(Stage::Finished) {\n            *self = Counts::default();\n        }\n        if self.stage.is_some() {\n            return 2;\n        }\n"),
    ("FINISH twice", COUNTS, "Some(Stage::After(_) | Stage::CallsOut) => {}", "Some(Stage::After(_) | Stage::CallsOut | Stage::Finished) => {}"),
    # The running sum and the requirement that is read from it
    ("sum: the requirement held at 0 step by step", COUNTS, *after_each_call("        self.pool[0].prices -= (self.prices() - self.losses).max(0);\n")),
    ("sum: held at 0 step by step", COUNTS, *after_each_call("        self.pool[0].prices -= self.prices().min(0);\n")),
    ("sum: the sum of each pool held at 0 from below step by step", COUNTS, *after_each_call("        self.pool.iter_mut().for_each(|pool| pool.prices = pool.prices.max(0));\n")),
    ("sum: the sum of each pool held at 0 from above step by step", COUNTS, *after_each_call("        self.pool.iter_mut().for_each(|pool| pool.prices = pool.prices.min(0));\n")),
    ("sum: a pool's gain falls away", COUNTS, SUM, SUM.replace("pool.prices", "pool.prices.min(0)")),
    ("sum: a pool's loss falls away", COUNTS, SUM, SUM.replace("pool.prices", "pool.prices.max(0)")),
    ("sum: the first pool alone", COUNTS, SUM, "self.pool[0].prices"),
    ("sum: without the last pool", COUNTS, SUM, "self.pool[..POOLS - 1].iter().map(|pool| pool.prices).sum()"),
    ("sum: pools of mark 1 left out", COUNTS, SUM, SUM.replace("pool.prices", "if pool.positive_mark { 0 } else { pool.prices }")),
    ("sum: pools sold by agreement left out", COUNTS, SUM, SUM.replace("pool.prices", "if pool.agreed.is_some() { 0 } else { pool.prices }")),
    ("sum: added to the losses", COUNTS, "u64::try_from(self.losses - self.prices()).unwrap_or(0)", "u64::try_from(self.losses + self.prices()).unwrap_or(0)"),
    ("sum: gains do not lower the requirement", COUNTS, "u64::try_from(self.losses - self.prices()).unwrap_or(0)", "(self.losses - self.prices().min(0)) as u64"),
    ("sum: the hedge loss alone", COUNTS, LOSSES, LOSSES.replace("(hedge + other)", "hedge")),
    ("sum: the other loss alone", COUNTS, LOSSES, LOSSES.replace("(hedge + other)", "other")),
    ("sum: the larger of the losses alone", COUNTS, LOSSES, LOSSES.replace("(hedge + other)", "hedge.max(other)")),
    ("sum: the hedge loss twice", COUNTS, LOSSES, LOSSES.replace("(hedge + other)", "(2 * hedge)")),
    ("sum: the losses in 32 bits", COUNTS, LOSSES, LOSSES.replace("(hedge + other)", "(hedge + other) as i32")),
    ("sum: begins anew at a ROUND", COUNTS, "            pool.reserve = reserve(number);\n", "            pool.reserve = reserve(number);\n            pool.prices = 0;\n"),
    ("sum: PAY is in it", COUNTS, "        self.member[member].paid += amount;\n", "        self.member[member].paid += amount;\n        self.pool[0].prices += amount as i64;\n"),
    ("sum: what a MOVE ends is in it", COUNTS, "        let still_owed = self.move_allocated(member, owed);\n", "        self.pool[0].prices += owed as i64;\n        let still_owed = self.move_allocated(member, owed);\n"),
    ("sum: SALE adds one unit's price", COUNTS, SOLD_BY_AGREEMENT, SOLD_BY_AGREEMENT.replace("units as i64 * price", "price")),
    ("sum: SALE takes the prices off", COUNTS, SOLD_BY_AGREEMENT, SOLD_BY_AGREEMENT.replace("+=", "-=")),
    ("sum: SALE twice", COUNTS, SOLD_BY_AGREEMENT, SOLD_BY_AGREEMENT * 2),
    ("sum: a declined SALE is in it", COUNTS, "            return 17;\n", "            self.pool[number].prices += units as i64 * price;\n            return 17;\n"),
    ("sum: CLOSE forgets it", COUNTS, SOLD, ""),
    ("sum: CLOSE adds the reserve instead of the bid's price", COUNTS, SOLD, SOLD.replace("bid.price", "self.pool[bid.pool].reserve")),
    ("sum: CLOSE adds the units asked for", COUNTS, SOLD, SOLD.replace("units as", "bid.units as")),
    ("sum: CLOSE adds one unit's price a bid", COUNTS, SOLD, SOLD.replace("units as i64 * bid.price", "i64::from(units > 0) * bid.price")),
    ("sum: CLOSE adds what a bid is above the reserve", COUNTS, SOLD, SOLD.replace("bid.price", "(bid.price - self.pool[bid.pool].reserve)")),
    ("sum: ALLOCATE adds all open units", COUNTS, ALLOCATED, ALLOCATED.replace("placed as i64", "(pool.open + placed) as i64")),
    ("sum: ALLOCATE adds the whole shortfall", COUNTS, ALLOCATED, ALLOCATED.replace("placed as i64", "short as i64")),
    ("sum: ALLOCATE twice", COUNTS, ALLOCATED, ALLOCATED * 2),
    ("sum: ALLOCATE at the reserve", COUNTS, ALLOCATED, ALLOCATED.replace("* price", "* pool.reserve")),
    ("sum: TEAR forgets it", COUNTS, BY_TEAR, BY_TEAR + "        self.pool[pool].prices -= units as i64 * price;\n"),
    ("sum: TEAR twice", COUNTS, BY_TEAR, BY_TEAR + "        self.pool[pool].prices += units as i64 * price;\n"),
    ("sum: TEAR adds one unit's price", COUNTS, BY_TEAR, BY_TEAR + "        self.pool[pool].prices -= (units - 1) as i64 * price;\n"),
    ("sum: MOVE takes the old prices off twice", COUNTS, MOVED, MOVED * 2),
    ("sum: MOVE takes the old prices off the wrong way", COUNTS, MOVED, MOVED.replace("+=", "-=")),
    ("sum: MOVE takes off what was owed, not what was saved", COUNTS, MOVED, MOVED.replace("saved as i64", "saved.min(needed) as i64")),
    ("sum: MOVE forgets allocated units", COUNTS,
     "                self.pool[pool].allocated -= units;\n", "                self.pool[pool].allocated -= units;\n                self.pool[pool].prices += units as i64 * price;\n"),
    ("sum: MOVE forgets sold units", COUNTS,
     "            self.pool[pool].sold -= units;\n", "            self.pool[pool].sold -= units;\n            self.pool[pool].prices += units as i64 * price;\n"),
    ("sum: MOVE forgets the member's own units", COUNTS,
     "                self.pool[pool].allocated -= units;\n", "                self.pool[pool].allocated -= units;\n                if holder == to {\n                    self.pool[pool].prices += units as i64 * price;\n                }\n"),
    ("sum: MISS takes the old prices off twice", COUNTS, GIVEN_BACK, GIVEN_BACK * 2),
    ("sum: MISS takes an old price off for moved units too", COUNTS, GIVEN_BACK, GIVEN_BACK.replace("allocated[p] as i64", "(allocated[p] + moved[p]) as i64")),
    ("sum: MISS forgets the moved units", COUNTS, BY_MISS, BY_MISS + "                self.pool[p].prices -= moved[p] as i64 * price;\n"),
    ("sum: MISS forgets the allocated units", COUNTS, BY_MISS, BY_MISS + "                self.pool[p].prices -= allocated[p] as i64 * price;\n"),
    ("sum: MISS twice", COUNTS, BY_MISS, BY_MISS + "                self.pool[p].prices += (allocated[p] + moved[p]) as i64 * price;\n"),
    ("sum: MISS in stage A alone", COUNTS, BY_MISS, BY_MISS + "                if self.stage == Some(Stage::CallsOut) {\n                    self.pool[p].prices -= (allocated[p] + moved[p]) as i64 * price;\n                }\n"),
]

# These show only in what the models can be asked, or are mistakes in the roll, which the texts are held to.
IN_HOLDINGS = [
    ("ties of a split of the roll to the earlier, whatever the weights", ROLL, "find(|&i| Some(w[i]) == heaviest)", "find(|&i| Some(w[i]) <= heaviest)"),
    ("ties of a split of the roll to the smaller weight", ROLL, "tied.iter().map(|&i| w[i]).max()", "tied.iter().map(|&i| w[i]).min()"),
    ("ties of a split of the roll of like weights to the later", ROLL, "tied.into_iter().find(", "tied.into_iter().rfind("),
    ("WITHDRAW: a declined one leaves a trace", COUNTS, NOT_FOUND, "binary_search(&number) else {\n            self.least_bid = 1;\n            return 18;\n"),
    ("WITHDRAW: the roll allots the bid", ROLL, "        bid.stands && usize::from(bid.round)", "        usize::from(bid.round)"),
    ("WITHDRAW: the roll counts the bid among the valid units", ROLL, "        bid.stands && usize::from(bid.round)", "        usize::from(bid.round)", "        if !self.is_valid(bid) {", "        if !bid.stands || !self.is_valid(bid) {"),
    ("WITHDRAW: the roll's place comes free", ROLL, "self.bids.len() == 256,", "self.bids.iter().filter(|bid| bid.stands).count() == 256,"),
    ("WITHDRAW: the roll's later numbers move down", ROLL, "=> self.bids[usize::from(number)].stands = false,", "=> drop(self.bids.remove(usize::from(number))),"),
    ("WITHDRAW: the roll takes an old round's bid", ROLL, "bid.stands && bid.member == member && bid.round == open_round", "bid.stands && bid.member == member && bid.round <= open_round"),
    ("WITHDRAW: the roll takes another member's bid", ROLL, "bid.stands && bid.member == member && bid.round == open_round", "bid.stands && bid.round == open_round"),
    ("WITHDRAW: the roll takes a bid twice", ROLL, "bid.stands && bid.member == member && bid.round == open_round", "bid.member == member && bid.round == open_round"),
    ("WITHDRAW: the roll does not check the member", ROLL, "            | Call::Sale { member, .. }\n            | Call::Withdraw { member, .. } =>", "            | Call::Sale { member, .. } =>"),
    ("MOVE: earlier bid first within a pool", COUNTS, "(self.bids[b].price, Reverse(b))", "(self.bids[b].price, Reverse(self.bids[b].pool), b)"),
    ("holdings: moved units left out", COUNTS, "            lots.push((p as u8, 0, self.member[m].moved[p]));\n", ""),
    ("holdings: a price twice", COUNTS, "let same = (next.0, next.1) == (kept.0, kept.1);", "let same = (next.0, next.1) == (kept.0, kept.1) && next.1 != 0;"),
    ("holdings: from low to high", COUNTS, "(pool, Reverse(price))", "(pool, price)"),
    ("holding: allocated units left out", COUNTS, "sold + allocated + moved + agreed\n", "let _ = allocated;\n        sold + moved + agreed\n"),
    ("SALE: holdings without units so sold", COUNTS, "            lots.extend(agreed.map(|a| (p as u8, a.price, a.units)));\n", "            let _ = agreed;\n"),
    ("SALE: holding without units so sold", COUNTS, "        sold + allocated + moved + agreed\n", "        let _ = agreed;\n        sold + allocated + moved\n"),
    ("SALE: units so sold held at price 0", COUNTS, "lots.extend(agreed.map(|a| (p as u8, a.price, a.units)));", "lots.extend(agreed.map(|a| (p as u8, 0, a.units)));"),
    ("SALE: a declined one leaves a trace", COUNTS, "            return 17;\n", "            self.to_allot = vec![1];\n            return 17;\n"),
    ("owes: the call after a MOVE", COUNTS, "        if member < MEMBERS { self.owed(member) } else { 0 }", "        if member < MEMBERS { self.member[member].call - self.member[member].paid } else { 0 }"),
    ("prefunded: all or none", COUNTS, "self.stage.map(|_| self.held_ready())", "self.stage.filter(|s| *s != Stage::Setup).map(|_| self.held_ready())"),
    ("a declined MOVE leaves a trace", COUNTS, "        if owed == 0 {\n            return 14;\n        }\n        let still", "        if owed == 0 {\n            self.least_bid = 1;\n            return 14;\n        }\n        let still"),
    # The sums by pool and the reading
    ("sum: open units at the reserve are in it", COUNTS, SUM, SUM.replace("pool.prices", "pool.prices + pool.open as i64 * pool.reserve")),
    ("sum: open units at the last price are in it", COUNTS, SUM, SUM.replace("pool.prices", "pool.prices + pool.open as i64 * pool.allocated_price")),
    ("sum: FINISH ends it", COUNTS, "        self.stage = Some(Stage::Finished);\n", "        self.stage = Some(Stage::Finished);\n        self.pool.iter_mut().for_each(|pool| pool.prices = 0);\n"),
    ("sum: SALE in the first pool's", COUNTS, SOLD_BY_AGREEMENT, "", "        if !self.any_open() {\n            self.stage", "        self.pool[0].prices += units as i64 * price;\n        if !self.any_open() {\n            self.stage"),
    ("sum: CLOSE in the first pool's", COUNTS, SOLD, SOLD.replace("[bid.pool]", "[0]")),
    ("sum: CLOSE in the next pool's", COUNTS, SOLD, SOLD.replace("[bid.pool]", "[(bid.pool + 1) % POOLS]")),
    ("sum: ALLOCATE in the first pool's", COUNTS, ALLOCATED, "        self.pool[0].prices += placed as i64 * price;\n"),
    ("sum: TEAR and MISS in the first pool's", COUNTS, TORN, TORN.replace("[pool]", "[0]")),
    ("sum: MOVE in the first pool's", COUNTS, MOVED, MOVED.replace("[pool]", "[0]")),
    ("sum: MISS takes old prices off the first pool's", COUNTS, GIVEN_BACK, "            let back = allocated[p] as i64 * pool.allocated_price;\n            self.pool[0].prices -= back;\n"),
    ("sum: of a pool above 3 that of the last", COUNTS, "self.pool.get(usize::from(pool)).map_or(0, |pool| pool.prices)", "self.pool[usize::from(pool).min(POOLS - 1)].prices"),
    ("sum: of a pool that of all", COUNTS, "self.pool.get(usize::from(pool)).map_or(0, |pool| pool.prices)", "self.pool.get(usize::from(pool)).map_or(0, |_| self.prices())"),
    ("sum: of a pool at least 0", COUNTS, "map_or(0, |pool| pool.prices)", "map_or(0, |pool| pool.prices.max(0))"),
    ("sum: of a pool its loss", COUNTS, "map_or(0, |pool| pool.prices)", "map_or(0, |pool| -pool.prices)"),
    ("sum: the roll's of a pool without torn units", ROLL, "filter(|entry| **entry != Entry::Open);", "filter(|entry| !matches!(entry, Entry::Open | Entry::Torn { .. }));"),
    ("sum: the roll's of a pool without units sold by agreement", ROLL, "filter(|entry| **entry != Entry::Open);", "filter(|entry| !matches!(entry, Entry::Open | Entry::SoldByAgreement { .. }));"),
    ("reading: 0 with no case", COUNTS, "None => (2, 0),", "None => (0, 0),"),
    ("reading: 1 with no case", COUNTS, "None => (2, 0),", "None => (1, 0),"),
    ("reading: the roll's 0 with no case", ROLL, "map_or((2, 0), |case|", "map_or((0, 0), |case|"),
    ("reading: not held at 0", COUNTS, READ, READ.replace("self.required()", "(self.losses - self.prices()) as u64")),
    ("reading: below 0 taken positive", COUNTS, READ, READ.replace("self.required()", "(self.losses - self.prices()).unsigned_abs()")),
    ("reading: the roll's below 0 taken positive", ROLL, "(losses - self.sum_of_prices()).max(0) as u64", "(losses - self.sum_of_prices()).unsigned_abs()"),
    ("reading: declined in stage S", COUNTS, READ, "            Some(Stage::Setup) => (2, 0),\n" + READ),
    ("reading: declined while a round is open", COUNTS, READ, "            Some(Stage::Bidding(_)) => (2, 0),\n" + READ),
    ("reading: declined after FINISH", COUNTS, READ, "            Some(Stage::Finished) => (2, 0),\n" + READ),
    ("reading: 0 until a unit has left", COUNTS, READ, READ.replace("self.required()", "if self.pool.iter().all(|p| p.sold + p.allocated + p.moved + p.torn == 0) { 0 } else { self.required() }")),
    ("reading: 0 while a unit is open", COUNTS, READ, READ.replace("self.required()", "if self.any_open() { 0 } else { self.required() }")),
    ("reading: 0 where the sum is 0", COUNTS, READ, READ.replace("self.required()", "if self.prices() == 0 { 0 } else { self.required() }")),
    ("reading: what is above prefunded", COUNTS, READ, READ.replace("self.required()", "self.required().saturating_sub(self.held_ready())")),
    ("reading: without the losses", COUNTS, READ, READ.replace("self.required()", "u64::try_from(-self.prices()).unwrap_or(0)")),
    ("reading: in 32 bits", COUNTS, READ, READ.replace("self.required()", "self.required() % (1 << 32)")),
    ("reading: the losses alone", COUNTS, READ, READ.replace("self.required()", "self.losses as u64")),
]

# These show only in the ranking, which no call shows: `rankings` of `linked` holds the proved one to it.
IN_RANKING = [
    ("ranking: ties to the earlier, whatever the weights", SPLIT, "Ordering::Equal => weights[one] > weights[other],", "Ordering::Equal => one < other,"),
    ("ranking: ties to the smaller weight", SPLIT, "Ordering::Equal => weights[one] > weights[other],", "Ordering::Equal => weights[one] < weights[other],"),
    ("ranking: ties of like weights to the later", SPLIT, "weights[one] == weights[other] => one < other,", "weights[one] == weights[other] => one > other,"),
    ("ranking: the weight before the remainder", SPLIT, "remainders[one].cmp(&remainders[other])", "weights[one].cmp(&weights[other])"),
    ("ranking: a place of weight 0 left out", SPLIT, "    }\n    places\n}\n", "    }\n    places.retain(|&place| weights[place] > 0);\n    places\n}\n"),
    ("ranking: there where W = 0", SPLIT, "return Vec::new();", "return (0..weights.len()).collect();"),
    ("ranking: none where nothing is left", SPLIT,
     "    let before = ", "    if remainders.iter().all(|&remainder| remainder == 0) {\n        return Vec::new();\n    }\n    let before = "),
    ("ranking: smaller remainders first", SPLIT, "remainders[one].cmp(&remainders[other])", "remainders[other].cmp(&remainders[one])"),
]

# These show only in a split or an auction that is run alone: `parts` of `linked` holds the proved ones to them.
IN_PARTS = [
    *[(f"ties {ties}, a split run alone", SPLIT, "shares.copy_from_slice(&split(q, weights));", f"shares.copy_from_slice(&other_split(q, weights));",
       "/// The public entry: the answer, and the shares", other_split(key)[1].removeprefix(USES_SPLIT).replace("use std::cmp::Reverse;", "") + "\n/// The public entry: the answer, and the shares")
      for ties, key in OTHER_TIES],
    *other_auction("the auction over lent records", "allot(u64::from(open_units), i64::from(reserve), &pairs)"),
    *other_auction("the auction over flat runs", "allot(open_units, cents(reserve), &bids)"),
]

# These show only in expected units: `positions` of `linked` holds the proved ones to them.
IN_POSITIONS = [*other_ties("expected units", POSITIONS, "split(units, &sums[..members.len()])")]

# What units won brought above the worst reserves, which the rank alone goes by.
WORTH = "self.members().map(|m| self.standing(m).premium).sum::<u64>()"
# Most junior rank first, each up to its limit.
BY_RANK = ("    /// Charges the requirement to the layers in turn.\n", """    fn by_rank(&self, q: u64, limits: &[u64]) -> Vec<u64> {
        let standings: Vec<Standing> = self.members().map(|m| self.standing(m)).collect();
        let mut order: Vec<usize> = (0..standings.len()).collect();
        order.sort_by(|&a, &b| standings[a].seniority(&standings[b]));
        let mut layers = Layers { rest: q };
        let mut shares = vec![0; limits.len()];
        order.into_iter().for_each(|i| shares[i] = layers.charge(limits[i]));
        shares
    }

    /// Charges the requirement to the layers in turn.
""")
LEAST_BID = "        if units < self.least_bid {\n"
SECOND_TRANCHE = "        outcome.charges[4] = layers.charge(self.house - first_tranche);\n"
NO_ROUND = "            Some(Stage::After(1)) => 2,\n            _ => return 2,\n"
RANGE_OF_ROUND = "        if !(0..self.pools).all(|pool| price_fits(reserve(pool))) {\n            return 5;\n        }\n"
WRONG_LENGTH = "        if !self.length_fits(tag, value.len()) {\n            return 1;\n"

# Each of these lets a reserve out: `reserves` finds it in the texts of two inputs that are the same but for reserves.
IN_PAIRS = [
    ("reserve: a BID below it is declined before the other reasons", COUNTS, LEAST_BID, "        if price < self.pool[pool].reserve {\n            return 5;\n        }\n" + LEAST_BID),
    # Bids that are kept are valid in both lists or in neither, so this shows where 256 are.
    ("reserve: a BID below it is declined, last of all", COUNTS, KEPT, "        if price < self.pool[pool].reserve {\n            return 5;\n        }\n" + KEPT),
    ("reserve: a bid at it is not valid", AUCTION, "bids[i].1 >= reserve", "bids[i].1 > reserve"),
    ("reserve: the balance is split by what bids are above it", AUCTION, "let units: Vec<u64> = level.iter().map(|&i| bids[i].0).collect();", "let units: Vec<u64> = level.iter().map(|&i| bids[i].0 * bids[i].1.abs_diff(reserve)).collect();"),
    ("reserve: bids of all pools are held to the first pool's", COUNTS, "allot(self.pool[pool].open, self.pool[pool].reserve, &offers)", "allot(self.pool[pool].open, self.pool[0].reserve, &offers)"),
    ("reserve: bids of the second round are held to the worst", COUNTS, "allot(self.pool[pool].open, self.pool[pool].reserve, &offers)", "allot(self.pool[pool].open, self.pool[pool].worst_reserve, &offers)"),
    ("reserve: WITHDRAW of a bid at it is declined", COUNTS, "        if self.bids[number].member != member {\n", "        if self.bids[number].member != member || self.bids[number].price == self.pool[self.bids[number].pool].reserve {\n"),
    ("reserve: a second ROUND above the first is declined", COUNTS, RANGE_OF_ROUND, RANGE_OF_ROUND + "        if round == 2 && (0..self.pools).any(|pool| reserve(pool) > self.pool[pool].reserve) {\n            return 10;\n        }\n"),
    ("reserve: of a ROUND that the stage does not allow is kept", COUNTS, NO_ROUND, NO_ROUND.replace("return 2,", "{\n                for (number, pool) in self.pool[..self.pools].iter_mut().enumerate() {\n                    pool.reserve = price_at(value, 4 * number);\n                }\n                return 2;\n            }")),
    ("reserve: out of range with no case is 5", COUNTS, NO_ROUND, NO_ROUND.replace("            _ =>", "            None if (0..value.len() / 4).any(|pool| !price_fits(price_at(value, 4 * pool))) => return 5,\n            _ =>")),
    ("reserve: out of range in a ROUND of a wrong length is 5", COUNTS, WRONG_LENGTH, WRONG_LENGTH.replace("return 1;", "let fit = tag != 4 || (0..value.len() / 4).all(|pool| price_fits(price_at(value, 4 * pool)));\n            return if fit { 1 } else { 5 };")),
    ("reserve: ALLOCATE not below it", COUNTS, ALLOCATED, ALLOCATED.replace("* price", "* price.max(pool.reserve)"), "pool.allocated_price = price;", "pool.allocated_price = price.max(pool.reserve);"),
    ("reserve: ALLOCATE to the most junior first", COUNTS, *BY_RANK, "split(placed, &shortfalls)", "self.by_rank(placed, &shortfalls)"),
    ("reserve: TEAR at it", COUNTS, BY_TEAR, BY_TEAR.replace("price", "self.pool[pool].reserve")),
    ("reserve: MISS at it", COUNTS, BY_MISS, BY_MISS.replace("price", "self.pool[p].reserve")),
    ("reserve: MOVE takes those sold least above it first", COUNTS, "(self.bids[b].price, Reverse(b))", "(self.bids[b].price - self.pool[self.bids[b].pool].worst_reserve, Reverse(b))"),
    ("reserve: CALL on the most junior first", COUNTS, *BY_RANK, "split(called, &weights)", "self.by_rank(called, &weights)"),
    ("reserve: 12 is judged with what was won above it", COUNTS, "        if ready >= required {\n", f"        if ready + {WORTH} >= required {{\n"),
    ("reserve: 13 is judged with what was won above it", COUNTS, "self.held_ready() < self.required()", f"self.held_ready() < self.required() + {WORTH}"),
    ("reserve: the loss is told as if all were won at it", COUNTS, "        let mut layers = Layers { rest: loss };\n", "        let mut layers = Layers { rest: loss };\n" + f"        let loss = loss + {WORTH};\n"),
    ("reserve: the most senior rank bears behind the second tranche", COUNTS,
     "            seniors -= group.len();\n", "            seniors -= group.len();\n            if seniors == 0 {\n        " + SECOND_TRANCHE + "            }\n",
     "\n" + SECOND_TRANCHE, ""),
    ("reserve: payments of the most junior first", COUNTS, *BY_RANK, "split(outcome.charges[5], &payments)", "self.by_rank(outcome.charges[5], &payments)"),
]

# No text shows these: `reserves` finds them where it asks the model call by call.
IN_SHOWN_PAIRS = [
    ("reserve: open units at it are in the requirement", COUNTS, SUM, SUM.replace("pool.prices", "pool.prices + pool.open as i64 * pool.reserve")),
    ("reserve: a pool's sum with its open units at it", COUNTS, "map_or(0, |pool| pool.prices)", "map_or(0, |pool| pool.prices + pool.open as i64 * pool.reserve)"),
    ("reserve: the reading without what was won above it", COUNTS, READ, READ.replace("self.required()", f"self.required() + {WORTH}")),
    ("reserve: holdings at it", COUNTS, "own.map(|b| (b.pool as u8, b.price, b.sold)).collect();", "own.map(|b| (b.pool as u8, self.pool[b.pool].worst_reserve, b.sold)).collect();"),
]

# Mistakes in the making of pairs: `reserves` finds that the premise is not met.
IN_PREMISE = [
    ("pair: withdrawn bids do not bound the gap", PAIRS, "bid.round == round && usize::from(bid.pool) == pool", "bid.stands && bid.round == round && usize::from(bid.pool) == pool"),
    ("pair: bids of the first round bound the gap of the second", PAIRS, "bid.round == round && usize::from(bid.pool) == pool", "bid.round == round.min(1) && usize::from(bid.pool) == pool"),
    ("pair: bids of the first pool bound the gap of each", PAIRS, "bid.round == round && usize::from(bid.pool) == pool", "bid.round == round && usize::from(bid.pool) == pool.min(0)"),
    ("pair: the gap begins a cent too low", PAIRS, "below.map_or(LOWEST, |price| price + 1)", "below.unwrap_or(LOWEST)"),
    ("pair: the gap ends a cent too high", PAIRS, "above.unwrap_or(HIGHEST)", "above.map_or(HIGHEST, |price| price + 1)"),
    ("pair: the gap goes past the range", PAIRS, "below.map_or(LOWEST, ", "below.map_or(LOWEST - 1, "),
    ("pair: a ROUND that is declined goes past the range", PAIRS, "each.map(|_| in_range(rng)).collect()", "each.map(|_| any_reserve(rng)).collect()"),
    ("pair: a ROUND that is out of range gets other reserves", PAIRS, "        return round.reserves.clone();\n", "        return each.map(|_| any_reserve(rng)).collect();\n"),
]
