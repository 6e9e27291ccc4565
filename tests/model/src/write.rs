//! Writing fields, for tests and for the generator.

/// Tags by the names of the calls.
pub const HEAD: u8 = 1;
pub const POOL: u8 = 2;
pub const MEMBER: u8 = 3;
pub const ROUND: u8 = 4;
pub const BID: u8 = 5;
pub const CLOSE: u8 = 6;
pub const ALLOCATE: u8 = 7;
pub const TEAR: u8 = 8;
pub const CALL: u8 = 9;
pub const PAY: u8 = 10;
pub const MOVE: u8 = 11;
pub const MISS: u8 = 12;
pub const FINISH: u8 = 13;
pub const SALE: u8 = 14;
pub const WITHDRAW: u8 = 15;

/// A field of any tag and value; a value past 65,535 bytes has no field.
pub fn field(tag: u8, value: &[u8]) -> Vec<u8> {
    let length = u16::try_from(value.len()).expect("a value has at most 65,535 bytes");
    let mut bytes = vec![tag];
    bytes.extend(length.to_be_bytes());
    bytes.extend(value);
    bytes
}

/// HEAD's numbers in the order of the field.
#[derive(Clone, Copy, Debug, PartialEq, Eq)]
pub struct Head {
    pub pools: u8,
    pub least_bid: u16,
    pub set: u32,
    pub hedge_loss: u32,
    pub other_loss: u32,
    pub margin: u32,
    pub fund: u32,
    pub house: u32,
}

pub fn head(h: &Head) -> Vec<u8> {
    let mut value = vec![h.pools];
    value.extend(h.least_bid.to_be_bytes());
    for number in [h.set, h.hedge_loss, h.other_loss, h.margin, h.fund, h.house] {
        value.extend(number.to_be_bytes());
    }
    field(HEAD, &value)
}

pub fn pool(pool: u8, units: u16, mark: u8) -> Vec<u8> {
    let [high, low] = units.to_be_bytes();
    field(POOL, &[pool, high, low, mark])
}

pub fn member(member: u8, contribution: u32, expected: [u16; 4]) -> Vec<u8> {
    let mut value = vec![member];
    value.extend(contribution.to_be_bytes());
    expected.iter().for_each(|units| value.extend(units.to_be_bytes()));
    field(MEMBER, &value)
}

pub fn round(reserves: &[i32]) -> Vec<u8> {
    let value: Vec<u8> = reserves.iter().flat_map(|r| r.to_be_bytes()).collect();
    field(ROUND, &value)
}

pub fn bid(pool: u8, member: u8, units: u16, price: i32) -> Vec<u8> {
    let mut value = vec![pool, member];
    value.extend(units.to_be_bytes());
    value.extend(price.to_be_bytes());
    field(BID, &value)
}

pub fn close() -> Vec<u8> {
    field(CLOSE, &[])
}

pub fn allocate(pool: u8, price: i32) -> Vec<u8> {
    field(ALLOCATE, &byte_and_four(pool, price.to_be_bytes()))
}

pub fn tear(pool: u8, price: i32) -> Vec<u8> {
    field(TEAR, &byte_and_four(pool, price.to_be_bytes()))
}

pub fn call() -> Vec<u8> {
    field(CALL, &[])
}

pub fn pay(member: u8, amount: u32) -> Vec<u8> {
    field(PAY, &byte_and_four(member, amount.to_be_bytes()))
}

pub fn move_units(member: u8) -> Vec<u8> {
    field(MOVE, &[member])
}

pub fn miss(member: u8, price: i32) -> Vec<u8> {
    field(MISS, &byte_and_four(member, price.to_be_bytes()))
}

pub fn finish() -> Vec<u8> {
    field(FINISH, &[])
}

pub fn sale(pool: u8, member: u8, price: i32) -> Vec<u8> {
    let mut value = vec![pool, member];
    value.extend(price.to_be_bytes());
    field(SALE, &value)
}

pub fn withdraw(member: u8, number: u16) -> Vec<u8> {
    let [high, low] = number.to_be_bytes();
    field(WITHDRAW, &[member, high, low])
}

fn byte_and_four(first: u8, rest: [u8; 4]) -> [u8; 5] {
    [first, rest[0], rest[1], rest[2], rest[3]]
}

/// The example of document 01, call by call.
pub fn example() -> Vec<Vec<u8>> {
    let h = Head { pools: 1, least_bid: 1, set: 0b111, hedge_loss: 0, other_loss: 0, margin: 20, fund: 10, house: 50 };
    vec![
        head(&h),
        pool(0, 10, 0),
        member(0, 100, [4, 0, 0, 0]),
        member(1, 100, [3, 0, 0, 0]),
        member(2, 60, [3, 0, 0, 0]),
        round(&[-30]),
        bid(0, 0, 4, -10),
        bid(0, 1, 5, -20),
        bid(0, 2, 3, -20),
        bid(0, 2, 5, -40),
        close(),
        finish(),
    ]
}
