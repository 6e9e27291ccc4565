//! Calls in words, for whoever reads a difference.

use model::field::{price_at, size, u16_at, u32_at};

/// The fields of an input, the last one as far as the input goes.
pub fn fields(input: &[u8]) -> Vec<Vec<u8>> {
    let mut fields = Vec::new();
    let mut rest = input;
    while !rest.is_empty() {
        let (field, after) = rest.split_at(size(rest).unwrap_or(rest.len()));
        fields.push(field.to_vec());
        rest = after;
    }
    fields
}

/// Whether the input ends within the field.
pub fn is_cut_off(field: &[u8]) -> bool {
    size(field).is_none()
}

/// A list of calls in words, one a line.
pub fn in_words(title: &str, calls: &[Vec<u8>]) -> String {
    let mut words = format!("{title}, {} in all:\n", calls.len());
    for (number, bytes) in calls.iter().enumerate() {
        words += &format!("  {number:>4}  {}\n", describe(bytes));
    }
    words
}

/// One call in words.
pub fn describe(bytes: &[u8]) -> String {
    if size(bytes) != Some(bytes.len()) {
        return format!("not one field: {}", hex(bytes));
    }
    let value = &bytes[3..];
    match (bytes[0], value.len()) {
        (1, 27) => format!(
            "HEAD pools {} least bid {} members {} hedge loss {} other loss {} margin {} fund {} house {}",
            value[0],
            u16_at(value, 1),
            set(u32_at(value, 3)),
            u32_at(value, 7),
            u32_at(value, 11),
            u32_at(value, 15),
            u32_at(value, 19),
            u32_at(value, 23)
        ),
        (2, 4) => format!("POOL {} units {} mark {}", value[0], u16_at(value, 1), value[3]),
        (3, 13) => {
            let expected: Vec<u16> = (0..4).map(|pool| u16_at(value, 5 + 2 * pool)).collect();
            format!("MEMBER {} contribution {} expects {expected:?}", value[0], u32_at(value, 1))
        }
        (4, length) if length % 4 == 0 => {
            let reserves: Vec<i64> = (0..length / 4).map(|pool| price_at(value, 4 * pool)).collect();
            format!("ROUND reserves {}", shortened(&format!("{reserves:?}")))
        }
        (5, 8) => {
            let (units, price) = (u16_at(value, 2), price_at(value, 4));
            format!("BID pool {} member {} units {units} price {price}", value[0], value[1])
        }
        (6, 0) => "CLOSE".to_string(),
        (7, 5) => format!("ALLOCATE pool {} price {}", value[0], price_at(value, 1)),
        (8, 5) => format!("TEAR pool {} price {}", value[0], price_at(value, 1)),
        (9, 0) => "CALL".to_string(),
        (10, 5) => format!("PAY member {} amount {}", value[0], u32_at(value, 1)),
        (11, 1) => format!("MOVE member {}", value[0]),
        (12, 5) => format!("MISS member {} price {}", value[0], price_at(value, 1)),
        (13, 0) => "FINISH".to_string(),
        (14, 6) => format!("SALE pool {} member {} price {}", value[0], value[1], price_at(value, 2)),
        (15, 3) => format!("WITHDRAW member {} bid {}", value[0], u16_at(value, 1)),
        (tag, length) => format!("tag {tag} with {length} bytes: {}", hex(value)),
    }
}

fn set(set: u32) -> String {
    let members: Vec<String> = (0..32).filter(|i| set >> i & 1 == 1).map(|i| i.to_string()).collect();
    format!("{{{}}}", members.join(","))
}

fn hex(bytes: &[u8]) -> String {
    let digits: Vec<String> = bytes.iter().map(|byte| format!("{byte:02x}")).collect();
    shortened(&digits.join(" "))
}

fn shortened(text: &str) -> String {
    match text.get(..120) {
        Some(start) => format!("{start} ..."),
        None => text.to_string(),
    }
}
