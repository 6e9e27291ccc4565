//! Two texts, line by line.

/// The first line in which two texts differ, as it stands in each.
pub struct Unlike {
    pub line: usize,
    pub one: String,
    pub other: String,
}

/// None where the texts have the same lines as `compared` makes them.
pub fn first_unlike(one: &[u8], other: &[u8], compared: impl Fn(&str) -> String) -> Option<Unlike> {
    let (one, other) = (lines(one), lines(other));
    let at = |lines: &[String], line: usize| lines.get(line).map(|line| compared(line));
    let line = (0..one.len().max(other.len())).find(|&line| at(&one, line) != at(&other, line))?;
    let shown = |lines: &[String]| lines.get(line).cloned().unwrap_or_else(|| "(no line)".to_string());
    Some(Unlike { line, one: shown(&one), other: shown(&other) })
}

/// Each line with its end, if it has one.
fn lines(text: &[u8]) -> Vec<String> {
    text.split_inclusive(|&byte| byte == b'\n').map(|line| line.escape_ascii().to_string()).collect()
}
