//! Tokens of a line. Each reader answers none for a token that is not of its form.

/// A run as it is written: `+3` is three selected rows, `-2` two skipped ones.
#[derive(Clone, Copy, Debug, PartialEq, Eq)]
pub struct Run {
    pub selected: bool,
    pub rows: u64,
}

/// The tokens of a line: printable ASCII, one space apart, with none at either end.
pub fn tokens(line: &[u8]) -> Option<Vec<&str>> {
    if !line.iter().all(|byte| (b' '..=b'~').contains(byte)) {
        return None;
    }
    let tokens: Vec<&str> = std::str::from_utf8(line).ok()?.split(' ').collect();
    // A space too many, wherever it stands, leaves an empty token.
    if tokens.iter().any(|token| token.is_empty()) {
        return None;
    }
    Some(tokens)
}

fn all_digits(token: &str) -> bool {
    !token.is_empty() && token.bytes().all(|byte| byte.is_ascii_digit())
}

/// Decimal digits, of a value that 64 bits hold.
pub fn number(token: &str) -> Option<u64> {
    // Asked first, because Rust's own reading would take a leading plus.
    if !all_digits(token) {
        return None;
    }
    token.parse().ok()
}

/// A number of a page: digits, perhaps after a minus, within `least` and `most`.
pub fn page_number(token: &str, least: i64, most: i64) -> Option<i64> {
    let digits = token.strip_prefix('-').unwrap_or(token);
    if !all_digits(digits) {
        return None;
    }
    let value: i64 = token.parse().ok()?;
    (least <= value && value <= most).then_some(value)
}

pub fn run(token: &str) -> Option<Run> {
    let selected = token.starts_with('+');
    let digits = token.strip_prefix(['+', '-'])?;
    Some(Run { selected, rows: number(digits)? })
}

/// Lower-case hexadecimal, two digits a byte; `-` is no bytes.
pub fn bytes(token: &str) -> Option<Vec<u8>> {
    if token == "-" {
        return Some(Vec::new());
    }
    if token.len() % 2 == 1 {
        return None;
    }
    let digits: Vec<u8> = token.bytes().map(hex_digit).collect::<Option<_>>()?;
    Some(digits.chunks(2).map(|pair| pair[0] * 16 + pair[1]).collect())
}

fn hex_digit(byte: u8) -> Option<u8> {
    match byte {
        b'0'..=b'9' => Some(byte - b'0'),
        b'a'..=b'f' => Some(byte - b'a' + 10),
        _ => None,
    }
}

pub fn slot(token: &str) -> Option<usize> {
    let value = number(token)?;
    (value < 16).then_some(value as usize)
}
