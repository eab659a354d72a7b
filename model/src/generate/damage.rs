//! Ways to damage a line.

use super::dice::Dice;

/// The line with one thing wrong. It may be of the form still, and it may have a line feed now.
pub fn damaged(dice: &mut Dice, line: &[u8]) -> Vec<u8> {
    if line.is_empty() {
        return line.to_vec();
    }
    match dice.below(12) {
        0..=4 => byte_damaged(dice, line),
        5..=7 => tokens_damaged(dice, line),
        _ => number_damaged(dice, line),
    }
}

fn byte_damaged(dice: &mut Dice, line: &[u8]) -> Vec<u8> {
    let mut bytes = line.to_vec();
    let at = dice.below(line.len() as u64) as usize;
    match dice.below(7) {
        0 => bytes[at] = dice.within(b' ' as u64, b'~' as u64) as u8,
        1 => bytes[at] = dice.below(256) as u8,
        2 => bytes[at] = dice.pick(b"0123456789+-rm \t\r\n#"),
        3 => {
            bytes.remove(at);
        }
        4 => bytes.insert(at, line[at]),
        5 => {
            // A position past the last byte too: a space at the end is a fault of its own.
            let anywhere = dice.below(line.len() as u64 + 1) as usize;
            bytes.insert(anywhere, dice.pick(b" \t\r0-+"));
        }
        _ => bytes.truncate(at),
    }
    bytes
}

fn tokens_damaged(dice: &mut Dice, line: &[u8]) -> Vec<u8> {
    let mut tokens: Vec<&[u8]> = line.split(|byte| *byte == b' ').collect();
    let count = tokens.len() as u64;
    let (one, other) = (dice.below(count) as usize, dice.below(count) as usize);
    match dice.below(4) {
        0 => tokens.swap(one, other),
        1 => {
            tokens.remove(one);
        }
        2 => tokens.insert(one, tokens[other]),
        _ => tokens[one] = tokens[other],
    }
    tokens.join(&b' ')
}

/// A number replaced by one near 2 to the power 30, 31, 32, 63 or 64, its sign kept. The last of these is past
/// what a number may be.
fn number_damaged(dice: &mut Dice, line: &[u8]) -> Vec<u8> {
    let mut tokens: Vec<Vec<u8>> = line.split(|byte| *byte == b' ').map(|token| token.to_vec()).collect();
    let numbers: Vec<usize> = (0..tokens.len()).filter(|&i| is_number(&tokens[i])).collect();
    if numbers.is_empty() {
        return line.to_vec();
    }
    let token = &mut tokens[dice.pick(&numbers)];
    let power = 1u128 << dice.pick(&[30, 31, 32, 63, 64]);
    let near = power + dice.below(5) as u128 - 2;
    let sign = if token[0].is_ascii_digit() { 0 } else { 1 };
    token.truncate(sign);
    token.extend(near.to_string().bytes());
    tokens.join(&b' ')
}

fn is_number(token: &[u8]) -> bool {
    let digits = token.strip_prefix(b"+").or(token.strip_prefix(b"-")).unwrap_or(token);
    !digits.is_empty() && digits.iter().all(|byte| byte.is_ascii_digit())
}
