// Numbers, rates, prices and amounts, as they are read and as they are printed.

use crate::dates::read_digits;

const MAX_NUMBER: u64 = 4_294_967_295;

/// Digits, at most 4,294,967,295.
pub fn read_number(word: &str) -> Option<u32> {
    let value = read_digits(word.as_bytes())?;
    if value > MAX_NUMBER {
        return None;
    }
    Some(value as u32)
}

/// A number up to 255.
pub fn read_account(word: &str) -> Option<u8> {
    read_number(word).filter(|&account| account <= 255).map(|account| account as u8)
}

/// A number, and where there is a point after it 1 to `decimals` more digits;
/// in units of the last of `decimals` digits, at most 4,294,967,295 of them.
fn read_decimal(word: &str, decimals: usize) -> Option<u32> {
    let (whole, fraction) = match word.split_once('.') {
        Some((whole, fraction)) => (whole, Some(fraction)),
        None => (word, None),
    };
    let mut value = u64::from(read_number(whole)?);
    let mut given = 0;
    if let Some(fraction) = fraction {
        if fraction.len() > decimals {
            return None;
        }
        let part = read_digits(fraction.as_bytes())?;
        given = fraction.len();
        value = value * 10u64.pow(given as u32) + part;
    }
    value *= 10u64.pow((decimals - given) as u32);
    if value > MAX_NUMBER {
        return None;
    }
    Some(value as u32)
}

/// A dealt rate in thousandths of a percent.
pub fn read_dealt_rate(word: &str) -> Option<u32> {
    read_decimal(word, 3)
}

/// A DI rate in millionths of a percent.
pub fn read_di_rate(word: &str) -> Option<u32> {
    read_decimal(word, 6)
}

/// A number of points, in centavos.
pub fn read_price(word: &str) -> Option<u64> {
    read_decimal(word, 2).map(u64::from)
}

/// A dealt rate in thousandths of a percent: 10.000
pub fn rate_text(rate: u32) -> String {
    format!("{}.{:03}", rate / 1000, rate % 1000)
}

/// A DI rate in millionths of a percent: 10.000000
pub fn di_rate_text(di_rate: u32) -> String {
    format!("{}.{:06}", di_rate / 1_000_000, di_rate % 1_000_000)
}

/// A price in centavos, in points: 99 924.39
pub fn price_text(price: u64) -> String {
    let points = price / 100;
    let hundredths = price % 100;
    if points < 1000 {
        format!("{points}.{hundredths:02}")
    } else {
        format!("{} {:03}.{hundredths:02}", points / 1000, points % 1000)
    }
}

/// A day factor in units of 10^-8: 1.00037829
pub fn factor_text(factor: u64) -> String {
    format!("{}.{:08}", factor / 100_000_000, factor % 100_000_000)
}

/// A whole number of parts, of which `parts` make one, with a minus where it is below 0.
fn signed_text(value: i128, parts: u128, decimals: usize) -> String {
    let sign = if value < 0 { "-" } else { "" };
    let size = value.unsigned_abs();
    format!("{sign}{}.{:0decimals$}", size / parts, size % parts)
}

/// An amount in centavos, in reais: -6.10
pub fn amount_text(amount: i128) -> String {
    signed_text(amount, 100, 2)
}

/// Thousandths: -1.234
pub fn thousandths_text(value: i128) -> String {
    signed_text(value, 1000, 3)
}

/// `1 line`, `2 lines`, `-1 line`.
pub fn count_text(count: i128, thing: &str) -> String {
    if count == 1 || count == -1 {
        format!("{count} {thing}")
    } else {
        format!("{count} {thing}s")
    }
}
