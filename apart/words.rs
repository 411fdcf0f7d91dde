// Words as what they say, or a message that says what was expected.

use crate::dates::{read_code, read_date};
use crate::figures::{read_account, read_dealt_rate, read_di_rate, read_number, read_price};

fn known<T>(value: Option<T>, what: &str, word: &str, expected: &str) -> Result<T, String> {
    value.ok_or(format!("{what}: {word}; expected {expected}"))
}

const DIGITS: &str = "digits, at most 4294967295";

pub fn number(word: &str) -> Result<u32, String> {
    known(read_number(word), "no number", word, DIGITS)
}

pub fn quantity(word: &str) -> Result<u32, String> {
    known(read_number(word), "no quantity", word, DIGITS)
}

pub fn account(word: &str) -> Result<u8, String> {
    known(read_account(word), "no account", word, "a number up to 255")
}

pub fn date(word: &str) -> Result<u32, String> {
    let expected = "one like 2026-12-30, from 2000-01-01 to 2099-12-31";
    known(read_date(word), "no date", word, expected)
}

pub fn code(word: &str) -> Result<u32, String> {
    known(read_code(word.as_bytes()), "no contract code", word, "one like DI1F27")
}

pub fn dealt_rate(word: &str) -> Result<u32, String> {
    let expected = "a percentage like 10.5, with at most 3 decimals";
    known(read_dealt_rate(word), "no rate", word, expected)
}

pub fn di_rate(word: &str) -> Result<u32, String> {
    let expected = "a percentage like 10.5, with at most 6 decimals";
    known(read_di_rate(word), "no rate", word, expected)
}

pub fn price(word: &str) -> Result<u64, String> {
    let expected = "points like 99925.00, with at most 2 decimals";
    known(read_price(word), "no price", word, expected)
}

/// A first word that no line has.
pub fn unknown<T>(word: &str, expected: &str) -> Result<T, String> {
    known(None, "unknown word", word, expected)
}
