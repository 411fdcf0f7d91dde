// Days, months and dates.

/// 31 December 2099; day 0 is Saturday, 1 January 2000.
pub const LAST_DAY: u32 = 36_524;
/// December 2099; month 0 is January 2000.
pub const LAST_MONTH: u32 = 1_199;
const FIRST_YEAR: u32 = 2000;
const LAST_YEAR: u32 = 2099;

struct Date {
    year: u32,
    month: u32, // 1 to 12
    day: u32,   // 1 to 31
}

fn days_in_month(year: u32, month: u32) -> u32 {
    match month {
        4 | 6 | 9 | 11 => 30,
        2 if year % 4 == 0 => 29,
        2 => 28,
        _ => 31,
    }
}

/// The day number of the first day of a month number (0 is January 2000).
pub fn first_day_of_month(month_number: u32) -> u32 {
    let mut first_day = 0;
    for earlier in 0..month_number {
        first_day += days_in_month(FIRST_YEAR + earlier / 12, earlier % 12 + 1);
    }
    first_day
}

fn month_number(year: u32, month: u32) -> u32 {
    (year - FIRST_YEAR) * 12 + month - 1
}

/// The date of a day number from 0 to LAST_DAY.
fn date_of_day(day: u32) -> Option<Date> {
    if day > LAST_DAY {
        return None;
    }
    let (mut year, mut month, mut left) = (FIRST_YEAR, 1, day);
    while left >= days_in_month(year, month) {
        left -= days_in_month(year, month);
        month += 1;
        if month == 13 {
            month = 1;
            year += 1;
        }
    }
    Some(Date { year, month, day: left + 1 })
}

pub fn month_of_day(day: u32) -> Option<u32> {
    date_of_day(day).map(|date| month_number(date.year, date.month))
}

/// 2026-12-30 for a day that has a date.
pub fn date_text(day: u32) -> Option<String> {
    date_of_day(day).map(|d| format!("{:04}-{:02}-{:02}", d.year, d.month, d.day))
}

/// The date of a day of the calendar, which always has one.
pub fn date_of(day: u32) -> String {
    date_text(day).expect("a day up to the last")
}

/// The day number of a date written 2026-12-30.
pub fn read_date(word: &str) -> Option<u32> {
    let bytes = word.as_bytes();
    if bytes.len() != 10 || bytes[4] != b'-' || bytes[7] != b'-' {
        return None;
    }
    let year = read_digits(&bytes[0..4])? as u32;
    let month = read_digits(&bytes[5..7])? as u32;
    let day = read_digits(&bytes[8..10])? as u32;
    if year < FIRST_YEAR || year > LAST_YEAR || month < 1 || month > 12 {
        return None;
    }
    if day < 1 || day > days_in_month(year, month) {
        return None;
    }
    Some(first_day_of_month(month_number(year, month)) + day - 1)
}

/// The value of bytes that are all digits, at least one.
pub fn read_digits(bytes: &[u8]) -> Option<u64> {
    if bytes.is_empty() {
        return None;
    }
    let mut value = 0u64;
    for &byte in bytes {
        if !byte.is_ascii_digit() {
            return None;
        }
        value = value.checked_mul(10)?.checked_add(u64::from(byte - b'0'))?;
    }
    Some(value)
}

const MONTH_LETTERS: &[u8; 12] = b"FGHJKMNQUVXZ";

/// The month number of a contract code.
pub fn read_code(code: &[u8]) -> Option<u32> {
    if code.len() != 6 || &code[0..3] != b"DI1" {
        return None;
    }
    let month = MONTH_LETTERS.iter().position(|&letter| letter == code[3])? as u32;
    let year = read_digits(&code[4..6])? as u32;
    Some(year * 12 + month)
}

/// DI1F27 for the month number 324.
pub fn code_text(month_number: u32) -> String {
    let letter = MONTH_LETTERS[(month_number % 12) as usize] as char;
    format!("DI1{letter}{:02}", month_number / 12)
}
