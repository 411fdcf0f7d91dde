// Powers and roots, day factors, trade prices, ticks, and a price corrected over a day.

/// One, as a factor with nine decimals.
const ONE: u128 = 1_000_000_000;
/// The power of this factor to 252 is over 2, so it is above every root.
const MAX_FACTOR: u128 = 1_004_194_304;
const YEAR: u32 = 252;

fn power(factor: u128, times: u32) -> u128 {
    let mut power = ONE;
    for _ in 0..times {
        power = power * factor / ONE;
    }
    power
}

/// The greatest factor whose power to 252 is at most the target, by halving.
fn root(target: u128) -> u128 {
    let mut fits = ONE; // its power is at most the target
    let mut over = MAX_FACTOR; // its power is above the target
    while over - fits > 1 {
        let middle = (fits + over) / 2;
        if power(middle, YEAR) <= target {
            fits = middle;
        } else {
            over = middle;
        }
    }
    fits
}

pub const MAX_DI_RATE: u32 = 99_999_999;

/// The day factor, in units of 10^-8, of a DI rate in millionths of a percent.
pub fn day_factor(di_rate: u32) -> u64 {
    let factor = root(ONE + 10 * u128::from(di_rate));
    ((factor + 5) / 10) as u64
}

/// A price in centavos corrected over one reserve day, halves up.
pub fn correct_day(price: u64, factor: u64) -> u64 {
    ((u128::from(price) * u128::from(factor) + 50_000_000) / 100_000_000) as u64
}

pub const MAX_DEALT_RATE: u32 = 99_999;
pub const MAX_RESERVE_DAYS: u32 = 2_520;
/// The price at expiry, in centavos.
pub const MAX_PRICE: u64 = 10_000_000;

/// The price, in centavos, of a dealt rate in thousandths of a percent.
pub fn trade_price(rate: u32, reserve_days: u32) -> u64 {
    let rate = u128::from(rate);
    let years = reserve_days / YEAR;
    let rest = reserve_days % YEAR;
    let factor = root(ONE + 10_000 * rate);
    let mut worth = 10_000_000_000_000_000_000 / power(factor, rest) * 10_000;
    for _ in 0..years {
        worth = worth * 100_000 / (100_000 + rate);
    }
    ((worth + 5_000_000) / 10_000_000) as u64
}

/// Whether a dealt rate is on the tick of a distance in months.
pub fn on_tick(rate: u32, distance: i64) -> bool {
    if distance < 1 {
        false
    } else if distance <= 3 {
        true
    } else if distance <= 12 {
        rate % 5 == 0
    } else {
        rate % 10 == 0
    }
}
