// The command `correct`: a settlement price corrected over the reserve days of a gap.

use crate::dates::date_of;
use crate::figures::{count_text, di_rate_text, factor_text, price_text};
use crate::interest::{correct_day, day_factor, MAX_PRICE};
use crate::office::read_office;
use crate::words;

const MAX_GAP_DAYS: usize = 252;

/// The heading or a row of the print of a correction.
fn row(day: &str, rate: &str, source: &str, factor: &str, price: &str) -> String {
    format!("{day:<11}  {rate:>9}  {source:<10}  {factor:>10}  {price:>10}\n")
}

pub fn correct(office_file: &str, from: &str, to: &str, price: &str) -> Result<String, String> {
    let office = read_office(office_file)?;
    let from_day = words::date(from)?;
    let to_day = words::date(to)?;
    let first_price = words::price(price)?;
    if first_price < 1 || first_price > MAX_PRICE {
        return Err("price not from 0.01 to 100 000.00".to_string());
    }
    if to_day < from_day {
        return Err("TO is before FROM".to_string());
    }
    let reserve_days = office.calendar.reserve_days(from_day, to_day);
    if reserve_days.len() > MAX_GAP_DAYS {
        return Err("over 252 reserve days".to_string());
    }

    let mut print = format!("from {from} at {}\n", price_text(first_price));
    print += &row("reserve day", "rate %", "source", "factor", "price");
    let mut price = first_price;
    let mut alone = None; // the first price corrected by the last rate only
    for &day in &reserve_days {
        let date = date_of(day);
        let Some((rate, source)) = office.rates.as_ref().and_then(|rates| rates.rate(day)) else {
            return Err(format!("no rate for {date}"));
        };
        let factor = day_factor(rate);
        price = correct_day(price, factor);
        alone = Some(correct_day(first_price, factor));
        let (rate, factor) = (di_rate_text(rate), factor_text(factor));
        print += &row(&date, &rate, source, &factor, &price_text(price));
    }
    let days = count_text(reserve_days.len() as i128, "reserve day");
    print += &format!("to {to}: {} over {days}\n", price_text(price));
    if let Some(alone) = alone {
        print += &format!("by the last rate alone: {}\n", price_text(alone));
    }
    Ok(print)
}
