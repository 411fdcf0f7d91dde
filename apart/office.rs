// The lines of an office: its calendar and its rates.

use crate::calendar::{Calendar, DayKind, Exception};
use crate::files::{at_line, lines_of_words, read_file, read_text_file, Line};
use crate::rates::Rates;
use crate::words::{date, di_rate, number, unknown};

/// A calendar, and the rates where the office has any.
pub struct Office {
    pub calendar: Calendar,
    pub rates: Option<Rates>,
}

/// What the lines up to now say.
pub struct OfficeLines {
    /// The bytes of a marked calendar, none for a rule calendar.
    marks: Option<Vec<u8>>,
    exceptions: Vec<Exception>,
    rates: Option<Rates>,
}

const MAX_RATES: u32 = 36_525;

const NO_CALENDAR: &str =
    "no calendar line; expected first: calendar rule, or calendar marked FILE";

fn read_exception(words: &[&str]) -> Result<Exception, String> {
    if words.len() != 3 {
        return Err("expected: exception DATE closed, reserve or session".to_string());
    }
    let day = date(words[1])?;
    let kind = match words[2] {
        "closed" => DayKind::Closed,
        "reserve" => DayKind::Reserve,
        "session" => DayKind::Session,
        other => {
            return Err(format!("no kind of day: {other}; expected closed, reserve or session"));
        }
    };
    Ok(Exception { day, kind })
}

/// The empty table of a `rates` line.
fn read_rates(words: &[&str]) -> Result<Rates, String> {
    let [_, "table", first, count] = words else {
        return Err("expected: rates table FIRST COUNT".to_string());
    };
    let first_day = date(first)?;
    let days = number(count)?;
    if days > MAX_RATES {
        return Err("over 36525 days".to_string());
    }
    Ok(Rates::table(first_day, days))
}

/// The day and the DI rate of a `rate` or `arbitrate` line.
fn read_day_rate(words: &[&str]) -> Result<(u32, u32), String> {
    let [_, day, percent] = words else {
        return Err(format!("expected: {} DATE PERCENT", words[0]));
    };
    Ok((date(day)?, di_rate(percent)?))
}

/// Publishes or arbitrates what a line says.
fn add_rate(rates: &mut Option<Rates>, words: &[&str]) -> Result<(), String> {
    let Some(rates) = rates else {
        return Err("no rates line before; expected: rates table FIRST COUNT".to_string());
    };
    let (day, rate) = read_day_rate(words)?;
    let answer = match words[0] {
        "rate" => rates.publish(day, rate, 1),
        _ => rates.arbitrate(day, rate),
    };
    answer.map_err(|refusal| refusal.text())
}

impl OfficeLines {
    /// The first line, which says the calendar.
    fn start(words: &[&str]) -> Result<OfficeLines, String> {
        let marks = match words {
            ["calendar", "rule"] => None,
            ["calendar", "marked", name] => Some(read_file(name)?),
            ["calendar", ..] => {
                return Err("expected: calendar rule, or calendar marked FILE".to_string());
            }
            _ => return Err(NO_CALENDAR.to_string()),
        };
        Ok(OfficeLines { marks, exceptions: Vec::new(), rates: None })
    }

    /// The first line of a file; a file without one lacks the calendar.
    pub fn start_of(file: &str, lines: &[Line]) -> Result<OfficeLines, String> {
        let Some(first) = lines.first() else {
            return Err(at_line(file, 1, NO_CALENDAR));
        };
        OfficeLines::start(&first.words).map_err(|message| at_line(file, first.number, &message))
    }

    /// One more line, whose first word is to be one of the expected.
    pub fn add(&mut self, words: &[&str], expected: &str) -> Result<(), String> {
        match words[0] {
            "calendar" => return Err("a second calendar".to_string()),
            "exception" if self.marks.is_some() => {
                return Err("a marked calendar takes no exception".to_string());
            }
            "exception" => self.exceptions.push(read_exception(words)?),
            "rates" if self.rates.is_some() => return Err("a second rates line".to_string()),
            "rates" => self.rates = Some(read_rates(words)?),
            "rate" | "arbitrate" => add_rate(&mut self.rates, words)?,
            other => return unknown(other, expected),
        }
        Ok(())
    }

    pub fn office(self) -> Office {
        let calendar = match self.marks {
            Some(bytes) => Calendar::of_marks(&bytes),
            None => Calendar::of_exceptions(&self.exceptions),
        };
        Office { calendar, rates: self.rates }
    }
}

pub fn read_office(file: &str) -> Result<Office, String> {
    let text = read_text_file(file)?;
    let lines = lines_of_words(&text);
    let mut office = OfficeLines::start_of(file, &lines)?;
    for line in &lines[1..] {
        let taken = office.add(&line.words, "exception, rates, rate or arbitrate");
        taken.map_err(|message| at_line(file, line.number, &message))?;
    }
    Ok(office.office())
}
