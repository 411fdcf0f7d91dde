// What a run prints for each call, as text and as JSON.

use crate::book::{Book, Stop};
use crate::dates::{code_text, date_of};
use crate::figures::{amount_text, count_text, price_text};
use crate::journal::CallLine;
use crate::refusals::{Refusal, Told};
use crate::replay::Answer;

/// `line L refused N by the book: CAUSE`
fn stop_text(stop: &Stop) -> String {
    let Stop { line, refusal, .. } = stop;
    let layer = layer(stop);
    format!("line {line} refused {} by the {layer}: {}", refusal.number, refusal.cause())
}

fn layer(stop: &Stop) -> &'static str {
    if stop.by_sheet {
        "sheet"
    } else {
        "book"
    }
}

/// What ends a strict run, if the answer does.
pub fn refusal_text(answer: &Answer) -> Option<String> {
    match answer {
        Answer::Refused(refusal) => Some(refusal.text()),
        Answer::Imported { stop: Some(stop), .. } => Some(stop_text(stop)),
        _ => None,
    }
}

fn answer_text(answer: &Answer) -> String {
    match answer {
        Answer::Account(index) => format!("account {index}"),
        Answer::Month { index, expiry } => format!("month {index}, expires {}", date_of(*expiry)),
        Answer::Published => "published".to_string(),
        Answer::Arbitrated => "arbitrated".to_string(),
        Answer::Opened { day } => format!("session {}", date_of(*day)),
        Answer::Price(price) => price_text(*price),
        Answer::Imported { taken, stop } => {
            let lines = count_text(*taken as i128, "line");
            match stop {
                None => format!("{lines} taken"),
                Some(stop) => format!("{lines} taken; {}", stop_text(stop)),
            }
        }
        Answer::Marked => "marked".to_string(),
        Answer::Closed { day, .. } => format!("session {} closed", date_of(*day)),
        Answer::Paid { day } => format!("session {} paid", date_of(*day)),
        Answer::WrittenOff { number, day } => {
            format!("book {number}, session {}, written off", date_of(*day))
        }
        Answer::Position(position) => count_text(i128::from(*position), "contract"),
        Answer::Balance { paid, due } => {
            let (paid, due) = (i128::from(*paid), i128::from(*due));
            format!("paid {}, due {}", amount_text(paid), amount_text(due))
        }
        Answer::Refused(refusal) => refusal.text(),
        Answer::NotHeld(missing) => format!("nothing done: {missing}"),
    }
}

/// The heading or a row of the table of a close.
fn close_row(account: &str, month: &str, adjustment: &str, day_trade: &str, due: &str) -> String {
    format!("{account:>14}  {month:<6}{adjustment:>15}{day_trade:>17}{due:>15}\n")
}

/// The lines of a call and its answer.
pub fn text(line: &CallLine, answer: &Answer, book: &Book) -> String {
    let words = line.words.join(" ");
    let mut print = format!("{:>5}  {words}: {}\n", line.line, answer_text(answer));
    if let Answer::Closed { close, due, .. } = answer {
        print += &close_row("account", "month", "adjustment", "day-trade part", "total due");
        for account in 0..book.accounts().len() {
            for (month, &month_number) in book.months().iter().enumerate() {
                let amount = |amount: i64| amount_text(i128::from(amount));
                print += &close_row(
                    &account.to_string(),
                    &code_text(month_number),
                    &amount(close.adjustments[account][month]),
                    &amount(close.day_trades[account][month]),
                    &amount(due[account]),
                );
            }
        }
    }
    print
}

fn json_refusal(refusal: &Refusal) -> String {
    let Refusal { number, told } = refusal;
    let cause = refusal.cause();
    let told = match *told {
        Told::Nothing => String::new(),
        Told::Month(month) => format!(",\"month\":\"{}\"", code_text(month)),
        Told::Day(day) => format!(",\"day\":\"{}\"", date_of(day)),
    };
    format!(",\"refused\":{number},\"why\":\"{cause}\"{told}")
}

fn json_rows(rows: &[Vec<i64>]) -> String {
    let row = |row: &Vec<i64>| {
        let amounts: Vec<String> = row.iter().map(|amount| amount.to_string()).collect();
        format!("[{}]", amounts.join(","))
    };
    format!("[{}]", rows.iter().map(row).collect::<Vec<String>>().join(","))
}

/// The members of an answer, each with a comma before it.
fn json_answer(answer: &Answer) -> String {
    match answer {
        Answer::Account(index) => format!(",\"index\":{index}"),
        Answer::Month { index, expiry } => {
            format!(",\"index\":{index},\"expiry\":\"{}\"", date_of(*expiry))
        }
        Answer::Published | Answer::Arbitrated | Answer::Marked => String::new(),
        Answer::Opened { day } | Answer::Paid { day } => format!(",\"day\":\"{}\"", date_of(*day)),
        Answer::Price(price) => format!(",\"price\":{price}"),
        Answer::Imported { taken, stop } => {
            let mut members = format!(",\"taken\":{taken}");
            if let Some(stop) = stop {
                let Stop { line, refusal, .. } = stop;
                members += &format!(",\"at\":{line},\"refused\":{}", refusal.number);
                let (layer, cause) = (layer(stop), refusal.cause());
                members += &format!(",\"layer\":\"{layer}\",\"why\":\"{cause}\"");
            }
            members
        }
        Answer::Closed { day, close, .. } => format!(
            ",\"day\":\"{}\",\"adjustments\":{},\"day_trades\":{}",
            date_of(*day),
            json_rows(&close.adjustments),
            json_rows(&close.day_trades)
        ),
        Answer::WrittenOff { number, day } => {
            format!(",\"number\":{number},\"day\":\"{}\"", date_of(*day))
        }
        Answer::Position(position) => format!(",\"contracts\":{position}"),
        Answer::Balance { paid, due } => format!(",\"paid\":{paid},\"due\":{due}"),
        Answer::Refused(refusal) => json_refusal(refusal),
        Answer::NotHeld(missing) => format!(",\"nothing\":\"{missing}\""),
    }
}

/// The object of a call and its answer.
pub fn json(line: &CallLine, answer: &Answer) -> String {
    let call = &line.words[0];
    format!("{{\"line\":{},\"call\":\"{call}\"{}}}\n", line.line, json_answer(answer))
}
