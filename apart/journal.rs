// A journal: the lines of an office, the line that makes the book, and its calls.

use std::path::Path;

use crate::book::Account;
use crate::files::{at_line, lines_of_words, read_file_at, read_text_file};
use crate::office::{Office, OfficeLines};
use crate::words::{account, code, date, dealt_rate, di_rate, number, price, quantity, unknown};

/// A call of the book; months are month numbers, and a sheet is its bytes.
pub enum Call {
    Enter(Account),
    List { month: u32 },
    Publish { day: u32, rate: u32, period: u32 },
    Arbitrate { day: u32, rate: u32 },
    Open,
    Trade { buyer: usize, seller: usize, month: u32, rate: u32, quantity: u32 },
    Import(Vec<u8>),
    Mark { month: u32, price: u64 },
    Close,
    Pay,
    WriteOff,
    Position { account: usize, month: u32 },
    Balance { account: usize },
}

/// A call with the number of its line and its words.
pub struct CallLine {
    pub line: usize,
    pub words: Vec<String>,
    pub call: Call,
}

pub struct Journal {
    pub office: Office,
    pub number: u32,
    pub start_day: u32,
    pub calls: Vec<CallLine>,
}

const CALLS: [&str; 13] = [
    "enter CLIENT PARTICIPANT MEMBER",
    "list CODE",
    "publish DATE PERCENT [PERIOD]",
    "arbitrate DATE PERCENT",
    "open",
    "trade BUYER SELLER CODE RATE QUANTITY",
    "import SHEET",
    "mark CODE PRICE",
    "close",
    "pay",
    "write-off",
    "position ACCOUNT CODE",
    "balance ACCOUNT",
];

/// How the call of a first word is written.
fn form_of(word: &str) -> Option<&'static str> {
    CALLS.into_iter().find(|form| form.split(' ').next() == Some(word))
}

/// The call of a line; sheets are in the folder.
fn read_call(folder: &Path, words: &[&str]) -> Result<Call, String> {
    let Some(form) = form_of(words[0]) else {
        return unknown(words[0], "a call, as: open");
    };
    let call = match words {
        ["enter", client, participant, member] => Call::Enter(Account {
            client: number(client)?,
            participant: number(participant)?,
            member: number(member)?,
        }),
        ["list", month] => Call::List { month: code(month)? },
        ["publish", day, rate] => {
            Call::Publish { day: date(day)?, rate: di_rate(rate)?, period: 1 }
        }
        ["publish", day, rate, period] => {
            Call::Publish { day: date(day)?, rate: di_rate(rate)?, period: number(period)? }
        }
        ["arbitrate", day, rate] => Call::Arbitrate { day: date(day)?, rate: di_rate(rate)? },
        ["open"] => Call::Open,
        ["trade", buyer, seller, month, rate, contracts] => Call::Trade {
            buyer: account(buyer)?.into(),
            seller: account(seller)?.into(),
            month: code(month)?,
            rate: dealt_rate(rate)?,
            quantity: quantity(contracts)?,
        },
        ["import", sheet] => Call::Import(read_file_at(&folder.join(sheet), sheet)?),
        ["mark", month, points] => Call::Mark { month: code(month)?, price: price(points)? },
        ["close"] => Call::Close,
        ["pay"] => Call::Pay,
        ["write-off"] => Call::WriteOff,
        ["position", of, month] => Call::Position { account: account(of)?.into(), month: code(month)? },
        ["balance", of] => Call::Balance { account: account(of)?.into() },
        _ => return Err(format!("expected: {form}")),
    };
    Ok(call)
}

/// The number and the start day of a `book` line.
fn read_book(words: &[&str]) -> Result<(u32, u32), String> {
    let [_, of, start] = words else {
        return Err("expected: book NUMBER DATE".to_string());
    };
    Ok((number(of)?, date(start)?))
}

pub fn read_journal(file: &str) -> Result<Journal, String> {
    let text = read_text_file(file)?;
    let folder = Path::new(file).parent().unwrap_or(Path::new(""));
    let lines = lines_of_words(&text);
    let mut office = OfficeLines::start_of(file, &lines)?;
    let mut book = None;
    let mut calls = Vec::new();
    for line in &lines[1..] {
        let words = &line.words;
        let taken = match words[0] {
            "book" if book.is_some() => Err("a second book".to_string()),
            "book" => read_book(words).map(|made| book = Some(made)),
            "calendar" | "exception" | "rates" | "rate" if book.is_some() => {
                Err("an office line after the book line".to_string())
            }
            _ if book.is_some() => read_call(folder, words).map(|call| {
                let words = words.iter().map(|word| word.to_string()).collect();
                calls.push(CallLine { line: line.number, words, call });
            }),
            word if word != "arbitrate" && form_of(word).is_some() => {
                Err("no book line before; expected: book NUMBER DATE".to_string())
            }
            _ => office.add(words, "exception, rates, rate, arbitrate or book"),
        };
        taken.map_err(|message| at_line(file, line.number, &message))?;
    }
    let Some((number, start_day)) = book else {
        let last = text.lines().count();
        return Err(at_line(file, last, "no book line; expected: book NUMBER DATE"));
    };
    Ok(Journal { office: office.office(), number, start_day, calls })
}
