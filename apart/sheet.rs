// The trade sheet: read and written, shown as text and made from it.

use crate::dates::{code_text, date_text, read_code};
use crate::figures::{count_text, rate_text, read_number};
use crate::files::{at_line, lines_of_words, read_file, read_text_file, write_file};
use crate::words::{account, code, date, dealt_rate, quantity, unknown};

pub const MAX_TRADES: usize = 256;

/// A line of a sheet; the sides are those in rate.
pub struct TradeLine {
    pub buyer: u8,
    pub seller: u8,
    pub month: u32,
    pub rate: u32,
    pub quantity: u32,
}

pub struct Sheet {
    pub session_day: u32,
    pub trades: Vec<TradeLine>,
}

/// Why bytes are no sheet, and the line that is told.
pub struct Fault {
    pub line: usize,
    pub why: String,
}

fn fault(line: usize, why: String) -> Fault {
    Fault { line, why }
}

fn sheet_length(count: usize) -> usize {
    4 + 16 * count
}

fn two_bytes(bytes: &[u8], at: usize) -> u32 {
    u32::from(bytes[at]) + 256 * u32::from(bytes[at + 1])
}

fn four_bytes(bytes: &[u8], at: usize) -> u32 {
    two_bytes(bytes, at) + 65_536 * two_bytes(bytes, at + 2)
}

/// The sheet of these bytes, for the day of a ticket where one is given.
pub fn read_sheet(bytes: &[u8], ticket_day: Option<u32>) -> Result<Sheet, Fault> {
    let length = bytes.len();
    if length < 4 {
        return Err(fault(0, format!("length {length}, under 4")));
    }
    let count = two_bytes(bytes, 0) as usize;
    if count > MAX_TRADES {
        return Err(fault(0, format!("count {count}, over 256")));
    }
    if length != sheet_length(count) {
        let asked = sheet_length(count);
        return Err(fault(0, format!("length {length}, and the count asks for {asked}")));
    }
    let session_day = two_bytes(bytes, 2);
    if ticket_day.is_some_and(|day| day != session_day) {
        return Err(fault(0, "a day other than the ticket's".to_string()));
    }
    let mut trades = Vec::new();
    for line in 0..count {
        let pair = 4 + 2 * line;
        let term = 4 + 2 * count + 14 * line;
        let Some(month) = read_code(&bytes[term..term + 6]) else {
            return Err(fault(line, "no contract code".to_string()));
        };
        trades.push(TradeLine {
            buyer: bytes[pair],
            seller: bytes[pair + 1],
            month,
            rate: four_bytes(bytes, term + 6),
            quantity: four_bytes(bytes, term + 10),
        });
    }
    Ok(Sheet { session_day, trades })
}

pub fn write_sheet(sheet: &Sheet) -> Vec<u8> {
    let mut bytes = Vec::new();
    bytes.extend((sheet.trades.len() as u16).to_le_bytes());
    bytes.extend((sheet.session_day as u16).to_le_bytes());
    for trade in &sheet.trades {
        bytes.push(trade.buyer);
        bytes.push(trade.seller);
    }
    for trade in &sheet.trades {
        bytes.extend(code_text(trade.month).as_bytes());
        bytes.extend(trade.rate.to_le_bytes());
        bytes.extend(trade.quantity.to_le_bytes());
    }
    bytes
}

/// A file that is read as a sheet of any day.
pub fn read_sheet_file(name: &str) -> Result<Sheet, String> {
    let bytes = read_file(name)?;
    read_sheet(&bytes, None).map_err(|Fault { line, why }| format!("{name}: line {line}: {why}"))
}

/// The command `sheet show`.
pub fn show(file: &str) -> Result<String, String> {
    let sheet = read_sheet_file(file)?;
    let mut print = match date_text(sheet.session_day) {
        Some(date) => format!("session {date}\n"),
        None => format!("session day {}\n", sheet.session_day),
    };
    for trade in &sheet.trades {
        print += &format!(
            "trade {} {} {} {} {}\n",
            trade.buyer,
            trade.seller,
            code_text(trade.month),
            rate_text(trade.rate),
            trade.quantity
        );
    }
    Ok(print)
}

/// The session day of a session line.
fn read_session(words: &[&str]) -> Result<u32, String> {
    let expected = "expected: session DATE, or session day N".to_string();
    match words {
        [_, "day", number] => match read_number(number) {
            Some(day) if day <= 65_535 => Ok(day),
            _ => Err(expected),
        },
        [_, "day"] => Err(expected),
        [_, day] => date(day),
        _ => Err(expected),
    }
}

const TRADE: &str = "trade BUYER SELLER CODE RATE QUANTITY";

fn read_trade(words: &[&str]) -> Result<TradeLine, String> {
    let [_, buyer, seller, month, rate, contracts] = words else {
        return Err(format!("expected: {TRADE}"));
    };
    Ok(TradeLine {
        buyer: account(buyer)?,
        seller: account(seller)?,
        month: code(month)?,
        rate: dealt_rate(rate)?,
        quantity: quantity(contracts)?,
    })
}

const NO_SESSION: &str = "no session line; expected first: session DATE, or session day N";

/// The sheet that the text in a file describes.
fn read_sheet_text(file: &str) -> Result<Sheet, String> {
    let text = read_text_file(file)?;
    let lines = lines_of_words(&text);
    let Some(first) = lines.first() else {
        return Err(at_line(file, 1, NO_SESSION));
    };
    if first.words[0] != "session" {
        return Err(at_line(file, first.number, NO_SESSION));
    }
    let session_day = read_session(&first.words)
        .map_err(|message| at_line(file, first.number, &message))?;

    let mut trades = Vec::new();
    for line in &lines[1..] {
        let trade = match line.words[0] {
            "session" => Err("a second session".to_string()),
            "trade" => read_trade(&line.words),
            other => unknown(other, TRADE),
        };
        trades.push(trade.map_err(|message| at_line(file, line.number, &message))?);
        if trades.len() > MAX_TRADES {
            return Err(at_line(file, line.number, "over 256 trades"));
        }
    }
    Ok(Sheet { session_day, trades })
}

/// The command `sheet make`.
pub fn make(text_file: &str, file: &str) -> Result<String, String> {
    let sheet = read_sheet_text(text_file)?;
    let bytes = write_sheet(&sheet);
    write_file(file, &bytes)?;
    let trades = count_text(sheet.trades.len() as i128, "trade");
    Ok(format!("{file}: {trades}, {} bytes\n", bytes.len()))
}
