// The command `prices`: every line of a sheet, priced on the calendar of an office.

use crate::calendar::{Calendar, DayKind};
use crate::command_line::Given;
use crate::dates::{code_text, date_text, month_of_day, LAST_MONTH};
use crate::figures::{count_text, price_text, rate_text};
use crate::interest::{on_tick, trade_price, MAX_DEALT_RATE, MAX_RESERVE_DAYS};
use crate::office::read_office;
use crate::sheet::{read_sheet_file, TradeLine};
use crate::tables::write_table;

/// What is told of a line: the expiry if the month has one, the reserve days
/// if the trade is not expired, and the price or why there is none.
struct PricedLine {
    expiry: Option<u32>,
    reserve_days: Option<u32>,
    price: Result<u64, &'static str>,
}

fn price_line(calendar: &Calendar, day: u32, session_month: u32, trade: &TradeLine) -> PricedLine {
    let Some(expiry) = calendar.expiry(trade.month) else {
        return PricedLine { expiry: None, reserve_days: None, price: Err("month has no session") };
    };
    if expiry <= day {
        return PricedLine { expiry: Some(expiry), reserve_days: None, price: Err("expired") };
    }
    let reserve_days = calendar.reserve_days(day, expiry).len() as u32;
    let distance = i64::from(trade.month) - i64::from(session_month);
    let price = if trade.rate > MAX_DEALT_RATE {
        Err("rate over 99.999 %")
    } else if !on_tick(trade.rate, distance) {
        Err("rate off the tick")
    } else if reserve_days > MAX_RESERVE_DAYS {
        Err("over 2520 reserve days")
    } else {
        Ok(trade_price(trade.rate, reserve_days))
    };
    PricedLine { expiry: Some(expiry), reserve_days: Some(reserve_days), price }
}

/// One row of the print.
fn row(line: usize, trade: &TradeLine, priced: &PricedLine) -> String {
    // Who buys in rate sells in price.
    let price_buyer = trade.seller;
    let price_seller = trade.buyer;
    let expiry = priced.expiry.and_then(date_text).unwrap_or("-".to_string());
    let days = priced.reserve_days.map_or("-".to_string(), |days| days.to_string());
    let price = match priced.price {
        Ok(price) => format!("{:>10}", price_text(price)),
        Err(cause) => format!("not priced: {cause}"),
    };
    [
        format!("{line:>4}"),
        format!("{:>10}", trade.buyer),
        format!("{:>11}", trade.seller),
        format!("{price_buyer:>8}"),
        format!("{price_seller:>9}"),
        code_text(trade.month),
        format!("{expiry:<10}"),
        format!("{days:>4}"),
        format!("{:>8}", rate_text(trade.rate)),
        format!("{:>9}", trade.quantity),
        price,
    ]
    .join("  ")
}

const HEADING: &str = "line  rate buyer  rate seller  PU buyer  PU seller  code    expiry      days    rate %  contracts          PU";

pub fn prices(office_file: &str, sheet_file: &str, given: &Given) -> Result<String, String> {
    let calendar = read_office(office_file)?.calendar;
    let sheet = read_sheet_file(sheet_file)?;
    let session_day = sheet.session_day;
    let session = date_text(session_day).unwrap_or(format!("day {session_day}"));
    let session_month = match month_of_day(session_day) {
        Some(month) if calendar.kind(session_day) == DayKind::Session => month,
        _ => return Err(format!("{sheet_file}: {session} is no session of the calendar")),
    };

    let lines: Vec<PricedLine> = sheet
        .trades
        .iter()
        .map(|trade| price_line(&calendar, session_day, session_month, trade))
        .collect();
    let report = Report { session, trades: &sheet.trades, lines };
    if let Some(folder) = given.csv {
        report.write_tables(folder)?;
    }
    Ok(if given.json { report.json() } else { report.text() })
}

/// A sheet that is priced.
struct Report<'a> {
    session: String,
    trades: &'a [TradeLine],
    lines: Vec<PricedLine>,
}

/// How many there are, and how many of them are priced.
struct Count {
    all: i128,
    priced: i128,
}

impl Report<'_> {
    /// The sum of a number of each line.
    fn count(&self, number: impl Fn(&TradeLine) -> i128) -> Count {
        let mut count = Count { all: 0, priced: 0 };
        for (trade, line) in self.trades.iter().zip(&self.lines) {
            count.all += number(trade);
            if line.price.is_ok() {
                count.priced += number(trade);
            }
        }
        count
    }

    /// The months that the trades name, in their order, each with its lines and contracts.
    fn months(&self) -> Vec<(u32, usize, i128)> {
        let mut months = Vec::new();
        for month in 0..=LAST_MONTH {
            let of_month = self.trades.iter().filter(|trade| trade.month == month);
            let quantities: Vec<i128> = of_month.map(|trade| i128::from(trade.quantity)).collect();
            if !quantities.is_empty() {
                months.push((month, quantities.len(), quantities.iter().sum()));
            }
        }
        months
    }

    fn text(&self) -> String {
        let mut print = format!("session {}\n{HEADING}\n", self.session);
        for (line, (trade, priced)) in self.trades.iter().zip(&self.lines).enumerate() {
            print += &row(line, trade, priced);
            print += "\n";
        }
        let lines = self.count(|_| 1);
        let contracts = self.count(|trade| i128::from(trade.quantity));
        for (thing, Count { all, priced }) in [("line", lines), ("contract", contracts)] {
            let left = all - priced;
            let all = count_text(all, thing);
            print += &format!("total: {all}, {priced} priced, {left} not priced\n");
        }
        for (month, lines, contracts) in self.months() {
            let lines = count_text(lines as i128, "line");
            let contracts = count_text(contracts, "contract");
            print += &format!("{}: {lines}, {contracts}\n", code_text(month));
        }
        print
    }

    /// The names and the values of each line.
    fn line_fields(&self) -> Vec<Vec<Field>> {
        let fields = |(number, (trade, line)): (usize, (&TradeLine, &PricedLine))| {
            let expiry = line.expiry.and_then(date_text).map(Value::Text);
            let not_priced = line.price.err().map(|cause| Value::Text(cause.to_string()));
            vec![
                ("session", Value::Text(self.session.clone())),
                ("line", whole(number as i128)),
                ("rate_buyer", whole(trade.buyer)),
                ("rate_seller", whole(trade.seller)),
                ("price_buyer", whole(trade.seller)),
                ("price_seller", whole(trade.buyer)),
                ("month", Value::Text(code_text(trade.month))),
                ("expiry", expiry.unwrap_or(Value::Nothing)),
                ("days", line.reserve_days.map_or(Value::Nothing, whole)),
                ("rate", whole(trade.rate)),
                ("quantity", whole(trade.quantity)),
                ("price", line.price.map_or(Value::Nothing, whole)),
                ("not_priced", not_priced.unwrap_or(Value::Nothing)),
            ]
        };
        self.trades.iter().zip(&self.lines).enumerate().map(fields).collect()
    }

    fn total_fields(&self) -> Vec<Field> {
        let lines = self.count(|_| 1);
        let contracts = self.count(|trade| i128::from(trade.quantity));
        vec![
            ("session", Value::Text(self.session.clone())),
            ("lines", whole(lines.all)),
            ("lines_priced", whole(lines.priced)),
            ("lines_not_priced", whole(lines.all - lines.priced)),
            ("contracts", whole(contracts.all)),
            ("contracts_priced", whole(contracts.priced)),
            ("contracts_not_priced", whole(contracts.all - contracts.priced)),
        ]
    }

    fn month_fields(&self) -> Vec<Vec<Field>> {
        let fields = |(month, lines, contracts): (u32, usize, i128)| {
            vec![
                ("session", Value::Text(self.session.clone())),
                ("month", Value::Text(code_text(month))),
                ("lines", whole(lines as i128)),
                ("contracts", whole(contracts)),
            ]
        };
        self.months().into_iter().map(fields).collect()
    }

    fn json(&self) -> String {
        let mut print = String::new();
        let mut add = |fields: &Vec<Field>| {
            let members: Vec<String> = fields.iter().map(json_member).collect();
            print += &format!("{{{}}}\n", members.join(","));
        };
        self.line_fields().iter().for_each(&mut add);
        add(&self.total_fields());
        self.month_fields().iter().for_each(&mut add);
        print
    }

    fn write_tables(&self, folder: &str) -> Result<(), String> {
        write_table(folder, "prices.csv", &table(LINES, &self.line_fields()))?;
        write_table(folder, "totals.csv", &table(TOTALS, &[self.total_fields()]))?;
        write_table(folder, "months.csv", &table(MONTHS, &self.month_fields()))
    }
}

/// What a member of an object or a field of a row has.
enum Value {
    Nothing,
    Whole(i128),
    Text(String),
}

type Field = (&'static str, Value);

fn whole(number: impl Into<i128>) -> Value {
    Value::Whole(number.into())
}

fn json_member((name, value): &Field) -> String {
    match value {
        Value::Nothing => format!("\"{name}\":null"),
        Value::Whole(number) => format!("\"{name}\":{number}"),
        Value::Text(text) => format!("\"{name}\":\"{text}\""),
    }
}

const LINES: &str = "session,line,rate_buyer,rate_seller,price_buyer,price_seller,month,expiry,days,rate,quantity,price,not_priced\n";
const TOTALS: &str = "session,lines,lines_priced,lines_not_priced,contracts,contracts_priced,contracts_not_priced\n";
const MONTHS: &str = "session,month,lines,contracts\n";

/// The columns, then a line for each row.
fn table(columns: &str, rows: &[Vec<Field>]) -> String {
    let mut text = columns.to_string();
    for row in rows {
        let field = |(_, value): &Field| match value {
            Value::Nothing => String::new(),
            Value::Whole(number) => number.to_string(),
            Value::Text(text) => text.clone(),
        };
        text += &row.iter().map(field).collect::<Vec<String>>().join(",");
        text += "\n";
    }
    text
}
