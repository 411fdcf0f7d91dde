// Makes random journals and their sheets:
//
//     journals FOLDER N SEED
//
// writes N journals into FOLDER, the first from the number SEED, the next from SEED + 1, and so on.
// That of SEED is SEED.journal, with its sheets SEED-0.bin and so on, its marks SEED.marks where
// its calendar is marked, and its office lines alone as SEED.office. Paths in them are for a
// program that is run in FOLDER.
//
// A book follows the calls while they are written, so that most of them are accepted and the
// limits are reached.

#![allow(dead_code)]

mod book;
mod calendar;
mod dates;
mod figures;
mod files;
mod interest;
mod rates;
mod refusals;
mod sheet;
mod words;

use std::env;
use std::fs;
use std::process::ExitCode;

use book::{Account, Book, SessionReference, MAX_POSITION};
use calendar::{Calendar, DayKind, Exception};
use dates::{code_text, date_of, month_of_day, LAST_DAY, LAST_MONTH};
use interest::{trade_price, MAX_DEALT_RATE, MAX_DI_RATE, MAX_PRICE, MAX_RESERVE_DAYS};
use rates::Rates;
use sheet::{write_sheet, Sheet, TradeLine, MAX_TRADES};

// ------------------------------------------------------------- chance

/// Numbers that look random, the same from the same start.
struct Dice(u64);

impl Dice {
    fn next(&mut self) -> u64 {
        self.0 = self.0.wrapping_add(0x9e37_79b9_7f4a_7c15);
        let mut mixed = self.0;
        mixed = (mixed ^ (mixed >> 30)).wrapping_mul(0xbf58_476d_1ce4_e5b9);
        mixed = (mixed ^ (mixed >> 27)).wrapping_mul(0x94d0_49bb_1331_11eb);
        mixed ^ (mixed >> 31)
    }

    /// A number from `low` to `high`.
    fn within(&mut self, low: u32, high: u32) -> u32 {
        low + (self.next() % (u64::from(high - low) + 1)) as u32
    }

    /// A place in a list of so many.
    fn place(&mut self, count: usize) -> usize {
        (self.next() % count as u64) as usize
    }

    fn of<T: Copy>(&mut self, list: &[T]) -> T {
        list[self.place(list.len())]
    }

    /// Whether something happens that does in so many of a hundred cases.
    fn chance(&mut self, percent: u32) -> bool {
        self.within(1, 100) <= percent
    }
}

// -------------------------------------------------------------- words

/// A number, at times with zeros before it.
fn number_word(dice: &mut Dice, number: u32) -> String {
    if dice.chance(2) {
        format!("00{number}")
    } else {
        number.to_string()
    }
}

/// A number of parts, of which 10^decimals make one, at times without the zeros at the end.
fn decimal_word(dice: &mut Dice, value: u64, decimals: usize) -> String {
    let one = 10u64.pow(decimals as u32);
    let mut word = format!("{}.{:0decimals$}", value / one, value % one);
    if dice.chance(40) {
        word = word.trim_end_matches('0').trim_end_matches('.').to_string();
    }
    word
}

/// A line of these words, now and then with other blanks between them.
fn line_of(dice: &mut Dice, words: &[String]) -> String {
    if !dice.chance(3) {
        return words.join(" ");
    }
    let blank = dice.of(&["\t", "  ", " \t ", "\u{a0}", "\u{2003}", "\u{b}"]);
    let around = dice.of(&["", " ", "\t"]);
    format!("{around}{}{around}", words.join(blank))
}

// ------------------------------------------------------------- office

/// What a journal is made to reach.
#[derive(Clone, Copy, PartialEq)]
enum Aim {
    /// Some weeks with a few accounts and months.
    Plain,
    /// More accounts or months than there is room for.
    Wide,
    /// More trades than a session takes.
    Full,
    /// Positions up to the limit and past it.
    Heavy,
    /// More arbitrated days than there is room for.
    Arbitrated,
    /// Months around 2,520 reserve days away.
    Far,
    /// Sessions around 60 days apart.
    Sparse,
    /// Calls of any kind in any order.
    Wild,
}

const AIMS: [Aim; 11] = [
    Aim::Plain,
    Aim::Plain,
    Aim::Plain,
    Aim::Wide,
    Aim::Full,
    Aim::Heavy,
    Aim::Arbitrated,
    Aim::Far,
    Aim::Sparse,
    Aim::Wild,
    Aim::Wild,
];

fn words(line: &str) -> Vec<String> {
    line.split(' ').map(str::to_string).collect()
}

/// A start day, often in years that are near, at times at an end of the calendar.
fn start_day(dice: &mut Dice) -> u32 {
    match dice.within(1, 20) {
        1 => dice.within(0, 5),
        2 => dice.within(LAST_DAY - 90, LAST_DAY),
        3..=6 => dice.within(0, LAST_DAY),
        _ => dice.within(9_000, 10_500),
    }
}

/// A rule calendar with exceptions around the start day.
fn rule_calendar(dice: &mut Dice, start: u32, lines: &mut Vec<Vec<String>>) -> Calendar {
    lines.push(words("calendar rule"));
    let mut exceptions = Vec::new();
    for _ in 0..dice.of(&[0, 3, 12]) {
        let day = dice.within(start.saturating_sub(5), (start + 60).min(LAST_DAY));
        exceptions.push((day, dice.within(0, 2)));
    }
    if dice.chance(10) {
        // A closure of some two months.
        let first = start + dice.within(3, 12);
        let count = dice.within(57, 64);
        for day in (first..first + count).filter(|day| day % 7 >= 2 && *day <= LAST_DAY) {
            exceptions.push((day, dice.within(0, 1)));
        }
    }
    for (day, kind) in &exceptions {
        let kind = ["closed", "reserve", "session"][*kind as usize];
        lines.push(words(&format!("exception {} {kind}", date_of(*day))));
    }
    let kind = |kind| [DayKind::Closed, DayKind::Reserve, DayKind::Session][kind as usize];
    let meant: Vec<Exception> =
        exceptions.iter().map(|&(day, number)| Exception { day, kind: kind(number) }).collect();
    Calendar::of_exceptions(&meant)
}

/// The bytes of a marked calendar: any bytes at first, then week after week from the start on, or
/// sessions that are far apart; they may end before the last day or go on after it.
fn marks(dice: &mut Dice, aim: Aim, start: u32) -> Vec<u8> {
    let mut bytes: Vec<u8> = (0..start).map(|_| dice.of(&[0, 1, 2, 3, 255])).collect();
    let sparse = aim == Aim::Sparse;
    let every_day = dice.chance(20);
    let mut left = dice.within(0, 3); // days until the next session
    while bytes.len() <= LAST_DAY as usize {
        let weekend = bytes.len() % 7 < 2;
        bytes.push(if sparse && left > 0 {
            left -= 1;
            dice.of(&[0, 1, 1, 7])
        } else if sparse {
            left = dice.of(&[0, 1, 3, 20, 58, 59, 59, 60]);
            2
        } else if every_day {
            dice.of(&[2, 2, 2, 2, 2, 2, 1])
        } else if weekend {
            0
        } else {
            dice.of(&[2, 2, 2, 2, 2, 2, 2, 2, 2, 2, 1, 0, 9])
        });
    }
    if dice.chance(10) {
        bytes.truncate((start + dice.within(0, 400)) as usize);
    } else if dice.chance(20) {
        bytes.extend([2; 100]);
    }
    bytes
}

/// A DI rate, mostly of some ten percent, at times at its ends.
fn di_rate(dice: &mut Dice) -> u32 {
    match dice.within(1, 20) {
        1 => 0,
        2 => MAX_DI_RATE,
        3 => 1,
        4 => dice.within(0, MAX_DI_RATE),
        5..=10 => dice.within(100, 1_500) * 10_000,
        _ => dice.within(9_000_000, 15_000_000),
    }
}

/// The calendar of an office, with its lines.
fn make_calendar(
    dice: &mut Dice,
    aim: Aim,
    start: u32,
    folder: &str,
    name: &str,
    lines: &mut Vec<Vec<String>>,
) -> Calendar {
    if aim != Aim::Sparse && dice.chance(60) {
        return rule_calendar(dice, start, lines);
    }
    let bytes = marks(dice, aim, start);
    fs::write(format!("{folder}/{name}.marks"), &bytes).expect("a file of marks");
    lines.push(words(&format!("calendar marked {name}.marks")));
    Calendar::of_marks(&bytes)
}

/// The rates of an office, with their lines.
fn make_rates(dice: &mut Dice, start: u32, lines: &mut Vec<Vec<String>>) -> Rates {
    if dice.chance(4) {
        return Rates::table(0, 0);
    }
    let first = start.saturating_sub(dice.within(0, 5));
    let count = dice.of(&[10, 100, 400, 400, 36_525]);
    let mut rates = Rates::table(first, count);
    lines.push(words(&format!("rates table {} {count}", date_of(first))));
    for _ in 0..dice.of(&[0, 2, 10]) {
        let day = dice.within(first, (first + 40).min(LAST_DAY));
        let rate = di_rate(dice);
        let arbitrated = dice.chance(20);
        let answer = match arbitrated {
            true => rates.arbitrate(day, rate),
            false => rates.publish(day, rate, 1),
        };
        if answer.is_ok() {
            let word = if arbitrated { "arbitrate" } else { "rate" };
            let percent = decimal_word(dice, u64::from(rate), 6);
            lines.push(words(&format!("{word} {} {percent}", date_of(day))));
        }
    }
    rates
}

// -------------------------------------------------------------- calls

struct Maker<'a> {
    dice: &'a mut Dice,
    aim: Aim,
    folder: &'a str,
    name: &'a str,
    lines: Vec<Vec<String>>,
    sheets: usize,
    book: Book,
    /// Whether trades have nothing amiss, as far as can be seen.
    careful: bool,
    start: u32,
    /// A month around 2,520 reserve days away from the start.
    far_month: Option<u32>,
    ticket: Option<SessionReference>,
    slip: Option<SessionReference>,
}

impl Maker<'_> {
    fn add(&mut self, call: &str, arguments: &[String]) {
        let mut line = vec![call.to_string()];
        line.extend_from_slice(arguments);
        self.lines.push(line);
    }

    /// The day of the latest session, or the start day.
    fn today(&self) -> u32 {
        self.book.latest_day().unwrap_or(self.start)
    }

    fn number(&mut self, number: u32) -> String {
        number_word(self.dice, number)
    }

    // ----------------------------------------------------- what is chosen

    /// Whether a trade is to have something amiss.
    fn amiss(&mut self, percent: u32) -> bool {
        !self.careful && self.dice.chance(percent)
    }

    fn some_account(&mut self) -> u32 {
        let count = self.book.accounts().len() as u32;
        if count == 0 || self.amiss(2) {
            return self.dice.of(&[0, 1, count, count + 1, 32, 255]);
        }
        self.dice.within(0, count - 1)
    }

    fn some_month(&mut self) -> u32 {
        let months = self.book.months();
        if months.is_empty() || self.amiss(2) {
            return self.dice.within(0, LAST_MONTH);
        }
        let today = self.today();
        let months = self.book.months();
        let live: Vec<u32> =
            (0..months.len()).filter(|&m| self.book.expiry(m) > today).map(|m| months[m]).collect();
        if live.is_empty() || self.amiss(3) {
            let months = self.book.months().to_vec();
            return self.dice.of(&months);
        }
        self.dice.of(&live)
    }

    /// A month that may be listed.
    fn new_month(&mut self) -> u32 {
        let now = month_of_day(self.today()).unwrap_or(0);
        let ahead = match self.aim {
            Aim::Far if self.dice.chance(70) => return self.far_month.unwrap_or(LAST_MONTH),
            Aim::Far => self.dice.within(78, 125),
            Aim::Wide => self.dice.within(1, 40),
            _ => match self.dice.within(1, 10) {
                1..=3 => self.dice.within(0, 3),
                4..=8 => self.dice.within(1, 16),
                9 => self.dice.within(0, 140),
                _ => self.dice.within(0, LAST_MONTH),
            },
        };
        (now + ahead).min(LAST_MONTH)
    }

    fn some_rate(&mut self, month: u32) -> u32 {
        let now = month_of_day(self.today()).unwrap_or(0);
        let tick = match month.saturating_sub(now) {
            0..=3 => 1,
            4..=12 => 5,
            _ => 10,
        };
        let rate = match self.dice.within(1, 12) {
            1 => self.dice.of(&[0, 1, 4, 5, 9, 10, 15, 20, 99_990, 99_995, MAX_DEALT_RATE]),
            2 => self.dice.within(0, MAX_DEALT_RATE),
            _ => self.dice.within(9_000, 15_000),
        };
        if self.amiss(1) {
            return self.dice.of(&[100_000, 100_005, u32::MAX]);
        }
        if self.amiss(1) {
            rate
        } else {
            rate / tick * tick
        }
    }

    fn some_quantity(&mut self) -> u32 {
        if self.amiss(3) {
            return self.dice.of(&[0, 20_001, u32::MAX]);
        }
        match self.dice.within(1, 100) {
            1..=8 => 20_000,
            _ if self.aim == Aim::Heavy => self.dice.of(&[20_000, 20_000, 20_000, 19_999, 1]),
            _ => self.dice.within(1, 300),
        }
    }

    fn some_trade(&mut self) -> TradeLine {
        let buyer = self.some_account();
        let mut seller = self.some_account();
        if self.aim == Aim::Heavy && self.dice.chance(85) {
            // Mostly the same way round.
            let (low, high) = (buyer & !1, buyer | 1);
            return match self.dice.chance(80) {
                true => self.trade_of(low, high),
                false => self.trade_of(high, low),
            };
        }
        while buyer == seller && self.book.accounts().len() > 1 && !self.amiss(10) {
            seller = self.some_account();
        }
        self.trade_of(buyer, seller)
    }

    fn trade_of(&mut self, buyer: u32, seller: u32) -> TradeLine {
        let month = match self.book.months().first() {
            Some(&first) if self.aim == Aim::Heavy && self.dice.chance(70) => first,
            _ => self.some_month(),
        };
        let (rate, mut quantity) = (self.some_rate(month), self.some_quantity());
        // What is left up to the limit, or one contract more.
        let index = self.book.index_of(month);
        if let Ok(position) = self.book.position(seller as usize, index) {
            let left = MAX_POSITION - position;
            if left > 0 && left < 20_000 && self.dice.chance(50) {
                quantity = left as u32 + self.dice.within(0, 1);
            }
        }
        TradeLine { buyer: buyer as u8, seller: seller as u8, month, rate, quantity }
    }

    /// A settlement price, mostly near the price of some rate.
    fn some_price(&mut self, month: u32) -> u64 {
        match self.dice.within(1, 60) {
            1 => 0,
            2 => MAX_PRICE + 1,
            3 => u64::from(u32::MAX),
            4 => 1,
            5 => MAX_PRICE,
            6 => u64::from(self.dice.within(1, MAX_PRICE as u32)),
            _ => {
                let expiry = self.book.calendar().expiry(month).unwrap_or(0);
                let days = self.book.calendar().reserve_days(self.today(), expiry).len() as u32;
                let rate = self.dice.within(9_000, 15_000);
                trade_price(rate, days.min(MAX_RESERVE_DAYS))
            }
        }
    }

    // ---------------------------------------------------------- the calls

    fn enter(&mut self) {
        let mut field = |high| match self.dice.chance(3) {
            true => self.dice.of(&[0, u32::MAX]),
            false => self.dice.within(1, high),
        };
        let account = Account { client: field(600), participant: field(3), member: field(2) };
        let Account { client, participant, member } = account;
        let arguments = [client, participant, member].map(|number| self.number(number));
        self.add("enter", &arguments);
        let _ = self.book.enter(account);
    }

    fn enter_again(&mut self) {
        let count = self.book.accounts().len();
        if count > 0 {
            let place = self.dice.place(count);
            let Account { client, participant, member } = self.book.accounts()[place];
            self.add("enter", &[client, participant, member].map(|number| number.to_string()));
        }
    }

    fn list(&mut self) {
        let month = self.new_month();
        self.add("list", &[code_text(month)]);
        let _ = self.book.list(month);
    }

    fn give_rate(&mut self, day: u32) {
        let rate = if self.dice.chance(2) { MAX_DI_RATE + 1 } else { di_rate(self.dice) };
        let mut arguments = vec![date_of(day), decimal_word(self.dice, u64::from(rate), 6)];
        let arbitrated = match self.aim {
            Aim::Arbitrated => self.dice.chance(70),
            _ => self.dice.chance(10),
        };
        if arbitrated {
            self.add("arbitrate", &arguments);
            let _ = self.book.arbitrate(day, rate);
            return;
        }
        let period = if self.dice.chance(3) { self.dice.of(&[0, 2, u32::MAX]) } else { 1 };
        if period != 1 || self.dice.chance(10) {
            arguments.push(self.number(period));
        }
        self.add("publish", &arguments);
        let _ = self.book.publish(day, rate, period);
    }

    fn open(&mut self) {
        self.add("open", &[]);
        if let Ok(ticket) = self.book.open() {
            self.ticket = Some(ticket);
        }
    }

    fn trade(&mut self) {
        let trade = self.some_trade();
        let TradeLine { buyer, seller, month, rate, quantity } = trade;
        let arguments = [
            self.number(u32::from(buyer)),
            self.number(u32::from(seller)),
            code_text(month),
            decimal_word(self.dice, u64::from(rate), 3),
            self.number(quantity),
        ];
        self.add("trade", &arguments);
        let month = self.book.index_of(month);
        if let Some(ticket) = &self.ticket {
            let sides = (usize::from(buyer), usize::from(seller));
            let _ = self.book.trade(ticket, sides.0, sides.1, month, rate, quantity);
        }
    }

    fn import(&mut self, count: usize) {
        let day = self.today();
        self.careful = self.dice.chance(70);
        let trades = (0..count.min(MAX_TRADES)).map(|_| self.some_trade()).collect();
        self.careful = false;
        let session_day = if self.dice.chance(4) { day + 1 } else { day };
        let mut bytes = write_sheet(&Sheet { session_day, trades });
        if self.dice.chance(12) {
            damage(self.dice, &mut bytes);
        }
        let sheet = format!("{}-{}.bin", self.name, self.sheets);
        self.sheets += 1;
        fs::write(format!("{}/{sheet}", self.folder), &bytes).expect("a sheet");
        self.add("import", &[sheet]);
        if let Some(ticket) = &self.ticket {
            self.book.import(ticket, &bytes);
        }
    }

    fn mark(&mut self, month: u32) {
        let price = self.some_price(month);
        let arguments = [code_text(month), decimal_word(self.dice, price, 2)];
        self.add("mark", &arguments);
        let index = self.book.index_of(month);
        if let Some(ticket) = &self.ticket {
            let _ = self.book.mark(ticket, index, price);
        }
    }

    fn close(&mut self) {
        self.add("close", &[]);
        if let Some(ticket) = &self.ticket {
            if let Ok((slip, _)) = self.book.close(ticket) {
                self.ticket = None;
                self.slip = Some(slip);
            }
        }
    }

    fn pay(&mut self) {
        self.add("pay", &[]);
        if let Some(slip) = &self.slip {
            if self.book.pay(slip).is_ok() {
                self.slip = None;
            }
        }
    }

    fn write_off(&mut self) {
        self.add("write-off", &[]);
        self.slip = None;
    }

    fn ask(&mut self) {
        let account = self.some_account();
        let account = self.number(account);
        if self.dice.chance(50) {
            self.add("balance", &[account]);
        } else {
            let month = self.some_month();
            self.add("position", &[account, code_text(month)]);
        }
    }

    /// A call of any kind.
    fn any(&mut self) {
        match self.dice.within(1, 40) {
            1 => self.enter(),
            2 => self.enter_again(),
            3..=4 => self.list(),
            5..=8 => {
                let today = self.today();
                let day = self.dice.within(today.saturating_sub(4), (today + 3).min(LAST_DAY));
                self.give_rate(day);
            }
            9 => {
                let day = self.dice.within(0, LAST_DAY);
                self.give_rate(day);
            }
            10..=12 => self.open(),
            13..=20 => self.trade(),
            21..=22 => {
                let count = self.dice.place(6);
                self.import(count);
            }
            23..=28 => {
                let month = self.some_month();
                self.mark(month);
            }
            29..=32 => self.close(),
            33..=35 => self.pay(),
            36 if self.dice.chance(20) => self.write_off(),
            _ => self.ask(),
        }
    }

    fn noise(&mut self) {
        while self.dice.chance(if self.aim == Aim::Wild { 50 } else { 8 }) {
            self.any();
        }
    }

    // --------------------------------------------------------- a session

    /// Marks the months that need it, at times all but one.
    fn mark_all(&mut self) {
        let today = self.today();
        let skip = if self.dice.chance(6) { self.dice.place(16) } else { 99 };
        for index in 0..self.book.months().len() {
            if index != skip && (self.book.expiry(index) > today || self.dice.chance(3)) {
                let month = self.book.months()[index];
                self.mark(month);
            }
        }
    }

    /// Gives the rates that a close asks for, at times all but one.
    fn rate_all(&mut self, from: u32) {
        let to = self.today();
        let skip = if self.dice.chance(6) { self.dice.place(3) } else { 999 };
        for (place, day) in self.book.calendar().reserve_days(from, to).into_iter().enumerate() {
            if self.book.rates().rate(day).is_none() && place != skip {
                self.give_rate(day);
            }
        }
    }

    fn session(&mut self) {
        let before = self.today();
        self.open();
        self.noise();
        if self.dice.chance(90) {
            self.pay();
        }
        let trades = match self.aim {
            Aim::Full => self.dice.of(&[0, 20, 250]),
            Aim::Heavy => self.dice.of(&[10, 30]),
            _ => self.dice.of(&[0, 1, 3, 8]),
        };
        let imports = if self.dice.chance(30) { 1 } else { 0 };
        for _ in 0..imports {
            let count = match self.aim {
                Aim::Full => self.dice.of(&[100, 255, 256]),
                _ => self.dice.of(&[0, 1, 5, 12]),
            };
            self.import(count);
        }
        self.careful = self.aim == Aim::Full;
        for _ in 0..trades {
            self.trade();
        }
        self.careful = false;
        self.noise();
        self.mark_all();
        self.rate_all(before);
        self.noise();
        // A close that is refused is tried again, with what was missing.
        for _ in 0..4 {
            self.close();
            if self.ticket.is_none() || self.dice.chance(10) {
                break;
            }
            if self.slip.is_some() && self.dice.chance(80) {
                self.pay();
            }
            self.mark_all();
            self.rate_all(before);
        }
        self.noise();
        if self.aim == Aim::Arbitrated {
            for _ in 0..self.dice.within(0, 6) {
                let today = self.today();
                let day = self.dice.within(today, (today + 9).min(LAST_DAY));
                self.give_rate(day);
            }
        }
        if self.dice.chance(15) {
            self.ask();
        }
        if self.dice.chance(1) {
            self.write_off();
        }
    }

    fn calls(&mut self) {
        let wide = self.aim == Aim::Wide;
        let accounts = match self.dice.within(1, 10) {
            1 if self.aim != Aim::Full => 0,
            _ if wide && self.dice.chance(60) => 34,
            _ => self.dice.within(2, 5),
        };
        let months = match self.dice.within(1, 10) {
            1 if self.aim != Aim::Full => 0,
            _ if wide && self.dice.chance(60) => 26,
            _ => self.dice.within(1, 5),
        };
        for _ in 0..accounts {
            self.enter();
        }
        for _ in 0..months {
            self.list();
        }
        let sessions = match self.aim {
            Aim::Wide => self.dice.within(1, 3),
            Aim::Full | Aim::Heavy => self.dice.within(1, 4),
            _ => self.dice.within(1, 14),
        };
        for _ in 0..sessions {
            self.noise();
            if self.dice.chance(10) {
                self.list();
            }
            if self.dice.chance(5) {
                self.enter();
            }
            self.session();
        }
        if self.dice.chance(50) {
            self.open();
            self.pay();
        }
        if self.dice.chance(10) {
            self.write_off();
        }
        for account in 0..self.book.accounts().len().min(4) {
            self.add("balance", &[account.to_string()]);
        }
    }
}

/// Makes bytes that most often are no sheet.
fn damage(dice: &mut Dice, bytes: &mut Vec<u8>) {
    match dice.within(1, 6) {
        1 => bytes.truncate(dice.place(bytes.len() + 1)),
        2 => bytes.push(0),
        3 => bytes[0] = bytes[0].wrapping_add(1),
        4 => bytes[1] = dice.within(0, 255) as u8,
        5 => bytes.clear(),
        _ => {
            let place = dice.place(bytes.len());
            bytes[place] = dice.within(0, 255) as u8;
        }
    }
}

// ------------------------------------------------------------ bad text

const WORDS: [&str; 37] = [
    "#",
    "x", "0", "1", "255", "256", "4294967295", "4294967296", "-1", "+1", "1.", ".5", "10.0000",
    "10.1234567", "99.999999", "2026-12-30", "2026-02-29", "2100-01-01", "1999-12-31", "DI1F27",
    "di1f27", "DI1A27", "closed", "session", "rule", "marked", "table", "calendar", "exception",
    "rates", "rate", "arbitrate", "book", "open", "Open", "missing.bin", "\u{661}",
];

const LINES: [&str; 14] = [
    "calendar rule",
    "calendar marked missing.marks",
    "exception 2026-12-30 closed",
    "rates table 2026-12-30 10",
    "rate 2026-12-30 10",
    "arbitrate 2026-12-30 10",
    "book 1 2026-12-30",
    "book x",
    "open",
    "enter 1 2 3",
    "import missing.bin",
    "trade 0 1",
    "nothing",
    "# a note",
];

/// Changes a line or two, so that most often the text is no journal.
fn spoil(dice: &mut Dice, lines: &mut Vec<Vec<String>>) {
    for _ in 0..dice.of(&[1, 1, 1, 2]) {
        if lines.is_empty() {
            return;
        }
        let mut place = dice.place(lines.len());
        if dice.chance(40) {
            place = place.min(dice.place(12)); // among the first lines
        }
        let other = dice.place(lines.len());
        let word = dice.place(lines[place].len());
        match dice.within(1, 10) {
            1..=4 => lines[place][word] = dice.of(&WORDS).to_string(),
            5 => lines[place].push(dice.of(&WORDS).to_string()),
            6 if lines[place].len() > 1 => drop(lines[place].remove(word)),
            7 => lines.swap(place, other),
            8 => drop(lines.remove(place)),
            9 => lines.truncate(place),
            _ => lines.insert(place, words(dice.of(&LINES))),
        }
    }
}

// ------------------------------------------------------------- a whole

/// The text of these lines, with notes and empty lines between them.
fn text_of(dice: &mut Dice, lines: &[Vec<String>]) -> String {
    let end = if dice.chance(5) { "\r\n" } else { "\n" };
    let mut text = String::new();
    for line in lines {
        if dice.chance(2) {
            text += dice.of(&["# a note", "", "#open", " \t "]);
            text += end;
        }
        text += &line_of(dice, line);
        text += end;
    }
    if dice.chance(3) {
        text.truncate(text.trim_end().len());
    }
    text
}

/// A start day and a month that is around 2,520 reserve days away from it.
fn far_start(dice: &mut Dice, calendar: &Calendar, start: u32) -> Option<(u32, u32)> {
    let month = month_of_day(start)? + dice.within(80, 120);
    if month > LAST_MONTH {
        return None;
    }
    let days = calendar.reserve_days(0, calendar.expiry(month)?);
    let back = (MAX_RESERVE_DAYS + dice.within(0, 4)) as usize;
    Some((days[days.len().checked_sub(back)?], month))
}

fn make(folder: &str, seed: u64) {
    let dice = &mut Dice(seed);
    let name = seed.to_string();
    let aim = dice.of(&AIMS);
    let mut start = start_day(dice);
    let mut lines = Vec::new();
    let calendar = make_calendar(dice, aim, start, folder, &name, &mut lines);
    let mut far_month = None;
    if aim == Aim::Far {
        if let Some((day, month)) = far_start(dice, &calendar, start) {
            start = day;
            far_month = Some(month);
        }
    }
    let rates = make_rates(dice, start, &mut lines);
    let number = if dice.chance(5) { dice.of(&[0, u32::MAX]) } else { dice.within(1, 99) };
    let office_text = text_of(dice, &lines);
    fs::write(format!("{folder}/{name}.office"), office_text).expect("an office");

    lines.push(words(&format!("book {} {}", number_word(dice, number), date_of(start))));
    let mut maker = Maker {
        dice,
        aim,
        folder,
        name: &name,
        lines,
        sheets: 0,
        book: Book::new(calendar, rates, number, start),
        careful: false,
        start,
        far_month,
        ticket: None,
        slip: None,
    };
    maker.calls();
    let mut lines = maker.lines;
    if dice.chance(20) {
        spoil(dice, &mut lines);
    }
    let mut bytes = text_of(dice, &lines).into_bytes();
    if dice.chance(1) && !bytes.is_empty() {
        let place = dice.place(bytes.len());
        bytes[place] = 0xff;
    }
    fs::write(format!("{folder}/{name}.journal"), bytes).expect("a journal");
}

fn main() -> ExitCode {
    let arguments: Vec<String> = env::args().skip(1).collect();
    let [folder, count, seed] = &arguments[..] else {
        eprintln!("journals FOLDER N SEED");
        return ExitCode::FAILURE;
    };
    let (Ok(count), Ok(seed)) = (count.parse::<u64>(), seed.parse::<u64>()) else {
        eprintln!("journals FOLDER N SEED, N and SEED numbers");
        return ExitCode::FAILURE;
    };
    for number in seed..seed + count {
        make(folder, number);
    }
    ExitCode::SUCCESS
}
