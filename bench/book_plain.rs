// Sessions of full books in plain Rust, as the proved crate `book` has them.
use crate::close_plain::{
    array_sum, place, MonthPrices, Session, Trade, CELLS, MAX_ACCOUNTS, MAX_CONTRACTS, MAX_MONTHS,
    MAX_POSITION, MAX_TRADES,
};
use crate::{
    correct_day, count_reserve_days, day_factor, expiry, first_session, month_of, on_tick, read_on,
    sheet_bytes, table, trade_price, Calendar, Exception, Numbers, RuleCalendar, TableSource,
    TradeLine, LAST_DAY, MAX_DEALT_RATE, MAX_RESERVE_DAYS,
};
use std::fmt;

const MAX_PRICE: u32 = 10_000_000;

fn next_session<C: Calendar>(calendar: &C, from: u32) -> Option<u32> {
    if from > LAST_DAY {
        return None;
    }
    first_session(calendar, from, from + 60)
}

// ---- The book.

#[derive(Clone, Copy, PartialEq, Eq)]
struct Account {
    client: u32,
    participant: u32,
    member: u32,
}

#[derive(Clone, Copy)]
struct Order {
    buyer: u8,
    seller: u8,
    month: u8,
    rate: u32,
    quantity: u32,
}

#[derive(Clone, Copy)]
enum Refusal {
    NotCurrent,
    NoSuchIndex,
    Expired,
    SameSides,
    BadQuantity,
    BadRate,
    TooFar,
    PositionLimit,
    SessionFull,
    BadPrice,
    SessionOpen,
    NoSession,
    Unpaid,
    Unmarked,
    MissingRate,
    ArrayShort,
    NoLaterSession,
    TableFull,
    AlreadyThere,
    NoExpiry,
    BadSheet,
}

struct Ticket {
    number: u32,
    day: u32,
}

struct Slip {
    number: u32,
    day: u32,
}

struct AccountRow {
    account: Account,
    paid: i64,
    due: i64,
}

struct MonthRow {
    number: u32,
    expiry: u32,
    days: u32,
    mark: Option<u32>,
    latest: u32,
}

impl MonthRow {
    fn settlement_price(&self, day: u32) -> u32 {
        if day == self.expiry {
            MAX_PRICE
        } else {
            self.mark.unwrap_or(0)
        }
    }
}

// What an import comes to: the lines taken, and why it stopped.
struct ImportOutcome {
    taken: usize,
    stop: Option<Refusal>,
}

struct Book {
    calendar: RuleCalendar,
    source: TableSource,
    number: u32,
    start: u32,
    accounts: Vec<AccountRow>,
    months: Vec<MonthRow>,
    positions: [i32; CELLS],
    trades: Session,
    latest: Option<u32>,
    open: Option<u32>,
    closed: Option<u32>,
    unpaid: Option<u32>,
}

impl Book {
    fn new(calendar: RuleCalendar, source: TableSource, number: u32, start: u32) -> Book {
        Book {
            calendar,
            source,
            number,
            start,
            accounts: Vec::with_capacity(MAX_ACCOUNTS),
            months: Vec::with_capacity(MAX_MONTHS),
            positions: [0; CELLS],
            trades: Session::new(),
            latest: None,
            open: None,
            closed: None,
            unpaid: None,
        }
    }

    fn session_day(&self) -> u32 {
        self.latest.unwrap_or(0)
    }

    fn is_current(&self, ticket: &Ticket) -> bool {
        ticket.number == self.number && self.open == Some(ticket.day)
    }

    fn enter(&mut self, account: Account) -> Result<u8, Refusal> {
        let index = self.accounts.len();
        if index >= MAX_ACCOUNTS {
            return Err(Refusal::TableFull);
        }
        if self.accounts.iter().any(|row| row.account == account) {
            return Err(Refusal::AlreadyThere);
        }
        self.accounts.push(AccountRow {
            account,
            paid: 0,
            due: 0,
        });
        Ok(index as u8)
    }

    fn list(&mut self, number: u32) -> Result<u8, Refusal> {
        let index = self.months.len();
        if index >= MAX_MONTHS {
            return Err(Refusal::TableFull);
        }
        if self.months.iter().any(|row| row.number == number) {
            return Err(Refusal::AlreadyThere);
        }
        let expiry = match expiry(&self.calendar, number) {
            Some(day) if day > self.start && day > self.session_day() => day,
            _ => return Err(Refusal::NoExpiry),
        };
        let days = match self.open {
            Some(day) => count_reserve_days(&self.calendar, day, expiry),
            None => 0,
        };
        self.months.push(MonthRow {
            number,
            expiry,
            days,
            mark: None,
            latest: 0,
        });
        Ok(index as u8)
    }

    fn open(&mut self) -> Result<Ticket, Refusal> {
        if self.open.is_some() {
            return Err(Refusal::SessionOpen);
        }
        let from = self.latest.map_or(self.start, |day| day + 1);
        let day = next_session(&self.calendar, from).ok_or(Refusal::NoSession)?;
        for row in &mut self.months {
            row.mark = None;
            row.days = count_reserve_days(&self.calendar, day, row.expiry);
        }
        self.trades.clear();
        self.latest = Some(day);
        self.open = Some(day);
        Ok(Ticket {
            number: self.number,
            day,
        })
    }

    fn passes_limit(&self, order: Order) -> bool {
        let buyer = self.positions[place(order.buyer, order.month)] as i64;
        let seller = self.positions[place(order.seller, order.month)] as i64;
        let contracts = order.quantity as i64;
        (buyer - contracts).unsigned_abs() > MAX_POSITION as u64
            || (seller + contracts).unsigned_abs() > MAX_POSITION as u64
    }

    fn check_trade(&self, ticket: &Ticket, order: Order) -> Result<(), Refusal> {
        if !self.is_current(ticket) {
            return Err(Refusal::NotCurrent);
        }
        let accounts = self.accounts.len();
        if order.buyer as usize >= accounts || order.seller as usize >= accounts {
            return Err(Refusal::NoSuchIndex);
        }
        let Some(row) = self.months.get(order.month as usize) else {
            return Err(Refusal::NoSuchIndex);
        };
        let Some(month) = month_of(self.session_day()) else {
            unreachable!()
        };
        if row.expiry <= self.session_day() {
            return Err(Refusal::Expired);
        }
        if order.buyer == order.seller {
            return Err(Refusal::SameSides);
        }
        if order.quantity == 0 || order.quantity > MAX_CONTRACTS {
            return Err(Refusal::BadQuantity);
        }
        let distance = row.number.saturating_sub(month);
        if order.rate > MAX_DEALT_RATE || !on_tick(order.rate, distance) {
            return Err(Refusal::BadRate);
        }
        if row.days > MAX_RESERVE_DAYS {
            return Err(Refusal::TooFar);
        }
        if self.passes_limit(order) {
            return Err(Refusal::PositionLimit);
        }
        if self.trades.is_full() {
            return Err(Refusal::SessionFull);
        }
        Ok(())
    }

    fn trade(&mut self, ticket: &Ticket, order: Order) -> Result<u32, Refusal> {
        self.check_trade(ticket, order)?;
        let days = self.months[order.month as usize].days;
        let Ok(price) = trade_price(order.rate, days) else {
            unreachable!()
        };
        let contracts = order.quantity;
        self.positions[place(order.buyer, order.month)] -= contracts as i32;
        self.positions[place(order.seller, order.month)] += contracts as i32;
        self.trades.accept(Trade {
            buyer: order.buyer,
            seller: order.seller,
            month: order.month,
            rate: order.rate,
            contracts,
            price,
        });
        Ok(price)
    }

    // The index of a month, the count of months where it is not listed.
    fn place(&self, number: u32) -> u8 {
        let found = self.months.iter().position(|row| row.number == number);
        found.unwrap_or(self.months.len()) as u8
    }

    fn trade_line(&mut self, ticket: &Ticket, line: TradeLine) -> Result<u32, Refusal> {
        let order = Order {
            buyer: line.buyer,
            seller: line.seller,
            month: self.place(line.month),
            rate: line.rate,
            quantity: line.quantity,
        };
        self.trade(ticket, order)
    }

    fn import(&mut self, ticket: &Ticket, sheet: &[u8]) -> ImportOutcome {
        let Ok(view) = read_on(sheet, Some(ticket.day)) else {
            return ImportOutcome {
                taken: 0,
                stop: Some(Refusal::BadSheet),
            };
        };
        for taken in 0..view.count() {
            let Some(line) = view.trade(taken) else {
                unreachable!()
            };
            if let Err(refusal) = self.trade_line(ticket, line) {
                return ImportOutcome {
                    taken,
                    stop: Some(refusal),
                };
            }
        }
        ImportOutcome {
            taken: view.count(),
            stop: None,
        }
    }

    fn mark(&mut self, ticket: &Ticket, month: u8, price: u32) -> Result<(), Refusal> {
        if !self.is_current(ticket) {
            return Err(Refusal::NotCurrent);
        }
        let day = self.session_day();
        match self.months.get_mut(month as usize) {
            None => Err(Refusal::NoSuchIndex),
            Some(row) if row.expiry <= day => Err(Refusal::Expired),
            Some(_) if price == 0 || price > MAX_PRICE => Err(Refusal::BadPrice),
            Some(row) => {
                row.mark = Some(price);
                Ok(())
            }
        }
    }

    // The prices of the months, the latest corrected over the gap from the latest closed session.
    fn closing_prices(&self, day: u32) -> Result<Vec<MonthPrices>, Refusal> {
        let prices = |row: &MonthRow| MonthPrices {
            settlement: row.settlement_price(day),
            corrected: row.latest,
        };
        let mut prices: Vec<MonthPrices> = self.months.iter().map(prices).collect();
        for day in self.closed.unwrap_or(day)..day {
            if self.calendar.kind(day).is_reserve() {
                let rate = self.source.rate(day).ok_or(Refusal::MissingRate)?;
                let factor = day_factor(rate).ok_or(Refusal::MissingRate)?;
                for price in &mut prices {
                    let corrected = correct_day(price.corrected as u64, factor).unwrap_or(0);
                    price.corrected = corrected as u32;
                }
            }
        }
        Ok(prices)
    }

    fn close(
        &mut self,
        ticket: &Ticket,
        adjustments: &mut [i64],
        day_trades: &mut [i64],
    ) -> Result<Slip, Refusal> {
        if !self.is_current(ticket) {
            return Err(Refusal::NotCurrent);
        }
        if self.unpaid.is_some() {
            return Err(Refusal::Unpaid);
        }
        let day = self.session_day();
        if self
            .months
            .iter()
            .any(|row| day < row.expiry && row.mark.is_none())
        {
            return Err(Refusal::Unmarked);
        }
        let prices = self.closing_prices(day)?;
        let (accounts, months) = (self.accounts.len(), self.months.len());
        let positions = &self.positions;
        if !self
            .trades
            .write_amounts(accounts, &prices, positions, adjustments, day_trades)
        {
            return Err(Refusal::ArrayShort);
        }
        for (account, row) in self.accounts.iter_mut().enumerate() {
            let cells = &adjustments[account * months..account * months + months];
            row.due += cells.iter().sum::<i64>();
        }
        for (at, position) in self.positions.iter_mut().enumerate() {
            if let Some(row) = self.months.get(at % MAX_MONTHS) {
                if row.expiry <= day {
                    *position = 0;
                }
            }
        }
        for row in &mut self.months {
            row.latest = row.settlement_price(day);
        }
        self.open = None;
        self.closed = Some(day);
        self.unpaid = Some(day);
        Ok(Slip {
            number: self.number,
            day,
        })
    }

    fn pay(&mut self, slip: &Slip) -> Result<(), Refusal> {
        if slip.number != self.number || self.unpaid != Some(slip.day) {
            return Err(Refusal::NotCurrent);
        }
        if self.open.is_none() {
            return Err(Refusal::NoLaterSession);
        }
        for row in &mut self.accounts {
            row.paid += row.due;
            row.due = 0;
        }
        self.unpaid = None;
        Ok(())
    }
}

// ---- What is measured.

const START: u32 = 9_860;

const FAR_MONTHS: [u32; 16] = [
    428, 429, 430, 431, 432, 433, 434, 435, 436, 437, 438, 439, 440, 441, 442, 443,
];

const QUARTERS: [u32; 16] = [
    327, 330, 333, 336, 339, 342, 345, 348, 351, 354, 357, 360, 363, 366, 369, 372,
];

#[derive(Clone, Copy)]
enum Entry {
    ByLine,
    BySheet,
    // On a sheet that is written and not imported.
    Unread,
}

#[derive(Clone, Copy)]
pub(crate) struct Plan {
    months: [u32; 16],
    sessions: u32,
    lines: u32,
    entry: Entry,
}

pub(crate) const IMPORTS: Plan = Plan {
    months: FAR_MONTHS,
    sessions: 20,
    lines: 256,
    entry: Entry::BySheet,
};

pub(crate) const IDLE: Plan = Plan {
    months: FAR_MONTHS,
    sessions: 20,
    lines: 256,
    entry: Entry::Unread,
};

pub(crate) const YEARS: Plan = Plan {
    months: QUARTERS,
    sessions: 250,
    lines: 400,
    entry: Entry::ByLine,
};

#[derive(Default)]
pub(crate) struct BookFigures {
    trades: u64,
    refused: u64,
    prices: u64,
    amounts: i64,
}

impl fmt::Display for BookFigures {
    fn fmt(&self, f: &mut fmt::Formatter<'_>) -> fmt::Result {
        write!(
            f,
            "{} trades, {} calls refused, prices {}, amounts {}",
            self.trades, self.refused, self.prices, self.amounts
        )
    }
}

impl BookFigures {
    fn add_trade(&mut self, price: u32) {
        self.trades += 1;
        self.prices += price as u64;
    }

    fn taken<T>(&mut self, answer: Result<T, Refusal>) -> Option<T> {
        self.refused += answer.is_err() as u64;
        answer.ok()
    }
}

fn calendar() -> RuleCalendar {
    let mut numbers = Numbers::new();
    let exceptions: Vec<Exception> = (0..1_500)
        .map(|k| Exception {
            day: 24 * k + numbers.below(24),
            kind: 0,
        })
        .collect();
    RuleCalendar::new(&exceptions)
}

fn order(numbers: &mut Numbers) -> Order {
    let buyer = numbers.below(32);
    let seller = (buyer + 1 + numbers.below(31)) % 32;
    let month = numbers.below(16) as u8;
    let rate = 10 * numbers.below(10_000);
    let quantity = 1 + numbers.below(2_000);
    Order {
        buyer: buyer as u8,
        seller: seller as u8,
        month,
        rate,
        quantity,
    }
}

impl Plan {
    fn line(&self, order: Order) -> TradeLine {
        TradeLine {
            buyer: order.buyer,
            seller: order.seller,
            month: self.months[order.month as usize],
            rate: order.rate,
            quantity: order.quantity,
        }
    }

    fn lines(&self, numbers: &mut Numbers) -> Vec<TradeLine> {
        (0..self.lines).map(|_| self.line(order(numbers))).collect()
    }

    fn days(&self, calendar: &RuleCalendar) -> [u32; 16] {
        let session = next_session(calendar, START).unwrap_or(START);
        self.months.map(|month| match expiry(calendar, month) {
            Some(day) => count_reserve_days(calendar, session, day),
            None => 0,
        })
    }

    fn price_session(
        &self,
        before: u32,
        days: &[u32; 16],
        numbers: &mut Numbers,
        figures: &mut BookFigures,
    ) {
        let mut left = MAX_TRADES;
        for _ in 0..self.lines {
            let order = order(numbers);
            let days = days[order.month as usize].saturating_sub(before);
            if left > 0 && days > 0 {
                left -= 1;
                figures.add_trade(trade_price(order.rate, days).unwrap_or(0));
            }
        }
    }
}

struct Load<'a> {
    book: Book,
    slip: Option<Slip>,
    adjustments: [i64; CELLS],
    day_trades: [i64; CELLS],
    figures: &'a mut BookFigures,
}

impl Load<'_> {
    fn fill(&mut self, plan: Plan) {
        for client in 0..32 {
            let entered = self.book.enter(Account {
                client,
                participant: 1,
                member: 1,
            });
            self.figures.taken(entered);
        }
        for month in plan.months {
            let listed = self.book.list(month);
            self.figures.taken(listed);
        }
    }

    fn bring(&mut self, entry: Entry, ticket: &Ticket, lines: &[TradeLine]) {
        match entry {
            Entry::ByLine => {
                for line in lines {
                    let traded = self.book.trade_line(ticket, *line);
                    if let Some(price) = self.figures.taken(traded) {
                        self.figures.add_trade(price);
                    }
                }
            }
            Entry::BySheet => {
                let sheet = sheet_bytes(ticket.day as u16, lines);
                let outcome = self.book.import(ticket, &sheet);
                self.figures.trades += outcome.taken as u64;
                self.figures.refused += outcome.stop.is_some() as u64;
            }
            Entry::Unread => {
                let _ = sheet_bytes(ticket.day as u16, lines);
            }
        }
    }

    fn close(&mut self, ticket: &Ticket) {
        let closed = self
            .book
            .close(ticket, &mut self.adjustments, &mut self.day_trades);
        self.slip = self.figures.taken(closed);
        if self.slip.is_some() {
            let sum = array_sum(&self.adjustments, &self.day_trades);
            self.figures.amounts = self.figures.amounts.wrapping_add(sum);
        }
    }

    fn session(&mut self, plan: Plan, lines: &[TradeLine]) {
        let opened = self.book.open();
        let Some(ticket) = self.figures.taken(opened) else {
            return;
        };
        if let Some(slip) = self.slip.take() {
            let paid = self.book.pay(&slip);
            self.figures.taken(paid);
        }
        self.bring(plan.entry, &ticket, lines);
        for (month, number) in plan.months.iter().enumerate() {
            let price = 5_000_000 + number % 16 * 1_000;
            let marked = self.book.mark(&ticket, month as u8, price);
            self.figures.taken(marked);
        }
        self.close(&ticket);
    }
}

pub(crate) fn books(plan: Plan, count: u32) -> BookFigures {
    let mut numbers = Numbers::new();
    let mut figures = BookFigures::default();
    for _ in 0..count {
        let mut load = Load {
            book: Book::new(calendar(), table(&mut Numbers::new()), 1, START),
            slip: None,
            adjustments: [0; CELLS],
            day_trades: [0; CELLS],
            figures: &mut figures,
        };
        load.fill(plan);
        for _ in 0..plan.sessions {
            let lines = plan.lines(&mut numbers);
            load.session(plan, &lines);
        }
    }
    figures
}

pub(crate) fn prices_alone(plan: Plan, count: u32) -> BookFigures {
    let days = plan.days(&calendar());
    let mut numbers = Numbers::new();
    let mut figures = BookFigures::default();
    for _ in 0..count {
        for session in 0..plan.sessions {
            plan.price_session(session, &days, &mut numbers, &mut figures);
        }
    }
    figures
}
