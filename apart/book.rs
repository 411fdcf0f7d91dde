// The position book. It keeps its sessions with their trades and marks, and works out positions,
// corrected prices and balances from them each time that they are asked for.

use crate::calendar::Calendar;
use crate::dates::month_of_day;
use crate::interest::{
    correct_day, day_factor, on_tick, trade_price, MAX_DEALT_RATE, MAX_PRICE, MAX_RESERVE_DAYS,
};
use crate::rates::Rates;
use crate::refusals::{refusal, Refusal, Told};
use crate::sheet::{read_sheet, MAX_TRADES};

const MAX_ACCOUNTS: usize = 32;
const MAX_MONTHS: usize = 16;
const MAX_CONTRACTS: u32 = 20_000;
pub const MAX_POSITION: i64 = 500_000;

#[derive(Clone, PartialEq)]
pub struct Account {
    pub client: u32,
    pub participant: u32,
    pub member: u32,
}

/// A ticket, which stands for an open session, or a slip, for a closed one that is not paid.
pub struct SessionReference {
    pub number: u32,
    pub day: u32,
}

/// An accepted trade. Accounts and month are indices; the sides are those in rate.
#[derive(Clone)]
pub struct Trade {
    pub buyer: usize,
    pub seller: usize,
    pub month: usize,
    pub rate: u32,
    pub contracts: u32,
    pub price: u64,
}

impl Trade {
    /// By how much the trade moves the position of an account: who sells in rate buys in price.
    pub fn position_change(&self, account: usize) -> i64 {
        let mut change = 0;
        if account == self.seller {
            change += i64::from(self.contracts);
        }
        if account == self.buyer {
            change -= i64::from(self.contracts);
        }
        change
    }
}

/// What a close writes: for each account a row with one amount for each month.
#[derive(Clone)]
pub struct Close {
    pub adjustments: Vec<Vec<i64>>,
    pub day_trades: Vec<Vec<i64>>,
}

struct Mark {
    month: usize,
    price: u64,
}

struct Session {
    day: u32,
    trades: Vec<Trade>,
    marks: Vec<Mark>,
    /// What the close wrote, once the session is closed.
    close: Option<Close>,
    paid: bool,
}

/// What an import took, and where and why it stopped before the end of the sheet.
pub struct Import {
    pub taken: Vec<Trade>,
    pub stop: Option<Stop>,
}

pub struct Stop {
    pub line: usize,
    pub refusal: Refusal,
    pub by_sheet: bool,
}

pub struct Book {
    calendar: Calendar,
    rates: Rates,
    number: u32,
    start_day: u32,
    accounts: Vec<Account>,
    months: Vec<u32>,
    /// The opened sessions, in order. Only the last may be open.
    sessions: Vec<Session>,
}

impl Book {
    pub fn new(calendar: Calendar, rates: Rates, number: u32, start_day: u32) -> Book {
        Book {
            calendar,
            rates,
            number,
            start_day,
            accounts: Vec::new(),
            months: Vec::new(),
            sessions: Vec::new(),
        }
    }

    pub fn number(&self) -> u32 {
        self.number
    }

    pub fn calendar(&self) -> &Calendar {
        &self.calendar
    }

    pub fn rates(&self) -> &Rates {
        &self.rates
    }

    pub fn accounts(&self) -> &[Account] {
        &self.accounts
    }

    /// The month numbers, by their indices.
    pub fn months(&self) -> &[u32] {
        &self.months
    }

    /// The day of the latest session that was opened.
    pub fn latest_day(&self) -> Option<u32> {
        self.sessions.last().map(|session| session.day)
    }

    // ------------------------------------------------------- what follows

    /// The expiry of a listed month.
    pub fn expiry(&self, month: usize) -> u32 {
        self.calendar.expiry(self.months[month]).expect("a listed month has a session")
    }

    fn open_session(&self) -> Option<usize> {
        let last = self.sessions.len().checked_sub(1)?;
        if self.sessions[last].close.is_some() {
            return None;
        }
        Some(last)
    }

    /// The closed session that is not paid. There is one at the most.
    fn unpaid_session(&self) -> Option<usize> {
        self.sessions.iter().position(|session| session.close.is_some() && !session.paid)
    }

    fn is_of(&self, reference: &SessionReference, session: Option<usize>) -> bool {
        match session {
            Some(session) => {
                reference.number == self.number && reference.day == self.sessions[session].day
            }
            None => false,
        }
    }

    /// The position that a session began with.
    fn carried_position(&self, session: usize, account: usize, month: usize) -> i64 {
        if self.expiry(month) < self.sessions[session].day {
            return 0;
        }
        let earlier = self.sessions[..session].iter().flat_map(|session| &session.trades);
        earlier.filter(|t| t.month == month).map(|t| t.position_change(account)).sum()
    }

    /// The position of an account in a month, both in the book.
    pub fn position_now(&self, account: usize, month: usize) -> i64 {
        let expiry = self.expiry(month);
        if self.sessions.iter().any(|session| session.close.is_some() && session.day >= expiry) {
            return 0;
        }
        let trades = self.sessions.iter().flat_map(|session| &session.trades);
        trades.filter(|t| t.month == month).map(|t| t.position_change(account)).sum()
    }

    fn mark_of(&self, session: usize, month: usize) -> Option<u64> {
        let marks = &self.sessions[session].marks;
        marks.iter().rev().find(|mark| mark.month == month).map(|mark| mark.price)
    }

    /// The settlement price of a month in a session; none once it is expired.
    fn settlement_price(&self, session: usize, month: usize) -> Option<u64> {
        if self.expiry(month) == self.sessions[session].day {
            return Some(MAX_PRICE);
        }
        self.mark_of(session, month)
    }

    /// The day factors of the reserve days from the session before to this one, or the first
    /// of these days without a rate. Before the first session there are none.
    fn factors(&self, session: usize) -> Result<Vec<u64>, u32> {
        if session == 0 {
            return Ok(Vec::new());
        }
        let from = self.sessions[session - 1].day;
        let to = self.sessions[session].day;
        let factor = |day| self.rates.rate(day).map(|(rate, _)| day_factor(rate)).ok_or(day);
        self.calendar.reserve_days(from, to).into_iter().map(factor).collect()
    }

    fn adjustment(&self, session: usize, account: usize, month: usize, factors: &[u64]) -> i64 {
        let Some(price) = self.settlement_price(session, month) else {
            return 0; // the month is expired
        };
        let price = price as i64;
        let mut amount = 0;
        for trade in &self.sessions[session].trades {
            if trade.month == month {
                amount += trade.position_change(account) * (price - trade.price as i64);
            }
        }
        let carried = self.carried_position(session, account, month);
        if carried != 0 {
            let mut corrected =
                self.settlement_price(session - 1, month).expect("a month that was marked");
            for &factor in factors {
                corrected = correct_day(corrected, factor);
            }
            amount += carried * (price - corrected as i64);
        }
        amount
    }

    fn day_trade(&self, session: usize, account: usize, month: usize) -> i64 {
        let trades = || self.sessions[session].trades.iter().filter(|t| t.month == month);
        // In price: who sells in rate buys, who buys in rate sells.
        let bought: Vec<&Trade> = trades().filter(|t| t.seller == account).collect();
        let sold: Vec<&Trade> = trades().filter(|t| t.buyer == account).collect();
        let count = total(&bought).min(total(&sold));
        first_at_their_prices(&sold, count) - first_at_their_prices(&bought, count)
    }

    /// For each account a row with one amount for each month.
    fn rows(&self, amount: impl Fn(usize, usize) -> i64) -> Vec<Vec<i64>> {
        let mut rows = Vec::new();
        for account in 0..self.accounts.len() {
            rows.push((0..self.months.len()).map(|month| amount(account, month)).collect());
        }
        rows
    }

    fn sum_of_adjustments(&self, account: usize, counts: impl Fn(&Session) -> bool) -> i64 {
        let mut sum = 0;
        for session in self.sessions.iter().filter(|session| counts(session)) {
            if let Some(close) = &session.close {
                // An account that came after the close has no row there.
                sum += close.adjustments.get(account).map_or(0, |row| row.iter().sum());
            }
        }
        sum
    }

    pub fn paid(&self, account: usize) -> i64 {
        self.sum_of_adjustments(account, |session| session.paid)
    }

    pub fn due(&self, account: usize) -> i64 {
        self.sum_of_adjustments(account, |session| !session.paid)
    }

    // ---------------------------------------------------------- the calls

    pub fn enter(&mut self, account: Account) -> Result<usize, Refusal> {
        if self.accounts.len() >= MAX_ACCOUNTS {
            return Err(refusal(18));
        }
        if self.accounts.contains(&account) {
            return Err(refusal(19));
        }
        self.accounts.push(account);
        Ok(self.accounts.len() - 1)
    }

    /// Answers the month's index and its expiry.
    pub fn list(&mut self, month_number: u32) -> Result<(usize, u32), Refusal> {
        if self.months.len() >= MAX_MONTHS {
            return Err(refusal(18));
        }
        if self.months.contains(&month_number) {
            return Err(refusal(19));
        }
        let Some(expiry) = self.calendar.expiry(month_number) else {
            return Err(refusal(20));
        };
        if expiry <= self.start_day || self.latest_day().is_some_and(|latest| expiry <= latest) {
            return Err(refusal(20));
        }
        self.months.push(month_number);
        Ok((self.months.len() - 1, expiry))
    }

    pub fn publish(&mut self, day: u32, rate: u32, period: u32) -> Result<(), Refusal> {
        self.rates.publish(day, rate, period)
    }

    pub fn arbitrate(&mut self, day: u32, rate: u32) -> Result<(), Refusal> {
        self.rates.arbitrate(day, rate)
    }

    pub fn open(&mut self) -> Result<SessionReference, Refusal> {
        if self.open_session().is_some() {
            return Err(refusal(11));
        }
        let from = self.latest_day().map_or(self.start_day, |latest| latest + 1);
        let Some(day) = self.calendar.next_session(from) else {
            return Err(refusal(12));
        };
        self.sessions.push(Session {
            day,
            trades: Vec::new(),
            marks: Vec::new(),
            close: None,
            paid: false,
        });
        Ok(SessionReference { number: self.number, day })
    }

    /// The sides are those in rate; accounts and month are indices.
    pub fn trade(
        &mut self,
        ticket: &SessionReference,
        buyer: usize,
        seller: usize,
        month: usize,
        rate: u32,
        quantity: u32,
    ) -> Result<Trade, Refusal> {
        let open = match self.open_session() {
            Some(open) if self.is_of(ticket, Some(open)) => open,
            _ => return Err(refusal(1)),
        };
        let accounts = self.accounts.len();
        if buyer >= accounts || seller >= accounts || month >= self.months.len() {
            return Err(refusal(2));
        }
        let expiry = self.expiry(month);
        if expiry <= ticket.day {
            return Err(refusal(3));
        }
        if buyer == seller {
            return Err(refusal(4));
        }
        if quantity < 1 || quantity > MAX_CONTRACTS {
            return Err(refusal(5));
        }
        let session_month = month_of_day(ticket.day).expect("a session has a date");
        let distance = i64::from(self.months[month]) - i64::from(session_month);
        if rate > MAX_DEALT_RATE || !on_tick(rate, distance) {
            return Err(refusal(6));
        }
        let reserve_days = self.calendar.reserve_days(ticket.day, expiry).len() as u32;
        if reserve_days > MAX_RESERVE_DAYS {
            return Err(refusal(7));
        }
        let contracts = i64::from(quantity);
        if self.position_now(buyer, month) - contracts < -MAX_POSITION
            || self.position_now(seller, month) + contracts > MAX_POSITION
        {
            return Err(refusal(8));
        }
        if self.sessions[open].trades.len() >= MAX_TRADES {
            return Err(refusal(9));
        }
        let price = trade_price(rate, reserve_days);
        let trade = Trade { buyer, seller, month, rate, contracts: quantity, price };
        self.sessions[open].trades.push(trade.clone());
        Ok(trade)
    }

    pub fn mark(
        &mut self,
        ticket: &SessionReference,
        month: usize,
        price: u64,
    ) -> Result<(), Refusal> {
        let open = match self.open_session() {
            Some(open) if self.is_of(ticket, Some(open)) => open,
            _ => return Err(refusal(1)),
        };
        if month >= self.months.len() {
            return Err(refusal(2));
        }
        if self.expiry(month) <= ticket.day {
            return Err(refusal(3));
        }
        if price < 1 || price > MAX_PRICE {
            return Err(refusal(10));
        }
        self.sessions[open].marks.push(Mark { month, price });
        Ok(())
    }

    /// Answers the slip and what is written.
    pub fn close(
        &mut self,
        ticket: &SessionReference,
    ) -> Result<(SessionReference, Close), Refusal> {
        let open = match self.open_session() {
            Some(open) if self.is_of(ticket, Some(open)) => open,
            _ => return Err(refusal(1)),
        };
        if self.unpaid_session().is_some() {
            return Err(refusal(13));
        }
        for month in 0..self.months.len() {
            if self.expiry(month) > ticket.day && self.mark_of(open, month).is_none() {
                return Err(Refusal { number: 14, told: Told::Month(self.months[month]) });
            }
        }
        let factors =
            self.factors(open).map_err(|day| Refusal { number: 15, told: Told::Day(day) })?;

        let close = Close {
            adjustments: self.rows(|account, month| {
                self.adjustment(open, account, month, &factors)
            }),
            day_trades: self.rows(|account, month| self.day_trade(open, account, month)),
        };
        self.sessions[open].close = Some(close.clone());
        Ok((SessionReference { number: self.number, day: ticket.day }, close))
    }

    pub fn pay(&mut self, slip: &SessionReference) -> Result<(), Refusal> {
        let unpaid = match self.unpaid_session() {
            Some(unpaid) if self.is_of(slip, Some(unpaid)) => unpaid,
            _ => return Err(refusal(1)),
        };
        if self.open_session().is_none() {
            return Err(refusal(17));
        }
        self.sessions[unpaid].paid = true;
        Ok(())
    }

    pub fn position(&self, account: usize, month: usize) -> Result<i64, Refusal> {
        if account >= self.accounts.len() || month >= self.months.len() {
            return Err(refusal(2));
        }
        Ok(self.position_now(account, month))
    }

    /// What is paid and what is due.
    pub fn balance(&self, account: usize) -> Result<(i64, i64), Refusal> {
        if account >= self.accounts.len() {
            return Err(refusal(2));
        }
        Ok((self.paid(account), self.due(account)))
    }

    pub fn import(&mut self, ticket: &SessionReference, bytes: &[u8]) -> Import {
        let mut taken = Vec::new();
        let sheet = match read_sheet(bytes, Some(ticket.day)) {
            Ok(sheet) => sheet,
            Err(fault) => {
                let stop = Stop { line: fault.line, refusal: refusal(26), by_sheet: true };
                return Import { taken, stop: Some(stop) };
            }
        };
        for (line, of_sheet) in sheet.trades.iter().enumerate() {
            let answer = self.trade(
                ticket,
                usize::from(of_sheet.buyer),
                usize::from(of_sheet.seller),
                self.index_of(of_sheet.month),
                of_sheet.rate,
                of_sheet.quantity,
            );
            match answer {
                Ok(trade) => taken.push(trade),
                Err(refusal) => {
                    return Import { taken, stop: Some(Stop { line, refusal, by_sheet: false }) };
                }
            }
        }
        Import { taken, stop: None }
    }

    /// The index of a month; of one that is not listed, an index that is not in the book.
    pub fn index_of(&self, month_number: u32) -> usize {
        let place = self.months.iter().position(|&listed| listed == month_number);
        place.unwrap_or(self.months.len())
    }
}

fn total(trades: &[&Trade]) -> u32 {
    trades.iter().map(|trade| trade.contracts).sum()
}

/// The first so many contracts of the trades, each at the price of its trade, added up.
fn first_at_their_prices(trades: &[&Trade], count: u32) -> i64 {
    let mut left = count;
    let mut sum = 0;
    for trade in trades {
        let contracts = trade.contracts.min(left);
        sum += i64::from(contracts) * trade.price as i64;
        left -= contracts;
    }
    sum
}
