// A book replayed from its journal, call by call, and what its calls answered up to now.

use crate::book::{Book, Close, SessionReference, Stop, Trade};
use crate::interest::MAX_PRICE;
use crate::journal::{Call, CallLine, Journal};
use crate::rates::Rates;
use crate::refusals::Refusal;

/// What a call answered.
pub enum Answer {
    Account(usize),
    Month { index: usize, expiry: u32 },
    Published,
    Arbitrated,
    Opened { day: u32 },
    Price(u64),
    Imported { taken: usize, stop: Option<Stop> },
    Marked,
    /// With what is due to each account after the close.
    Closed { day: u32, close: Close, due: Vec<i64> },
    Paid { day: u32 },
    WrittenOff { number: u32, day: u32 },
    Position(i64),
    Balance { paid: i64, due: i64 },
    Refused(Refusal),
    /// The call did nothing, because this is not held.
    NotHeld(&'static str),
}

const NO_TICKET: Answer = Answer::NotHeld("no ticket is held");
const NO_SLIP: Answer = Answer::NotHeld("no slip is held");

/// An accepted trade, with the line of its call in the journal and its session's day.
pub struct TradeRow {
    pub line: usize,
    pub day: u32,
    pub trade: Trade,
}

/// A closed session, as the answers of its calls tell it.
pub struct ClosedSession {
    pub day: u32,
    pub trades: Vec<Trade>,
    /// The settlement price of each month that was listed at the close; none once it is expired.
    pub prices: Vec<Option<u64>>,
    pub close: Close,
}

pub struct Replay {
    pub book: Book,
    ticket: Option<SessionReference>,
    slip: Option<SessionReference>,
    pub trades: Vec<TradeRow>,
    /// The accepted marks of the open session: month and price.
    marks: Vec<(usize, u64)>,
    pub opened: usize,
    pub closed: Vec<ClosedSession>,
    pub paid: usize,
}

impl Replay {
    /// The book of a journal before its first call.
    pub fn new(journal: Journal) -> (Replay, Vec<CallLine>) {
        let rates = journal.office.rates.unwrap_or(Rates::table(0, 0));
        let book = Book::new(journal.office.calendar, rates, journal.number, journal.start_day);
        let replay = Replay {
            book,
            ticket: None,
            slip: None,
            trades: Vec::new(),
            marks: Vec::new(),
            opened: 0,
            closed: Vec::new(),
            paid: 0,
        };
        (replay, journal.calls)
    }

    pub fn answer(&mut self, line: &CallLine) -> Answer {
        self.call(line).unwrap_or_else(Answer::Refused)
    }

    fn call(&mut self, line: &CallLine) -> Result<Answer, Refusal> {
        let book = &mut self.book;
        let answer = match &line.call {
            Call::Enter(account) => Answer::Account(book.enter(account.clone())?),
            Call::List { month } => {
                let (index, expiry) = book.list(*month)?;
                Answer::Month { index, expiry }
            }
            Call::Publish { day, rate, period } => {
                book.publish(*day, *rate, *period)?;
                Answer::Published
            }
            Call::Arbitrate { day, rate } => {
                book.arbitrate(*day, *rate)?;
                Answer::Arbitrated
            }
            Call::Position { account, month } => {
                Answer::Position(book.position(*account, book.index_of(*month))?)
            }
            Call::Balance { account } => {
                let (paid, due) = book.balance(*account)?;
                Answer::Balance { paid, due }
            }
            Call::Open => {
                let ticket = book.open()?;
                let day = ticket.day;
                self.ticket = Some(ticket);
                self.opened += 1;
                Answer::Opened { day }
            }
            Call::Trade { buyer, seller, month, rate, quantity } => {
                let Some(ticket) = &self.ticket else { return Ok(NO_TICKET) };
                let month = book.index_of(*month);
                let trade = book.trade(ticket, *buyer, *seller, month, *rate, *quantity)?;
                let price = trade.price;
                self.trades.push(TradeRow { line: line.line, day: ticket.day, trade });
                Answer::Price(price)
            }
            Call::Import(bytes) => {
                let Some(ticket) = &self.ticket else { return Ok(NO_TICKET) };
                let import = book.import(ticket, bytes);
                let taken = import.taken.len();
                for trade in import.taken {
                    self.trades.push(TradeRow { line: line.line, day: ticket.day, trade });
                }
                Answer::Imported { taken, stop: import.stop }
            }
            Call::Mark { month, price } => {
                let Some(ticket) = &self.ticket else { return Ok(NO_TICKET) };
                let month = book.index_of(*month);
                book.mark(ticket, month, *price)?;
                self.marks.push((month, *price));
                Answer::Marked
            }
            Call::Close => {
                let Some(ticket) = &self.ticket else { return Ok(NO_TICKET) };
                let (slip, close) = book.close(ticket)?;
                let day = slip.day;
                self.ticket = None;
                self.slip = Some(slip);
                self.keep(day, close.clone());
                let due = self.due();
                Answer::Closed { day, close, due }
            }
            Call::Pay => {
                let Some(slip) = &self.slip else { return Ok(NO_SLIP) };
                let day = slip.day;
                book.pay(slip)?;
                self.slip = None;
                self.paid += 1;
                Answer::Paid { day }
            }
            Call::WriteOff => {
                let Some(slip) = self.slip.take() else { return Ok(NO_SLIP) };
                Answer::WrittenOff { number: slip.number, day: slip.day }
            }
        };
        Ok(answer)
    }

    fn due(&self) -> Vec<i64> {
        (0..self.book.accounts().len()).map(|account| self.book.due(account)).collect()
    }

    /// Keeps what is told of a session that is closed now.
    fn keep(&mut self, day: u32, close: Close) {
        let price = |month: usize| {
            if self.book.expiry(month) == day {
                return Some(MAX_PRICE);
            }
            let of_month = self.marks.iter().rev().find(|(marked, _)| *marked == month);
            of_month.map(|(_, price)| *price)
        };
        let prices = (0..self.book.months().len()).map(price).collect();
        let of_day = self.trades.iter().filter(|row| row.day == day);
        let trades = of_day.map(|row| row.trade.clone()).collect();
        self.closed.push(ClosedSession { day, trades, prices, close });
        self.marks.clear();
    }
}
