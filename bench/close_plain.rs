// Closes of a session in plain Rust: from running sums with one pass for the day trades, as the
// proved code has it, and beside it by a walk over the trades for each account and month.
use crate::Numbers;

pub(crate) const MAX_TRADES: usize = 256;
pub(crate) const MAX_CONTRACTS: u32 = 20_000;
pub(crate) const MAX_POSITION: u32 = 500_000;
const MAX_POSITION_AT_CLOSE: u32 = MAX_POSITION + MAX_TRADES as u32 * MAX_CONTRACTS;
pub(crate) const MAX_ACCOUNTS: usize = 32;
pub(crate) const MAX_MONTHS: usize = 16;
pub(crate) const CELLS: usize = MAX_ACCOUNTS * MAX_MONTHS;

#[derive(Clone, Copy, Default)]
pub(crate) struct Trade {
    pub(crate) buyer: u8,
    pub(crate) seller: u8,
    pub(crate) month: u8,
    #[allow(dead_code)]
    pub(crate) rate: u32,
    pub(crate) contracts: u32,
    pub(crate) price: u32,
}

#[derive(Clone, Copy)]
pub(crate) struct MonthPrices {
    pub(crate) settlement: u32,
    pub(crate) corrected: u32,
}

// ---- From running sums.

pub(crate) fn place(account: u8, month: u8) -> usize {
    MAX_MONTHS * account as usize + month as usize
}

#[derive(Clone, Copy, Default)]
struct SideSum {
    contracts: u32,
    value: u64,
}

#[derive(Clone, Copy, Default)]
struct FirstContracts {
    left: u32,
    value: u64,
}

fn add(cells: &mut [SideSum; CELLS], party: u8, trade: Trade) {
    let cell = &mut cells[place(party, trade.month)];
    cell.contracts += trade.contracts;
    cell.value += trade.contracts as u64 * trade.price as u64;
}

fn take(cells: &mut [FirstContracts; CELLS], party: u8, trade: Trade) {
    let cell = &mut cells[place(party, trade.month)];
    let contracts = trade.contracts.min(cell.left);
    cell.left -= contracts;
    cell.value += contracts as u64 * trade.price as u64;
}

fn within_limit(position: i32) -> i32 {
    if position.unsigned_abs() > MAX_POSITION_AT_CLOSE {
        return 0;
    }
    position
}

fn adjustment(bought: SideSum, sold: SideSum, position: i32, prices: MonthPrices) -> i64 {
    let change = bought.contracts as i64 - sold.contracts as i64;
    let cost = bought.value as i64 - sold.value as i64;
    let traded = change * prices.settlement as i64 - cost;
    let carried = within_limit(position) as i64 - change;
    traded + carried * (prices.settlement as i64 - prices.corrected as i64)
}

pub(crate) struct Session {
    trades: [Trade; MAX_TRADES],
    count: usize,
    bought: [SideSum; CELLS],
    sold: [SideSum; CELLS],
    first_bought: [FirstContracts; CELLS],
    first_sold: [FirstContracts; CELLS],
}

impl Session {
    pub(crate) fn new() -> Session {
        Session {
            trades: [Trade::default(); MAX_TRADES],
            count: 0,
            bought: [SideSum::default(); CELLS],
            sold: [SideSum::default(); CELLS],
            first_bought: [FirstContracts::default(); CELLS],
            first_sold: [FirstContracts::default(); CELLS],
        }
    }

    pub(crate) fn clear(&mut self) {
        self.count = 0;
        self.bought = [SideSum::default(); CELLS];
        self.sold = [SideSum::default(); CELLS];
    }

    pub(crate) fn is_full(&self) -> bool {
        self.count >= MAX_TRADES
    }

    pub(crate) fn accept(&mut self, trade: Trade) -> bool {
        let fits = (trade.buyer as usize) < MAX_ACCOUNTS
            && (trade.seller as usize) < MAX_ACCOUNTS
            && (trade.month as usize) < MAX_MONTHS
            && trade.contracts <= MAX_CONTRACTS;
        if self.count >= MAX_TRADES || !fits {
            return false;
        }
        add(&mut self.bought, trade.seller, trade);
        add(&mut self.sold, trade.buyer, trade);
        self.trades[self.count] = trade;
        self.count += 1;
        true
    }

    fn take_firsts(&mut self) {
        for i in 0..CELLS {
            let left = self.bought[i].contracts.min(self.sold[i].contracts);
            let cell = FirstContracts { left, value: 0 };
            self.first_bought[i] = cell;
            self.first_sold[i] = cell;
        }
        for trade in &self.trades[..self.count] {
            take(&mut self.first_bought, trade.seller, *trade);
            take(&mut self.first_sold, trade.buyer, *trade);
        }
    }

    pub(crate) fn write_amounts(
        &mut self,
        accounts: usize,
        prices: &[MonthPrices],
        positions: &[i32],
        adjustments: &mut [i64],
        day_trades: &mut [i64],
    ) -> bool {
        let months = prices.len();
        let room = adjustments.len().min(day_trades.len());
        if accounts > MAX_ACCOUNTS || months > MAX_MONTHS || accounts * months > room {
            return false;
        }
        self.take_firsts();
        for account in 0..accounts {
            let start = account * months;
            for (month, cell) in adjustments[start..start + months].iter_mut().enumerate() {
                let at = place(account as u8, month as u8);
                *cell = adjustment(self.bought[at], self.sold[at], positions[at], prices[month]);
            }
        }
        for account in 0..accounts {
            let start = account * months;
            for (month, cell) in day_trades[start..start + months].iter_mut().enumerate() {
                let at = place(account as u8, month as u8);
                *cell = self.first_sold[at].value as i64 - self.first_bought[at].value as i64;
            }
        }
        true
    }
}

// ---- By a walk over the trades for each account and month.

fn side(trade: &Trade, party: u8, account: u8, month: u8) -> u32 {
    if trade.month == month && party == account {
        trade.contracts
    } else {
        0
    }
}

fn walk_adjustment(
    trades: &[Trade],
    account: u8,
    month: u8,
    position: i32,
    prices: MonthPrices,
) -> i64 {
    let mut change = 0;
    let mut sum = 0;
    for trade in trades {
        let bought = side(trade, trade.seller, account, month);
        let sold = side(trade, trade.buyer, account, month);
        let contracts = bought as i64 - sold as i64;
        change += contracts;
        sum += contracts * (prices.settlement as i64 - trade.price as i64);
    }
    let carried = position as i64 - change;
    sum + carried * (prices.settlement as i64 - prices.corrected as i64)
}

fn walk_firsts(trades: &[Trade], count: u32, side_of: impl Fn(&Trade) -> u32) -> u64 {
    let mut left = count;
    let mut sum = 0;
    for trade in trades {
        let taken = side_of(trade).min(left);
        sum += taken as u64 * trade.price as u64;
        left -= taken;
    }
    sum
}

fn walk_day_trade(trades: &[Trade], account: u8, month: u8) -> i64 {
    let bought = |trade: &Trade| side(trade, trade.seller, account, month);
    let sold = |trade: &Trade| side(trade, trade.buyer, account, month);
    let count = trades
        .iter()
        .map(bought)
        .sum::<u32>()
        .min(trades.iter().map(sold).sum());
    walk_firsts(trades, count, sold) as i64 - walk_firsts(trades, count, bought) as i64
}

// ---- What is measured.

// A trade between some of the accounts, at a price near the full one.
fn trade(numbers: &mut Numbers, accounts: u32) -> Trade {
    let buyer = numbers.below(accounts) as u8;
    let seller = numbers.below(accounts) as u8;
    let month = numbers.below(16) as u8;
    let contracts = 1 + numbers.below(20_000);
    let price = 9_000_000 + numbers.below(1_000_000);
    Trade {
        buyer,
        seller,
        month,
        rate: 10_000,
        contracts,
        price,
    }
}

// The trades of every session, and the positions at its close.
fn book(accounts: u32) -> ([Trade; MAX_TRADES], [i32; CELLS]) {
    let mut numbers = Numbers::new();
    let mut trades = [Trade::default(); MAX_TRADES];
    for dealt in &mut trades {
        *dealt = trade(&mut numbers, accounts);
    }
    let mut positions = [0; CELLS];
    for position in &mut positions {
        *position = numbers.below(1_000_001) as i32 - 500_000;
    }
    (trades, positions)
}

fn prices(round: u32) -> [MonthPrices; MAX_MONTHS] {
    [MonthPrices {
        settlement: 9_900_000 + round % 1_000,
        corrected: 9_890_000,
    }; MAX_MONTHS]
}

// What the arrays of a close come to.
pub(crate) fn array_sum(adjustments: &[i64], day_trades: &[i64]) -> i64 {
    let mut sum = 0i64;
    for (adjustment, day_trade) in adjustments.iter().zip(day_trades) {
        sum = sum.wrapping_add(*adjustment ^ *day_trade);
    }
    sum
}

pub(crate) fn closes(count: u32, accounts: u32, trades: u32) -> i64 {
    let (dealt, positions) = book(accounts);
    let cells = MAX_MONTHS * accounts as usize;
    let mut session = Session::new();
    let (mut adjustments, mut day_trades) = ([0; CELLS], [0; CELLS]);
    let mut sum = 0i64;
    for round in 0..count {
        session.clear();
        for trade in &dealt[..trades as usize] {
            session.accept(*trade);
        }
        session.write_amounts(
            accounts as usize,
            &prices(round),
            &positions,
            &mut adjustments[..cells],
            &mut day_trades[..cells],
        );
        sum = sum.wrapping_add(array_sum(&adjustments[..cells], &day_trades[..cells]));
    }
    sum
}

pub(crate) fn walks(count: u32, accounts: u32, trades: u32) -> i64 {
    let (dealt, positions) = book(accounts);
    let dealt = &dealt[..trades as usize];
    let cells = MAX_MONTHS * accounts as usize;
    let (mut adjustments, mut day_trades) = ([0; CELLS], [0; CELLS]);
    let mut sum = 0i64;
    for round in 0..count {
        let prices = prices(round);
        for account in 0..accounts as u8 {
            for month in 0..MAX_MONTHS as u8 {
                let at = place(account, month);
                let of_month = prices[month as usize];
                adjustments[at] = walk_adjustment(dealt, account, month, positions[at], of_month);
                day_trades[at] = walk_day_trade(dealt, account, month);
            }
        }
        sum = sum.wrapping_add(array_sum(&adjustments[..cells], &day_trades[..cells]));
    }
    sum
}
