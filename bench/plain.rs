// The same work as the proved program `measure`, in plain Rust: the same commands, the same prints.
// Besides, to compare with, chains of divided steps and closes by a walk of the trades for each cell,
// and a count of the trials that a root takes.
mod book_plain;
mod close_plain;

use book_plain::{books, prices_alone, IDLE, IMPORTS, YEARS};
use close_plain::{closes, walks};
use std::cmp::Ordering;
use std::env;
use std::process::ExitCode;

// ---- dates

const LAST_DAY: u32 = 36_524;
const LAST_MONTH: u32 = 1_199;
const BEFORE: [u32; 12] = [0, 31, 59, 90, 120, 151, 181, 212, 243, 273, 304, 334];

fn days_in(of_year: u32, leap: bool) -> u32 {
    match of_year {
        1 if leap => 29,
        1 => 28,
        3 | 5 | 8 | 10 => 30,
        _ => 31,
    }
}

fn month_length(month: u32) -> Option<u32> {
    if month > LAST_MONTH {
        return None;
    }
    Some(days_in(month % 12, month / 12 % 4 == 0))
}

fn start(month: u32) -> u32 {
    let years = month / 12;
    let of_year = month % 12;
    let leap_day = if of_year >= 2 && years % 4 == 0 { 1 } else { 0 };
    365 * years + (years + 3) / 4 + BEFORE[of_year as usize] + leap_day
}

fn first_day(month: u32) -> Option<u32> {
    if month <= LAST_MONTH {
        Some(start(month))
    } else {
        None
    }
}

fn month_of(day: u32) -> Option<u32> {
    if day > LAST_DAY {
        return None;
    }
    let guess = (48 * day).saturating_sub(63) / 1461;
    if start(guess + 1) <= day {
        Some(guess + 1)
    } else {
        Some(guess)
    }
}

// ---- calendar

#[derive(Clone, Copy)]
enum DayKind {
    Closed,
    Reserve,
    Session,
}

impl DayKind {
    fn is_reserve(self) -> bool {
        match self {
            DayKind::Closed => false,
            DayKind::Reserve | DayKind::Session => true,
        }
    }

    fn is_session(self) -> bool {
        match self {
            DayKind::Closed | DayKind::Reserve => false,
            DayKind::Session => true,
        }
    }
}

trait Calendar {
    fn kind(&self, day: u32) -> DayKind;
}

fn kind_of_mark(mark: u8) -> DayKind {
    match mark {
        1 => DayKind::Reserve,
        2 => DayKind::Session,
        _ => DayKind::Closed,
    }
}

#[derive(Clone, Copy)]
struct Exception {
    day: u32,
    kind: u8,
}

struct RuleCalendar {
    days: Vec<DayKind>,
}

fn kind_of_week(day: u32) -> DayKind {
    if day % 7 < 2 {
        DayKind::Closed
    } else {
        DayKind::Session
    }
}

fn weeks() -> Vec<DayKind> {
    let mut days = Vec::with_capacity(LAST_DAY as usize + 1);
    for day in 0..LAST_DAY + 1 {
        days.push(kind_of_week(day));
    }
    days
}

fn enter(days: &mut Vec<DayKind>, exceptions: &[Exception], at: usize) {
    let exception = exceptions[at];
    if exception.day <= LAST_DAY {
        days[exception.day as usize] = kind_of_mark(exception.kind);
    }
}

impl RuleCalendar {
    fn new(exceptions: &[Exception]) -> RuleCalendar {
        let mut days = weeks();
        let mut left = exceptions.len();
        while left > 0 {
            left -= 1;
            enter(&mut days, exceptions, left);
        }
        RuleCalendar { days }
    }
}

impl Calendar for RuleCalendar {
    fn kind(&self, day: u32) -> DayKind {
        if day > LAST_DAY {
            return DayKind::Closed;
        }
        match self.days.get(day as usize) {
            Some(kind) => *kind,
            None => DayKind::Closed,
        }
    }
}

fn count_days<C: Calendar>(calendar: &C, from: u32, end: u32) -> u32 {
    let mut count = 0;
    for day in from..end {
        if calendar.kind(day).is_reserve() {
            count += 1;
        }
    }
    count
}

fn count_reserve_days<C: Calendar>(calendar: &C, from: u32, to: u32) -> u32 {
    let end = to.min(LAST_DAY + 1);
    if from >= end {
        return 0;
    }
    count_days(calendar, from, end)
}

fn first_session<C: Calendar>(calendar: &C, from: u32, to: u32) -> Option<u32> {
    let end = to.min(LAST_DAY + 1);
    for day in from..end {
        if calendar.kind(day).is_session() {
            return Some(day);
        }
    }
    None
}

fn month_range(month: u32) -> Option<(u32, u32)> {
    let first = first_day(month)?;
    let length = month_length(month)?;
    Some((first, first + length))
}

fn expiry<C: Calendar>(calendar: &C, month: u32) -> Option<u32> {
    let (first, end) = month_range(month)?;
    first_session(calendar, first, end)
}

// ---- interest

const ONE: u64 = 1_000_000_000;
const YEAR: u32 = 252;
const MAX_ROOT: u64 = 1_002_754_370;
const MAX_DI_RATE: u32 = 99_999_999;
const MAX_DEALT_RATE: u32 = 99_999;
const MAX_RESERVE_DAYS: u32 = 2_520;

fn high_word(a: u64, b: u64) -> u64 {
    ((a as u128 * b as u128) >> 64) as u64
}

#[derive(Clone, Copy)]
struct Multiplier {
    excess: u64,
}

impl Multiplier {
    fn new(factor: u64) -> Multiplier {
        let over = factor - ONE;
        Multiplier {
            excess: over * 18_446_744_073 + over * 709_551_616 / ONE + 1,
        }
    }

    fn multiply(self, power: u64) -> u64 {
        power + high_word(power, self.excess)
    }
}

#[derive(Clone, Copy)]
struct Divisor {
    number: u64,
    reciprocal: u64,
}

impl Divisor {
    fn new(number: u64) -> Divisor {
        Divisor {
            number,
            reciprocal: u64::MAX / number,
        }
    }

    fn divide(self, dividend: u64) -> u64 {
        let near = high_word(dividend, self.reciprocal);
        if dividend - near * self.number < self.number {
            near
        } else {
            near + 1
        }
    }
}

#[derive(Clone, Copy)]
struct Powers {
    lower: u64,
    upper: u64,
}

#[derive(Clone, Copy)]
struct Neighbours {
    lower: Multiplier,
    upper: Multiplier,
}

impl Neighbours {
    fn new(factor: u64) -> Neighbours {
        Neighbours {
            lower: Multiplier::new(factor),
            upper: Multiplier::new(factor + 1),
        }
    }

    fn raise(self, powers: Powers, from: u32, to: u32) -> Powers {
        let mut lower = powers.lower;
        let mut upper = powers.upper;
        for _ in from..to {
            lower = self.lower.multiply(lower);
            upper = self.upper.multiply(upper);
        }
        Powers { lower, upper }
    }

    fn trial(self, days: u32) -> Trial {
        let start = Powers {
            lower: ONE,
            upper: ONE,
        };
        let part = self.raise(start, 0, days);
        Trial {
            power: part.lower,
            year: self.raise(part, days, YEAR),
        }
    }
}

#[derive(Clone, Copy)]
struct Trial {
    power: u64,
    year: Powers,
}

impl Trial {
    fn compare(self, target: u64) -> Ordering {
        if self.year.lower > target {
            Ordering::Greater
        } else if self.year.upper <= target {
            Ordering::Less
        } else {
            Ordering::Equal
        }
    }
}

const UNIT: u64 = 1 << 32;
const FINE_UNIT: u64 = 1 << 40;

fn logarithm(s: u64) -> u64 {
    let z = s * s / UNIT;
    let mut sum = 0;
    for k in (0..7).rev() {
        sum = UNIT / (2 * k + 1) + sum * z / UNIT;
    }
    2 * s * sum / UNIT
}

fn guess(target: u64) -> u64 {
    let log = logarithm((target - ONE) * UNIT / (target + ONE));
    let part = log * 64 / 63;
    let over = part + part * (part + part * part / (3 * FINE_UNIT)) / (2 * FINE_UNIT);
    let dropped = FINE_UNIT / 2 - 51 * log;
    ONE + (over * ONE + dropped) / FINE_UNIT
}

struct FoundRoot {
    factor: u64,
    power: u64,
}

fn root_within(target: u64, days: u32) -> FoundRoot {
    let mut factor = guess(target).clamp(ONE, MAX_ROOT);
    loop {
        let trial = Neighbours::new(factor).trial(days);
        match trial.compare(target) {
            Ordering::Less => factor += 1,
            Ordering::Equal => {
                return FoundRoot {
                    factor,
                    power: trial.power,
                };
            }
            Ordering::Greater => factor -= 1,
        }
    }
}

enum Unpriceable {
    RateTooHigh,
    TooFar,
}

fn to_eight_decimals(factor: u64) -> u32 {
    ((factor + 5) / 10) as u32
}

fn day_factor(rate: u32) -> Option<u32> {
    if rate > MAX_DI_RATE {
        return None;
    }
    let target = ONE + 10 * rate as u64;
    Some(to_eight_decimals(root_within(target, 0).factor))
}

fn discount(worth: u64, rate: u32, years: u32) -> u64 {
    let year = Divisor::new(100_000 + rate as u64);
    let mut left = worth;
    for _ in 0..years {
        left = year.divide(left * 100_000);
    }
    left
}

fn to_centavos(worth: u64) -> u32 {
    ((worth + 5_000_000) / 10_000_000) as u32
}

fn price_within(rate: u32, days: u32) -> u32 {
    let root = root_within(ONE + 10_000 * rate as u64, days % YEAR);
    let worth = 10_000_000_000_000_000_000 / root.power * 10_000;
    to_centavos(discount(worth, rate, days / YEAR))
}

fn check_limits(rate: u32, days: u32) -> Result<(), Unpriceable> {
    if rate > MAX_DEALT_RATE {
        return Err(Unpriceable::RateTooHigh);
    }
    if days > MAX_RESERVE_DAYS {
        return Err(Unpriceable::TooFar);
    }
    Ok(())
}

fn trade_price(rate: u32, days: u32) -> Result<u32, Unpriceable> {
    check_limits(rate, days)?;
    Ok(price_within(rate, days))
}

#[derive(Clone, Copy)]
struct TickBand {
    from: u32,
    step: u32,
}

const TICK_BANDS: [TickBand; 3] = [
    TickBand { from: 1, step: 1 },
    TickBand { from: 4, step: 5 },
    TickBand { from: 13, step: 10 },
];

fn step_in(bands: &[TickBand], distance: u32) -> Option<u32> {
    let mut found = None;
    for band in bands {
        if band.from <= distance {
            found = Some(band.step);
        }
    }
    found
}

fn tick(distance: u32) -> Option<u32> {
    step_in(&TICK_BANDS, distance)
}

fn on_tick(rate: u32, distance: u32) -> bool {
    match tick(distance) {
        Some(step) => rate % step == 0,
        None => false,
    }
}

// ---- sheet

const MAX_TRADES: u16 = 256;

#[derive(Clone, Copy)]
struct TradeLine {
    buyer: u8,
    seller: u8,
    month: u32,
    rate: u32,
    quantity: u32,
}

#[allow(dead_code)]
enum SheetFault {
    Length,
    Count,
    Day,
    Code(u32),
}

enum WriteFault {
    Short,
    BadSheet,
}

fn letter(month_of_year: u32) -> Option<char> {
    match month_of_year {
        0 => Some('F'),
        1 => Some('G'),
        2 => Some('H'),
        3 => Some('J'),
        4 => Some('K'),
        5 => Some('M'),
        6 => Some('N'),
        7 => Some('Q'),
        8 => Some('U'),
        9 => Some('V'),
        10 => Some('X'),
        11 => Some('Z'),
        _ => None,
    }
}

fn month_of_letter(letter: char) -> Option<u32> {
    match letter {
        'F' => Some(0),
        'G' => Some(1),
        'H' => Some(2),
        'J' => Some(3),
        'K' => Some(4),
        'M' => Some(5),
        'N' => Some(6),
        'Q' => Some(7),
        'U' => Some(8),
        'V' => Some(9),
        'X' => Some(10),
        'Z' => Some(11),
        _ => None,
    }
}

#[derive(Clone, Copy)]
struct ContractCode {
    month: u32,
}

impl ContractCode {
    fn new(month: u32) -> Option<ContractCode> {
        if month <= LAST_MONTH {
            Some(ContractCode { month })
        } else {
            None
        }
    }

    fn month(&self) -> u32 {
        self.month
    }

    fn from_bytes(bytes: &[u8]) -> Option<ContractCode> {
        let [b'D', b'I', b'1', letter, tens, ones] = bytes else {
            return None;
        };
        let month_of_year = month_of_letter(char::from(*letter))?;
        let year = 10 * digit(*tens)? + digit(*ones)?;
        Some(ContractCode {
            month: 12 * year + month_of_year,
        })
    }

    fn bytes(&self) -> [u8; 6] {
        let letter = letter_of(self.month % 12);
        let (tens, ones) = year_digits(self.month);
        [b'D', b'I', b'1', letter as u8, b'0' + tens, b'0' + ones]
    }
}

fn digit(byte: u8) -> Option<u32> {
    match byte {
        b'0'..=b'9' => Some((byte - b'0') as u32),
        _ => None,
    }
}

fn letter_of(month_of_year: u32) -> char {
    match letter(month_of_year) {
        Some(c) => c,
        None => unreachable!(),
    }
}

fn year_digits(month: u32) -> (u8, u8) {
    let year = month / 12;
    ((year / 10) as u8, (year % 10) as u8)
}

fn number_of_two(bytes: &[u8]) -> u16 {
    u16::from_le_bytes([bytes[0], bytes[1]])
}

fn number_of_four(bytes: &[u8]) -> u32 {
    u32::from_le_bytes([bytes[0], bytes[1], bytes[2], bytes[3]])
}

fn write(day: u16, trades: &[TradeLine], out: &mut [u8]) -> Result<usize, WriteFault> {
    let count = trades.len();
    if is_short(out.len(), count) {
        return Err(WriteFault::Short);
    }
    if count > MAX_TRADES as usize || !are_coded(trades) {
        return Err(WriteFault::BadSheet);
    }
    let terms = 4 + 2 * count;
    let end = terms + 14 * count;
    out[0..2].copy_from_slice(&(count as u16).to_le_bytes());
    out[2..4].copy_from_slice(&day.to_le_bytes());
    write_sides(trades, &mut out[4..terms]);
    write_terms(trades, &mut out[terms..end]);
    Ok(end)
}

fn is_short(room: usize, count: usize) -> bool {
    room < 4 || (room - 4) / 16 < count
}

fn are_coded(trades: &[TradeLine]) -> bool {
    for trade in trades {
        if !is_coded(*trade) {
            return false;
        }
    }
    true
}

fn is_coded(trade: TradeLine) -> bool {
    ContractCode::new(trade.month).is_some()
}

fn write_sides(trades: &[TradeLine], out: &mut [u8]) {
    for line in 0..trades.len() {
        let at = 2 * line;
        let trade = trades[line];
        out[at..at + 2].copy_from_slice(&[trade.buyer, trade.seller]);
    }
}

fn write_terms(trades: &[TradeLine], out: &mut [u8]) {
    for line in 0..trades.len() {
        let at = 14 * line;
        write_line(trades[line], &mut out[at..at + 14]);
    }
}

fn write_line(trade: TradeLine, out: &mut [u8]) {
    let Some(code) = ContractCode::new(trade.month) else {
        unreachable!()
    };
    out[0..6].copy_from_slice(&code.bytes());
    out[6..10].copy_from_slice(&trade.rate.to_le_bytes());
    out[10..14].copy_from_slice(&trade.quantity.to_le_bytes());
}

struct SheetView<'a> {
    bytes: &'a [u8],
    count: u16,
    #[allow(dead_code)]
    day: u16,
}

impl SheetView<'_> {
    fn count(&self) -> usize {
        self.count as usize
    }

    fn trade(&self, line: usize) -> Option<TradeLine> {
        let count = self.count();
        if line >= count || self.bytes.len() < 4 + 16 * count {
            return None;
        }
        let sides = 4 + 2 * line;
        trade_from(
            &self.bytes[sides..sides + 2],
            terms_of(self.bytes, count, line),
        )
    }
}

fn terms_of(bytes: &[u8], count: usize, line: usize) -> &[u8] {
    let from = 4 + 2 * count + 14 * line;
    &bytes[from..from + 14]
}

fn trade_from(sides: &[u8], terms: &[u8]) -> Option<TradeLine> {
    let code = ContractCode::from_bytes(&terms[0..6])?;
    Some(TradeLine {
        buyer: sides[0],
        seller: sides[1],
        month: code.month(),
        rate: number_of_four(&terms[6..10]),
        quantity: number_of_four(&terms[10..14]),
    })
}

fn read(bytes: &[u8]) -> Result<SheetView<'_>, SheetFault> {
    read_on(bytes, None)
}

fn read_on(bytes: &[u8], ticket: Option<u32>) -> Result<SheetView<'_>, SheetFault> {
    let count = framed(bytes)?;
    let day = number_of_two(&bytes[2..4]);
    if !is_on(ticket, day as u32) {
        return Err(SheetFault::Day);
    }
    match first_bad_line(bytes, count) {
        Some(line) => Err(SheetFault::Code(line)),
        None => Ok(SheetView { bytes, count, day }),
    }
}

fn framed(bytes: &[u8]) -> Result<u16, SheetFault> {
    if bytes.len() < 4 {
        return Err(SheetFault::Length);
    }
    let count = number_of_two(&bytes[0..2]);
    if count > MAX_TRADES {
        return Err(SheetFault::Count);
    }
    if bytes.len() != 4 + 16 * count as usize {
        return Err(SheetFault::Length);
    }
    Ok(count)
}

fn is_on(ticket: Option<u32>, day: u32) -> bool {
    match ticket {
        Some(of_ticket) => day == of_ticket,
        None => true,
    }
}

fn first_bad_line(bytes: &[u8], count: u16) -> Option<u32> {
    for line in 0..count {
        let terms = terms_of(bytes, count as usize, line as usize);
        if ContractCode::from_bytes(&terms[0..6]).is_none() {
            return Some(line as u32);
        }
    }
    None
}

// ---- pricing

#[allow(dead_code)]
struct PricedTrade {
    buyer: u8,
    seller: u8,
    expiry: u32,
    days: u32,
    price: u32,
}

enum Cause {
    NoSession,
    Expired,
    RateTooHigh,
    OffTick,
    TooFar,
}

fn price_trade<C: Calendar>(
    calendar: &C,
    session: u32,
    trade: TradeLine,
) -> Result<PricedTrade, Cause> {
    let Some(expiry) = expiry(calendar, trade.month) else {
        return Err(Cause::NoSession);
    };
    if expiry <= session {
        return Err(Cause::Expired);
    }
    if trade.rate > MAX_DEALT_RATE {
        return Err(Cause::RateTooHigh);
    }
    let Some(month) = month_of(session) else {
        unreachable!()
    };
    if !on_tick(trade.rate, trade.month.saturating_sub(month)) {
        return Err(Cause::OffTick);
    }
    let days = count_reserve_days(calendar, session, expiry);
    match trade_price(trade.rate, days) {
        Ok(price) => Ok(PricedTrade {
            buyer: trade.seller,
            seller: trade.buyer,
            expiry,
            days,
            price,
        }),
        Err(Unpriceable::RateTooHigh) => Err(Cause::RateTooHigh),
        Err(Unpriceable::TooFar) => Err(Cause::TooFar),
    }
}

// ---- measure

struct Numbers {
    state: u32,
}

impl Numbers {
    fn new() -> Numbers {
        Numbers { state: 1 }
    }

    fn step(&mut self) -> u32 {
        self.state = self
            .state
            .wrapping_mul(1_664_525)
            .wrapping_add(1_013_904_223);
        self.state
    }

    fn below(&mut self, bound: u32) -> u32 {
        (self.step() >> 8) % bound
    }

    fn di_rate(&mut self) -> u32 {
        (self.step() >> 2) % 100_000_000
    }

    fn trade(&mut self) -> TradeLine {
        let buyer = self.below(32) as u8;
        let seller = self.below(32) as u8;
        let month = 324 + self.below(60);
        let rate = self.below(100_000);
        let quantity = 1 + self.below(20_000);
        TradeLine {
            buyer,
            seller,
            month,
            rate,
            quantity,
        }
    }
}

fn prices(count: u32) -> u64 {
    let mut numbers = Numbers::new();
    let mut sum: u64 = 0;
    for _ in 0..count {
        let rate = numbers.below(100_000);
        let days = numbers.below(2_521);
        if let Ok(price) = trade_price(rate, days) {
            sum = sum.wrapping_add(price as u64);
        }
    }
    sum
}

fn factors(count: u32) -> u64 {
    let mut numbers = Numbers::new();
    let mut sum: u64 = 0;
    for _ in 0..count {
        if let Some(factor) = day_factor(numbers.di_rate()) {
            sum = sum.wrapping_add(factor as u64);
        }
    }
    sum
}

const SESSION: u16 = 9_860;

struct Total {
    lines: u64,
    priced: u64,
    sum: u64,
}

impl Total {
    fn add(&mut self, calendar: &RuleCalendar, trade: TradeLine) {
        self.lines = self.lines.wrapping_add(1);
        match price_trade(calendar, SESSION as u32, trade) {
            Ok(line) => {
                self.priced = self.priced.wrapping_add(1);
                self.sum = self
                    .sum
                    .wrapping_add(line.price as u64)
                    .wrapping_add(line.buyer as u64);
            }
            Err(_) => self.sum = self.sum.wrapping_add(1),
        }
    }

    fn add_sheet(&mut self, calendar: &RuleCalendar, view: &SheetView<'_>) {
        for line in 0..view.count() {
            if let Some(trade) = view.trade(line) {
                self.add(calendar, trade);
            }
        }
    }
}

fn sheet_bytes(day: u16, trades: &[TradeLine]) -> Vec<u8> {
    let mut bytes = vec![0; 4 + 16 * trades.len()];
    let _ = write(day, trades, &mut bytes);
    bytes
}

fn next_sheet(total: &mut Total, calendar: &RuleCalendar, numbers: &mut Numbers) {
    let lines = 1 + numbers.below(256);
    let trades: Vec<TradeLine> = (0..lines).map(|_| numbers.trade()).collect();
    if let Ok(view) = read(&sheet_bytes(SESSION, &trades)) {
        total.add_sheet(calendar, &view);
    }
}

fn sheets(count: u32) -> Total {
    let calendar = RuleCalendar::new(&[Exception {
        day: 9_862,
        kind: 0,
    }]);
    let mut numbers = Numbers::new();
    let mut total = Total {
        lines: 0,
        priced: 0,
        sum: 0,
    };
    for _ in 0..count {
        next_sheet(&mut total, &calendar, &mut numbers);
    }
    total
}

// ---- chains of divided steps, and trials of a root

fn chain(factor: u64) -> u64 {
    let mut power = ONE;
    for _ in 0..YEAR {
        power = power * factor / ONE;
    }
    power
}

// The sum of so many powers to 252, each by one chain of divided steps.
fn chains(count: u32) -> u64 {
    let mut numbers = Numbers::new();
    let mut sum: u64 = 0;
    for _ in 0..count {
        let factor = ONE + numbers.below(2_754_371) as u64;
        sum = sum.wrapping_add(chain(factor));
    }
    sum
}

// The root, and the trials that it took.
fn root_counted(target: u64) -> (u64, u32) {
    let mut trials = 0;
    let mut factor = guess(target).clamp(ONE, MAX_ROOT);
    loop {
        trials += 1;
        match Neighbours::new(factor).trial(0).compare(target) {
            Ordering::Less => factor += 1,
            Ordering::Equal => return (factor, trials),
            Ordering::Greater => factor -= 1,
        }
    }
}

// The root by plain halving and divided steps.
fn halved(target: u64) -> u64 {
    let (mut low, mut high) = (ONE, ONE + (1 << 22));
    while high - low > 1 {
        let at = (low + high) / 2;
        if chain(at) <= target {
            low = at
        } else {
            high = at
        }
    }
    low
}

// Counts the trials of every dealt rate, and of every 997th DI rate from the least on and the greatest.
fn trials() -> ExitCode {
    let dealt = (0..100_000).map(|rate| ONE + 10_000 * rate);
    let di = (0..100_000_000)
        .step_by(997)
        .chain([99_999_999])
        .map(|rate| ONE + 10 * rate);
    let (mut roots, mut most, mut total) = (0u64, 0, 0u64);
    for target in dealt.chain(di) {
        let (root, trials) = root_counted(target);
        if root != halved(target) || root != root_within(target, 0).factor {
            eprintln!("plain: the root of {target} is not as by halving");
            return ExitCode::FAILURE;
        }
        roots += 1;
        most = most.max(trials);
        total += trials as u64;
    }
    let average = total as f64 / roots as f64;
    println!("roots: {roots}, most {most} trials, average {average:.5}, all as by halving");
    ExitCode::SUCCESS
}

/// One entry a day of a table of rates.
struct TableSource {
    first: u32,
    entries: Vec<u32>,
}

impl TableSource {
    fn holds(&self, day: u32) -> bool {
        let count = self.entries.len().min(u32::MAX as usize) as u32;
        self.first <= day && day - self.first < count
    }

    fn rate(&self, day: u32) -> Option<u32> {
        if !self.holds(day) {
            return None;
        }
        let entry = self.entries[(day - self.first) as usize];
        if entry == 0 || entry - 1 > 99_999_999 {
            None
        } else {
            Some(entry - 1)
        }
    }
}

fn correct_day(price: u64, factor: u32) -> Option<u64> {
    let sum = price.checked_mul(factor as u64)?.checked_add(50_000_000)?;
    Some(sum / 100_000_000)
}

fn correct<C: Calendar>(calendar: &C, source: &TableSource, from: u32, to: u32, price: u32) -> Option<u64> {
    if count_reserve_days(calendar, from, to) > 252 {
        return None;
    }
    let end = to.min(LAST_DAY + 1);
    let mut corrected = price as u64;
    for day in from..end {
        if calendar.kind(day).is_reserve() {
            corrected = correct_day(corrected, day_factor(source.rate(day)?)?)?;
        }
    }
    Some(corrected)
}

fn table(numbers: &mut Numbers) -> TableSource {
    let entries = (0..2_000)
        .map(|_| 1 + numbers.below(30_000_000))
        .collect();
    TableSource {
        first: 9_000,
        entries,
    }
}

fn corrections(count: u32) -> u64 {
    let mut numbers = Numbers::new();
    let calendar = RuleCalendar::new(&[]);
    let source = table(&mut numbers);
    let mut sum: u64 = 0;
    for _ in 0..count {
        let from = 9_000 + numbers.below(1_995);
        let price = 1 + numbers.below(10_000_000);
        if let Some(corrected) = correct(&calendar, &source, from, from + 5, price) {
            sum = sum.wrapping_add(corrected);
        }
    }
    sum
}

fn answer(command: &str, numbers: &[u32]) -> Option<String> {
    let printed = match (command, numbers) {
        ("chains", [n]) => format!("{n} chains, sum {}", chains(*n)),
        ("prices", [n]) => format!("{n} prices, sum {}", prices(*n)),
        ("factors", [n]) => format!("{n} factors, sum {}", factors(*n)),
        ("corrections", [n]) => format!("{n} corrections, sum {}", corrections(*n)),
        ("sheets", [n]) => {
            let Total { lines, priced, sum } = sheets(*n);
            format!("{n} sheets, {lines} lines, {priced} priced, sum {sum}")
        }
        ("closes" | "walks", [n, accounts @ 1..=32, trades @ 0..=256]) => {
            let of = match command {
                "closes" => closes,
                _ => walks,
            };
            let sum = of(*n, *accounts, *trades);
            format!("{n} closes of {accounts} accounts and {trades} trades, sum {sum}")
        }
        ("imports", [n]) => format!("imports: {}", books(IMPORTS, *n)),
        ("idle", [n]) => format!("idle: {}", books(IDLE, *n)),
        ("import-prices", [n]) => format!("import-prices: {}", prices_alone(IMPORTS, *n)),
        ("years", [n]) => format!("years: {}", books(YEARS, *n)),
        ("year-prices", [n]) => format!("year-prices: {}", prices_alone(YEARS, *n)),
        _ => return None,
    };
    Some(printed)
}

fn main() -> ExitCode {
    let words: Vec<String> = env::args().skip(1).collect();
    let numbers: Option<Vec<u32>> = words.iter().skip(1).map(|word| word.parse().ok()).collect();
    let printed = match (words.first().map(String::as_str), numbers) {
        (Some("trials"), Some(_)) => return trials(),
        (Some(command), Some(numbers)) => answer(command, &numbers),
        _ => None,
    };
    match printed {
        Some(printed) => {
            println!("{printed}");
            ExitCode::SUCCESS
        }
        None => {
            eprintln!("plain: a command is one of measure, chains N, walks N ACCOUNTS TRADES or trials");
            ExitCode::FAILURE
        }
    }
}
