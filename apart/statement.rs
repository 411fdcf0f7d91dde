// The statement at the end of a run, with its check.

use crate::dates::{code_text, date_of};
use crate::figures::{amount_text, price_text, thousandths_text};
use crate::interest::day_factor;
use crate::replay::{ClosedSession, Replay};

/// Figures are kept in units of 10^-12 of a centavo.
const CENTAVO: i128 = 1_000_000_000_000;

/// What is checked for an account in a month.
struct Check {
    /// The adjustments of its closes, each scaled to the month's last session.
    adjustments: i128,
    /// What its trades are worth there.
    value: i128,
    /// How far the two may be apart.
    at_most: i128,
}

/// Scales a figure over a reserve day; none where it does not fit.
fn scale(figure: i128, factor: u64) -> Option<i128> {
    let product = figure.checked_mul(i128::from(factor))?.checked_add(50_000_000)?;
    Some(product.div_euclid(100_000_000))
}

/// The last session of a month and its price there: the latest closed session that is not
/// after the month's expiry and in which the month was listed.
fn last_session(replay: &Replay, month: usize) -> Option<(u32, u64)> {
    let session = sessions_of(replay, month).last()?;
    Some((session.day, session.prices[month].expect("the month is not expired")))
}

/// The closed sessions of a month, in order of time.
fn sessions_of(replay: &Replay, month: usize) -> impl Iterator<Item = &ClosedSession> {
    let expiry = replay.book.expiry(month);
    replay.closed.iter().filter(move |s| s.day <= expiry && month < s.prices.len())
}

/// The day factors of the reserve days from a session, included, to another, excluded.
fn factors_between(replay: &Replay, from: u32, to: u32) -> Vec<u64> {
    let days = replay.book.calendar().reserve_days(from, to);
    let rate = |day| replay.book.rates().rate(day).expect("a close asked for it").0;
    days.into_iter().map(|day| day_factor(rate(day))).collect()
}

/// The check of an account in a month; none where a figure does not fit. `gaps` has, for each
/// closed session, the factors of the days from the closed session before to it.
fn check(replay: &Replay, gaps: &[Vec<u64>], account: usize, month: usize) -> Option<Check> {
    let mut check = Check { adjustments: 0, value: 0, at_most: 0 };
    let mut position: i128 = 0;
    let mut last_price: i128 = 0;
    let expiry = replay.book.expiry(month);
    for (session, factors) in replay.closed.iter().zip(gaps) {
        if session.day > expiry || month >= session.prices.len() {
            continue;
        }
        for &factor in factors {
            check.adjustments = scale(check.adjustments, factor)?;
            check.value = scale(check.value, factor)?;
            check.at_most = scale(check.at_most, factor)?;
            check.at_most = check.at_most.checked_add(CENTAVO / 2 * position.abs())?;
        }
        // An account that came after the close has no row there.
        let adjustment = session.close.adjustments.get(account).map_or(0, |row| row[month]);
        check.adjustments = check.adjustments.checked_add(i128::from(adjustment) * CENTAVO)?;
        for trade in session.trades.iter().filter(|trade| trade.month == month) {
            let contracts = i128::from(trade.position_change(account));
            let worth = contracts * i128::from(trade.price) * CENTAVO;
            check.value = check.value.checked_sub(worth)?;
            position += contracts;
        }
        last_price = i128::from(session.prices[month].expect("the month is not expired"));
    }
    check.value = check.value.checked_add(position * last_price * CENTAVO)?;
    Some(check)
}

/// In thousandths of a centavo, rounded to the nearest, halves up.
fn thousandths(figure: i128) -> String {
    let thousandth = CENTAVO / 1000;
    let below = figure.div_euclid(thousandth);
    let rest = figure.rem_euclid(thousandth);
    thousandths_text(if rest >= thousandth / 2 { below + 1 } else { below })
}

fn month_row(month: &str, expiry: &str, last_session: &str, last_price: &str) -> String {
    format!("{month:<6}  {expiry:<10}  {last_session:<12}{last_price:>14}\n")
}

fn account_row(account: &str, whose: [&str; 3], paid: &str, due: &str) -> String {
    let [client, participant, member] = whose;
    format!("{account:>7}{client:>12}{participant:>13}{member:>12}{paid:>16}{due:>16}\n")
}

fn position_row(account: &str, month: &str, contracts: &str) -> String {
    format!("{account:>7}  {month:<6}{contracts:>13}\n")
}

fn check_row(account: &str, month: &str, figures: [&str; 4]) -> String {
    let [adjustments, value, apart, at_most] = figures;
    format!("{account:>7}  {month:<6}{adjustments:>25}{value:>25}{apart:>17}{at_most:>17}\n")
}

pub fn statement(replay: &Replay) -> String {
    let book = &replay.book;
    let mut print = format!("\nstatement of book {}\n", book.number());
    let (opened, closed, paid) = (replay.opened, replay.closed.len(), replay.paid);
    print += &format!("sessions: {opened} opened, {closed} closed, {paid} paid\n");
    print += &format!("trades: {}\n", replay.trades.len());

    print += &month_row("month", "expiry", "last session", "last price");
    for (month, &month_number) in book.months().iter().enumerate() {
        let (day, price) = match last_session(replay, month) {
            Some((day, price)) => (date_of(day), price_text(price)),
            None => ("-".to_string(), "-".to_string()),
        };
        print += &month_row(&code_text(month_number), &date_of(book.expiry(month)), &day, &price);
    }

    print += &account_row("account", ["client", "participant", "member"], "paid", "due");
    for (account, whose) in book.accounts().iter().enumerate() {
        print += &account_row(
            &account.to_string(),
            [&whose.client.to_string(), &whose.participant.to_string(), &whose.member.to_string()],
            &amount_text(i128::from(book.paid(account))),
            &amount_text(i128::from(book.due(account))),
        );
    }

    print += &position_row("account", "month", "contracts");
    for account in 0..book.accounts().len() {
        for (month, &month_number) in book.months().iter().enumerate() {
            let contracts = book.position_now(account, month);
            let (account, contracts) = (account.to_string(), contracts.to_string());
            print += &position_row(&account, &code_text(month_number), &contracts);
        }
    }

    print += &check_row(
        "account",
        "month",
        ["adjustments scaled", "value of the trades", "apart", "at most"],
    );
    print + &check_rows(replay)
}

fn check_rows(replay: &Replay) -> String {
    let days: Vec<u32> = replay.closed.iter().map(|session| session.day).collect();
    let mut gaps = vec![Vec::new()]; // there is no session before the first
    for pair in days.windows(2) {
        gaps.push(factors_between(replay, pair[0], pair[1]));
    }
    let mut print = String::new();
    for account in 0..replay.book.accounts().len() {
        for (month, &month_number) in replay.book.months().iter().enumerate() {
            if last_session(replay, month).is_none() {
                continue;
            }
            let figures = match check(replay, &gaps, account, month) {
                Some(Check { adjustments, value, at_most }) => [
                    thousandths(adjustments),
                    thousandths(value),
                    thousandths((adjustments - value).abs()),
                    thousandths(at_most),
                ],
                None => ["-"; 4].map(str::to_string),
            };
            let figures = [&figures[0], &figures[1], &figures[2], &figures[3]].map(String::as_str);
            print += &check_row(&account.to_string(), &code_text(month_number), figures);
        }
    }
    print
}
