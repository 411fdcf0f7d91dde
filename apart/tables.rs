// The four tables that a run writes as CSV.

use crate::dates::{code_text, date_of};
use crate::files::write_file;
use crate::replay::Replay;

const CLOSES: &str = "day,account,client,participant,member,month,adjustment,day_trade\n";
const TRADES: &str =
    "day,line,rate_buyer,rate_seller,price_buyer,price_seller,month,rate,quantity,price\n";
const BALANCES: &str = "account,client,participant,member,paid,due\n";
const POSITIONS: &str = "account,month,contracts\n";

/// Account, client, participant and member.
fn account_fields(replay: &Replay, account: usize) -> String {
    let whose = &replay.book.accounts()[account];
    format!("{account},{},{},{}", whose.client, whose.participant, whose.member)
}

fn closes(replay: &Replay) -> String {
    let mut table = CLOSES.to_string();
    for session in &replay.closed {
        let day = date_of(session.day);
        let close = &session.close;
        for (account, adjustments) in close.adjustments.iter().enumerate() {
            let fields = account_fields(replay, account);
            for (month, adjustment) in adjustments.iter().enumerate() {
                let code = code_text(replay.book.months()[month]);
                let day_trade = close.day_trades[account][month];
                table += &format!("{day},{fields},{code},{adjustment},{day_trade}\n");
            }
        }
    }
    table
}

fn trades(replay: &Replay) -> String {
    let mut table = TRADES.to_string();
    for row in &replay.trades {
        let trade = &row.trade;
        // Who buys in rate sells in price.
        let (price_buyer, price_seller) = (trade.seller, trade.buyer);
        let code = code_text(replay.book.months()[trade.month]);
        table += &format!("{},{},{},{},", date_of(row.day), row.line, trade.buyer, trade.seller);
        table += &format!("{price_buyer},{price_seller},{code},");
        table += &format!("{},{},{}\n", trade.rate, trade.contracts, trade.price);
    }
    table
}

fn balances(replay: &Replay) -> String {
    let mut table = BALANCES.to_string();
    for account in 0..replay.book.accounts().len() {
        let (paid, due) = (replay.book.paid(account), replay.book.due(account));
        table += &format!("{},{paid},{due}\n", account_fields(replay, account));
    }
    table
}

fn positions(replay: &Replay) -> String {
    let mut table = POSITIONS.to_string();
    for account in 0..replay.book.accounts().len() {
        for (month, &month_number) in replay.book.months().iter().enumerate() {
            let contracts = replay.book.position_now(account, month);
            table += &format!("{account},{},{contracts}\n", code_text(month_number));
        }
    }
    table
}

/// Writes a table into a folder.
pub fn write_table(folder: &str, name: &str, table: &str) -> Result<(), String> {
    let between = if folder.ends_with('/') { "" } else { "/" };
    write_file(&format!("{folder}{between}{name}"), table.as_bytes())
}

pub fn write_tables(replay: &Replay, folder: &str) -> Result<(), String> {
    write_table(folder, "closes.csv", &closes(replay))?;
    write_table(folder, "trades.csv", &trades(replay))?;
    write_table(folder, "balances.csv", &balances(replay))?;
    write_table(folder, "positions.csv", &positions(replay))
}
