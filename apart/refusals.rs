// Why a call is refused: one number and one cause for each reason.

use crate::dates::{code_text, date_of};

/// What a refusal tells beside its number.
#[derive(Clone, Copy)]
pub enum Told {
    Nothing,
    Month(u32),
    Day(u32),
}

#[derive(Clone, Copy)]
pub struct Refusal {
    pub number: u32,
    pub told: Told,
}

/// A refusal that tells no more than its number.
pub fn refusal(number: u32) -> Refusal {
    Refusal { number, told: Told::Nothing }
}

impl Refusal {
    pub fn cause(&self) -> &'static str {
        match self.number {
            1 => "not of the open session, or not the unpaid slip",
            2 => "index not in the book",
            3 => "expiry not after the session",
            4 => "buyer and seller are the same account",
            5 => "quantity not from 1 to 20,000",
            6 => "rate too high or off its step",
            7 => "more than 2,520 reserve days to the expiry",
            8 => "a position would pass 500,000 contracts",
            9 => "256 trades in the session already",
            10 => "price not from 1 to 10,000,000",
            11 => "a session is open",
            12 => "no session in the next 60 days",
            13 => "an earlier slip is unpaid",
            14 => "month without a settlement price",
            15 => "reserve day without a rate",
            16 => "array too short",
            17 => "no later session is open",
            18 => "table full",
            19 => "already in the book",
            20 => "month without an expiry to come",
            21 => "day outside the horizon",
            22 => "day has a rate",
            23 => "DI rate over 99,999,999",
            24 => "period is not 1",
            25 => "16 days arbitrated already",
            26 => "bad sheet",
            _ => unreachable!("the numbers are 1 to 26"),
        }
    }

    /// `refused N: CAUSE`, and the month or the day that it tells.
    pub fn text(&self) -> String {
        let Refusal { number, told } = self;
        let cause = self.cause();
        match *told {
            Told::Nothing => format!("refused {number}: {cause}"),
            Told::Month(month) => format!("refused {number}: {cause} {}", code_text(month)),
            Told::Day(day) => format!("refused {number}: {cause} {}", date_of(day)),
        }
    }
}
