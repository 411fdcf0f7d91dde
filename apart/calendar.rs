// Kinds of days, and what follows from them.

use crate::dates::{first_day_of_month, LAST_DAY};

#[derive(Clone, Copy, PartialEq)]
pub enum DayKind {
    Closed,
    Reserve,
    Session,
}

pub struct Exception {
    pub day: u32,
    pub kind: DayKind,
}

const MAX_SESSION_SEARCH_DAYS: u32 = 60;

/// The kinds of the days 0 to LAST_DAY.
pub struct Calendar {
    kinds: Vec<DayKind>,
}

impl Calendar {
    /// One byte a day from day 0.
    pub fn of_marks(bytes: &[u8]) -> Calendar {
        let kind = |day: u32| match bytes.get(day as usize) {
            Some(1) => DayKind::Reserve,
            Some(2) => DayKind::Session,
            _ => DayKind::Closed,
        };
        Calendar { kinds: (0..=LAST_DAY).map(kind).collect() }
    }

    /// The first exception of a day decides; else Monday to Friday are sessions.
    pub fn of_exceptions(exceptions: &[Exception]) -> Calendar {
        let kind = |day: u32| match exceptions.iter().find(|e| e.day == day) {
            Some(exception) => exception.kind,
            None if day % 7 < 2 => DayKind::Closed, // 0 is Saturday, 1 Sunday
            None => DayKind::Session,
        };
        Calendar { kinds: (0..=LAST_DAY).map(kind).collect() }
    }

    pub fn kind(&self, day: u32) -> DayKind {
        if day > LAST_DAY {
            return DayKind::Closed;
        }
        self.kinds[day as usize]
    }

    /// The first session day of a month.
    pub fn expiry(&self, month_number: u32) -> Option<u32> {
        let first = first_day_of_month(month_number);
        let end = first_day_of_month(month_number + 1);
        (first..end).find(|&day| self.kind(day) == DayKind::Session)
    }

    /// The reserve days from a day, included, to another, excluded.
    pub fn reserve_days(&self, from: u32, to: u32) -> Vec<u32> {
        (from..to).filter(|&day| self.kind(day) != DayKind::Closed).collect()
    }

    /// The first session of the 60 days from a day on, that day included.
    pub fn next_session(&self, from: u32) -> Option<u32> {
        (from..from + MAX_SESSION_SEARCH_DAYS).find(|&day| self.kind(day) == DayKind::Session)
    }
}
