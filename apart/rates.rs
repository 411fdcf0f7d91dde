// DI rates: a table of published rates under an arbitration layer.

use crate::interest::MAX_DI_RATE;
use crate::refusals::{refusal, Refusal};

const MAX_ARBITRATED_DAYS: usize = 16;

/// A table of DI rates under an arbitration layer.
pub struct Rates {
    first_day: u32,
    /// The published rate of each day of the horizon, from the first day on.
    published: Vec<Option<u32>>,
    /// The arbitrated days with their rates.
    arbitrated: Vec<(u32, u32)>,
}

impl Rates {
    pub fn table(first_day: u32, count: u32) -> Rates {
        Rates { first_day, published: vec![None; count as usize], arbitrated: Vec::new() }
    }

    /// The place of a day in the horizon.
    fn place(&self, day: u32) -> Option<usize> {
        let place = day.checked_sub(self.first_day)? as usize;
        if place < self.published.len() {
            Some(place)
        } else {
            None
        }
    }

    fn published_rate(&self, day: u32) -> Option<u32> {
        self.published[self.place(day)?]
    }

    fn arbitrated_rate(&self, day: u32) -> Option<u32> {
        self.arbitrated.iter().find(|(arbitrated, _)| *arbitrated == day).map(|(_, rate)| *rate)
    }

    /// The rate of a day and where it comes from.
    pub fn rate(&self, day: u32) -> Option<(u32, &'static str)> {
        if let Some(rate) = self.published_rate(day) {
            return Some((rate, "published"));
        }
        self.arbitrated_rate(day).map(|rate| (rate, "arbitrated"))
    }

    /// The place of a day that may be given this rate.
    fn free_place(&self, day: u32, rate: u32) -> Result<usize, Refusal> {
        let Some(place) = self.place(day) else {
            return Err(refusal(21));
        };
        if self.rate(day).is_some() {
            return Err(refusal(22));
        }
        if rate > MAX_DI_RATE {
            return Err(refusal(23));
        }
        Ok(place)
    }

    pub fn publish(&mut self, day: u32, rate: u32, period: u32) -> Result<(), Refusal> {
        let place = self.free_place(day, rate)?;
        if period != 1 {
            return Err(refusal(24));
        }
        self.published[place] = Some(rate);
        Ok(())
    }

    pub fn arbitrate(&mut self, day: u32, rate: u32) -> Result<(), Refusal> {
        self.free_place(day, rate)?;
        if self.arbitrated.len() >= MAX_ARBITRATED_DAYS {
            return Err(refusal(25));
        }
        self.arbitrated.push((day, rate));
        Ok(())
    }
}
