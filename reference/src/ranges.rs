//! The quick range and the opening range.

use crate::market::Away;
use crate::price::Range;
use crate::rules::{band, is_quality, Side, TOP};

/// The highest quote bid and lowest quote offer beside the away bests.
#[derive(Clone, Copy, Debug)]
pub struct Tops {
    pub quote_bid: u64,
    pub quote_offer: u64,
    pub away_bid: Option<u64>,
    pub away_offer: Option<u64>,
}

impl Tops {
    pub fn new(quote_bid: u64, quote_offer: u64, away: &Away) -> Tops {
        Tops { quote_bid, quote_offer, away_bid: away.best(Side::Buy), away_offer: away.best(Side::Sell) }
    }

    pub fn is_quality(&self) -> bool {
        is_quality(self.quote_bid, self.quote_offer)
    }

    pub fn any_away(&self) -> bool {
        self.away_bid.is_some() || self.away_offer.is_some()
    }

    fn highest_bid(&self) -> u64 {
        self.quote_bid.max(self.away_bid.unwrap_or(0))
    }

    fn lowest_offer(&self) -> u64 {
        self.away_offer.map_or(self.quote_offer, |offer| offer.min(self.quote_offer))
    }

    pub fn quick(&self) -> Option<Range> {
        if self.quote_bid > self.quote_offer {
            let (low, high) = (self.away_bid?, self.away_offer?);
            return Some(Range { low, high });
        }
        if self.any_away() || self.is_quality() {
            return Some(Range { low: self.highest_bid(), high: self.lowest_offer() });
        }
        None
    }

    pub fn opening(&self) -> Range {
        if self.is_disturbed() {
            return self.between_away();
        }
        let amount = band(self.highest_bid()).amount;
        Range {
            low: self.highest_bid().saturating_sub(amount).max(1),
            high: (self.lowest_offer() + amount).min(TOP),
        }
    }

    /// Quotes crossed, or reaching the away price of the other side.
    fn is_disturbed(&self) -> bool {
        self.quote_bid > self.quote_offer
            || self.away_offer.is_some_and(|offer| self.quote_bid >= offer)
            || self.away_bid.is_some_and(|bid| self.quote_offer <= bid)
    }

    /// Each end the away best of its side; a missing end the least or greatest of all prices there are.
    fn between_away(&self) -> Range {
        let mut all = vec![self.quote_bid, self.quote_offer];
        all.extend(self.away_bid);
        all.extend(self.away_offer);
        let least = all.iter().copied().fold(TOP, u64::min);
        let greatest = all.iter().copied().fold(0, u64::max);
        Range { low: self.away_bid.unwrap_or(least), high: self.away_offer.unwrap_or(greatest) }
    }
}
