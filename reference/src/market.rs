//! The away market: a firm switch over a pair of a single bid and offer and a depth table.

use crate::rules::{is_price, is_size, Side, TOP};

/// Levels of the depth table that count; the rest is held and passed over.
pub const LEVELS_COUNTED: usize = 64;
/// Levels the depth table can hold.
pub const LEVELS_HELD: usize = 1_000;

#[derive(Clone, Copy, PartialEq, Debug)]
pub struct Entry {
    pub side: Side,
    pub price: u64,
    pub size: u64,
}

impl Entry {
    /// An entry with price or size out of bounds shows nothing.
    fn shows(&self) -> bool {
        is_price(self.price) && is_size(self.size)
    }
}

#[derive(Clone, PartialEq)]
pub struct Away {
    firm: bool,
    single: [Entry; 2],
    levels: Vec<Entry>,
}

impl Away {
    pub fn empty() -> Away {
        let nothing = |side| Entry { side, price: 0, size: 0 };
        Away { firm: true, single: [nothing(Side::Buy), nothing(Side::Sell)], levels: Vec::new() }
    }

    /// Sets the single bid or offer; size 0 removes it.
    pub fn set_single(&mut self, side: Side, price: u64, size: u64) {
        self.single[side.index()] = Entry { side, price, size };
    }

    /// Adds a level at the end of the depth table; false if the table is full.
    pub fn add_level(&mut self, side: Side, price: u64, size: u64) -> bool {
        if self.levels.len() >= LEVELS_HELD {
            return false;
        }
        self.levels.push(Entry { side, price, size });
        true
    }

    pub fn clear_levels(&mut self) {
        self.levels.clear();
    }

    pub fn set_firm(&mut self, firm: bool) {
        self.firm = firm;
    }

    pub fn is_firm(&self) -> bool {
        self.firm
    }

    pub fn level_count(&self) -> usize {
        self.levels.len()
    }

    /// Every entry that shows something now.
    pub fn shown(&self) -> Vec<Entry> {
        if !self.firm {
            return Vec::new();
        }
        let counted = self.levels.iter().take(LEVELS_COUNTED);
        self.single.iter().chain(counted).copied().filter(Entry::shows).collect()
    }

    /// Contracts shown on a side at a price or better.
    pub fn count(&self, side: Side, price: u64) -> u64 {
        if !is_price(price) || !self.firm {
            return 0;
        }
        let counted = self.levels.iter().take(LEVELS_COUNTED);
        self.single
            .iter()
            .chain(counted)
            .filter(|entry| entry.shows() && entry.side == side && side.reaches(entry.price, price))
            .map(|entry| entry.size)
            .sum()
    }

    /// The price at which the count of a side first reaches 1.
    pub fn best(&self, side: Side) -> Option<u64> {
        let shown = self.shown();
        let prices = shown.iter().filter(|entry| entry.side == side).map(|entry| entry.price);
        prices.reduce(|best, price| side.better_of(best, price))
    }

    /// Sends up to `wanted` contracts to a side at a price or better, one price after
    /// another from the best one, and answers how many went.
    pub fn send(&mut self, side: Side, price: u64, wanted: u64) -> u64 {
        let mut sent = 0;
        if !is_price(price) {
            return sent;
        }
        while sent < wanted {
            match self.best(side) {
                Some(best) if side.reaches(best, price) => sent += self.take(side, best, wanted - sent),
                _ => break,
            }
        }
        sent
    }

    /// Takes up to `wanted` contracts out of the entries at one price, the single market's first.
    fn take(&mut self, side: Side, price: u64, wanted: u64) -> u64 {
        let mut taken = 0;
        let counted = self.levels.iter_mut().take(LEVELS_COUNTED);
        for entry in self.single.iter_mut().chain(counted) {
            if entry.shows() && entry.side == side && entry.price == price {
                let part = entry.size.min(wanted - taken);
                entry.size -= part;
                taken += part;
            }
        }
        taken
    }

    /// Prices where a count can change, and their neighbours.
    pub fn corners(&self) -> Vec<u64> {
        let mut prices = vec![1, TOP];
        for entry in self.shown() {
            prices.extend([entry.price.saturating_sub(1), entry.price, entry.price + 1]);
        }
        prices
    }
}
