//! Rows and the order in which they are routed and filled.

use crate::rules::{Class, Limit, Side};

/// An order, or one side of a quote.
#[derive(Clone, PartialEq, Debug)]
pub struct Row {
    pub side: Side,
    pub limit: Limit,
    pub size: u64,
    pub class: Class,
    pub traded: u64,
    pub routed: u64,
    pub cancelled: u64,
    pub left: u64,
    pub working: u64,
    pub shown: u64,
}

impl Row {
    pub fn new(side: Side, limit: Limit, size: u64, class: Class) -> Row {
        Row { side, limit, size, class, traded: 0, routed: 0, cancelled: 0, left: size, working: 0, shown: 0 }
    }

    /// Whether the row counts among the buys or sells at a price.
    pub fn reaches(&self, price: u64) -> bool {
        match self.limit {
            Limit::Market => true,
            Limit::At(limit) => self.side.reaches(limit, price),
        }
    }

    /// Whether the row is market or its limit is better than a price.
    pub fn is_through(&self, price: u64) -> bool {
        match self.limit {
            Limit::Market => true,
            Limit::At(limit) => limit != price && self.side.reaches(limit, price),
        }
    }

    pub fn is_routable(&self) -> bool {
        self.class == Class::Routable
    }

    /// The limit, or for a market row the price at which it accepts anything.
    pub fn furthest_price(&self) -> u64 {
        match self.limit {
            Limit::Market => self.side.furthest(),
            Limit::At(limit) => limit,
        }
    }

    /// Smaller comes first: market rows, then the best limit.
    fn rank(&self) -> (u64, u64) {
        match (self.limit, self.side) {
            (Limit::Market, _) => (0, 0),
            (Limit::At(limit), Side::Buy) => (1, u64::MAX - limit),
            (Limit::At(limit), Side::Sell) => (1, limit),
        }
    }
}

/// Places of a side's rows: market rows, then the best limit, row order within.
pub fn by_priority(rows: &[Row], side: Side) -> Vec<usize> {
    let mut places: Vec<usize> = (0..rows.len()).filter(|&place| rows[place].side == side).collect();
    places.sort_by_key(|&place| (rows[place].rank(), place));
    places
}

/// Contracts left on a side in the rows that meet a condition.
pub fn total(rows: &[Row], side: Side, meets: impl Fn(&Row) -> bool) -> u64 {
    rows.iter().filter(|row| row.side == side && meets(row)).map(|row| row.left).sum()
}
