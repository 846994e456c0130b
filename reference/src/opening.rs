//! What happens to the rows and the away market once the series opens.

use crate::audit::Violation;
use crate::book::{by_priority, Row};
use crate::market::Away;
use crate::price::{Choice, Range};
use crate::rules::{Ladder, Limit, Side, SIDES};
use crate::sharing::{Holder, Rule};

/// Why and where the series opens.
#[derive(Clone, Copy, Debug)]
pub struct Decision {
    pub kind: u64,
    pub choice: Option<Choice>,
    pub range: Range,
}

impl Decision {
    pub fn price(&self) -> Option<u64> {
        self.choice.map(|choice| choice.price)
    }

    pub fn volume(&self) -> u64 {
        self.choice.map_or(0, |choice| choice.volume)
    }

    /// Kinds 4 and 5 send; the others leave the away market alone.
    pub fn sends(&self) -> bool {
        self.kind >= 4
    }
}

/// The answer of the tick that opens; pairs are buys and sells, or bid and offer.
#[derive(Clone, Copy, Debug)]
pub struct Report {
    pub kind: u64,
    pub price: u64,
    pub volume: u64,
    pub range: Range,
    pub routed: [u64; 2],
    pub cancelled: [u64; 2],
    pub best: [u64; 2],
}

/// The rows in row order and all that decides their fate.
pub struct Clearing<'a> {
    pub rows: &'a mut [Row],
    pub away: &'a mut Away,
    pub ladder: Ladder,
    pub rule: Rule,
    /// Levels of two rows or more filled in part so far.
    pub shared_levels: u64,
}

impl Clearing<'_> {
    pub fn carry_out(&mut self, decision: &Decision) -> Result<Report, Violation> {
        match decision.choice {
            Some(choice) => self.trade(decision, choice)?,
            None => self.open_without_price(decision),
        }
        self.cancel_where(|row| row.limit == Limit::Market);
        self.rest();
        Ok(self.report(decision))
    }

    /// Better prices away, then the volume here, then the same price away.
    fn trade(&mut self, decision: &Decision, choice: Choice) -> Result<(), Violation> {
        for side in SIDES {
            if decision.sends() {
                self.send_better(side, choice.price);
            }
            self.fill(side, choice.price, choice.volume)?;
            if decision.sends() {
                self.send_routable(side, |row| row.reaches(choice.price).then_some(choice.price));
            }
        }
        self.cancel_where(|row| row.is_through(choice.price));
        Ok(())
    }

    fn open_without_price(&mut self, decision: &Decision) {
        if !decision.sends() {
            return;
        }
        for side in SIDES {
            self.send_routable(side, |row| Some(row.furthest_price()));
        }
        let range = decision.range;
        self.cancel_where(|row| match row.side {
            Side::Buy => row.furthest_price() > range.high,
            Side::Sell => row.furthest_price() < range.low,
        });
    }

    /// Sends routable rows that are good at the price to everything better than it.
    fn send_better(&mut self, side: Side, price: u64) {
        let better = side.other().one_better(price);
        self.send_routable(side, |row| row.reaches(price).then_some(better));
    }

    /// Sends each routable row of a side, in priority, at the price given for it, if any.
    fn send_routable(&mut self, side: Side, price_for: impl Fn(&Row) -> Option<u64>) {
        for place in by_priority(self.rows, side) {
            let row = &mut self.rows[place];
            if !row.is_routable() || row.left == 0 {
                continue;
            }
            if let Some(price) = price_for(row) {
                let sent = self.away.send(side.other(), price, row.left);
                row.left -= sent;
                row.routed += sent;
            }
        }
    }

    /// Fills the volume level after level; the last may be filled in part.
    fn fill(&mut self, side: Side, price: u64, volume: u64) -> Result<(), Violation> {
        let mut remaining = volume;
        for level in self.levels(side, price) {
            let holders: Vec<Holder> = level.iter().map(|&place| self.holder(place)).collect();
            let standing: u64 = holders.iter().map(|holder| holder.size).sum();
            let quantity = remaining.min(standing);
            if 0 < quantity && quantity < standing && holders.len() > 1 {
                self.shared_levels += 1;
            }
            let shares = self.rule.shares(quantity, &holders);
            crate::audit::shares(quantity, &holders, &shares)?;
            for (&place, share) in level.iter().zip(shares) {
                self.rows[place].traded += share;
                self.rows[place].left -= share;
            }
            remaining -= quantity;
        }
        crate::audit::that(remaining == 0, || format!("{remaining} contracts of the volume not filled"))
    }

    fn holder(&self, place: usize) -> Holder {
        Holder { class: self.rows[place].class, size: self.rows[place].left }
    }

    /// Rows of a side that are good at the price and have something left: one list a limit,
    /// the market rows together, in priority.
    fn levels(&self, side: Side, price: u64) -> Vec<Vec<usize>> {
        let mut levels: Vec<Vec<usize>> = Vec::new();
        let mut last = None;
        for place in by_priority(self.rows, side) {
            let row = &self.rows[place];
            if row.left == 0 || !row.reaches(price) {
                continue;
            }
            match levels.last_mut() {
                Some(level) if last == Some(row.limit) => level.push(place),
                _ => levels.push(vec![place]),
            }
            last = Some(row.limit);
        }
        levels
    }

    fn cancel_where(&mut self, condemned: impl Fn(&Row) -> bool) {
        for row in self.rows.iter_mut().filter(|row| condemned(row)) {
            row.cancelled += row.left;
            row.left = 0;
        }
    }

    /// Gives every row with something left its working and shown price.
    fn rest(&mut self) {
        for row in self.rows.iter_mut().filter(|row| row.left > 0) {
            let limit = row.furthest_price();
            let facing = self.away.best(row.side.other()).filter(|&price| row.side.reaches(limit, price));
            (row.working, row.shown) = match facing {
                Some(price) => (price, self.ladder.one_worse(row.side, price).unwrap_or(0)),
                None => (limit, limit),
            };
        }
    }

    fn report(&self, decision: &Decision) -> Report {
        let sum =
            |side, part: fn(&Row) -> u64| self.rows.iter().filter(|row| row.side == side).map(part).sum();
        Report {
            kind: decision.kind,
            price: decision.price().unwrap_or(0),
            volume: decision.volume(),
            range: decision.range,
            routed: SIDES.map(|side| sum(side, |row| row.routed)),
            cancelled: SIDES.map(|side| sum(side, |row| row.cancelled)),
            best: SIDES.map(|side| self.best_shown(side)),
        }
    }

    /// The best price shown by what rests on a side, or 0.
    fn best_shown(&self, side: Side) -> u64 {
        let shown = self.rows.iter().filter(|row| row.side == side && row.left > 0 && row.shown > 0);
        shown.map(|row| row.shown).reduce(|best, price| side.better_of(best, price)).unwrap_or(0)
    }
}
