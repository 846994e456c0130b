//! The choice of a price in a range: every permitted price of the range is tried.

use crate::book::{by_priority, total, Row};
use crate::market::Away;
use crate::rules::{Ladder, Side, SIDES, TOP};

#[derive(Clone, Copy, PartialEq, Eq, Debug)]
pub enum Mode {
    Exchange,
    Routing,
}

/// From low to high, both included; empty if low is above high.
#[derive(Clone, Copy, PartialEq, Eq, Debug)]
pub struct Range {
    pub low: u64,
    pub high: u64,
}

impl Range {
    pub fn prices(self) -> impl Iterator<Item = u64> {
        self.low.max(1)..=self.high.min(TOP)
    }

    pub fn contains(self, price: u64) -> bool {
        self.low <= price && price <= self.high
    }
}

/// What a choice looks at.
#[derive(Clone, Copy)]
pub struct View<'a> {
    pub rows: &'a [Row],
    pub away: &'a Away,
    pub ladder: Ladder,
    pub close: u64,
}

/// A chosen price; `side` is that of the unmatched contracts.
#[derive(Clone, Copy, PartialEq, Eq, Debug)]
pub struct Choice {
    pub price: u64,
    pub volume: u64,
    pub side: Option<Side>,
    pub unmatched: u64,
    pub through: u64,
}

/// What a price comes to, buys before sells; `better` is what is better away for each of them.
#[derive(Clone, Copy, Debug)]
pub struct Figures {
    pub price: u64,
    pub interest: [u64; 2],
    pub better: [u64; 2],
    pub usable: bool,
}

/// A usable price with what is left to be filled on each side after routing.
#[derive(Clone, Copy)]
struct Candidate {
    price: u64,
    to_fill: [u64; 2],
}

impl Candidate {
    fn volume(&self) -> u64 {
        self.to_fill[0].min(self.to_fill[1])
    }

    fn unmatched(&self) -> u64 {
        self.to_fill[0].abs_diff(self.to_fill[1])
    }

    fn larger_side(&self) -> Option<Side> {
        match self.to_fill[0].cmp(&self.to_fill[1]) {
            std::cmp::Ordering::Less => Some(Side::Sell),
            std::cmp::Ordering::Equal => None,
            std::cmp::Ordering::Greater => Some(Side::Buy),
        }
    }
}

impl View<'_> {
    /// The choice in a range, or none.
    pub fn choose(&self, mode: Mode, range: Range) -> Option<Choice> {
        let usable: Vec<Candidate> = range.prices().filter_map(|price| self.candidate(mode, price)).collect();
        let volume = usable.iter().map(Candidate::volume).max()?;
        if volume == 0 {
            return None;
        }
        let best: Vec<Candidate> =
            usable.into_iter().filter(|candidate| candidate.volume() == volume).collect();
        let price = self.balanced(&best).or_else(|| lopsided(&best))?;
        let chosen = self.candidate(mode, price)?;
        Some(self.describe(&chosen))
    }

    /// Away contracts that a row of a side would find better than a price.
    pub fn better_away(&self, side: Side, price: u64) -> u64 {
        let away_side = side.other();
        self.away.count(away_side, away_side.one_better(price))
    }

    fn candidate(&self, mode: Mode, price: u64) -> Option<Candidate> {
        if !self.ladder.permits(price) {
            return None;
        }
        let mut to_fill = [0, 0];
        for side in SIDES {
            let better = self.better_away(side, price);
            let routable = match mode {
                Mode::Exchange => 0,
                Mode::Routing => total(self.rows, side, |row| row.reaches(price) && row.is_routable()),
            };
            if better > routable {
                return None;
            }
            to_fill[side.index()] = total(self.rows, side, |row| row.reaches(price)) - better;
        }
        Some(Candidate { price, to_fill })
    }

    /// What a price comes to, usable or not.
    pub fn figures(&self, mode: Mode, price: u64) -> Figures {
        Figures {
            price,
            interest: SIDES.map(|side| total(self.rows, side, |row| row.reaches(price))),
            better: SIDES.map(|side| self.better_away(side, price)),
            usable: self.candidate(mode, price).is_some(),
        }
    }

    /// The midpoint of the prices that leave nothing unmatched, put on the ladder.
    fn balanced(&self, best: &[Candidate]) -> Option<u64> {
        let even =
            || best.iter().filter(|candidate| candidate.unmatched() == 0).map(|candidate| candidate.price);
        let doubled = even().min()? + even().max()?;
        let (floor, ceiling) = (doubled / 2, doubled.div_ceil(2));
        if floor == ceiling && self.ladder.permits(floor) {
            return Some(floor);
        }
        match (self.ladder.at_or_below(floor), self.ladder.at_or_above(ceiling)) {
            (Some(lower), Some(upper)) => Some(self.nearer_close(lower, upper)),
            (lower, upper) => upper.or(lower),
        }
    }

    fn nearer_close(&self, lower: u64, upper: u64) -> u64 {
        if self.close != 0 && lower.abs_diff(self.close) < upper.abs_diff(self.close) {
            lower
        } else {
            upper
        }
    }

    fn describe(&self, chosen: &Candidate) -> Choice {
        let side = chosen.larger_side();
        let through = side.map_or(0, |side| self.left_through(side, chosen));
        Choice { price: chosen.price, volume: chosen.volume(), side, unmatched: chosen.unmatched(), through }
    }

    /// Plays routing to better prices and filling on one side and counts what is left
    /// of the contracts through the price.
    fn left_through(&self, side: Side, chosen: &Candidate) -> u64 {
        let mut to_route = self.better_away(side, chosen.price);
        let mut to_fill = chosen.volume();
        let mut left: Vec<u64> = self.rows.iter().map(|row| row.left).collect();
        let mut order = by_priority(self.rows, side);
        order.retain(|&place| self.rows[place].reaches(chosen.price));
        for &place in order.iter().filter(|&&place| self.rows[place].is_routable()) {
            take_from(&mut left[place], &mut to_route);
        }
        for &place in &order {
            take_from(&mut left[place], &mut to_fill);
        }
        order
            .iter()
            .filter(|&&place| self.rows[place].is_through(chosen.price))
            .map(|&place| left[place])
            .sum()
    }
}

fn take_from(left: &mut u64, wanted: &mut u64) {
    let part = (*left).min(*wanted);
    *left -= part;
    *wanted -= part;
}

/// Where every price leaves something: the highest with unmatched buys or the lowest with
/// unmatched sells, the one with more, the former if equal.
fn lopsided(best: &[Candidate]) -> Option<u64> {
    let of_side = |side| best.iter().filter(move |candidate| candidate.larger_side() == Some(side));
    let buys = of_side(Side::Buy).max_by_key(|candidate| candidate.price);
    let sells = of_side(Side::Sell).min_by_key(|candidate| candidate.price);
    match (buys, sells) {
        (Some(buys), Some(sells)) if sells.unmatched() > buys.unmatched() => Some(sells.price),
        (Some(buys), _) => Some(buys.price),
        (None, sells) => sells.map(|candidate| candidate.price),
    }
}

/// For every permitted price the smaller of buys and sells, without routing; the greatest of these.
pub fn greatest_crossing(rows: &[Row], ladder: Ladder) -> u64 {
    let size = TOP as usize + 2;
    let (mut last_buys, mut first_sells) = (vec![0; size], vec![0; size]);
    for row in rows {
        let place = row.furthest_price() as usize;
        match row.side {
            Side::Buy => last_buys[place] += row.left,
            Side::Sell => first_sells[place] += row.left,
        }
    }
    let mut buys: u64 = last_buys.iter().sum();
    let (mut sells, mut greatest) = (0, 0);
    for price in 1..=TOP {
        sells += first_sells[price as usize];
        if ladder.permits(price) {
            greatest = greatest.max(buys.min(sells));
        }
        buys -= last_buys[price as usize];
    }
    greatest
}
