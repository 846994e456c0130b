//! Checks the program makes on itself. Each computes in another way than the code it
//! checks, and a failed one ends the program.

use crate::book::Row;
use crate::market::Away;
use crate::opening::{Decision, Report};
use crate::price::{Choice, Mode, Range, View};
use crate::rules::{Side, SIDES, TOP};
use crate::sharing::Holder;

/// What did not hold.
#[derive(Clone, Debug, PartialEq, Eq)]
pub struct Violation(pub String);

pub fn that(holds: bool, message: impl FnOnce() -> String) -> Result<(), Violation> {
    if holds {
        Ok(())
    } else {
        Err(Violation(message()))
    }
}

/// Contracts accepted and withdrawn so far, a side.
#[derive(Clone, Copy, PartialEq, Default)]
pub struct Ledger {
    pub accepted: [u64; 2],
    pub withdrawn: [u64; 2],
}

/// Accepted = withdrawn + traded + routed + cancelled + left, on each side and in each row.
pub fn balance(ledger: &Ledger, rows: &[Row]) -> Result<(), Violation> {
    for side in SIDES {
        let mut accounted = ledger.withdrawn[side.index()];
        for row in rows.iter().filter(|row| row.side == side) {
            let parts = row.traded + row.routed + row.cancelled + row.left;
            that(parts == row.size, || format!("a row of {} contracts accounts for {parts}", row.size))?;
            accounted += parts;
        }
        let accepted = ledger.accepted[side.index()];
        that(accepted == accounted, || format!("{side:?}: {accepted} accepted, {accounted} accounted for"))?;
    }
    Ok(())
}

/// Each share at most its row, all together the smaller of the quantity and the level.
pub fn shares(quantity: u64, holders: &[Holder], shares: &[u64]) -> Result<(), Violation> {
    let fits = holders.len() == shares.len()
        && holders.iter().zip(shares).all(|(holder, &share)| share <= holder.size);
    let level: u64 = holders.iter().map(|holder| holder.size).sum();
    let given: u64 = shares.iter().sum();
    that(fits && given == quantity.min(level), || format!("{quantity} shared as {shares:?} over {holders:?}"))
}

/// What stands at a price, gathered row by row and entry by entry.
#[derive(Clone, Copy, Default)]
struct Standing {
    interest: [i64; 2],
    routable: [i64; 2],
    better: [i64; 2],
}

impl Standing {
    fn usable(&self, mode: Mode) -> bool {
        SIDES.iter().all(|side| match mode {
            Mode::Exchange => self.better[side.index()] == 0,
            Mode::Routing => self.better[side.index()] <= self.routable[side.index()],
        })
    }

    fn to_fill(&self, side: Side) -> i64 {
        self.interest[side.index()] - self.better[side.index()]
    }

    fn volume(&self) -> i64 {
        self.to_fill(Side::Buy).min(self.to_fill(Side::Sell))
    }

    /// Above 0 for unmatched buys, below 0 for unmatched sells.
    fn excess(&self) -> i64 {
        self.to_fill(Side::Buy) - self.to_fill(Side::Sell)
    }
}

/// One entry for each price of the range, from `first` on.
struct Table {
    first: u64,
    standing: Vec<Standing>,
}

impl Table {
    fn over(view: &View, range: Range) -> Table {
        let (first, last) = (range.low.max(1), range.high.min(TOP));
        let length = (last + 1).saturating_sub(first) as usize;
        let mut table = Table { first, standing: vec![Standing::default(); length] };
        for row in view.rows {
            table.add_row(row);
        }
        for entry in view.away.shown() {
            let taker = entry.side.other().index();
            table.add(|price, standing| {
                let is_better =
                    if entry.side == Side::Sell { entry.price < price } else { entry.price > price };
                if is_better {
                    standing.better[taker] += entry.size as i64;
                }
            });
        }
        table
    }

    fn add_row(&mut self, row: &Row) {
        let place = row.side.index();
        self.add(|price, standing| {
            if row.reaches(price) {
                standing.interest[place] += row.left as i64;
                if row.is_routable() {
                    standing.routable[place] += row.left as i64;
                }
            }
        });
    }

    fn add(&mut self, change: impl Fn(u64, &mut Standing)) {
        for (price, standing) in (self.first..).zip(self.standing.iter_mut()) {
            change(price, standing);
        }
    }

    fn at(&self, price: u64) -> Option<&Standing> {
        self.standing.get(price.checked_sub(self.first)? as usize)
    }

    /// Usable permitted prices.
    fn candidates(&self, view: &View, mode: Mode) -> Vec<(u64, Standing)> {
        let all = (self.first..).zip(self.standing.iter().copied());
        all.filter(|(price, standing)| view.ladder.permits(*price) && standing.usable(mode)).collect()
    }
}

/// The choice again by a second search, laid out otherwise.
pub fn choice(view: &View, mode: Mode, range: Range, choice: Option<Choice>) -> Result<(), Violation> {
    let table = Table::over(view, range);
    let candidates = table.candidates(view, mode);
    let greatest = candidates.iter().map(|(_, standing)| standing.volume()).max().unwrap_or(0);
    let Some(choice) = choice else {
        return that(greatest <= 0, || format!("no price chosen in {range:?} where {greatest} would trade"));
    };
    let found = format!("{choice:?} in {range:?}");
    let in_range = view.ladder.permits(choice.price) && range.contains(choice.price);
    that(in_range, || format!("{found}: off the ladder or out of range"))?;
    let Some(standing) = table.at(choice.price) else {
        return Err(Violation(format!("{found}: not in the table")));
    };
    that(standing.usable(mode), || format!("{found}: not usable"))?;
    that(choice.volume as i64 == standing.volume(), || format!("{found}: volume is {}", standing.volume()))?;
    that(standing.volume() == greatest && greatest > 0, || {
        format!("{found}: greatest volume is {greatest}")
    })?;
    that(signed(&choice) == standing.excess(), || format!("{found}: excess is {}", standing.excess()))?;
    let best: Vec<(u64, i64)> = candidates
        .iter()
        .filter(|(_, standing)| standing.volume() == greatest)
        .map(|(price, standing)| (*price, standing.excess()))
        .collect();
    tie(&best, &choice, &found)?;
    through(view, &choice, standing, &found)
}

fn signed(choice: &Choice) -> i64 {
    match choice.side {
        None => 0,
        Some(Side::Buy) => choice.unmatched as i64,
        Some(Side::Sell) => -(choice.unmatched as i64),
    }
}

/// Among the prices of greatest volume: nothing unmatched before something, and then the
/// innermost price of the side with more.
fn tie(best: &[(u64, i64)], choice: &Choice, found: &str) -> Result<(), Violation> {
    let some_even = best.iter().any(|&(_, excess)| excess == 0);
    if some_even || choice.unmatched == 0 {
        return that(some_even && choice.unmatched == 0, || {
            format!("{found}: some price leaves nothing unmatched")
        });
    }
    let buys = best.iter().filter(|(_, excess)| *excess > 0).max();
    let sells = best.iter().filter(|(_, excess)| *excess < 0).min();
    let expected = match (buys, sells) {
        (Some(buys), Some(sells)) if buys.1 >= -sells.1 => buys.0,
        (_, Some(sells)) => sells.0,
        (Some(buys), None) => buys.0,
        (None, None) => 0,
    };
    that(choice.price == expected, || format!("{found}: expected {expected}"))
}

/// Contracts through the price less those routed and filled first.
fn through(view: &View, choice: &Choice, standing: &Standing, found: &str) -> Result<(), Violation> {
    let expected = choice.side.map_or(0, |side| {
        let all = |routable_only: bool| -> u64 {
            let rows = view.rows.iter().filter(|row| row.side == side && row.is_through(choice.price));
            rows.filter(|row| row.is_routable() || !routable_only).map(|row| row.left).sum()
        };
        let routed = (standing.better[side.index()] as u64).min(all(true));
        all(false).saturating_sub(routed + choice.volume)
    });
    that(choice.through == expected, || format!("{found}: {expected} unmatched are through"))
}

/// Rows and away market as an opening found them.
pub struct Before {
    pub rows: Vec<Row>,
    pub away: Away,
}

/// Everything an opening owes to what it found.
pub fn opening(
    before: &Before,
    decision: &Decision,
    report: &Report,
    rows: &[Row],
    away: &Away,
) -> Result<(), Violation> {
    for side in SIDES {
        let traded: u64 = rows.iter().filter(|row| row.side == side).map(|row| row.traded).sum();
        that(traded == report.volume, || {
            format!("{side:?}: {traded} filled at a volume of {}", report.volume)
        })?;
    }
    away_counts(before, report, rows, away)?;
    nothing_better(decision, away)?;
    each_row(before, rows)?;
    quiet_kinds(decision, report, rows)
}

/// The away counts are the old ones less what was routed, or 0.
fn away_counts(before: &Before, report: &Report, rows: &[Row], away: &Away) -> Result<(), Violation> {
    let mut prices = before.away.corners();
    prices.extend(rows.iter().map(Row::furthest_price));
    prices.extend([report.price, report.price + 1, report.price.saturating_sub(1)]);
    for side in SIDES {
        let routed = report.routed[side.other().index()];
        for &price in &prices {
            let expected = before.away.count(side, price).saturating_sub(routed);
            let found = away.count(side, price);
            that(found == expected, || format!("away {side:?} count at {price} is {found}, not {expected}"))?;
        }
    }
    Ok(())
}

/// After an opening with a price no away contract is left better than it.
fn nothing_better(decision: &Decision, away: &Away) -> Result<(), Violation> {
    let Some(price) = decision.price() else {
        return Ok(());
    };
    let left = away.count(Side::Sell, price - 1) + away.count(Side::Buy, price + 1);
    that(left == 0, || format!("{left} contracts better than {price} are left away"))
}

/// Each row keeps its own terms; only routable ones are routed.
fn each_row(before: &Before, rows: &[Row]) -> Result<(), Violation> {
    that(before.rows.len() == rows.len(), || "rows lost".to_string())?;
    for (old, row) in before.rows.iter().zip(rows) {
        let same = (old.side, old.limit, old.size, old.class) == (row.side, row.limit, row.size, row.class);
        that(same, || format!("{old:?} became {row:?}"))?;
        that(row.routed == 0 || row.is_routable(), || format!("routed though it must not be: {row:?}"))?;
        that(row.left > 0 || (row.working, row.shown) == (0, 0), || {
            format!("prices with nothing left: {row:?}")
        })?;
    }
    Ok(())
}

/// Kinds 1 to 3 send nothing, kinds 2 to 4 cancel nothing, kind 4 sends something, and what
/// rests is crossed by nothing but kind 5 without a price.
fn quiet_kinds(decision: &Decision, report: &Report, rows: &[Row]) -> Result<(), Violation> {
    let routed = report.routed[0] + report.routed[1];
    let cancelled = report.cancelled[0] + report.cancelled[1];
    let crossed = report.best[0] > 0 && report.best[1] > 0 && report.best[0] >= report.best[1];
    let fits = match decision.kind {
        1 => routed == 0 && rows.iter().all(|row| row.traded == 0),
        2 | 3 => routed == 0 && cancelled == 0,
        4 => routed > 0 && cancelled == 0,
        _ => true,
    };
    that(fits, || format!("no opening of its kind: {report:?}"))?;
    let may_cross = decision.kind == 5 && decision.choice.is_none();
    that(may_cross || !crossed, || format!("the rests are crossed: {report:?}"))
}
