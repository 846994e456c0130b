//! Themes of a morning: quotes, away prices and orders set up so that a certain end is likely.

use crate::desk::{Desk, Done};
use crate::orders::orders;
use crate::rules::{Ladder, Side};

/// Steps from the center of the price that is shown here and away.
pub const BESIDE: i64 = 3;
/// Contracts at the one better price that blocks a trade until they are taken.
pub const KNOT_SIZE: u64 = 25;

#[derive(Clone, Copy, PartialEq, Eq, Debug)]
pub enum Theme {
    /// Nothing crosses.
    Calm,
    /// Nothing crosses here, but rests reach better prices away.
    Aside,
    /// Equal sizes cross between the quotes.
    Even,
    /// Every price leaves something, as much on one side as on the other or nearly so.
    Twin,
    /// Orders cross between the quotes.
    Cross,
    /// More on one side at a price that is also shown away.
    Beside,
    /// Orders cross outside the quotes but near them.
    Outside,
    /// Better prices away and routable orders to take them.
    Route,
    /// Far more on one side, far through the range.
    Lopsided,
    /// The same with better prices away.
    Overrun,
    /// Better prices away that nobody may be sent to.
    Blocked,
    /// As before, but an order limited lower takes the better prices and leaves a crossed book.
    Knot,
    /// Quotes without bids.
    Zero,
    /// As many orders as may stand.
    Crowd,
    /// Many rows at one price, shared in part.
    Shared,
    /// Many rows at the market, shared in part.
    Rush,
    /// Prices at the ends of the scale.
    Edge,
    /// Anything.
    Soup,
}

/// Each theme with its weight.
const THEMES: [(Theme, u64); 18] = [
    (Theme::Calm, 5),
    (Theme::Aside, 7),
    (Theme::Even, 8),
    (Theme::Twin, 6),
    (Theme::Cross, 8),
    (Theme::Beside, 6),
    (Theme::Outside, 8),
    (Theme::Route, 15),
    (Theme::Lopsided, 8),
    (Theme::Overrun, 10),
    (Theme::Blocked, 7),
    (Theme::Knot, 6),
    (Theme::Zero, 11),
    (Theme::Crowd, 3),
    (Theme::Shared, 8),
    (Theme::Rush, 8),
    (Theme::Edge, 11),
    (Theme::Soup, 4),
];

pub fn pick_theme(desk: &mut Desk) -> Theme {
    let all: u64 = THEMES.iter().map(|(_, weight)| weight).sum();
    let mut thrown = desk.dice.between(1, all);
    for (theme, weight) in THEMES {
        if thrown <= weight {
            return theme;
        }
        thrown -= weight;
    }
    Theme::Soup
}

/// A price for the morning to turn around.
pub fn pick_center(desk: &mut Desk, theme: Theme) -> u64 {
    match theme {
        Theme::Zero => desk.dice.between(3, 45),
        Theme::Edge => desk.dice.pick(&[1, 2, 3, 6, 99_990, 99_995, 99_998, 99_999, 100_000]),
        Theme::Aside if desk.dice.chance(80) => desk.dice.between(300, 2_500),
        _ => match desk.dice.between(1, 10) {
            1 => desk.dice.pick(&[295, 298, 300, 305, 310]),
            2 => desk.dice.pick(&[199, 200, 201, 498, 500, 999, 1_000, 1_999, 2_000, 2_010]),
            3 => desk.dice.between(300, 5_000),
            4 => desk.dice.between(5, 60),
            _ => desk.dice.between(95, 160),
        },
    }
}

/// Quotes, away prices and orders of a theme, in a random order.
pub fn arrange(desk: &mut Desk, theme: Theme) -> Done {
    desk.mirrored = desk.dice.chance(50);
    desk.thin_quotes = matches!(theme, Theme::Shared | Theme::Rush) || desk.dice.chance(10);
    let mut steps: Vec<fn(&mut Desk, Theme) -> Done> = vec![quotes, away_prices, orders];
    while !steps.is_empty() {
        let place = desk.dice.between(0, steps.len() as u64 - 1) as usize;
        steps.remove(place)(desk, theme)?;
    }
    Ok(())
}

pub fn quotes(desk: &mut Desk, theme: Theme) -> Done {
    let mut makers = vec![];
    if desk.dice.chance(75) {
        makers.push(1);
    }
    let alone = !makers.is_empty() && desk.dice.chance(20);
    for _ in 0..if alone { 0 } else { desk.dice.between(1, 3) } {
        makers.push(desk.dice.between(2, 16));
    }
    let shape = desk.dice.between(1, 100);
    for maker in makers {
        one_quote(desk, theme, maker, shape)?;
    }
    Ok(())
}

/// A quote of the theme; `shape` makes the makers' quotes agree, lock or cross.
pub fn one_quote(desk: &mut Desk, theme: Theme, maker: u64, shape: u64) -> Done {
    if theme == Theme::Zero {
        return zero_quote(desk, maker, shape);
    }
    let (crossing, half) = match theme {
        Theme::Calm => (5, desk.dice.between(1, 6)),
        Theme::Aside | Theme::Even | Theme::Twin | Theme::Beside => (4, desk.dice.between(6, 9)),
        Theme::Blocked | Theme::Route | Theme::Knot => (4, desk.dice.between(7, 10)),
        _ => (20, desk.dice.between(1, 6)),
    };
    // Wide quotes are valid but make no quality market.
    let narrow = if theme == Theme::Even { 60 } else { 88 };
    let half = if shape > narrow { desk.dice.between(13, 24) as i64 } else { half as i64 };
    let shift = if shape <= crossing {
        desk.dice.pick(&[-8, -4, 4, 8])
    } else if shape <= crossing + 10 {
        // The makers' quotes meet at the center.
        desk.dice.pick(&[-half, half])
    } else {
        desk.dice.around(1)
    };
    desk.quote_steps(maker, half - shift, half + shift)?;
    Ok(())
}

fn zero_quote(desk: &mut Desk, maker: u64, shape: u64) -> Done {
    let offer = if shape <= 35 { desk.dice.between(26, 50) } else { desk.dice.between(1, 28) };
    let size = desk.size();
    if desk.dice.chance(10) {
        desk.quote_steps(maker, 2, 2)?;
    } else {
        desk.quote(maker, 0, 0, offer, size)?;
    }
    Ok(())
}

pub fn away_prices(desk: &mut Desk, theme: Theme) -> Done {
    match theme {
        Theme::Route | Theme::Blocked | Theme::Overrun | Theme::Aside => better_prices(desk)?,
        Theme::Beside => same_price(desk)?,
        Theme::Knot => lone_price(desk)?,
        Theme::Even | Theme::Twin | Theme::Shared | Theme::Rush if desk.dice.chance(60) => {}
        Theme::Zero if desk.dice.chance(60) => {}
        Theme::Edge if desk.dice.chance(50) => end_prices(desk)?,
        _ => usual_prices(desk)?,
    }
    if desk.dice.chance(5) {
        desk.say("firm off")?;
    }
    if desk.dice.chance(8) {
        long_table(desk)?;
    }
    Ok(())
}

/// Neither, one or both sides around the center; at times locked or crossed.
fn usual_prices(desk: &mut Desk) -> Done {
    match desk.dice.between(1, 100) {
        1..=30 => Ok(()),
        31..=37 => facing_prices(desk, 2),
        38..=52 => facing_prices(desk, 0),
        53..=68 => spread_prices(desk, 2),
        _ => spread_prices(desk, 6),
    }
}

/// An away bid and an away offer `overlap` steps below it.
fn facing_prices(desk: &mut Desk, overlap: i64) -> Done {
    let steps = desk.dice.around(3);
    for (side, steps) in [(Side::Buy, steps), (Side::Sell, steps - overlap)] {
        let (price, size) = (desk.raw_price(steps), desk.away_size());
        if desk.dice.chance(50) {
            desk.away(side, price, size)?;
        } else {
            desk.depth(side, price, size)?;
        }
    }
    Ok(())
}

/// An away bid below and an away offer above the center, or one of them.
fn spread_prices(desk: &mut Desk, half: i64) -> Done {
    for (side, steps) in [(Side::Buy, -half), (Side::Sell, half)] {
        if desk.dice.chance(75) {
            let steps = steps + desk.dice.around(3);
            one_away(desk, side, steps)?;
        }
    }
    Ok(())
}

/// Better prices for one side's orders, of several levels, in one or both of the markets.
fn better_prices(desk: &mut Desk) -> Done {
    for _ in 0..desk.dice.between(1, 3) {
        let (side, steps) = desk.turn(Side::Sell, -3, 0);
        one_away(desk, side, steps)?;
    }
    if desk.dice.chance(40) {
        let (side, steps) = desk.turn(Side::Buy, -9, -3);
        one_away(desk, side, steps)?;
    }
    Ok(())
}

/// An away price right where orders of the theme trade.
fn same_price(desk: &mut Desk) -> Done {
    let (side, steps) = desk.turn(Side::Sell, BESIDE, BESIDE);
    let (price, size) = (desk.raw_price(steps), desk.size());
    desk.away(side, price, size)?;
    Ok(())
}

/// One better price of a known size.
fn lone_price(desk: &mut Desk) -> Done {
    let (side, steps) = desk.turn(Side::Sell, -1, -1);
    let price = desk.raw_price(steps);
    desk.depth(side, price, KNOT_SIZE)?;
    Ok(())
}

/// Away prices at the very ends of the scale.
fn end_prices(desk: &mut Desk) -> Done {
    let price = if desk.center < 50 { 1 } else { 100_000 };
    let side = if desk.dice.chance(70) == (price == 1) { Side::Sell } else { Side::Buy };
    let size = desk.away_size();
    desk.away(side, price, size)?;
    Ok(())
}

/// One away price, single or as a level, seldom off the ladder or out of bounds.
fn one_away(desk: &mut Desk, side: Side, steps: i64) -> Done {
    let jitter = if desk.ladder == Ladder::Stepped { desk.dice.around(1) } else { 0 };
    let price = (desk.raw_price(steps) as i64 + jitter).max(0) as u64;
    let price = if desk.dice.chance(2) { desk.dice.pick(&[0, 100_001, 4_294_967_295]) } else { price };
    let size =
        if desk.dice.chance(3) { desk.dice.pick(&[0, 1_000_001, 4_294_967_295]) } else { desk.away_size() };
    if desk.dice.chance(50) {
        desk.away(side, price, size)?;
    } else {
        desk.depth(side, price, size)?;
    }
    Ok(())
}

/// Around 64 levels, the late ones better than the early ones.
fn long_table(desk: &mut Desk) -> Done {
    let side = desk.side();
    let sign = if side == Side::Sell { 1 } else { -1 };
    let levels = desk.dice.between(62, 72) as i64;
    for level in 0..levels {
        let steps = sign * ((levels - level) / 5 - 1);
        let price = if desk.dice.chance(5) { 0 } else { desk.raw_price(steps) };
        let size = desk.dice.between(0, 4);
        desk.depth(side, price, size)?;
    }
    Ok(())
}

impl Desk {
    fn away_size(&mut self) -> u64 {
        if self.dice.chance(50) {
            self.small_size()
        } else {
            self.size()
        }
    }
}
