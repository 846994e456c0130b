//! The orders of each theme.

use crate::arrange::{Theme, BESIDE, KNOT_SIZE};
use crate::desk::{Desk, Done};
use crate::nuisance::{one_too_many, wrong_standing};
use crate::rules::{Side, MOST_ORDERS};

/// Enters the orders of a theme.
pub fn orders(desk: &mut Desk, theme: Theme) -> Done {
    match theme {
        Theme::Calm => calm_orders(desk),
        Theme::Aside => aside_orders(desk),
        Theme::Even => even_orders(desk),
        Theme::Twin => twin_orders(desk),
        Theme::Cross => crossing_orders(desk),
        Theme::Beside => beside_orders(desk),
        Theme::Outside => outside_orders(desk),
        Theme::Route => routed_orders(desk),
        Theme::Lopsided => lopsided_orders(desk, 25),
        Theme::Overrun => lopsided_orders(desk, 75),
        Theme::Blocked => blocked_orders(desk),
        Theme::Knot => knot_orders(desk),
        Theme::Zero => zero_orders(desk),
        Theme::Crowd => crowd_orders(desk),
        Theme::Shared => shared_orders(desk, 0),
        Theme::Rush => shared_orders(desk, 90),
        Theme::Edge => edge_orders(desk),
        Theme::Soup => soup_orders(desk),
    }
}

fn calm_orders(desk: &mut Desk) -> Done {
    for _ in 0..desk.dice.between(0, 5) {
        let side = desk.side();
        let sign = if side == Side::Buy { -1 } else { 1 };
        let steps = sign * desk.dice.between(1, 8) as i64;
        let (size, class) = (desk.size(), if desk.dice.chance(80) { desk.unroutable() } else { "routable" });
        desk.order(side, steps, size, class)?;
    }
    Ok(())
}

/// Orders on one side that reach the better away prices but may not be sent there.
fn aside_orders(desk: &mut Desk) -> Done {
    for _ in 0..desk.dice.between(1, 4) {
        let (side, steps) = desk.turn(Side::Buy, -3, 4);
        let (size, class) = (desk.size(), desk.unroutable());
        desk.order(side, steps, size, class)?;
    }
    Ok(())
}

/// The same contracts on both sides, one of them in two orders.
fn even_orders(desk: &mut Desk) -> Done {
    let size = desk.dice.pick(&[2, 10, 30, 100]);
    let part = desk.dice.between(1, size - 1);
    for (side, low, high, size) in
        [(Side::Buy, 0, 5, size), (Side::Sell, -5, 0, part), (Side::Sell, -5, 0, size - part)]
    {
        let (side, steps) = desk.turn(side, low, high);
        let class = desk.class();
        market_or_order(desk, 8, side, steps, size, class)?;
    }
    Ok(())
}

/// On each side as many at a good limit as on the other, and more at a limit one step short of
/// the other side's.
fn twin_orders(desk: &mut Desk) -> Done {
    let (first, second) = (desk.small_size(), 12 + desk.small_size());
    let other = second + desk.dice.pick(&[0, 0, 0, 1]);
    for (side, low, high, size) in [
        (Side::Buy, 4, 6, first),
        (Side::Buy, 0, 0, second),
        (Side::Sell, 1, 1, other),
        (Side::Sell, -5, -3, first),
    ] {
        let (side, steps) = desk.turn(side, low, high);
        let class = desk.class();
        desk.order(side, steps, size, class)?;
    }
    Ok(())
}

fn crossing_orders(desk: &mut Desk) -> Done {
    for _ in 0..desk.dice.between(1, 4) {
        for side in [Side::Buy, Side::Sell] {
            let lean = if side == Side::Buy { 1 } else { -1 };
            let steps = lean * desk.dice.between(0, 4) as i64 + desk.dice.around(1);
            let (size, class) = (desk.size(), desk.class());
            market_or_order(desk, 12, side, steps, size, class)?;
        }
    }
    Ok(())
}

/// Much at the price that is shown away, less on the other side.
fn beside_orders(desk: &mut Desk) -> Done {
    for _ in 0..desk.dice.between(1, 3) {
        let (side, steps) = desk.turn(Side::Buy, BESIDE, BESIDE);
        let size = 20 + desk.size().min(1_000);
        let class = if desk.dice.chance(60) { "fixed" } else { desk.class() };
        desk.order(side, steps, size, class)?;
    }
    for _ in 0..desk.dice.between(1, 2) {
        let (side, steps) = desk.turn(Side::Sell, BESIDE - 3, BESIDE);
        let (size, class) = (desk.small_size(), desk.class());
        desk.order(side, steps, size, class)?;
    }
    Ok(())
}

fn outside_orders(desk: &mut Desk) -> Done {
    let size = desk.dice.pick(&[20, 50, 100, 200, 1_200_000]) / desk.dice.between(1, 2);
    let size = size.min(1_000_000);
    for (side, low, high) in [(Side::Buy, 7, 10), (Side::Sell, 4, 7)] {
        let (side, steps) = desk.turn(side, low, high);
        let class = desk.class();
        desk.order(side, steps, size, class)?;
    }
    for _ in 0..desk.dice.between(0, 2) {
        let (side, steps, size, class) = (desk.side(), desk.dice.around(9), desk.small_size(), desk.class());
        desk.order(side, steps, size, class)?;
    }
    Ok(())
}

/// Routable orders that reach the better away prices, against one large order here.
fn routed_orders(desk: &mut Desk) -> Done {
    match desk.dice.between(1, 10) {
        1 | 2 => return exactly_routed_orders(desk),
        3..=6 => return twice_sent_orders(desk),
        _ => {}
    }
    let meeting = desk.dice.between(1, 4) as i64;
    for _ in 0..desk.dice.between(1, 4) {
        let (side, steps) = desk.turn(Side::Buy, meeting, meeting + 3);
        let class = if desk.dice.chance(85) { "routable" } else { desk.class() };
        let size = desk.size();
        market_or_order(desk, 15, side, steps, size, class)?;
    }
    let large = if desk.dice.chance(60) { 1_000_000 } else { desk.size() };
    let (side, steps) = desk.turn(Side::Sell, meeting, meeting);
    let class = desk.class();
    desk.order(side, steps, large, class)?;
    if desk.dice.chance(40) {
        let (side, steps) = desk.turn(Side::Sell, meeting - 2, meeting);
        let (size, class) = (desk.small_size(), desk.class());
        desk.order(side, steps, size, class)?;
    }
    Ok(())
}

/// Orders that are used up by one better price away and one order here; at times the routable
/// ones among them are just enough for the better price.
fn exactly_routed_orders(desk: &mut Desk) -> Done {
    desk.say("depth clear")?;
    let (away_size, here) = (desk.small_size(), desk.small_size());
    let (side, steps) = desk.turn(Side::Sell, -2, 0);
    let price = desk.raw_price(steps);
    desk.away(side, price, away_size)?;
    let (side, steps) = desk.turn(Side::Buy, 3, 5);
    if desk.dice.chance(50) {
        desk.order(side, steps, away_size + here, "routable")?;
    } else {
        let class = desk.unroutable();
        desk.order(side, steps, away_size, "routable")?;
        desk.order(side, steps, here, class)?;
    }
    let (side, steps) = desk.turn(Side::Sell, 1, 2);
    let class = desk.class();
    desk.order(side, steps, here, class)?;
    Ok(())
}

/// Routable orders limited where the trade is, with contracts away at that price too, and at
/// times one limited further that is used up before them.
fn twice_sent_orders(desk: &mut Desk) -> Done {
    let (side, steps) = desk.turn(Side::Sell, 4, 4);
    let (price, size) = (desk.raw_price(steps), desk.small_size());
    desk.depth(side, price, size)?;
    let (small, class) = (desk.small_size(), desk.class());
    desk.order(side, steps, small, class)?;
    if desk.dice.chance(60) {
        let (further, size) = (steps + 2 * steps.signum(), desk.small_size());
        desk.order(side.other(), further, size, "routable")?;
    }
    for class in ["routable", desk.dice.pick(&["routable", "fixed"])] {
        let size = 30 + desk.size();
        desk.order(side.other(), steps, size.min(1_000_000), class)?;
    }
    Ok(())
}

/// Far more on one side, limited far outside; `routable` percent of it may be sent.
fn lopsided_orders(desk: &mut Desk, routable: u64) -> Done {
    for _ in 0..desk.dice.between(1, 3) {
        let (side, steps) = desk.turn(Side::Buy, 12, 60);
        let size = desk.size() + desk.dice.between(50, 300);
        let class = if desk.dice.chance(routable) { "routable" } else { desk.class() };
        market_or_order(desk, 25, side, steps, size.min(1_000_000), class)?;
    }
    for _ in 0..desk.dice.between(0, 3) {
        let (side, steps) = desk.turn(Side::Sell, -9, 9);
        let (size, class) = (desk.small_size(), desk.class());
        desk.order(side, steps, size, class)?;
    }
    Ok(())
}

fn blocked_orders(desk: &mut Desk) -> Done {
    for _ in 0..desk.dice.between(1, 3) {
        for (side, low, high) in [(Side::Buy, 4, 6), (Side::Sell, 2, 4)] {
            let (side, steps) = desk.turn(side, low, high);
            let class = if desk.dice.chance(90) { desk.unroutable() } else { "routable" };
            let size = desk.size();
            market_or_order(desk, 8, side, steps, size, class)?;
        }
    }
    Ok(())
}

fn knot_orders(desk: &mut Desk) -> Done {
    let (fixed, free) = (desk.unroutable(), desk.class());
    let (small, any, taker) = (desk.small_size(), desk.size(), KNOT_SIZE + desk.dice.between(0, 3));
    for (side, low, high, size, class) in [
        (Side::Buy, 5, 5, small, fixed),
        (Side::Sell, 3, 3, any, free),
        (Side::Buy, -1, 0, taker, "routable"),
    ] {
        let (side, steps) = desk.turn(side, low, high);
        desk.order(side, steps, size, class)?;
    }
    Ok(())
}

fn zero_orders(desk: &mut Desk) -> Done {
    if desk.dice.chance(40) {
        let (size, class) = (desk.size(), desk.unroutable());
        desk.enter(Side::Sell, "market", size, class)?;
        return Ok(());
    }
    for _ in 0..desk.dice.between(0, 3) {
        let side = if desk.dice.chance(75) { Side::Sell } else { Side::Buy };
        let (steps, size, class) = (desk.dice.around(10), desk.size(), desk.class());
        market_or_order(desk, 40, side, steps, size, class)?;
    }
    Ok(())
}

fn crowd_orders(desk: &mut Desk) -> Done {
    let target = desk.dice.pick(&[30, MOST_ORDERS as u64 + 2, MOST_ORDERS as u64 + 4]);
    for _ in 0..target {
        let side = desk.side();
        let lean = if side == Side::Buy { 1 } else { -1 };
        let steps = lean * desk.dice.pick(&[-3, -2, -1, 0, 1]);
        let (size, class) = (desk.small_size(), desk.class());
        desk.order(side, steps, size, class)?;
    }
    for _ in 0..3 {
        one_too_many(desk)?;
    }
    wrong_standing(desk)?;
    Ok(())
}

/// Several rows of each class at one price, or `market` percent of them at the market, against
/// less on the other side.
fn shared_orders(desk: &mut Desk, market: u64) -> Done {
    let (side, steps) = desk.turn(Side::Buy, 1, 3);
    let largest = desk.dice.pick(&[3, 12]);
    for _ in 0..desk.dice.between(4, 9) {
        let (size, class) = (desk.dice.between(1, largest), desk.class());
        market_or_order(desk, market, side, steps, size, class)?;
    }
    let (size, class) = (desk.dice.between(1, largest), desk.class());
    let nearer = steps.signum() * desk.dice.between(0, 1) as i64;
    desk.order(side.other(), nearer, size, class)?;
    Ok(())
}

fn edge_orders(desk: &mut Desk) -> Done {
    if desk.dice.chance(40) {
        return pinned_orders(desk);
    }
    for _ in 0..desk.dice.between(1, 6) {
        let side = desk.side();
        let (size, class) = (desk.size(), desk.class());
        match desk.dice.between(1, 5) {
            1 => desk.enter(side, "1", size, class)?,
            2 => desk.enter(side, "100000", size, class)?,
            3 => desk.enter(side, "market", size, class)?,
            _ => {
                let steps = desk.dice.around(5);
                desk.order(side, steps, size, class)?
            }
        };
    }
    Ok(())
}

/// Orders limited at the end of the scale, where the away price may be too.
fn pinned_orders(desk: &mut Desk) -> Done {
    let (price, facing) = if desk.center < 50 { ("1", Side::Buy) } else { ("100000", Side::Sell) };
    let (size, class) = (desk.size(), desk.unroutable());
    desk.enter(facing, price, size, class)?;
    if desk.dice.chance(60) {
        let (size, class) = (desk.dice.pick(&[3, 200, 1_000_000]), desk.class());
        desk.enter(facing.other(), price, size, class)?;
    }
    Ok(())
}

fn soup_orders(desk: &mut Desk) -> Done {
    for _ in 0..desk.dice.between(1, 12) {
        let (side, steps, size, class) = (desk.side(), desk.dice.around(12), desk.size(), desk.class());
        market_or_order(desk, 10, side, steps, size, class)?;
    }
    Ok(())
}

fn market_or_order(desk: &mut Desk, percent: u64, side: Side, steps: i64, size: u64, class: &str) -> Done {
    if desk.dice.chance(percent) {
        desk.enter(side, "market", size, class)?;
    } else {
        desk.order(side, steps, size, class)?;
    }
    Ok(())
}
