//! Scripts of random blocks of inspection calls, biased to what is rare.

use crate::audit::Violation;
use crate::desk::{market_word, order_word, Desk, Done};
use crate::rules::{Side, TOP};

/// A family of inspection calls and the block it is tried with.
type Block = fn(&mut Desk) -> Done;

const FAMILIES: [(&str, Block); 4] =
    [("share", share_block), ("market", market_block), ("price", price_block), ("ranges", ranges_block)];

/// A script of `count` blocks of the named families, of all if none is named; nothing if a
/// name is unknown.
pub fn blocks(seed: u64, count: u64, names: &[&str]) -> Option<Result<String, Violation>> {
    let known = |name: &&str| FAMILIES.iter().any(|(family, _)| family == name);
    if !names.iter().all(known) {
        return None;
    }
    let wanted: Vec<(&str, Block)> =
        FAMILIES.into_iter().filter(|(family, _)| names.is_empty() || names.contains(family)).collect();
    Some(write_blocks(seed, count, &wanted))
}

fn write_blocks(seed: u64, count: u64, wanted: &[(&str, Block)]) -> Result<String, Violation> {
    let mut desk = Desk::new(seed);
    for place in 1..=count {
        let (name, block) = desk.dice.pick(wanted);
        desk.remark(&format!("# block {place}: {name}"));
        desk.center = pick_center(&mut desk);
        block(&mut desk)?;
    }
    Ok(desk.script)
}

fn pick_center(desk: &mut Desk) -> u64 {
    match desk.dice.between(1, 6) {
        1 => desk.dice.pick(&[1, 2, 99_998, 100_000]),
        2 => desk.dice.between(1, TOP),
        3 => desk.dice.pick(&[199, 200, 500, 1_000, 2_000]),
        _ => desk.dice.between(90, 130),
    }
}

fn share_block(desk: &mut Desk) -> Done {
    for _ in 0..desk.dice.between(1, 4) {
        one_share(desk)?;
    }
    if desk.dice.chance(25) {
        let line = desk.dice.pick(&[
            "share time 5",
            "share prorata",
            "share time 5 other",
            "share time 5 other 0",
            "share time 5 other 3 fixed 1000001",
            "share prorata 5 customer 3",
            "share size 5 other 3",
            "share time 4294967296 other 3",
            "share time -1 other 3",
            "share time 5 other 3 fixed",
            "share time 5 3 other",
        ]);
        desk.say(line)?;
    }
    Ok(())
}

fn one_share(desk: &mut Desk) -> Done {
    let rule = desk.dice.pick(&["time", "prorata", "prorata"]);
    let rows = match desk.dice.between(1, 12) {
        1 => desk.dice.pick(&[127, 128, 129]),
        2 => desk.dice.between(20, 60),
        3 => 1,
        _ => desk.dice.between(2, 8),
    };
    let largest = desk.dice.pick(&[2, 5, 12, 100, 1_000_000]);
    let others = desk.dice.pick(&[0, 50, 80, 100]);
    let (mut total, mut words) = (0, String::new());
    for _ in 0..rows {
        let size = desk.dice.between(1, largest);
        let class = if desk.dice.chance(others) { "other" } else { desk.class() };
        words.push_str(&format!(" {class} {size}"));
        total += size;
    }
    let quantity = match desk.dice.between(1, 10) {
        1 => 0,
        2 => 1,
        3 => total - 1,
        4 => total,
        5 => total + 1,
        6 => 4_294_967_295,
        _ => desk.dice.between(0, total),
    };
    desk.say(&format!("share {rule} {quantity}{words}"))?;
    Ok(())
}

fn market_block(desk: &mut Desk) -> Done {
    set_market(desk)?;
    if desk.dice.chance(2) {
        overfull_table(desk)?;
    }
    for _ in 0..desk.dice.between(3, 12) {
        match desk.dice.between(1, 8) {
            1..=3 => ask_count(desk)?,
            4 => ask_best(desk)?,
            5 => one_entry(desk)?,
            6 if desk.dice.chance(40) => toggle(desk)?,
            _ => one_send(desk)?,
        }
    }
    for side in [Side::Buy, Side::Sell] {
        desk.say(&format!("best {}", market_word(side)))?;
        for steps in -3..=3 {
            let price = desk.raw_price(steps);
            desk.say(&format!("count {} {price}", market_word(side)))?;
        }
    }
    if desk.dice.chance(15) {
        wrong_market_line(desk)?;
    }
    Ok(())
}

fn wrong_market_line(desk: &mut Desk) -> Done {
    let line = desk.dice.pick(&[
        "count bid",
        "count buy 100",
        "count bid market",
        "best",
        "best sell",
        "best bid 100",
        "send offer 100",
        "send offer 100 -1",
        "send offer 100 4294967296",
        "away bid 100",
        "away bid 4294967296 5",
        "depth offer 100 5 5",
        "depth",
        "firm",
        "firm on off",
    ]);
    desk.say(line)?;
    Ok(())
}

/// Nothing shown.
fn empty_market(desk: &mut Desk) -> Done {
    for line in ["away bid 0 0", "away offer 0 0", "depth clear", "firm on"] {
        desk.say(line)?;
    }
    Ok(())
}

/// A fresh market, or some more on top of the old one.
fn set_market(desk: &mut Desk) -> Done {
    if desk.dice.chance(70) {
        empty_market(desk)?;
    }
    let entries = desk.dice.pick(&[0, 1, 2, 6]);
    if entries == 6 && desk.dice.chance(40) {
        long_table(desk)?;
    }
    for _ in 0..entries {
        one_entry(desk)?;
    }
    Ok(())
}

fn one_entry(desk: &mut Desk) -> Done {
    let side = desk.side();
    let price = some_price(desk, 5);
    let size = if desk.dice.chance(7) { desk.dice.pick(&[0, 1_000_001, 4_294_967_295]) } else { desk.size() };
    if desk.dice.chance(35) {
        desk.away(side, price, size)?;
    } else {
        desk.depth(side, price, size)?;
    }
    Ok(())
}

/// A price near the center, seldom out of bounds.
fn some_price(desk: &mut Desk, reach: i64) -> u64 {
    if desk.dice.chance(9) {
        return desk.dice.pick(&[0, 1, TOP, TOP + 1, 4_294_967_295]);
    }
    let steps = desk.dice.around(reach);
    desk.raw_price(steps)
}

/// Around 64 levels, the late ones as good as the early ones.
fn long_table(desk: &mut Desk) -> Done {
    desk.say("depth clear")?;
    for _ in 0..desk.dice.between(62, 70) {
        let (side, price, size) = (desk.side(), some_price(desk, 9), desk.dice.between(0, 5));
        desk.depth(side, price, size)?;
    }
    Ok(())
}

/// More levels than the table holds.
fn overfull_table(desk: &mut Desk) -> Done {
    desk.say("depth clear")?;
    for _ in 0..1_002 {
        desk.depth(Side::Sell, desk.center, 1)?;
    }
    desk.say("depth clear")?;
    Ok(())
}

fn toggle(desk: &mut Desk) -> Done {
    let line = desk.dice.pick(&["firm on", "firm off", "depth clear"]);
    desk.say(line)?;
    Ok(())
}

fn ask_count(desk: &mut Desk) -> Done {
    let side = desk.side();
    let price = some_price(desk, 7);
    desk.say(&format!("count {} {price}", market_word(side)))?;
    Ok(())
}

fn ask_best(desk: &mut Desk) -> Done {
    let side = desk.side();
    desk.say(&format!("best {}", market_word(side)))?;
    Ok(())
}

/// A send of nothing, of more than there is, or of a few contracts.
fn one_send(desk: &mut Desk) -> Done {
    let side = desk.side();
    let price = if desk.dice.chance(8) { desk.dice.pick(&[0, TOP + 1]) } else { some_price(desk, 6) };
    let wanted = match desk.dice.between(1, 8) {
        1 => 0,
        2 => 4_294_967_295,
        3 => desk.player.away().count(side, price),
        4 => desk.player.away().count(side, price) + 1,
        _ => desk.size(),
    };
    desk.say(&format!("send {} {price} {wanted}", market_word(side)))?;
    Ok(())
}

fn price_block(desk: &mut Desk) -> Done {
    if desk.dice.chance(85) {
        desk.say("rows clear")?;
    }
    desk.mirrored = desk.dice.chance(50);
    match desk.dice.between(1, 8) {
        1 => {
            empty_market(desk)?;
            balanced_rows(desk)?;
        }
        2 => {
            empty_market(desk)?;
            twin_rows(desk)?;
        }
        3 => {
            set_market(desk)?;
            routed_pair(desk)?;
        }
        4 => {
            set_market(desk)?;
            routed_pair(desk)?;
            random_rows(desk)?;
        }
        _ => {
            set_market(desk)?;
            random_rows(desk)?;
        }
    }
    for _ in 0..desk.dice.between(2, 8) {
        ask_price(desk)?;
    }
    if desk.dice.chance(15) {
        wrong_price_line(desk)?;
    }
    Ok(())
}

fn random_rows(desk: &mut Desk) -> Done {
    let rows = if desk.dice.chance(5) { 98 } else { desk.dice.pick(&[2, 5, 10]) };
    let even = desk.dice.chance(40);
    for _ in 0..rows {
        one_row(desk, even)?;
    }
    Ok(())
}

fn one_row(desk: &mut Desk, even: bool) -> Done {
    let side = desk.side();
    let lean = if side == Side::Buy { 2 } else { -2 };
    let steps = lean + desk.dice.around(5);
    let price = match desk.dice.between(1, 12) {
        1 | 2 => "market".to_string(),
        3 => desk.dice.pick(&[1, TOP]).to_string(),
        _ => desk.raw_price(steps).to_string(),
    };
    let size = if even { desk.dice.pick(&[5, 10, 10, 20]) } else { desk.size() };
    let class = desk.class();
    desk.say(&format!("row {} {price} {size} {class}", order_word(side)))?;
    Ok(())
}

/// A better away price, a routable row to take it and a row to trade with.
fn routed_pair(desk: &mut Desk) -> Done {
    let (away_size, here) = (desk.small_size(), desk.small_size());
    let (side, steps) = desk.turn(Side::Sell, -2, 0);
    let price = desk.raw_price(steps);
    desk.depth(side, price, away_size)?;
    limited_rows(
        desk,
        &[
            (Side::Buy, 3, 5, away_size, "routable"),
            (Side::Buy, 3, 5, here, "other"),
            (Side::Sell, 1, 2, here, "routable"),
        ],
    )
}

/// The same size on both sides.
fn balanced_rows(desk: &mut Desk) -> Done {
    let size = desk.small_size();
    limited_rows(desk, &[(Side::Buy, 0, 5, size, "fixed"), (Side::Sell, -5, 0, size, "other")])
}

/// Each price leaves something, as much of one side as of the other or nearly so.
fn twin_rows(desk: &mut Desk) -> Done {
    let (first, second) = (desk.small_size(), 12 + desk.small_size());
    let other = second + desk.dice.pick(&[0, 0, 1]);
    limited_rows(
        desk,
        &[
            (Side::Buy, 4, 6, first, "fixed"),
            (Side::Buy, 0, 0, second, "other"),
            (Side::Sell, 1, 1, other, "routable"),
            (Side::Sell, -6, -4, first, "other"),
        ],
    )
}

/// Rows given as side, steps from and to, size and class.
fn limited_rows(desk: &mut Desk, rows: &[(Side, i64, i64, u64, &str)]) -> Done {
    for &(side, low, high, size, class) in rows {
        let (side, steps) = desk.turn(side, low, high);
        let price = desk.raw_price(steps);
        desk.say(&format!("row {} {price} {size} {class}", order_word(side)))?;
    }
    Ok(())
}

fn ask_price(desk: &mut Desk) -> Done {
    let mode = desk.dice.pick(&["exchange", "routing"]);
    let (low, high) = match desk.dice.between(1, 14) {
        1 => (0, TOP),
        2 => (desk.raw_price(1), desk.raw_price(-1)),
        3 => (desk.raw_price(0), desk.raw_price(0)),
        4 => (0, 0),
        _ => {
            let (low, high) = (-desk.dice.around(8).abs(), desk.dice.around(8).abs());
            (desk.raw_price(low), desk.raw_price(high))
        }
    };
    let close = match desk.dice.between(1, 3) {
        1 => 0,
        2 => desk.dice.pick(&[1, TOP]),
        _ => {
            let steps = desk.dice.around(6);
            desk.raw_price(steps)
        }
    };
    desk.say(&format!("price {mode} {low} {high} {close}"))?;
    Ok(())
}

fn wrong_price_line(desk: &mut Desk) -> Done {
    let line = desk.dice.pick(&[
        "row buy 100 0 other",
        "row buy 100 1000001 other",
        "row buy 0 5 other",
        "row sell 100001 5 other",
        "row bid 100 5 other",
        "row buy 100 5",
        "row buy 100 5 other 5",
        "rows",
        "rows 0",
        "price exchange 100 110",
        "price both 100 110 0",
        "price routing 100 110 none",
        "price routing 100 4294967296 0",
    ]);
    desk.say(line)?;
    Ok(())
}

fn ranges_block(desk: &mut Desk) -> Done {
    set_market(desk)?;
    for _ in 0..desk.dice.between(2, 6) {
        ask_ranges(desk)?;
    }
    for _ in 0..desk.dice.between(1, 4) {
        ask_valid(desk)?;
    }
    if desk.dice.chance(15) {
        let line = desk.dice.pick(&[
            "ranges 100",
            "ranges 100 110 120",
            "ranges none 110",
            "valid 100",
            "valid 100 -110",
        ]);
        desk.say(line)?;
    }
    Ok(())
}

fn ask_ranges(desk: &mut Desk) -> Done {
    let steps = desk.dice.around(8);
    let bid = if desk.dice.chance(12) { 0 } else { desk.raw_price(steps) };
    let width = match desk.dice.between(1, 5) {
        1 => desk.dice.pick(&[25, 26, 40, 41, 50, 51, 80, 81, 100, 101]),
        2 => -desk.dice.around(12).abs(),
        3 => 0,
        _ => desk.dice.around(30).abs(),
    };
    let offer = (bid as i64 + width).clamp(1, TOP as i64);
    desk.say(&format!("ranges {bid} {offer}"))?;
    Ok(())
}

/// A quote around a width that is just valid.
fn ask_valid(desk: &mut Desk) -> Done {
    let bid = desk.dice.pick(&[0, 1, 100, 198, 199, 200, 499, 500, 999, 1_000, 1_999, 2_000, 50_000, 99_900]);
    let width = desk.dice.pick(&[50, 80, 100, 160, 200]) as i64 + desk.dice.around(1);
    let width = if desk.dice.chance(15) { desk.dice.around(120) } else { width };
    let offer = (bid as i64 + width).clamp(1, TOP as i64);
    desk.say(&format!("valid {bid} {offer}"))?;
    Ok(())
}
