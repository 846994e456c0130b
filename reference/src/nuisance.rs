//! Lines that are refused or not understood.

use crate::desk::{order_word, Desk, Done, Said};
use crate::rules::{Ladder, Side, DAY_END, TOP};

/// A make with one setting just outside its bounds.
pub fn refused_make(desk: &mut Desk) -> Said {
    let mut settings = [0, 1_000, 2_000, 500, 200, 2];
    let (place, value) = desk.dice.pick(&[
        (0, TOP + 1),
        (1, 99),
        (1, 5_001),
        (2, 0),
        (2, 120_001),
        (3, 0),
        (3, 3_001),
        (4, 0),
        (4, 1_001),
        (5, 5),
        (5, 4_294_967_295),
    ]);
    settings[place] = value;
    let words = settings.map(|setting: u64| setting.to_string()).join(" ");
    let (ladder, rule) = (desk.dice.pick(&["cent", "stepped"]), desk.dice.pick(&["time", "prorata"]));
    desk.say(&format!("make {ladder} {rule} {words}"))
}

/// A call meant to be refused, sometimes for more than one cause at once.
pub fn refused_call(desk: &mut Desk) -> Said {
    match desk.dice.between(1, 12) {
        1 => refused_make(desk),
        2 => wrong_number(desk),
        3 => wrong_time(desk),
        4 => wrong_maker(desk),
        5 => wrong_size(desk),
        6 => wrong_price(desk),
        7 => wrong_standing(desk),
        8 => nothing_standing(desk),
        9 | 10 => wrong_bid(desk),
        _ => too_wide(desk),
    }
}

fn wrong_time(desk: &mut Desk) -> Said {
    match desk.dice.between(1, 4) {
        1 => desk.tick(DAY_END + 1, Some(desk.opened)),
        2 if desk.now > 0 => desk.tick(desk.now - 1, Some(desk.opened.min(desk.now - 1))),
        3 => desk.tick(desk.now.max(1), Some(desk.now.max(1) + 1)),
        _ => desk.tick(desk.now, Some(4_294_967_295)),
    }
}

fn wrong_number(desk: &mut Desk) -> Said {
    let size = desk.dice.pick(&[0, 1, 10, 1_000_001]);
    let price = desk.dice.pick(&[0, 100, 100_001]);
    match desk.dice.between(1, 2) {
        1 => desk.say(&format!("enter 0 buy {price} {size} other")),
        _ => desk.say("withdraw 0"),
    }
}

fn wrong_maker(desk: &mut Desk) -> Said {
    let maker = desk.dice.pick(&[0, 17, 4_294_967_295u64]);
    match desk.dice.between(1, 3) {
        1 => desk.say(&format!("pull {maker}")),
        2 => desk.say(&format!("quote {maker} 0 7 0 0")),
        _ => desk.say(&format!("quote {maker} 100 5 110 5")),
    }
}

fn wrong_size(desk: &mut Desk) -> Said {
    let maker = desk.dice.between(1, 16);
    let price = desk.price_at(0);
    let number = standing_or_fresh(desk);
    match desk.dice.between(1, 6) {
        1 => desk.say(&format!("enter {number} sell {price} 0 fixed")),
        2 => desk.say(&format!("enter {number} buy 100001 1000001 routable")),
        3 => desk.say(&format!("quote {maker} 0 3 {price} 5")),
        4 => desk.say(&format!("quote {maker} {price} 0 {price} 5")),
        5 => desk.say(&format!("quote {maker} {price} 5 0 0")),
        _ => desk.say(&format!("quote {maker} {price} 1000001 {price} 5")),
    }
}

fn wrong_price(desk: &mut Desk) -> Said {
    let maker = desk.dice.between(1, 16);
    let number = standing_or_fresh(desk);
    let off = off_ladder(desk);
    match desk.dice.between(1, 5) {
        1 => desk.say(&format!("enter {number} buy {off} 5 other")),
        2 => desk.say(&format!("enter {number} sell {off} 5 routable")),
        3 => desk.say(&format!("quote {maker} 0 0 {off} 5")),
        4 => desk.say(&format!("quote {maker} {off} 5 {off} 5")),
        _ => desk.say(&format!("quote {maker} 100001 5 100 5")),
    }
}

fn off_ladder(desk: &mut Desk) -> u64 {
    match desk.ladder {
        Ladder::Cent => desk.dice.pick(&[0, TOP + 1, 4_294_967_295]),
        Ladder::Stepped => desk.dice.pick(&[0, 301, 304, 99_999, TOP + 1]),
    }
}

/// An order under a number that most likely stands.
pub fn wrong_standing(desk: &mut Desk) -> Said {
    let number = standing_or_fresh(desk);
    let side = order_word(desk.side());
    let price = desk.price_at(0);
    desk.say(&format!("enter {number} {side} {price} 4 other"))
}

fn nothing_standing(desk: &mut Desk) -> Said {
    let number = desk.fresh_number();
    let makers: Vec<u64> = (1..=16).filter(|maker| !desk.makers.contains(maker)).collect();
    if makers.is_empty() || desk.dice.chance(50) {
        return desk.say(&format!("withdraw {number}"));
    }
    let maker = desk.dice.pick(&makers);
    desk.say(&format!("pull {maker}"))
}

fn wrong_bid(desk: &mut Desk) -> Said {
    let maker = desk.dice.between(1, 16);
    let steps = desk.dice.pick(&[0, 0, 1, 60]);
    let (bid, offer) = (desk.price_at(steps), desk.price_at(0));
    desk.say(&format!("quote {maker} {bid} 5 {offer} 5"))
}

/// A quote just wider than valid, or just valid.
fn too_wide(desk: &mut Desk) -> Said {
    let maker = desk.dice.between(2, 16);
    let (bid, width) = desk.dice.pick(&[
        (0, 50),
        (195, 50),
        (199, 50),
        (200, 80),
        (499, 80),
        (500, 100),
        (995, 100),
        (1_000, 160),
        (1_995, 160),
        (2_000, 200),
        (99_795, 200),
    ]);
    let offer = bid + width + desk.dice.pick(&[1, 1, 5]);
    let bid_size = if bid == 0 { 0 } else { 5 };
    desk.say(&format!("quote {maker} {bid} {bid_size} {offer} 5"))
}

fn standing_or_fresh(desk: &mut Desk) -> u64 {
    if desk.numbers.is_empty() || desk.dice.chance(20) {
        return desk.fresh_number();
    }
    desk.dice.pick(&desk.numbers.clone())
}

const WRONG_LINES: [&str; 34] = [
    "enter 5 buy 100 10",
    "enter 5 buy 100 10 other more",
    "enter 5 bid 100 10 other",
    "enter 5 buy 100 10 customer",
    "enter 5 buy best 10 other",
    "enter 4294967296 buy 100 10 other",
    "enter 5 buy 100 99999999999999999999999999 other",
    "enter -5 buy 100 10 other",
    "enter +5 buy 100 10 other",
    "enter 5 buy 100.5 10 other",
    "enter 5 buy 0x64 10 other",
    "Enter 5 buy 100 10 other",
    "withdraw",
    "withdraw 5 6",
    "withdraw all",
    "quote 1 100 5 110",
    "quote 1 100 5 110 5 5",
    "quote 1 none 0 110 5",
    "pull one",
    "tick",
    "tick 34200000",
    "tick none 34200000",
    "tick 34200000 later",
    "make cent time 0 1000 2000 500 200",
    "make cent time 0 1000 2000 500 200 2 2",
    "make penny time 0 1000 2000 500 200 2",
    "make cent size 0 1000 2000 500 200 2",
    "away buy 100 5",
    "away bid market 5",
    "depth bid 100",
    "depth empty",
    "firm maybe",
    "read order",
    "read maker 1 bid",
];

pub fn wrong_line(desk: &mut Desk) -> Said {
    let line = desk.dice.pick(&WRONG_LINES);
    desk.say(line)
}

/// An empty line or a remark.
pub fn silent_line(desk: &mut Desk) -> Done {
    let line = desk.dice.pick(&["", "   ", "\t", "# enter 5 buy 100 10 other", "  # indented", "#"]);
    desk.remark(line);
    Ok(())
}

/// One more order than may stand, under a fresh number.
pub fn one_too_many(desk: &mut Desk) -> Said {
    let number = desk.fresh_number();
    let price = desk.price_at(0);
    desk.say(&format!("enter {number} {} {price} 1 fixed", order_word(Side::Buy)))
}
