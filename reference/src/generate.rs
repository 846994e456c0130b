//! Scripts of random mornings, biased to what is rare.

use crate::arrange::{arrange, away_prices, one_quote, pick_center, pick_theme, Theme};
use crate::audit::Violation;
use crate::desk::{order_word, Desk, Done};
use crate::engine::Stage;
use crate::nuisance::{refused_call, refused_make, silent_line, wrong_line};
use crate::orders::orders;
use crate::play::Answer;
use crate::rules::{Ladder, Side, DAY_START};

/// A tick that did not open is followed by at most this many more.
const PATIENCE: u64 = 40;

/// A script of `count` mornings.
pub fn mornings(seed: u64, count: u64) -> Result<String, Violation> {
    let mut desk = Desk::new(seed);
    before_any_make(&mut desk)?;
    for place in 1..=count {
        morning(&mut desk, place)?;
    }
    Ok(desk.script)
}

fn before_any_make(desk: &mut Desk) -> Done {
    for line in
        ["enter 1 buy 100 5 other", "withdraw 1", "quote 1 100 5 110 5", "pull 1", "tick 34200000 none"]
    {
        desk.say(line)?;
    }
    for line in ["read order 1", "read quote 1 bid", "show", "away bid 100 5", "enter 1 buy", "firm on"] {
        desk.say(line)?;
    }
    refused_make(desk)?;
    desk.say("read order 1")?;
    Ok(())
}

fn morning(desk: &mut Desk, place: u64) -> Done {
    let theme = pick_theme(desk);
    desk.remark(&format!("# morning {place}: {theme:?}"));
    begin(desk, theme)?;
    if desk.dice.chance(35) {
        too_early(desk)?;
    }
    arrange(desk, theme)?;
    for _ in 0..desk.dice.between(0, 3) {
        disturbance(desk)?;
    }
    if desk.dice.chance(15) {
        read_all(desk)?;
    }
    run(desk, theme)?;
    read_all(desk)?;
    maybe_show(desk, 35)?;
    too_late(desk)
}

fn begin(desk: &mut Desk, theme: Theme) -> Done {
    desk.numbers.clear();
    desk.makers.clear();
    desk.center = pick_center(desk, theme);
    desk.now = 0;
    desk.opened = DAY_START - 2_000 + desk.dice.between(0, 4_000);
    let stepped = if theme == Theme::Aside { 75 } else { 50 };
    desk.ladder = if desk.dice.chance(stepped) { Ladder::Stepped } else { Ladder::Cent };
    let ladder = if desk.ladder == Ladder::Cent { "cent" } else { "stepped" };
    let rule = desk.dice.pick(&["time", "prorata"]);
    let close = match desk.dice.between(1, 4) {
        1 => 0,
        2 => desk.dice.pick(&[1, 301, 100_000]),
        _ => {
            let steps = desk.dice.around(6);
            desk.raw_price(steps)
        }
    };
    let underlying = desk.dice.pick(&[100, 250, 1_000, 5_000]);
    let window = desk.dice.pick(&[1, 500, 3_000, 120_000]);
    let imbalance = desk.dice.pick(&[1, 10, 500, 3_000]);
    let route = desk.dice.pick(&[1, 10, 200, 1_000]);
    let extra = desk.dice.pick(&[0, 0, 1, 2, 3, 4, 4]);
    desk.say(&format!("make {ladder} {rule} {close} {underlying} {window} {imbalance} {route} {extra}"))?;
    Ok(())
}

/// Ticks that can only wait or be refused.
fn too_early(desk: &mut Desk) -> Done {
    let time = DAY_START - desk.dice.pick(&[1, 1, 1_000, 30_000_000]);
    let opened = desk.dice.pick(&[Some(desk.opened), Some(time), None]);
    desk.tick(time, opened)?;
    if desk.dice.chance(30) {
        desk.tick(time - 1, None)?;
    }
    if desk.dice.chance(50) {
        desk.tick(DAY_START, None)?;
    }
    if desk.dice.chance(50) {
        let time = desk.opened.max(desk.now).max(DAY_START);
        desk.tick(time, Some(desk.opened))?;
    }
    Ok(())
}

fn maybe_show(desk: &mut Desk, percent: u64) -> Done {
    if desk.dice.chance(percent) {
        desk.say("show")?;
    }
    Ok(())
}

/// Ticks until the series opens, with changes in between.
fn run(desk: &mut Desk, theme: Theme) -> Done {
    for _ in 0..PATIENCE {
        if desk.is_open() {
            return Ok(());
        }
        if desk.stage() != Stage::Waiting && desk.dice.chance(7) {
            stop(desk)?;
        }
        if desk.dice.chance(18) {
            stir(desk, theme)?;
        }
        if matches!(desk.stage(), Stage::Routing { .. } | Stage::Extra { .. }) && desk.dice.chance(11) {
            relieve(desk)?;
        }
        maybe_show(desk, 12)?;
        let time = next_time(desk);
        let answer = desk.tick(time, Some(desk.opened))?;
        if let Answer::Waits(reason) = answer {
            mend(desk, theme, reason)?;
        }
    }
    Ok(())
}

/// Large orders on both sides at one price, which end an imbalance.
fn relieve(desk: &mut Desk) -> Done {
    let steps = desk.dice.around(4);
    for side in [Side::Buy, Side::Sell] {
        let class = desk.class();
        desk.order(side, steps, 1_000_000, class)?;
    }
    Ok(())
}

/// The moment of the next tick: often right at a deadline or one millisecond before it.
fn next_time(desk: &mut Desk) -> u64 {
    let due = match desk.stage().deadline() {
        Some(deadline) => deadline,
        None if desk.dice.chance(25) => DAY_START.max(desk.opened + quote_window(desk)),
        None => DAY_START.max(desk.opened + underlying_setting(desk)),
    };
    let later = desk.dice.between(1, 700);
    let time = match desk.dice.between(1, 10) {
        1 => due - 1,
        2 => desk.now + later / 7,
        3 => due + later,
        4 => due + 1,
        _ => due,
    };
    time.max(desk.now).max(desk.opened)
}

fn underlying_setting(desk: &Desk) -> u64 {
    desk.player.auction().map_or(0, |auction| auction.settings().underlying)
}

fn quote_window(desk: &Desk) -> u64 {
    desk.player.auction().map_or(0, |auction| auction.settings().window)
}

/// Something that makes the next tick wait though the stage had moved on.
fn stop(desk: &mut Desk) -> Done {
    match desk.dice.between(1, 4) {
        1 => {
            let time = desk.now + desk.dice.between(0, 20);
            desk.tick(time, None)?;
        }
        2 => desk.opened = desk.now,
        3 => cross_away(desk)?,
        _ => pull_everyone(desk)?,
    }
    Ok(())
}

fn cross_away(desk: &mut Desk) -> Done {
    let (bid, offer) = (desk.raw_price(2), desk.raw_price(1));
    desk.say("firm on")?;
    desk.away(Side::Buy, bid, 5)?;
    desk.away(Side::Sell, offer, 5)?;
    Ok(())
}

fn pull_everyone(desk: &mut Desk) -> Done {
    for maker in desk.makers.clone() {
        desk.say(&format!("pull {maker}"))?;
    }
    Ok(())
}

/// Lifts the reason a tick gave for waiting, most of the time.
fn mend(desk: &mut Desk, theme: Theme, reason: u64) -> Done {
    if desk.dice.chance(15) {
        return Ok(());
    }
    match reason {
        3 => {
            desk.say("depth clear")?;
            let side = desk.side();
            desk.away(side, 0, 0)?;
        }
        4 => {
            let maker = desk.dice.pick(&[1, 2, 2, 3, 16]);
            one_quote(desk, theme, maker, 50)?;
        }
        _ => {}
    }
    Ok(())
}

/// One change between ticks.
fn stir(desk: &mut Desk, theme: Theme) -> Done {
    match desk.dice.between(1, 9) {
        1 => orders(desk, if theme == Theme::Crowd { Theme::Cross } else { theme })?,
        2 | 3 => withdraw_one(desk)?,
        4 => {
            let (maker, shape) = (desk.dice.between(1, 16), desk.dice.between(1, 100));
            one_quote(desk, theme, maker, shape)?;
        }
        5 => away_prices(desk, theme)?,
        6 => {
            let firm = desk.dice.pick(&["firm on", "firm off", "depth clear"]);
            desk.say(firm)?;
        }
        7 => {
            let (side, steps, size, class) = (desk.side(), desk.dice.around(6), desk.size(), desk.class());
            desk.order(side, steps, size, class)?;
        }
        _ => disturbance(desk)?,
    }
    Ok(())
}

/// Takes an order back; at times the number is used again at once.
fn withdraw_one(desk: &mut Desk) -> Done {
    if desk.numbers.is_empty() {
        return Ok(());
    }
    let number = desk.dice.pick(&desk.numbers.clone());
    desk.say(&format!("withdraw {number}"))?;
    if desk.dice.chance(50) {
        let (side, size, class) = (order_word(desk.side()), desk.size(), desk.class());
        let steps = desk.dice.around(6);
        let price = desk.price_at(steps);
        desk.say(&format!("enter {number} {side} {price} {size} {class}"))?;
    }
    Ok(())
}

/// A line that changes nothing, or a quote replaced or pulled.
fn disturbance(desk: &mut Desk) -> Done {
    match desk.dice.between(1, 10) {
        1..=5 => {
            refused_call(desk)?;
        }
        6 => {
            wrong_line(desk)?;
        }
        7 => silent_line(desk)?,
        8 if !desk.makers.is_empty() => {
            let maker = desk.dice.pick(&desk.makers.clone());
            desk.say(&format!("pull {maker}"))?;
        }
        9 => {
            let number = desk.dice.pick(&[0, 1, 5, 4_294_967_295u64]);
            desk.say(&format!("read order {number}"))?;
        }
        _ => withdraw_one(desk)?,
    }
    Ok(())
}

/// Reads every order number named this morning and both sides of every maker that quoted.
fn read_all(desk: &mut Desk) -> Done {
    for number in desk.numbers.clone() {
        desk.say(&format!("read order {number}"))?;
    }
    let mut makers = desk.makers.clone();
    if desk.dice.chance(15) {
        makers = (0..=17).collect();
    }
    for maker in makers {
        desk.say(&format!("read quote {maker} bid"))?;
        desk.say(&format!("read quote {maker} offer"))?;
    }
    Ok(())
}

/// Calls on a series that is open, and away counts that show what was sent.
fn too_late(desk: &mut Desk) -> Done {
    if !desk.dice.chance(40) {
        return Ok(());
    }
    for _ in 0..desk.dice.between(1, 3) {
        refused_call(desk)?;
    }
    let (now, opened) = (desk.now, desk.opened);
    let tick = desk.dice.pick(&[Some(opened), None]);
    desk.tick(now, tick)?;
    Ok(())
}
