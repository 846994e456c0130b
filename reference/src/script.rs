//! Lines of a script read as calls.

use crate::engine::Settings;
use crate::price::{Mode, Range};
use crate::rules::{is_price, is_size, Class, Ladder, Limit, Side, TOP};
use crate::sharing::{Holder, Rule};

/// The largest number a line may hold.
pub const LARGEST_NUMBER: u64 = 4_294_967_295;
/// The most rows a `share` line may list.
pub const MOST_HOLDERS: usize = 128;
/// The widest range, in cents, that `curve` prints.
pub const LONGEST_CURVE: u64 = 1_000;

#[derive(Clone, Debug)]
pub enum Call {
    Make { ladder: Ladder, rule: Rule, settings: Settings },
    Enter { number: u64, side: Side, limit: Limit, size: u64, class: Class },
    Withdraw { number: u64 },
    Quote { maker: u64, bid: u64, bid_size: u64, offer: u64, offer_size: u64 },
    Pull { maker: u64 },
    Away { side: Side, price: u64, size: u64 },
    Depth { side: Side, price: u64, size: u64 },
    DepthClear,
    Firm { on: bool },
    Tick { time: u64, opened: Option<u64> },
    ReadOrder { number: u64 },
    ReadQuote { maker: u64, side: Side },
    Show,
    Share { rule: Rule, quantity: u64, holders: Vec<Holder> },
    Count { side: Side, price: u64 },
    Best { side: Side },
    Send { side: Side, price: u64, wanted: u64 },
    Row { side: Side, limit: Limit, size: u64, class: Class },
    RowsClear,
    Price { mode: Mode, range: Range, close: u64 },
    Curve { mode: Mode, range: Range },
    Ranges { bid: u64, offer: u64 },
    Valid { bid: u64, offer: u64 },
}

/// What a line holds.
pub enum Line {
    Nothing,
    Call(Call),
    NotUnderstood,
}

/// Reads one line, without its line end.
pub fn read_line(line: &str) -> Line {
    let words: Vec<&str> = line.split([' ', '\t', '\r']).filter(|word| !word.is_empty()).collect();
    match words.first() {
        None => Line::Nothing,
        Some(word) if word.starts_with('#') => Line::Nothing,
        Some(_) => read_call(&words).map_or(Line::NotUnderstood, Line::Call),
    }
}

fn read_call(words: &[&str]) -> Option<Call> {
    read_auction_call(words).or_else(|| read_away_call(words)).or_else(|| read_inspection(words))
}

fn read_auction_call(words: &[&str]) -> Option<Call> {
    Some(match *words {
        ["make", ladder, rule, ref settings @ ..] => Call::Make {
            ladder: read_ladder(ladder)?,
            rule: read_rule(rule)?,
            settings: read_settings(settings)?,
        },
        ["enter", number, side, limit, size, class] => Call::Enter {
            number: read_number(number)?,
            side: read_order_side(side)?,
            limit: read_limit(limit)?,
            size: read_number(size)?,
            class: read_class(class)?,
        },
        ["withdraw", number] => Call::Withdraw { number: read_number(number)? },
        ["quote", maker, bid, bid_size, offer, offer_size] => Call::Quote {
            maker: read_number(maker)?,
            bid: read_number(bid)?,
            bid_size: read_number(bid_size)?,
            offer: read_number(offer)?,
            offer_size: read_number(offer_size)?,
        },
        ["pull", maker] => Call::Pull { maker: read_number(maker)? },
        ["tick", time, opened] => Call::Tick { time: read_number(time)?, opened: read_opened(opened)? },
        ["read", "order", number] => Call::ReadOrder { number: read_number(number)? },
        ["read", "quote", maker, side] => {
            Call::ReadQuote { maker: read_number(maker)?, side: read_market_side(side)? }
        }
        ["show"] => Call::Show,
        _ => return None,
    })
}

fn read_away_call(words: &[&str]) -> Option<Call> {
    Some(match *words {
        ["away", side, price, size] => {
            Call::Away { side: read_market_side(side)?, price: read_number(price)?, size: read_number(size)? }
        }
        ["depth", "clear"] => Call::DepthClear,
        ["depth", side, price, size] => Call::Depth {
            side: read_market_side(side)?,
            price: read_number(price)?,
            size: read_number(size)?,
        },
        ["firm", "on"] => Call::Firm { on: true },
        ["firm", "off"] => Call::Firm { on: false },
        ["count", side, price] => Call::Count { side: read_market_side(side)?, price: read_number(price)? },
        ["best", side] => Call::Best { side: read_market_side(side)? },
        ["send", side, price, wanted] => Call::Send {
            side: read_market_side(side)?,
            price: read_number(price)?,
            wanted: read_number(wanted)?,
        },
        _ => return None,
    })
}

fn read_inspection(words: &[&str]) -> Option<Call> {
    Some(match *words {
        ["share", rule, quantity, ref holders @ ..] => Call::Share {
            rule: read_rule(rule)?,
            quantity: read_number(quantity)?,
            holders: read_holders(holders)?,
        },
        ["row", side, limit, size, class] => Call::Row {
            side: read_order_side(side)?,
            limit: read_limit(limit).filter(|&limit| limit_in_bounds(limit))?,
            size: read_number(size).filter(|&size| is_size(size))?,
            class: read_class(class)?,
        },
        ["rows", "clear"] => Call::RowsClear,
        ["price", mode, low, high, close] => Call::Price {
            mode: read_mode(mode)?,
            range: Range { low: read_price_or_zero(low)?, high: read_price_or_zero(high)? },
            close: read_price_or_zero(close)?,
        },
        ["curve", mode, low, high] => Call::Curve {
            mode: read_mode(mode)?,
            range: Some(Range { low: read_number(low)?, high: read_number(high)? })
                .filter(|range| range.high.saturating_sub(range.low) <= LONGEST_CURVE)?,
        },
        ["ranges", bid, offer] => Call::Ranges { bid: read_price_or_zero(bid)?, offer: read_price(offer)? },
        ["valid", bid, offer] => Call::Valid { bid: read_price_or_zero(bid)?, offer: read_price(offer)? },
        _ => return None,
    })
}

/// Decimal digits only.
fn read_number(word: &str) -> Option<u64> {
    if word.is_empty() || !word.bytes().all(|byte| byte.is_ascii_digit()) {
        return None;
    }
    let digits = word.trim_start_matches('0');
    if digits.is_empty() {
        return Some(0);
    }
    digits.parse().ok().filter(|&number| number <= LARGEST_NUMBER)
}

fn read_price(word: &str) -> Option<u64> {
    read_number(word).filter(|&price| is_price(price))
}

fn read_price_or_zero(word: &str) -> Option<u64> {
    read_number(word).filter(|&price| price <= TOP)
}

fn read_ladder(word: &str) -> Option<Ladder> {
    match word {
        "cent" => Some(Ladder::Cent),
        "stepped" => Some(Ladder::Stepped),
        _ => None,
    }
}

fn read_rule(word: &str) -> Option<Rule> {
    match word {
        "time" => Some(Rule::Time),
        "prorata" => Some(Rule::ProRata),
        _ => None,
    }
}

fn read_class(word: &str) -> Option<Class> {
    match word {
        "routable" => Some(Class::Routable),
        "fixed" => Some(Class::Fixed),
        "other" => Some(Class::Other),
        _ => None,
    }
}

fn read_mode(word: &str) -> Option<Mode> {
    match word {
        "exchange" => Some(Mode::Exchange),
        "routing" => Some(Mode::Routing),
        _ => None,
    }
}

fn read_order_side(word: &str) -> Option<Side> {
    match word {
        "buy" => Some(Side::Buy),
        "sell" => Some(Side::Sell),
        _ => None,
    }
}

fn read_market_side(word: &str) -> Option<Side> {
    match word {
        "bid" => Some(Side::Buy),
        "offer" => Some(Side::Sell),
        _ => None,
    }
}

fn read_limit(word: &str) -> Option<Limit> {
    match word {
        "market" => Some(Limit::Market),
        _ => read_number(word).map(Limit::At),
    }
}

fn limit_in_bounds(limit: Limit) -> bool {
    match limit {
        Limit::Market => true,
        Limit::At(price) => is_price(price),
    }
}

fn read_opened(word: &str) -> Option<Option<u64>> {
    match word {
        "none" => Some(None),
        _ => read_number(word).map(Some),
    }
}

fn read_settings(words: &[&str]) -> Option<Settings> {
    let [close, underlying, window, imbalance, route, extra] = *words else {
        return None;
    };
    Some(Settings {
        close: read_number(close)?,
        underlying: read_number(underlying)?,
        window: read_number(window)?,
        imbalance: read_number(imbalance)?,
        route: read_number(route)?,
        extra: read_number(extra)?,
    })
}

/// Pairs of class and size, at least one and at most `MOST_HOLDERS`.
fn read_holders(words: &[&str]) -> Option<Vec<Holder>> {
    let fits = !words.is_empty() && words.len() % 2 == 0 && words.len() / 2 <= MOST_HOLDERS;
    if !fits {
        return None;
    }
    words.chunks(2).map(read_holder).collect()
}

fn read_holder(pair: &[&str]) -> Option<Holder> {
    let [class, size] = *pair else {
        return None;
    };
    Some(Holder { class: read_class(class)?, size: read_number(size).filter(|&size| is_size(size))? })
}
