//! The generator's own seat at the exchange: it writes lines and plays them at once, so
//! that it knows stage and deadline when it picks the next line.

use crate::audit::Violation;
use crate::engine::Stage;
use crate::play::{Answer, Player};
use crate::random::Dice;
use crate::rules::{band, Ladder, Side, TOP};

pub type Said = Result<Answer, Violation>;
pub type Done = Result<(), Violation>;

/// Bids at which a new band begins.
const BAND_EDGES: [u64; 4] = [200, 500, 1_000, 2_000];

pub struct Desk {
    pub dice: Dice,
    pub player: Player,
    pub script: String,
    /// Order numbers named this morning, standing or not.
    pub numbers: Vec<u64>,
    /// Makers that quoted this morning.
    pub makers: Vec<u64>,
    pub ladder: Ladder,
    /// The price the morning turns around.
    pub center: u64,
    /// Whether the theme is played with buys and sells exchanged.
    pub mirrored: bool,
    /// Whether quotes are of a few contracts only.
    pub thin_quotes: bool,
    pub now: u64,
    pub opened: u64,
}

impl Desk {
    pub fn new(seed: u64) -> Desk {
        Desk {
            dice: Dice::new(seed),
            player: Player::new(),
            script: String::new(),
            numbers: Vec::new(),
            makers: Vec::new(),
            ladder: Ladder::Cent,
            center: 100,
            mirrored: false,
            thin_quotes: false,
            now: 0,
            opened: 0,
        }
    }

    /// Writes a line and plays it; once in a while with odd blanks.
    pub fn say(&mut self, line: &str) -> Said {
        let written = if self.dice.chance(1) { self.with_odd_blanks(line) } else { line.to_string() };
        self.script.push_str(&written);
        self.script.push('\n');
        Ok(self.player.play_line(&written)?.unwrap_or(Answer::NotUnderstood))
    }

    fn with_odd_blanks(&mut self, line: &str) -> String {
        let blank = self.dice.pick(&["  ", "\t", " \t "]);
        let inside = line.split(' ').collect::<Vec<_>>().join(blank);
        format!("{}{inside}{}", self.dice.pick(&["", " ", "\t"]), self.dice.pick(&["", "  ", "\t"]))
    }

    /// A line that is no call and prints nothing.
    pub fn remark(&mut self, text: &str) {
        self.script.push_str(text);
        self.script.push('\n');
    }

    pub fn stage(&self) -> Stage {
        self.player.auction().map_or(Stage::Waiting, |auction| auction.stage())
    }

    pub fn is_open(&self) -> bool {
        self.stage() == Stage::Open
    }

    /// Cents between neighbouring permitted prices here.
    pub fn unit(&self) -> i64 {
        match self.ladder {
            Ladder::Cent => 1,
            Ladder::Stepped if self.center < 300 => 1,
            Ladder::Stepped => 5,
        }
    }

    /// The permitted price some steps from the center, or nearly always so.
    pub fn price_at(&mut self, steps: i64) -> u64 {
        let price = self.raw_price(steps);
        if self.dice.chance(1) {
            return price;
        }
        self.ladder.at_or_below(price).unwrap_or(1)
    }

    /// A price some steps from the center, on the ladder or not.
    pub fn raw_price(&self, steps: i64) -> u64 {
        (self.center as i64 + steps * self.unit()).clamp(1, TOP as i64) as u64
    }

    pub fn size(&mut self) -> u64 {
        match self.dice.between(1, 20) {
            1 => 1_000_000,
            2 => self.dice.between(1, 1_000_000),
            3 | 4 => self.dice.between(1, 200),
            _ => self.dice.pick(&[1, 2, 3, 5, 10, 10, 20, 25, 30, 50, 100]),
        }
    }

    /// Sizes that are likely to be unequal, small and shared in part.
    pub fn small_size(&mut self) -> u64 {
        self.dice.between(1, 12)
    }

    pub fn fresh_number(&mut self) -> u64 {
        loop {
            let number = match self.dice.between(1, 12) {
                1 => 4_294_967_295 - self.dice.between(0, 3),
                2 => self.dice.between(1, 4_294_967_295),
                _ => self.dice.between(1, 400),
            };
            if !self.numbers.contains(&number) {
                return number;
            }
        }
    }

    pub fn enter(&mut self, side: Side, price: &str, size: u64, class: &str) -> Said {
        let again = !self.numbers.is_empty() && self.dice.chance(2);
        let number = if again { self.dice.pick(&self.numbers.clone()) } else { self.fresh_number() };
        if !self.numbers.contains(&number) {
            self.numbers.push(number);
        }
        let side = order_word(side);
        self.say(&format!("enter {number} {side} {price} {size} {class}"))
    }

    /// An order some steps from the center.
    pub fn order(&mut self, side: Side, steps: i64, size: u64, class: &str) -> Said {
        let price = self.price_at(steps).to_string();
        self.enter(side, &price, size, class)
    }

    pub fn quote(&mut self, maker: u64, bid: u64, bid_size: u64, offer: u64, offer_size: u64) -> Said {
        if !self.makers.contains(&maker) {
            self.makers.push(maker);
        }
        self.say(&format!("quote {maker} {bid} {bid_size} {offer} {offer_size}"))
    }

    /// A quote by steps from the center, brought within the valid width.
    pub fn quote_steps(&mut self, maker: u64, below: i64, above: i64) -> Said {
        let offer = self.price_at(above);
        let widest = widest_bid(offer);
        let edge = BAND_EDGES.into_iter().find(|&edge| widest <= edge && edge < offer);
        let bid = match edge {
            Some(edge) if self.dice.chance(25) => edge,
            _ => self.price_at(-below).min(offer - 1).max(widest),
        };
        let bid = self.ladder.at_or_above(bid).filter(|&bid| bid < offer).unwrap_or(0);
        let bid_size = if bid == 0 { 0 } else { self.quote_size() };
        let offer_size = self.quote_size();
        self.quote(maker, bid, bid_size, offer, offer_size)
    }

    fn quote_size(&mut self) -> u64 {
        if self.thin_quotes {
            self.dice.between(1, 3)
        } else {
            self.size()
        }
    }

    pub fn away(&mut self, side: Side, price: u64, size: u64) -> Said {
        self.say(&format!("away {} {price} {size}", market_word(side)))
    }

    pub fn depth(&mut self, side: Side, price: u64, size: u64) -> Said {
        self.say(&format!("depth {} {price} {size}", market_word(side)))
    }

    pub fn tick(&mut self, time: u64, opened: Option<u64>) -> Said {
        let opened = opened.map_or("none".to_string(), |opened| opened.to_string());
        let answer = self.say(&format!("tick {time} {opened}"))?;
        if !matches!(answer, Answer::Refused(_)) {
            self.now = time;
        }
        Ok(answer)
    }

    /// A side with steps from `low` to `high`, both exchanged if the theme is mirrored.
    pub fn turn(&mut self, side: Side, low: i64, high: i64) -> (Side, i64) {
        let steps = low + self.dice.between(0, (high - low) as u64) as i64;
        if self.mirrored {
            (side.other(), -steps)
        } else {
            (side, steps)
        }
    }

    pub fn class(&mut self) -> &'static str {
        self.dice.pick(&["routable", "fixed", "other"])
    }

    pub fn unroutable(&mut self) -> &'static str {
        self.dice.pick(&["fixed", "other", "other"])
    }

    pub fn side(&mut self) -> Side {
        self.dice.pick(&[Side::Buy, Side::Sell])
    }
}

/// The lowest bid of a valid quote with an offer.
fn widest_bid(offer: u64) -> u64 {
    (offer.saturating_sub(200)..=offer).find(|&bid| offer - bid <= band(bid).valid).unwrap_or(offer)
}

pub fn order_word(side: Side) -> &'static str {
    match side {
        Side::Buy => "buy",
        Side::Sell => "sell",
    }
}

pub fn market_word(side: Side) -> &'static str {
    match side {
        Side::Buy => "bid",
        Side::Sell => "offer",
    }
}
