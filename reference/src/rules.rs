//! Bounds, sides, classes, limits, ladders and the table of bands.

/// The highest price; the lowest is 1.
pub const TOP: u64 = 100_000;
/// The largest size of an order, of a side of a quote and of an away entry.
pub const LARGEST: u64 = 1_000_000;
/// The last millisecond a tick may name.
pub const DAY_END: u64 = 86_400_000;
/// Before this millisecond every tick waits with reason 1.
pub const DAY_START: u64 = 34_200_000;
/// This many orders stand together at most.
pub const MOST_ORDERS: usize = 96;
/// Makers are numbered from 1 to this.
pub const MAKERS: u64 = 16;

pub fn is_price(price: u64) -> bool {
    (1..=TOP).contains(&price)
}

pub fn is_size(size: u64) -> bool {
    (1..=LARGEST).contains(&size)
}

/// The side of an order or quote row, and of an away entry: an away bid is a buy.
#[derive(Clone, Copy, PartialEq, Eq, Debug)]
pub enum Side {
    Buy,
    Sell,
}

pub const SIDES: [Side; 2] = [Side::Buy, Side::Sell];

impl Side {
    pub fn other(self) -> Side {
        match self {
            Side::Buy => Side::Sell,
            Side::Sell => Side::Buy,
        }
    }

    /// Place in a pair of one number a side.
    pub fn index(self) -> usize {
        match self {
            Side::Buy => 0,
            Side::Sell => 1,
        }
    }

    /// As printed in messages; 0 is for neither side.
    pub fn number(self) -> u64 {
        match self {
            Side::Buy => 1,
            Side::Sell => 2,
        }
    }

    /// Whether interest limited at `limit` is good at `price`.
    pub fn reaches(self, limit: u64, price: u64) -> bool {
        match self {
            Side::Buy => limit >= price,
            Side::Sell => limit <= price,
        }
    }

    /// The next cent on the better side of `price`: higher bids, lower offers.
    pub fn one_better(self, price: u64) -> u64 {
        match self {
            Side::Buy => price + 1,
            Side::Sell => price - 1,
        }
    }

    /// The price at which a market row of this side accepts anything.
    pub fn furthest(self) -> u64 {
        match self {
            Side::Buy => TOP,
            Side::Sell => 1,
        }
    }

    /// The better of two prices of this side.
    pub fn better_of(self, one: u64, two: u64) -> u64 {
        if self.reaches(one, two) {
            one
        } else {
            two
        }
    }
}

#[derive(Clone, Copy, PartialEq, Eq, Debug)]
pub enum Class {
    Routable,
    Fixed,
    Other,
}

impl Class {
    pub fn is_customer(self) -> bool {
        self != Class::Other
    }
}

#[derive(Clone, Copy, PartialEq, Eq, Debug)]
pub enum Limit {
    Market,
    At(u64),
}

/// The permitted prices.
#[derive(Clone, Copy, PartialEq, Eq, Debug)]
pub enum Ladder {
    Cent,
    Stepped,
}

impl Ladder {
    pub fn permits(self, price: u64) -> bool {
        let on_step = match self {
            Ladder::Cent => true,
            Ladder::Stepped => price < 300 || price % 5 == 0,
        };
        is_price(price) && on_step
    }

    /// The least permitted price at or above a price.
    pub fn at_or_above(self, price: u64) -> Option<u64> {
        if !is_price(price) {
            return None;
        }
        (price..=TOP).find(|&p| self.permits(p))
    }

    /// The greatest permitted price at or below a price.
    pub fn at_or_below(self, price: u64) -> Option<u64> {
        if !is_price(price) {
            return None;
        }
        (1..=price).rev().find(|&p| self.permits(p))
    }

    /// The nearest permitted price on the worse side of `price` for `side`.
    pub fn one_worse(self, side: Side, price: u64) -> Option<u64> {
        match side {
            Side::Buy => self.at_or_below(price - 1),
            Side::Sell => self.at_or_above(price + 1),
        }
    }
}

/// One column of the table of widths, which goes by the bid.
#[derive(Clone, Copy)]
pub struct Band {
    from: u64,
    pub valid: u64,
    pub quality: u64,
    pub amount: u64,
}

const BANDS: [Band; 5] = [
    Band { from: 0, valid: 50, quality: 25, amount: 10 },
    Band { from: 200, valid: 80, quality: 40, amount: 20 },
    Band { from: 500, valid: 100, quality: 50, amount: 25 },
    Band { from: 1_000, valid: 160, quality: 80, amount: 40 },
    Band { from: 2_000, valid: 200, quality: 100, amount: 50 },
];

/// The band a bid falls in.
pub fn band(bid: u64) -> Band {
    let mut found = BANDS[0];
    for candidate in BANDS {
        if candidate.from <= bid {
            found = candidate;
        }
    }
    found
}

/// Whether a quote is no wider than valid; one with its bid at or above its offer has no width.
pub fn is_valid_width(bid: u64, offer: u64) -> bool {
    offer.saturating_sub(bid) <= band(bid).valid
}

/// A quality market: not crossed, and within the quality width.
pub fn is_quality(bid: u64, offer: u64) -> bool {
    bid <= offer && offer - bid <= band(bid).quality
}
