//! The auction of one series: orders, quotes and stages.

use crate::audit::{self, Before, Ledger, Violation};
use crate::book::Row;
use crate::market::Away;
use crate::opening::{Clearing, Decision, Report};
use crate::price::{greatest_crossing, Choice, Mode, Range, View};
use crate::ranges::Tops;
use crate::rules::{
    is_price, is_size, is_valid_width, Class, Ladder, Limit, Side, DAY_END, DAY_START, MAKERS, MOST_ORDERS,
    TOP,
};
use crate::sharing::Rule;

/// The number of a cause in the table of refusals.
pub type Cause = u64;

#[derive(Clone, Copy, PartialEq, Debug)]
pub struct Settings {
    pub close: u64,
    pub underlying: u64,
    pub window: u64,
    pub imbalance: u64,
    pub route: u64,
    pub extra: u64,
}

impl Settings {
    fn in_bounds(&self) -> bool {
        self.close <= TOP
            && (100..=5_000).contains(&self.underlying)
            && (1..=120_000).contains(&self.window)
            && (1..=3_000).contains(&self.imbalance)
            && (1..=1_000).contains(&self.route)
            && self.extra <= 4
    }
}

#[derive(Clone, Copy, PartialEq, Eq, Debug)]
pub enum Stage {
    Waiting,
    Gathering { deadline: u64 },
    Routing { deadline: u64 },
    Extra { deadline: u64 },
    Open,
}

impl Stage {
    pub fn deadline(self) -> Option<u64> {
        match self {
            Stage::Gathering { deadline } | Stage::Routing { deadline } | Stage::Extra { deadline } => {
                Some(deadline)
            }
            Stage::Waiting | Stage::Open => None,
        }
    }
}

#[derive(Clone, Copy, Debug)]
pub enum TickAnswer {
    Waits(u64),
    Holds,
    Message { number: u64, choice: Option<Choice> },
    Opened(Report),
}

/// A call's answer, or the cause of its refusal.
pub type Called<T> = Result<T, Cause>;

#[derive(Clone, PartialEq)]
struct Quote {
    bid: u64,
    offer: u64,
    /// A bid of 0 makes no row.
    buy: Option<Row>,
    sell: Row,
}

impl Quote {
    fn contracts(&self) -> [u64; 2] {
        [self.buy.as_ref().map_or(0, |row| row.left), self.sell.left]
    }
}

#[derive(Clone, PartialEq)]
pub struct Auction {
    ladder: Ladder,
    rule: Rule,
    settings: Settings,
    orders: Vec<(u64, Row)>,
    quotes: Vec<Option<Quote>>,
    stage: Stage,
    extra_left: u64,
    last_tick: u64,
    ledger: Ledger,
    shared_levels: u64,
}

impl Auction {
    pub fn make(ladder: Ladder, rule: Rule, settings: Settings) -> Result<Auction, Cause> {
        if !settings.in_bounds() {
            return Err(1);
        }
        Ok(Auction {
            ladder,
            rule,
            settings,
            orders: Vec::new(),
            quotes: vec![None; MAKERS as usize],
            stage: Stage::Waiting,
            extra_left: settings.extra,
            last_tick: 0,
            ledger: Ledger::default(),
            shared_levels: 0,
        })
    }

    pub fn stage(&self) -> Stage {
        self.stage
    }

    pub fn ladder(&self) -> Ladder {
        self.ladder
    }

    pub fn rule(&self) -> Rule {
        self.rule
    }

    pub fn settings(&self) -> Settings {
        self.settings
    }

    pub fn extra_left(&self) -> u64 {
        self.extra_left
    }

    /// Whether some maker quotes.
    pub fn is_quoted(&self) -> bool {
        self.quotes.iter().any(Option::is_some)
    }

    /// Rows in row order, each with the name of its owner.
    pub fn owned_rows(&self) -> Vec<(String, Row)> {
        let orders = self.orders.iter().map(|(number, row)| (format!("order {number}"), row.clone()));
        let quotes = (1..=MAKERS).zip(&self.quotes).flat_map(|(maker, quote)| {
            let sides = quote.iter().flat_map(|quote| quote.buy.iter().chain([&quote.sell]).cloned());
            sides.map(move |row| (format!("quote {maker}"), row))
        });
        orders.chain(quotes).collect()
    }

    /// Levels of two rows or more that the opening filled in part.
    pub fn shared_levels(&self) -> u64 {
        self.shared_levels
    }

    /// Rows in row order: orders as accepted, then quotes by maker.
    pub fn rows(&self) -> Vec<Row> {
        let orders = self.orders.iter().map(|(_, row)| row.clone());
        let quotes = self.quotes.iter().flatten();
        let sides = quotes.flat_map(|quote| quote.buy.iter().chain([&quote.sell]).cloned());
        orders.chain(sides).collect()
    }

    fn put_back(&mut self, rows: Vec<Row>) {
        let mut rows = rows.into_iter();
        let orders = self.orders.iter_mut().map(|(_, row)| row);
        let quotes = self.quotes.iter_mut().flatten();
        let sides = quotes.flat_map(|quote| quote.buy.iter_mut().chain([&mut quote.sell]));
        for (place, row) in orders.chain(sides).zip(&mut rows) {
            *place = row;
        }
    }

    pub fn enter(&mut self, number: u64, side: Side, limit: Limit, size: u64, class: Class) -> Called<u64> {
        let off_ladder = match limit {
            Limit::Market => false,
            Limit::At(price) => !self.ladder.permits(price),
        };
        if let Some(cause) = first_cause(&[
            (self.stage == Stage::Open, 2),
            (number == 0, 4),
            (!is_size(size), 5),
            (off_ladder, 6),
            (self.find(number).is_some(), 7),
            (self.orders.len() >= MOST_ORDERS, 9),
        ]) {
            return Err(cause);
        }
        self.orders.push((number, Row::new(side, limit, size, class)));
        self.ledger.accepted[side.index()] += size;
        Ok(size)
    }

    pub fn withdraw(&mut self, number: u64) -> Called<u64> {
        let found = self.find(number);
        if let Some(cause) = first_cause(&[(self.stage == Stage::Open, 2), (number == 0, 4)]) {
            return Err(cause);
        }
        let Some(place) = found else {
            return Err(8);
        };
        let (_, row) = self.orders.remove(place);
        self.ledger.withdrawn[row.side.index()] += row.left;
        Ok(row.left)
    }

    pub fn quote(
        &mut self,
        maker: u64,
        bid: u64,
        bid_size: u64,
        offer: u64,
        offer_size: u64,
    ) -> Called<[u64; 2]> {
        let bid_size_fits = if bid == 0 { bid_size == 0 } else { is_size(bid_size) };
        if let Some(cause) = first_cause(&[
            (self.stage == Stage::Open, 2),
            (!is_maker(maker), 4),
            (!bid_size_fits || !is_size(offer_size), 5),
            ((bid != 0 && !self.ladder.permits(bid)) || !self.ladder.permits(offer), 6),
            (bid >= offer, 10),
            (!is_valid_width(bid, offer), 11),
        ]) {
            return Err(cause);
        }
        let row = |side, price, size| Row::new(side, Limit::At(price), size, Class::Other);
        let buy = is_price(bid).then(|| row(Side::Buy, bid, bid_size));
        let sell = row(Side::Sell, offer, offer_size);
        let taken_back = self.take_quote(maker).map_or([0, 0], |old| old.contracts());
        self.ledger.accepted[0] += bid_size;
        self.ledger.accepted[1] += offer_size;
        self.quotes[maker as usize - 1] = Some(Quote { bid, offer, buy, sell });
        Ok(taken_back)
    }

    pub fn pull(&mut self, maker: u64) -> Called<[u64; 2]> {
        if let Some(cause) = first_cause(&[(self.stage == Stage::Open, 2), (!is_maker(maker), 4)]) {
            return Err(cause);
        }
        self.take_quote(maker).map(|old| old.contracts()).ok_or(8)
    }

    fn take_quote(&mut self, maker: u64) -> Option<Quote> {
        let old = self.quotes[maker as usize - 1].take()?;
        for (withdrawn, contracts) in self.ledger.withdrawn.iter_mut().zip(old.contracts()) {
            *withdrawn += contracts;
        }
        Some(old)
    }

    fn find(&self, number: u64) -> Option<usize> {
        self.orders.iter().position(|(standing, _)| *standing == number)
    }

    pub fn read_order(&self, number: u64) -> Option<&Row> {
        self.find(number).map(|place| &self.orders[place].1)
    }

    pub fn read_quote(&self, maker: u64, side: Side) -> Option<&Row> {
        if !is_maker(maker) {
            return None;
        }
        let quote = self.quotes[maker as usize - 1].as_ref()?;
        match side {
            Side::Buy => quote.buy.as_ref(),
            Side::Sell => Some(&quote.sell),
        }
    }

    /// Every contract accepted is accounted for.
    pub fn balance(&self) -> Result<(), Violation> {
        audit::balance(&self.ledger, &self.rows())
    }

    pub fn tick(
        &mut self,
        time: u64,
        opened: Option<u64>,
        away: &mut Away,
    ) -> Result<Called<TickAnswer>, Violation> {
        let bad_time = time > DAY_END || time < self.last_tick || opened.is_some_and(|opened| time < opened);
        if let Some(cause) = first_cause(&[(self.stage == Stage::Open, 2), (bad_time, 3)]) {
            return Ok(Err(cause));
        }
        self.last_tick = time;
        if let Some(reason) = self.reason_to_wait(time, opened, away) {
            self.stage = Stage::Waiting;
            self.extra_left = self.settings.extra;
            return Ok(Ok(TickAnswer::Waits(reason)));
        }
        let answer = match self.stage {
            Stage::Waiting => self.tick_waiting(time, away)?,
            Stage::Gathering { deadline } => self.tick_gathering(time, deadline, away)?,
            Stage::Routing { deadline } | Stage::Extra { deadline } => {
                self.tick_routing(time, deadline, away)?
            }
            Stage::Open => return Ok(Err(2)),
        };
        Ok(Ok(answer))
    }

    fn reason_to_wait(&self, time: u64, opened: Option<u64>, away: &Away) -> Option<u64> {
        if time < DAY_START {
            return Some(1);
        }
        let Some(since) =
            opened.map(|opened| time - opened).filter(|&since| since >= self.settings.underlying)
        else {
            return Some(2);
        };
        if let (Some(bid), Some(offer)) = (away.best(Side::Buy), away.best(Side::Sell)) {
            if bid > offer {
                return Some(3);
            }
        }
        let others = self.quotes.iter().skip(1).flatten().count();
        let needed = if since >= self.settings.window { 1 } else { 2 };
        (self.quotes[0].is_none() && others < needed).then_some(4)
    }

    fn tick_waiting(&mut self, time: u64, away: &mut Away) -> Result<TickAnswer, Violation> {
        let tops = self.tops(away);
        let rows = self.rows();
        let crossing = greatest_crossing(&rows, self.ladder);
        if crossing == 0 && !could_take(&rows, away) && !is_hollow(&tops) {
            return self.open(Decision { kind: 1, choice: None, range: Range { low: 0, high: 0 } }, away);
        }
        if let Some(range) = tops.quick() {
            if let Some(choice) = self.clean_choice(away, Mode::Exchange, range)? {
                // Without routing the volume is the smaller of buys and sells at the price.
                if choice.volume == crossing {
                    return self.open(Decision { kind: 2, choice: Some(choice), range }, away);
                }
            }
        }
        let quoted = Range { low: tops.quote_bid, high: tops.quote_offer };
        let choice = self.choose(away, Mode::Exchange, quoted)?;
        self.stage = Stage::Gathering { deadline: time + self.settings.imbalance };
        Ok(TickAnswer::Message { number: 1, choice })
    }

    fn tick_gathering(&mut self, time: u64, deadline: u64, away: &mut Away) -> Result<TickAnswer, Violation> {
        let range = self.tops(away).opening();
        if let Some(choice) = self.clean_choice(away, Mode::Exchange, range)? {
            return self.open(Decision { kind: 3, choice: Some(choice), range }, away);
        }
        if time < deadline {
            return Ok(TickAnswer::Holds);
        }
        let choice = self.choose(away, Mode::Routing, range)?;
        self.stage = Stage::Routing { deadline: time + self.settings.route };
        Ok(TickAnswer::Message { number: 2, choice })
    }

    fn tick_routing(&mut self, time: u64, deadline: u64, away: &mut Away) -> Result<TickAnswer, Violation> {
        let range = self.tops(away).opening();
        if let Some(choice) = self.clean_choice(away, Mode::Exchange, range)? {
            return self.open(Decision { kind: 3, choice: Some(choice), range }, away);
        }
        if time < deadline {
            return Ok(TickAnswer::Holds);
        }
        if let Some(choice) = self.clean_choice(away, Mode::Routing, range)? {
            return self.open(Decision { kind: 4, choice: Some(choice), range }, away);
        }
        let choice = self.choose(away, Mode::Routing, range)?;
        if self.extra_left == 0 {
            return self.open(Decision { kind: 5, choice, range }, away);
        }
        let number = 3 + self.settings.extra - self.extra_left;
        self.extra_left -= 1;
        self.stage = Stage::Extra { deadline: time + self.settings.imbalance };
        Ok(TickAnswer::Message { number, choice })
    }

    /// The highest quote bid and the lowest quote offer; past reason 4 there is a quote.
    pub fn tops(&self, away: &Away) -> Tops {
        let quotes = || self.quotes.iter().flatten();
        let bid = quotes().map(|quote| quote.bid).fold(0, u64::max);
        let offer = quotes().map(|quote| quote.offer).fold(TOP, u64::min);
        Tops::new(bid, offer, away)
    }

    pub fn choose(&self, away: &Away, mode: Mode, range: Range) -> Result<Option<Choice>, Violation> {
        let rows = self.rows();
        let view = View { rows: &rows, away, ladder: self.ladder, close: self.settings.close };
        let choice = view.choose(mode, range);
        audit::choice(&view, mode, range, choice)?;
        Ok(choice)
    }

    /// A choice that leaves nothing unmatched through its price.
    fn clean_choice(&self, away: &Away, mode: Mode, range: Range) -> Result<Option<Choice>, Violation> {
        Ok(self.choose(away, mode, range)?.filter(|choice| choice.through == 0))
    }

    fn open(&mut self, decision: Decision, away: &mut Away) -> Result<TickAnswer, Violation> {
        let before = Before { rows: self.rows(), away: away.clone() };
        let mut rows = self.rows();
        let (ladder, rule) = (self.ladder, self.rule);
        let mut clearing = Clearing { rows: &mut rows, away, ladder, rule, shared_levels: 0 };
        let report = clearing.carry_out(&decision)?;
        self.shared_levels = clearing.shared_levels;
        audit::opening(&before, &decision, &report, &rows, away)?;
        self.put_back(rows);
        self.stage = Stage::Open;
        Ok(TickAnswer::Opened(report))
    }
}

fn is_maker(maker: u64) -> bool {
    (1..=MAKERS).contains(&maker)
}

/// The first cause that applies, causes given in the order of their numbers.
fn first_cause(causes: &[(bool, Cause)]) -> Option<Cause> {
    causes.iter().find(|(applies, _)| *applies).map(|(_, cause)| *cause)
}

/// Whether some routable row could take a price shown away.
fn could_take(rows: &[Row], away: &Away) -> bool {
    let takes = |row: &Row| away.best(row.side.other()).is_some_and(|price| row.reaches(price));
    rows.iter().any(|row| row.is_routable() && takes(row))
}

/// No bid, no away price and no quality market: too little to open on.
fn is_hollow(tops: &Tops) -> bool {
    tops.quote_bid == 0 && !tops.any_away() && !tops.is_quality()
}
