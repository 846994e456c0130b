//! Plays calls on an auction and an away market, and prints the answers.

use std::fmt;

use crate::audit::{self, Violation};
use crate::book::Row;
use crate::engine::{Auction, Called, Cause, TickAnswer};
use crate::market::Away;
use crate::opening::Report;
use crate::price::{Choice, Figures, Mode, Range, View};
use crate::ranges::Tops;
use crate::rules::{is_valid_width, Class, Ladder, Limit, Side};
use crate::script::{read_line, Call, Line, LARGEST_NUMBER};
use crate::sharing::{Holder, Rule};
use crate::show;

/// Rows the inspected book can hold.
const MOST_ROWS: usize = 96;

#[derive(Clone, Debug)]
pub enum Answer {
    Made,
    Accepted(u64),
    Withdrawn(u64),
    Replaced([u64; 2]),
    Pulled([u64; 2]),
    Away,
    Waits(u64),
    Holds,
    Message { number: u64, choice: Option<Choice> },
    Opened(Report),
    Row(Row),
    Show(String),
    None,
    Refused(Cause),
    NoAuction,
    NotUnderstood,
    Shares(Vec<u64>),
    Count(u64),
    Best(u64),
    Sent(u64),
    RowAdded(usize),
    Full,
    RowsCleared,
    Price(Option<Choice>),
    Curve(Vec<Figures>),
    Ranges { quick: Option<Range>, opening: Range, quality: bool },
    Valid(bool),
}

/// Everything a script can speak to.
pub struct Player {
    auction: Option<Auction>,
    away: Away,
    /// The book of the inspection calls, which no auction sees.
    rows: Vec<Row>,
}

impl Player {
    pub fn new() -> Player {
        Player { auction: None, away: Away::empty(), rows: Vec::new() }
    }

    pub fn auction(&self) -> Option<&Auction> {
        self.auction.as_ref()
    }

    pub fn away(&self) -> &Away {
        &self.away
    }

    /// Plays one line; nothing for a line that is empty or a remark.
    pub fn play_line(&mut self, line: &str) -> Result<Option<Answer>, Violation> {
        match read_line(line) {
            Line::Nothing => Ok(None),
            Line::NotUnderstood => Ok(Some(Answer::NotUnderstood)),
            Line::Call(call) => self.play(call).map(Some),
        }
    }

    pub fn play(&mut self, call: Call) -> Result<Answer, Violation> {
        match call {
            Call::Make { ladder, rule, settings } => Ok(self.make(Auction::make(ladder, rule, settings))),
            Call::Away { side, price, size } => {
                self.away.set_single(side, price, size);
                Ok(Answer::Away)
            }
            Call::Depth { side, price, size } => Ok(self.add_level(side, price, size)),
            Call::DepthClear => {
                self.away.clear_levels();
                Ok(Answer::Away)
            }
            Call::Firm { on } => {
                self.away.set_firm(on);
                Ok(Answer::Away)
            }
            Call::Count { side, price } => {
                Ok(Answer::Count(self.away.count(side, price).min(LARGEST_NUMBER)))
            }
            Call::Best { side } => Ok(self.away.best(side).map_or(Answer::None, Answer::Best)),
            Call::Send { side, price, wanted } => self.send(side, price, wanted),
            Call::Share { rule, quantity, holders } => share(rule, quantity, &holders),
            Call::Row { side, limit, size, class } => Ok(self.add_row(side, limit, size, class)),
            Call::RowsClear => {
                self.rows.clear();
                Ok(Answer::RowsCleared)
            }
            Call::Price { mode, range, close } => self.price(mode, range, close),
            Call::Curve { mode, range } => Ok(self.curve(mode, range)),
            Call::Ranges { bid, offer } => Ok(self.ranges(bid, offer)),
            Call::Valid { bid, offer } => Ok(Answer::Valid(is_valid_width(bid, offer))),
            of_the_auction => self.play_on_auction(of_the_auction),
        }
    }

    fn make(&mut self, made: Result<Auction, Cause>) -> Answer {
        match made {
            Err(cause) => Answer::Refused(cause),
            Ok(auction) => {
                self.auction = Some(auction);
                self.away = Away::empty();
                Answer::Made
            }
        }
    }

    /// Plays a call of the auction. Afterwards every contract is accounted for, and a call that
    /// was refused or only reads has changed nothing.
    fn play_on_auction(&mut self, call: Call) -> Result<Answer, Violation> {
        let Some(auction) = self.auction.as_mut() else {
            return Ok(Answer::NoAuction);
        };
        let before = (auction.clone(), self.away.clone());
        let answer = call_auction(auction, &mut self.away, call)?;
        auction.balance()?;
        if matches!(answer, Answer::Refused(_) | Answer::Row(_) | Answer::None | Answer::Show(_)) {
            let untouched = before.0 == *auction && before.1 == self.away;
            audit::that(untouched, || format!("something changed at the answer {answer}"))?;
        }
        Ok(answer)
    }

    fn add_level(&mut self, side: Side, price: u64, size: u64) -> Answer {
        if self.away.add_level(side, price, size) {
            Answer::Away
        } else {
            Answer::NotUnderstood
        }
    }

    /// Sends, and checks each count against the old one less what was sent.
    fn send(&mut self, side: Side, price: u64, wanted: u64) -> Result<Answer, Violation> {
        let before = self.away.clone();
        let sent = self.away.send(side, price, wanted);
        let expected = wanted.min(before.count(side, price));
        audit::that(sent == expected, || format!("{sent} sent, not {expected}"))?;
        for corner in before.corners() {
            let on_side = self.away.count(side, corner) == before.count(side, corner).saturating_sub(sent);
            let beside = self.away.count(side.other(), corner) == before.count(side.other(), corner);
            audit::that(on_side && beside, || format!("a wrong count at {corner} after a send of {sent}"))?;
        }
        Ok(Answer::Sent(sent))
    }

    fn add_row(&mut self, side: Side, limit: Limit, size: u64, class: Class) -> Answer {
        if self.rows.len() >= MOST_ROWS {
            return Answer::Full;
        }
        self.rows.push(Row::new(side, limit, size, class));
        Answer::RowAdded(self.rows.len())
    }

    fn price(&self, mode: Mode, range: Range, close: u64) -> Result<Answer, Violation> {
        let view = View { rows: &self.rows, away: &self.away, ladder: Ladder::Cent, close };
        let choice = view.choose(mode, range);
        audit::choice(&view, mode, range, choice)?;
        Ok(Answer::Price(choice))
    }

    fn curve(&self, mode: Mode, range: Range) -> Answer {
        let view = View { rows: &self.rows, away: &self.away, ladder: Ladder::Cent, close: 0 };
        Answer::Curve(range.prices().map(|price| view.figures(mode, price)).collect())
    }

    fn ranges(&self, bid: u64, offer: u64) -> Answer {
        let tops = Tops::new(bid, offer, &self.away);
        Answer::Ranges { quick: tops.quick(), opening: tops.opening(), quality: tops.is_quality() }
    }
}

fn call_auction(auction: &mut Auction, away: &mut Away, call: Call) -> Result<Answer, Violation> {
    Ok(match call {
        Call::Enter { number, side, limit, size, class } => {
            answered(auction.enter(number, side, limit, size, class), Answer::Accepted)
        }
        Call::Withdraw { number } => answered(auction.withdraw(number), Answer::Withdrawn),
        Call::Quote { maker, bid, bid_size, offer, offer_size } => {
            answered(auction.quote(maker, bid, bid_size, offer, offer_size), Answer::Replaced)
        }
        Call::Pull { maker } => answered(auction.pull(maker), Answer::Pulled),
        Call::Tick { time, opened } => answered(auction.tick(time, opened, away)?, tick_answer),
        Call::ReadOrder { number } => row_answer(auction.read_order(number)),
        Call::ReadQuote { maker, side } => row_answer(auction.read_quote(maker, side)),
        Call::Show => Answer::Show(show::table(auction, away)?),
        _ => Answer::NotUnderstood,
    })
}

fn share(rule: Rule, quantity: u64, holders: &[Holder]) -> Result<Answer, Violation> {
    let shares = rule.shares(quantity, holders);
    audit::shares(quantity, holders, &shares)?;
    Ok(Answer::Shares(shares))
}

fn answered<T>(called: Called<T>, accepted: impl FnOnce(T) -> Answer) -> Answer {
    called.map_or_else(Answer::Refused, accepted)
}

fn tick_answer(answer: TickAnswer) -> Answer {
    match answer {
        TickAnswer::Waits(reason) => Answer::Waits(reason),
        TickAnswer::Holds => Answer::Holds,
        TickAnswer::Message { number, choice } => Answer::Message { number, choice },
        TickAnswer::Opened(report) => Answer::Opened(report),
    }
}

fn row_answer(row: Option<&Row>) -> Answer {
    row.map_or(Answer::None, |row| Answer::Row(row.clone()))
}

fn side_number(choice: &Choice) -> u64 {
    choice.side.map_or(0, Side::number)
}

impl Answer {
    /// The answer as printed for a line; only a line not understood names its number.
    pub fn text(&self, line_number: usize) -> String {
        match self {
            Answer::NotUnderstood => format!("line {line_number}: not understood"),
            answer => answer.to_string(),
        }
    }
}

impl fmt::Display for Answer {
    fn fmt(&self, out: &mut fmt::Formatter) -> fmt::Result {
        match self {
            Answer::Made => write!(out, "made"),
            Answer::Accepted(size) => write!(out, "accepted {size}"),
            Answer::Withdrawn(size) => write!(out, "withdrawn {size}"),
            Answer::Replaced([bids, offers]) => write!(out, "replaced {bids} {offers}"),
            Answer::Pulled([bids, offers]) => write!(out, "pulled {bids} {offers}"),
            Answer::Away => write!(out, "away"),
            Answer::Waits(reason) => write!(out, "waits {reason}"),
            Answer::Holds => write!(out, "holds"),
            Answer::Message { number, choice } => write_message(out, *number, choice.as_ref()),
            Answer::Opened(report) => write_report(out, report),
            Answer::Row(row) => write_row(out, row),
            Answer::Show(table) => write!(out, "{table}"),
            Answer::None => write!(out, "none"),
            Answer::Refused(cause) => write!(out, "refused {cause}"),
            Answer::NoAuction => write!(out, "no auction"),
            Answer::NotUnderstood => write!(out, "not understood"),
            Answer::Shares(shares) => write_shares(out, shares),
            Answer::Count(count) => write!(out, "count {count}"),
            Answer::Best(price) => write!(out, "best {price}"),
            Answer::Sent(sent) => write!(out, "sent {sent}"),
            Answer::RowAdded(rows) => write!(out, "row {rows}"),
            Answer::Full => write!(out, "full"),
            Answer::RowsCleared => write!(out, "rows 0"),
            Answer::Price(choice) => write_price(out, choice.as_ref()),
            Answer::Curve(lines) => write_curve(out, lines),
            Answer::Ranges { quick, opening, quality } => write_ranges(out, *quick, *opening, *quality),
            Answer::Valid(valid) => write!(out, "{}", yes_or_no(*valid)),
        }
    }
}

fn write_message(out: &mut fmt::Formatter, number: u64, choice: Option<&Choice>) -> fmt::Result {
    let (side, volume, imbalance, price) = choice
        .map_or((0, 0, 0, 0), |choice| (side_number(choice), choice.volume, choice.unmatched, choice.price));
    write!(out, "message {number} side {side} volume {volume} imbalance {imbalance} price {price}")
}

fn write_report(out: &mut fmt::Formatter, report: &Report) -> fmt::Result {
    write!(out, "opened kind {} price {} volume {}", report.kind, report.price, report.volume)?;
    write!(out, " range {} {}", report.range.low, report.range.high)?;
    write!(out, " routed {} {}", report.routed[0], report.routed[1])?;
    write!(out, " cancelled {} {}", report.cancelled[0], report.cancelled[1])?;
    write!(out, " best {} {}", report.best[0], report.best[1])
}

fn write_row(out: &mut fmt::Formatter, row: &Row) -> fmt::Result {
    write!(out, "order traded {} routed {} cancelled {}", row.traded, row.routed, row.cancelled)?;
    write!(out, " left {} working {} shown {}", row.left, row.working, row.shown)
}

fn write_shares(out: &mut fmt::Formatter, shares: &[u64]) -> fmt::Result {
    write!(out, "shares")?;
    shares.iter().try_for_each(|share| write!(out, " {share}"))
}

fn write_price(out: &mut fmt::Formatter, choice: Option<&Choice>) -> fmt::Result {
    match choice {
        None => write!(out, "no price"),
        Some(choice) => {
            write!(out, "price {} volume {} side {}", choice.price, choice.volume, side_number(choice))?;
            write!(out, " unmatched {} through {}", choice.unmatched, choice.through)
        }
    }
}

fn write_curve(out: &mut fmt::Formatter, lines: &[Figures]) -> fmt::Result {
    write!(out, "  price       buys      sells  better offers  better bids  usable     volume  unmatched")?;
    for line in lines {
        let [buys, sells] = line.interest;
        let [offers, bids] = line.better.map(|count| count.min(LARGEST_NUMBER));
        let usable = yes_or_no(line.usable);
        let net = [buys.saturating_sub(line.better[0]), sells.saturating_sub(line.better[1])];
        let side = match net[0].cmp(&net[1]) {
            std::cmp::Ordering::Less => " sells",
            std::cmp::Ordering::Equal => "",
            std::cmp::Ordering::Greater => " buys",
        };
        write!(out, "\n{:>7}{buys:>11}{sells:>11}{offers:>15}{bids:>13}{usable:>8}", line.price)?;
        write!(out, "{:>11}{:>11}{side}", net[0].min(net[1]), net[0].abs_diff(net[1]))?;
    }
    Ok(())
}

fn write_ranges(
    out: &mut fmt::Formatter,
    quick: Option<Range>,
    opening: Range,
    quality: bool,
) -> fmt::Result {
    match quick {
        None => write!(out, "quick none")?,
        Some(range) => write!(out, "quick {} {}", range.low, range.high)?,
    }
    write!(out, " opening {} {} quality {}", opening.low, opening.high, yes_or_no(quality))
}

fn yes_or_no(answer: bool) -> &'static str {
    if answer {
        "yes"
    } else {
        "no"
    }
}
