//! Counts how often each rare thing happens in a script.

use std::collections::BTreeMap;

use crate::audit::Violation;
use crate::book::Row;
use crate::engine::{Auction, Stage};
use crate::market::LEVELS_COUNTED;
use crate::opening::Report;
use crate::play::{Answer, Player};
use crate::rules::{is_price, Class, Ladder, Limit, Side, SIDES, TOP};
use crate::script::{read_line, Call, Line};
use crate::sharing::Rule;

/// Everything counted, in the order of the printed table.
const LABELS: [&str; 113] = [
    "mornings made",
    "mornings opened",
    "opened kind 1",
    "opened kind 2",
    "opened kind 3",
    "opened kind 3 while gathering",
    "opened kind 3 while routing",
    "opened kind 3 in an extra stage",
    "opened kind 4",
    "opened kind 5 with a price",
    "opened kind 5 with a price, something routed",
    "opened kind 5 without a price",
    "opened kind 5 without a price, something routed",
    "opened kind 5 without a price, rests crossed",
    "opened cent, time",
    "opened cent, prorata",
    "opened stepped, time",
    "opened stepped, prorata",
    "opened with a price, nothing unmatched",
    "opened with a price, unmatched buys",
    "opened with a price, unmatched sells",
    "opened with a level shared, time",
    "opened with a level shared, prorata",
    "opened with the market level shared, time",
    "opened with the market level shared, prorata",
    "opened with rows routed and traded both",
    "opened with routed buys",
    "opened with routed sells",
    "opened with market contracts cancelled",
    "opened with market contracts cancelled, kind 1",
    "opened with limited contracts cancelled",
    "opened with cancelled quotes",
    "opened with moved rests",
    "opened with moved rests, kind 1",
    "opened with moved rests, fixed customer after a trade",
    "opened with moved rests, quotes",
    "opened with moved rests, limit at the away price",
    "opened with moved rests, working off the ladder",
    "opened with moved rests, shown at 0",
    "opened at price 1",
    "opened at price 100000",
    "waits 1",
    "waits 2",
    "waits 3",
    "waits 4",
    "holds",
    "stops while gathering",
    "stops while routing",
    "stops in an extra stage (extra messages restored)",
    "message 1 again after a stop",
    "message 1",
    "message 2",
    "message 3",
    "message 4",
    "message 5",
    "message 6",
    "messages without a price",
    "messages with imbalance 0",
    "messages with unmatched buys",
    "messages with unmatched sells",
    "refused 1",
    "refused 2",
    "refused 3",
    "refused 4",
    "refused 5",
    "refused 6",
    "refused 7",
    "refused 8",
    "refused 9",
    "refused 10",
    "refused 11",
    "ticks with locked quotes",
    "ticks with crossed quotes",
    "ticks with locked away market",
    "ticks with crossed away market",
    "ticks with quotes and away crossed",
    "ticks with firm off over a market",
    "ticks with more than 64 levels",
    "ticks that go on with a single maker who is not maker 1",
    "orders accepted",
    "orders accepted at the market",
    "orders accepted at price 1",
    "orders accepted at price 100000",
    "orders accepted of 1000000 contracts",
    "orders accepted with a number used before",
    "zero bids accepted",
    "quotes replaced",
    "quotes pulled",
    "orders withdrawn",
    "rows read before the opening",
    "rows read after the opening",
    "read none",
    "shown while waiting",
    "shown between messages",
    "shown after the opening",
    "no auction",
    "not understood",
    "share calls",
    "count calls",
    "best calls",
    "best calls, none",
    "send calls",
    "send calls, less sent than wanted",
    "row calls",
    "row calls, full",
    "price calls",
    "price calls, no price",
    "price calls, unmatched through",
    "ranges calls",
    "ranges calls, no quick range",
    "ranges calls, no quality market",
    "valid calls, yes",
    "valid calls, no",
];

struct Census {
    counts: BTreeMap<String, u64>,
    used_numbers: Vec<u64>,
    stopped: bool,
}

/// The table for a script.
pub fn take(script: &str) -> Result<String, Violation> {
    let mut player = Player::new();
    let mut census = Census { counts: BTreeMap::new(), used_numbers: Vec::new(), stopped: false };
    for line in script.lines() {
        match read_line(line) {
            Line::Nothing => {}
            Line::NotUnderstood => census.note("not understood"),
            Line::Call(call) => census.play(&mut player, call)?,
        }
    }
    Ok(census.table())
}

impl Census {
    fn note(&mut self, label: &str) {
        *self.counts.entry(label.to_string()).or_insert(0) += 1;
    }

    fn note_if(&mut self, happened: bool, label: &str) {
        if happened {
            self.note(label);
        }
    }

    /// One line a label; what never happened is marked, and a label not in the list comes last.
    fn table(&self) -> String {
        let mut table = String::new();
        for label in LABELS {
            let count = self.counts.get(label).copied().unwrap_or(0);
            let mark = if count == 0 { "   never" } else { "" };
            table.push_str(&format!("{count:8}  {label}{mark}\n"));
        }
        for (label, count) in self.counts.iter().filter(|(label, _)| !LABELS.contains(&label.as_str())) {
            table.push_str(&format!("{count:8}  {label}\n"));
        }
        table
    }

    fn play(&mut self, player: &mut Player, call: Call) -> Result<(), Violation> {
        let stage = player.auction().map_or(Stage::Waiting, Auction::stage);
        if matches!(call, Call::Tick { .. }) && stage != Stage::Open {
            self.tick_conditions(player);
        }
        let answer = player.play(call.clone())?;
        let goes_on = matches!(answer, Answer::Holds | Answer::Message { .. } | Answer::Opened(_));
        let lone = goes_on && player.auction().is_some_and(is_lone_maker);
        self.note_if(lone, "ticks that go on with a single maker who is not maker 1");
        self.call_answered(&call, &answer);
        self.answer_seen(player, stage, &answer);
        Ok(())
    }

    fn tick_conditions(&mut self, player: &Player) {
        let away = player.away();
        let (away_bid, away_offer) = (away.best(Side::Buy), away.best(Side::Sell));
        let (quote_bid, quote_offer) = player.auction().map_or((None, None), quote_tops);
        self.pair(quote_bid, quote_offer, "ticks with locked quotes", "ticks with crossed quotes");
        self.pair(away_bid, away_offer, "ticks with locked away market", "ticks with crossed away market");
        let between = is_crossed(quote_bid, away_offer) || is_crossed(away_bid, quote_offer);
        self.note_if(between, "ticks with quotes and away crossed");
        let mut firm = away.clone();
        firm.set_firm(true);
        self.note_if(!away.is_firm() && !firm.shown().is_empty(), "ticks with firm off over a market");
        self.note_if(away.level_count() > LEVELS_COUNTED, "ticks with more than 64 levels");
    }

    fn pair(&mut self, bid: Option<u64>, offer: Option<u64>, locked: &str, crossed: &str) {
        if let (Some(bid), Some(offer)) = (bid, offer) {
            self.note_if(bid == offer, locked);
            self.note_if(bid > offer, crossed);
        }
    }

    fn call_answered(&mut self, call: &Call, answer: &Answer) {
        match (call, answer) {
            (Call::Make { .. }, Answer::Made) => {
                self.used_numbers.clear();
                self.stopped = false;
            }
            (Call::Enter { number, limit, size, .. }, Answer::Accepted(_)) => {
                self.order_accepted(*number, *limit, *size)
            }
            (Call::Quote { bid: 0, .. }, Answer::Replaced(_)) => self.note("zero bids accepted"),
            (Call::Send { wanted, .. }, Answer::Sent(sent)) => {
                self.note_if(sent < wanted, "send calls, less sent than wanted");
            }
            (Call::Best { .. }, _) => {
                self.note("best calls");
                self.note_if(matches!(answer, Answer::None), "best calls, none");
            }
            (Call::ReadOrder { .. } | Call::ReadQuote { .. }, Answer::None) => self.note("read none"),
            _ => {}
        }
    }

    fn order_accepted(&mut self, number: u64, limit: Limit, size: u64) {
        self.note("orders accepted");
        self.note_if(limit == Limit::Market, "orders accepted at the market");
        self.note_if(limit == Limit::At(1), "orders accepted at price 1");
        self.note_if(limit == Limit::At(TOP), "orders accepted at price 100000");
        self.note_if(size == 1_000_000, "orders accepted of 1000000 contracts");
        self.note_if(self.used_numbers.contains(&number), "orders accepted with a number used before");
        self.used_numbers.push(number);
    }

    fn answer_seen(&mut self, player: &Player, stage: Stage, answer: &Answer) {
        match answer {
            Answer::Made => self.note("mornings made"),
            Answer::Withdrawn(_) => self.note("orders withdrawn"),
            Answer::Replaced([0, 0]) => {}
            Answer::Replaced(_) => self.note("quotes replaced"),
            Answer::Pulled(_) => self.note("quotes pulled"),
            Answer::Waits(reason) => self.waited(*reason, stage),
            Answer::Holds => self.note("holds"),
            Answer::Message { number, choice } => {
                self.note(&format!("message {number}"));
                self.note_if(*number == 1 && self.stopped, "message 1 again after a stop");
                match choice.map(|choice| choice.side) {
                    None => self.note("messages without a price"),
                    Some(None) => self.note("messages with imbalance 0"),
                    Some(Some(Side::Buy)) => self.note("messages with unmatched buys"),
                    Some(Some(Side::Sell)) => self.note("messages with unmatched sells"),
                }
            }
            Answer::Opened(report) => {
                if let Some(auction) = player.auction() {
                    self.opened(player, auction, stage, report);
                }
            }
            Answer::Row(_) if stage == Stage::Open => self.note("rows read after the opening"),
            Answer::Row(_) => self.note("rows read before the opening"),
            Answer::Show(_) => self.note(match stage {
                Stage::Waiting => "shown while waiting",
                Stage::Open => "shown after the opening",
                _ => "shown between messages",
            }),
            Answer::Refused(cause) => self.note(&format!("refused {cause}")),
            Answer::NoAuction => self.note("no auction"),
            Answer::NotUnderstood => self.note("not understood"),
            other => self.inspected(other),
        }
    }

    fn inspected(&mut self, answer: &Answer) {
        match answer {
            Answer::Shares(_) => self.note("share calls"),
            Answer::Count(_) => self.note("count calls"),
            Answer::Sent(_) => self.note("send calls"),
            Answer::RowAdded(_) => self.note("row calls"),
            Answer::Full => self.note("row calls, full"),
            Answer::Price(choice) => {
                self.note("price calls");
                self.note_if(choice.is_none(), "price calls, no price");
                self.note_if(
                    choice.is_some_and(|choice| choice.through > 0),
                    "price calls, unmatched through",
                );
            }
            Answer::Ranges { quick, quality, .. } => {
                self.note("ranges calls");
                self.note_if(quick.is_none(), "ranges calls, no quick range");
                self.note_if(!quality, "ranges calls, no quality market");
            }
            Answer::Valid(true) => self.note("valid calls, yes"),
            Answer::Valid(false) => self.note("valid calls, no"),
            _ => {}
        }
    }

    fn waited(&mut self, reason: u64, stage: Stage) {
        self.note(&format!("waits {reason}"));
        let stop = match stage {
            Stage::Gathering { .. } => "stops while gathering",
            Stage::Routing { .. } => "stops while routing",
            Stage::Extra { .. } => "stops in an extra stage (extra messages restored)",
            Stage::Waiting | Stage::Open => return,
        };
        self.stopped = true;
        self.note(stop);
    }

    fn opened(&mut self, player: &Player, auction: &Auction, stage: Stage, report: &Report) {
        let rows = auction.rows();
        self.note("mornings opened");
        self.kind(stage, report);
        let ladder = if auction.ladder() == Ladder::Cent { "cent" } else { "stepped" };
        let rule = if auction.rule() == Rule::Time { "time" } else { "prorata" };
        self.note(&format!("opened {ladder}, {rule}"));
        self.note_if(auction.shared_levels() > 0, &format!("opened with a level shared, {rule}"));
        let market_shared = SIDES.iter().any(|&side| is_market_shared(&rows, side));
        self.note_if(market_shared, &format!("opened with the market level shared, {rule}"));
        self.note_if(report.price == 1, "opened at price 1");
        self.note_if(report.price == TOP, "opened at price 100000");
        self.note_if(report.routed[0] > 0, "opened with routed buys");
        self.note_if(report.routed[1] > 0, "opened with routed sells");
        self.note_if(
            rows.iter().any(|row| row.routed > 0 && row.traded > 0),
            "opened with rows routed and traded both",
        );
        self.leftovers(report, &rows);
        self.cancellations(auction, report, &rows);
        self.moves(player, auction, report, &rows);
    }

    fn kind(&mut self, stage: Stage, report: &Report) {
        let routed = report.routed != [0, 0];
        match (report.kind, report.price) {
            (5, 0) => {
                let crossed = report.best[1] > 0 && report.best[0] >= report.best[1];
                self.note("opened kind 5 without a price");
                self.note_if(routed, "opened kind 5 without a price, something routed");
                self.note_if(crossed, "opened kind 5 without a price, rests crossed");
            }
            (5, _) => {
                self.note("opened kind 5 with a price");
                self.note_if(routed, "opened kind 5 with a price, something routed");
            }
            (kind, _) => self.note(&format!("opened kind {kind}")),
        }
        if report.kind == 3 {
            self.note(match stage {
                Stage::Routing { .. } => "opened kind 3 while routing",
                Stage::Extra { .. } => "opened kind 3 in an extra stage",
                _ => "opened kind 3 while gathering",
            });
        }
    }

    /// Contracts good at the price that found nobody here, wherever they went then.
    fn leftovers(&mut self, report: &Report, rows: &[Row]) {
        if report.price == 0 {
            return;
        }
        let unfilled = SIDES.map(|side| {
            let good = rows.iter().filter(|row| row.side == side && row.reaches(report.price));
            good.map(|row| row.left + row.cancelled).sum::<u64>()
        });
        self.note(match unfilled {
            [0, 0] => "opened with a price, nothing unmatched",
            [_, 0] => "opened with a price, unmatched buys",
            _ => "opened with a price, unmatched sells",
        });
    }

    fn cancellations(&mut self, auction: &Auction, report: &Report, rows: &[Row]) {
        let any = |meets: fn(&Row) -> bool| rows.iter().any(|row| row.cancelled > 0 && meets(row));
        let market = any(|row| row.limit == Limit::Market);
        self.note_if(market, "opened with market contracts cancelled");
        self.note_if(market && report.kind == 1, "opened with market contracts cancelled, kind 1");
        self.note_if(any(|row| row.limit != Limit::Market), "opened with limited contracts cancelled");
        let quotes = quote_rows(auction).iter().any(|row| row.cancelled > 0);
        self.note_if(quotes, "opened with cancelled quotes");
    }

    fn moves(&mut self, player: &Player, auction: &Auction, report: &Report, rows: &[Row]) {
        let moved: Vec<&Row> = rows.iter().filter(|row| is_moved(row)).collect();
        if moved.is_empty() {
            return;
        }
        self.note("opened with moved rests");
        self.note_if(report.kind == 1, "opened with moved rests, kind 1");
        let fixed = moved.iter().any(|row| row.class == Class::Fixed);
        self.note_if(fixed && report.price > 0, "opened with moved rests, fixed customer after a trade");
        self.note_if(quote_rows(auction).iter().any(is_moved), "opened with moved rests, quotes");
        let at_limit = moved.iter().any(|row| row.limit == Limit::At(row.working));
        self.note_if(at_limit, "opened with moved rests, limit at the away price");
        let off = moved.iter().any(|row| !auction.ladder().permits(row.working) && is_price(row.working));
        self.note_if(off, "opened with moved rests, working off the ladder");
        let unseen = moved.iter().any(|row| row.shown == 0 && player.away().best(row.side.other()).is_some());
        self.note_if(unseen, "opened with moved rests, shown at 0");
    }
}

fn is_crossed(bid: Option<u64>, offer: Option<u64>) -> bool {
    bid.zip(offer).is_some_and(|(bid, offer)| bid > offer)
}

/// Several market rows of a side of which some contracts traded and some did not.
fn is_market_shared(rows: &[Row], side: Side) -> bool {
    let market = || rows.iter().filter(|row| row.side == side && row.limit == Limit::Market);
    let standing = market().filter(|row| row.traded + row.cancelled > 0).count();
    standing > 1 && market().any(|row| row.traded > 0) && market().any(|row| row.cancelled > 0)
}

fn is_moved(row: &Row) -> bool {
    row.left > 0 && row.limit != Limit::At(row.shown)
}

fn quote_rows(auction: &Auction) -> Vec<Row> {
    let sides = (1..=16).flat_map(|maker| SIDES.map(|side| auction.read_quote(maker, side)));
    sides.flatten().cloned().collect()
}

fn is_lone_maker(auction: &Auction) -> bool {
    let quoting = (1..=16).filter(|&maker| auction.read_quote(maker, Side::Sell).is_some());
    quoting.clone().count() == 1 && !quoting.clone().any(|maker| maker == 1)
}

fn quote_tops(auction: &Auction) -> (Option<u64>, Option<u64>) {
    let best = |side: Side| {
        let rows = quote_rows(auction);
        let prices = rows.iter().filter(|row| row.side == side).map(Row::furthest_price);
        prices.reduce(|best, price| side.better_of(best, price))
    };
    (best(Side::Buy), best(Side::Sell))
}
