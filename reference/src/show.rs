//! An auction and the away market beside it as a table, for a person to read.

use crate::audit::Violation;
use crate::book::Row;
use crate::engine::{Auction, Stage};
use crate::market::Away;
use crate::price::{Choice, Mode};
use crate::rules::{Class, Limit, Side};

const HEADINGS: &str =
    "owner            side   limit    class     size   traded   routed cancelled     left  working    shown";

/// The lines that `show` prints, without the last line end.
pub fn table(auction: &Auction, away: &Away) -> Result<String, Violation> {
    let mut lines = vec![HEADINGS.to_string()];
    lines.extend(auction.owned_rows().iter().map(|(owner, row)| row_line(owner, row)));
    lines.push(format!("away bid {} offer {}", best(away, Side::Buy), best(away, Side::Sell)));
    lines.push(stage_line(auction));
    let rows = auction.rows();
    lines.push(totals_line("buys", &rows, Side::Buy));
    lines.push(totals_line("sells", &rows, Side::Sell));
    if auction.stage() != Stage::Open && auction.is_quoted() {
        lines.extend(outlook_lines(auction, away)?);
    }
    Ok(lines.join("\n"))
}

fn row_line(owner: &str, row: &Row) -> String {
    let side = match row.side {
        Side::Buy => "buy",
        Side::Sell => "sell",
    };
    let limit = match row.limit {
        Limit::Market => "market".to_string(),
        Limit::At(price) => price.to_string(),
    };
    let class = match row.class {
        Class::Routable => "routable",
        Class::Fixed => "fixed",
        Class::Other => "other",
    };
    let contracts = format!("{:9}{:9}{:9}{:10}", row.size, row.traded, row.routed, row.cancelled);
    format!(
        "{owner:16} {side:4}{limit:>8} {class:>8}{contracts}{:9}{:9}{:9}",
        row.left, row.working, row.shown
    )
}

/// The best price of a side with the contracts there.
fn best(away: &Away, side: Side) -> String {
    away.best(side).map_or("none".to_string(), |price| format!("{price} for {}", away.count(side, price)))
}

fn stage_line(auction: &Auction) -> String {
    let name = match auction.stage() {
        Stage::Waiting => return "stage waiting".to_string(),
        Stage::Open => return "stage open".to_string(),
        Stage::Gathering { .. } => "gathering",
        Stage::Routing { .. } => "routing",
        Stage::Extra { .. } => "extra",
    };
    let deadline = auction.stage().deadline().unwrap_or(0);
    format!("stage {name} until {deadline} extra {}", auction.extra_left())
}

fn totals_line(name: &str, rows: &[Row], side: Side) -> String {
    let sum = |part: fn(&Row) -> u64| -> u64 { rows.iter().filter(|row| row.side == side).map(part).sum() };
    let accepted = sum(|row| row.size);
    let (traded, routed) = (sum(|row| row.traded), sum(|row| row.routed));
    let (cancelled, left) = (sum(|row| row.cancelled), sum(|row| row.left));
    format!("{name} accepted {accepted} traded {traded} routed {routed} cancelled {cancelled} left {left}")
}

/// What the next tick would find.
fn outlook_lines(auction: &Auction, away: &Away) -> Result<Vec<String>, Violation> {
    let tops = auction.tops(away);
    let quick = tops.quick().map_or("none".to_string(), |range| format!("{} {}", range.low, range.high));
    let opening = tops.opening();
    let exchange = auction.choose(away, Mode::Exchange, opening)?;
    let routing = auction.choose(away, Mode::Routing, opening)?;
    Ok(vec![
        format!("quotes bid {} offer {}", tops.quote_bid, tops.quote_offer),
        format!("quick range {quick}"),
        format!("opening range {} {}", opening.low, opening.high),
        format!("exchange {}", choice_words(exchange)),
        format!("routing {}", choice_words(routing)),
    ])
}

fn choice_words(choice: Option<Choice>) -> String {
    let Some(choice) = choice else {
        return "no price".to_string();
    };
    let side = choice.side.map_or(0, Side::number);
    let (price, volume) = (choice.price, choice.volume);
    format!(
        "price {price} volume {volume} side {side} unmatched {} through {}",
        choice.unmatched, choice.through
    )
}
