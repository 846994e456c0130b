//! How a level that is filled in part is divided among its rows.

use crate::rules::Class;

#[derive(Clone, Copy, PartialEq, Eq, Debug)]
pub enum Rule {
    Time,
    ProRata,
}

/// A row of a level as a sharing rule sees it.
#[derive(Clone, Copy, Debug)]
pub struct Holder {
    pub class: Class,
    pub size: u64,
}

impl Rule {
    /// One share a row, in the order of the rows.
    pub fn shares(self, quantity: u64, holders: &[Holder]) -> Vec<u64> {
        match self {
            Rule::Time => in_order(quantity, holders),
            Rule::ProRata => pro_rata(quantity, holders),
        }
    }
}

fn in_order(quantity: u64, holders: &[Holder]) -> Vec<u64> {
    let mut remaining = quantity;
    let mut shares = Vec::new();
    for holder in holders {
        let share = holder.size.min(remaining);
        remaining -= share;
        shares.push(share);
    }
    shares
}

/// Customers in order, then the others from the largest, each by its part rounded up.
fn pro_rata(quantity: u64, holders: &[Holder]) -> Vec<u64> {
    let mut shares = vec![0; holders.len()];
    let mut remaining = quantity;
    for (place, holder) in holders.iter().enumerate() {
        if holder.class.is_customer() {
            shares[place] = holder.size.min(remaining);
            remaining -= shares[place];
        }
    }
    let others = largest_first(holders);
    let total: u64 = others.iter().map(|&place| holders[place].size).sum();
    let pot = remaining.min(total);
    remaining = pot;
    for place in others {
        let part = (holders[place].size * pot).div_ceil(total);
        shares[place] = part.min(remaining);
        remaining -= shares[place];
    }
    shares
}

/// Places of the non-customers from the largest, the earlier among equals.
fn largest_first(holders: &[Holder]) -> Vec<usize> {
    let mut places: Vec<usize> =
        (0..holders.len()).filter(|&place| !holders[place].class.is_customer()).collect();
    places.sort_by_key(|&place| (std::cmp::Reverse(holders[place].size), place));
    places
}
