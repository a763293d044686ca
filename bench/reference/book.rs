//! What docs/RULE.md says of a list of orders at a price: how much trades, who gets it, and the
//! imbalance.

use crate::rule::{CLASSES, Kind, MUST_EXECUTE, OFFSETS, Order, Side, Standing, Terms};
use crate::sharing::Method;

/// The sizes of one side, added up by class.
#[derive(Clone, Copy, Default)]
struct Tallies([u64; CLASSES]);

impl Tallies {
    /// W: the classes 0 to 5.
    fn weight(&self) -> u64 {
        self.0[..OFFSETS].iter().sum()
    }

    fn total(&self) -> u64 {
        self.0.iter().sum()
    }
}

/// How far a side is filled at a volume: the classes before `whole` get all that they have, and the
/// class of rank `whole`, if there is one, gets `left`.
#[derive(Clone, Copy)]
struct Reach {
    whole: usize,
    left: u64,
}

impl Reach {
    /// The largest number of first classes that fit into the volume is filled whole.
    fn of(tallies: &Tallies, volume: u64) -> Reach {
        let mut left = volume;
        for (whole, &tally) in tallies.0.iter().enumerate() {
            if tally > left {
                return Reach { whole, left };
            }
            left -= tally;
        }
        Reach {
            whole: CLASSES,
            left: 0,
        }
    }

    fn is_cut(&self, rank: usize) -> bool {
        self.left > 0 && rank == self.whole
    }
}

/// How the orders of a list are filled at a price.
pub struct Plan {
    terms: Terms,
    volume: u64,
    lighter: Option<Side>,
    buys: Reach,
    sells: Reach,
}

/// The rank of an order's class, where the class is open to its side.
fn open_class(order: &Order, terms: Terms, lighter: Option<Side>) -> Option<usize> {
    order
        .class(terms)
        .filter(|&rank| rank != OFFSETS || lighter == Some(order.side))
}

impl Plan {
    /// None where the price is unfillable.
    pub fn new(orders: &[Order], terms: Terms) -> Option<Plan> {
        let mut buys = Tallies::default();
        let mut sells = Tallies::default();
        for order in orders {
            if let Some(rank) = order.class(terms) {
                let tallies = match order.side {
                    Side::Buy => &mut buys,
                    Side::Sell => &mut sells,
                };
                tallies.0[rank] += u64::from(order.size);
            }
        }

        let (to_buy, to_sell) = (buys.weight(), sells.weight());
        let lighter = match to_buy.cmp(&to_sell) {
            std::cmp::Ordering::Less => Some(Side::Buy),
            std::cmp::Ordering::Greater => Some(Side::Sell),
            std::cmp::Ordering::Equal => None,
        };
        // Offsets that are not on the lighter side count for nothing.
        if lighter != Some(Side::Buy) {
            buys.0[OFFSETS] = 0;
        }
        if lighter != Some(Side::Sell) {
            sells.0[OFFSETS] = 0;
        }

        // The heavier side has no open offsets, so its total is its W, and each side's total bounds V.
        let volume = buys.total().min(sells.total());
        if buys.0[MUST_EXECUTE] > volume || sells.0[MUST_EXECUTE] > volume {
            return None;
        }
        Some(Plan {
            terms,
            volume,
            lighter,
            buys: Reach::of(&buys, volume),
            sells: Reach::of(&sells, volume),
        })
    }

    pub fn volume(&self) -> u64 {
        self.volume
    }

    fn reach(&self, side: Side) -> Reach {
        match side {
            Side::Buy => self.buys,
            Side::Sell => self.sells,
        }
    }

    /// Gives each order its filled shares. The work lists have a place for each order.
    pub fn fill(
        &self,
        orders: &mut [Order],
        method: Method,
        claims: &mut [u32],
        gifts: &mut [u32],
    ) {
        for (order, claim) in orders.iter().zip(claims.iter_mut()) {
            *claim = match open_class(order, self.terms, self.lighter) {
                Some(rank) if self.reach(order.side).is_cut(rank) => order.size,
                _ => 0,
            };
        }

        // At most one side has something left.
        let amount = self.buys.left.max(self.sells.left);
        method.share(amount, claims, gifts);

        for (order, &gift) in orders.iter_mut().zip(gifts.iter()) {
            order.filled = match open_class(order, self.terms, self.lighter) {
                Some(rank) if rank < self.reach(order.side).whole => order.size,
                Some(rank) if self.reach(order.side).is_cut(rank) => gift,
                _ => 0,
            };
        }
    }
}

/// A size in whole hundreds, as the imbalance counts it.
fn in_hundreds(size: u32) -> i64 {
    i64::from(size / 100 * 100)
}

/// Whether an order belongs to its side's aggregate at the reference price.
fn is_aggregated(order: &Order, terms: Terms) -> bool {
    match order.kind {
        Kind::MarketOnClose => !order.marked,
        Kind::LimitOnClose => !order.marked && order.standing(terms) == Standing::Better,
        _ => false,
    }
}

/// The imbalance on terms whose price is R: positive to buy, negative to sell.
pub fn imbalance(orders: &[Order], terms: Terms) -> i64 {
    let difference: i64 = orders
        .iter()
        .filter(|order| is_aggregated(order, terms))
        .map(|order| match order.side {
            Side::Buy => in_hundreds(order.size),
            Side::Sell => -in_hundreds(order.size),
        })
        .sum();
    if difference == 0 {
        return 0;
    }

    // What offsets it is on the side of the smaller aggregate.
    let smaller = if difference > 0 {
        Side::Sell
    } else {
        Side::Buy
    };
    let offsetting: i64 = orders
        .iter()
        .filter(|order| {
            order.side == smaller
                && order.kind.is_on_close()
                && order.class(terms).is_some()
                && !is_aggregated(order, terms)
        })
        .map(|order| in_hundreds(order.size))
        .sum();
    difference.signum() * (difference.abs() - offsetting).max(0)
}
