//! What docs/RULE.md says of one order: its limits, how it stands to a price, and its class.

use std::cmp::Ordering;

pub const MAX_PRICE: u32 = 9_999_999;
pub const MAX_SIZE: u32 = 10_000_000;

pub fn is_price(price: u32) -> bool {
    (1..=MAX_PRICE).contains(&price)
}

pub fn is_size(size: u32) -> bool {
    (1..=MAX_SIZE).contains(&size)
}

pub fn is_number(number: u32) -> bool {
    number >= 1
}

#[derive(Clone, Copy, PartialEq, Eq)]
pub enum Kind {
    MarketOnClose,
    Crowd,
    LimitOnClose,
    Book,
    MarketMaker,
    Offset,
    Yielding,
    Stop,
}

impl Kind {
    pub fn from_letter(letter: u8) -> Option<Kind> {
        Some(match letter {
            b'M' => Kind::MarketOnClose,
            b'C' => Kind::Crowd,
            b'L' => Kind::LimitOnClose,
            b'B' => Kind::Book,
            b'D' => Kind::MarketMaker,
            b'O' => Kind::Offset,
            b'G' => Kind::Yielding,
            b'S' => Kind::Stop,
            _ => return None,
        })
    }

    pub fn is_on_close(self) -> bool {
        matches!(self, Kind::MarketOnClose | Kind::LimitOnClose)
    }
}

#[derive(Clone, Copy, PartialEq, Eq)]
pub enum Side {
    Buy,
    Sell,
}

impl Side {
    pub fn from_letter(letter: u8) -> Option<Side> {
        match letter {
            b'B' => Some(Side::Buy),
            b'S' => Some(Side::Sell),
            _ => None,
        }
    }

    pub fn letter(self) -> char {
        match self {
            Side::Buy => 'B',
            Side::Sell => 'S',
        }
    }

    pub fn other(self) -> Side {
        match self {
            Side::Buy => Side::Sell,
            Side::Sell => Side::Buy,
        }
    }
}

#[derive(Clone, Copy)]
pub enum Tick {
    Plus,
    Minus,
}

#[derive(Clone, Copy)]
pub struct Sale {
    pub price: u32,
    pub tick: Tick,
}

impl Sale {
    /// The sale at `price` that comes after `last`, with its tick.
    pub fn after(last: Option<Sale>, price: u32) -> Sale {
        let tick = match last {
            None => Tick::Plus,
            Some(last) => match price.cmp(&last.price) {
                Ordering::Greater => Tick::Plus,
                Ordering::Less => Tick::Minus,
                Ordering::Equal => last.tick,
            },
        };
        Sale { price, tick }
    }
}

/// A bid and an offer; 0 is an absent one.
#[derive(Clone, Copy)]
pub struct Quote {
    pub bid: u32,
    pub offer: u32,
}

impl Quote {
    pub fn is_sound(self) -> bool {
        self.bid <= MAX_PRICE
            && self.offer <= MAX_PRICE
            && (self.bid == 0 || self.offer == 0 || self.bid < self.offer)
    }

    /// R: the last sale, moved into the quote where it lies outside.
    pub fn reference_price(self, last_sale: u32) -> u32 {
        if self.bid != 0 && last_sale < self.bid {
            self.bid
        } else if self.offer != 0 && last_sale > self.offer {
            self.offer
        } else {
            last_sale
        }
    }
}

/// A price together with the last sale before it.
#[derive(Clone, Copy)]
pub struct Terms {
    pub price: u32,
    pub last: Sale,
}

#[derive(Clone, Copy, PartialEq, Eq)]
pub enum Standing {
    Better,
    At,
    Out,
}

/// The classes by rank. They are filled in rising order.
pub const CLASSES: usize = 7;
pub const MUST_EXECUTE: usize = 0;
pub const OFFSETS: usize = 6;

#[derive(Clone, Copy)]
pub struct Order {
    pub number: u32,
    pub price: u32,
    pub size: u32,
    pub filled: u32,
    pub kind: Kind,
    pub side: Side,
    pub marked: bool,
}

impl Order {
    /// What the unused places of a list hold.
    pub const NONE: Order = Order {
        number: 0,
        price: 0,
        size: 0,
        filled: 0,
        kind: Kind::MarketOnClose,
        side: Side::Buy,
        marked: false,
    };

    /// Whether number and size are within their limits, and price and mark in keeping with the kind.
    pub fn is_sound(&self) -> bool {
        let price_fits = match self.kind {
            Kind::MarketOnClose | Kind::Crowd => self.price == 0,
            Kind::Yielding => self.price == 0 || is_price(self.price),
            Kind::LimitOnClose | Kind::Book | Kind::MarketMaker | Kind::Offset | Kind::Stop => {
                is_price(self.price)
            }
        };
        is_number(self.number)
            && is_size(self.size)
            && price_fits
            && (!self.marked || self.kind.is_on_close())
    }

    /// The bound of a marked order. It may be 0 or one cent above every price.
    fn tick_bound(&self, last: Sale) -> u32 {
        match (self.side, last.tick) {
            (Side::Sell, Tick::Plus) => last.price,
            (Side::Sell, Tick::Minus) => last.price + 1,
            (Side::Buy, Tick::Plus) => last.price - 1,
            (Side::Buy, Tick::Minus) => last.price,
        }
    }

    /// The effective limit, or none for an order at the market. A stop has none either.
    fn effective_limit(&self, last: Sale) -> Option<u32> {
        match self.kind {
            Kind::MarketOnClose if self.marked => Some(self.tick_bound(last)),
            Kind::LimitOnClose if self.marked => {
                let bound = self.tick_bound(last);
                Some(match self.side {
                    Side::Buy => self.price.min(bound),
                    Side::Sell => self.price.max(bound),
                })
            }
            Kind::MarketOnClose | Kind::Crowd | Kind::Stop => None,
            Kind::Yielding if self.price == 0 => None,
            Kind::LimitOnClose | Kind::Book | Kind::MarketMaker | Kind::Offset | Kind::Yielding => {
                Some(self.price)
            }
        }
    }

    pub fn standing(&self, terms: Terms) -> Standing {
        let Some(limit) = self.effective_limit(terms.last) else {
            return Standing::Better;
        };
        // How far the limit lies on the order's better side.
        let order = match self.side {
            Side::Buy => limit.cmp(&terms.price),
            Side::Sell => terms.price.cmp(&limit),
        };
        match order {
            Ordering::Greater => Standing::Better,
            Ordering::Equal => Standing::At,
            Ordering::Less => Standing::Out,
        }
    }

    /// Whether the price of the terms elects this order, were it a stop.
    fn is_elected(&self, price: u32) -> bool {
        match self.side {
            Side::Buy => price >= self.price,
            Side::Sell => price <= self.price,
        }
    }

    /// The rank of the order's class at a price, or none. Class 6 is open to the lighter side only,
    /// which is for the caller to see to.
    pub fn class(&self, terms: Terms) -> Option<usize> {
        use Standing::{At, Better, Out};
        match (self.kind, self.standing(terms)) {
            (Kind::Stop, _) => self.is_elected(terms.price).then_some(MUST_EXECUTE),
            (_, Out) => None,
            (Kind::Crowd, _) => Some(MUST_EXECUTE),
            (Kind::MarketOnClose | Kind::LimitOnClose | Kind::Book, Better) => Some(MUST_EXECUTE),
            (Kind::Book, At) => Some(1),
            (Kind::MarketMaker, _) => Some(1),
            (Kind::LimitOnClose, At) if !self.marked => Some(2),
            (Kind::MarketOnClose, At) => Some(3),
            (Kind::LimitOnClose, At) => Some(4),
            (Kind::Yielding, _) => Some(5),
            (Kind::Offset, _) => Some(OFFSETS),
        }
    }
}
