//! The session of docs/SESSION.md: what it keeps, its questions and its calls.

use crate::book::{self, Plan};
use crate::list::List;
use crate::rule::{self, Kind, Order, Quote, Sale, Side, Terms};
use crate::sharing::Method;

pub const ORDERS: usize = 1_024;
pub const NOTICES: usize = 64;

const MAX_TIME: u32 = 86_399;

/// An imbalance from 15:45 on is significant from this amount on.
const SIGNIFICANT: u64 = 50_000;

/// The questions that a session's calls ask, by their numbers. Question 22 is always answered yes,
/// and 20 too, since the work lists have as many places as the order list.
#[derive(Clone, Copy, PartialEq, Eq)]
pub enum Question {
    Done = 7,
    OutOfLimits = 8,
    Earlier = 9,
    Unlisted = 10,
    NotNow = 11,
    NoNotice = 12,
    AlreadyListed = 13,
    OrdersFull = 14,
    NotSmaller = 15,
    NoSale = 16,
    AlreadyMandatory = 17,
    Insignificant = 18,
    NoticesFull = 19,
    Unfillable = 21,
}

/// Goes on where the answer is yes, and refuses with the question where it is no.
fn ask(yes: bool, question: Question) -> Result<(), Question> {
    if yes { Ok(()) } else { Err(question) }
}

#[derive(Clone, Copy, PartialEq, Eq)]
enum Phase {
    Regular,
    Imbalance,
    Final,
    Closing,
}

impl Phase {
    fn at(time: u32) -> Phase {
        match time {
            0..56_700 => Phase::Regular,
            56_700..57_480 => Phase::Imbalance,
            57_480..57_600 => Phase::Final,
            57_600.. => Phase::Closing,
        }
    }

    /// Whether an order of the kind may come in. Whether an M or L finds its notice is question 12.
    fn lets_in(self, kind: Kind) -> bool {
        self != Phase::Closing || matches!(kind, Kind::Crowd | Kind::MarketMaker)
    }

    /// Whether an order of the kind may be cancelled or reduced.
    fn lets_off(self, kind: Kind, in_error: bool) -> bool {
        match kind {
            Kind::MarketOnClose | Kind::LimitOnClose | Kind::Offset => match self {
                Phase::Regular => true,
                Phase::Imbalance => in_error,
                Phase::Final | Phase::Closing => false,
            },
            Kind::Book | Kind::Yielding | Kind::Stop => self != Phase::Closing,
            Kind::Crowd | Kind::MarketMaker => true,
        }
    }
}

#[derive(Clone, Copy)]
pub struct Notice {
    /// Positive to buy, negative to sell.
    pub amount: i64,
    pub reference_price: u32,
    pub mandatory: bool,
}

impl Notice {
    /// What the unused places of a list hold.
    const NONE: Notice = Notice {
        amount: 0,
        reference_price: 0,
        mandatory: false,
    };

    /// The side of whose imbalance the notice tells.
    fn side(&self) -> Side {
        if self.amount > 0 {
            Side::Buy
        } else {
            Side::Sell
        }
    }
}

/// One call of a session.
pub enum Call {
    Time(u32),
    Sale(u32),
    Quote(Quote),
    Entry(Order),
    Cancel {
        number: u32,
        in_error: bool,
    },
    Reduction {
        number: u32,
        in_error: bool,
        size: u32,
    },
    Publication {
        significant: bool,
    },
    Close {
        price: u32,
    },
}

/// What an accepted call answers.
pub enum Outcome {
    Taken,
    Published(Notice),
    Printed { price: u32, volume: u64 },
}

pub struct Session {
    method: Method,
    time: u32,
    last_sale: Option<Sale>,
    quote: Quote,
    done: bool,
    orders: List<Order, ORDERS>,
    notices: List<Notice, NOTICES>,
    claims: [u32; ORDERS],
    gifts: [u32; ORDERS],
}

impl Session {
    pub fn new(method: Method) -> Session {
        Session {
            method,
            time: 0,
            last_sale: None,
            quote: Quote { bid: 0, offer: 0 },
            done: false,
            orders: List::new(Order::NONE),
            notices: List::new(Notice::NONE),
            claims: [0; ORDERS],
            gifts: [0; ORDERS],
        }
    }

    pub fn orders(&self) -> &[Order] {
        &self.orders
    }

    /// Carries out a call, or refuses it and changes nothing.
    pub fn apply(&mut self, call: Call) -> Result<Outcome, Question> {
        ask(!self.done, Question::Done)?;
        match call {
            Call::Time(time) => self.set_time(time)?,
            Call::Sale(price) => self.record_sale(price)?,
            Call::Quote(quote) => self.record_quote(quote)?,
            Call::Entry(order) => self.enter(order)?,
            Call::Cancel { number, in_error } => self.cancel(number, in_error)?,
            Call::Reduction {
                number,
                in_error,
                size,
            } => self.reduce(number, in_error, size)?,
            Call::Publication { significant } => {
                return self.publish(significant).map(Outcome::Published);
            }
            Call::Close { price } => {
                let volume = self.close(price)?;
                return Ok(Outcome::Printed { price, volume });
            }
        }
        Ok(Outcome::Taken)
    }

    fn phase(&self) -> Phase {
        Phase::at(self.time)
    }

    /// The place of the first order of a number.
    fn find(&self, number: u32) -> Option<usize> {
        self.orders.iter().position(|order| order.number == number)
    }

    fn mandatory_notice(&self) -> Option<&Notice> {
        self.notices.iter().find(|notice| notice.mandatory)
    }

    fn set_time(&mut self, time: u32) -> Result<(), Question> {
        ask(time <= MAX_TIME, Question::OutOfLimits)?;
        ask(time >= self.time, Question::Earlier)?;
        self.time = time;
        Ok(())
    }

    fn record_sale(&mut self, price: u32) -> Result<(), Question> {
        ask(rule::is_price(price), Question::OutOfLimits)?;
        ask(self.phase() != Phase::Closing, Question::NotNow)?;
        self.last_sale = Some(Sale::after(self.last_sale, price));
        Ok(())
    }

    fn record_quote(&mut self, quote: Quote) -> Result<(), Question> {
        ask(quote.is_sound(), Question::OutOfLimits)?;
        ask(self.phase() != Phase::Closing, Question::NotNow)?;
        self.quote = quote;
        Ok(())
    }

    fn enter(&mut self, order: Order) -> Result<(), Question> {
        let phase = self.phase();
        ask(order.is_sound(), Question::OutOfLimits)?;
        ask(phase.lets_in(order.kind), Question::NotNow)?;
        if phase != Phase::Regular && order.kind.is_on_close() {
            let notice = self.mandatory_notice();
            let is_asked_for = notice.is_some_and(|notice| notice.side() == order.side.other());
            ask(is_asked_for, Question::NoNotice)?;
        }
        ask(self.find(order.number).is_none(), Question::AlreadyListed)?;
        ask(!self.orders.is_full(), Question::OrdersFull)?;
        self.orders.push(order);
        Ok(())
    }

    fn cancel(&mut self, number: u32, in_error: bool) -> Result<(), Question> {
        ask(rule::is_number(number), Question::OutOfLimits)?;
        let place = self.find(number).ok_or(Question::Unlisted)?;
        let kind = self.orders[place].kind;
        ask(self.phase().lets_off(kind, in_error), Question::NotNow)?;
        self.orders.remove(place);
        Ok(())
    }

    fn reduce(&mut self, number: u32, in_error: bool, size: u32) -> Result<(), Question> {
        ask(
            rule::is_number(number) && rule::is_size(size),
            Question::OutOfLimits,
        )?;
        let place = self.find(number).ok_or(Question::Unlisted)?;
        let phase = self.phase();
        let order = &mut self.orders[place];
        ask(phase.lets_off(order.kind, in_error), Question::NotNow)?;
        ask(size < order.size, Question::NotSmaller)?;
        order.size = size;
        order.filled = 0;
        Ok(())
    }

    fn publish(&mut self, significant: bool) -> Result<Notice, Question> {
        let phase = self.phase();
        ask(phase != Phase::Closing, Question::NotNow)?;
        let last = self.last_sale.ok_or(Question::NoSale)?;
        let mandatory = phase != Phase::Regular;
        ask(
            !mandatory || self.mandatory_notice().is_none(),
            Question::AlreadyMandatory,
        )?;
        let reference_price = self.quote.reference_price(last.price);
        let amount = book::imbalance(
            &self.orders,
            Terms {
                price: reference_price,
                last,
            },
        );
        let matters = !mandatory || significant || amount.unsigned_abs() >= SIGNIFICANT;
        ask(amount != 0 && matters, Question::Insignificant)?;
        ask(!self.notices.is_full(), Question::NoticesFull)?;
        let notice = Notice {
            amount,
            reference_price,
            mandatory,
        };
        self.notices.push(notice);
        Ok(notice)
    }

    /// Fills the orders at a price and answers the volume.
    fn close(&mut self, price: u32) -> Result<u64, Question> {
        ask(rule::is_price(price), Question::OutOfLimits)?;
        ask(self.phase() == Phase::Closing, Question::NotNow)?;
        let last = self.last_sale.ok_or(Question::NoSale)?;
        let plan = Plan::new(&self.orders, Terms { price, last }).ok_or(Question::Unfillable)?;
        // One claim and one gift for each order; later places keep what they held.
        let count = self.orders.len();
        let claims = &mut self.claims[..count];
        let gifts = &mut self.gifts[..count];
        plan.fill(&mut self.orders, self.method, claims, gifts);
        self.done = true;
        Ok(plan.volume())
    }
}
