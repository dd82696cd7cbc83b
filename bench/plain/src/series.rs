//! One series: the book, the slips that are out, the away quotes, and the five calls.
//! Every rule is written once, for `BUY` true or false.

use crate::fault::Fault;
use crate::out::Out;

const PLACES: usize = 64;
const SLIPS: usize = 64;
const EXCHANGES: usize = 15;
const ORDERS: u32 = 1_000_000;
const TOP: u32 = 100_000;

#[derive(Clone, Copy)]
pub enum Ladder {
    /// every cent
    Penny,
    /// every cent below 300, then multiples of 5
    Nickel,
    /// multiples of 5 below 300, then multiples of 10
    Dime,
}

impl Ladder {
    /// The distance of rungs below 300 and from 300 on.
    #[inline]
    fn steps(self) -> (u32, u32) {
        match self {
            Ladder::Penny => (1, 1),
            Ladder::Nickel => (1, 5),
            Ladder::Dime => (5, 10),
        }
    }

    #[inline]
    pub fn rung(self, price: u32) -> bool {
        let (low, high) = self.steps();
        let step = if price < 300 { low } else { high };
        price != 0 && price <= TOP && price % step == 0
    }

    /// The next rung above a rung, 0 if there is none.
    #[inline]
    fn above(self, rung: u32) -> u32 {
        let (low, high) = self.steps();
        if rung >= TOP { 0 } else { rung + if rung < 300 { low } else { high } }
    }

    /// The next rung below a rung, 0 if there is none.
    #[inline]
    fn below(self, rung: u32) -> u32 {
        let (low, high) = self.steps();
        rung - if rung <= 300 { low } else { high }
    }

    fn lowest(self) -> u32 {
        self.steps().0
    }

    /// The rung next to this one, away from what a buy or a sell wants: below for a buy.
    #[inline]
    fn shown<const BUY: bool>(self, rung: u32) -> u32 {
        if BUY { self.below(rung) } else { self.above(rung) }
    }

    /// n rungs on in the direction in which the side gives way: up for a buy.
    fn past<const BUY: bool>(self, mut rung: u32, n: u32) -> u32 {
        for _ in 0..n {
            let next = if BUY { self.above(rung) } else { self.below(rung) };
            if next == 0 {
                break;
            }
            rung = next;
        }
        rung
    }
}

#[derive(Clone, Copy, Default)]
pub struct Quote {
    pub bid: u32,
    pub bid_size: u32,
    pub offer: u32,
    pub offer_size: u32,
}

/// An order as it is entered.
pub struct Fields {
    pub id: u32,
    pub firm: u32,
    pub buy: bool,
    pub market: bool,
    pub routable: bool,
    pub limit: u32,
    pub size: u32,
    pub protection: u32,
}

#[derive(Clone, Copy, Default)]
#[allow(dead_code)]
struct Order {
    arrival: u32,
    id: u32,
    firm: u32,
    buy: bool,
    market: bool,
    /// 0 for a market order
    limit: u32,
    /// the protection limit, 0 for none
    protection: u32,
    booked: u32,
    displayed: u32,
    entered: u32,
    remaining: u32,
    /// booked and displayed price before the call in hand
    before: (u32, u32),
}

impl Order {
    /// The price is no worse than the limit and the protection limit.
    #[inline]
    fn within<const BUY: bool>(&self, price: u32) -> bool {
        bounds::<BUY>(self.limit, price) && bounds::<BUY>(self.protection, price)
    }
}

#[derive(Clone, Copy, Default)]
struct Slip {
    number: u32,
    arrival: u32,
    id: u32,
    exchange: u32,
    price: u32,
    size: u32,
}

/// The price is no worse for the side than the bound; 0 bounds nothing.
#[inline]
fn bounds<const BUY: bool>(bound: u32, price: u32) -> bool {
    if BUY { bound == 0 || price <= bound } else { price >= bound }
}

/// The lower of those that are present.
#[inline]
fn lower(a: u32, b: u32) -> u32 {
    match (a, b) {
        (0, p) | (p, 0) => p,
        _ => a.min(b),
    }
}

pub struct Series {
    pub ladder: Ladder,
    wide: bool,
    open: bool,
    accepted: u32,
    slips_made: u32,
    quotes: [Quote; EXCHANGES],
    best_bid: u32,
    best_offer: u32,
    /// The resting orders, in order of arrival.
    orders: [Order; PLACES],
    resting: usize,
    slips: [Slip; SLIPS],
    out: usize,
}

impl Series {
    pub fn new(ladder: Ladder, wide: bool) -> Series {
        Series {
            ladder,
            wide,
            open: false,
            accepted: 0,
            slips_made: 0,
            quotes: [Quote::default(); EXCHANGES],
            best_bid: 0,
            best_offer: 0,
            orders: [Order::default(); PLACES],
            resting: 0,
            slips: [Slip::default(); SLIPS],
            out: 0,
        }
    }

    pub fn open(&mut self) -> Result<(), Fault> {
        if self.open {
            return Err(Fault::series(8));
        }
        self.open = true;
        Ok(())
    }

    fn opened(&self) -> Result<(), Fault> {
        if self.open { Ok(()) } else { Err(Fault::series(7)) }
    }

    /// The best away price on the side that a buy or a sell would hit.
    #[inline]
    fn away_best<const BUY: bool>(&self) -> u32 {
        if BUY { self.best_offer } else { self.best_bid }
    }

    pub fn cancel(&mut self, id: u32, out: &mut Out) -> Result<(), Fault> {
        self.opened()?;
        let Some(at) = self.orders[..self.resting].iter().position(|o| o.id == id) else {
            return Err(Fault::series(18));
        };
        let order = &self.orders[at];
        out.record(b'C', [order.arrival, order.remaining, 1]);
        self.remove(at);
        Ok(())
    }

    pub fn reply(&mut self, number: u32, filled: u32, out: &mut Out) -> Result<(), Fault> {
        self.opened()?;
        let Some(at) = self.slips[..self.out].iter().position(|s| s.number == number) else {
            return Err(Fault::series(19));
        };
        let slip = self.slips[at];
        if filled > slip.size {
            return Err(Fault::series(20));
        }
        if filled > 0 {
            out.record(b'Y', [slip.arrival, number, filled]);
        }
        if filled < slip.size {
            out.record(b'C', [slip.arrival, slip.size - filled, 4]);
        }
        self.out -= 1;
        self.slips[at] = self.slips[self.out];
        Ok(())
    }

    pub fn away(&mut self, exchange: usize, quote: Quote, out: &mut Out) {
        self.quotes[exchange - 1] = quote;
        self.best_bid = 0;
        self.best_offer = 0;
        for quote in &self.quotes {
            self.best_bid = self.best_bid.max(quote.bid);
            self.best_offer = lower(self.best_offer, quote.offer);
        }
        for order in &mut self.orders[..self.resting] {
            order.before = (order.booked, order.displayed);
            if order.buy && !bounds::<true>(self.best_offer, order.booked) {
                order.booked = self.best_offer;
                order.displayed = self.ladder.shown::<true>(self.best_offer);
            } else if !order.buy && !bounds::<false>(self.best_bid, order.booked) {
                order.booked = self.best_bid;
                order.displayed = self.ladder.shown::<false>(self.best_bid);
            }
        }
        let mut at = 0;
        while at < self.resting {
            at = if self.orders[at].buy { self.turn::<true>(at, out) } else { self.turn::<false>(at, out) };
        }
    }

    /// Takes the order at this place through trading and resting; answers the place of the next.
    fn turn<const BUY: bool>(&mut self, at: usize, out: &mut Out) -> usize {
        let at = self.trade::<BUY>(at, out);
        if !self.rest::<BUY>(at, out) {
            self.remove(at);
            return at;
        }
        let order = &self.orders[at];
        if (order.booked, order.displayed) != order.before {
            out.record(b'B', [order.arrival, order.booked, order.displayed, order.remaining]);
        }
        at + 1
    }

    pub fn order(&mut self, fields: &Fields, out: &mut Out) -> Result<(), Fault> {
        self.opened()?;
        if self.orders[..self.resting].iter().any(|o| o.id == fields.id) || self.slips[..self.out].iter().any(|s| s.id == fields.id) {
            return Err(Fault::series(10));
        }
        if self.resting == PLACES {
            return Err(Fault::series(11));
        }
        if self.accepted == ORDERS {
            return Err(Fault::series(12));
        }
        if fields.routable && SLIPS - self.out < EXCHANGES {
            return Err(Fault::series(13));
        }
        if fields.buy { self.enter::<true>(fields, out) } else { self.enter::<false>(fields, out) }
    }

    /// The monitor, then trading, routing and resting.
    fn enter<const BUY: bool>(&mut self, fields: &Fields, out: &mut Out) -> Result<(), Fault> {
        let (best_bid, best_offer, here) = self.national();
        let mut market = fields.market;
        let mut limit = fields.limit;
        if self.monitor::<BUY>(fields, best_bid, best_offer, here)? {
            market = false;
            limit = self.ladder.lowest();
        }
        let contra = if BUY { best_offer } else { best_bid };
        let protection =
            if fields.protection == 0 || contra == 0 { 0 } else { self.ladder.past::<BUY>(contra, fields.protection) };
        self.accepted += 1;
        out.record(b'N', [self.accepted, fields.id]);
        self.orders[self.resting] = Order {
            arrival: self.accepted,
            id: fields.id,
            firm: fields.firm,
            buy: BUY,
            market,
            limit,
            protection,
            booked: 0,
            displayed: 0,
            entered: fields.size,
            remaining: fields.size,
            before: (0, 0),
        };
        self.resting += 1;
        let at = self.trade::<BUY>(self.resting - 1, out);
        let first = if fields.routable { self.route::<BUY>(at) } else { self.out };
        if self.rest::<BUY>(at, out) {
            let order = &self.orders[at];
            out.record(b'B', [order.arrival, order.booked, order.displayed, order.remaining]);
        } else {
            self.resting -= 1;
        }
        for slip in &self.slips[first..self.out] {
            out.record(b'S', [slip.number, slip.arrival, slip.exchange, slip.price, slip.size]);
        }
        Ok(())
    }

    /// The best bid and offer of all markets, and the lowest displayed sell here.
    fn national(&self) -> (u32, u32, u32) {
        let mut bid = self.best_bid;
        let mut here = 0;
        for order in &self.orders[..self.resting] {
            if order.buy {
                bid = bid.max(order.displayed);
            } else {
                here = lower(here, order.displayed);
            }
        }
        (bid, lower(self.best_offer, here), here)
    }

    /// Refuses, or tells whether the order becomes a limit sell at the lowest rung.
    fn monitor<const BUY: bool>(&self, fields: &Fields, bid: u32, offer: u32, here: u32) -> Result<bool, Fault> {
        let limit = fields.limit;
        if fields.market {
            if !self.wide && offer != 0 && offer >= bid + 500 {
                return Err(Fault::monitor(14));
            }
            if !BUY && bid == 0 {
                if here != 0 && here <= 10 {
                    return Ok(true);
                }
                if offer > 10 {
                    return Err(Fault::monitor(15));
                }
            }
            return Ok(false);
        }
        if BUY {
            let far = if offer == 0 {
                false
            } else if offer <= 50 {
                limit >= offer + 25
            } else {
                limit >= offer + 250 || 2 * limit >= 3 * offer
            };
            if far { Err(Fault::monitor(16)) } else { Ok(false) }
        } else {
            let far = bid > 25 && (limit + 250 <= bid || 2 * limit <= bid);
            if far { Err(Fault::monitor(17)) } else { Ok(false) }
        }
    }

    /// Fills the order at this place while it meets a price that it may take; answers its place, which moves down where a
    /// maker before it is filled whole.
    fn trade<const BUY: bool>(&mut self, mut at: usize, out: &mut Out) -> usize {
        let away = self.away_best::<BUY>();
        while self.orders[at].remaining > 0 {
            let Some(met) = self.best_contra::<BUY>() else {
                break;
            };
            let (taker, maker) = (&self.orders[at], &self.orders[met]);
            let price = maker.booked;
            if !taker.within::<BUY>(price) || !bounds::<BUY>(away, price) {
                break;
            }
            let size = taker.remaining.min(maker.remaining);
            out.record(b'F', [taker.arrival, maker.arrival, price, size]);
            self.orders[at].remaining -= size;
            self.orders[met].remaining -= size;
            if self.orders[met].remaining == 0 {
                self.remove(met);
                if met < at {
                    at -= 1;
                }
            }
        }
        at
    }

    /// The resting order that a buy or a sell meets next: the best booked price, then the first to arrive.
    #[inline]
    fn best_contra<const BUY: bool>(&self) -> Option<usize> {
        let mut found = None;
        let mut best = if BUY { u32::MAX } else { 0 };
        for (at, order) in self.orders[..self.resting].iter().enumerate() {
            if order.buy != BUY && (if BUY { order.booked < best } else { order.booked > best }) {
                best = order.booked;
                found = Some(at);
            }
        }
        found
    }

    /// Sends what remains to the exchanges at the away best; answers where its slips begin.
    fn route<const BUY: bool>(&mut self, at: usize) -> usize {
        let first = self.out;
        let away = self.away_best::<BUY>();
        let order = &mut self.orders[at];
        if away == 0 || !order.within::<BUY>(away) {
            return first;
        }
        for (quote, exchange) in self.quotes.iter().zip(1..) {
            let (price, size) = if BUY { (quote.offer, quote.offer_size) } else { (quote.bid, quote.bid_size) };
            if price != away || order.remaining == 0 {
                continue;
            }
            let size = size.min(order.remaining);
            order.remaining -= size;
            self.slips_made += 1;
            self.slips[self.out] =
                Slip { number: self.slips_made, arrival: order.arrival, id: order.id, exchange, price, size };
            self.out += 1;
        }
        first
    }

    /// Books the order where it may rest, or cancels what remains; tells whether it rests.
    #[inline]
    fn rest<const BUY: bool>(&mut self, at: usize, out: &mut Out) -> bool {
        let away = self.away_best::<BUY>();
        let ladder = self.ladder;
        let order = &mut self.orders[at];
        if order.remaining == 0 {
            return false;
        }
        if away != 0 && order.within::<BUY>(away) {
            order.booked = away;
            order.displayed = ladder.shown::<BUY>(away);
            return true;
        }
        if !order.market && bounds::<BUY>(order.protection, order.limit) {
            order.booked = order.limit;
            order.displayed = order.limit;
            return true;
        }
        let cause = if order.protection != 0 { 2 } else { 3 };
        out.record(b'C', [order.arrival, order.remaining, cause]);
        false
    }

    /// Frees a place; those behind move up.
    fn remove(&mut self, at: usize) {
        self.orders.copy_within(at + 1..self.resting, at);
        self.resting -= 1;
    }
}
