//! The streams: 004's traffic (IV), and one made to be worst for walking back from r. Each as typed orders for the peers and as
//! records for the core. One order in sixteen is a sweep to the moment the clock has reached.
use crate::order::{Order, LEAP, LONGEST};
use crate::random::Random;

pub const CHANNELS: u64 = 64;
/// 01's greatest.
pub const ROOM: u64 = 4_096;
pub const ORDERS: usize = 131_072;
pub const MEAN_LENGTH: f64 = 1_000.0;
/// 004 names the distribution and not its shape; 1.5 is within what the literature takes for such traffic (the variance is infinite).
pub const SHAPE: f64 = 1.5;
/// The same for all: the streams of one load and one number of channels differ in their offsets alone.
const SEED: u64 = 1;

#[derive(Clone)]
pub struct Stream {
    pub name: String,
    pub channels: u64,
    pub room: u64,
    pub orders: Vec<Order>,
}

impl Stream {
    /// The OL record: no line, the widest leap, floor 0.
    pub fn opening(&self) -> Vec<u8> {
        let mut record = vec![0x4F, 0x4C, self.channels as u8, 0];
        record.extend((LEAP as u32).to_be_bytes());
        record.extend([0; 6]);
        record
    }

    pub fn records(&self) -> Vec<u8> {
        self.orders.iter().flat_map(|order| record(*order)).collect()
    }

    pub fn bookings(&self) -> usize {
        self.orders.iter().filter(|order| matches!(order, Order::Book { .. })).count()
    }
}

/// OB or OS.
pub fn record(order: Order) -> Vec<u8> {
    match order {
        Order::Book { arrival, length } => [&[0x4F, 0x42], &arrival.to_be_bytes()[2..], &(length as u32).to_be_bytes(), &[0, 0]].concat(),
        Order::Sweep { moment } => [&[0x4F, 0x53], &moment.to_be_bytes()[2..]].concat(),
    }
}

/// 004, IV: lengths and gaps of the orders Pareto, offsets uniform from a tenth of the range to the range.
pub fn pareto(channels: u64, load: f64, range: u64, orders: usize) -> Stream {
    let mut random = Random::new(SEED);
    let gap = MEAN_LENGTH / (channels as f64 * load);
    let (mut clock, mut list) = (0.0, Vec::with_capacity(orders));
    for n in 1..=orders {
        if n % 16 == 0 {
            list.push(Order::Sweep { moment: clock as u64 });
            continue;
        }
        clock += random.pareto(gap, SHAPE);
        let length = (random.pareto(MEAN_LENGTH, SHAPE).round() as u64).clamp(1, LONGEST);
        list.push(Order::Book { arrival: clock as u64 + random.uniform(range / 10, range), length });
    }
    Stream { name: format!("{range}-{load}"), channels, room: ROOM, orders: list }
}

/// Channel 0 has a great many short voids up to a wall and is booked from there on; on the other channels an early void is still open.
/// Long bursts are booked after the wall, each right before the last, so of all the voids that start before r only an early one fits.
/// In each sixteen orders a sweep drops one short void, a booking cuts another in two, and fourteen are long bursts.
pub fn walk_back(orders: usize) -> Stream {
    const WIDE: u64 = 1_000;
    let voids = ROOM - CHANNELS - 32;
    let wall = voids * WIDE;
    let book = |arrival, length| Order::Book { arrival, length };
    let mut list: Vec<Order> = (1..voids).map(|n| book(n * WIDE, 1)).collect();
    list.push(book(wall, LONGEST));
    let (mut arrival, mut moment, mut cuts) = (wall + WIDE * orders as u64, 2, 0);
    for n in list.len() + 1..=orders {
        list.push(match n % 16 {
            0 => {
                moment += WIDE;
                Order::Sweep { moment }
            }
            8 => {
                // the last quarter, again and again, each time further inside
                let (void, pass) = (voids - 1 - cuts % (voids / 4), 1 + cuts / (voids / 4));
                cuts += 1;
                book(void * WIDE + 200 * pass, 1)
            }
            _ => {
                arrival -= WIDE;
                book(arrival, WIDE)
            }
        });
    }
    Stream { name: "walk-back".into(), channels: CHANNELS, room: ROOM, orders: list }
}

/// How the tables call a stream: RANGE-LOAD, as in 30000-0.8, or walk-back.
pub fn named(name: &str) -> Option<Stream> {
    if name == "walk-back" {
        return Some(walk_back(ORDERS / 4));
    }
    let (range, load) = name.split_once('-')?;
    Some(pareto(CHANNELS, load.parse().ok()?, range.parse().ok()?, ORDERS))
}

/// 004's streams at both loads; one that keeps nearly as many voids as 01's greatest room and is refused nothing under 8; the one that
/// is worst for walking back.
pub const NAMES: [&str; 10] =
    ["3000-0.8", "30000-0.8", "100000-0.8", "300000-0.8", "3000-0.5", "30000-0.5", "100000-0.5", "300000-0.5", "125000-0.8", "walk-back"];

pub fn all() -> Vec<Stream> {
    NAMES.iter().map(|name| named(name).unwrap()).collect()
}
