//! Orders and replies as the peers take them, and what every peer shares: 01's tests on the numbers of an order, in 01's order.
//! A peer is only what keeps the voids. The streams permit no delay line, so there is one start time to try.

pub const LAST_MOMENT: u64 = (1 << 48) - 1;
pub const OPEN_END: u64 = 1 << 48;
pub const LEAP: u64 = (1 << 32) - 1;
pub const LONGEST: u64 = (1 << 32) - 1;
pub const NOTHING_FITS: u64 = 7;
pub const ROOM_FULL: u64 = 8;

#[derive(Clone, Copy, PartialEq, Eq, Debug)]
pub enum Order {
    Book { arrival: u64, length: u64 },
    Sweep { moment: u64 },
}

/// What all that fill voids must agree in.
#[derive(Clone, Copy, Default, PartialEq, Eq, Debug)]
pub struct Reply {
    pub code: u64,
    pub channel: u64,
    pub start: u64,
    pub finish: u64,
    pub dropped: u64,
}

/// Rising start, equal starts by falling channel, as plain rising order of one number; the core packs it alike.
pub fn key(start: u64, channel: u64) -> u64 {
    start << 10 | (1023 - channel)
}

/// The greatest key of a start: that of channel 0.
pub fn last_key(start: u64) -> u64 {
    key(start, 0)
}

pub fn start_of(key: u64) -> u64 {
    key >> 10
}

pub fn channel_of(key: u64) -> u64 {
    1023 - (key & 1023)
}

/// What keeps the voids of one link.
pub trait Peer {
    /// The most voids kept is `room`; each channel begins with the void (0, open end).
    fn open(channels: u64, room: usize) -> Self;
    /// Takes the Min-SV fit of (r, f) and puts its pieces in its place, that in front only if told so: the channel, or code 7 or 8.
    fn book(&mut self, r: u64, f: u64, front: bool) -> Result<u64, u64>;
    /// Drops each void that ends before the moment: how many.
    fn sweep(&mut self, moment: u64) -> u64;
    fn kept(&self) -> usize;
}

pub struct Link<P> {
    floor: u64,
    pub peer: P,
}

impl<P: Peer> Link<P> {
    pub fn open(channels: u64, room: usize) -> Self {
        Link { floor: 0, peer: P::open(channels, room) }
    }

    pub fn act(&mut self, order: Order) -> Reply {
        match order {
            Order::Book { arrival, length } => self.book(arrival, length).unwrap_or_else(refused),
            Order::Sweep { moment } => self.sweep(moment).unwrap_or_else(refused),
        }
    }

    fn book(&mut self, r: u64, length: u64) -> Result<Reply, u64> {
        let f = r + length;
        if length == 0 {
            return Err(3);
        }
        if r < self.floor {
            return Err(4);
        }
        if LAST_MOMENT < f {
            return Err(6);
        }
        let channel = self.peer.book(r, f, self.floor < r)?; // 02, K3: a piece that ends at the floor has ended
        Ok(Reply { channel, start: r, finish: f, ..Reply::default() })
    }

    fn sweep(&mut self, moment: u64) -> Result<Reply, u64> {
        if moment < self.floor {
            return Err(9);
        }
        if self.floor + LEAP < moment {
            return Err(10);
        }
        self.floor = moment;
        Ok(Reply { dropped: self.peer.sweep(moment + 1), ..Reply::default() }) // K3: each void with e at or before the moment
    }
}

fn refused(code: u64) -> Reply {
    Reply { code, ..Reply::default() }
}
