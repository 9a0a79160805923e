//! Horizon (004, II-B): each channel has one moment from which it is free for ever; the latest at or before r is taken. It fills no
//! void, so it loses more bursts and does far less work: the floor, not a rival. Kept as one sorted array of keys.
use crate::order::{channel_of, key, last_key, Peer, NOTHING_FITS};

pub struct Horizon {
    free: Vec<u64>,
}

impl Peer for Horizon {
    fn open(channels: u64, _room: usize) -> Self {
        Horizon { free: (0..channels).rev().map(|channel| key(0, channel)).collect() }
    }

    fn book(&mut self, r: u64, f: u64, _front: bool) -> Result<u64, u64> {
        let after = self.free.partition_point(|free| *free <= last_key(r));
        let taken = after.checked_sub(1).ok_or(NOTHING_FITS)?;
        let channel = channel_of(self.free[taken]);
        let new = key(f, channel);
        let place = taken + self.free[after..].partition_point(|free| *free < new);
        self.free.copy_within(after..place + 1, taken);
        self.free[place] = new;
        Ok(channel)
    }

    fn sweep(&mut self, _moment: u64) -> u64 {
        0
    }

    fn kept(&self) -> usize {
        self.free.len()
    }
}
