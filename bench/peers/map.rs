//! The standard library's balanced map: start and falling channel in one key, the end as its value; walked back from r to the first
//! void that fits. A channel has at most one void across T, so a sweep's walk meets at most that many besides those it drops.
use crate::order::{channel_of, key, last_key, start_of, Peer, NOTHING_FITS, OPEN_END, ROOM_FULL};
use std::collections::BTreeMap;

pub struct Map {
    voids: BTreeMap<u64, u64>,
    room: usize,
}

impl Peer for Map {
    fn open(channels: u64, room: usize) -> Self {
        Map { voids: (0..channels).map(|channel| (key(0, channel), OPEN_END)).collect(), room }
    }

    fn book(&mut self, r: u64, f: u64, front: bool) -> Result<u64, u64> {
        let full = self.voids.len() == self.room;
        let fit = self.voids.range_mut(..=last_key(r)).rev().find(|(_, end)| f <= **end);
        let (&taken, end) = fit.ok_or(NOTHING_FITS)?;
        let (channel, in_front, old) = (channel_of(taken), front && start_of(taken) < r, *end);
        if in_front {
            if full && f < old {
                return Err(ROOM_FULL);
            }
            *end = r;
        } else {
            self.voids.remove(&taken);
        }
        if f < old {
            self.voids.insert(key(f, channel), old);
        }
        Ok(channel)
    }

    fn sweep(&mut self, moment: u64) -> u64 {
        self.voids.extract_if(..moment << 10, |_, end| *end < moment).count() as u64
    }

    fn kept(&self) -> usize {
        self.voids.len()
    }
}
