//! One sorted array of voids, walked back from r like the map; room is made by moving what stands behind. Not among the peers that were
//! asked for: it is linear twice over, and still the fastest on average at these sizes, so it has a table of its own.
use crate::order::{channel_of, key, last_key, start_of, Peer, NOTHING_FITS, OPEN_END, ROOM_FULL};

/// Key and end.
type Void = (u64, u64);

pub struct Array {
    voids: Vec<Void>,
    room: usize,
}

impl Peer for Array {
    fn open(channels: u64, room: usize) -> Self {
        Array { voids: (0..channels).rev().map(|channel| (key(0, channel), OPEN_END)).collect(), room }
    }

    fn book(&mut self, r: u64, f: u64, front: bool) -> Result<u64, u64> {
        let started = self.voids.partition_point(|void| void.0 <= last_key(r));
        let place = self.voids[..started].iter().rposition(|void| f <= void.1).ok_or(NOTHING_FITS)?;
        let (taken, end) = self.voids[place];
        let (channel, in_front) = (channel_of(taken), front && start_of(taken) < r);
        let behind = (key(f, channel), end);
        let after = started + self.voids[started..].partition_point(|void| *void < behind);
        match (in_front, f < end) {
            (true, true) if self.voids.len() == self.room => return Err(ROOM_FULL),
            (true, true) => {
                self.voids[place].1 = r;
                self.voids.insert(after, behind);
            }
            (true, false) => self.voids[place].1 = r,
            (false, true) => {
                self.voids.copy_within(place + 1..after, place);
                self.voids[after - 1] = behind;
            }
            (false, false) => {
                self.voids.remove(place);
            }
        }
        Ok(channel)
    }

    fn sweep(&mut self, moment: u64) -> u64 {
        let started = self.voids.partition_point(|void| void.0 < moment << 10);
        let mut kept = 0;
        for place in 0..started {
            if moment <= self.voids[place].1 {
                self.voids[kept] = self.voids[place];
                kept += 1;
            }
        }
        self.voids.drain(kept..started);
        (started - kept) as u64
    }

    fn kept(&self) -> usize {
        self.voids.len()
    }
}
