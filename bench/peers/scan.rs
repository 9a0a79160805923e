//! The LAUC-VF scan of 004, II-B: the voids of each channel in a list, all channels looked through for each booking.
//! A list is in order of time, so it is left at the first void that starts after r.
use crate::order::{Peer, NOTHING_FITS, OPEN_END, ROOM_FULL};

#[derive(Clone, Copy)]
struct Void {
    start: u64,
    end: u64,
}

pub struct Scan {
    channels: Vec<Vec<Void>>,
    kept: usize,
    room: usize,
}

impl Scan {
    /// The channel and the place in its list of the void that fits and starts latest; equal starts: the lowest channel.
    fn seek(&self, r: u64, f: u64) -> Option<(usize, usize)> {
        let (mut best, mut latest) = (None, 0);
        for (channel, voids) in self.channels.iter().enumerate() {
            let started = voids.iter().take_while(|void| void.start <= r).count();
            // the voids of a channel are apart, so only the last that has started can reach f
            if let Some(void) = voids[..started].last() {
                if f <= void.end && (latest < void.start || best.is_none()) {
                    best = Some((channel, started - 1));
                    latest = void.start;
                }
            }
        }
        best
    }
}

impl Peer for Scan {
    fn open(channels: u64, room: usize) -> Self {
        let whole = Void { start: 0, end: OPEN_END };
        Scan { channels: vec![vec![whole]; channels as usize], kept: channels as usize, room }
    }

    fn book(&mut self, r: u64, f: u64, front: bool) -> Result<u64, u64> {
        let (channel, place) = self.seek(r, f).ok_or(NOTHING_FITS)?;
        let voids = &mut self.channels[channel];
        let Void { start, end } = voids[place];
        match (front && start < r, f < end) {
            (true, true) if self.kept == self.room => return Err(ROOM_FULL),
            (true, true) => {
                voids[place].end = r;
                voids.insert(place + 1, Void { start: f, end });
                self.kept += 1;
            }
            (true, false) => voids[place].end = r,
            (false, true) => voids[place].start = f,
            (false, false) => {
                voids.remove(place);
                self.kept -= 1;
            }
        }
        Ok(channel as u64)
    }

    fn sweep(&mut self, moment: u64) -> u64 {
        let mut dropped = 0;
        for voids in &mut self.channels {
            let over = voids.iter().take_while(|void| void.end < moment).count();
            if 0 < over {
                voids.drain(..over);
                dropped += over;
            }
        }
        self.kept -= dropped;
        dropped as u64
    }

    fn kept(&self) -> usize {
        self.kept
    }
}
