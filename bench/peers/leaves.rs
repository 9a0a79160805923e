//! The core's own kind of tree by hand and unproved, to learn what such a tree could still gain (docs/BENCHMARKS.md): the voids are the
//! leaves, AVL, flat, the way down noted and gone up again as far as anything changes. The switches are how nodes are laid out (`Store`),
//! BULK sweeps, SMOOTH descents, and ONE way for both halves of a booking.
mod alike;
mod packed;
mod store;
mod turns;
mod ways;

use crate::order::{channel_of, key, start_of, Peer, NOTHING_FITS, OPEN_END, ROOM_FULL};
pub use alike::Alike;
pub use packed::Packed;
use store::Store;
use turns::{ease, graft, grow, join, rise, settle};
use ways::{search, trace, trace_first, Found, Ways, NOWHERE};

pub struct Leaves<S, const BULK: bool, const SMOOTH: bool, const ONE: bool> {
    store: S,
    kept: usize,
    room: usize,
    ways: Ways,
}

impl<S: Store, const BULK: bool, const SMOOTH: bool, const ONE: bool> Leaves<S, BULK, SMOOTH, ONE> {
    fn insert(&mut self, key: u64, end: u64) {
        let depth = trace::<S, SMOOTH>(&self.store, &mut self.ways.walk, key);
        graft(&mut self.store, &self.ways.walk, depth, key, end);
        rise(&mut self.store, &self.ways.walk, depth);
        self.kept += 1;
    }

    /// The leaf at the end of the way goes, and the node above it.
    fn take_out(&mut self, depth: usize) {
        let (store, way) = (&mut self.store, &self.ways.walk);
        let (slot, above) = (way.at(depth), way.at(depth - 1));
        if S::SPLITS_STAY && S::side(slot) == 0 {
            // where the way last went right, another key is the least now
            if let Some(n) = (1..depth).rev().find(|n| S::side(way.at(*n)) == 1) {
                store.set_split(S::node(way.at(n)), store.split(S::node(slot)));
            }
        }
        store.give_leaf(slot);
        store.hang(above, S::beside(slot));
        store.give_node(S::node(slot));
        rise(store, way, depth - 1);
        self.kept -= 1;
    }

    /// Drops the voids below a slot that end before the moment, some of which there are: whether anything is left, and where a split stays
    /// with its node, what the least key is if it changed (else 0).
    fn clear(&mut self, slot: usize, moment: u64) -> (bool, u64) {
        let x = self.store.kid(slot);
        if self.store.is_leaf(x) {
            self.store.give_leaf(slot);
            self.kept -= 1;
            return (false, 0);
        }
        let (left, right) = (S::slot(x, 0), S::slot(x, 1));
        let (mut any_left, mut any_right, mut least, mut right_least) = (true, true, 0, 0);
        if self.store.low(left) < moment {
            (any_left, least) = self.clear(left, moment);
        }
        if self.store.low(right) < moment {
            (any_right, right_least) = self.clear(right, moment);
        }
        let split = if right_least == 0 { self.store.split(x) } else { right_least };
        if any_left && any_right {
            self.store.set_split(x, split);
            join(&mut self.store, slot, x);
            return (true, least);
        }
        if any_left || any_right {
            self.store.hang(slot, if any_left { left } else { right });
        }
        self.store.give_node(x);
        (any_left || any_right, if any_left { least } else { split })
    }

    /// The void found ends at r, and if any is left, what is behind f is a new void: above where their ways part only the least end changes.
    fn cut(&mut self, found: Found, r: u64, behind: Option<(u64, u64)>) {
        let (store, Ways { walk, tail, far }) = (&mut self.store, &mut self.ways);
        let Found { slot, depth, turn, common, deep, after } = found;
        let to = if behind.is_none() { 0 } else { common + 1 };
        store.set_ends(slot, r, r);
        if turn == 0 {
            ease(store, walk, depth, to);
        } else if ease(store, tail, depth, turn) {
            ease(store, walk, turn, to);
        }
        let Some((key, end)) = behind else { return };
        let parted = to.min(if turn == 0 { depth } else { turn });
        let mut n = parted;
        while 0 < n && r < store.low(walk.at(n - 1)) {
            n -= 1;
            store.lower(walk.at(n), r);
        }
        let deep = if key < after { deep } else { trace::<S, SMOOTH>(store, far, key) };
        (parted..deep).for_each(|n| store.raise(far.at(n), end));
        graft(store, far, deep, key, end);
        grow(store, far, deep);
        self.kept += 1;
    }
}

impl<S: Store, const BULK: bool, const SMOOTH: bool, const ONE: bool> Peer for Leaves<S, BULK, SMOOTH, ONE> {
    fn open(channels: u64, room: usize) -> Self {
        let mut tree = Leaves { store: S::new(room), kept: 1, room, ways: Ways { walk: NOWHERE, tail: NOWHERE, far: NOWHERE } };
        let first = tree.store.take_leaf(key(0, channels - 1), OPEN_END);
        tree.store.put(0, first);
        for channel in (0..channels - 1).rev() {
            tree.insert(key(0, channel), OPEN_END);
        }
        tree
    }

    fn book(&mut self, r: u64, f: u64, front: bool) -> Result<u64, u64> {
        let found = search::<S, SMOOTH, ONE>(&self.store, &mut self.ways, r, f).ok_or(NOTHING_FITS)?;
        let (taken, end) = self.store.void(found.slot);
        let (channel, in_front) = (channel_of(taken), front && start_of(taken) < r);
        if in_front && f < end && self.kept == self.room {
            return Err(ROOM_FULL);
        }
        if ONE && in_front {
            self.cut(found, r, (f < end).then_some((key(f, channel), end)));
            return Ok(channel);
        }
        if ONE && found.turn != 0 {
            (found.turn..=found.depth).for_each(|n| self.ways.walk.note(n, self.ways.tail.at(n)));
        }
        if in_front {
            self.store.set_ends(found.slot, r, r);
            settle(&mut self.store, &self.ways.walk, found.depth, 0);
        } else {
            self.take_out(found.depth);
        }
        if f < end {
            self.insert(key(f, channel), end);
        }
        Ok(channel)
    }

    fn sweep(&mut self, moment: u64) -> u64 {
        let before = self.kept;
        if BULK {
            if self.store.low(0) < moment {
                self.clear(0, moment);
            }
        } else {
            while self.store.low(0) < moment {
                let depth = trace_first::<S, SMOOTH>(&self.store, &mut self.ways.walk);
                self.take_out(depth);
            }
        }
        (before - self.kept) as u64
    }

    fn kept(&self) -> usize {
        self.kept
    }
}
