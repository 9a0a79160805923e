//! Ways through the tree: the slots from the root's down to a leaf, noted on the way down and gone up again. Indices are unchecked.
use super::store::Store;
use crate::order::last_key;
use std::hint::select_unpredictable;

/// The slots from the root's down.
pub struct Way([u16; 32]);

pub const NOWHERE: Way = Way([0; 32]);

impl Way {
    pub fn at(&self, n: usize) -> usize {
        debug_assert!(n < self.0.len());
        unsafe { *self.0.get_unchecked(n) as usize }
    }

    pub fn note(&mut self, n: usize, slot: usize) {
        debug_assert!(n < self.0.len());
        unsafe { *self.0.get_unchecked_mut(n) = slot as u16 };
    }
}

/// Where the search ends: the leaf's slot and depth; `turn`: the depth of the marked node it was found below (0: none, it is where the
/// walk ended). With ONE, of the way to where a void from f on belongs: down to depth `common` at least it is the walk's; its depth; the
/// least key behind it, which tells whether f is some void's start, so that the channel decides.
pub struct Found {
    pub slot: usize,
    pub depth: usize,
    pub turn: usize,
    pub common: usize,
    pub deep: usize,
    pub after: u64,
}

/// What hangs at a node on a side, chosen by a branch or without.
fn next<S: Store, const SMOOTH: bool>(store: &S, x: usize, right: bool) -> usize {
    let kid = |side| store.kid(S::slot(x, side));
    if SMOOTH {
        return select_unpredictable(right, loaded(kid(1)), loaded(kid(0)));
    }
    if right { kid(1) } else { kid(0) }
}

/// The same number, which the compiler takes as loaded already: both children's at once, before it is known which is wanted.
fn loaded(mut number: usize) -> usize {
    unsafe { std::arch::asm!("/* {0} */", inout(reg) number, options(pure, nomem, nostack, preserves_flags)) };
    number
}

/// The ways that a booking notes: the walk; with ONE, the way from the marked node down and the way of f.
pub struct Ways {
    pub walk: Way,
    pub tail: Way,
    pub far: Way,
}

/// The leaf that fits and starts latest. Its way is noted in `walk`, or with ONE from the marked node down in `tail`; with ONE the way of f
/// is followed beside the walk, so that neither waits for the other.
#[inline(never)]
pub fn search<S: Store, const SMOOTH: bool, const ONE: bool>(store: &S, ways: &mut Ways, r: u64, f: u64) -> Option<Found> {
    let Ways { walk, tail, far } = ways;
    let (bound, behind, last) = ((r + 1) << 10, f << 10, last_key(f));
    let (mut x, mut depth, mut turn) = (store.kid(0), 0, 0);
    let (mut y, mut deep, mut common, mut after) = (x, 0, 0, u64::MAX);
    while !store.is_leaf(x) {
        let split = store.split(x);
        let right = split < bound;
        depth += 1;
        if SMOOTH {
            turn = select_unpredictable(right & (f <= store.top(S::slot(x, 0))), depth, turn);
        } else if right && f <= store.top(S::slot(x, 0)) {
            turn = depth;
        }
        walk.note(depth, S::slot(x, right as usize));
        x = next::<S, SMOOTH>(store, x, right);
        if ONE {
            common = select_unpredictable(last < split, depth, common);
            let (done, split) = (store.is_leaf(y), store.split(y));
            let right = split < behind;
            far.note(deep + 1, S::slot(y, right as usize));
            deep += !done as usize;
            after = select_unpredictable(done | right, after, split);
            y = select_unpredictable(done, y, next::<S, SMOOTH>(store, y, right));
        }
    }
    while ONE && !store.is_leaf(y) {
        let split = store.split(y);
        let right = split < behind;
        deep += 1;
        far.note(deep, S::slot(y, right as usize));
        after = select_unpredictable(right, after, split);
        y = next::<S, SMOOTH>(store, y, right);
    }
    let slot = walk.at(depth);
    let (key, end) = store.void(slot);
    if key < bound && f <= end {
        return Some(Found { slot, depth, turn: 0, common, deep, after });
    }
    if turn == 0 {
        return None;
    }
    let mark = S::slot(S::node(walk.at(turn)), 0);
    let noted = if ONE { tail } else { walk };
    (x, depth) = (store.kid(mark), turn);
    noted.note(depth, mark);
    while !store.is_leaf(x) {
        let right = f <= store.top(S::slot(x, 1));
        depth += 1;
        noted.note(depth, S::slot(x, right as usize));
        x = next::<S, SMOOTH>(store, x, right);
    }
    Some(Found { slot: noted.at(depth), depth, turn, common, deep, after })
}

/// The way to the leaf that a key leads to: its depth.
#[inline(never)]
pub fn trace<S: Store, const SMOOTH: bool>(store: &S, way: &mut Way, key: u64) -> usize {
    let (mut x, mut depth) = (store.kid(0), 0);
    while !store.is_leaf(x) {
        let right = store.split(x) <= key;
        depth += 1;
        way.note(depth, S::slot(x, right as usize));
        x = next::<S, SMOOTH>(store, x, right);
    }
    depth
}

/// The way to the leaf with the least end: its depth.
pub fn trace_first<S: Store, const SMOOTH: bool>(store: &S, way: &mut Way) -> usize {
    let (mut x, mut depth, low) = (store.kid(0), 0, store.low(0));
    while !store.is_leaf(x) {
        let right = store.low(S::slot(x, 0)) != low;
        depth += 1;
        way.note(depth, S::slot(x, right as usize));
        x = next::<S, SMOOTH>(store, x, right);
    }
    depth
}
