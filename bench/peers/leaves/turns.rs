//! Up from a change: sums along a way, turns, a leaf put in, two trees joined.
use super::store::{Part, Store};
use super::ways::Way;

/// Sums up the slots of a way from above `from` up to `to`, until nothing changes: whether it came to `to`.
pub fn settle<S: Store>(store: &mut S, way: &Way, from: usize, to: usize) -> bool {
    let mut n = from;
    while to < n {
        n -= 1;
        let (slot, part) = (way.at(n), store.sum(S::node(way.at(n + 1))));
        if store.same(slot, &part) {
            return false;
        }
        store.put(slot, part);
    }
    true
}

/// The same after an end changed, and nothing else.
pub fn ease<S: Store>(store: &mut S, way: &Way, from: usize, to: usize) -> bool {
    let mut n = from;
    while to < n {
        n -= 1;
        let (slot, x) = (way.at(n), S::node(way.at(n + 1)));
        let (top, low) = (store.top(S::slot(x, 0)).max(store.top(S::slot(x, 1))), store.low(S::slot(x, 0)).min(store.low(S::slot(x, 1))));
        if (store.top(slot) ^ top) | (store.low(slot) ^ low) == 0 {
            return false;
        }
        store.set_ends(slot, top, low);
    }
    true
}

/// What x is with its higher side turned up, which is higher by two.
fn turned<S: Store>(store: &mut S, x: usize, side: usize) -> Part {
    let high = S::slot(x, side);
    let y = store.kid(high);
    let (outer, inner) = (S::slot(y, side), S::slot(y, 1 - side));
    if store.height(inner) <= store.height(outer) {
        store.hang(high, inner);
        store.put(inner, store.sum(x));
        return store.sum(y);
    }
    let z = store.kid(inner);
    store.hang(inner, S::slot(z, side));
    store.hang(high, S::slot(z, 1 - side));
    store.put(S::slot(z, side), store.sum(y));
    store.put(S::slot(z, 1 - side), store.sum(x));
    store.sum(z)
}

fn balanced<S: Store>(store: &mut S, x: usize) -> Part {
    let (left, right) = (store.height(S::slot(x, 0)), store.height(S::slot(x, 1)));
    if left.abs_diff(right) < 2 { store.sum(x) } else { turned(store, x, (left < right) as usize) }
}

/// Above a slot of the way that changed: balanced as long as heights change, then settled.
pub fn rise<S: Store>(store: &mut S, way: &Way, from: usize) {
    let mut n = from;
    while 0 < n {
        n -= 1;
        let (slot, x) = (way.at(n), S::node(way.at(n + 1)));
        let part = balanced(store, x);
        if store.same(slot, &part) {
            return;
        }
        let level = part.height == store.height(slot) && part.kid as usize == x;
        store.put(slot, part);
        if level {
            settle(store, way, n, 0);
            return;
        }
    }
}

/// The same after an insert with all ends on the way true already: it ends with the first turn.
pub fn grow<S: Store>(store: &mut S, way: &Way, from: usize) {
    let mut n = from;
    while 0 < n {
        n -= 1;
        let (slot, x) = (way.at(n), S::node(way.at(n + 1)));
        let (left, right) = (store.height(S::slot(x, 0)), store.height(S::slot(x, 1)));
        if 2 <= left.abs_diff(right) {
            let part = turned(store, x, (left < right) as usize);
            return store.put(slot, part);
        }
        let height = 1 + left.max(right);
        if height == store.height(slot) {
            return;
        }
        store.set_height(slot, height);
    }
}

/// A new leaf beside the one at the end of the way, under a new node.
pub fn graft<S: Store>(store: &mut S, way: &Way, depth: usize, key: u64, end: u64) {
    let (slot, node) = (way.at(depth), store.take_node());
    let leaf = store.take_leaf(key, end);
    let beside = store.void(slot).0;
    let right = (beside < key) as usize;
    store.hang(S::slot(node, 1 - right), slot);
    store.put(S::slot(node, right), leaf);
    store.set_split(node, key.max(beside));
    store.put(slot, store.sum(node));
}

/// Puts x at a slot, over what hangs at its two slots, whatever their heights.
pub fn join<S: Store>(store: &mut S, slot: usize, x: usize) {
    let (left, right) = (store.height(S::slot(x, 0)), store.height(S::slot(x, 1)));
    if left.abs_diff(right) < 2 {
        return store.put(slot, store.sum(x));
    }
    let side = (left < right) as usize;
    let y = store.kid(S::slot(x, side));
    let inner = S::slot(y, 1 - side);
    store.hang(S::slot(x, side), inner);
    join(store, inner, x);
    let part = balanced(store, y);
    store.put(slot, part);
}
