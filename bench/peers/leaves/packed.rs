//! Sums in the parent: a slot has the sums of what hangs there, so nothing but a node is looked at on a way down or up. Two slots to a node,
//! 64 bytes and one line of the cache; a leaf is its slot and no node. A node's number is its first word's, a slot's likewise: four words
//! each, so that no address needs a multiplication. Indices are unchecked.
use super::store::{Part, Store};

#[derive(Clone, Copy, Default)]
struct Slot {
    key: u64,
    top: u64,
    low: u64,
    kid: u16,
    height: u16,
}

#[derive(Clone, Copy, Default)]
#[repr(align(64))]
#[allow(dead_code)] // read through its slots' addresses
struct Pair {
    slots: [Slot; 2],
}

pub struct Packed {
    nodes: Vec<Pair>,
    spare: u16,
}

impl Packed {
    fn at(&self, slot: usize) -> &Slot {
        debug_assert!(slot < 8 * self.nodes.len() && slot % 4 == 0);
        unsafe { &*((self.nodes.as_ptr() as *const u64).add(slot) as *const Slot) }
    }

    fn at_mut(&mut self, slot: usize) -> &mut Slot {
        debug_assert!(slot < 8 * self.nodes.len() && slot % 4 == 0);
        unsafe { &mut *((self.nodes.as_mut_ptr() as *mut u64).add(slot) as *mut Slot) }
    }
}

impl Store for Packed {
    const SPLITS_STAY: bool = false;

    fn new(room: usize) -> Self {
        let spare = |n| Pair { slots: [Slot { kid: 8 * (n + 1), ..Slot::default() }, Slot::default()] };
        Packed { nodes: (0..room as u16 + 1).map(spare).collect(), spare: 8 }
    }

    fn slot(x: usize, side: usize) -> usize {
        x + 4 * side
    }

    fn node(slot: usize) -> usize {
        slot & !7
    }

    fn side(slot: usize) -> usize {
        slot >> 2 & 1
    }

    fn beside(slot: usize) -> usize {
        slot ^ 4
    }

    fn kid(&self, slot: usize) -> usize {
        self.at(slot).kid as usize
    }

    fn is_leaf(&self, kid: usize) -> bool {
        kid == 0
    }

    fn top(&self, slot: usize) -> u64 {
        self.at(slot).top
    }

    fn low(&self, slot: usize) -> u64 {
        self.at(slot).low
    }

    fn height(&self, slot: usize) -> u16 {
        self.at(slot).height
    }

    fn void(&self, slot: usize) -> (u64, u64) {
        (self.at(slot).key, self.at(slot).top)
    }

    fn split(&self, x: usize) -> u64 {
        self.at(x + 4).key
    }

    fn set_split(&mut self, _: usize, _: u64) {}

    fn sum(&self, x: usize) -> Part {
        let (left, right) = (self.at(x), self.at(x + 4));
        let (top, low, height) = (left.top.max(right.top), left.low.min(right.low), 1 + left.height.max(right.height));
        Part { key: left.key, split: 0, top, low, height, kid: x as u16 }
    }

    fn same(&self, slot: usize, part: &Part) -> bool {
        let Slot { key, top, low, kid, height } = *self.at(slot);
        (key ^ part.key) | (top ^ part.top) | (low ^ part.low) | (kid ^ part.kid) as u64 | (height ^ part.height) as u64 == 0
    }

    fn put(&mut self, slot: usize, part: Part) {
        let Part { key, top, low, kid, height, .. } = part;
        *self.at_mut(slot) = Slot { key, top, low, kid, height };
    }

    fn hang(&mut self, slot: usize, from: usize) {
        *self.at_mut(slot) = *self.at(from);
    }

    fn set_ends(&mut self, slot: usize, top: u64, low: u64) {
        let slot = self.at_mut(slot);
        (slot.top, slot.low) = (top, low);
    }

    fn set_height(&mut self, slot: usize, height: u16) {
        self.at_mut(slot).height = height;
    }

    fn raise(&mut self, slot: usize, end: u64) {
        let slot = self.at_mut(slot);
        (slot.top, slot.low) = (slot.top.max(end), slot.low.min(end));
    }

    fn lower(&mut self, slot: usize, end: u64) {
        self.at_mut(slot).low = end;
    }

    fn take_leaf(&mut self, key: u64, end: u64) -> Part {
        Part { key, split: 0, top: end, low: end, height: 0, kid: 0 }
    }

    fn take_node(&mut self) -> usize {
        let x = self.spare as usize;
        self.spare = self.at(x).kid;
        x
    }

    fn give_leaf(&mut self, _: usize) {}

    fn give_node(&mut self, x: usize) {
        self.at_mut(x).kid = self.spare;
        self.spare = x as u16;
    }
}
