//! The core's layout before its places were pairs (`packed.rs` is nearer to it now), and a shorter one: leaves and nodes alike, each with the sums of what is below it. Indices are unchecked.
use super::store::{Part, Store};

fn at<T>(list: &[T], x: usize) -> &T {
    debug_assert!(x < list.len());
    unsafe { list.get_unchecked(x) }
}

fn at_mut<T>(list: &mut [T], x: usize) -> &mut T {
    debug_assert!(x < list.len());
    unsafe { list.get_unchecked_mut(x) }
}

/// Leaves and nodes alike. With LEAST, 40 bytes, as the core's were: the least key too, and the split written from it. Without, 32 bytes, as
/// the split can stay with its node when it turns.
#[derive(Clone, Copy)]
struct Node<const LEAST: usize> {
    least: [u64; LEAST],
    split: u64,
    top: u64,
    low: u64,
    kids: [u16; 2],
    height: u16,
}

pub struct Alike<const LEAST: usize> {
    nodes: Vec<Node<LEAST>>,
    spare: u16,
}

impl<const LEAST: usize> Alike<LEAST> {
    fn node(&self, slot: usize) -> &Node<LEAST> {
        at(&self.nodes, self.kid(slot))
    }

    fn node_mut(&mut self, slot: usize) -> &mut Node<LEAST> {
        let x = self.kid(slot);
        at_mut(&mut self.nodes, x)
    }

    fn link(&mut self, slot: usize, x: u16) {
        at_mut(&mut self.nodes, slot >> 1).kids[slot & 1] = x;
    }

    fn give(&mut self, x: usize) {
        at_mut(&mut self.nodes, x).kids[0] = self.spare;
        self.spare = x as u16;
    }
}

impl<const LEAST: usize> Store for Alike<LEAST> {
    const SPLITS_STAY: bool = LEAST == 0;

    fn new(room: usize) -> Self {
        let spare = |n| Node { least: [0; LEAST], split: 0, top: 0, low: 0, kids: [n + 1, 0], height: 0 };
        Alike { nodes: (0..2 * room as u16 + 1).map(spare).collect(), spare: 1 }
    }

    fn slot(x: usize, side: usize) -> usize {
        2 * x + side
    }

    fn node(slot: usize) -> usize {
        slot >> 1
    }

    fn side(slot: usize) -> usize {
        slot & 1
    }

    fn beside(slot: usize) -> usize {
        slot ^ 1
    }

    fn kid(&self, slot: usize) -> usize {
        at(&self.nodes, slot >> 1).kids[slot & 1] as usize
    }

    fn is_leaf(&self, kid: usize) -> bool {
        at(&self.nodes, kid).height == 0
    }

    fn top(&self, slot: usize) -> u64 {
        self.node(slot).top
    }

    fn low(&self, slot: usize) -> u64 {
        self.node(slot).low
    }

    fn height(&self, slot: usize) -> u16 {
        self.node(slot).height
    }

    fn void(&self, slot: usize) -> (u64, u64) {
        (self.node(slot).split, self.node(slot).top)
    }

    fn split(&self, x: usize) -> u64 {
        at(&self.nodes, x).split
    }

    fn set_split(&mut self, x: usize, split: u64) {
        if LEAST == 0 {
            at_mut(&mut self.nodes, x).split = split;
        }
    }

    fn sum(&self, x: usize) -> Part {
        let (left, right) = (self.node(2 * x), self.node(2 * x + 1));
        let (key, split) = if LEAST == 1 { (left.least[0], right.least[0]) } else { (0, self.split(x)) };
        let (top, low, height) = (left.top.max(right.top), left.low.min(right.low), 1 + left.height.max(right.height));
        Part { key, split, top, low, height, kid: x as u16 }
    }

    fn same(&self, slot: usize, part: &Part) -> bool {
        let node = self.node(slot);
        let keys = LEAST == 0 || (node.least[0], node.split) == (part.key, part.split);
        keys && (node.top, node.low, node.height, self.kid(slot)) == (part.top, part.low, part.height, part.kid as usize)
    }

    fn put(&mut self, slot: usize, part: Part) {
        self.link(slot, part.kid);
        let node = at_mut(&mut self.nodes, part.kid as usize);
        (node.split, node.top, node.low, node.height) = (part.split, part.top, part.low, part.height);
        if LEAST == 1 {
            node.least[0] = part.key;
        }
    }

    fn hang(&mut self, slot: usize, from: usize) {
        self.link(slot, self.kid(from) as u16);
    }

    fn set_ends(&mut self, slot: usize, top: u64, low: u64) {
        let node = self.node_mut(slot);
        (node.top, node.low) = (top, low);
    }

    fn set_height(&mut self, slot: usize, height: u16) {
        self.node_mut(slot).height = height;
    }

    fn raise(&mut self, slot: usize, end: u64) {
        let node = self.node_mut(slot);
        (node.top, node.low) = (node.top.max(end), node.low.min(end));
    }

    fn lower(&mut self, slot: usize, end: u64) {
        self.node_mut(slot).low = end;
    }

    fn take_leaf(&mut self, key: u64, end: u64) -> Part {
        Part { key, split: key, top: end, low: end, height: 0, kid: self.take_node() as u16 }
    }

    fn take_node(&mut self) -> usize {
        let x = self.spare as usize;
        self.spare = at(&self.nodes, x).kids[0];
        x
    }

    fn give_leaf(&mut self, slot: usize) {
        self.give(self.kid(slot));
    }

    fn give_node(&mut self, x: usize) {
        self.give(x);
    }
}
