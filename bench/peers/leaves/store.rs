//! What the tree asks of a layout. A slot is where a subtree hangs: each node has two, and slot 0, of a node that is nothing else, is the
//! root's. Nodes, leaves and slots are numbers of at most 16 bits.
pub trait Store {
    /// Whether a node's split is kept by itself; else it is the least key on its right.
    const SPLITS_STAY: bool;
    fn new(room: usize) -> Self;
    /// The slot of a node on a side; of a slot the node, the side and the slot beside it.
    fn slot(x: usize, side: usize) -> usize;
    fn node(slot: usize) -> usize;
    fn side(slot: usize) -> usize;
    fn beside(slot: usize) -> usize;
    /// The node or the leaf at a slot, and the sums of what hangs there; a leaf has height 0.
    fn kid(&self, slot: usize) -> usize;
    fn is_leaf(&self, kid: usize) -> bool;
    fn top(&self, slot: usize) -> u64;
    fn low(&self, slot: usize) -> u64;
    fn height(&self, slot: usize) -> u16;
    /// The key and the end of the leaf at a slot.
    fn void(&self, slot: usize) -> (u64, u64);
    fn split(&self, x: usize) -> u64;
    fn set_split(&mut self, x: usize, split: u64);
    /// What a node is by what hangs at its two slots.
    fn sum(&self, x: usize) -> Part;
    fn same(&self, slot: usize, part: &Part) -> bool;
    fn put(&mut self, slot: usize, part: Part);
    /// What hangs at a slot hangs at another.
    fn hang(&mut self, slot: usize, from: usize);
    fn set_ends(&mut self, slot: usize, top: u64, low: u64);
    fn set_height(&mut self, slot: usize, height: u16);
    /// An end more below a slot: the greatest and the least.
    fn raise(&mut self, slot: usize, end: u64);
    fn lower(&mut self, slot: usize, end: u64);
    fn take_leaf(&mut self, key: u64, end: u64) -> Part;
    fn take_node(&mut self) -> usize;
    fn give_leaf(&mut self, slot: usize);
    fn give_node(&mut self, x: usize);
}

/// A subtree by its sums. The split is that of its root where a layout writes it with the sums.
#[derive(Clone, Copy, Default, PartialEq)]
pub struct Part {
    pub key: u64,
    pub top: u64,
    pub low: u64,
    pub split: u64,
    pub kid: u16,
    pub height: u16,
}
