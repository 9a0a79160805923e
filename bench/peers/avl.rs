//! A tree written by hand: AVL, one node of 32 bytes for each void in one array, each with the greatest end below it and its parent.
//! A change goes up only as far as a height or a greatest end changes. Node 0 stands for "none": height 0, greatest end 0.
use crate::order::{channel_of, key, last_key, start_of, Peer, NOTHING_FITS, OPEN_END, ROOM_FULL};

const NONE: u16 = 0;
const LEFT: usize = 0;
const RIGHT: usize = 1;

#[derive(Clone, Copy, Default)]
struct Node {
    key: u64,
    end: u64,
    top: u64,
    kids: [u16; 2],
    up: u16,
    height: u16,
}

pub struct Avl {
    nodes: Vec<Node>,
    root: u16,
    spare: Vec<u16>,
    kept: usize,
    room: usize,
}

impl Avl {
    fn at(&self, x: u16) -> &Node {
        &self.nodes[x as usize]
    }

    fn at_mut(&mut self, x: u16) -> &mut Node {
        &mut self.nodes[x as usize]
    }

    /// The node of the void that fits and starts latest. A subtree passed on the left is remembered only by its greatest end.
    fn seek(&self, r: u64, f: u64) -> u16 {
        let bound = last_key(r);
        let (mut at, mut fit, mut below) = (self.root, NONE, NONE);
        while f <= self.at(at).top {
            let node = self.at(at);
            if bound < node.key {
                at = node.kids[LEFT];
                continue;
            }
            if f <= node.end {
                (fit, below) = (at, NONE);
            } else if f <= self.at(node.kids[LEFT]).top {
                (fit, below) = (NONE, node.kids[LEFT]);
            }
            at = node.kids[RIGHT];
        }
        if below == NONE {
            return fit;
        }
        self.last_fit(below, f)
    }

    /// The last node below `at` with end at or after f, its greatest end being so.
    fn last_fit(&self, mut at: u16, f: u64) -> u16 {
        loop {
            let node = self.at(at);
            if f <= self.at(node.kids[RIGHT]).top {
                at = node.kids[RIGHT];
            } else if f <= node.end {
                return at;
            } else {
                at = node.kids[LEFT];
            }
        }
    }

    /// Height and greatest end of a node from its children's: whether either changed.
    fn sum_up(&mut self, x: u16) -> bool {
        let node = *self.at(x);
        let (left, right) = (*self.at(node.kids[LEFT]), *self.at(node.kids[RIGHT]));
        let (top, height) = (node.end.max(left.top).max(right.top), 1 + left.height.max(right.height));
        let now = self.at_mut(x);
        (now.top, now.height) = (top, height);
        (top, height) != (node.top, node.height)
    }

    /// The child of x on this side rises above x.
    fn turn(&mut self, x: u16, side: usize) -> u16 {
        let y = self.at(x).kids[side];
        let inner = self.at(y).kids[1 - side];
        let up = self.at(x).up;
        self.at_mut(x).kids[side] = inner;
        self.at_mut(y).kids[1 - side] = x;
        if inner != NONE {
            self.at_mut(inner).up = x;
        }
        self.at_mut(x).up = y;
        self.hang(up, x, y);
        self.sum_up(x);
        self.sum_up(y);
        y
    }

    /// Puts y in the place of x below `up`.
    fn hang(&mut self, up: u16, x: u16, y: u16) {
        if y != NONE {
            self.at_mut(y).up = up;
        }
        if up == NONE {
            self.root = y;
        } else {
            let side = (self.at(up).kids[RIGHT] == x) as usize;
            self.at_mut(up).kids[side] = y;
        }
    }

    /// Turns at x where one child is higher by two.
    fn balance(&mut self, x: u16) -> u16 {
        let kids = self.at(x).kids;
        let [left, right] = kids.map(|kid| self.at(kid).height);
        if left.abs_diff(right) < 2 {
            return x;
        }
        let side = (left < right) as usize;
        let inner = self.at(kids[side]).kids;
        if self.at(inner[side]).height < self.at(inner[1 - side]).height {
            self.turn(kids[side], 1 - side);
        }
        self.turn(x, side)
    }

    /// From x upward, until neither height nor greatest end changes.
    fn mend(&mut self, mut x: u16) {
        while x != NONE {
            let was = (self.at(x).top, self.at(x).height);
            self.sum_up(x);
            x = self.balance(x);
            if was == (self.at(x).top, self.at(x).height) {
                return;
            }
            x = self.at(x).up;
        }
    }

    fn insert(&mut self, key: u64, end: u64) {
        let (mut up, mut at) = (NONE, self.root);
        while at != NONE {
            up = at;
            at = self.at(at).kids[(self.at(at).key < key) as usize];
        }
        let x = self.spare.pop().unwrap();
        *self.at_mut(x) = Node { key, end, top: end, kids: [NONE; 2], up, height: 1 };
        self.kept += 1;
        if up == NONE {
            self.root = x;
            return;
        }
        let side = (self.at(up).key < key) as usize;
        self.at_mut(up).kids[side] = x;
        self.mend(up);
    }

    fn set_end(&mut self, x: u16, end: u64) {
        self.at_mut(x).end = end;
        let mut x = x;
        while x != NONE && self.sum_up(x) {
            x = self.at(x).up;
        }
    }

    /// Removes a node's void; gives the node of the next void.
    fn remove(&mut self, x: u16) -> u16 {
        let next = self.next(x);
        let kids = self.at(x).kids;
        let (gone, after) = if kids[LEFT] != NONE && kids[RIGHT] != NONE {
            let Node { key, end, .. } = *self.at(next);
            (self.at_mut(x).key, self.at_mut(x).end) = (key, end);
            (next, x)
        } else {
            (x, next)
        };
        let Node { kids, up, .. } = *self.at(gone);
        self.hang(up, gone, if kids[LEFT] != NONE { kids[LEFT] } else { kids[RIGHT] });
        self.spare.push(gone);
        self.kept -= 1;
        self.mend(up);
        if gone != x {
            self.set_end(x, self.at(x).end);
        }
        after
    }

    fn first(&self) -> u16 {
        let mut x = self.root;
        while self.at(x).kids[LEFT] != NONE {
            x = self.at(x).kids[LEFT];
        }
        x
    }

    fn next(&self, mut x: u16) -> u16 {
        let mut right = self.at(x).kids[RIGHT];
        if right != NONE {
            while self.at(right).kids[LEFT] != NONE {
                right = self.at(right).kids[LEFT];
            }
            return right;
        }
        while self.at(x).up != NONE && self.at(self.at(x).up).kids[RIGHT] == x {
            x = self.at(x).up;
        }
        self.at(x).up
    }
}

impl Peer for Avl {
    fn open(channels: u64, room: usize) -> Self {
        let spare = (1..=room as u16).rev().collect();
        let mut tree = Avl { nodes: vec![Node::default(); room + 1], root: NONE, spare, kept: 0, room };
        for channel in 0..channels {
            tree.insert(key(0, channel), OPEN_END);
        }
        tree
    }

    fn book(&mut self, r: u64, f: u64, front: bool) -> Result<u64, u64> {
        let x = self.seek(r, f);
        if x == NONE {
            return Err(NOTHING_FITS);
        }
        let Node { key: taken, end, .. } = *self.at(x);
        let (channel, in_front) = (channel_of(taken), front && start_of(taken) < r);
        if in_front && f < end && self.kept == self.room {
            return Err(ROOM_FULL);
        }
        if in_front {
            if f < end {
                self.insert(key(f, channel), end);
            }
            self.set_end(x, r);
        } else {
            self.remove(x);
            if f < end {
                self.insert(key(f, channel), end);
            }
        }
        Ok(channel)
    }

    fn sweep(&mut self, moment: u64) -> u64 {
        let before = self.kept;
        let mut x = self.first();
        while x != NONE && self.at(x).key < moment << 10 {
            x = if self.at(x).end < moment { self.remove(x) } else { self.next(x) };
        }
        (before - self.kept) as u64
    }

    fn kept(&self) -> usize {
        self.kept
    }
}
