//! The lent memory, read independently of the core: is it a whole link (01's code 2 and the layout in docs/), which voids does it
//! hold, and how many nodes does 01's search visit. Also a builder that lays a link out with any tree shape and any places.

use crate::random::Rng;
use crate::model::{need, settings_in_bounds, Link, Void, OPEN_END};

pub const HEADER: usize = 28; // words
pub const NODE: usize = 4;
pub const ROOT: usize = 1; // the root's seat; the children of a node with place q, whose link is 8q, are at the seats 2q and 2q + 1
pub const SPARE_HEIGHT: u64 = 1 << 31;

/// The word i of the node at a seat: lo, top, low, links. Seat 1 follows the header.
pub fn at(seat: usize, i: usize) -> usize {
    HEADER + NODE * (seat - 1) + i
}

pub fn word(memory: &[u8], i: usize) -> u64 {
    u64::from_le_bytes(memory[8 * i..8 * i + 8].try_into().unwrap())
}

pub fn set_word(memory: &mut [u8], i: usize, value: u64) {
    memory[8 * i..8 * i + 8].copy_from_slice(&value.to_le_bytes());
}

pub fn key(void: &Void) -> u64 {
    void.start.wrapping_mul(1024).wrapping_add(1023u64.wrapping_sub(void.channel))
}

#[derive(Clone, Copy)]
pub struct Node {
    lo: u64,
    top: u64,
    low: u64,
    height: u64,
    link: usize,
}

impl Node {
    fn read(memory: &[u8], seat: usize) -> Node {
        let [lo, top, low, links] = [0, 1, 2, 3].map(|i| word(memory, at(seat, i)));
        Node { lo, top, low, height: links >> 32, link: (links & 0xFFFF_FFFF) as usize }
    }
    fn is_leaf(&self) -> bool {
        self.height == 0 && self.link == 0
    }
    /// Of an inner node: where its children are.
    fn place(&self) -> usize {
        self.link / 8
    }
    fn void(&self) -> Void {
        Void { channel: 1023 - self.lo % 1024, start: self.lo / 1024, end: self.top }
    }
}

/// The nodes of a memory by seat, from 1 to 2 * room + 1.
struct Seats(Vec<Node>);

impl Seats {
    fn root(&self) -> Node {
        self.0[ROOT - 1]
    }
    fn left(&self, place: usize) -> Node {
        self.0[2 * place - 1]
    }
    fn right(&self, place: usize) -> Node {
        self.0[2 * place]
    }
}

/// A whole link as the memory holds it.
pub struct Image {
    seats: Seats,
    pub link: Link, // voids from left to right
}

fn demand(holds: bool, rule: &'static str) -> Result<(), &'static str> {
    if holds { Ok(()) } else { Err(rule) }
}

/// The link in this memory, or the rule that is broken (then the core must answer 2).
pub fn whole(memory: &[u8]) -> Result<Image, &'static str> {
    demand(memory.len() >= 8 * HEADER, "as long as its room needs: header")?;
    let w = |i| word(memory, i);
    let (room, channels, lines, leap, floor, kept, spare) = (w(0), w(1), w(2), w(3), w(4), w(6), w(7));
    demand(lines <= 16, "settings: lines")?;
    let delays: Vec<u64> = (0..lines as usize).map(|i| w(8 + i)).collect();
    demand(settings_in_bounds(room, channels, leap, floor, &delays), "settings: bounds")?;
    demand(w(5) == 0, "settings: word 5 is 0")?;
    demand((lines as usize..20).all(|i| w(8 + i) == 0), "settings: unused words are 0")?;
    demand(memory.len() as u64 >= need(room), "as long as its room needs")?;
    demand(1 <= kept && kept <= room, "kept from 1 to the room")?;
    let seats = Seats((1..=2 * room as usize + 1).map(|seat| Node::read(memory, seat)).collect());

    let mut seen = vec![false; room as usize + 1]; // the places, from 1
    seen[0] = true; // place 0 is the root's alone
    let mut voids = vec![];
    walk(&seats, seats.root(), &mut seen, &mut voids)?;
    demand(voids.len() as u64 == kept, "kept is the number of leaves")?;
    let allowed = 2 * (63 - kept.leading_zeros() as u64);
    demand(seats.root().height <= allowed, "height rule")?;
    demand(voids.windows(2).all(|pair| key(&pair[0]) < key(&pair[1])), "ordered leaves")?;

    let spares = room + 1 - kept;
    let mut place = spare;
    for after in (0..spares).rev() {
        demand(1 <= place && place <= room, "spares: a place of the room")?;
        demand(!seen[place as usize], "spares: each place once")?;
        seen[place as usize] = true;
        let (l, r) = (seats.left(place as usize), seats.right(place as usize));
        demand(l.lo == 0 && l.top == 0, "spares: cleared")?;
        demand(l.height == SPARE_HEIGHT, "spares: height")?;
        demand(l.low == after, "spares: how many come after")?;
        demand(after > 0 || l.link == 0, "spares: the last has no next")?;
        demand(r.lo == 0 && r.top == 0 && r.low == 0 && r.is_leaf(), "spares: the right seat cleared")?;
        place = l.link as u64; // a spare place's link is the next one's number
    }
    demand(seen.iter().all(|s| *s), "every place accounted for")?;

    for void in &voids {
        demand(void.channel < channels, "voids: a channel of the link")?;
        demand(void.start < void.end, "voids: s < e")?;
        demand(void.end <= OPEN_END, "voids: e at most the open end")?;
        demand(void.end > floor, "voids: end after the floor")?;
    }
    for channel in 0..channels {
        let of: Vec<&Void> = voids.iter().filter(|void| void.channel == channel).collect(); // by rising start
        demand(of.windows(2).all(|pair| pair[0].end < pair[1].start), "voids of one channel apart by a tick")?;
        demand(of.iter().filter(|void| void.end == OPEN_END).count() == 1, "one open end for each channel")?;
    }
    Ok(Image { seats, link: Link { room, channels, delays, leap, floor, voids } })
}

/// Checks the subtree at a node (each place once, true summaries, heights), and lists its voids from left to right.
fn walk(seats: &Seats, n: Node, seen: &mut [bool], voids: &mut Vec<Void>) -> Result<(), &'static str> {
    if n.is_leaf() {
        demand(n.top == n.low, "summaries: leaf")?;
        voids.push(n.void());
        return Ok(());
    }
    demand(n.link % 8 == 0 && 1 <= n.place() && n.place() < seen.len(), "places: the children's")?;
    let (l, r) = (seats.left(n.place()), seats.right(n.place()));
    demand(n.height == 1 + l.height.max(r.height), "tree: height")?;
    demand(l.height.abs_diff(r.height) <= 1, "tree: balance")?;
    // Heights fall at each step, but from a height that memory names: a spare's 2^31 must not be walked.
    demand(n.height <= 64, "tree: height in bounds")?;
    demand(!seen[n.place()], "tree: each place once")?;
    seen[n.place()] = true;
    walk(seats, l, seen, voids)?;
    walk(seats, r, seen, voids)?;
    demand(n.lo == l.lo.min(r.lo), "summaries: lo")?;
    demand(n.top == l.top.max(r.top), "summaries: top")?;
    demand(n.low == l.low.min(r.low), "summaries: low")
}

impl Image {
    /// 01's search for (r, f) in this tree: the void it ends at, if that fits, and the visits A + B + C.
    pub fn search(&self, r: u64, f: u64) -> (Option<Void>, u64) {
        let mut at = self.seats.root();
        let mut visits = 1; // A: the root
        let mut marked = None; // the deepest so far
        while !at.is_leaf() {
            visits += 1; // A: the next node down
            let (left, right) = (self.seats.left(at.place()), self.seats.right(at.place()));
            if right.lo / 1024 <= r {
                visits += 1; // B: the left child passed by
                if left.top >= f {
                    marked = Some(left);
                }
                at = right;
            } else {
                at = left;
            }
        }
        if at.void().fits(r, f) {
            return (Some(at.void()), visits);
        }
        let Some(mut at) = marked else { return (None, visits) };
        while !at.is_leaf() {
            visits += 1; // C: the right child
            let right = self.seats.right(at.place());
            if right.top < f {
                visits += 1; // C: the left child
                at = self.seats.left(at.place());
            } else {
                at = right;
            }
        }
        (Some(at.void()).filter(|void| void.fits(r, f)), visits)
    }
}

// ---------------------------------------------------------------------------------------------------------- building

/// What the builder may do that a whole link does not.
#[derive(Clone, Copy, Default)]
pub struct Crooked {
    pub unbalanced: bool, // true heights, but somewhere two children differ by two
    pub unsorted: bool,   // two leaves next to each other swapped
}

/// Lays the link out in `memory` (at least its need): any shape that the balancing rule allows, places and spares in any order.
/// The settings are written as they are, in bounds or not. Needs voids - 1 places.
pub fn build(memory: &mut [u8], link: &Link, rng: &mut Rng, crooked: Crooked) {
    let mut free: Vec<usize> = (1..=link.room as usize).rev().collect(); // the next is taken from the end
    if rng.chance(3, 4) {
        rng.shuffle(&mut free);
    }
    let mut voids = link.ordered();
    if crooked.unsorted && voids.len() > 1 {
        let i = rng.below(voids.len() as u64 - 1) as usize;
        voids.swap(i, i + 1);
    }
    memory[..need(link.room) as usize].fill(0);
    for (i, value) in [link.room, link.channels, link.delays.len() as u64, link.leap, link.floor].into_iter().enumerate() {
        set_word(memory, i, value);
    }
    for (i, delay) in link.delays.iter().enumerate() {
        set_word(memory, 8 + i, *delay);
    }
    let heights: Vec<u64> = (0..40).filter(|h| possible(voids.len() as u64, *h)).collect();
    let height = if crooked.unbalanced && voids.len() > 3 { (*rng.pick(&heights)).max(3) } else { *rng.pick(&heights) };
    let mut crook = crooked.unbalanced;
    plant(memory, ROOT, &voids, height, &mut free, rng, &mut crook);
    set_word(memory, 6, voids.len() as u64);
    free.reverse();
    link_spares(memory, &free);
}

/// Writes the list of spare places: their left seats (not what they hold beside) and the first of them.
pub fn link_spares(memory: &mut [u8], list: &[usize]) {
    set_word(memory, 7, list.first().copied().unwrap_or(0) as u64);
    for (i, place) in list.iter().enumerate() {
        let (after, next) = (list.len() - 1 - i, list.get(i + 1).copied().unwrap_or(0));
        set_word(memory, at(2 * place, 2), after as u64);
        set_word(memory, at(2 * place, 3), (SPARE_HEIGHT << 32) + next as u64);
    }
}

/// Can m leaves stand in a balanced tree of this height?
fn possible(m: u64, height: u64) -> bool {
    let (mut fewest, mut next) = (1u64, 2u64); // heights 0 and 1
    for _ in 0..height {
        (fewest, next) = (next, fewest + next);
    }
    fewest <= m && m <= 1 << height
}

/// A tree of these voids with its root at the seat.
fn plant(memory: &mut [u8], seat: usize, voids: &[Void], height: u64, free: &mut Vec<usize>, rng: &mut Rng, crook: &mut bool) {
    let m = voids.len() as u64;
    if m == 1 {
        for (i, value) in [key(&voids[0]), voids[0].end, voids[0].end, 0].into_iter().enumerate() {
            set_word(memory, at(seat, i), value);
        }
        return;
    }
    let place = free.pop().expect("places for the tree");
    let mut ways = vec![];
    if *crook && m >= 4 && height >= 3 {
        // one child two lower than the other: the crook; then no more of them
        for left in 1..m {
            for (hl, hr) in [(height - 1, height - 3), (height - 3, height - 1)] {
                if possible(left, hl) && possible(m - left, hr) {
                    ways.push((left, hl, hr));
                }
            }
        }
        if !ways.is_empty() {
            *crook = false;
        }
    }
    if ways.is_empty() {
        let mut heights = vec![(height - 1, height - 1)];
        if height >= 2 {
            heights.extend([(height - 1, height - 2), (height - 2, height - 1)]);
        }
        for left in 1..m {
            for (hl, hr) in &heights {
                if possible(left, *hl) && possible(m - left, *hr) {
                    ways.push((left, *hl, *hr));
                }
            }
        }
    }
    let (left, hl, hr) = *rng.pick(&ways);
    plant(memory, 2 * place, &voids[..left as usize], hl, free, rng, crook);
    plant(memory, 2 * place + 1, &voids[left as usize..], hr, free, rng, crook);
    let (l, r) = (Node::read(memory, 2 * place), Node::read(memory, 2 * place + 1));
    let links = (1 + l.height.max(r.height) << 32) + 8 * place as u64;
    for (i, value) in [l.lo.min(r.lo), l.top.max(r.top), l.low.min(r.low), links].into_iter().enumerate() {
        set_word(memory, at(seat, i), value);
    }
}
