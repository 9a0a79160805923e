//! The ways to spoil a memory: a word, a node and all above it, the spares, or a link that breaks one rule.

use crate::layout::{at, link_spares, set_word, word, Crooked, HEADER, NODE, ROOT};
use crate::model::{need, Link, Void, LAST_MOMENT, OPEN_END, TOP32};
use crate::random::Rng;

pub fn change_word(rng: &mut Rng, memory: &mut [u8], link: &Link) {
    let words = need(link.room) / 8;
    let spot = match rng.below(4) {
        0 => rng.below(HEADER as u64) as usize,
        1 => at(rng.span(1, 2 * link.room + 1) as usize, 3),
        _ => rng.below(words) as usize,
    };
    let old = word(memory, spot);
    let other = word(memory, rng.below(words) as usize);
    let place = rng.below(link.room + 2);
    let value = match rng.below(11) {
        0 => old.wrapping_add(1),
        1 => old.wrapping_sub(1),
        2 => other,
        3 => old ^ 1 << rng.below(64),
        4 => old & !TOP32 | *rng.pick(&[place, 8 * place, 8 * place + 4]),
        5 => old ^ place << 16, // the same place, read in 16 bits
        6 => old.wrapping_add(1 << 32),
        7 => old.wrapping_sub(1 << 32),
        8 => old & !TOP32 | (old + *rng.pick(&[1, 2, 4])) & TOP32, // no place's link
        9 => *rng.pick(&[0, 1, u64::MAX, TOP32, TOP32 + 1, OPEN_END, LAST_MOMENT, 1 << 63, 65, 4096, 4097]),
        _ => rng.next() >> rng.below(64),
    };
    set_word(memory, spot, value);
}

fn swap_nodes(memory: &mut [u8], a: usize, b: usize) {
    for i in 0..NODE {
        let (x, y) = (word(memory, at(a, i)), word(memory, at(b, i)));
        set_word(memory, at(a, i), y);
        set_word(memory, at(b, i), x);
    }
}

/// Changes one node of the tree and makes all above it agree with the change.
pub fn lie(rng: &mut Rng, memory: &mut [u8]) {
    let place_of = |memory: &[u8], seat: usize| (word(memory, at(seat, 3)) & TOP32) as usize / 8;
    let mut path = vec![ROOT];
    loop {
        let here = *path.last().unwrap();
        if word(memory, at(here, 3)) == 0 || rng.chance(1, 4) {
            break;
        }
        path.push(2 * place_of(memory, here) + rng.below(2) as usize);
    }
    let here = path.pop().unwrap();
    let links = word(memory, at(here, 3));
    let (leaf, place) = (links == 0, place_of(memory, here));
    let other = word(memory, at(rng.span(1, 3) as usize, rng.below(3) as usize));
    let by = |rng: &mut Rng, old: u64| match rng.below(6) {
        0 => old.wrapping_add(1),
        1 => old.wrapping_sub(1),
        2 => old.wrapping_add(1024),
        3 => old.wrapping_sub(1024),
        4 => other,
        _ => old ^ 1 << rng.below(64),
    };
    let by_left = rng.chance(1, 2); // the least key below: the left child's, or the less of the two
    let least = |l: u64, r: u64| if by_left { l } else { l.min(r) };
    let room = word(memory, 0);
    match rng.below(8) as usize {
        field @ 0..=2 => {
            let value = by(rng, word(memory, at(here, field)));
            set_word(memory, at(here, field), value);
        }
        3 => set_word(memory, at(here, 3), if rng.chance(1, 2) { links.wrapping_add(1 << 32) } else { links.wrapping_sub(1 << 32) }),
        4 if !leaf => {
            // the children swapped
            swap_nodes(memory, 2 * place, 2 * place + 1);
            let lo = least(word(memory, at(2 * place, 0)), word(memory, at(2 * place + 1, 0)));
            set_word(memory, at(here, 0), lo);
        }
        5 if !leaf => {
            // another place for the children: the root's, this node's own, its sibling's, a child's, a spare one, one past the room
            let root = place_of(memory, ROOT);
            let sibling = if here == ROOT { 0 } else { place_of(memory, here ^ 1) };
            let child = place_of(memory, 2 * place + rng.below(2) as usize);
            let spare = word(memory, 7) as usize;
            let to = *rng.pick(&[0, root, here / 2, sibling, child, spare, room as usize + 1]) as u64;
            set_word(memory, at(here, 3), links & !TOP32 | 8 * to + *rng.pick(&[0, 0, 0, 4]));
        }
        6 if !leaf => {
            // one child twice: the other is written over
            let from = 2 * place + rng.below(2) as usize;
            for i in 0..NODE {
                let value = word(memory, at(from, i));
                set_word(memory, at(from ^ 1, i), value);
            }
        }
        7 => set_word(memory, at(here, 3), if leaf { 8 * rng.span(1, room) } else { links & TOP32 }), // a place at height 0
        4 => {
            let value = by(rng, word(memory, at(here, 0))); // a leaf's key
            set_word(memory, at(here, 0), value);
        }
        _ => {
            let value = by(rng, word(memory, at(here, 1))); // a leaf's end, in both words
            set_word(memory, at(here, 1), value);
            set_word(memory, at(here, 2), value);
        }
    }
    for seat in path.into_iter().rev() {
        let q = place_of(memory, seat);
        let w = |side: usize, i: usize| word(memory, at(2 * q + side, i));
        let height = 1 + (w(0, 3) >> 32).max(w(1, 3) >> 32);
        let sums = [least(w(0, 0), w(1, 0)), w(0, 1).max(w(1, 1)), w(0, 2).min(w(1, 2)), height << 32 | 8 * q as u64];
        sums.into_iter().enumerate().for_each(|(i, value)| set_word(memory, at(seat, i), value));
    }
}

/// Changes the list of spares.
pub fn spares(rng: &mut Rng, memory: &mut [u8], link: &Link) {
    let links_at = |place: usize| at(2 * place, 3);
    let mut list = vec![word(memory, 7) as usize];
    let count = link.room as usize + 1 - link.voids.len();
    while list.len() < count {
        list.push((word(memory, links_at(*list.last().unwrap())) & TOP32) as usize);
    }
    let one = *rng.pick(&list);
    let old = word(memory, links_at(one));
    match rng.below(12) {
        0 => set_word(memory, 7, one as u64),
        1 => set_word(memory, links_at(one), old ^ 1 << 32),
        2 => set_word(memory, links_at(one), old & !TOP32 | *rng.pick(&list) as u64),
        3 => set_word(memory, links_at(*list.last().unwrap()), 1 << 63 | *rng.pick(&list) as u64),
        4 => set_word(memory, at(2 * one, *rng.pick(&[0, 1, 4, 5, 6, 7])), 1 << rng.below(64)), // its left seat, or its right one
        5 => list.iter().for_each(|p| {
            let old = word(memory, at(2 * p, 2)); // all say one more
            set_word(memory, at(2 * p, 2), old + 1)
        }),
        6 => {
            // one spare left out, the others in good order
            let left_out = rng.below(list.len() as u64) as usize;
            list.remove(left_out);
            link_spares(memory, &list);
        }
        7 => {
            // one spare twice in place of another
            let (i, j) = (rng.below(list.len() as u64) as usize, rng.below(list.len() as u64) as usize);
            list[i] = list[j];
            link_spares(memory, &list);
        }
        8 => {
            let old = word(memory, at(2 * one, 2)); // how many come after
            set_word(memory, at(2 * one, 2), old ^ 1 << rng.below(64));
        }
        9 => {
            // any place, of the tree too, or past the room: the first or the next
            let any = rng.span(1, link.room);
            let to = *rng.pick(&[0, any, any, link.room + 1, one as u64 + (1 << 16), one as u64 + (1 << 31)]);
            let spot = if rng.chance(1, 2) { 7 } else { links_at(one) };
            let above = if spot == 7 { 0 } else { old & !TOP32 };
            set_word(memory, spot, above | to);
        }
        10 => swap_nodes(memory, 2 * one, 2 * one + 1), // marked at its right seat
        _ => {
            // another order of the list: still whole
            rng.shuffle(&mut list);
            link_spares(memory, &list);
        }
    }
}

/// A link that breaks (or nearly breaks) one rule, everything else laid out truly.
pub fn crook(rng: &mut Rng, link: &Link) -> (&'static str, Link, Crooked) {
    let mut link = link.clone();
    let mut crooked = Crooked::default();
    let i = rng.below(link.voids.len() as u64) as usize;
    let void = link.voids[i];
    if link.voids.len() as u64 == link.room && rng.chance(1, 2) {
        link.room += 1; // so that a void more is not one too many
    }
    let way = match rng.below(20) {
        0 => {
            crooked.unbalanced = true;
            "children two apart in height"
        }
        1 => {
            crooked.unsorted = true;
            "two leaves swapped"
        }
        2 => {
            // two voids of one channel: overlapping, touching, a tick apart (whole)
            if void.end - void.start < 3 {
                return ("nothing", link, crooked);
            }
            let middle = void.start + 1 + rng.below((void.end - void.start - 2).min(1 << 40));
            link.voids[i].end = middle;
            link.voids.push(Void { start: (middle + rng.below(4)).saturating_sub(1).max(void.start + 1).min(void.end - 1), ..void });
            "a void cut in two"
        }
        3 => {
            link.voids[i].end = *rng.pick(&[OPEN_END - 1, OPEN_END, OPEN_END + 1, u64::MAX, 1 << 63]);
            "an end moved"
        }
        4 => {
            link.voids.remove(i);
            "a void left out"
        }
        5 => {
            link.floor = (void.end + rng.below(3)).saturating_sub(1);
            "the floor by an end"
        }
        6 => {
            let only_open = (0..link.channels).map(|channel| Void { channel, start: LAST_MOMENT - rng.below(3), end: OPEN_END });
            link.voids = only_open.collect();
            link.floor = *rng.pick(&[LAST_MOMENT, OPEN_END, OPEN_END + 1]);
            "the floor at the last moment and past it"
        }
        7 => {
            link.voids[i].end = void.start + rng.below(2) - rng.below(2).min(void.start);
            "a void of no length"
        }
        8 => {
            link.voids.push(Void { channel: link.channels + rng.below(1024 - link.channels), ..void });
            "a void on no channel of the link"
        }
        9 => {
            let channels = *rng.pick(&[65, 64, 70, 1]);
            link.room = link.room.max(channels);
            link.channels = channels;
            link.voids = (0..channels).map(|channel| Void { channel, start: link.floor, end: OPEN_END }).collect();
            "channels at the bound and past it"
        }
        10 => {
            link.channels = *rng.pick(&[0, link.channels + 1, link.channels - 1, 64, 65, u64::MAX, 1 << 32]);
            "another number of channels"
        }
        11 => {
            link.leap = *rng.pick(&[0, 1, TOP32, TOP32 + 1, u64::MAX]);
            "another leap"
        }
        12 => {
            let lines = rng.span(1, 17);
            link.delays = (1..=lines).map(|d| 2 * d).collect();
            let j = rng.below(lines) as usize;
            let near = link.delays[rng.below(lines) as usize];
            link.delays[j] = *rng.pick(&[0, near, near + 1, TOP32, TOP32 + 1, link.delays[j]]);
            link.delays.truncate(if rng.chance(1, 2) { j + 1 } else { 17 });
            "other delays"
        }
        13 => {
            link.room = *rng.pick(&[4096, 4097, link.room, link.room + 1]);
            "another room"
        }
        14 => {
            link.room = link.voids.len() as u64 - rng.below(2);
            "as many voids as room, and one more"
        }
        15 => "an unused word set",
        16 | 17 => "the spares",
        18 => {
            // after the channel's open end: touching it, apart from it, far from it
            let start = OPEN_END + *rng.pick(&[0, 1, 2, 1 << 40, (1 << 54) - (1 << 48) - 9]);
            link.voids.push(Void { channel: void.channel, start, end: start + rng.span(1, 8) });
            "a void after the open end"
        }
        _ => {
            // equal starts everywhere they can be, doubled voids
            link.voids.push(Void { channel: rng.below(link.channels), ..void });
            "a void twice"
        }
    };
    (way, link, crooked)
}
