//! Openings, orders and garbage from a seed. The model steers the making (to aim at voids that are there), it does not judge here.

use crate::model::{Link, Void, LAST_MOMENT, OPEN_END, TOP32};
use crate::random::Rng;

// ---------------------------------------------------------------------------------------------------------- records

fn big_endian(into: &mut Vec<u8>, n: u64, width: usize) {
    into.extend_from_slice(&n.to_be_bytes()[8 - width..]);
}

pub fn ol(channels: u64, lines: u64, leap: u64, floor: u64, delays: &[u64]) -> Vec<u8> {
    let mut record = b"OL".to_vec();
    big_endian(&mut record, channels, 1);
    big_endian(&mut record, lines, 1);
    big_endian(&mut record, leap, 4);
    big_endian(&mut record, floor, 6);
    delays.iter().for_each(|d| big_endian(&mut record, *d, 4));
    record
}

pub fn ob(arrival: u64, length: u64, lines: u64) -> Vec<u8> {
    let mut record = b"OB".to_vec();
    big_endian(&mut record, arrival, 6);
    big_endian(&mut record, length, 4);
    big_endian(&mut record, lines, 2);
    record
}

pub fn oc(arrival: u64, length: u64) -> Vec<u8> {
    let mut record = b"OC".to_vec();
    big_endian(&mut record, arrival, 6);
    big_endian(&mut record, length, 2);
    record
}

pub fn os(moment: u64) -> Vec<u8> {
    let mut record = b"OS".to_vec();
    big_endian(&mut record, moment, 6);
    record
}

// ---------------------------------------------------------------------------------------------------------- openings

/// What a session is like: how far ahead bookings go, how long they are, how often it sweeps and errs (in 100).
#[derive(Clone)]
pub struct Mood {
    pub horizon: u64,
    pub longest: u64,
    sweeps: u64,
    errs: u64,
    last: (u64, u64, u64),
}

pub fn mood(rng: &mut Rng) -> Mood {
    let horizon = *rng.pick(&[8, 30, 30, 100, 100, 1000, 1000, 100_000, 1 << 33, 1 << 47]);
    let longest = match rng.below(5) {
        0 => 1,
        1 => 4,
        2 => (horizon / 4).clamp(1, TOP32),
        3 => (horizon / 20).clamp(1, TOP32),
        _ => horizon.min(TOP32),
    };
    Mood { horizon, longest, sweeps: *rng.pick(&[0, 3, 3, 10, 30]), errs: *rng.pick(&[0, 5, 15, 40]), last: (0, 1, 0) }
}

/// An opening in bounds, fitting the mood.
pub fn opening(rng: &mut Rng, mood: &Mood) -> Vec<u8> {
    let channels = match rng.below(8) {
        0 => 1,
        1 => 2,
        2 => 64,
        3 | 4 => rng.span(1, 64),
        _ => rng.span(1, 6),
    };
    let any = rng.below(17);
    let lines = *rng.pick(&[0, 1, 2, 3, 8, 16, any]) as usize;
    let top = *rng.pick(&[lines as u64, mood.horizon, mood.horizon, 4 * mood.longest, TOP32]);
    let top = top.clamp(20, TOP32);
    let mut delays: Vec<u64> = vec![];
    while delays.len() < lines {
        let delay = if rng.chance(1, 40) { TOP32 } else { 1 + rng.below(top) };
        if !delays.contains(&delay) {
            delays.push(delay);
        }
    }
    delays.sort();
    let leap = match rng.below(6) {
        0 => 1,
        1 => TOP32,
        2 => 1000,
        _ => (mood.horizon / 2).clamp(1, TOP32),
    };
    let floor = match rng.below(24) {
        0..=11 => 0,
        12..=15 => rng.below(1000),
        16 | 17 => rng.below(1 << 48),
        18 | 19 => LAST_MOMENT - mood.horizon.min(LAST_MOMENT),
        20 => LAST_MOMENT - rng.below(40),
        21 if rng.chance(1, 4) => LAST_MOMENT,
        _ => mood.horizon / 2,
    };
    ol(channels, lines as u64, leap, floor, &delays)
}

/// An opening record that may break anything: bounds, mark, length.
pub fn doubtful_opening(rng: &mut Rng, mood: &Mood) -> Vec<u8> {
    let mut record = opening(rng, mood);
    let lines = record[3];
    match rng.below(12) {
        0 => record[2] = 0,
        1 => record[2] = rng.span(64, 66) as u8,
        2 => record[4..8].fill(0),
        3 => {
            // lines above 16, with all their delays, with some, or with none
            let more = rng.span(17, 255);
            let given = *rng.pick(&[more, more, more - 1, 16]);
            let delays: Vec<u64> = (1..=given).collect();
            record = ol(record[2] as u64, more, 5, 0, &delays);
        }
        4 if lines > 0 => {
            let at = 14 + 4 * rng.below(lines as u64) as usize;
            record[at..at + 4].fill(0);
        }
        5 if lines > 1 => {
            let at = 14 + 4 * rng.below(lines as u64 - 1) as usize;
            let same = record[at..at + 4].to_vec();
            record[at + 4..at + 8].copy_from_slice(&same);
        }
        6 if lines > 1 => {
            let at = 14 + 4 * rng.below(lines as u64 - 1) as usize;
            for i in 0..4 {
                record.swap(at + i, at + 4 + i);
            }
        }
        7 => record.truncate(rng.below(record.len() as u64) as usize),
        8 => record[1] = *rng.pick(&[b'B', b'C', b'S', b'l', 0]),
        9 => record[0] = rng.next() as u8,
        10 => record = rng.bytes(24),
        _ => (),
    }
    record
}

// ---------------------------------------------------------------------------------------------------------- orders

/// One well-formed order (OB, OC or OS) for a link as it stands, aimed at what is there.
pub fn order(rng: &mut Rng, link: &Link, mood: &mut Mood) -> Vec<u8> {
    if rng.chance(mood.sweeps, 100) {
        return sweep(rng, link, mood);
    }
    let (mut arrival, mut length, mut lines) = booking(rng, link, mood);
    mood.last = (arrival, length, lines);
    if rng.chance(mood.errs, 100) {
        // one defect or several at once, so that the order of the codes is seen too
        let defects = if rng.chance(1, 2) { 1 << rng.below(4) } else { rng.below(16) };
        if defects & 1 != 0 {
            length = 0;
        }
        if defects & 2 != 0 {
            arrival = link.floor.saturating_sub(if rng.chance(1, 2) { 1 } else { rng.span(1, mood.horizon) });
        }
        if defects & 4 != 0 {
            let above = rng.below(17).max(link.delays.len() as u64);
            lines |= if rng.chance(1, 2) { 1 << link.delays.len() } else { 1 << above } & 0xFFFF;
        }
        if defects & 8 != 0 {
            length = length.max(1);
            arrival = (OPEN_END - length + rng.below(3)).min(LAST_MOMENT);
            if rng.chance(1, 4) {
                length = TOP32;
            }
        }
    }
    if lines == 0 && length < 1 << 16 && rng.chance(1, 2) {
        oc(arrival, length)
    } else {
        ob(arrival, length, lines)
    }
}

fn booking(rng: &mut Rng, link: &Link, mood: &Mood) -> (u64, u64, u64) {
    let all = (1u64 << link.delays.len()) - 1;
    let lines = match rng.below(4) {
        0 => 0,
        1 => all,
        2 if all > 0 => 1 << rng.below(link.delays.len() as u64),
        _ => rng.next() & all,
    };
    let void = *rng.pick(&link.voids);
    let length = 1 + rng.below(mood.longest);
    let (arrival, length) = match rng.below(16) {
        0..=3 => (link.floor + rng.below(mood.horizon + 1), length),
        4 => (link.floor + rng.skewed(mood.horizon), 1 + rng.skewed(mood.longest - 1)),
        5 => (mood.last.0, mood.last.1),
        6 => (mood.last.0 + mood.last.1, length),
        7..=10 => aimed(rng, link, void, length),
        11 | 12 if !link.delays.is_empty() => {
            // so that a delayed start meets the void
            let (start, length) = aimed(rng, link, void, length);
            (start.saturating_sub(*rng.pick(&link.delays)).max(link.floor), length)
        }
        13 if rng.chance(1, 3) => (LAST_MOMENT - length.min(LAST_MOMENT), length),
        14 if rng.chance(1, 3) => (LAST_MOMENT.saturating_sub(length + rng.skewed(mood.horizon)), length),
        _ => {
            // close by what stands in the way: the start just before a void's end
            let end = void.end.min(LAST_MOMENT);
            (end.saturating_sub(rng.below(length + 1)).max(link.floor), length)
        }
    };
    (arrival.min(LAST_MOMENT), length.clamp(1, TOP32), lines)
}

/// The whole void, its start, its end, its middle; sometimes a tick too much.
fn aimed(rng: &mut Rng, link: &Link, void: Void, length: u64) -> (u64, u64) {
    let start = void.start.max(link.floor);
    let end = void.end.min(start.saturating_add(TOP32)).max(start + 1);
    let length = length.min(end - start).max(1);
    let (r, f) = match rng.below(6) {
        0 | 1 if void.end < OPEN_END => (start, end),
        0..=2 => (start, start + length),
        3 if void.end < OPEN_END => (end - length, end),
        _ => {
            let r = start + rng.below(end - start - length + 1).min(1 << 40);
            (r, r + length)
        }
    };
    let (r, f) = match rng.below(12) {
        0 => (r.saturating_sub(1), f),
        1 => (r, f + 1),
        2 if r + 1 < f => (r + 1, f),
        3 if r + 1 < f => (r, f - 1),
        _ => (r, f),
    };
    (r, f - r)
}

fn sweep(rng: &mut Rng, link: &Link, mood: &Mood) -> Vec<u8> {
    let farthest = link.floor + link.leap;
    let end = rng.pick(&link.voids).end;
    let moment = match rng.below(14) {
        0 => link.floor,
        1 => link.floor + 1,
        2 => farthest,
        3 => farthest + 1,
        4 => farthest + rng.skewed(LAST_MOMENT - link.floor),
        5 => link.floor.saturating_sub(1),
        6 => link.floor.saturating_sub(rng.span(1, mood.horizon)),
        7 | 8 => end,
        9 => end + 1,
        10 => end - 1,
        11 => LAST_MOMENT,
        _ => link.floor + rng.below(link.leap.min(mood.horizon) + 1),
    };
    os(moment.min(LAST_MOMENT))
}

/// Bytes that are no order: cut, unknown, an opening, anything.
pub fn garbage(rng: &mut Rng, link: &Link, mood: &mut Mood) -> Vec<u8> {
    let mut bytes = order(rng, link, mood);
    match rng.below(8) {
        0..=2 => bytes.truncate(rng.below(bytes.len() as u64) as usize),
        3 => bytes[1] = rng.next() as u8,
        4 => bytes[0] = *rng.pick(&[b'o', 0, 0x4E, 0x50, 0xCF]),
        5 => bytes = opening(rng, mood),
        6 => bytes.swap(0, 1),
        _ => bytes = rng.bytes(bytes.len()),
    }
    bytes
}
