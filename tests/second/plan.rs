//! Whole sessions from a seed: records for the program, plans of calls for the archive.

use crate::generate::{doubtful_opening, garbage, mood, opening, order, os, Mood};
use crate::model::{need, open, Link, Void, LAST_MOMENT, OPEN_END};
use crate::random::Rng;

// ---------------------------------------------------------------------------------------------------------- the program

/// A session for the program, in pieces (an opening, then records); together at most 32,768 bytes.
pub fn session(seed: u64) -> Vec<Vec<u8>> {
    let rng = &mut Rng::new(seed);
    let mut mood = mood(rng);
    let first = if rng.chance(1, 12) { doubtful_opening(rng, &mood) } else { opening(rng, &mood) };
    let opened = open(need(256) as usize, 256, &first);
    let mut size = first.len();
    let mut pieces = vec![first];
    let Ok((mut link, _)) = opened else {
        pieces.push(rng.bytes(9));
        return pieces;
    };
    let most = match rng.below(20) {
        0 => 0,
        1 => 32_768,
        2..=4 => 8_000,
        _ => 1_200,
    };
    let stops = rng.chance(1, 3);
    while size < most {
        let piece = if stops && rng.chance(1, 120) { garbage(rng, &link, &mut mood) } else { order(rng, &link, &mut mood) };
        link.act(&mut [0; 10], &piece);
        size += piece.len();
        pieces.push(piece);
    }
    let over = size.saturating_sub(32_768);
    let last = pieces.last_mut().unwrap();
    last.truncate(last.len() - over); // the last record cut at the very end of what the program reads
    if stops && rng.chance(1, 2) && size < 32_000 {
        pieces.push(garbage(rng, &link, &mut mood));
    }
    pieces
}

// ---------------------------------------------------------------------------------------------------------- the archive

#[derive(Clone, Debug)]
pub enum Step {
    /// Open in the first `bytes` of the memory.
    Open { room: u64, bytes: usize, record: Vec<u8> },
    /// A single order at the start of a buffer (with bytes after it).
    Act(Vec<u8>),
    /// A run, in pieces, with room for so many numbers.
    Run { pieces: Vec<Vec<u8>>, numbers: usize },
    Tell,
    /// One byte of the memory changed (judged by tell, act and run), then put back.
    Spoil { at: usize, by: u8, order: Vec<u8> },
    /// Only the first `bytes` of the memory lent (judged by tell, act and run).
    Short { bytes: usize, order: Vec<u8> },
}

/// How the memory is at the start: any bytes, or a link with many voids laid out by the builder.
#[derive(Clone, Debug)]
pub enum Start {
    Bytes(u64),
    Built { link: Link, shape: u64 },
}

#[derive(Clone, Debug)]
pub struct Plan {
    pub memory: usize,
    pub start: Start,
    pub tally: [u64; 10],
    pub steps: Vec<Step>,
}

/// A link with about so many voids, as many calls could have left it (or no calls at all, but whole).
pub fn grown(rng: &mut Rng, mood: &Mood, room: u64, voids: u64) -> Link {
    loop {
        let (mut link, _) = open(1 << 20, 4096, &opening(rng, mood)).unwrap();
        if link.channels > room {
            continue;
        }
        link.room = room;
        let mut free_from = vec![link.floor; link.channels as usize];
        link.voids.clear();
        let mut more = voids.saturating_sub(link.channels);
        while more > 0 {
            more -= 1;
            let channel = rng.below(link.channels);
            let from = &mut free_from[channel as usize];
            let start = *from + rng.below(mood.longest.min(1 << 20) + 1);
            let end = start + 1 + rng.below(mood.longest.min(1 << 20));
            if end + 4 < LAST_MOMENT {
                link.voids.push(Void { channel, start, end });
                *from = end + 1 + if rng.chance(1, 3) { 0 } else { rng.below(mood.longest.min(1 << 20)) };
            }
        }
        for channel in 0..link.channels {
            let start = free_from[channel as usize] + rng.below(3);
            link.voids.push(Void { channel, start: start.min(LAST_MOMENT), end: OPEN_END });
        }
        if rng.chance(1, 3) {
            // a floor later than some starts; every end after it
            let least = link.voids.iter().map(|v| v.end - 1).min().unwrap();
            link.floor = rng.span(link.floor, least.max(link.floor));
        }
        return link;
    }
}

pub fn plan(seed: u64) -> Plan {
    let rng = &mut Rng::new(seed);
    let mut mood = mood(rng);
    let mut tally = [0; 10];
    for count in &mut tally {
        *count = *rng.pick(&[0, 0, 0, 5, u64::MAX, u64::MAX - 1, u64::MAX - 3]);
    }
    let mut steps = vec![];
    let (mut link, memory, start);
    if rng.chance(1, 5) {
        let top = if rng.chance(1, 12) { 4096 } else { 300 };
        let room = rng.span(1, top);
        let voids = rng.span(1, room);
        let voids = *rng.pick(&[room, voids]);
        let built = grown(rng, &mood, room, voids);
        memory = need(room) as usize + *rng.pick(&[0, 0, 8, 100, 32 * room as usize]) + rng.below(8) as usize;
        link = Some(built.clone());
        start = Start::Built { link: built, shape: rng.next() };
    } else {
        let first = opening(rng, &mood);
        let channels = first[2] as u64;
        let room = match rng.below(16) {
            0..=3 => channels,
            4..=6 => channels + rng.below(3),
            7..=10 => channels + rng.below(12),
            11..=13 => rng.span(channels, channels + 60),
            14 => rng.span(channels, 256),
            _ if rng.chance(1, 8) => *rng.pick(&[4096, 4096, 4095, 2048, 1000]),
            _ => rng.span(channels, 600),
        };
        let needed = need(room) as usize;
        memory = needed + *rng.pick(&[0, 0, 0, 1, 8, 32 * room as usize]) + rng.below(8) as usize;
        start = Start::Bytes(rng.next());
        steps.push(Step::Tell);
        steps.push(Step::Act(os(0)));
        for _ in 0..rng.below(4) {
            let wild = [room, room, room, 0, channels - 1, 4097, 1 << 32, 1 << 63, u64::MAX, u64::MAX / 64, (1 << 58) + 1, (1 << 60) + 1];
            let record = doubtful_opening(rng, &mood);
            let bytes = *rng.pick(&[memory, memory, needed, needed - 1, needed - 8, needed - 64, 223, 1, 0]);
            steps.push(Step::Open { room: *rng.pick(&wild), bytes, record });
        }
        link = Some(open(needed, room, &first).unwrap().0);
        let mut record = first;
        let after = *rng.pick(&[0, 0, 1, 14]);
        record.extend(rng.bytes(after));
        steps.push(Step::Open { room, bytes: *rng.pick(&[memory, needed]), record });
    }
    // What the steps before really left (a doubtful opening may be taken): the last one decides, and it is in bounds.
    let link: &mut Link = link.as_mut().unwrap();
    let size = if link.room > 700 { 12 } else { *rng.pick(&[5, 20, 20, 40, 80]) };
    for _ in 0..size {
        match rng.below(40) {
            0..=21 => {
                let mut bytes = order(rng, link, &mut mood);
                if rng.chance(1, 2) {
                    let after = rng.below(20) as usize;
                    bytes.extend(rng.bytes(after));
                }
                link.act(&mut [0; 10], &bytes);
                steps.push(Step::Act(bytes));
            }
            22 => steps.push(Step::Act(garbage(rng, link, &mut mood))),
            23 => steps.push(Step::Act(vec![])),
            24..=34 => {
                let long = rng.chance(1, 8);
                let records = if link.room > 700 { rng.below(6) } else { *rng.pick(&[0, 1, 2, 3, 5, 8, 12, if link.room < 100 && long { 150 } else { 25 }]) };
                let mut pieces = vec![];
                let ahead = &mut link.clone();
                for _ in 0..records {
                    let piece = if rng.chance(1, 60) { garbage(rng, ahead, &mut mood) } else { order(rng, ahead, &mut mood) };
                    ahead.act(&mut [0; 10], &piece);
                    pieces.push(piece);
                }
                if rng.chance(1, 10) {
                    pieces.push(garbage(rng, ahead, &mut mood));
                }
                let full = 7 * pieces.len();
                let numbers = match rng.below(8) {
                    0 => rng.below(full as u64 + 8) as usize,
                    1 => full.saturating_sub(1),
                    2 => full.saturating_sub(7),
                    3 => full + rng.below(20) as usize,
                    _ => full,
                };
                link.run(&mut [0; 10], &pieces.concat(), numbers);
                steps.push(Step::Run { pieces, numbers });
            }
            35 => steps.push(Step::Tell),
            36 | 37 => {
                let at = if rng.chance(1, 2) { rng.below(224) } else { rng.below(memory as u64) } as usize;
                let by = *rng.pick(&[1, 2, 4, 16, 128, 255]);
                steps.push(Step::Spoil { at, by, order: order(rng, link, &mut mood) });
            }
            38 => {
                let needed = need(link.room) as usize;
                let bytes = *rng.pick(&[needed, needed - 1, needed - 8, needed / 2, 256, 255, 224, 223, 8, 0]);
                steps.push(Step::Short { bytes: bytes.min(needed), order: order(rng, link, &mut mood) });
            }
            _ => {
                // opening again, over a link that is there: refused (and the link untouched) or taken
                let record = doubtful_opening(rng, &mood);
                let bytes = *rng.pick(&[memory, memory, need(link.room) as usize - 1]);
                if let Ok((opened, _)) = open(bytes, link.room, &record) {
                    *link = opened;
                }
                steps.push(Step::Open { room: link.room, bytes, record });
            }
        }
    }
    Plan { memory, start, tally, steps }
}
