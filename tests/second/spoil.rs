//! Spoiled memories: whole links with something changed, judged by layout.rs (is it still whole?) and then by the core.

use crate::compare::{judge, Bench, Seen};
use crate::damage::{change_word, crook, lie, spares};
use crate::generate::{garbage, mood, order, Mood};
use crate::layout::{build, set_word, whole, Crooked, HEADER, NODE};
use crate::model::{need, open, Link};
use crate::plan::grown;
use crate::random::Rng;
use std::collections::BTreeMap;

/// How many memories were judged, and how many of them broke which rule first ("whole": none).
#[derive(Default, Clone)]
pub struct Spoiled {
    pub judged: u64,
    pub rules: BTreeMap<&'static str, u64>,
    pub ways: BTreeMap<&'static str, (u64, u64)>, // judged, still whole
}

struct Case<'a> {
    bench: &'a mut Bench,
    bytes: usize,
    order: Vec<u8>,
    seen: &'a mut Seen,
    spoiled: &'a mut Spoiled,
}

impl Case<'_> {
    fn memory(&mut self) -> &mut [u8] {
        self.bench.main.lent(self.bytes)
    }
    fn judge(&mut self, way: &'static str, lent: usize) -> Result<(), String> {
        let memory = &mut self.bench.main.lent(self.bytes)[..lent];
        let verdict = judge(&mut self.bench.desk, memory, &self.order, self.seen);
        let verdict = verdict.map_err(|e| format!("{way}: {e}\n  memory of {lent} bytes: {}", words(memory)))?;
        if !self.bench.main.intact(self.bytes) {
            return Err(format!("{way}: bytes before the memory were written"));
        }
        self.spoiled.judged += 1;
        *self.spoiled.rules.entry(verdict.err().unwrap_or("(whole)")).or_default() += 1;
        let entry = self.spoiled.ways.entry(way).or_default();
        entry.0 += 1;
        entry.1 += verdict.is_ok() as u64;
        Ok(())
    }
}

fn words(memory: &[u8]) -> String {
    let shown: Vec<String> = memory.chunks_exact(8).take(160).enumerate().map(|(i, c)| {
        let value = u64::from_le_bytes(c.try_into().unwrap());
        let gap = if i < HEADER { i == 8 } else { (i - HEADER) % NODE == 0 };
        format!("{}{value:x}", if gap { "\n    " } else { " " })
    }).collect();
    format!("(hex words, header then nodes){}", shown.concat())
}

/// A whole link in the bench's memory: by the builder, or by the core itself. Its voids leave at least `spare` places of room.
fn settle(rng: &mut Rng, bench: &mut Bench, most: u64, bytes: &mut usize, mood: &mut Mood) -> Result<Link, String> {
    let room = rng.span(1, most);
    let voids = rng.span(1, room);
    let voids = *rng.pick(&[voids, room, room.saturating_sub(1)]);
    let link = grown(rng, mood, room, voids);
    *bytes = need(room) as usize + *rng.pick(&[0, 0, 8, 64]) + rng.below(4) as usize;
    bench.main.watch(*bytes);
    let memory = bench.main.lent(*bytes);
    memory.fill(0x3C);
    if rng.chance(1, 2) {
        build(memory, &link, rng, Crooked::default());
        return Ok(link);
    }
    let record = crate::generate::ol(link.channels, link.delays.len() as u64, link.leap, link.floor, &link.delays);
    let (code, _) = bench.desk.open(memory, room, &record);
    let (mut link, _) = open(*bytes, room, &record).map_err(|code| format!("the model refuses the opening with {code}"))?;
    for _ in 0..rng.below(3 * room + 3) {
        let order = order(rng, &link, mood);
        link.act(&mut [0; 10], &order);
        bench.desk.act(memory, &mut [0; 10], &order);
    }
    match whole(memory) {
        Ok(image) if code == 0 && image.link.ordered() == link.ordered() => Ok(link),
        Ok(_) => Err("the core's link is not the model's".into()),
        Err(rule) => Err(format!("the core's own link breaks '{rule}'")),
    }
}

/// One seed's worth of spoiled memories.
pub fn spoil(bench: &mut Bench, seed: u64, seen: &mut Seen, spoiled: &mut Spoiled) -> Result<(), String> {
    let rng = &mut Rng::new(seed);
    let mut mood = mood(rng);
    let kind = rng.below(20);
    let most = match kind {
        0 => 4,
        1 => 5,
        _ => *rng.pick(&[3, 8, 8, 20, 70]),
    };
    let mut bytes = 0;
    let link = settle(rng, bench, most, &mut bytes, &mut mood)?;
    let order = if rng.chance(1, 8) { garbage(rng, &link, &mut mood) } else { order(rng, &link, &mut mood) };
    let mut case = Case { bench, bytes, order, seen, spoiled };
    case.judge("untouched", bytes)?;
    let needed = need(link.room) as usize;
    match kind {
        0 => {
            let by = *rng.pick(&[0x01, 0x80, 0xFF, 0x02, 0x10]);
            for at in 0..bytes {
                case.memory()[at] ^= by;
                case.judge("each byte flipped", bytes).map_err(|e| format!("byte {at} ^ {by:#x}: {e}"))?;
                case.memory()[at] ^= by;
            }
        }
        1 => {
            for lent in 0..=bytes {
                case.judge("cut short", lent)?;
            }
            // the same memory with its end at the fence
            let all = case.memory().to_vec();
            for lent in [0, 1, 7, 8, 223, 224, 255, 256, needed - 64, needed - 32, needed - 8, needed - 1, needed] {
                case.bytes = lent.min(all.len());
                case.bench.main.watch(case.bytes);
                case.memory().copy_from_slice(&all[..lent.min(all.len())]);
                let lent = case.bytes;
                case.judge("cut short at the fence", lent)?;
            }
        }
        2 | 3 => {
            let keep = case.memory().to_vec();
            for _ in 0..60 {
                match rng.below(4) {
                    0 => rng.bytes(bytes).into_iter().zip(case.memory()).for_each(|(b, m)| *m = b),
                    1 => {
                        let nodes = rng.bytes(needed - 8 * HEADER);
                        case.memory()[8 * HEADER..needed].copy_from_slice(&nodes);
                    }
                    2 => {
                        let fill = *rng.pick(&[0, 1, 0x80, 0xFF]);
                        case.memory()[8 * HEADER..needed].fill(fill);
                    }
                    _ => {
                        // small numbers everywhere, so that places are places
                        for i in *rng.pick(&[5, HEADER, HEADER])..needed / 8 {
                            if rng.chance(1, 6) {
                                let value = rng.below(link.room + 2) | rng.below(4) << 32;
                                set_word(case.memory(), i, value);
                            }
                        }
                    }
                }
                case.judge("random bytes", bytes)?;
                case.memory().copy_from_slice(&keep);
            }
        }
        4..=8 => {
            let keep = case.memory().to_vec();
            for _ in 0..80 {
                for _ in 0..rng.span(1, 2) {
                    change_word(rng, case.memory(), &link);
                }
                case.judge("a word or two changed", bytes)?;
                case.memory().copy_from_slice(&keep);
            }
        }
        9..=12 => {
            let keep = case.memory().to_vec();
            for _ in 0..80 {
                lie(rng, case.memory());
                case.judge("a lie told all the way up", bytes)?;
                case.memory().copy_from_slice(&keep);
            }
        }
        _ => {
            for _ in 0..60 {
                let (way, crooked_link, crooked) = crook(rng, &link);
                if crooked_link.voids.len() as u64 > crooked_link.room + 1 || crooked_link.voids.is_empty() {
                    continue;
                }
                case.bytes = need(crooked_link.room) as usize + rng.below(9) as usize;
                case.bench.main.watch(case.bytes);
                build(case.memory(), &crooked_link, rng, crooked);
                match way {
                    "an unused word set" => {
                        let after = rng.span(8 + crooked_link.delays.len() as u64, 27) as usize;
                        let at = if rng.chance(1, 8) { 5 } else { after };
                        set_word(case.memory(), at, 1 << rng.below(64));
                    }
                    "the spares" => spares(rng, case.memory(), &crooked_link),
                    _ => (),
                }
                let lent = case.bytes;
                case.judge(way, lent)?;
            }
        }
    }
    Ok(())
}
