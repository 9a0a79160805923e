//! The link through its archives: those of crates door and link_archive (`make bench-link`; docs/BENCHMARKS.md). Four tables: the
//! whole-link check a void, hostile memories, sweeping a void dropped, and a run of records beside the link's own booking loop.
use std::time::Instant;

#[path = "../../include/curlywether.rs"]
mod curlywether;
use curlywether::{Answer, Tally};

extern "C" {
    fn link_book(mem: *mut u8, len: usize, arrival: u64, burst: u64, lines: u64) -> Answer;
    fn link_sweep(mem: *mut u8, len: usize, moment: u64) -> Answer;
    fn link_whole(mem: *const u8, len: usize) -> bool;
}

fn word(mem: &[u8], i: usize) -> u64 {
    u64::from_le_bytes(mem[8 * i..8 * i + 8].try_into().unwrap())
}

fn put(mem: &mut [u8], i: usize, v: u64) {
    mem[8 * i..8 * i + 8].copy_from_slice(&v.to_le_bytes());
}

/// A link of 16 channels with the widest leap and no line.
fn opened(room: usize) -> Vec<u8> {
    let mut mem = vec![0; curlywether::need(room as u64)];
    let mut record = vec![0x4F, 0x4C, 16, 0, 0xFF, 0xFF, 0xFF, 0xFF];
    record.extend([0; 6]);
    let o = curlywether::open(&mut mem, room as u64, &record);
    assert_eq!((o.code, o.used), (0, 14));
    mem
}

fn book(mem: &mut [u8], arrival: u64, burst: u64) -> Answer {
    unsafe { link_book(mem.as_mut_ptr(), mem.len(), arrival, burst, 0) }
}

fn whole(mem: &[u8]) -> bool {
    unsafe { link_whole(mem.as_ptr(), mem.len()) }
}

/// The same with every place of the room in use.
fn full(room: usize) -> Vec<u8> {
    let mut mem = opened(room);
    for i in 0..(room - 16) as u64 {
        assert_eq!(book(&mut mem, 10 * i + 5, 2).code, 0);
    }
    assert_eq!(word(&mem, 6), room as u64);
    mem
}

/// The median of several rounds of an action, in ns.
fn median(mut act: impl FnMut() -> u64) -> f64 {
    let mut rounds: Vec<u64> = (0..15).map(|_| act()).collect();
    rounds.sort();
    rounds[7] as f64
}

/// The check of one memory, in ns.
fn check(mem: &[u8], yes: bool) -> f64 {
    let times = 1 + 4_000_000 / mem.len();
    median(|| {
        let from = Instant::now();
        for _ in 0..times {
            assert_eq!(whole(std::hint::black_box(mem)), yes);
        }
        from.elapsed().as_nanos() as u64
    }) / times as f64
}

/// The root's seat. The children of a node with place q, whose link is 8q, are at the seats 2q and 2q + 1 (counted by nodes here).
const ROOT: usize = 1;

/// The word i of the node at a seat: lo, top, low, links.
fn at(seat: usize, i: usize) -> usize {
    24 + 4 * seat + i
}

/// Height and place.
fn links(mem: &[u8], seat: usize) -> (u64, usize) {
    let w = word(mem, at(seat, 3));
    (w >> 32, (w & 0xFFFF_FFFF) as usize / 8)
}

fn link(mem: &mut [u8], seat: usize, place: usize) {
    let height = links(mem, seat).0;
    put(mem, at(seat, 3), height << 32 | 8 * place as u64);
}

/// The last inner node on the right edge, and the last void: their seats.
fn last(mem: &[u8]) -> (usize, usize) {
    let mut seat = ROOT;
    loop {
        let right = 2 * links(mem, seat).1 + 1;
        if links(mem, right).0 == 0 {
            return (seat, right);
        }
        seat = right;
    }
}

/// Every inner node has its left child twice, and all sums agree: as many ways as a tree of that height can have.
fn shared(mem: &[u8]) -> Vec<u8> {
    let mut bad = mem.to_vec();
    let mut edge = vec![ROOT];
    while 0 < links(mem, edge[edge.len() - 1]).0 {
        edge.push(2 * links(mem, edge[edge.len() - 1]).1);
    }
    for pair in edge.windows(2).rev() {
        let (seat, left) = (pair[0], pair[1]);
        let over = (links(&bad, left).0 + 1) << 32 | 8 * (left as u64 / 2);
        for i in 0..4 {
            let value = word(&bad, at(left, i));
            put(&mut bad, at(left + 1, i), value);
            put(&mut bad, at(seat, i), if i < 3 { value } else { over });
        }
    }
    bad
}

/// One place is shared, at the far end: found only when everything before it was walked. The last inner node leads to the children of
/// another one of its height, the first of them.
fn shared_last(mem: &[u8]) -> Vec<u8> {
    let mut bad = mem.to_vec();
    let seat = last(mem).0;
    let mut open = vec![ROOT];
    while let Some(other) = open.pop() {
        let (height, place) = links(mem, other);
        if height == links(mem, seat).0 && other != seat {
            link(&mut bad, seat, place);
            return bad;
        }
        if 0 < height {
            open.extend([2 * place + 1, 2 * place]);
        }
    }
    panic!("no other node of that height")
}

/// A cycle at the far end.
fn cycle(mem: &[u8]) -> Vec<u8> {
    let mut bad = mem.to_vec();
    link(&mut bad, last(mem).0, links(mem, ROOT).1);
    bad
}

/// The last void's greatest end lies.
fn lying(mem: &[u8]) -> Vec<u8> {
    let mut bad = mem.to_vec();
    let at = at(last(mem).1, 1);
    put(&mut bad, at, word(mem, at) - 1);
    bad
}

/// A link of m voids, of which the sweep drops the first n; ns a sweep, the copying of the memory left out.
fn sweep(room: usize, n: u64) -> (f64, u64) {
    let kept = full(room);
    let mut dropped = 0;
    let ns = median(|| {
        let mut all = 0;
        for _ in 0..20 {
            let mut mem = kept.clone();
            let from = Instant::now();
            let a = unsafe { link_sweep(mem.as_mut_ptr(), mem.len(), 10 * n) };
            all += from.elapsed().as_nanos() as u64;
            assert_eq!(a.code, 0);
            dropped = a.dropped;
        }
        all / 20
    });
    (ns, dropped)
}

/// The same bookings as a run of records and as a loop over the link's own booking, and the run's one check; ns a booking each.
/// The two take turns and the least of their rounds counts: other work on the machine only adds.
fn beside(room: usize, n: usize) -> (f64, f64, f64) {
    let mem = opened(room);
    let mut seed = 88172645463325252u64;
    let mut orders = Vec::new();
    let mut records = Vec::new();
    for _ in 0..n {
        seed ^= seed << 13;
        seed ^= seed >> 7;
        seed ^= seed << 17;
        let (arrival, burst) = (seed % (40 * n as u64), 1 + (seed >> 40) % 100);
        orders.push((arrival, burst));
        records.extend([0x4F, 0x42]);
        records.extend(&arrival.to_be_bytes()[2..]);
        records.extend(&(burst as u32).to_be_bytes());
        records.extend([0, 0]);
    }
    let mut out = vec![0u64; 7 * n];
    let mut answers = vec![Answer::default(); n];
    let mut least = [u64::MAX; 2];
    for _ in 0..31 {
        let (mut m, mut tally) = (mem.clone(), Tally::default());
        let from = Instant::now();
        let r = curlywether::run(&mut m, &mut tally, &records, &mut out);
        least[0] = least[0].min(from.elapsed().as_nanos() as u64);
        assert_eq!((r.code, r.answered), (0, n));
        let mut m = mem.clone();
        let from = Instant::now();
        for (i, &(arrival, burst)) in orders.iter().enumerate() {
            answers[i] = book(&mut m, arrival, burst);
        }
        least[1] = least[1].min(from.elapsed().as_nanos() as u64);
        for (i, a) in answers.iter().enumerate() {
            assert_eq!(out[7 * i..7 * i + 7], a.numbers());
        }
    }
    let [run, own] = least.map(|ns| ns as f64 / n as f64);
    (run, own, check(&mem, true) / n as f64)
}

fn main() {
    println!("| room, all in use | whole-link check, ns | ns a void | all subtrees shared, ns | one shared, last, ns | a cycle, last, ns | a lying end, last, ns |");
    println!("|---|---|---|---|---|---|---|");
    for room in [64, 1024, 4096] {
        let good = full(room);
        let ns = check(&good, true);
        let bad = [shared(&good), shared_last(&good), cycle(&good), lying(&good)].map(|bad| check(&bad, false));
        println!("| {room} | {ns:.0} | {:.1} | {} |", ns / room as f64, bad.map(|b| format!("{b:.0}")).join(" | "));
        assert!(bad.iter().all(|b| *b <= 2.0 * ns), "a hostile memory took more than twice a good one's time");
    }
    println!("\n| voids | dropped | sweep, ns | ns a void dropped |\n|---|---|---|---|");
    for (room, n) in [(1024, 0), (4096, 0), (1024, 10), (4096, 10), (1024, 500), (4096, 500), (4096, 3000)] {
        let (ns, dropped) = sweep(room, n);
        let each = if dropped == 0 { "-".into() } else { format!("{:.0}", ns / dropped as f64) };
        println!("| {room} | {dropped} | {ns:.0} | {each} |");
    }
    println!("\n| bookings | in a run, ns each | the link's own loop, ns each | ratio | the run's one check, ns each | ratio without it |\n|---|---|---|---|---|---|");
    for (room, n) in [(256, 200), (1024, 900), (4096, 4000)] {
        let (run, own, check) = beside(room, n);
        println!("| {n} | {run:.0} | {own:.0} | {:.2} | {check:.0} | {:.2} |", run / own, (run - check) / own);
    }
}
