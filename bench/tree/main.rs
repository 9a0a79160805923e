//! The tree's operations, timed through the archive of crate tree_archive (`make bench-tree`; docs/BENCHMARKS.md).
//! Each figure is the median of several rounds, in nanoseconds an operation; the memory is warm.
use std::time::Instant;

/// The root's seat; the place q has the seats 8 q and 8 q + 4 (docs/ARCHITECTURE.md).
const ROOT: usize = 4;

// A slice passes as a pointer and a length. The functions ask that a tree stands at the root (`Alone`, crates/tracing/specs).
extern "C" {
    fn tree_plant(mem: *mut u8, len: usize, s: usize, key: u64, end: u64);
    fn tree_insert(mem: *mut u8, len: usize, root: usize, key: u64, end: u64, q: u64);
    fn tree_remove(mem: *mut u8, len: usize, root: usize, key: u64) -> u64;
    fn tree_set_end(mem: *mut u8, len: usize, root: usize, key: u64, end: u64);
    fn tree_search(mem: *const u8, len: usize, root: usize, r: u64, f: u64) -> u64;
}

struct Random(u64);

impl Random {
    fn next(&mut self) -> u64 {
        self.0 ^= self.0 << 13;
        self.0 ^= self.0 >> 7;
        self.0 ^= self.0 << 17;
        self.0
    }
}

struct Tree {
    mem: Vec<u8>,
    voids: Vec<(u64, u64)>,
    random: Random,
    range: u64,
}

impl Tree {
    /// A key that no void has, with an end after its start.
    fn draw(&mut self) -> (u64, u64) {
        loop {
            let start = self.random.next() % self.range;
            let key = start * 1024 + 1023 - self.random.next() % 64;
            if !self.voids.iter().any(|v| v.0 == key) {
                return (key, start + 1 + self.random.next() % 2000);
            }
        }
    }

    fn new(n: usize) -> Tree {
        let mut t = Tree {
            mem: vec![0; 224 + 32 * (2 * n - 1)],
            voids: Vec::new(),
            random: Random(88172645463325252),
            range: n as u64 * 16,
        };
        let (key, end) = t.draw();
        unsafe { tree_plant(t.mem.as_mut_ptr(), t.mem.len(), ROOT, key, end) };
        t.voids.push((key, end));
        for i in 1..n {
            let (key, end) = t.draw();
            unsafe { tree_insert(t.mem.as_mut_ptr(), t.mem.len(), ROOT, key, end, i as u64) };
            t.voids.push((key, end));
        }
        t
    }

    /// Nanoseconds an operation: search, insert, remove, set end.
    fn round(&mut self) -> [f64; 4] {
        let len = self.mem.len();
        let n = self.voids.len();
        let asks: Vec<(u64, u64)> = (0..4096)
            .map(|_| {
                let r = self.random.next() % self.range;
                (r, r + 1 + self.random.next() % 1500)
            })
            .collect();
        let began = Instant::now();
        let mut sum = 0;
        for &(r, f) in &asks {
            sum += unsafe { tree_search(self.mem.as_ptr(), len, ROOT, r, f) };
        }
        std::hint::black_box(sum);
        let search = began.elapsed().as_nanos() as f64 / asks.len() as f64;

        let spots: Vec<usize> = (0..4096).map(|_| self.random.next() as usize % n).collect();
        let began = Instant::now();
        for &i in &spots {
            let (key, end) = self.voids[i];
            unsafe { tree_set_end(self.mem.as_mut_ptr(), len, ROOT, key, end + 1) };
            self.voids[i].1 = end + 1;
        }
        let set = began.elapsed().as_nanos() as f64 / spots.len() as f64;

        // an eighth of the voids goes, and as many come, over and over
        let part = n / 8;
        let (mut removing, mut inserting, mut count) = (0.0, 0.0, 0);
        for _ in 0..(8192 / n).max(1) * 4 {
            let going: Vec<u64> = (0..part)
                .map(|_| {
                    let i = self.random.next() as usize % self.voids.len();
                    self.voids.swap_remove(i).0
                })
                .collect();
            let mut free = Vec::with_capacity(part);
            let began = Instant::now();
            for &key in &going {
                free.push(unsafe { tree_remove(self.mem.as_mut_ptr(), len, ROOT, key) });
            }
            removing += began.elapsed().as_nanos() as f64;
            let coming: Vec<(u64, u64)> = (0..part)
                .map(|_| {
                    let v = self.draw();
                    self.voids.push(v);
                    v
                })
                .collect();
            let began = Instant::now();
            for (&(key, end), &q) in coming.iter().zip(&free) {
                unsafe { tree_insert(self.mem.as_mut_ptr(), len, ROOT, key, end, q) };
            }
            inserting += began.elapsed().as_nanos() as f64;
            count += part;
        }
        [search, inserting / count as f64, removing / count as f64, set]
    }
}

fn main() {
    println!("| leaves | search | insert | remove | set end |");
    println!("|---|---|---|---|---|");
    for n in [64, 256, 1024, 4096] {
        let mut t = Tree::new(n);
        t.round();
        let rounds: Vec<[f64; 4]> = (0..9).map(|_| t.round()).collect();
        let median = |i: usize| {
            let mut v: Vec<f64> = rounds.iter().map(|r| r[i]).collect();
            v.sort_by(f64::total_cmp);
            v[v.len() / 2]
        };
        println!(
            "| {} | {:.0} | {:.0} | {:.0} | {:.0} |",
            n,
            median(0),
            median(1),
            median(2),
            median(3)
        );
    }
}
