//! The core through its archive: a link in lent memory, played by `curlywether_run` on records. Its one check of the memory is in
//! every figure; how many records a run has is said with each.
use crate::curlywether::{self, Answer, Ran, Tally};
use crate::order::{Order, Reply};
use crate::stream::Stream;

extern "C" {
    fn link_book(memory: *mut u8, bytes: usize, arrival: u64, burst: u64, lines: u64) -> Answer;
    fn link_sweep(memory: *mut u8, bytes: usize, moment: u64) -> Answer;
}

/// Memory that starts at a multiple of 64 bytes, so that a place is one line of the cache.
#[derive(Clone, Copy)]
#[repr(align(64))]
#[allow(dead_code)] // read through the slice over all of them
struct Line([u8; 64]);

pub struct Core {
    pub memory: &'static mut [u8],
    pub tally: Tally,
    records: Vec<u8>,
    pub answers: Vec<u64>,
}

impl Core {
    pub fn open(stream: &Stream) -> Core {
        let bytes = curlywether::need(stream.room);
        let lines = Box::leak(vec![Line([0; 64]); bytes.div_ceil(64)].into_boxed_slice());
        let memory = unsafe { std::slice::from_raw_parts_mut(lines.as_mut_ptr() as *mut u8, bytes) };
        let opened = curlywether::open(&mut memory[..], stream.room, &stream.opening());
        assert_eq!(opened.code, 0, "the opening");
        let answers = vec![u64::MAX; 7 * stream.orders.len()];
        Core { memory, tally: Tally::default(), records: stream.records(), answers }
    }

    /// The whole stream as one run.
    pub fn play(&mut self) {
        let ran = curlywether::run(&mut self.memory, &mut self.tally, &self.records, &mut self.answers);
        assert_eq!(ran, Ran { code: 0, place: self.records.len(), answered: self.answers.len() / 7 });
    }

    /// The stream in runs of so many records.
    pub fn play_in_runs(&mut self, records: usize) {
        let mut at = 0;
        for answers in self.answers.chunks_mut(7 * records) {
            let ran = curlywether::run(&mut self.memory, &mut self.tally, &self.records[at..], answers);
            assert!(ran.code == 12 || ran.code == 0);
            at += ran.place;
        }
        assert_eq!(at, self.records.len());
    }

    /// The stream by the link's own booking and sweep (crate link_archive): no check, no record, no tally.
    pub fn play_own(&mut self, orders: &[Order]) {
        let (memory, bytes) = (self.memory.as_mut_ptr(), self.memory.len());
        for (answers, order) in self.answers.chunks_mut(7).zip(orders) {
            // the memory is a whole link: it was opened, and only these calls change it
            let answer = unsafe {
                match *order {
                    Order::Book { arrival, length } => link_book(memory, bytes, arrival, length, 0),
                    Order::Sweep { moment } => link_sweep(memory, bytes, moment),
                }
            };
            answers.copy_from_slice(&answer.numbers());
        }
    }

    pub fn replies(&self) -> Vec<Reply> {
        let reply = |a: &[u64]| Reply { code: a[0], channel: a[1], start: a[3], finish: a[4], dropped: a[6] };
        self.answers.chunks(7).map(reply).collect()
    }

    /// Tree nodes visited by each order.
    pub fn counts(&self) -> impl Iterator<Item = u64> + '_ {
        self.answers.chunks(7).map(|answer| answer[5])
    }

    pub fn voids(&self) -> u64 {
        let told = curlywether::tell(&self.memory);
        assert_eq!(told.code, 0, "the memory after the stream");
        told.voids
    }
}
