//! The functions of curlywether.h, called with everything lent placed right before a page that cannot be touched, so that a byte
//! read or written past what was lent ends the process (and the seed is printed, see `on_death`).

#[path = "../../include/curlywether.rs"]
mod curlywether;

use crate::model::{Seven, Tally};
use curlywether::{curlywether_act, curlywether_open, curlywether_run, curlywether_tell};
use std::sync::atomic::{AtomicU64, Ordering};

extern "C" {
    fn mmap(at: *mut u8, size: usize, protection: i32, flags: i32, file: i32, offset: i64) -> *mut u8;
    fn mprotect(at: *mut u8, size: usize, protection: i32) -> i32;
    fn signal(number: i32, handler: usize) -> usize;
    fn alarm(seconds: u32) -> u32;
    fn write(file: i32, from: *const u8, size: usize) -> isize;
    fn _exit(status: i32) -> !;
}

const PAGE: usize = 4096;
const GUARD: usize = 64;

/// Room for a lent slice that ends exactly at an untouchable page; 64 bytes before it are watched.
pub struct Fence {
    base: *mut u8,
    size: usize,
}

impl Fence {
    pub fn new(most: usize) -> Fence {
        let size = (most + GUARD + PAGE - 1) / PAGE * PAGE;
        unsafe {
            let base = mmap(std::ptr::null_mut(), size + PAGE, 3, 0x22, -1, 0);
            assert!(base as isize != -1, "mmap");
            assert_eq!(mprotect(base.add(size), PAGE, 0), 0, "mprotect");
            Fence { base, size }
        }
    }
    /// The last `len` bytes before the fence.
    pub fn lent(&mut self, len: usize) -> &mut [u8] {
        assert!(len + GUARD <= self.size);
        unsafe { std::slice::from_raw_parts_mut(self.base.add(self.size - len), len) }
    }
    fn put(&mut self, bytes: &[u8]) -> *const u8 {
        self.lent(bytes.len()).copy_from_slice(bytes);
        self.watch(bytes.len());
        self.lent(bytes.len()).as_ptr()
    }
    fn guard(&mut self, len: usize) -> &mut [u8] {
        unsafe { std::slice::from_raw_parts_mut(self.base.add(self.size - len - GUARD), GUARD) }
    }
    pub fn watch(&mut self, len: usize) {
        self.guard(len).fill(0xA5);
    }
    pub fn intact(&mut self, len: usize) -> bool {
        self.guard(len).iter().all(|byte| *byte == 0xA5)
    }
}

pub const PATTERN: u64 = 0xC0FF_EE11_DEAD_BEA7;

/// Where records and answers are lent from.
pub struct Desk {
    records: Fence,
    answers: Fence,
}

impl Desk {
    pub fn new() -> Desk {
        Desk { records: Fence::new(1 << 17), answers: Fence::new(1 << 19) }
    }

    pub fn open(&mut self, memory: &mut [u8], room: u64, record: &[u8]) -> (u64, usize) {
        let at = self.records.put(record);
        let opened = unsafe { curlywether_open(memory.as_mut_ptr(), memory.len(), room, at, record.len()) };
        self.untouched(record);
        (opened.code, opened.used)
    }

    pub fn act(&mut self, memory: &mut [u8], tally: &mut Tally, record: &[u8]) -> (Seven, usize) {
        let at = self.records.put(record);
        let mut lent = [PATTERN; 12];
        lent[1..11].copy_from_slice(tally);
        let acted = unsafe { curlywether_act(memory.as_mut_ptr(), memory.len(), lent.as_mut_ptr().add(1).cast(), at, record.len()) };
        assert!(lent[0] == PATTERN && lent[11] == PATTERN, "written beside the tally");
        tally.copy_from_slice(&lent[1..11]);
        self.untouched(record);
        (acted.answer.numbers(), acted.used)
    }

    /// Code, place, answered, and all the numbers lent (filled with the pattern first).
    pub fn run(&mut self, memory: &mut [u8], tally: &mut Tally, records: &[u8], numbers: usize) -> (u64, usize, usize, Vec<u64>) {
        let at = self.records.put(records);
        let answers = self.answers.put(&PATTERN.to_ne_bytes().repeat(numbers)) as *mut u64;
        let mut lent = [PATTERN; 12];
        lent[1..11].copy_from_slice(tally);
        let ran = unsafe {
            let tally = lent.as_mut_ptr().add(1).cast();
            curlywether_run(memory.as_mut_ptr(), memory.len(), tally, at, records.len(), answers, numbers)
        };
        assert!(lent[0] == PATTERN && lent[11] == PATTERN, "written beside the tally");
        assert!(self.answers.intact(8 * numbers), "written before the answers");
        tally.copy_from_slice(&lent[1..11]);
        self.untouched(records);
        let written = self.answers.lent(8 * numbers).chunks(8).map(|c| u64::from_ne_bytes(c.try_into().unwrap())).collect();
        (ran.code, ran.place, ran.answered, written)
    }

    pub fn tell(&mut self, memory: &[u8]) -> (u64, u64) {
        let told = unsafe { curlywether_tell(memory.as_ptr(), memory.len()) };
        (told.code, told.voids)
    }

    fn untouched(&mut self, record: &[u8]) {
        assert!(self.records.lent(record.len()) == record && self.records.intact(record.len()), "the records were written to");
    }
}

// ---------------------------------------------------------------------------------------------------------- dying

static CASE: AtomicU64 = AtomicU64::new(0);
static KIND: AtomicU64 = AtomicU64::new(0);

/// Names the case that runs from here on; a case of more than a minute counts as hanging.
pub fn begin(kind: u8, seed: u64) {
    KIND.store(kind as u64, Ordering::Relaxed);
    CASE.store(seed, Ordering::Relaxed);
    unsafe { alarm(60) };
}

extern "C" fn last_words(number: i32) {
    let mut text = *b"\nDIED signal    in case c of seed                     \n";
    let mut put = |at: usize, mut n: u64| {
        let mut end = at;
        loop {
            text[end] = b'0' + (n % 10) as u8;
            n /= 10;
            if n == 0 {
                return;
            }
            end -= 1;
        }
    };
    put(14, number as u64);
    put(52, CASE.load(Ordering::Relaxed));
    text[24] = KIND.load(Ordering::Relaxed) as u8;
    unsafe {
        write(2, text.as_ptr(), text.len());
        _exit(1)
    }
}

/// SIGILL, SIGABRT, SIGBUS, SIGFPE, SIGSEGV, SIGALRM: say which case it was, exit 1. SIGPIPE is ignored by the runtime.
pub fn on_death() {
    for number in [4, 6, 7, 8, 11, 14] {
        unsafe { signal(number, last_words as extern "C" fn(i32) as usize) };
    }
}
