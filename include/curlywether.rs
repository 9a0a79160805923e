//! Curlywether for Rust: the declarations of curlywether.h, and the four calls as safe functions on slices. One file, no crate:
//! `#[path = ".../include/curlywether.rs"] mod curlywether;`, linked with `-L target/staticlib -l static=door`.
#![allow(dead_code)]

/// The bytes that a link of this room needs. Any alignment is right; memory that starts at a multiple of 64 bytes is fastest.
pub const fn need(room: u64) -> usize {
    64 * room as usize + 256
}

/// The seven numbers of an answer. A refusal has 0 in all but code and count, a sweep in all but dropped.
#[repr(C)]
#[derive(Clone, Copy, Default, PartialEq, Eq, Debug)]
pub struct Answer {
    pub code: u64,
    pub channel: u64,
    /// 0: undelayed
    pub line: u64,
    pub start: u64,
    pub finish: u64,
    pub count: u64,
    pub dropped: u64,
}

impl Answer {
    pub fn numbers(&self) -> [u64; 7] {
        [self.code, self.channel, self.line, self.start, self.finish, self.count, self.dropped]
    }
}

/// One count for bookings, one for sweeps, one for each of codes 3 to 10.
#[repr(C)]
#[derive(Clone, Copy, Default, PartialEq, Eq, Debug)]
pub struct Tally {
    pub bookings: u64,
    pub sweeps: u64,
    /// of codes 3 to 10
    pub refused: [u64; 8],
}

#[repr(C)]
#[derive(Clone, Copy, PartialEq, Eq, Debug)]
pub struct Opened {
    pub code: u64,
    pub used: usize,
}

#[repr(C)]
#[derive(Clone, Copy, PartialEq, Eq, Debug)]
pub struct Acted {
    pub answer: Answer,
    pub used: usize,
}

#[repr(C)]
#[derive(Clone, Copy, PartialEq, Eq, Debug)]
pub struct Ran {
    pub code: u64,
    pub place: usize,
    pub answered: usize,
}

#[repr(C)]
#[derive(Clone, Copy, PartialEq, Eq, Debug)]
pub struct Told {
    pub code: u64,
    pub voids: u64,
}

#[rustfmt::skip]
extern "C" {
    pub fn curlywether_open(memory: *mut u8, bytes: usize, room: u64, record: *const u8, length: usize) -> Opened;
    pub fn curlywether_act(memory: *mut u8, bytes: usize, tally: *mut Tally, record: *const u8, length: usize) -> Acted;
    pub fn curlywether_run(memory: *mut u8, bytes: usize, tally: *mut Tally, records: *const u8, length: usize,
                           answers: *mut u64, numbers: usize) -> Ran;
    pub fn curlywether_tell(memory: *const u8, bytes: usize) -> Told;
}

// A slice is exactly what the header asks for: a pointer to as many elements as said, lent to one call at a time.

pub fn open(memory: &mut [u8], room: u64, record: &[u8]) -> Opened {
    unsafe { curlywether_open(memory.as_mut_ptr(), memory.len(), room, record.as_ptr(), record.len()) }
}

pub fn act(memory: &mut [u8], tally: &mut Tally, record: &[u8]) -> Acted {
    unsafe { curlywether_act(memory.as_mut_ptr(), memory.len(), tally, record.as_ptr(), record.len()) }
}

pub fn run(memory: &mut [u8], tally: &mut Tally, records: &[u8], answers: &mut [u64]) -> Ran {
    let (at, numbers) = (answers.as_mut_ptr(), answers.len());
    unsafe { curlywether_run(memory.as_mut_ptr(), memory.len(), tally, records.as_ptr(), records.len(), at, numbers) }
}

pub fn tell(memory: &[u8]) -> Told {
    unsafe { curlywether_tell(memory.as_ptr(), memory.len()) }
}
