// A first program in Rust, over the archive's C calls: opens a link, acts on a run of records, tells the voids kept.
// rustc -O --edition 2021 -L target/staticlib -l static=door examples/rust/link.rs -o target/link_rs
#[path = "../../include/curlywether.rs"]
mod curlywether;

const ROOM: u64 = 256;
const NEED: usize = curlywether::need(ROOM);
const OPENING: [u8; 18] = [0x4F, 0x4C, 2, 1, 0, 0, 3, 0xE8, 0, 0, 0, 0, 0, 0, 0, 0, 0, 5];
#[rustfmt::skip]
const ORDERS: [u8; 60] = [
    0x4F, 0x42, 0, 0, 0, 0, 0, 10, 0, 0, 0, 5, 0, 0, // OB 10, 5, 0
    0x4F, 0x42, 0, 0, 0, 0, 0, 12, 0, 0, 0, 2, 0, 0, // OB 12, 2, 0
    0x4F, 0x43, 0, 0, 0, 0, 0, 14, 0, 3,             // OC 14, 3
    0x4F, 0x53, 0, 0, 0, 0, 0, 11,                   // OS 11
    0x4F, 0x42, 0, 0, 0, 0, 0, 9, 0, 0, 0, 1, 0, 0,  // OB 9, 1, 0: before the floor
];

fn main() {
    let (mut memory, mut tally, mut answers) = ([0u8; NEED], curlywether::Tally::default(), [0u64; 7 * 8]);
    let opened = curlywether::open(&mut memory, ROOM, &OPENING);
    println!("opened: code {}, {} bytes used", opened.code, opened.used);
    let ran = curlywether::run(&mut memory, &mut tally, &ORDERS, &mut answers);
    println!("ran: code {}, place {}, {} answered", ran.code, ran.place, ran.answered);
    for a in answers.chunks(7).take(ran.answered) {
        println!("code {} channel {} line {} start {} finish {} count {} dropped {}", a[0], a[1], a[2], a[3], a[4], a[5], a[6]);
    }
    let told = curlywether::tell(&memory);
    println!("kept: code {}, {} voids; bookings {}, sweeps {}, code 4 {}", told.code, told.voids, tally.bookings, tally.sweeps, tally.refused[4 - 3]);
    memory[100] ^= 1;
    println!("spoiled: code {}", curlywether::tell(&memory).code);
}
