//! The memory of each contender: a program of its own, because it counts every allocation. The core's memory is lent and fixed by
//! its room; the peers' is what they hold when the stream is over.
#![allow(dead_code)]
mod array;
mod avl;
mod core;
#[path = "../../include/curlywether.rs"]
mod curlywether;
mod horizon;
mod leaves;
mod map;
mod measure;
mod order;
mod play;
mod random;
mod scan;
mod stream;

use order::{Link, Peer};
use std::alloc::{GlobalAlloc, Layout, System};
use std::sync::atomic::{AtomicUsize, Ordering::Relaxed};
use stream::Stream;

struct Counting;
static HELD: AtomicUsize = AtomicUsize::new(0);

unsafe impl GlobalAlloc for Counting {
    unsafe fn alloc(&self, layout: Layout) -> *mut u8 {
        HELD.fetch_add(layout.size(), Relaxed);
        System.alloc(layout)
    }

    unsafe fn dealloc(&self, at: *mut u8, layout: Layout) {
        HELD.fetch_sub(layout.size(), Relaxed);
        System.dealloc(at, layout)
    }
}

#[global_allocator]
static ALLOCATOR: Counting = Counting;

/// Bytes held after the stream, and voids kept.
fn held<P: Peer>(stream: &Stream) -> (usize, usize) {
    let before = HELD.load(Relaxed);
    let mut link = Link::<P>::open(stream.channels, stream.room as usize);
    for order in &stream.orders {
        link.act(*order);
    }
    (HELD.load(Relaxed) - before, link.peer.kept())
}

fn main() {
    let small = Stream { room: 256, ..stream::named("3000-0.8").unwrap() };
    let large = stream::named("300000-0.8").unwrap();
    let lent = |stream: &Stream| (curlywether::need(stream.room), held::<avl::Avl>(stream).1);
    let row = |name: &str, of: &dyn Fn(&Stream) -> (usize, usize)| {
        let cells = [&small, &large].map(|stream| {
            let (bytes, voids) = of(stream);
            [bytes.to_string(), voids.to_string(), format!("{:.0}", bytes as f64 / voids as f64)]
        });
        [name.to_string()].into_iter().chain(cells.concat()).collect()
    };
    let rows = vec![
        row("core", &lent),
        row("scan", &held::<scan::Scan>),
        row("map", &held::<map::Map>),
        row("tree", &held::<avl::Avl>),
        row("array", &held::<array::Array>),
        row("leaves", &held::<leaves::Leaves<leaves::Packed, true, true, true>>),
        row("horizon", &held::<horizon::Horizon>),
    ];
    let head =
        ["contender", "3000-0.8, room 256: bytes", "voids", "bytes a void", "300000-0.8, room 4,096: bytes", "voids", "bytes a void"];
    measure::table("bytes", &head, rows);
}
