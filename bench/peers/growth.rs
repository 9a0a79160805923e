//! The two tables that the plots are drawn from: time against the voids kept, and loss against the range of offsets.
use crate::avl::Avl;
use crate::measure::{loss, mean, rounds, table, voids_along};
use crate::order::{Link, NOTHING_FITS, ROOM_FULL};
use crate::play::{self, Contender};
use crate::stream::{pareto, Stream, ORDERS};

/// Few channels, so that a link can keep few voids.
const CHANNELS: u64 = 16;
/// The last is as near to 01's greatest room as a stream comes with nothing refused under 8.
const VOIDS: [f64; 7] = [64.0, 128.0, 256.0, 512.0, 1_024.0, 2_048.0, 3_600.0];

/// A stream at load 0.8 that keeps about so many voids in the mean, found by its range.
fn keeping(voids: f64) -> (Stream, f64) {
    let mut range = 1_000.0;
    loop {
        let stream = pareto(CHANNELS, 0.8, range as u64, ORDERS);
        let kept = mean(&voids_along(&stream));
        if (kept - voids).abs() < 0.01 * voids {
            return (stream, kept);
        }
        range *= 0.5 + 0.5 * voids / kept;
    }
}

fn growth() {
    let row = |voids: f64| {
        let (stream, kept) = keeping(voids);
        let times = rounds(&stream, &play::ALL);
        [kept].iter().chain(&times).map(|cell| format!("{cell:.0}")).collect()
    };
    let head = ["voids kept, mean", "core", "scan", "map", "tree", "horizon"];
    table("growth", &head, VOIDS.map(row).into());
}

/// The loss in a hundred with as much room as is ever wanted (the tree by hand; the core's room is bounded).
fn unbounded(stream: &Stream) -> f64 {
    let mut link = Link::<Avl>::open(stream.channels, 60_000);
    let replies: Vec<_> = stream.orders.iter().map(|order| link.act(*order)).collect();
    assert_eq!(loss(stream, &replies, ROOM_FULL), 0.0);
    loss(stream, &replies, NOTHING_FITS)
}

/// The settings of 004's Figure 14: 60 channels, load 80 %, range [a/10, a] ms with a mean burst of 1 ms, here 1,000 ticks.
fn losses() {
    let row = |range: u64| {
        let stream = pareto(60, 0.8, range, 4 * ORDERS);
        let (core, horizon) = (play::play(Contender::Core, &stream), play::play(Contender::Horizon, &stream));
        let of = |code| loss(&stream, &core.replies, code);
        let cells = [unbounded(&stream), of(NOTHING_FITS), of(ROOM_FULL), loss(&stream, &horizon.replies, NOTHING_FITS)];
        [range.to_string()].into_iter().chain(cells.map(|cell| format!("{cell:.2}"))).collect()
    };
    let head = ["range, ticks", "Min-SV, any room, %", "core, room 4,096: under 7, %", "under 8, %", "Horizon, %"];
    table("loss", &head, [1_000, 3_000, 10_000, 30_000, 100_000, 300_000].map(row).into());
}

pub fn all() {
    growth();
    losses();
}
