//! What the check of the memory costs: orders one at a time by `curlywether_act`, and runs of few and of many records.
use crate::core::Core;
use crate::curlywether;
use crate::measure::{mean, median, rounds, table, voids_along};
use crate::play::Contender;
use crate::stream::{self, record, Stream};
use std::hint::black_box;
use std::time::Instant;

const ORDERS: usize = 1_024;

fn ns_each(times: usize, mut act: impl FnMut(usize)) -> f64 {
    let from = Instant::now();
    (0..times).for_each(|n| act(n));
    from.elapsed().as_nanos() as f64 / times as f64
}

/// The core after the first half of a stream, and the records of the next orders one by one.
fn halfway(stream: &Stream) -> (Core, Vec<Vec<u8>>) {
    let half = stream.orders.len() / 2;
    let mut core = Core::open(&Stream { orders: stream.orders[..half].to_vec(), ..stream.clone() });
    core.play();
    (core, stream.orders[half..half + ORDERS].iter().map(|order| record(*order)).collect())
}

/// An order by `act`, and the check alone by `tell`: ns each, the medians of five.
fn one(stream: &Stream) -> (f64, f64) {
    let (mut acts, mut checks) = (Vec::new(), Vec::new());
    for _ in 0..5 {
        let (mut core, records) = halfway(stream);
        acts.push(ns_each(ORDERS, |n| {
            let acted = curlywether::act(&mut core.memory, &mut core.tally, &records[n]);
            assert_eq!(acted.used, records[n].len());
        }));
        checks.push(ns_each(ORDERS, |_| assert_eq!(curlywether::tell(black_box(&core.memory)).code, 0)));
    }
    (median(acts), median(checks))
}

fn single() {
    let row = |name: &str| {
        let stream = stream::named(name).unwrap();
        let ((act, check), times) = (one(&stream), rounds(&stream, &[Contender::Core, Contender::Map, Contender::Avl]));
        let cells = [mean(&voids_along(&stream)), act, check, times[0], act / times[0], act / times[1], act / times[2]];
        [name.to_string()].into_iter().chain(cells.map(|cell| format!("{cell:.0}"))).collect()
    };
    let head = ["stream", "voids kept, mean", "act, ns", "check alone, ns", "in one run, ns", "act to that", "to map", "to tree"];
    table("single", &head, ["3000-0.8", "30000-0.8", "100000-0.8"].map(row).into());
}

/// The same stream in runs of so many records.
fn in_runs() {
    const RECORDS: [usize; 5] = [16, 64, 256, 4_096, stream::ORDERS];
    let row = |name: &str| {
        let stream = stream::named(name).unwrap();
        let cell = |records: usize| {
            let play = |_| {
                let mut core = Core::open(&stream);
                let ns = ns_each(1, |_| core.play_in_runs(records));
                ns / stream.orders.len() as f64
            };
            format!("{:.0}", median((0..5).map(play).collect()))
        };
        [name.to_string()].into_iter().chain(RECORDS.map(cell)).collect()
    };
    let head = ["stream", "16 records a run", "64", "256", "4,096", "all in one run"];
    table("runs", &head, ["3000-0.8", "100000-0.8"].map(row).into());
}

pub fn all() {
    single();
    in_runs();
}
