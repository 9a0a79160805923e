//! The tables over the streams: time beside each peer, what the streams are, visits beside their bound.
use crate::core::Core;
use crate::measure::{load, loss, mean, median, rounds, table, voids_along};
use crate::order::{Order, NOTHING_FITS, ROOM_FULL};
use crate::play::{self, Contender};
use crate::stream::{self, Stream};

/// Nanoseconds an order, and the core's as a ratio to each peer's in the same rounds.
fn time(streams: &[Stream]) {
    let row = |stream: &Stream| {
        let times = rounds(stream, &play::ALL);
        let cells = times.iter().map(|ns| format!("{ns:.0}"));
        let best = times[1].min(times[2]).min(times[3]);
        let ratios = times[1..].iter().chain([&best]).map(|ns| format!("{:.2}", times[0] / ns));
        [stream.name.clone()].into_iter().chain(cells).chain(ratios).collect()
    };
    let head = ["stream", "core", "scan", "map", "tree", "horizon", "core to scan", "to map", "to tree", "to horizon", "to the best of scan, map, tree"];
    table("time", &head, streams.iter().map(row).collect());
}

/// The sorted array, beside the core and the map.
fn array(streams: &[Stream]) {
    let row = |stream: &Stream| {
        let times = rounds(stream, &[Contender::Core, Contender::Map, Contender::Array]);
        let ratios = times[1..].iter().map(|ns| format!("{:.2}", times[0] / ns));
        [stream.name.clone()].into_iter().chain(times.iter().map(|ns| format!("{ns:.0}"))).chain(ratios).collect()
    };
    table("array", &["stream", "core", "map", "sorted array", "core to map", "to array"], streams.iter().map(row).collect());
}

/// The tree with the voids as its leaves and all that helps it, beside the core, the map and the tree by hand.
fn leaves(streams: &[Stream]) {
    let row = |stream: &Stream| {
        let times = rounds(stream, &[Contender::Core, Contender::Map, Contender::Avl, play::LEAVES]);
        let ratios = [times[0], times[1], times[2], times[1].min(times[2])].map(|ns| format!("{:.2}", times[3] / ns));
        [stream.name.clone()].into_iter().chain(times.iter().map(|ns| format!("{ns:.0}"))).chain(ratios).collect()
    };
    let head = ["stream", "core", "map", "tree", "leaves", "leaves to core", "to map", "to tree", "to the better of map, tree"];
    table("leaves", &head, streams.iter().map(row).collect());
}

/// Every form of that tree in turn with the map, the core and the tree by hand, so many rounds: name, ns an order (median), and the
/// median of its ratios to the map and to the tree by hand of the same round.
pub fn forms(stream: &Stream, rounds: usize) {
    let others = [Contender::Core, Contender::Map, Contender::Avl];
    let list: Vec<Contender> = others.into_iter().chain((0..play::FORMS.len()).map(Contender::Leaves)).collect();
    let mut times = vec![Vec::new(); list.len()];
    for _ in 0..rounds {
        let played: Vec<_> = list.iter().map(|one| (*one, play::play(*one, stream))).collect();
        play::agree(stream, &played);
        times.iter_mut().zip(&played).for_each(|(times, (_, played))| times.push(played.ns_an_order));
    }
    let ratio = |ns: &[f64], to: &[f64]| median(ns.iter().zip(to).map(|(ns, to)| ns / to).collect());
    for (one, ns) in list.iter().zip(&times) {
        println!("{} {:.0} {:.2} {:.2}", one.name(), median(ns.clone()), ratio(ns, &times[1]), ratio(ns, &times[2]));
    }
}

/// What each stream asks and how much of it is lost.
fn streams(streams: &[Stream]) {
    let row = |stream: &Stream| {
        let along = voids_along(stream);
        let (core, horizon) = (play::play(Contender::Core, stream), play::play(Contender::Horizon, stream));
        let of = |code| format!("{:.2} %", loss(stream, &core.replies, code));
        vec![
            stream.name.clone(),
            stream.orders.len().to_string(),
            if stream.name == "walk-back" { "-".into() } else { format!("{:.2}", load(stream)) },
            format!("{:.0}", mean(&along)),
            format!("{:.0}", along.iter().fold(0.0, |a: f64, b| a.max(*b))),
            of(NOTHING_FITS),
            of(ROOM_FULL),
            format!("{:.2} %", loss(stream, &horizon.replies, NOTHING_FITS)),
        ]
    };
    let head = ["stream", "orders", "load as drawn", "voids kept, mean", "most", "refused under 7", "under 8", "Horizon's loss"];
    table("streams", &head, streams.iter().map(row).collect());
}

/// The tree nodes visited by each booking, beside 8⌊log2 m⌋ + 1 for the m voids there were (one start tried).
fn visits(streams: &[Stream]) {
    let row = |stream: &Stream| {
        let mut core = Core::open(stream);
        core.play();
        let along = voids_along(stream);
        let pairs: Vec<(f64, f64)> = (stream.orders.iter().zip(core.counts()).zip(along))
            .filter(|((order, _), _)| matches!(order, Order::Book { .. }))
            .map(|((_, count), voids)| (count as f64, 8.0 * voids.log2().floor() + 1.0))
            .collect();
        let (counts, bounds): (Vec<f64>, Vec<f64>) = pairs.iter().copied().unzip();
        let most = |list: &mut dyn Iterator<Item = f64>| list.fold(0.0, f64::max);
        vec![
            stream.name.clone(),
            format!("{:.1}", mean(&counts)),
            format!("{:.1}", mean(&bounds)),
            format!("{:.0}", most(&mut counts.iter().copied())),
            format!("{:.2}", most(&mut pairs.iter().map(|(count, bound)| count / bound))),
        ]
    };
    let head = ["stream", "visits a booking, mean", "bound, mean", "most visits", "most visits to their bound"];
    table("visits", &head, streams.iter().map(row).collect());
}

pub fn all() {
    let list = stream::all();
    time(&list);
    array(&list);
    leaves(&list);
    streams(&list);
    visits(&list);
}
