//! The contenders and how each is played: one stream from its opening to its end. What is measured is inside `bench_played` alone.
use crate::leaves::{self, Alike, Packed};
use crate::order::{Link, Peer, Reply, NOTHING_FITS, ROOM_FULL};
use crate::stream::Stream;
use std::time::Instant;

#[derive(Clone, Copy, PartialEq, Eq, Debug)]
pub enum Contender {
    Core,
    Scan,
    Map,
    Avl,
    Horizon,
    Array,
    /// The tree of leaves.rs in one of its forms (`FORMS`).
    Leaves(usize),
    /// The core's booking and sweep by themselves (crate link_archive): one entry into the archive for each order.
    Own,
}

use Contender::*;

/// The core first, then the peers.
pub const ALL: [Contender; 5] = [Core, Scan, Map, Avl, Horizon];

type Tree<S, const BULK: bool, const SMOOTH: bool, const ONE: bool> = leaves::Leaves<S, BULK, SMOOTH, ONE>;
/// As the core laid its nodes out at first, 40 bytes each; without the least key; with the sums in the parent, two to a line of the cache.
type Plain = Alike<1>;
type Short = Alike<0>;

/// The forms of the tree of leaves.rs: the one with all that helps, the plain one, each switch by itself, and all without one.
pub const FORMS: [(&str, fn(&Stream) -> Played); 11] = [
    ("leaves", play_peer::<Tree<Packed, true, true, true>>),
    ("leaves-plain", play_peer::<Tree<Plain, false, false, false>>),
    ("leaves-a", play_peer::<Tree<Plain, true, false, false>>),
    ("leaves-b", play_peer::<Tree<Short, false, false, false>>),
    ("leaves-c1", play_peer::<Tree<Plain, false, true, false>>),
    ("leaves-c2", play_peer::<Tree<Packed, false, false, false>>),
    ("leaves-d", play_peer::<Tree<Plain, false, false, true>>),
    ("leaves-without-a", play_peer::<Tree<Packed, false, true, true>>),
    ("leaves-without-c1", play_peer::<Tree<Packed, true, false, true>>),
    ("leaves-b-for-c2", play_peer::<Tree<Short, true, true, true>>),
    ("leaves-without-d", play_peer::<Tree<Packed, true, true, false>>),
];
/// With all that helps.
pub const LEAVES: Contender = Leaves(0);

impl Contender {
    pub fn name(self) -> &'static str {
        match self {
            Core => "core",
            Scan => "scan",
            Map => "map",
            Avl => "tree",
            Horizon => "horizon",
            Array => "array",
            Leaves(form) => FORMS[form].0,
            Own => "link",
        }
    }

    pub fn named(name: &str) -> Option<Contender> {
        ALL.into_iter().chain([Array, Own]).chain((0..FORMS.len()).map(Leaves)).find(|contender| contender.name() == name)
    }

    pub fn fills_voids(self) -> bool {
        self != Horizon
    }
}

/// callgrind counts from entry to return of this function (`--toggle-collect=bench_played`).
#[no_mangle]
#[inline(never)]
pub fn bench_played(play: &mut dyn FnMut()) {
    play()
}

/// Nanoseconds of a play.
fn timed(play: &mut dyn FnMut()) -> f64 {
    let from = Instant::now();
    bench_played(play);
    from.elapsed().as_nanos() as f64
}

pub struct Played {
    pub ns_an_order: f64,
    pub replies: Vec<Reply>,
    pub kept: usize,
}

fn play_peer<P: Peer>(stream: &Stream) -> Played {
    let mut link = Link::<P>::open(stream.channels, stream.room as usize);
    let mut replies = vec![Reply { code: u64::MAX, ..Reply::default() }; stream.orders.len()];
    let ns = timed(&mut || {
        for (reply, order) in replies.iter_mut().zip(&stream.orders) {
            *reply = link.act(*order);
        }
    });
    Played { ns_an_order: ns / stream.orders.len() as f64, replies, kept: link.peer.kept() }
}

fn play_core(stream: &Stream) -> Played {
    let mut core = crate::core::Core::open(stream);
    let ns = timed(&mut || core.play());
    Played { ns_an_order: ns / stream.orders.len() as f64, replies: core.replies(), kept: core.voids() as usize }
}

fn play_own(stream: &Stream) -> Played {
    let mut core = crate::core::Core::open(stream);
    let ns = timed(&mut || core.play_own(&stream.orders));
    Played { ns_an_order: ns / stream.orders.len() as f64, replies: core.replies(), kept: core.voids() as usize }
}

pub fn play(contender: Contender, stream: &Stream) -> Played {
    match contender {
        Core => play_core(stream),
        Scan => play_peer::<crate::scan::Scan>(stream),
        Map => play_peer::<crate::map::Map>(stream),
        Avl => play_peer::<crate::avl::Avl>(stream),
        Horizon => play_peer::<crate::horizon::Horizon>(stream),
        Array => play_peer::<crate::array::Array>(stream),
        Leaves(form) => FORMS[form].1(stream),
        Own => play_own(stream),
    }
}

/// All that fill voids answer alike, order by order, and keep as many voids; or the benchmark ends with status 1. The streams are
/// made so that no order is refused but under 7 and 8.
pub fn agree(stream: &Stream, played: &[(Contender, Played)]) {
    let (_, core) = &played[0];
    assert!(core.replies.iter().all(|reply| [0, NOTHING_FITS, ROOM_FULL].contains(&reply.code)), "{}", stream.name);
    for (contender, peer) in played.iter().filter(|(contender, _)| contender.fills_voids()) {
        for (n, (ours, theirs)) in core.replies.iter().zip(&peer.replies).enumerate() {
            if ours != theirs {
                eprintln!("{}: order {n}, {:?}: the core says {ours:?}, {} {theirs:?}", stream.name, stream.orders[n], contender.name());
                std::process::exit(1);
            }
        }
        if core.kept != peer.kept {
            eprintln!("{}: the core keeps {} voids, {} {}", stream.name, core.kept, contender.name(), peer.kept);
            std::process::exit(1);
        }
    }
}
