//! The booking core beside what one would otherwise take (docs/BENCHMARKS.md): the same streams, in one run, release builds.
//! No argument: every table of times and counts, as Markdown. The rest serves `instructions`, `worst` and `forms`.
mod array;
mod avl;
mod core;
#[path = "../../include/curlywether.rs"]
mod curlywether;
mod growth;
mod horizon;
mod leaves;
mod map;
mod measure;
mod order;
mod play;
mod random;
mod scan;
mod single;
mod stream;
mod tables;

use order::Order;
use play::Contender;
use stream::Stream;

/// One stream with one contender, for callgrind.
fn play_one(stream: &Stream, contender: Contender) {
    println!("{} orders", stream.orders.len());
    let played = play::play(contender, stream);
    let refused = |code| played.replies.iter().filter(|reply| reply.code == code).count();
    println!("{:.0} ns an order, {} voids kept at the end", played.ns_an_order, played.kept);
    println!("{} bookings, refused under 7: {}, under 8: {}", stream.bookings(), refused(7), refused(8));
}

/// One stream with one contender so many times: the least and the median of ns an order. To hold two builds of the core against each other.
fn again(stream: &Stream, contender: Contender, times: usize) {
    let mut ns: Vec<f64> = (0..times).map(|_| play::play(contender, stream).ns_an_order).collect();
    ns.sort_by(f64::total_cmp);
    println!("{:.1} {:.1}", ns[0], ns[ns.len() / 2]);
}

/// One letter for each order of a stream: booked, refused or swept.
fn kinds(stream: &Stream) {
    let played = play::play(Contender::Core, stream);
    let letter = |(order, reply): (&Order, &order::Reply)| match order {
        Order::Sweep { .. } => 's',
        Order::Book { .. } if reply.code == 0 => 'b',
        Order::Book { .. } => 'r',
    };
    println!("{}", stream.orders.iter().zip(&played.replies).map(letter).collect::<String>());
}

fn main() {
    let arguments: Vec<String> = std::env::args().skip(1).collect();
    let words: Vec<&str> = arguments.iter().map(String::as_str).collect();
    let stream = |name| stream::named(name).expect("a stream: RANGE-LOAD or walk-back");
    let contender = |name| Contender::named(name).expect("core, scan, map, tree, horizon, array, link or one of play::FORMS");
    match words[..] {
        [] => {
            tables::all();
            single::all();
            growth::all();
        }
        ["play", name, who] => play_one(&stream(name), contender(who)),
        ["again", name, who, times] => again(&stream(name), contender(who), times.parse().expect("a number of times")),
        ["forms", name, rounds] => tables::forms(&stream(name), rounds.parse().expect("a number of rounds")),
        ["streams"] => println!("{}", stream::NAMES.join("\n")),
        ["kinds", name] => kinds(&stream(name)),
        _ => {
            eprintln!("bench-peers [play STREAM CONTENDER | again STREAM CONTENDER TIMES | forms STREAM ROUNDS | streams | kinds STREAM]");
            std::process::exit(2);
        }
    }
}
