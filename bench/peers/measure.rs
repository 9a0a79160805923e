//! What the tables are made of: rounds of play, voids along a stream, losses, and the printing of a table.
use crate::avl::Avl;
use crate::order::{Link, Order, Peer, Reply};
use crate::play::{self, Contender, Played};
use crate::stream::Stream;

const ROUNDS: usize = 5;

pub fn median(mut list: Vec<f64>) -> f64 {
    list.sort_by(f64::total_cmp);
    list[list.len() / 2]
}

pub fn mean(list: &[f64]) -> f64 {
    list.iter().sum::<f64>() / list.len() as f64
}

/// Each of these contenders in turn, five times over; the medians, in ns an order. All that fill voids agree in each round.
pub fn rounds(stream: &Stream, contenders: &[Contender]) -> Vec<f64> {
    let mut times = vec![Vec::new(); contenders.len()];
    for _ in 0..ROUNDS {
        let played: Vec<(Contender, Played)> = contenders.iter().map(|one| (*one, play::play(*one, stream))).collect();
        play::agree(stream, &played);
        for (list, (_, played)) in times.iter_mut().zip(&played) {
            list.push(played.ns_an_order);
        }
    }
    times.into_iter().map(median).collect()
}

/// The voids kept before each order.
pub fn voids_along(stream: &Stream) -> Vec<f64> {
    let mut link = Link::<Avl>::open(stream.channels, stream.room as usize);
    let kept = |order: &Order| {
        let before = link.peer.kept() as f64;
        link.act(*order);
        before
    };
    stream.orders.iter().map(kept).collect()
}

/// Of the bookings of a stream, how many in a hundred were refused under this code.
pub fn loss(stream: &Stream, replies: &[Reply], code: u64) -> f64 {
    100.0 * replies.iter().filter(|reply| reply.code == code).count() as f64 / stream.bookings() as f64
}

/// The ticks asked for, to all the ticks of all channels up to the last moment of the clock.
pub fn load(stream: &Stream) -> f64 {
    let (mut asked, mut clock) = (0, 1);
    for order in &stream.orders {
        match *order {
            Order::Book { length, .. } => asked += length,
            Order::Sweep { moment } => clock = moment,
        }
    }
    asked as f64 / (stream.channels * clock) as f64
}

/// A Markdown table; its name is the mark by which `fill` puts it into docs/BENCHMARKS.md.
pub fn table(name: &str, head: &[&str], rows: Vec<Vec<String>>) {
    println!("<!-- table {name} -->\n| {} |\n|{}", head.join(" | "), "---|".repeat(head.len()));
    for row in rows {
        println!("| {} |", row.join(" | "));
    }
    println!("<!-- end -->\n");
}
