//! 01's session and the starred lines of "On the edge", with the answers as 01 writes them: first the model, then the core.

use crate::compare::{judge, Bench, Seen};
use crate::generate::{ob, oc, ol, os};
use crate::random::Rng;
use crate::layout::{build, Crooked};
use crate::model::{need, session, Link, Seven, Void, COUNT, LAST_MOMENT, OPEN_END};

pub fn session_of_01() -> (Vec<u8>, &'static str) {
    let records = [
        ol(2, 1, 1000, 0, &[5]), ob(10, 5, 0), ob(12, 2, 0), ob(14, 3, 0), ob(15, 4, 1), ob(16, 1, 1), ob(16, 1, 0), os(11),
        ob(9, 1, 0), oc(19, 2), os(10),
    ];
    let printed = "0 L 2 1\n1 B 0 0 10 15\n2 B 1 0 12 14\n3 B 1 0 14 17\n4 B 0 0 15 19\n5 B 0 1 21 22\n6 R 7\n7 S 1\n8 R 4\n9 B 0 0 19 21\n10 R 9\nE 3\n";
    (records.concat(), printed)
}

/// A link with these voids (channel, start, end), and an open void from 1000 on where a channel has none.
fn link(room: u64, channels: u64, delays: &[u64], voids: &[(u64, u64, u64)]) -> Link {
    let mut voids: Vec<Void> = voids.iter().map(|v| Void { channel: v.0, start: v.1, end: v.2 }).collect();
    for channel in 0..channels {
        if !voids.iter().any(|v| v.channel == channel && v.end == OPEN_END) {
            voids.push(Void { channel, start: 1000, end: OPEN_END });
        }
    }
    Link { room, channels, delays: delays.to_vec(), leap: 1000, floor: 0, voids }
}

fn at(floor: u64, link: Link) -> Link {
    Link { floor, ..link }
}

pub fn edges(bench: &mut Bench, seen: &mut Seen) -> Result<(), String> {
    let (input, printed) = session_of_01();
    if input[..32] != *b"\x4F\x4C\x02\x01\x00\x00\x03\xE8\x00\x00\x00\x00\x00\x00\x00\x00\x00\x05\x4F\x42\x00\x00\x00\x00\x00\x0A\x00\x00\x00\x05\x00\x00" {
        return Err("the bytes of 01's session are not 01's".into());
    }
    if session(&input) != printed {
        return Err(format!("01's session: the model prints\n{}", session(&input)));
    }
    let booked = |channel, line, start, finish| [0, channel, line, start, finish, 0, 0];
    let refused = |code| [code, 0, 0, 0, 0, 0, 0];
    let swept = |dropped| [0, 0, 0, 0, 0, 0, dropped];
    let open = (0, 0, OPEN_END);
    let rows: Vec<(Link, Vec<u8>, Seven)> = vec![
        (link(4, 1, &[], &[(0, 5, 9)]), ob(5, 4, 0), booked(0, 0, 5, 9)),
        (link(4, 1, &[], &[(0, 5, 9)]), ob(5, 5, 0), refused(7)),
        (link(4, 1, &[], &[(0, 6, 9)]), ob(5, 4, 0), refused(7)),
        (link(4, 1, &[], &[open]), ob((1 << 48) - 2, 1, 0), booked(0, 0, LAST_MOMENT - 1, LAST_MOMENT)),
        (link(4, 1, &[], &[open]), ob((1 << 48) - 1, 1, 0), refused(6)),
        (link(8, 2, &[], &[(0, 3, 20), (1, 3, 20)]), ob(4, 4, 0), booked(0, 0, 4, 8)),
        (link(8, 2, &[], &[(0, 3, 20), (1, 4, 20)]), ob(4, 4, 0), booked(1, 0, 4, 8)),
        (link(8, 3, &[], &[(0, 0, 10), (1, 0, 11), (2, 0, 12)]), os(11), swept(2)), // K3: (0,11) too
        (link(4, 1, &[], &[open]), os(1000), swept(0)),
        (link(4, 1, &[], &[open]), os(1001), refused(10)),
        (link(1, 1, &[], &[open]), ob(10, 5, 0), refused(8)),
        (link(1, 1, &[], &[open]), ob(0, 5, 0), booked(0, 0, 0, 5)),
        // K3: at floor 10 the piece in front of a booking at 10 is not kept; at floor 9 it is, and the room is full
        (at(10, link(1, 1, &[], &[(0, 3, OPEN_END)])), ob(10, 5, 0), booked(0, 0, 10, 15)),
        (at(9, link(1, 1, &[], &[(0, 3, OPEN_END)])), ob(10, 5, 0), refused(8)),
        (link(4, 1, &[5, 9], &[(0, 18, OPEN_END)]), ob(10, 1, 3), booked(0, 2, 19, 20)),
        // 01's "Where a builder goes astray": an exact fit by its end, a straddling void keeps its start, the delay is settled first
        (link(8, 2, &[], &[(0, 3, 20), (1, 3, 9)]), ob(9, 11, 0), booked(0, 0, 9, 20)),
        (link(8, 2, &[4], &[(0, 0, 20), (1, 14, 20)]), ob(10, 1, 1), booked(0, 0, 10, 11)),
    ];
    for (number, (link, order, want)) in rows.into_iter().enumerate() {
        let mut seven = link.clone().act(&mut [0; 10], &order).seven;
        seven[COUNT] = 0;
        if seven != want {
            return Err(format!("edge {number}: the model says {seven:?}, 01 says {want:?}"));
        }
        for shape in 0..4 {
            let bytes = need(link.room) as usize;
            let memory = bench.main.lent(bytes);
            build(memory, &link, &mut Rng::new(shape), Crooked::default());
            judge(&mut bench.desk, memory, &order, seen)
                .and_then(|whole| whole.map_err(|rule| format!("the builder broke '{rule}'")))
                .map_err(|e| format!("edge {number}: {e}"))?;
        }
    }
    Ok(())
}
