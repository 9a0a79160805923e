//! The link of document 01 on plain lists: no tree, no lent memory. Written from 01 alone, to be read beside it.
//! `count` is the one number not worked out here: it depends on the tree, so `tried` says which starts were tried and
//! layout.rs counts the visits in the tree that the core keeps.

pub const LAST_MOMENT: u64 = (1 << 48) - 1;
pub const OPEN_END: u64 = 1 << 48;
pub const TOP32: u64 = (1 << 32) - 1;
pub const PROGRAM_ROOM: u64 = 256;
pub const PROGRAM_BYTES: usize = 32_768;

/// The stated need of a room, in bytes (for rooms in bounds).
pub fn need(room: u64) -> u64 {
    64 * room + 256
}

/// A channel, idle from `start` up to but not at `end`.
#[derive(Clone, Copy, PartialEq, Eq, Debug)]
pub struct Void {
    pub channel: u64,
    pub start: u64,
    pub end: u64,
}

impl Void {
    pub fn fits(&self, r: u64, f: u64) -> bool {
        self.start <= r && f <= self.end
    }
}

/// A link: its settings and its voids, in no order that matters.
#[derive(Clone, PartialEq, Eq, Debug)]
pub struct Link {
    pub room: u64,
    pub channels: u64,
    pub delays: Vec<u64>,
    pub leap: u64,
    pub floor: u64,
    pub voids: Vec<Void>,
}

// ---------------------------------------------------------------------------------------------------------- records

#[derive(Clone, PartialEq, Eq, Debug)]
pub enum Record {
    Opening { channels: u64, leap: u64, floor: u64, delays: Vec<u64> },
    Booking { arrival: u64, length: u64, lines: u64 },
    Sweep { moment: u64 },
}

/// The record at the start of a buffer and its length in bytes; None is code 11 (no byte, unknown mark, cut short).
pub fn read(bytes: &[u8]) -> Option<(Record, usize)> {
    let number = |place: usize, width: usize| -> Option<u64> {
        Some(bytes.get(place..place + width)?.iter().fold(0, |n, byte| n * 256 + *byte as u64))
    };
    match bytes.get(0..2)? {
        b"OL" => {
            let (channels, lines) = (number(2, 1)?, number(3, 1)? as usize);
            let (leap, floor) = (number(4, 4)?, number(8, 6)?);
            let delays = (0..lines).map(|i| number(14 + 4 * i, 4)).collect::<Option<Vec<u64>>>()?;
            Some((Record::Opening { channels, leap, floor, delays }, 14 + 4 * lines))
        }
        b"OB" => Some((Record::Booking { arrival: number(2, 6)?, length: number(8, 4)?, lines: number(12, 2)? }, 14)),
        b"OC" => Some((Record::Booking { arrival: number(2, 6)?, length: number(8, 2)?, lines: 0 }, 10)),
        b"OS" => Some((Record::Sweep { moment: number(2, 6)? }, 8)),
        _ => None,
    }
}

// ---------------------------------------------------------------------------------------------------------- answers

/// The seven numbers of an answer in 01's order: code, channel, line, start, finish, count, dropped (count left at 0).
pub type Seven = [u64; 7];
pub const COUNT: usize = 5;

fn refused(code: u64) -> Seven {
    [code, 0, 0, 0, 0, 0, 0]
}

/// Bookings, sweeps, then codes 3 to 10.
pub type Tally = [u64; 10];

pub fn raise(tally: &mut Tally, booking: bool, code: u64) {
    let which = match code {
        0 => !booking as usize,
        3..=10 => code as usize - 1,
        _ => return,
    };
    tally[which] = tally[which].saturating_add(1);
}

/// One order acted on: the seven numbers, the bytes used, and the (start, finish) pairs tried.
#[derive(Clone, PartialEq, Eq, Debug)]
pub struct Acted {
    pub seven: Seven,
    pub used: usize,
    pub tried: Vec<(u64, u64)>,
}

/// A run: the code that ended it, the place of the first byte not acted on, one entry for each record answered.
pub struct Ran {
    pub code: u64,
    pub place: usize,
    pub answered: Vec<Acted>,
}

// ---------------------------------------------------------------------------------------------------------- the link

/// Opening from the OL at the start of a buffer, in `memory` bytes: the link and the bytes used, or the code (11, then 1).
pub fn open(memory: usize, room: u64, bytes: &[u8]) -> Result<(Link, usize), u64> {
    let Some((Record::Opening { channels, leap, floor, delays }, used)) = read(bytes) else { return Err(11) };
    let in_bounds = settings_in_bounds(room, channels, leap, floor, &delays);
    if !in_bounds || (memory as u64) < need(room) {
        return Err(1);
    }
    let voids = (0..channels).map(|channel| Void { channel, start: floor, end: OPEN_END }).collect();
    Ok((Link { room, channels, delays, leap, floor, voids }, used))
}

/// 01's table of bounds.
pub fn settings_in_bounds(room: u64, channels: u64, leap: u64, floor: u64, delays: &[u64]) -> bool {
    (1..=64).contains(&channels)
        && delays.len() <= 16
        && delays.iter().all(|d| (1..=TOP32).contains(d))
        && delays.windows(2).all(|pair| pair[0] < pair[1])
        && (1..=TOP32).contains(&leap)
        && (channels..=4096).contains(&room)
        && floor <= LAST_MOMENT
}

impl Link {
    /// Acts on the single record at the start of a buffer, the memory being whole.
    pub fn act(&mut self, tally: &mut Tally, bytes: &[u8]) -> Acted {
        let (seven, used, tried) = match read(bytes) {
            None | Some((Record::Opening { .. }, _)) => (refused(11), 0, vec![]),
            Some((Record::Booking { arrival, length, lines }, used)) => {
                let mut tried = vec![];
                let seven = self.book(arrival, length, lines, &mut tried);
                raise(tally, true, seven[0]);
                (seven, used, tried)
            }
            Some((Record::Sweep { moment }, used)) => {
                let seven = self.sweep(moment);
                raise(tally, false, seven[0]);
                (seven, used, vec![])
            }
        };
        Acted { seven, used, tried }
    }

    /// Acts on a run of records with room for `numbers` numbers, the memory being whole.
    pub fn run(&mut self, tally: &mut Tally, bytes: &[u8], numbers: usize) -> Ran {
        let mut ran = Ran { code: 0, place: 0, answered: vec![] };
        while ran.place < bytes.len() {
            if numbers - 7 * ran.answered.len() < 7 {
                ran.code = 12;
                return ran;
            }
            let acted = self.act(tally, &bytes[ran.place..]);
            if acted.seven[0] == 11 {
                ran.code = 11;
                return ran;
            }
            ran.place += acted.used;
            ran.answered.push(acted);
        }
        ran
    }

    /// The void taken for (r, f): of those that fit the latest start, of equal starts the lowest channel.
    pub fn taken(&self, r: u64, f: u64) -> Option<usize> {
        let fitting = (0..self.voids.len()).filter(|i| self.voids[*i].fits(r, f));
        fitting.max_by_key(|i| (self.voids[*i].start, u64::MAX - self.voids[*i].channel))
    }

    fn book(&mut self, arrival: u64, length: u64, lines: u64, tried: &mut Vec<(u64, u64)>) -> Seven {
        if length == 0 {
            return refused(3);
        }
        if arrival < self.floor {
            return refused(4);
        }
        if lines >> self.delays.len() != 0 {
            return refused(5);
        }
        if arrival + length > LAST_MOMENT {
            return refused(6);
        }
        let permitted = (1..=self.delays.len()).filter(|line| lines >> (line - 1) & 1 == 1);
        for line in std::iter::once(0).chain(permitted) {
            let start = if line == 0 { arrival } else { arrival + self.delays[line - 1] };
            let finish = start + length;
            if finish > LAST_MOMENT {
                continue; // skipped, not counted as tried
            }
            tried.push((start, finish));
            let Some(index) = self.taken(start, finish) else { continue };
            let void = self.voids[index];
            let pieces = [Void { end: start, ..void }, Void { start: finish, ..void }];
            // K3: a piece that ends at the floor has ended
            let pieces: Vec<Void> = pieces.into_iter().filter(|piece| piece.start < piece.end && piece.end > self.floor).collect();
            if pieces.len() == 2 && self.voids.len() as u64 == self.room {
                return refused(8);
            }
            self.voids.splice(index..=index, pieces);
            return [0, void.channel, line as u64, start, finish, 0, 0];
        }
        refused(7)
    }

    fn sweep(&mut self, moment: u64) -> Seven {
        if moment < self.floor {
            return refused(9);
        }
        if moment - self.floor > self.leap {
            return refused(10);
        }
        let before = self.voids.len();
        self.voids.retain(|void| void.end > moment);
        self.floor = moment;
        [0, 0, 0, 0, 0, 0, (before - self.voids.len()) as u64]
    }

    /// The voids as the tree has them from left to right: by rising start, equal starts by falling channel.
    pub fn ordered(&self) -> Vec<Void> {
        let mut voids = self.voids.clone();
        voids.sort_by_key(|void| (void.start, u64::MAX - void.channel));
        voids
    }
}

// ---------------------------------------------------------------------------------------------------------- the program

/// What the program prints for these bytes on standard input.
pub fn session(input: &[u8]) -> String {
    let input = &input[..input.len().min(PROGRAM_BYTES)];
    let (mut link, used) = match open(need(PROGRAM_ROOM) as usize, PROGRAM_ROOM, input) {
        Err(code) => return format!("0 R {code}\n"),
        Ok(opened) => opened,
    };
    let mut printed = format!("0 L {} {}\n", link.channels, link.delays.len());
    let ran = link.run(&mut [0; 10], &input[used..], usize::MAX);
    let mut place = used;
    for (n, Acted { seven: [code, channel, line, start, finish, _, dropped], used, .. }) in ran.answered.iter().enumerate() {
        let n = n + 1;
        let sweep = matches!(read(&input[place..]), Some((Record::Sweep { .. }, _)));
        printed += &match (code, sweep) {
            (0, false) => format!("{n} B {channel} {line} {start} {finish}\n"),
            (0, true) => format!("{n} S {dropped}\n"),
            _ => format!("{n} R {code}\n"),
        };
        place += used;
    }
    if ran.code != 0 {
        printed += &format!("{} R {}\n", ran.answered.len() + 1, ran.code);
    }
    printed + &format!("E {}\n", link.voids.len())
}

// ---------------------------------------------------------------------------------------------------------- the history

/// The voids that 01 promises from the history alone: the maximal idle stretches that end after the floor (02, K3).
/// `bookings` are (channel, start, finish), `opened` is the floor at opening. A second look at `Link`, used at a session's end.
pub fn idle_stretches(channels: u64, opened: u64, floor: u64, bookings: &[(u64, u64, u64)]) -> Vec<Void> {
    let mut voids = vec![];
    for channel in 0..channels {
        let mut booked: Vec<(u64, u64)> = bookings.iter().filter(|b| b.0 == channel).map(|b| (b.1, b.2)).collect();
        booked.sort();
        let mut idle_from = opened;
        for (start, finish) in booked {
            assert!(start >= idle_from, "two bookings overlap on channel {channel}");
            voids.push(Void { channel, start: idle_from, end: start });
            idle_from = finish;
        }
        voids.push(Void { channel, start: idle_from, end: OPEN_END });
    }
    voids.retain(|void| void.start < void.end && void.end > floor);
    voids.sort_by_key(|void| (void.start, u64::MAX - void.channel));
    voids
}
