//! The archive against the model and the tree reader, call by call.

use crate::archive::{Desk, Fence, PATTERN};
use crate::plan::{Plan, Start, Step};
use crate::random::Rng;
use crate::layout::{build, whole, Crooked, Image};
use crate::model::{idle_stretches, need, open, read, Acted, Link, Record, Seven, Tally, COUNT, OPEN_END};

/// How often each code came (from opens, single orders, orders in runs, ends of runs, tells), and what else was looked at.
#[derive(Clone, Default)]
pub struct Seen {
    pub opens: [u64; 13],
    pub singles: [u64; 13],
    pub in_runs: [u64; 13],
    pub runs: [u64; 13],
    pub tells: [u64; 13],
    pub program: [u64; 13],
    pub orders: u64,
    pub counted: u64,
    pub starts_tried: u64,
    pub delayed: u64,
    pub skipped: u64,
    pub most_voids: u64,
    pub exact: u64,
    pub most_dropped: u64,
}

pub type Outcome = Result<(), String>;

macro_rules! same {
    ($got:expr, $want:expr, $($what:tt)*) => {
        if $got != $want {
            return Err(format!("{}: the core says {:?}, the model {:?}", format!($($what)*), $got, $want));
        }
    };
}

macro_rules! unchanged {
    ($now:expr, $before:expr, $($what:tt)*) => {
        if let Some(at) = $now.iter().zip($before.iter()).position(|(a, b)| a != b) {
            return Err(format!("{}: byte {at} of it differs", format!($($what)*)));
        }
    };
}

/// The memory must be whole, hold the model's link, and be as before past the need.
fn holds(memory: &[u8], before: &[u8], link: &Link) -> Result<Image, String> {
    let image = whole(memory).map_err(|rule| format!("the memory is not a whole link afterwards: {rule}"))?;
    let want = Link { voids: link.ordered(), ..link.clone() };
    same!(image.link, want, "the link in the memory");
    let past = need(link.room) as usize;
    unchanged!(memory[past..], before[past..], "memory past the need unchanged");
    Ok(image)
}

/// Adds the count to the model's answer, from the tree as it stood; and 01's demand that the search finds what the model takes.
fn counted(acted: &Acted, image: &Image, before: &Link, seen: &mut Seen) -> Result<Seven, String> {
    let mut seven = acted.seven;
    for (r, f) in &acted.tried {
        let (found, visits) = image.search(*r, *f);
        let taken = before.taken(*r, *f).map(|i| before.voids[i]);
        if found != taken {
            return Err(format!("01's search for ({r}, {f}) ends at {found:?}, the model takes {taken:?}"));
        }
        seven[COUNT] += visits;
        seen.starts_tried += 1;
        seen.counted += visits;
    }
    Ok(seven)
}

/// A link in lent memory, and what the model and the reader hold of it.
struct Lent<'a> {
    fence: &'a mut Fence,
    bytes: usize,
    image: Option<Image>,
}

/// One single order on a memory that holds `link`.
fn single(desk: &mut Desk, lent: &mut Lent, link: &mut Link, tally: &mut Tally, bytes: &[u8], seen: &mut Seen) -> Result<Seven, String> {
    let before = lent.fence.lent(lent.bytes).to_vec();
    let before_link = link.clone();
    let mut want_tally = *tally;
    let want = link.act(&mut want_tally, bytes);
    let image = lent.image.take().expect("a whole link");
    let want_seven = counted(&want, &image, &before_link, seen)?;
    let memory = lent.fence.lent(lent.bytes);
    let (seven, used) = desk.act(memory, tally, bytes);
    same!(seven, want_seven, "act on {bytes:02X?}: code channel line start finish count dropped");
    same!(used, want.used, "act on {bytes:02X?}: bytes used");
    same!(*tally, want_tally, "act on {bytes:02X?}: tally");
    if seven[0] != 0 {
        unchanged!(memory[..], before[..], "act on {bytes:02X?}: memory unchanged under code {}", seven[0]);
        lent.image = Some(image);
    } else {
        lent.image = Some(holds(memory, &before, link).map_err(|e| format!("act on {bytes:02X?}: {e}"))?);
        seen.delayed += (seven[2] > 0) as u64;
    }
    if let Some((Record::Booking { lines, .. }, _)) = read(bytes) {
        if seven[0] == 7 {
            seen.skipped += 1 + lines.count_ones() as u64 - want.tried.len() as u64;
        }
    }
    seen.exact += (seven[0] == 0 && seven[4] > 0 && link.voids.len() < before_link.voids.len()) as u64;
    seen.most_dropped = seen.most_dropped.max(seven[6]);
    seen.most_voids = seen.most_voids.max(link.voids.len() as u64);
    Ok(seven)
}

/// The three calls on any memory at all: 2 exactly if it is not whole, and then not a byte changed; else as the model on its link.
/// The memory is put back as it was. Says whether it was whole, or the rule broken.
pub fn judge(desk: &mut Desk, memory: &mut [u8], order: &[u8], seen: &mut Seen) -> Result<Result<(), &'static str>, String> {
    let before = memory.to_vec();
    let verdict = whole(memory);
    let start: Tally = [3, 0, 1, 1, 1, 1, 1, 1, u64::MAX, 1];
    let told = desk.tell(memory);
    unchanged!(memory[..], before[..], "tell: memory unchanged");
    match verdict {
        Err(rule) => {
            same!(told, (2, 0), "tell on a memory that breaks '{rule}'");
            let mut tally = start;
            let acted = desk.act(memory, &mut tally, order);
            same!(acted, ([2, 0, 0, 0, 0, 0, 0], 0), "act on a memory that breaks '{rule}'");
            let ran = desk.run(memory, &mut tally, order, 9);
            same!(ran, (2, 0, 0, vec![PATTERN; 9]), "run on a memory that breaks '{rule}'");
            let ran = desk.run(memory, &mut tally, &[], 0);
            same!(ran, (2, 0, 0, Vec::<u64>::new()), "empty run on a memory that breaks '{rule}'");
            same!(tally, start, "tally under code 2");
            unchanged!(memory[..], before[..], "memory unchanged under code 2 ('{rule}')");
            seen.tells[2] += 1;
            seen.singles[2] += 1;
            seen.runs[2] += 2;
            Ok(Err(rule))
        }
        Ok(image) => {
            same!(told, (0, image.link.voids.len() as u64), "tell on a whole memory");
            seen.tells[0] += 1;
            let (mut tally, mut want_tally) = (start, start);
            let mut link = image.link.clone();
            let want = link.act(&mut want_tally, order);
            let want_seven = counted(&want, &image, &image.link, seen)?;
            let (seven, used) = desk.act(memory, &mut tally, order);
            same!((seven, used), (want_seven, want.used), "act on a whole memory, order {order:02X?}");
            same!(tally, want_tally, "tally");
            seen.singles[seven[0] as usize] += 1;
            seen.orders += 1;
            if seven[0] == 0 {
                holds(memory, &before, &link)?;
            } else {
                unchanged!(memory[..], before[..], "memory unchanged under code {}", seven[0]);
            }
            memory.copy_from_slice(&before);
            Ok(Ok(()))
        }
    }
}

pub const MOST_MEMORY: usize = 96 * 4100 + 4096;

/// Where memories, records and answers are lent from.
pub struct Bench {
    pub desk: Desk,
    pub main: Fence,
    pub twin: Fence,
}

impl Bench {
    pub fn new() -> Bench {
        Bench { desk: Desk::new(), main: Fence::new(MOST_MEMORY), twin: Fence::new(MOST_MEMORY) }
    }

    /// The whole plan through the archive.
    pub fn archive(&mut self, plan: &Plan, seen: &mut Seen) -> Outcome {
        let Bench { desk, main, twin } = self;
        main.watch(plan.memory);
        let mut main = Lent { fence: main, bytes: plan.memory, image: None };
        let mut twin = Lent { fence: twin, bytes: plan.memory, image: None };
        let mut link: Option<Link> = None;
        let mut history = None; // the floor at opening and the bookings since, where the link came from an opening
        match &plan.start {
            Start::Bytes(seed) => {
                let rng = &mut Rng::new(*seed);
                let any = if rng.chance(1, 4) { vec![0; plan.memory] } else { rng.bytes(plan.memory) };
                main.fence.lent(plan.memory).copy_from_slice(&any);
            }
            Start::Built { link: built, shape } => {
                let rng = &mut Rng::new(*shape);
                let memory = main.fence.lent(plan.memory);
                memory.fill(0x77);
                build(memory, built, rng, Crooked::default());
                main.image = Some(whole(memory).map_err(|rule| format!("the builder broke '{rule}'"))?);
                link = Some(built.clone());
            }
        }
        let mut tally = plan.tally;
        for (number, step) in plan.steps.iter().enumerate() {
            step_through(desk, step, &mut main, &mut twin, &mut link, &mut history, &mut tally, seen).map_err(|e| format!("step {number}: {e}"))?;
            same!(main.fence.intact(plan.memory), true, "step {number}: bytes before the memory unchanged");
        }
        if let (Some(link), Some((opened, bookings))) = (&link, &history) {
            let stretches = idle_stretches(link.channels, *opened, link.floor, bookings);
            same!(link.ordered(), stretches, "the voids against the history");
        }
        Ok(())
    }
}

#[allow(clippy::too_many_arguments)]
fn step_through(desk: &mut Desk, step: &Step, main: &mut Lent, twin: &mut Lent, link: &mut Option<Link>,
        history: &mut Option<(u64, Vec<(u64, u64, u64)>)>, tally: &mut Tally, seen: &mut Seen) -> Outcome {
    let bytes = main.bytes;
    match step {
        Step::Open { room, bytes: lent_bytes, record } => {
            let before = main.fence.lent(bytes).to_vec();
            // lent at the start of the memory, so the rest of it is watched
            let (code, used) = desk.open(&mut main.fence.lent(bytes)[..*lent_bytes], *room, record);
            let memory = main.fence.lent(bytes);
            let what = format!("open in {lent_bytes} bytes, room {room}, {record:02X?}");
            match open(*lent_bytes, *room, record) {
                Err(want) => {
                    same!((code, used), (want, 0), "{what}: code and bytes used");
                    unchanged!(memory[..], before[..], "{what}: memory unchanged under code {code}");
                }
                Ok((opened, want_used)) => {
                    same!((code, used), (0, want_used), "{what}: code and bytes used");
                    main.image = Some(holds(memory, &before, &opened).map_err(|e| format!("{what}: {e}"))?);
                    *history = Some((opened.floor, vec![]));
                    *link = Some(opened);
                }
            }
            seen.opens[code as usize] += 1;
        }
        Step::Act(record) => match link {
            None => {
                let memory = main.fence.lent(bytes);
                judge(desk, memory, record, seen)?.err();
            }
            Some(link) => {
                let seven = single(desk, main, link, tally, record, seen)?;
                seen.singles[seven[0] as usize] += 1;
                seen.orders += 1;
                remember(history, &seven);
            }
        },
        Step::Run { pieces, numbers } => {
            let records = pieces.concat();
            let Some(link) = link else {
                judge(desk, main.fence.lent(bytes), &records, seen)?.err();
                return Ok(());
            };
            // The same records one by one on a copy: that gives the counts. The end of the run is the model's.
            let before = main.fence.lent(bytes).to_vec();
            twin.fence.lent(bytes).copy_from_slice(&before);
            twin.image = main.image.take();
            let mut want_tally = *tally;
            let want = link.clone().run(&mut want_tally, &records, *numbers);
            let mut singly = *tally;
            let mut want_numbers = vec![];
            let mut place = 0;
            for acted in &want.answered {
                let seven = single(desk, twin, link, &mut singly, &records[place..], seen)?;
                place += acted.used;
                want_numbers.extend(seven);
                seen.in_runs[seven[0] as usize] += 1;
                seen.orders += 1;
                remember(history, &seven);
            }
            want_numbers.resize(*numbers, PATTERN);
            let (code, place, answered, got) = desk.run(main.fence.lent(bytes), tally, &records, *numbers);
            let what = format!("run of {} bytes, {numbers} numbers", records.len());
            same!((code, place, answered), (want.code, want.place, want.answered.len()), "{what}: code, place, answered");
            same!(got, want_numbers, "{what}: the answer slice");
            same!(*tally, want_tally, "{what}: tally");
            let memory = main.fence.lent(bytes);
            if want.answered.iter().all(|acted| acted.seven[0] != 0) {
                unchanged!(memory[..], before[..], "{what}: memory unchanged under refusals");
            }
            main.image = Some(holds(memory, &before, link).map_err(|e| format!("{what}: {e}"))?);
            unchanged!(memory[..], twin.fence.lent(bytes)[..], "{what}: the same memory as by single orders");
            seen.runs[code as usize] += 1;
        }
        Step::Tell => {
            let memory = main.fence.lent(bytes);
            let before = memory.to_vec();
            let want = match whole(memory) {
                Ok(image) => (0, image.link.voids.len() as u64),
                Err(_) => (2, 0),
            };
            let told = desk.tell(memory);
            same!(told, want, "tell");
            unchanged!(memory[..], before[..], "tell: memory unchanged");
            if let Some(link) = link {
                same!(told, (0, link.voids.len() as u64), "tell, by the model");
            }
            seen.tells[told.0 as usize] += 1;
        }
        Step::Spoil { at, by, order } => {
            let memory = main.fence.lent(bytes);
            memory[*at] ^= by;
            let judged = judge(desk, memory, order, seen).map_err(|e| format!("byte {at} changed by {by:#x}: {e}"));
            memory[*at] ^= by;
            judged?.err();
        }
        Step::Short { bytes: lent_bytes, order } => {
            let shorter = &mut main.fence.lent(bytes)[..*lent_bytes.min(&bytes)];
            judge(desk, shorter, order, seen).map_err(|e| format!("{lent_bytes} bytes lent: {e}"))?.err();
        }
    }
    Ok(())
}

fn remember(history: &mut Option<(u64, Vec<(u64, u64, u64)>)>, seven: &Seven) {
    if let ([0, channel, _, start, finish, _, _], Some((_, bookings))) = (seven, history) {
        if *finish > 0 {
            assert!(*finish < OPEN_END);
            bookings.push((*channel, *start, *finish));
        }
    }
}
