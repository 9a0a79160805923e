#!/usr/bin/env python3
"""Stand-ins for the core (mock.rs: the model behind the C functions), each wrong in one place; `second quick` must find every one.
The first five are 01's. Then every demand of layout.rs's check is left out in turn; those in SAME follow from the others.
usage: standins.py [first [last]]; some seconds each, the work in a temporary directory. First the stand-in itself, which must pass."""
import os, subprocess, sys, shutil, tempfile
here = os.path.dirname(os.path.abspath(__file__))
src = os.path.join(here, "..")
M, L, K = "model.rs", "layout.rs", "mock.rs"
mutants = [
 ("answers 7 to everything", K, "let mut s = a.seven;", "let mut s = a.seven; if a.used > 8 { link = image.link.clone(); s = [7,0,0,0,0,0,0]; }"),
 ("always channel 0", K, "let mut s = a.seven;", "let mut s = a.seven; s[1] = 0;"),
 ("books without changing the memory", K, "if s[0] == 0 { store(mem, &link); }", "if s[0] == 0 && a.used == 8 { store(mem, &link); }"),
 ("books once, then pretends", K, "if s[0] == 0 { store(mem, &link); }", "if s[0] == 0 && (a.used == 8 || link.voids.len() as u64 <= link.channels + 1) { store(mem, &link); }"),
 ("makes up its count", K, "for (r, f) in &a.tried { s[5] += image.search(*r, *f).1; }", "for (r, f) in &a.tried { s[5] += image.search(*r, *f).1 / 2 * 2; }"),
 ("start must be before r", M, "self.start <= r && f <= self.end", "self.start < r && f <= self.end"),
 ("end must be after f", M, "self.start <= r && f <= self.end", "self.start <= r && f < self.end"),
 ("highest channel of equal starts", M, "fitting.max_by_key(|i| (self.voids[*i].start, u64::MAX - self.voids[*i].channel))", "fitting.max_by_key(|i| (self.voids[*i].start, self.voids[*i].channel))"),
 ("earliest start taken", M, "fitting.max_by_key(|i| (self.voids[*i].start,", "fitting.max_by_key(|i| (u64::MAX - self.voids[*i].start,"),
 ("keeps e = T", M, "retain(|void| void.end > moment)", "retain(|void| void.end >= moment)"),
 ("the front piece kept at the floor", M, "piece.start < piece.end && piece.end > self.floor)", "piece.start < piece.end && piece.end >= self.floor)"),
 ("cuts the straddling void", M, "self.floor = moment;", "self.floor = moment; for v in &mut self.voids { if v.end > moment { v.start = v.start.max(moment); } }"),
 ("leap itself refused", M, "moment - self.floor > self.leap", "moment - self.floor >= self.leap"),
 ("last moment refused", M, "if arrival + length > LAST_MOMENT", "if arrival + length >= LAST_MOMENT"),
 ("delayed start past the end tried", M, "continue; // skipped", "tried.push((start, finish)); continue; // skipped"),
 ("delayed start at the last moment skipped", M, "if finish > LAST_MOMENT {", "if finish >= LAST_MOMENT && line > 0 {"),
 ("tries on after 8", M, "return refused(8);", "continue;"),
 ("8 also with one piece", M, "if pieces.len() == 2 &&", "if pieces.len() >= 1 &&"),
 ("zero pieces kept", M, "piece.start < piece.end && piece.end", "piece.start <= piece.end && piece.end"),
 ("4 before 3", M, "if length == 0 {", "if length == 0 && arrival >= self.floor {"),
 ("6 before 5", M, "if lines >> self.delays.len() != 0 {", "if arrival + length <= LAST_MOMENT && lines >> self.delays.len() != 0 {"),
 ("OC length at the wrong place", M, "length: number(8, 2)?, lines: 0 }, 10)", "length: number(7, 2)?, lines: 0 }, 10)"),
 ("tally wraps", M, "tally[which].saturating_add(1)", "tally[which].wrapping_add(1)"),
 ("12 after 11", K, "if numbers - 7 * k < 7 {", "if numbers - 7 * k < 7 && model::read(&rec[place..]).is_some() {"),
 ("6 numbers are enough", K, "if numbers - 7 * k < 7 { return Ran { code: 12, place, answered: k } }", "if numbers - 7 * k < 7 { if numbers - 7 * k == 6 { *a.add(7 * k) = 0; } return Ran { code: 12, place, answered: k } }"),
 ("1 before 11", M, "let delays = (0..lines).map", "if lines > 16 { return Some((Record::Opening { channels, leap, floor, delays: vec![0] }, 14)) } let delays = (0..lines).map"),
 ("equal delays pass", M, "pair[0] < pair[1])", "pair[0] <= pair[1])"),
 ("65 channels pass", M, "(1..=64).contains(&channels)", "(1..=65).contains(&channels)"),
 ("room 4097 passes", M, "(channels..=4096)", "(channels..=4097)"),
 ("need one word less", M, "64 * room + 256", "64 * room + 248 + 8 * (room > 3) as u64"),
 ("marks only above f", L, "if left.top >= f {", "if left.top > f {"),
 ("goes right only after", L, "right.lo / 1024 <= r {", "right.lo / 1024 < r {"),
 ("highest marked, not deepest", L, "if left.top >= f {", "if left.top >= f && marked.is_none() {"),
 ("C counted from the marked node", L, "let Some(mut at) = marked else { return (None, visits) };", "let Some(mut at) = marked else { return (None, visits) }; visits += 1;"),
 ("touching voids pass", L, "pair[0].end < pair[1].start", "pair[0].end <= pair[1].start"),
 ("no open end passes", L, "void.end == OPEN_END).count() == 1", "void.end == OPEN_END).count() <= 1"),
 ("ends at the floor pass", L, "demand(void.end > floor,", "demand(void.end >= floor,"),
 ("end one after the floor refused", L, "demand(void.end > floor,", "demand(void.end > floor + 1,"),
 ("unbalanced passes", L, "abs_diff(r.height) <= 1", "abs_diff(r.height) <= 2"),
 ("heights not checked at the root", L, "demand(n.height == 1 + l.height.max(r.height)", "demand(n.height == 1 + l.height.max(r.height) || n.height == 2 + l.height.max(r.height)"),
 ("low not checked", L, "demand(n.low == l.low.min(r.low), \"summaries: low\")", "Ok(())"),
 ("a leaf's low may be less", L, "demand(n.top == n.low,", "demand(n.top >= n.low,"),
 ("the last spare's next not checked", L, "demand(after > 0 || l.place == 0,", "demand(true,"),
 ("a spare's lo not checked", L, "l.lo == 0 && l.top == 0", "l.top == 0"),
 ("a spare's top not checked", L, "l.lo == 0 && l.top == 0", "l.lo == 0"),
 ("a spare's right lo not checked", L, "r.lo == 0 && r.top == 0 && r.low == 0 && r.is_leaf()", "r.top == 0 && r.low == 0 && r.is_leaf()"),
 ("a spare's right top not checked", L, "r.lo == 0 && r.top == 0 && r.low == 0 && r.is_leaf()", "r.lo == 0 && r.low == 0 && r.is_leaf()"),
 ("a spare's right low not checked", L, "r.lo == 0 && r.top == 0 && r.low == 0 && r.is_leaf()", "r.lo == 0 && r.top == 0 && r.is_leaf()"),
 ("a spare's right links not checked", L, "r.lo == 0 && r.top == 0 && r.low == 0 && r.is_leaf()", "r.lo == 0 && r.top == 0 && r.low == 0"),
 ("the places after the first 65,536 are the same again", L, "(links & 0xFFFF_FFFF)", "(links & 0xFFFF)"),
 ("the first spare read in 16 bits", L, "let mut place = spare;", "let mut place = spare & 0xFFFF;"),
 ("a bit of the height not read", L, "height: links >> 32,", "height: links >> 32 & !(1 << 30),"),
 ("a leaf with a place passes", L, "self.height == 0 && self.place == 0", "self.height == 0"),
 ("a leaf with a height passes", L, "self.height == 0 && self.place == 0", "self.place == 0"),
 ("the last place not for the tree", L, "n.place < seen.len()", "n.place + 1 < seen.len()"),
 ("the last place not for spares", L, "1 <= place && place <= room", "1 <= place && place < room"),
 ("spares in rising order only", L, "demand(after > 0 || l.place == 0,", "demand(after == 0 || l.place as u64 > place, \"spares: rising\")?; demand(after > 0 || l.place == 0,"),
 ("the tree over places in rising order only", L, "demand(!seen[n.place],", "demand((l.is_leaf() || l.place > n.place) && (r.is_leaf() || r.place > n.place), \"tree: rising\")?; demand(!seen[n.place],"),
 ("spare count not checked", L, "demand(l.low == after,", "demand(l.low == after || spares == 2,"),
 ("word 27 not checked", L, "(lines as usize..20)", "(lines as usize..19)"),
 ("kept above the room", L, "1 <= kept && kept <= room", "1 <= kept && kept <= room + 1"),
 ("void beyond the open end", L, "demand(void.end <= OPEN_END,", "demand(true,"),
 ("a channel the link lacks", L, "demand(void.channel < channels,", "demand(true,"),
 ("empty voids pass", L, "demand(void.start < void.end,", "demand(void.start <= void.end,"),
 ("floor past the last moment", M, "&& floor <= LAST_MOMENT", "&& floor <= OPEN_END"),
 ("order not checked", L, "key(&pair[0]) < key(&pair[1])), \"ordered", "pair[0].start <= pair[1].start), \"ordered"),
 ("code 8 writes", K, "(s, a.used) }", "if s[0] == 8 { let n = mem.len(); mem[n - 1] ^= 1; } (s, a.used) }"),
 ("reads past the record", K, "match model::open(n, room, sl(r, len))", "if len > 0 { std::hint::black_box(std::ptr::read_volatile(r.add(len))); } match model::open(n, room, sl(r, len))"),
]
# these change nothing: a balanced tree keeps the height rule; distinct tree places and distinct spares of the right number are all places;
# a place met twice in the tree gives leaves out of order; a height that falls by one cannot be 2^31; a spare place has a height that no
# node of the tree has, and would have to say two numbers if it were twice among the spares
SAME = ["!seen[place as usize], \"spares", "kept is the number", "height rule", "every place accounted", "!seen[n.place], \"tree", "n.height <= 64"]
# every demand of the check of wholeness left out in turn
text = open(os.path.join(src, L)).read()
for line in text.split("\n"):
    if "demand(" in line and "fn demand" not in line and text.count(line.strip()) == 1:
        mutants.append(("left out: " + line.strip()[:70], L, line.strip(), line.strip().replace("demand(", "demand(true || ", 1)))
first = int(sys.argv[1]) if len(sys.argv) > 1 else 0
last = int(sys.argv[2]) if len(sys.argv) > 2 else len(mutants)


def built(what, *command):
    b = subprocess.run(command, cwd=work, capture_output=True, text=True)
    if b.returncode: print(what, "DOES NOT BUILD", b.stderr[-600:], flush=True)
    return b.returncode == 0


def try_out(what, file=None, old=None, new=None):
    """What `second quick` says of the stand-in with one text replaced: its status and lines; nothing if that does not build."""
    for f in ("model.rs", "layout.rs", "random.rs"): shutil.copy(os.path.join(src, f), work)
    text = open(os.path.join(here, K)).read().replace("../", "")
    open(os.path.join(work, K), "w").write(text)
    if file:
        p = os.path.join(work, file); text = open(p).read()
        assert text.count(old) == 1, (what, text.count(old))
        open(p, "w").write(text.replace(old, new))
    if not built(what, "rustc", "--edition", "2021", "-O", "-Awarnings", "--crate-type", "cdylib", "-o", "libstandin.so", K): return None
    if not os.path.exists(os.path.join(work, "second")):  # once: the stand-ins are shared objects in its directory
        if not built("second", "sh", os.path.join(src, "build.sh"), "libstandin.so", "second"): return None
    r = subprocess.run(["./second", "quick"], cwd=work, capture_output=True, text=True, timeout=400)
    return r.returncode, (r.stdout + r.stderr).strip().split("\n")


work = tempfile.mkdtemp(prefix="standin")
right = try_out("the stand-in itself")  # it must pass, or finding the others says nothing
print("the stand-in itself:", right, flush=True)
missed = right is None or right[0] != 0
for n, (name, file, old, new) in list(enumerate(mutants))[first:last]:
    said = try_out(name, file, old, new)
    found = said is not None and said[0] in (1, 101)
    same = said is not None and not found and any(mark in name for mark in SAME)
    missed += not found and not same
    out = said[1] if said else [""]
    print(f"{n:3} {'found ' if found else 'same  ' if same else 'MISSED'} {name}: {(out[1] if len(out) > 1 else out[0])[:110]}", flush=True)
shutil.rmtree(work)
print("missed", missed)
sys.exit(missed > 0)
