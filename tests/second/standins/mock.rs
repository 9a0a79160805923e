//! A stand-in for the core while there is none: the model behind the functions of curlywether.h, the tree rebuilt at each change.
//! Only to try the comparison itself (and, by MUTANT=n, to see it fail).
#[path = "../random.rs"] #[allow(dead_code)] mod random;
#[path = "../layout.rs"] #[allow(dead_code)] mod layout;
#[path = "../model.rs"] #[allow(dead_code)] mod model;
use std::sync::OnceLock;
fn mutant() -> u32 { static M: OnceLock<u32> = OnceLock::new(); *M.get_or_init(|| std::env::var("MUTANT").ok().and_then(|s| s.parse().ok()).unwrap_or(0)) }
#[repr(C)] pub struct Opened { code: u64, used: usize }
#[repr(C)] pub struct Acted { answer: [u64; 7], used: usize }
#[repr(C)] pub struct Ran { code: u64, place: usize, answered: usize }
#[repr(C)] pub struct Told { code: u64, voids: u64 }
unsafe fn sl<'a>(p: *const u8, n: usize) -> &'a [u8] { std::slice::from_raw_parts(p, n) }
unsafe fn slm<'a>(p: *mut u8, n: usize) -> &'a mut [u8] { std::slice::from_raw_parts_mut(p, n) }
fn store(m: &mut [u8], l: &model::Link) { layout::build(m, l, &mut random::Rng::new(7), layout::Crooked::default());
    if mutant() == 1 && m.len() as u64 > model::need(l.room) { let n = m.len(); m[n - 1] ^= 1; } }
#[no_mangle] pub unsafe extern "C" fn curlywether_open(m: *mut u8, n: usize, room: u64, r: *const u8, len: usize) -> Opened {
    match model::open(n, room, sl(r, len)) { Err(code) => Opened { code, used: 0 }, Ok((l, used)) => { store(slm(m, n), &l); Opened { code: 0, used } } } }
fn one(mem: &mut [u8], tally: &mut [u64; 10], rec: &[u8]) -> ([u64; 7], usize) {
    let image = match layout::whole(mem) { Err(_) => return ([2, 0, 0, 0, 0, 0, 0], 0), Ok(i) => i };
    let mut link = image.link.clone();
    let a = link.act(tally, rec);
    let mut s = a.seven;
    for (r, f) in &a.tried { s[5] += image.search(*r, *f).1; }
    if mutant() == 2 && s[0] == 8 { s[5] = 0; }
    if mutant() == 3 && s[0] == 7 { mem[3] ^= 0; tally[6] = tally[6].wrapping_add(1); }
    if s[0] == 0 { store(mem, &link); }
    if mutant() == 4 && s[0] == 8 && mem.len() > 256 { layout::set_word(mem, 7, 0); }
    (s, a.used) }
#[no_mangle] pub unsafe extern "C" fn curlywether_act(m: *mut u8, n: usize, t: *mut u64, r: *const u8, len: usize) -> Acted {
    let (answer, used) = one(slm(m, n), &mut *(t as *mut [u64; 10]), sl(r, len)); Acted { answer, used } }
#[no_mangle] pub unsafe extern "C" fn curlywether_run(m: *mut u8, n: usize, t: *mut u64, r: *const u8, len: usize, a: *mut u64, numbers: usize) -> Ran {
    let (mem, rec, t) = (slm(m, n), sl(r, len), &mut *(t as *mut [u64; 10]));
    if layout::whole(mem).is_err() { return Ran { code: 2, place: 0, answered: 0 } }
    let (mut place, mut k) = (0, 0);
    while place < len { if numbers - 7 * k < 7 { return Ran { code: 12, place, answered: k } }
        let (s, u) = one(mem, t, &rec[place..]);
        if s[0] == 11 { return Ran { code: 11, place, answered: k } }
        for i in 0..7 { *a.add(7 * k + i) = s[i]; } place += u; k += 1; }
    if mutant() == 5 && numbers > 7 * k { *a.add(7 * k) = 0; }
    Ran { code: 0, place, answered: k } }
#[no_mangle] pub unsafe extern "C" fn curlywether_tell(m: *const u8, n: usize) -> Told {
    match layout::whole(sl(m, n)) { Err("summaries: low") if mutant() == 6 => Told { code: 0, voids: 1 }, Err(_) => Told { code: 2, voids: 0 }, Ok(i) => Told { code: 0, voids: i.link.voids.len() as u64 } } }
