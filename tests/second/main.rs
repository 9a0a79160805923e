//! The independent second program of Curlywether, and what it is compared with. See README.md.

mod archive;
mod compare;
mod damage;
mod edges;
mod generate;
mod layout;
mod model;
mod plan;
mod program;
mod random;
mod shrink;
mod spoil;

use compare::{Bench, Seen};
use spoil::Spoiled;
use std::io::{Read, Write};
use std::time::{Duration, Instant};

const USAGE: &str = "usage:
  second quick [--program PATH] [--seed N]            6,000 sessions by the archive, 2,000 by the program, spoiled memories
  second soak --orders N --spoiled M --seconds S [--program PATH] [--seed N]
                                                      until N orders and M spoiled memories are compared, or S seconds are over
  second one archive|program|spoiled SEED [--program PATH]   one case again, shrunk if it fails
  second table [--program PATH]                       quick, and how often each code and each broken rule came
  second model < records                              what the model prints for a session on standard input";

#[derive(Default)]
struct Totals {
    seen: Seen,
    spoiled: Spoiled,
    plans: u64,
    sessions: u64,
}

/// One case of a kind: 'a' archive, 'p' program, 's' spoiled memories. On a difference: what, where, smaller.
fn case(kind: u8, seed: u64, bench: &mut Bench, program: Option<&str>, totals: &mut Totals) -> Result<(), String> {
    archive::begin(kind, seed);
    let Totals { seen, spoiled, plans, sessions } = totals;
    match kind {
        b'a' => {
            *plans += 1;
            let plan = plan::plan(seed);
            bench.archive(&plan, seen).map_err(|e| {
                let small = shrink::shrink_plan(bench, &plan);
                let again = bench.archive(&small, &mut Seen::default()).err().unwrap_or(e);
                format!("DIFFERENCE (again: second one archive {seed})\n{again}\nshrunk (numbers in hex): {}", short(&format!("{small:02X?}")))
            })
        }
        b'p' => {
            *sessions += 1;
            let path = program.expect("--program PATH");
            let pieces = plan::session(seed);
            program::program(path, &pieces, seen).map_err(|_| {
                let small = shrink::shrink_session(path, &pieces);
                let again = program::program(path, &small, &mut Seen::default()).err();
                format!("DIFFERENCE (again: second one program {seed})\n{again:?}\nshrunk (numbers in hex): {}", short(&format!("{small:02X?}")))
            })
        }
        _ => spoil::spoil(bench, seed, seen, spoiled).map_err(|e| format!("DIFFERENCE (again: second one spoiled {seed})\n{e}")),
    }
}

fn short(text: &str) -> &str {
    &text[..text.len().min(6000)]
}

fn quick(program: Option<&str>, seed: u64, table: bool) -> Result<(), String> {
    let began = Instant::now();
    let bench = &mut Bench::new();
    let mut totals = Totals::default();
    archive::begin(b'e', 0);
    edges::edges(bench, &mut totals.seen).map_err(|e| format!("DIFFERENCE at 01's own examples\n{e}"))?;
    if let Some(path) = program {
        let (input, _) = edges::session_of_01();
        program::program(path, &[input], &mut totals.seen).map_err(|e| format!("DIFFERENCE at 01's session\n{e}"))?;
    }
    for i in 0..6_000 {
        case(b'a', seed + i, bench, program, &mut totals)?;
        if program.is_some() && i % 3 == 0 {
            case(b'p', seed + i, bench, program, &mut totals)?;
        }
        if i % 4 == 0 {
            case(b's', seed + i, bench, program, &mut totals)?;
        }
    }
    if table {
        print_table(&totals);
    }
    println!("second: the same. {} in {:.1} s (seed {seed})", summary(&totals), began.elapsed().as_secs_f64());
    Ok(())
}

fn summary(totals: &Totals) -> String {
    let Totals { seen, spoiled, plans, sessions } = totals;
    let program = if *sessions == 0 { "no program given".into() } else { format!("{sessions} sessions by the program") };
    format!("{plans} sessions by the archive ({} orders, {} visits), {program}, {} spoiled memories", seen.orders, seen.counted, spoiled.judged)
}

fn print_table(totals: &Totals) {
    let Totals { seen, spoiled, .. } = totals;
    println!("{:>5} {:>10} {:>10} {:>10} {:>10} {:>10} {:>10}", "code", "opens", "singles", "in runs", "run ends", "tells", "program");
    for code in 0..13 {
        let row = [seen.opens, seen.singles, seen.in_runs, seen.runs, seen.tells, seen.program].map(|column| column[code]);
        println!("{code:>5}{}", row.map(|n| if n == 0 { format!("{:>11}", "-") } else { format!("{n:>11}") }).concat());
    }
    println!("starts tried {}, booked by a line {}, starts skipped under 7 {}, voids filled exactly {},", seen.starts_tried, seen.delayed, seen.skipped, seen.exact);
    println!("most voids kept {}, most dropped by one sweep {}", seen.most_voids, seen.most_dropped);
    println!("spoiled memories, by the first rule broken:");
    spoiled.rules.iter().for_each(|(rule, n)| println!("{n:>9} {rule}"));
    println!("spoiled memories, by what was done (judged, still whole):");
    spoiled.ways.iter().for_each(|(way, (n, whole))| println!("{n:>9} {whole:>9} {way}"));
}

fn soak(program: Option<&str>, seed: u64, orders: u64, memories: u64, seconds: u64) -> Result<(), String> {
    let began = Instant::now();
    let bench = &mut Bench::new();
    let mut totals = Totals::default();
    let mut shown = Instant::now();
    let mut i = 0;
    loop {
        let orders_done = totals.seen.orders >= orders;
        let memories_done = totals.spoiled.judged >= memories;
        let past = began.elapsed();
        let over = (orders_done && memories_done) || past >= Duration::from_secs(seconds);
        if over || shown.elapsed() > Duration::from_millis(500) {
            shown = Instant::now();
            let share = |n: u64, of: u64| if of == 0 { 1.0 } else { (n as f64 / of as f64).min(1.0) };
            let done = share(totals.seen.orders, orders).min(share(totals.spoiled.judged, memories));
            let done = done.max(past.as_secs_f64() / seconds.max(1) as f64).min(1.0);
            let bar: String = (0..30).map(|n| if (n as f64) < 30.0 * done { '#' } else { '.' }).collect();
            let rate = totals.seen.orders as f64 / past.as_secs_f64().max(0.001);
            eprint!("\r[{bar}] {:3.0} % {} orders ({rate:.0}/s) {} memories {} s ", 100.0 * done, totals.seen.orders, totals.spoiled.judged, past.as_secs());
            let _ = std::io::stderr().flush();
        }
        if over {
            break;
        }
        if !orders_done {
            case(b'a', seed + i, bench, program, &mut totals)?;
            if program.is_some() && i % 4 == 0 {
                case(b'p', seed + i, bench, program, &mut totals)?;
            }
        }
        // spoiled memories go along in proportion
        while totals.spoiled.judged < memories && (orders_done || totals.spoiled.judged as f64 / memories as f64 <= totals.seen.orders as f64 / orders as f64) {
            i += 1;
            case(b's', seed + i, bench, program, &mut totals)?;
            if began.elapsed() >= Duration::from_secs(seconds) {
                break;
            }
        }
        i += 1;
    }
    eprintln!();
    print_table(&totals);
    println!("second: the same. {} in {:.1} s (seeds {seed} to {})", summary(&totals), began.elapsed().as_secs_f64(), seed + i);
    Ok(())
}

fn main() {
    archive::on_death();
    let args: Vec<String> = std::env::args().skip(1).collect();
    let option = |name: &str| args.iter().position(|a| a == name).and_then(|i| args.get(i + 1)).map(String::as_str);
    let number = |name: &str, otherwise: Option<u64>| match option(name).map(|text| text.replace('_', "").parse()) {
        Some(Ok(n)) => n,
        None if otherwise.is_some() => otherwise.unwrap(),
        _ => {
            eprintln!("{name} needs a number\n{USAGE}");
            std::process::exit(2)
        }
    };
    let program = option("--program");
    let outcome = match args.first().map(String::as_str) {
        Some("quick") => quick(program, number("--seed", Some(1)), false),
        Some("table") => quick(program, number("--seed", Some(1)), true),
        Some("soak") => soak(program, number("--seed", Some(1_000_000)), number("--orders", None), number("--spoiled", None), number("--seconds", None)),
        Some("one") if args.len() >= 3 => {
            let seed = args[2].parse().expect("a seed");
            case(args[1].as_bytes()[0], seed, &mut Bench::new(), program, &mut Totals::default()).map(|()| println!("the same"))
        }
        Some("model") => {
            let mut input = vec![];
            std::io::stdin().read_to_end(&mut input).expect("standard input");
            print!("{}", model::session(&input));
            Ok(())
        }
        _ => {
            eprintln!("{USAGE}");
            std::process::exit(2)
        }
    };
    if let Err(difference) = outcome {
        println!("{difference}");
        std::process::exit(1);
    }
}
