//! The program against the model: what it prints for a session, line by line.

use crate::compare::{Outcome, Seen};
use crate::model::session;
use std::io::{Read, Write};
use std::process::{Command, Stdio};

pub fn program_prints(program: &str, input: &[u8]) -> Result<String, String> {
    let mut child = Command::new(program).stdin(Stdio::piped()).stdout(Stdio::piped()).spawn().map_err(|e| format!("{program}: {e}"))?;
    let mut stdin = child.stdin.take().unwrap();
    let _ = stdin.write_all(input); // a program that needs no more may close its end; at most 32,768 bytes, so a pipe holds them
    drop(stdin);
    let mut printed = String::new();
    child.stdout.take().unwrap().read_to_string(&mut printed).map_err(|e| format!("{program}: {e}"))?;
    let status = child.wait().map_err(|e| e.to_string())?;
    if status.code().is_none() {
        return Err(format!("{program} died: {status}"));
    }
    Ok(printed)
}

pub fn program(program: &str, pieces: &[Vec<u8>], seen: &mut Seen) -> Outcome {
    let input = pieces.concat();
    let want = session(&input);
    let got = program_prints(program, &input)?;
    if got != want {
        let line = got.lines().zip(want.lines()).position(|(g, w)| g != w).unwrap_or(got.lines().count().min(want.lines().count()));
        let (g, w) = (got.lines().nth(line), want.lines().nth(line));
        return Err(format!("program, printed line {line}: the program says {g:?}, the model {w:?} ({} and {} bytes)", got.len(), want.len()));
    }
    for line in want.lines() {
        let mut words = line.split(' ').skip(1);
        match words.next() {
            Some("R") => seen.program[words.next().unwrap().parse::<usize>().unwrap()] += 1,
            Some("B") | Some("S") => seen.program[0] += 1,
            _ => (),
        }
    }
    Ok(())
}
