//! A difference made smaller: the same trouble with fewer steps, or fewer records.

use crate::compare::{Bench, Seen};
use crate::plan::{Plan, Step};
use crate::program::program;

/// The same trouble with fewer steps: drops steps, then pieces of runs, while it still fails.
pub fn shrink_plan(bench: &mut Bench, plan: &Plan) -> Plan {
    let mut fails = |plan: &Plan| bench.archive(plan, &mut Seen::default()).is_err();
    let mut plan = plan.clone();
    let mut again = true;
    while again {
        again = false;
        for i in (0..plan.steps.len()).rev() {
            let mut less = plan.clone();
            less.steps.remove(i);
            if fails(&less) {
                plan = less;
                again = true;
                continue;
            }
            let mut j = 0;
            while let Step::Run { pieces, .. } = &plan.steps[i] {
                if j >= pieces.len() {
                    break;
                }
                let mut less = plan.clone();
                if let Step::Run { pieces, .. } = &mut less.steps[i] {
                    pieces.remove(j);
                }
                if fails(&less) {
                    plan = less;
                    again = true;
                } else {
                    j += 1;
                }
            }
        }
    }
    plan
}

pub fn shrink_session(path: &str, pieces: &[Vec<u8>]) -> Vec<Vec<u8>> {
    let fails = |pieces: &[Vec<u8>]| program(path, pieces, &mut Seen::default()).is_err();
    let mut pieces = pieces.to_vec();
    let mut chunk = pieces.len() / 2;
    while chunk > 0 {
        let mut i = 1;
        while i < pieces.len() {
            let mut less = pieces.clone();
            less.drain(i..(i + chunk).min(pieces.len()));
            if fails(&less) {
                pieces = less;
            } else {
                i += chunk;
            }
        }
        chunk /= 2;
    }
    pieces
}
