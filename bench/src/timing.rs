//! Time per query on the workloads: verdict calls in memory, from the query's bytes to the report's bytes.

#[cfg(feature = "library")]
use crate::{linkheaps, links};
use crate::{reference, vectors};
use std::hint::black_box;
use std::path::Path;
use std::time::Instant;

pub const WORKLOADS: [&str; 2] = ["workload-programs", "workload-sixteen"];

pub type Verdict<'a> = &'a dyn Fn(&[u8], &[u8], &mut [u8]) -> u64;

const ROUNDS: usize = 400;

/// Microseconds per query, best of `rounds` over the whole workload.
pub fn best(inputs: &[Vec<u8>], rounds: usize, verdict: Verdict) -> f64 {
    best_in(&mut [0; reference::REPORT_BYTES], inputs, rounds, verdict)
}

fn best_in(mut report: &mut [u8], inputs: &[Vec<u8>], rounds: usize, verdict: Verdict) -> f64 {
    let mut best = f64::MAX;
    for _ in 0..rounds {
        let begin = Instant::now();
        for input in inputs {
            let (order, query) = input.split_at(8);
            black_box(verdict(black_box(order), black_box(query), report));
            black_box(&mut report);
        }
        best = best.min(begin.elapsed().as_secs_f64());
    }
    best * 1e6 / inputs.len() as f64
}

/// The rule steps of all walks, and how many queries are satisfiable.
pub fn counts(name: &str, inputs: &[Vec<u8>]) -> Result<(u64, usize), String> {
    let mut steps = 0;
    let mut satisfiable = 0;
    for input in inputs {
        let (order, query) = input.split_at(8);
        let order = reference::check_order(order).map_err(|r| format!("{name}: {r:?}"))?;
        let query = reference::check_query(query).map_err(|r| format!("{name}: {r:?}"))?;
        let mut scribe = reference::Scribe::new(u64::MAX);
        let (end, _) = reference::walk(&order, &query, &mut scribe);
        satisfiable += usize::from(end == reference::End::Satisfiable);
        steps += scribe.steps;
    }
    Ok((steps, satisfiable))
}

pub fn run(directory: &Path, others: &[(&str, Verdict)]) -> Result<bool, String> {
    for name in WORKLOADS {
        let inputs = vectors::read_bin(&directory.join(format!("{name}.bin")))?;
        let (steps, satisfiable) = counts(name, &inputs)?;
        println!("{name}: {} queries, {satisfiable} satisfiable, {steps} rule steps", inputs.len());
        let own: Verdict = &|order, query, report| reference::encode(reference::verdict(order, query, report));
        let mut base = 0.0;
        for (who, verdict) in [("reference", own)].iter().chain(others) {
            let time = best(&inputs, ROUNDS, verdict);
            let step = time * inputs.len() as f64 / steps as f64;
            print!("  {who:<10} {time:8.2} us a query, {step:6.3} us a rule step");
            if base == 0.0 {
                base = time;
                println!();
            } else {
                println!(", {:.2} times the reference", time / base);
            }
        }
    }
    Ok(true)
}

/// "at most 3 times the old call": what the call for three links may take on the workloads, rewritten with link 1 (02, R-11).
#[cfg(feature = "library")]
const LINKS_BAR: f64 = 3.0;

/// The workloads rewritten with link 1: the call for three links must have the verdicts of the call for one link, and is timed beside it.
#[cfg(feature = "library")]
pub fn with_links(directory: &Path, one: Verdict, three: Verdict) -> Result<bool, String> {
    let mut met = true;
    for name in WORKLOADS {
        let inputs = vectors::read_bin(&directory.join(format!("{name}.bin")))?;
        let rewritten: Vec<Vec<u8>> = inputs
            .iter()
            .map(|input| {
                let (order, query) = input.split_at(8);
                [order, &linkheaps::linked(query, || 1)].concat()
            })
            .collect();
        for (input, linked) in inputs.iter().zip(&rewritten) {
            let old = one(&input[..8], &input[8..], &mut [0; reference::REPORT_BYTES]);
            let new = three(&linked[..8], &linked[8..], &mut [0; links::REPORT_BYTES]);
            if old != new || old > 1 {
                println!("{name}: {} answers {old}, with link 1 {new}", vectors::hex(input));
                met = false;
            }
        }
        // In turn, so that both meet the same machine.
        let (mut old, mut new) = (f64::MAX, f64::MAX);
        for _ in 0..20 {
            old = old.min(best(&inputs, ROUNDS / 20, one));
            new = new.min(best_in(&mut [0; links::REPORT_BYTES], &rewritten, ROUNDS / 20, three));
        }
        let within = new / old <= LINKS_BAR;
        println!(
            "{name} with link 1: {new:.2} us a query by the call for three links, {old:.2} by that for one: {:.2} times, {} {LINKS_BAR}",
            new / old,
            if within { "at most" } else { "MORE THAN" }
        );
        met &= within;
    }
    Ok(met)
}
