//! Queries whose walk under their own order list is very long: the library's calls on workload-luck, and a search for queries that are
//! bad for what is built.

use crate::generate::{self, Draft, Random};
use crate::library;
use crate::reference;
use crate::timing;
use crate::vectors;
use crate::{linkheaps, links};
use std::hint::black_box;
use std::path::Path;
use std::time::Instant;

#[repr(C)]
struct Timespec {
    seconds: i64,
    nanoseconds: i64,
}

extern "C" {
    fn clock_gettime(clock: i32, time: *mut Timespec) -> i32;
}

/// Seconds that this thread has been at work. Other work on the machine does not count, so that no query looks bad by its fault.
fn worked() -> f64 {
    const THREAD_CPUTIME: i32 = 3;
    let mut time = Timespec { seconds: 0, nanoseconds: 0 };
    // Sound: the struct is the one of x86-64 Linux, and lent to this call alone.
    unsafe { clock_gettime(THREAD_CPUTIME, &mut time) };
    time.seconds as f64 + 1e-9 * time.nanoseconds as f64
}

/// Seconds that a call takes, the best of a few.
fn seconds(rounds: usize, call: &mut dyn FnMut() -> u64) -> f64 {
    let mut best = f64::MAX;
    for _ in 0..rounds {
        let begin = worked();
        black_box(call());
        best = best.min(worked() - begin);
    }
    best
}

/// What heapverdict prints of the verdict call alone.
fn printed(answer: u64, report: &[u8]) -> String {
    if answer == 1 {
        return "unsat\n".into();
    }
    if answer != 0 {
        return format!("refused {} at {}\n", answer >> 16, answer & 0xffff);
    }
    let m = usize::from(report[0]);
    let n = usize::from(report[m + 1]);
    format!("sat\n{}\n", vectors::hex(&report[..2 * m + n + 5]))
}

/// What the verdict call may take: on workload-luck, in means over workload-sixteen, the mean and the worst input; and, in seconds, what `climb`
/// found.
const MEAN_BAR: f64 = 10.0;
const WORST_BAR: f64 = 200.0;
const FOUND_BAR: f64 = 2.0;

/// Every verdict and report of workload-luck, and the time of both calls on each input. False where one differs or a bar is passed.
pub fn run(directory: &Path) -> Result<bool, String> {
    let sixteen = vectors::read_bin(&directory.join("workload-sixteen.bin"))?;
    let inputs = vectors::read_bin(&directory.join("workload-luck.bin"))?;
    let outputs = vectors::read_txt(&directory.join("workload-luck.txt"))?;
    let unit = timing::best(&sixteen, 50, &library::verdict);
    let mut report = [0u8; reference::REPORT_BYTES];
    let mut buffer = vec![0u8; reference::DERIVATION_BYTES];
    let mut agree = 0;
    let (mut sum, mut worst, mut at) = (0.0, 0.0f64, 0);
    let (mut lines_sum, mut lines_worst, mut lines_at) = (0.0, 0.0f64, 0);
    for (i, (input, expected)) in inputs.iter().zip(&outputs).enumerate() {
        let (order, query) = input.split_at(8);
        let answer = library::verdict(order, query, &mut report);
        if &printed(answer, &report) == expected {
            agree += 1;
        } else {
            println!("input {i}: {}\nexpected {expected}printed {}", vectors::hex(input), printed(answer, &report));
        }
        let time = 1e6 * seconds(9, &mut || library::verdict(order, query, &mut report));
        sum += time;
        if time > worst {
            (worst, at) = (time, i);
        }
        let lines = 1e6 * seconds(3, &mut || library::derivation(order, query, &mut buffer));
        lines_sum += lines;
        if lines > lines_worst {
            (lines_worst, lines_at) = (lines, i);
        }
    }
    let count = inputs.len() as f64;
    println!("workload-luck: {agree} of {} verdicts and reports as stored", inputs.len());
    println!("  workload-sixteen {unit:.2} us a query");
    println!(
        "  verdict    mean {:.2} us, {:.1} times that; worst {worst:.0} us (input {at}), {:.0} times",
        sum / count,
        sum / count / unit,
        worst / unit
    );
    println!("  derivation mean {:.0} us; worst {lines_worst:.0} us (input {lines_at})", lines_sum / count);
    let mut met = sum / count <= MEAN_BAR * unit && worst <= WORST_BAR * unit;
    for input in worst_found() {
        let (order, query) = input.split_at(8);
        let time = seconds(3, &mut || library::verdict(order, query, &mut report));
        let answer = library::verdict(order, query, &mut report);
        println!("  found by climb: {:.1} ms, {}", 1e3 * time, if answer == 0 { "satisfiable" } else { "refuted" });
        met &= time <= FOUND_BAR;
    }
    let same = with_links(&inputs)?;
    println!(
        "  at most {MEAN_BAR} and {WORST_BAR} times workload-sixteen, and {FOUND_BAR} s: {}",
        if met { "met" } else { "missed" }
    );
    Ok(met && same && agree == inputs.len())
}

/// The same inputs and those that `climb` found, rewritten with link 1: the verdicts of the call for three links, and its time. True if no verdict
/// differs.
fn with_links(inputs: &[Vec<u8>]) -> Result<bool, String> {
    let mut report = [0u8; links::REPORT_BYTES];
    let mut timed = |input: &[u8], rounds: usize| {
        let (order, query) = input.split_at(8);
        let linked = linkheaps::linked(query, || 1);
        let same = library::links_verdict(order, &linked, &mut report) == library::verdict(order, query, &mut report);
        if !same {
            println!("with link 1 another verdict: {}", vectors::hex(input));
        }
        (same, seconds(rounds, &mut || library::links_verdict(order, &linked, &mut report)))
    };
    let (mut all, mut sum, mut worst, mut at) = (true, 0.0, 0.0f64, 0);
    for (i, input) in inputs.iter().enumerate() {
        let (same, time) = timed(input, 9);
        all &= same;
        sum += time;
        if time > worst {
            (worst, at) = (time, i);
        }
    }
    println!(
        "  with link 1, by the call for three links: mean {:.2} us; worst {:.0} us (input {at})",
        1e6 * sum / inputs.len() as f64,
        1e6 * worst
    );
    let found: Vec<(bool, f64)> = worst_found().iter().map(|input| timed(input, 1)).collect();
    let times: Vec<String> = found.iter().map(|&(_, time)| format!("{:.1}", 1e3 * time)).collect();
    println!("  found by climb, with link 1: {} ms", times.join(", "));
    Ok(all && found.iter().all(|&(same, _)| same))
}

/// The worst inputs that `climb` found, as it prints them.
const WORST: &str = include_str!("../worst.txt");

fn worst_found() -> Vec<Vec<u8>> {
    let byte = |word: &str| u8::from_str_radix(word, 16).expect("a byte in hex");
    WORST
        .lines()
        .filter(|line| !line.starts_with('#'))
        .map(|line| line.split_whitespace().map(byte).collect())
        .collect()
}

/// A query as a draft again, so that it can be changed.
fn redraft(query: &[u8]) -> Draft {
    let mut draft = Draft::default();
    let mut at = 0;
    let mut next = |bytes: usize| {
        let count = usize::from(query[at]);
        let part = &query[at + 1..at + 1 + count * bytes];
        at += 1 + count * bytes;
        part.to_vec()
    };
    let triples = |part: Vec<u8>| part.chunks_exact(3).map(|c| [c[0], c[1], c[2]]).collect::<Vec<_>>();
    draft.terms = next(1);
    draft.equalities = triples(next(3));
    draft.reachability = triples(next(3));
    draft.data = triples(next(3));
    draft
}

/// One change of a query or its order list.
fn change(random: &mut Random, order: &mut [u8; 8], draft: &mut Draft) {
    let n = draft.terms.len();
    let literal = |random: &mut Random, plain: usize| {
        [u8::from(random.percent(plain)), random.between(1, n) as u8, random.between(1, n) as u8]
    };
    match random.below(10) {
        0 => order.swap(random.below(8), random.below(8)),
        1 => {
            let i = random.below(n);
            draft.terms[i] = if random.percent(70) { random.below(i + 1) as u8 } else { 0 };
        }
        2 if draft.equalities.len() < 60 => draft.equalities.push(literal(random, 10)),
        3 if !draft.equalities.is_empty() => {
            let i = random.below(draft.equalities.len());
            draft.equalities.swap_remove(i);
        }
        4 | 5 if draft.reachability.len() < 60 => draft.reachability.push(literal(random, 60)),
        6 if !draft.reachability.is_empty() => {
            let i = random.below(draft.reachability.len());
            draft.reachability.swap_remove(i);
        }
        7 | 8 if !draft.reachability.is_empty() => {
            let i = random.below(draft.reachability.len());
            draft.reachability[i] = literal(random, 60);
        }
        9 if !draft.data.is_empty() => {
            let i = random.below(draft.data.len());
            draft.data.swap_remove(i);
        }
        _ => {
            if !draft.equalities.is_empty() {
                let i = random.below(draft.equalities.len());
                draft.equalities[i] = literal(random, 10);
            }
        }
    }
}

/// Hill climbing over queries and order lists by the time of the verdict call, half of it from random queries, a quarter from those of
/// workload-luck and a quarter from the worst found before: prints each new worst, with its bytes.
pub fn climb(directory: &Path, limit: u64, seed: u64) -> Result<bool, String> {
    let luck = vectors::read_bin(&directory.join("workload-luck.bin"))?;
    let found = worst_found();
    let mut random = Random::new(seed);
    let mut report = [0u8; reference::REPORT_BYTES];
    let mut cost = |order: &[u8], query: &[u8]| {
        let first = seconds(1, &mut || library::verdict(order, query, &mut report));
        if first < 0.02 {
            first.min(seconds(2, &mut || library::verdict(order, query, &mut report)))
        } else {
            first
        }
    };
    let begin = Instant::now();
    let (mut worst, mut tried, mut climbs) = (0.0, 0u64, 0u64);
    while begin.elapsed().as_secs() < limit {
        climbs += 1;
        let (mut order, mut draft) = if random.percent(50) {
            let known = if random.percent(50) && !found.is_empty() { &found } else { &luck };
            let input = &known[random.below(known.len())];
            let (order, query) = input.split_at(8);
            (order.try_into().expect("eight bytes"), redraft(query))
        } else {
            let shape = generate::Shape {
                terms: random.between(12, 16),
                links: [20, 40, 60][random.below(3)],
                nil: 0,
                equalities: random.below(12),
                reachability: random.between(8, 32),
                data: 0,
                plain_equal: 10,
                plain_reach: [50, 65, 80][random.below(3)],
                plain_other: 50,
            };
            (generate::order(&mut random), generate::draft(&mut random, &shape))
        };
        if draft.terms.is_empty() {
            continue;
        }
        let mut best = cost(&order, &draft.bytes());
        let mut vain = 0;
        while vain < 400 && begin.elapsed().as_secs() < limit {
            let (mut next_order, mut next) = (order, draft.clone());
            for _ in 0..=random.below(3) {
                change(&mut random, &mut next_order, &mut next);
            }
            let time = cost(&next_order, &next.bytes());
            tried += 1;
            vain += 1;
            if time >= 0.98 * best {
                if time > 1.05 * best {
                    vain = 0;
                }
                best = time;
                (order, draft) = (next_order, next);
            }
            if best > worst {
                worst = best;
                let mut bytes = order.to_vec();
                bytes.extend(draft.bytes());
                println!("{:.0} s: {:.3} ms: {}", begin.elapsed().as_secs_f64(), worst * 1e3, vectors::hex(&bytes));
            }
        }
    }
    println!("{climbs} climbs, {tried} queries, worst {:.3} ms", worst * 1e3);
    Ok(true)
}
