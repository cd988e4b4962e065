//! The reference against the enumerator of small heaps and against the slow walk.

use crate::generate::{self, Random};
use crate::reference::{self, End, Scribe, Verdict};
use crate::vectors::hex;
use crate::{edges, enumerate, long, naive};

/// Walks are exponential in the worst case; a query whose walk has more lines than this is left out.
const BUDGET: u64 = 20_000;

pub fn run(count: usize, seed: u64) -> Result<bool, String> {
    let mut random = Random::new(seed);
    let mut satisfiable = 0;
    let mut by_terms = [0usize; 5];
    for i in 0..count {
        let order = generate::order(&mut random);
        let query = generate::query(&mut random, 4);
        let mut report = [0xaau8; 60];
        let answer = reference::verdict(&order, &query, &mut report);
        let expected = enumerate::satisfiable(&query);
        let fault = match answer {
            Err(refusal) => Some(format!("{refusal:?}")),
            Ok(Verdict::Satisfiable) if !expected => Some("no heap meets it".to_string()),
            Ok(Verdict::Refuted) if expected => Some("some heap meets it".to_string()),
            Ok(Verdict::Refuted) => report.iter().any(|&b| b != 0).then(|| "report not zero".to_string()),
            Ok(Verdict::Satisfiable) => enumerate::check_report(&query, &report).err(),
        };
        if let Some(fault) = fault {
            println!("query {i}, order {}, {}: {fault}", hex(&order), hex(&query));
            return Ok(false);
        }
        satisfiable += usize::from(expected);
        by_terms[usize::from(query[0])] += 1;
    }
    println!(
        "{count} small queries agree with the enumerator: {satisfiable} satisfiable, {} refuted",
        count - satisfiable
    );
    println!("by number of terms, 0 to 4: {by_terms:?}");

    // Large queries: every heap shown meets its query, and two orders give one verdict.
    let mut satisfiable = 0;
    let mut skipped = 0;
    for i in 0..count {
        let query = generate::query(&mut random, 16);
        let orders = [generate::order(&mut random), generate::order(&mut random)];
        if orders.iter().any(|order| generate::walked(order, &query, BUDGET).is_none()) {
            skipped += 1;
            continue;
        }
        let mut answers = Vec::new();
        for order in &orders {
            let mut report = [0xaau8; 53];
            let answer = reference::verdict(order, &query, &mut report);
            if answer == Ok(Verdict::Satisfiable) {
                if let Err(fault) = enumerate::check_report(&query, &report) {
                    println!("large query {i}, order {}, {}: {fault}", hex(order), hex(&query));
                    return Ok(false);
                }
            }
            answers.push(answer);
        }
        if answers[0] != answers[1] || answers[0].is_err() {
            println!("large query {i}: {}: {answers:?}", hex(&query));
            return Ok(false);
        }
        satisfiable += usize::from(answers[0] == Ok(Verdict::Satisfiable));
    }
    println!("{count} queries of up to 16 terms, two orders each: one verdict, every heap shown meets its query");
    println!(
        "{satisfiable} satisfiable, {} refuted, {skipped} left out: more than {BUDGET} lines under one of the orders",
        count - skipped - satisfiable
    );
    Ok(true)
}

/// The reference against the slow walk on the edges and random queries.
pub fn slow(count: usize, seed: u64) -> Result<bool, String> {
    let mut random = Random::new(seed);
    let mut inputs: Vec<Vec<u8>> = edges::inputs();
    inputs.extend((0..count).map(|_| generate::input(&mut random, false, 400)));
    slow_on(&inputs, 1_000)
}

/// The same on the long derivations; takes a few minutes.
pub fn slow_long() -> Result<bool, String> {
    slow_on(&long::inputs(), 20_000)
}

/// Compares the verdict and every line (of 16,000, and the number of the rest), also those of a satisfiable
/// query. Refused inputs and walks of more than `budget` lines are left out.
fn slow_on(inputs: &[Vec<u8>], budget: u64) -> Result<bool, String> {
    let (mut compared, mut refuted, mut lines) = (0, 0, 0);
    let mut kinds = [0usize; 10];
    for input in inputs {
        let (order_bytes, query_bytes) = input.split_at(input.len().min(8));
        let (Ok(order), Ok(query)) = (reference::check_order(order_bytes), reference::check_query(query_bytes)) else {
            continue;
        };
        let mut scribe = Scribe::new(budget);
        let (end, _) = reference::walk(&order, &query, &mut scribe);
        if end == End::Stopped {
            continue;
        }
        let own: Vec<[usize; 4]> = scribe.lines.iter().map(|line| line.map(usize::from)).collect();
        let (satisfiable, other) = naive::walk(order_bytes, query_bytes);
        let same_count = other.len() as u64 == scribe.count;
        if !same_count || own != other[..own.len()] || satisfiable != (end == End::Satisfiable) {
            println!("{}: the slow walk differs", hex(input));
            return Ok(false);
        }
        compared += 1;
        refuted += usize::from(!satisfiable);
        lines += other.len();
        other.iter().for_each(|line| kinds[line[0] - 1] += 1);
    }
    println!("{compared} walks agree with the slow walk, line by line: {refuted} refuted, {lines} lines");
    println!("lines of kinds 1 to 10: {kinds:?}");
    Ok(true)
}
