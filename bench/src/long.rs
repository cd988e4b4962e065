//! Looks for refuted queries whose derivation has a given number of lines.
//!
//! From a random refuted query, one small change after the other (a literal more or less, a sign, a term,
//! two rules of the order) is kept if it does not lead away from the wanted number.

use crate::generate::{self, Draft, Random, Shape};
use crate::reference::{self, End, Scribe};
use crate::vectors::hex;

fn begin(random: &mut Random) -> ([u8; 8], Draft) {
    let shape = Shape {
        terms: random.between(8, 14),
        links: random.between(10, 70),
        nil: 0,
        equalities: random.between(1, 8),
        reachability: random.between(6, 24),
        data: 0,
        plain_equal: random.between(0, 30),
        plain_reach: random.between(50, 95),
        plain_other: 50,
    };
    (generate::order(random), generate::draft(random, &shape))
}

fn change(random: &mut Random, order: &mut [u8; 8], draft: &mut Draft) {
    let n = draft.terms.len();
    let term = |random: &mut Random| random.between(1, n) as u8;
    let sections = [0, 1, 1, 1][random.below(4)];
    let entries = if sections == 0 { &mut draft.equalities } else { &mut draft.reachability };
    match random.below(10) {
        0 => order.swap(random.below(8), random.below(8)),
        1 | 2 if n < 16 => draft.terms.push(if random.percent(30) { term(random) } else { 0 }),
        3 | 4 | 5 if entries.len() < 60 => {
            let entry = [u8::from(random.percent(60)), term(random), term(random)];
            let at = random.below(entries.len() + 1);
            entries.insert(at, entry);
        }
        6 if !entries.is_empty() => {
            entries.remove(random.below(entries.len()));
        }
        7 if !entries.is_empty() => {
            let at = random.below(entries.len());
            entries[at][0] ^= 1;
        }
        8 if !entries.is_empty() => {
            let at = random.below(entries.len());
            entries[at][random.between(1, 2)] = term(random);
        }
        9 if n > 0 => {
            let at = random.below(n);
            draft.terms[at] = if random.percent(50) { 0 } else { random.below(at + 1) as u8 };
        }
        _ => {}
    }
}

fn refuted_lines(order: &[u8; 8], draft: &Draft, budget: u64) -> Option<u64> {
    match generate::walked(order, &draft.bytes(), budget)? {
        (End::Refuted, lines) => Some(lines),
        _ => None,
    }
}

/// How many lines of each kind, 1 to 10.
fn kinds(order: &[u8; 8], draft: &Draft) -> [usize; 10] {
    let bytes = draft.bytes();
    let query = reference::check_query(&bytes).expect("drafts are accepted");
    let mut scribe = Scribe::new(u64::MAX);
    reference::walk(order, &query, &mut scribe);
    let mut kinds = [0; 10];
    for line in scribe.lines {
        kinds[usize::from(line[0]) - 1] += 1;
    }
    kinds
}

/// Prints inputs whose derivation has `low` to `high` lines, of at least `variety` kinds.
pub fn search(low: u64, high: u64, variety: usize, found: usize, seed: u64) {
    let mut random = Random::new(seed);
    let away = |lines: u64| if lines < low { low - lines } else { lines.saturating_sub(high) };
    let budget = 2 * high;
    let mut left = found;
    while left > 0 {
        let (mut order, mut draft) = begin(&mut random);
        let Some(mut best) = refuted_lines(&order, &draft, budget) else {
            continue;
        };
        if best < 100 {
            continue;
        }
        let mut idle = 0;
        while idle < 800 && away(best) > 0 {
            let (mut next_order, mut next) = (order, draft.clone());
            for _ in 0..=random.below(3) {
                change(&mut random, &mut next_order, &mut next);
            }
            idle += 1;
            if let Some(count) = refuted_lines(&next_order, &next, budget) {
                if away(count) <= away(best) {
                    if count != best {
                        idle = 0;
                    }
                    (order, draft, best) = (next_order, next, count);
                }
            }
        }
        let kinds = kinds(&order, &draft);
        if away(best) == 0 && kinds.iter().filter(|&&k| k > 0).count() >= variety {
            println!("# {best} lines, of kinds 1 to 10 (in the first 16,000): {kinds:?}");
            println!("{}", hex(&[&order[..], &draft.bytes()].concat()));
            left -= 1;
        }
    }
}

/// What `search` found, kept in long.txt beside Cargo.toml: hex, one input a line.
pub fn inputs() -> Vec<Vec<u8>> {
    include_str!("../long.txt")
        .lines()
        .filter(|line| !line.starts_with('#') && !line.trim().is_empty())
        .map(|line| line.split_whitespace().map(|b| u8::from_str_radix(b, 16).expect("hex bytes")).collect())
        .collect()
}
