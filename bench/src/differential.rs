//! The proved library against the readings of the papers here, for one link (src/reference.rs) and for three (src/links.rs): the answer and every
//! byte of what is lent, on random inputs, valid and damaged, with buffers of all lengths.

use crate::generate::{self, Random};
use crate::vectors::hex;
use crate::{edges, library, linkedges, linkheaps, links, long, reference};
use std::collections::BTreeMap;

/// Bytes on each side of a lent buffer that no call may touch.
const GUARD: usize = 64;

type Call<'a> = &'a dyn Fn(&[u8], &[u8], &mut [u8]) -> u64;

/// Queries with one link or with three: the calls, of the reading here and of the library, and what else differs.
struct Form<'a> {
    /// The bytes that a report needs.
    room: usize,
    verdict: [Call<'a>; 2],
    derivation: [Call<'a>; 2],
    accepted: &'a dyn Fn(&[u8], &[u8]) -> bool,
    /// The lines of the walk, if there are not more than the budget.
    lines: &'a dyn Fn(&[u8], &[u8], u64) -> Option<u64>,
    /// A random input, damaged or not, whose walk is within the budget.
    input: &'a dyn Fn(&mut Random, bool, u64) -> Vec<u8>,
    /// Walks are exponential in the worst case; an input whose walk has more lines than this is drawn again.
    budget: u64,
}

const ONE_LINK: Form<'static> = Form {
    room: reference::REPORT_BYTES,
    verdict: [&|o, q, b| reference::encode(reference::verdict(o, q, b)), &library::verdict],
    derivation: [&|o, q, b| reference::encode(reference::derivation(o, q, b)), &library::derivation],
    accepted: &|order, query| reference::check_order(order).is_ok() && reference::check_query(query).is_ok(),
    lines: &|order, query, budget| generate::walked(order, query, budget).map(|(_, lines)| lines),
    input: &generate::input,
    budget: 20_000,
};

const THREE_LINKS: Form<'static> = Form {
    room: links::REPORT_BYTES,
    verdict: [&|o, q, b| reference::encode(links::verdict(o, q, b)), &library::links_verdict],
    derivation: [&|o, q, b| reference::encode(links::derivation(o, q, b)), &library::links_derivation],
    accepted: &links::accepted,
    lines: &links::lines,
    input: &linkedges::input,
    budget: 2_000,
};

#[derive(Default)]
struct Seen {
    satisfiable: usize,
    refuted: usize,
    refused: BTreeMap<u64, usize>,
}

impl Seen {
    fn count(&mut self, answer: u64) {
        match answer {
            0 => self.satisfiable += 1,
            1 => self.refuted += 1,
            _ => *self.refused.entry(answer >> 16).or_default() += 1,
        }
    }

    fn print(&self, name: &str) {
        println!("{name}: {} satisfiable, {} refuted", self.satisfiable, self.refuted);
        println!("  refusals, each with how often it was met: {:?}", self.refused);
    }
}

/// Calls both with buffers of this length that hold junk, and compares all.
fn same(random: &mut Random, order: &[u8], query: &[u8], length: usize, calls: [Call; 2]) -> Result<u64, String> {
    let [own, library] = calls;
    let junk = random.byte() | 1;
    let mut expected = vec![junk; length];
    let answer = own(order, query, &mut expected);
    let mut lent = vec![junk; length + 2 * GUARD];
    let (order_before, query_before) = (order.to_vec(), query.to_vec());
    let other = library(order, query, &mut lent[GUARD..GUARD + length]);
    if answer != other {
        return Err(format!("the reference answers {answer}, the library {other}"));
    }
    if order != order_before || query != query_before {
        return Err("the library changed its input".into());
    }
    if let Some(at) = (0..length).find(|&i| expected[i] != lent[GUARD + i]) {
        return Err(format!("byte {at}: the reference has {}, the library {}", expected[at], lent[GUARD + at]));
    }
    if lent[..GUARD].iter().chain(&lent[GUARD + length..]).any(|&b| b != junk) {
        return Err("the library wrote outside its buffer".into());
    }
    Ok(answer)
}

impl Form<'_> {
    /// An order list and a query, cut apart at random places now and then.
    fn draw(&self, random: &mut Random) -> (Vec<u8>, Vec<u8>) {
        loop {
            let damaged = random.percent(40);
            let mut input = if random.percent(3) {
                let length = random.below(1100);
                let junk = (0..length).map(|_| random.byte() % 20).collect::<Vec<u8>>();
                [&generate::order(random)[..], &junk].concat()
            } else {
                (self.input)(random, damaged, self.budget)
            };
            let cut = if random.percent(97) { 8 } else { random.below(17) }.min(input.len());
            let query = input.split_off(cut);
            if !(self.accepted)(&input, &query) || (self.lines)(&input, &query, self.budget).is_some() {
                return (input, query);
            }
        }
    }

    /// The two calls of both implementations.
    fn verdict_same(&self, random: &mut Random, order: &[u8], query: &[u8], length: usize) -> Result<u64, String> {
        same(random, order, query, length, self.verdict).map_err(|what| {
            format!("verdict call, report of {length}: order {}, query {}\n{what}", hex(order), hex(query))
        })
    }

    fn derivation_same(&self, random: &mut Random, order: &[u8], query: &[u8], length: usize) -> Result<u64, String> {
        same(random, order, query, length, self.derivation).map_err(|what| {
            format!("derivation call, buffer of {length}: order {}, query {}\n{what}", hex(order), hex(query))
        })
    }

    /// The bytes that the derivation needs; those of no line where there is none, or a long one.
    fn need(&self, order: &[u8], query: &[u8]) -> usize {
        2 + 4 * (self.lines)(order, query, self.budget).unwrap_or(0) as usize
    }

    /// Each input with buffers around what it needs: how many calls.
    fn stored(&self, random: &mut Random, inputs: &[Vec<u8>]) -> Result<usize, String> {
        for input in inputs {
            let (order, query) = input.split_at(input.len().min(8));
            for length in [0, self.room - 1, self.room, self.room + 1, self.room + 27] {
                self.verdict_same(random, order, query, length)?;
            }
            let need = self.need(order, query);
            for length in [0, 1, 2, need - 1, need, need + 1, need + 58] {
                self.derivation_same(random, order, query, length)?;
            }
        }
        Ok(12 * inputs.len())
    }

    /// Long derivations with buffers around the limit: one that could hold more than 16,000 lines does not lift it.
    fn long(&self, random: &mut Random, inputs: &[Vec<u8>]) -> Result<usize, String> {
        for input in inputs {
            let (order, query) = input.split_at(8);
            self.verdict_same(random, order, query, self.room)?;
            for length in [63_997, 63_998, 64_001, 64_002, 64_003, 64_006, 64_010, 70_000, 300_000] {
                self.derivation_same(random, order, query, length)?;
            }
        }
        Ok(10 * inputs.len())
    }

    fn random(&self, random: &mut Random, count: usize) -> Result<(), String> {
        let mut verdicts = Seen::default();
        let mut derivations = Seen::default();
        for _ in 0..count {
            let (order, query) = self.draw(random);
            let length = match random.below(10) {
                0 => random.below(self.room),
                1 => self.room - 1,
                2 => random.between(self.room + 1, 400),
                _ => self.room,
            };
            verdicts.count(self.verdict_same(random, &order, &query, length)?);

            // Around what the derivation needs, if there is one.
            let need = self.need(&order, &query);
            let length = match random.below(20) {
                0 => random.below(3),
                1 => random.below(need + 1),
                2 | 3 => need - 1,
                4 | 5 => need + random.below(8),
                6 => need + random.below(500),
                7 => reference::DERIVATION_BYTES,
                8 => reference::DERIVATION_BYTES + random.below(20_000),
                _ => need,
            };
            derivations.count(self.derivation_same(random, &order, &query, length)?);
        }
        println!("{count} random inputs, both calls: every answer and every byte agrees");
        verdicts.print("verdict");
        derivations.print("derivation");
        Ok(())
    }

    fn all(&self, count: usize, seed: u64, edges: &[Vec<u8>], long: &[Vec<u8>]) -> Result<(), String> {
        let mut random = Random::new(seed);
        let calls = self.stored(&mut random, edges)? + self.long(&mut random, long)?;
        println!("{calls} calls on the edges and the long derivations: every answer and every byte agrees");
        self.random(&mut random, count)
    }
}

fn agreed(result: Result<(), String>) -> bool {
    result.map_err(|what| println!("{what}")).is_ok()
}

pub fn run(count: usize, seed: u64) -> bool {
    agreed(ONE_LINK.all(count, seed, &edges::inputs(), &long::inputs()))
}

pub fn three_links(count: usize, seed: u64) -> bool {
    let mut inputs = linkedges::inputs();
    let long = inputs.split_off(inputs.len() - linkedges::long().len());
    agreed(THREE_LINKS.all(count, seed, &inputs, &long))
}

/// The calls for three links on these inputs, and on the accepted ones of one link, rewritten with link 1 by the library.
pub fn with_links(inputs: &[Vec<u8>], old: &[Vec<u8>]) -> bool {
    agreed(linked(inputs, old))
}

fn linked(inputs: &[Vec<u8>], old: &[Vec<u8>]) -> Result<(), String> {
    let mut random = Random::new(11);
    let mut rewritten = Vec::new();
    for input in old {
        let (order, query) = input.split_at(input.len().min(8));
        if !(ONE_LINK.accepted)(order, query) {
            continue;
        }
        let own = linkheaps::linked(query, || 1);
        let rewrite: Call = &|_, _, lent| {
            lent.fill(0);
            if lent.len() < own.len() {
                return 27 * 65_536;
            }
            lent[..own.len()].copy_from_slice(&own);
            own.len() as u64
        };
        let library: Call = &|_, query, lent| library::links_rewrite(query, lent);
        for length in [0, own.len() - 1, own.len(), 637] {
            same(&mut random, order, query, length, [rewrite, library])
                .map_err(|what| format!("rewriting, {length} bytes lent: {}\n{what}", hex(query)))?;
        }
        rewritten.push([order, &own].concat());
    }
    let calls = THREE_LINKS.stored(&mut random, inputs)? + THREE_LINKS.stored(&mut random, &rewritten)?;
    println!(
        "library: {calls} calls on {} inputs with three links and on {} queries rewritten with link 1: every answer and every byte agrees",
        inputs.len(),
        rewritten.len()
    );
    Ok(())
}
