//! The reading of R-11 in src/links.rs against its vectors, against the reference, and against every small heap with three links.
//! The heaps and the check of a report share no code with that reading: they take the bytes of queries and reports themselves.

use crate::generate::{self, Random};
use crate::reference::{self, Verdict};
use crate::vectors::{self, hex};
use crate::{enumerate, links};
use std::path::Path;

/// Walks of random queries with more lines than this are left out.
const BUDGET: u64 = 2_000;

/// A query of the old layout in the layout for three links, each link byte drawn. With link 1 alone it is R-11's rewriting.
pub fn linked(query: &[u8], mut link: impl FnMut() -> u8) -> Vec<u8> {
    let old = enumerate::read_query(query);
    let mut bytes = vec![old.terms.len() as u8];
    for &term in &old.terms {
        let byte = if [0, 255].contains(&term) { 0 } else { link() };
        bytes.extend([byte, term as u8]);
    }
    bytes.push(old.equal.len() as u8);
    bytes.extend(old.equal.iter().flat_map(|&(sign, a, b)| [u8::from(sign), a as u8, b as u8]));
    bytes.push(old.reach.len() as u8);
    bytes.extend(old.reach.iter().flat_map(|&(sign, a, b)| [u8::from(sign), link(), a as u8, b as u8]));
    bytes.push(old.data.len() as u8);
    bytes.extend(old.data.iter().flat_map(|&(sign, field, a)| [u8::from(sign), field as u8, a as u8]));
    bytes.push(0);
    bytes
}

// ------------------------------------------------------------------------------------------------
// Every small heap

/// An accepted query. Terms, fields and links count from 1, as in the bytes.
struct Literals {
    /// Link and term.
    terms: Vec<(usize, usize)>,
    equal: Vec<(bool, usize, usize)>,
    /// Sign, link, from and to.
    reach: Vec<(bool, usize, usize, usize)>,
    data: Vec<(bool, usize, usize)>,
}

impl Literals {
    fn read(bytes: &[u8]) -> Literals {
        let mut stream = bytes.iter().map(|&b| b as usize);
        let mut next = || stream.next().expect("an accepted query");
        let terms = (0..next()).map(|_| (next(), next())).collect();
        let equal = (0..next()).map(|_| (next() == 1, next(), next())).collect();
        let reach = (0..next()).map(|_| (next() == 1, next(), next(), next())).collect();
        let data = (0..next()).map(|_| (next() == 1, next(), next())).collect();
        assert!(next() == 0 && stream.next().is_none(), "an accepted query");
        Literals { terms, equal, reach, data }
    }

    /// What the nodes of the terms alone decide: one nil, the equalities, and no field said yes and no.
    fn placed(&self, node: &[usize]) -> Result<(), String> {
        let nil_terms: Vec<usize> = (1..=self.terms.len()).filter(|&t| self.terms[t - 1].1 == 255).collect();
        if nil_terms.iter().any(|&t| node[t] != node[nil_terms[0]]) {
            return Err("nil is more than one node".into());
        }
        if let Some((_, a, b)) = self.equal.iter().find(|&&(sign, a, b)| (node[a] == node[b]) != sign) {
            return Err(format!("equality of {a} and {b}"));
        }
        for &(sign, field, a) in &self.data {
            if self.data.iter().any(|&(other, same, b)| other != sign && same == field && node[a] == node[b]) {
                return Err(format!("field {field} of {a}"));
            }
        }
        Ok(())
    }

    /// What one link decides, given the nodes of the terms: `next` of each node.
    fn meets(&self, link: usize, next: &[usize], node: &[usize]) -> Result<(), String> {
        for (i, &(by, term)) in self.terms.iter().enumerate() {
            if by == link && next[node[term]] != node[i + 1] {
                return Err(format!("term {} is not where link {link} of term {term} leads", i + 1));
            }
            if term == 255 && next[node[i + 1]] != node[i + 1] {
                return Err(format!("link {link} of nil leads elsewhere"));
            }
        }
        for &(sign, by, from, to) in &self.reach {
            let mut at = node[from];
            let mut met = at == node[to];
            for _ in 0..next.len() {
                at = next[at];
                met |= at == node[to];
            }
            if by == link && met != sign {
                return Err(format!("{from} reaches {to} by link {link}"));
            }
        }
        Ok(())
    }
}

/// Every list of so many numbers 1 to `most`, after a 0 that stands for no term or node.
fn lists(length: usize, most: usize) -> Vec<Vec<usize>> {
    let mut all = vec![vec![0]];
    for _ in 0..length {
        all = all.iter().flat_map(|list| (1..=most).map(|x| [&list[..], &[x]].concat())).collect();
    }
    all
}

/// Whether some heap of at most max(1, n) nodes meets every literal. Once the terms have their nodes, the links have nothing to do with one
/// another: each is searched by itself.
fn satisfiable(bytes: &[u8]) -> bool {
    let query = Literals::read(bytes);
    (1..=query.terms.len().max(1)).any(|nodes| {
        let successors = lists(nodes, nodes);
        lists(query.terms.len(), nodes).iter().any(|node| {
            query.placed(node).is_ok()
                && (1..=3).all(|link| successors.iter().any(|next| query.meets(link, next, node).is_ok()))
        })
    })
}

/// What is wrong with a report: its form, or something that its heap does not meet.
fn check_report(bytes: &[u8], report: &[u8]) -> Result<(), String> {
    let query = Literals::read(bytes);
    let mut stream = report.iter().map(|&b| b as usize);
    let mut section = || -> Option<Vec<usize>> {
        let count = stream.next()?;
        (0..count).map(|_| stream.next()).collect()
    };
    let sections: Option<Vec<Vec<usize>>> = (0..4).map(|_| section()).collect();
    let Some([links, nodes, data, booleans]) = sections.as_deref() else {
        return Err("the report ends too early".into());
    };
    let m = data.len();
    if m == 0 || links.len() != 3 * m || nodes.len() != query.terms.len() || booleans[..] != [0] {
        return Err("a wrong count".into());
    }
    if links.iter().chain(nodes).any(|x| !(1..=m).contains(x)) || stream.any(|b| b != 0) {
        return Err("a successor or node is not 1 to m, or a byte past the report is not zero".into());
    }
    let from_1 = |list: &[usize]| [&[0], list].concat();
    let node = from_1(nodes);
    query.placed(&node)?;
    for (i, next) in links.chunks_exact(m).enumerate() {
        query.meets(i + 1, &from_1(next), &node)?;
    }
    for x in 1..=m {
        let byte = query.data.iter().filter(|l| l.0 && node[l.2] == x).fold(0, |byte, l| byte | 1 << (l.1 - 1));
        if data[x - 1] != byte {
            return Err(format!("the fields of node {x}"));
        }
    }
    Ok(())
}

// ------------------------------------------------------------------------------------------------
// Commands

/// The vectors of R-11 byte for byte, and the accepted queries of base.bin, rewritten with link 1, against the reference.
pub fn compare(directory: &Path) -> Result<bool, String> {
    let requests = directory.join("requests");
    let own = vectors::agree(&requests.join("R-11.bin"), &requests.join("R-11.out"), &|input| {
        Ok(links::linksverdict(input))
    })?;
    Ok(rewritten(&directory.join("base.bin"))? && own)
}

/// The verdicts of a file's accepted queries and of their rewritings with link 1.
pub fn rewritten(bin: &Path) -> Result<bool, String> {
    let mut count = [0, 0];
    for input in vectors::read_bin(bin)? {
        let (order, query) = reference::split(&input);
        let answer = reference::verdict(order, query, &mut [0; reference::REPORT_BYTES]);
        let Ok(expected) = answer else {
            continue;
        };
        let own = linked(query, || 1);
        let mut report = [0xaa; links::REPORT_BYTES];
        let answer = links::verdict(order, &own, &mut report);
        let shown = expected == Verdict::Refuted || check_report(&own, &report).is_ok();
        if answer != Ok(expected) || !shown {
            println!("{}: {expected:?}, with link 1 {answer:?}", hex(&input));
            return Ok(false);
        }
        count[usize::from(expected == Verdict::Refuted)] += 1;
    }
    println!("{}: {} satisfiable and {} refuted queries, the same with link 1", bin.display(), count[0], count[1]);
    Ok(true)
}

/// What is wrong with the verdict, or with the heap shown.
fn fault(order: &[u8], query: &[u8], expected: Verdict) -> Option<String> {
    let mut report = [0xaa; 90];
    match links::verdict(order, query, &mut report) {
        Err(refusal) => Some(format!("{refusal:?}")),
        Ok(answer) if answer != expected => Some(format!("{answer:?}, expected {expected:?}")),
        Ok(Verdict::Refuted) => report.iter().any(|&b| b != 0).then(|| "report not zero".to_string()),
        Ok(Verdict::Satisfiable) => check_report(query, &report).err(),
    }
}

pub fn random(count: usize, seed: u64) -> Result<bool, String> {
    let mut random = Random::new(seed);
    let draw = |random: &mut Random, most: usize| {
        let query = generate::query(random, most);
        // Some with two links or one, so that facts of one link meet.
        let links = random.between(1, 3);
        linked(&query, || random.between(1, links) as u8)
    };
    let mut satisfied = 0;
    for i in 0..count {
        let (order, query) = (generate::order(&mut random), draw(&mut random, 4));
        let expected = if satisfiable(&query) { Verdict::Satisfiable } else { Verdict::Refuted };
        if let Some(fault) = fault(&order, &query, expected) {
            println!("query {i}, order {}, {}: {fault}", hex(&order), hex(&query));
            return Ok(false);
        }
        satisfied += usize::from(expected == Verdict::Satisfiable);
    }
    println!(
        "{count} queries of up to 4 terms as the small heaps have it: {satisfied} satisfiable, {} refuted",
        count - satisfied
    );

    // Larger ones: two orders give one verdict, and every heap shown meets its query.
    let (mut satisfied, mut refuted) = (0, 0);
    for i in 0..count / 10 {
        let orders = [generate::order(&mut random), generate::order(&mut random)];
        let query = draw(&mut random, 16);
        if !links::accepted(&orders[0], &query) {
            return Err(format!("{}: refused", hex(&query)));
        }
        if orders.iter().any(|order| links::lines(order, &query, BUDGET).is_none()) {
            continue;
        }
        let Ok(expected) = links::verdict(&orders[0], &query, &mut [0; links::REPORT_BYTES]) else {
            println!("larger query {i}, {}: refused", hex(&query));
            return Ok(false);
        };
        if let Some(fault) = orders.iter().find_map(|order| fault(order, &query, expected)) {
            println!("larger query {i}, {}: {fault}", hex(&query));
            return Ok(false);
        }
        *if expected == Verdict::Satisfiable { &mut satisfied } else { &mut refuted } += 1;
    }
    println!("{} queries of up to 16 terms, two orders each: {satisfied} satisfiable, {refuted} refuted", count / 10);
    println!("the others have more than {BUDGET} lines under one of the orders");
    Ok(true)
}
