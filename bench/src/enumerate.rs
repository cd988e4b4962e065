//! Every heap of few nodes, one after the other. Shares no code with the reference: it reads the query's
//! bytes and the report's bytes itself, and knows nothing of facts, rules or walks.
//!
//! A query is satisfiable exactly if some heap with at most as many nodes as it has terms (and at least
//! one) meets it. Links and the nodes of the variables are enumerated; data fields are free, so they are
//! in the way only where one literal says yes and another no.

/// An accepted query, taken apart. Terms and fields count from 1, as in the bytes.
pub struct Literals {
    /// 0 for a variable, j for f of term j, 255 for nil.
    pub terms: Vec<usize>,
    pub equal: Vec<(bool, usize, usize)>,
    pub reach: Vec<(bool, usize, usize)>,
    pub data: Vec<(bool, usize, usize)>,
}

pub fn read_query(bytes: &[u8]) -> Literals {
    let mut stream = bytes.iter().map(|&b| b as usize);
    let mut next = || stream.next().expect("an accepted query");
    let count = next();
    let terms = (0..count).map(|_| next()).collect();
    let mut triples = || -> Vec<(bool, usize, usize)> {
        let count = next();
        (0..count).map(|_| (next() == 1, next(), next())).collect()
    };
    let (equal, reach, data) = (triples(), triples(), triples());
    assert!(next() == 0 && stream.next().is_none(), "an accepted query");
    Literals { terms, equal, reach, data }
}

/// Whether some heap meets every literal.
pub fn satisfiable(bytes: &[u8]) -> bool {
    let query = read_query(bytes);
    let most = query.terms.len().max(1);
    (1..=most).any(|nodes| some_heap(&query, nodes))
}

/// Counts through all numbers of `digits.len()` digits below `base`; false after the last.
fn advance(digits: &mut [usize], base: usize) -> bool {
    for digit in digits.iter_mut() {
        *digit += 1;
        if *digit < base {
            return true;
        }
        *digit = 0;
    }
    false
}

/// The nodes of the variables are chosen; the last choice is nil's, if some term names it.
fn some_heap(query: &Literals, nodes: usize) -> bool {
    let variables = query.terms.iter().filter(|&&t| t == 0).count() + usize::from(query.terms.contains(&255));
    let mut link = vec![0; nodes];
    loop {
        let paths = all_paths(&link);
        let mut choice = vec![0; variables];
        loop {
            if placed(query, &link, &paths, &choice) {
                return true;
            }
            if !advance(&mut choice, nodes) {
                break;
            }
        }
        if !advance(&mut link, nodes) {
            return false;
        }
    }
}

/// For each node, which nodes it reaches in zero or more links.
fn all_paths(link: &[usize]) -> Vec<Vec<bool>> {
    (0..link.len())
        .map(|from| {
            let mut seen = vec![false; link.len()];
            let mut at = from;
            while !seen[at] {
                seen[at] = true;
                at = link[at];
            }
            seen
        })
        .collect()
}

fn placed(query: &Literals, link: &[usize], paths: &[Vec<bool>], choice: &[usize]) -> bool {
    let mut node = [usize::MAX; 17];
    let mut variables = choice.iter();
    for (i, &term) in query.terms.iter().enumerate() {
        node[i + 1] = match term {
            0 => *variables.next().unwrap(),
            255 => *choice.last().unwrap(),
            _ => link[node[term]],
        };
        if term == 255 && link[node[i + 1]] != node[i + 1] {
            return false;
        }
    }
    query.equal.iter().all(|&(sign, a, b)| (node[a] == node[b]) == sign)
        && query.reach.iter().all(|&(sign, a, b)| paths[node[a]][node[b]] == sign)
        && query.data.iter().all(|&(sign, field, a)| {
            // No literal says the opposite of the same field of the same node.
            query.data.iter().all(|&(other, same, b)| other == sign || same != field || node[a] != node[b])
        })
}

/// Reads a report and says what is wrong with it: its form, a term that is not where its link leads, or a
/// literal that the heap does not meet.
pub fn check_report(bytes: &[u8], report: &[u8]) -> Result<(), String> {
    let query = read_query(bytes);
    let mut at = 0;
    let mut next = || -> Result<usize, String> {
        at += 1;
        report.get(at - 1).map(|&b| b as usize).ok_or("the report ends too early".to_string())
    };
    let m = next()?;
    if !(1..=16).contains(&m) {
        return Err(format!("{m} nodes"));
    }
    let link: Vec<usize> = (0..m).map(|_| next()).collect::<Result<_, _>>()?;
    let n = next()?;
    if n != query.terms.len() {
        return Err(format!("{n} terms"));
    }
    let node: Vec<usize> = (0..n).map(|_| next()).collect::<Result<_, _>>()?;
    if next()? != m {
        return Err("the third count is not the first".into());
    }
    let data: Vec<usize> = (0..m).map(|_| next()).collect::<Result<_, _>>()?;
    if next()? != 1 {
        return Err("the fourth count is not 1".into());
    }
    if next()? != 0 {
        return Err("the byte of booleans is not 0".into());
    }
    if at != 2 * m + n + 5 {
        return Err(format!("{at} bytes"));
    }
    if report[at..].iter().any(|&b| b != 0) {
        return Err("a byte past the report is not zero".into());
    }
    if link.iter().chain(&node).any(|&x| !(1..=m).contains(&x)) {
        return Err("a successor or node is not 1 to m".into());
    }
    let node_of = |term: usize| node[term - 1];
    let next_of = |x: usize| link[x - 1];
    for (i, &term) in query.terms.iter().enumerate() {
        if term > 0 && term < 255 && node_of(i + 1) != next_of(node_of(term)) {
            return Err(format!("term {} is not where the link of term {term} leads", i + 1));
        }
        if term == 255 && next_of(node_of(i + 1)) != node_of(i + 1) {
            return Err(format!("the link of nil, term {}, leads elsewhere", i + 1));
        }
    }
    let mut nil_nodes = (0..n).filter(|&i| query.terms[i] == 255).map(|i| node[i]);
    if let Some(nil) = nil_nodes.next() {
        if nil_nodes.any(|x| x != nil) {
            return Err("nil is more than one node".into());
        }
    }
    for &(sign, a, b) in &query.equal {
        if (node_of(a) == node_of(b)) != sign {
            return Err(format!("equality of {a} and {b}"));
        }
    }
    for &(sign, a, b) in &query.reach {
        let mut x = node_of(a);
        let mut met = x == node_of(b);
        for _ in 0..m {
            x = next_of(x);
            met |= x == node_of(b);
        }
        if met != sign {
            return Err(format!("{a} reaches {b}"));
        }
    }
    for &(sign, field, a) in &query.data {
        if (data[node_of(a) - 1] >> (field - 1) & 1 == 1) != sign {
            return Err(format!("field {field} of {a}"));
        }
    }
    Ok(())
}
