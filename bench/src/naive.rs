//! The walk again, as slowly and as near to the paper's words as can be: sets of facts, every triple tried
//! in turn. Shares no code with the reference; it gives the verdict and the lines to compare with.

use std::collections::BTreeSet;

#[derive(Clone)]
struct Path {
    live: BTreeSet<usize>,
    /// The lowest term that names nil, or what it became.
    nil: Option<usize>,
    /// (x, y): f(x) = y.
    links: BTreeSet<(usize, usize)>,
    /// (x, y): x reaches y.
    reach: BTreeSet<(usize, usize)>,
    /// (place, x, y) of negated literals.
    differ: Vec<(usize, usize, usize)>,
    unreached: Vec<(usize, usize, usize)>,
    /// (place, plain, field, x).
    data: Vec<(usize, bool, usize, usize)>,
}

enum Alternative {
    Join(usize, usize),
    Add(usize, usize),
}
use Alternative::{Add, Join};

impl Path {
    /// Every pair that is joined is said by a line (02, R-1).
    fn join(&mut self, a: usize, b: usize, lines: &mut Vec<[usize; 4]>) {
        if a == b {
            return;
        }
        let (low, high) = (a.min(b), a.max(b));
        lines.push([10, low, high, 0]);
        let by = |x: usize| if x == high { low } else { x };
        self.live.remove(&high);
        self.nil = self.nil.map(by);
        self.links = self.links.iter().map(|&(x, y)| (by(x), by(y))).collect();
        self.reach = self.reach.iter().map(|&(x, y)| (by(x), by(y))).collect();
        for (_, x, y) in self.differ.iter_mut().chain(self.unreached.iter_mut()) {
            (*x, *y) = (by(*x), by(*y));
        }
        for (_, _, _, x) in self.data.iter_mut() {
            *x = by(*x);
        }
        self.join_doubled(lines);
    }

    /// The two lowest successors of the lowest term that has two, as long as there is one.
    fn join_doubled(&mut self, lines: &mut Vec<[usize; 4]>) {
        let doubled = self.live.iter().find_map(|&x| {
            let next: Vec<usize> = self.links.iter().filter(|link| link.0 == x).map(|link| link.1).collect();
            (next.len() >= 2).then(|| (next[0], next[1]))
        });
        if let Some((a, b)) = doubled {
            self.join(a, b, lines);
        }
    }

    fn start(bytes: &[u8], lines: &mut Vec<[usize; 4]>) -> Path {
        let sections = cut(bytes);
        let n = sections[0].len();
        let mut path = Path {
            live: (1..=n).collect(),
            nil: None,
            links: BTreeSet::new(),
            reach: BTreeSet::new(),
            differ: Vec::new(),
            unreached: Vec::new(),
            data: Vec::new(),
        };
        // A literal that is put in before the joins is renamed by them, as every fact is; the plain
        // equalities wait in `differ` under place 0 until they are joined.
        for (i, entry) in sections[0].iter().enumerate() {
            if entry[0] > 0 && entry[0] < 255 {
                path.links.insert((entry[0], i + 1));
            }
        }
        // So do the pairs of nil terms, before them.
        let nil_terms: Vec<usize> = (1..=n).filter(|&t| sections[0][t - 1][0] == 255).collect();
        path.nil = nil_terms.first().copied();
        path.differ.extend(nil_terms.iter().skip(1).map(|&t| (0, nil_terms[0], t)));
        let mut waiting = 0;
        for (i, entry) in sections[1].iter().enumerate() {
            let place = if entry[0] == 1 { 0 } else { i + 1 };
            waiting += usize::from(place == 0);
            path.differ.push((place, entry[1], entry[2]));
        }
        let mut plain = Vec::new();
        for (i, entry) in sections[2].iter().enumerate() {
            if entry[0] == 1 {
                plain.push((entry[1], entry[2]));
            } else {
                path.unreached.push((i + 1, entry[1], entry[2]));
            }
        }
        path.reach = plain.into_iter().collect();
        for (i, entry) in sections[3].iter().enumerate() {
            path.data.push((i + 1, entry[0] == 1, entry[1], entry[2]));
        }
        path.join_doubled(lines);
        path.join_waiting(nil_terms.len().saturating_sub(1), lines);
        if let Some(nil) = path.nil {
            path.links.insert((nil, nil));
            path.join_doubled(lines);
        }
        path.join_waiting(waiting, lines);
        path
    }

    fn join_waiting(&mut self, count: usize, lines: &mut Vec<[usize; 4]>) {
        for _ in 0..count {
            let at = self.differ.iter().position(|literal| literal.0 == 0).unwrap();
            let (_, a, b) = self.differ.remove(at);
            self.join(a, b, lines);
        }
    }

    fn clash(&self) -> Option<[usize; 4]> {
        if let Some(literal) = self.differ.iter().find(|l| l.1 == l.2) {
            return Some([9, 2, literal.0, 0]);
        }
        if let Some(literal) = self.unreached.iter().find(|l| self.reach.contains(&(l.1, l.2))) {
            return Some([9, 3, literal.0, 0]);
        }
        for no in self.data.iter().filter(|l| !l.1) {
            if let Some(yes) = self.data.iter().find(|l| l.1 && l.2 == no.2 && l.3 == no.3) {
                return Some([9, 4, no.0, yes.0]);
            }
        }
        None
    }

    /// The terms met from x by k links, the first being x, if the last link leads back to x and no
    /// earlier one does.
    fn round(&self, x: usize, k: usize) -> Option<Vec<usize>> {
        let mut terms = vec![x];
        for step in 1..=k {
            let next = self.links.iter().find(|link| link.0 == *terms.last().unwrap())?.1;
            if (next == x) != (step == k) {
                return None;
            }
            terms.push(next);
        }
        terms.pop();
        Some(terms)
    }

    /// The rule's alternatives at a triple, if its conditions are held there.
    fn rule(&self, rule: u8, x: usize, y: usize, z: usize) -> Option<Vec<Alternative>> {
        let live = |t: usize| self.live.contains(&t);
        let link = |a: usize, b: usize| self.links.contains(&(a, b));
        let reach = |a: usize, b: usize| self.reach.contains(&(a, b));
        let three = live(x) && live(y) && live(z);
        match rule {
            1 if live(x) && y == 0 && z == 0 => Some(vec![Add(x, x)]),
            2 if live(x) && live(y) && z == 0 && link(x, y) => Some(vec![Add(x, y)]),
            3 if three && reach(x, y) && reach(y, z) => Some(vec![Add(x, z)]),
            4 if three && link(x, y) && reach(x, z) => Some(vec![Join(x, z), Add(y, z)]),
            5 if live(x) && live(y) && z >= 1 && reach(x, y) => {
                Some(self.round(x, z)?.into_iter().map(|t| Join(y, t)).collect())
            }
            6 if three && reach(x, y) && reach(y, x) && reach(x, z) => Some(vec![Join(x, y), Add(z, x)]),
            7 if three && reach(x, y) && reach(x, z) => Some(vec![Add(y, z), Add(z, y)]),
            8 if three && link(x, z) && link(y, z) && reach(x, y) && reach(y, x) => Some(vec![Join(x, y)]),
            _ => None,
        }
    }

    fn holds(&self, alternative: &Alternative) -> bool {
        match *alternative {
            Join(a, b) => a == b,
            Add(a, b) => self.reach.contains(&(a, b)),
        }
    }

    fn first(&self, order: &[u8]) -> Option<([usize; 4], Vec<Alternative>)> {
        for &rule in order {
            for x in 0..=16 {
                for y in 0..=16 {
                    for z in 0..=16 {
                        if let Some(alternatives) = self.rule(rule, x, y, z) {
                            if !alternatives.iter().any(|a| self.holds(a)) {
                                return Some(([usize::from(rule), x, y, z], alternatives));
                            }
                        }
                    }
                }
            }
        }
        None
    }

    fn satisfiable(&self, order: &[u8], lines: &mut Vec<[usize; 4]>) -> bool {
        if let Some(clash) = self.clash() {
            lines.push(clash);
            return false;
        }
        let Some((line, alternatives)) = self.first(order) else {
            return true;
        };
        lines.push(line);
        alternatives.iter().any(|alternative| {
            let mut branch = self.clone();
            match *alternative {
                Join(a, b) => branch.join(a, b, lines),
                Add(a, b) => {
                    branch.reach.insert((a, b));
                }
            }
            branch.satisfiable(order, lines)
        })
    }
}

/// The five sections' entries of an accepted query.
fn cut(bytes: &[u8]) -> Vec<Vec<Vec<usize>>> {
    let mut sections = Vec::new();
    let mut at = 0;
    for width in [1, 3, 3, 3, 2] {
        let count = bytes[at] as usize;
        let entries = &bytes[at + 1..at + 1 + count * width];
        sections.push(entries.chunks(width).map(|entry| entry.iter().map(|&b| b as usize).collect()).collect());
        at += 1 + count * width;
    }
    sections
}

/// Whether our walk calls an accepted query satisfiable, and all its lines.
pub fn walk(order: &[u8], query: &[u8]) -> (bool, Vec<[usize; 4]>) {
    let mut lines = Vec::new();
    let satisfiable = Path::start(query, &mut lines).satisfiable(order, &mut lines);
    (satisfiable, lines)
}
