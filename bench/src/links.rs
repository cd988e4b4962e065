//! A second reading of request R-11: queries with three links, near to the papers' words and slow. It is kept apart from
//! src/reference.rs, which has one link and is the speed baseline, and shares no line with the proved code.
//!
//! Terms count from 1, as in the bytes; links count from 0 in the facts.

use crate::reference::{self, refuse, Answer, Line, Listener, Order, Refusal, Scribe, Verdict, NIL, TERMS};

pub const LINKS: usize = 3;
pub const REPORT_BYTES: usize = 85;

/// The most entries of each section (the fifth is retired), and what each byte of an entry is: k a term's link, e a term entry, s a sign,
/// l a link, t a term, n a number 1 to 8.
const SECTIONS: [(usize, &[u8]); 5] = [(16, b"ke"), (60, b"stt"), (60, b"sltt"), (60, b"snt"), (0, b"sn")];

/// A query that passed its checks: the entries of its sections.
pub struct Query<'a> {
    terms: Vec<&'a [u8]>,
    equalities: Vec<&'a [u8]>,
    reachability: Vec<&'a [u8]>,
    data: Vec<&'a [u8]>,
}

pub fn check_query(bytes: &[u8]) -> Result<Query<'_>, Refusal> {
    // 2, 3, 26 and 4: one walk from the front.
    let mut parts = Vec::new();
    let mut at = 0;
    for (limit, roles) in SECTIONS {
        let Some(&count) = bytes.get(at) else {
            return refuse(2, bytes.len());
        };
        let count = usize::from(count);
        if count > limit {
            return refuse(if limit == 0 { 26 } else { 3 }, at);
        }
        let end = at + 1 + count * roles.len();
        if end > bytes.len() {
            return refuse(2, bytes.len());
        }
        parts.push(at + 1..end);
        at = end;
    }
    if at < bytes.len() {
        return refuse(4, at);
    }
    // 22, then 5 to 8: the whole query for one before the next.
    let n = bytes[0];
    for number in [22, 5, 6, 7, 8] {
        for (part, (_, roles)) in parts.iter().zip(SECTIONS) {
            for (i, place) in part.clone().enumerate() {
                let byte = bytes[place];
                let wrong = match (number, roles[i % roles.len()]) {
                    (22, b'k') if [0, NIL].contains(&bytes[place + 1]) => byte != 0,
                    (22, b'k' | b'l') => !(1..=3).contains(&byte),
                    (5, b'e') => usize::from(byte) > i / 2 && byte != NIL,
                    (6, b's') => byte > 1,
                    (7, b't') => !(1..=n).contains(&byte),
                    (8, b'n') => !(1..=8).contains(&byte),
                    _ => false,
                };
                if wrong {
                    return refuse(number, place);
                }
            }
        }
    }
    let entries = |section: usize| bytes[parts[section].clone()].chunks_exact(SECTIONS[section].1.len()).collect();
    Ok(Query { terms: entries(0), equalities: entries(1), reachability: entries(2), data: entries(3) })
}

// ------------------------------------------------------------------------------------------------
// Facts, joining, the start, the clash

type Relation = [[bool; TERMS + 1]; TERMS + 1];

/// What a path holds.
#[derive(Clone)]
struct Facts {
    /// The term that stands for each term; a term is not replaced if it stands for itself.
    name: Vec<usize>,
    /// For each link, which terms are successors of x, and which terms x reaches.
    link: Vec<Relation>,
    reach: Vec<Relation>,
}

impl Facts {
    /// The terms not replaced, ascending.
    fn live(&self) -> impl Iterator<Item = usize> + '_ {
        (1..self.name.len()).filter(|&x| self.name[x] == x)
    }

    fn named(&self, byte: u8) -> usize {
        self.name[usize::from(byte)]
    }

    fn join(&mut self, a: usize, b: usize, lines: &mut Scribe) {
        if a != b {
            self.replace(a.min(b), a.max(b), lines);
            self.settle(lines);
        }
    }

    /// Joins doubled successors as long as there are any.
    fn settle(&mut self, lines: &mut Scribe) {
        while let Some((first, second)) = self.doubled() {
            self.replace(first, second, lines);
        }
    }

    /// The two lowest successors by one link, of the lowest term that has two, then by the lowest link.
    fn doubled(&self) -> Option<(usize, usize)> {
        self.live().find_map(|x| {
            self.link.iter().find_map(|link| {
                let mut successors = self.live().filter(|&y| link[x][y]);
                Some((successors.next()?, successors.next()?))
            })
        })
    }

    fn replace(&mut self, low: usize, high: usize, lines: &mut Scribe) {
        lines.line([10, low as u8, high as u8, 0]);
        let by = |x: usize| if x == high { low } else { x };
        self.name.iter_mut().for_each(|x| *x = by(*x));
        for relation in self.link.iter_mut().chain(&mut self.reach) {
            let mut renamed = Relation::default();
            for (x, row) in relation.iter().enumerate() {
                for y in (0..=TERMS).filter(|&y| row[y]) {
                    renamed[by(x)][by(y)] = true;
                }
            }
            *relation = renamed;
        }
    }

    fn start(query: &Query, lines: &mut Scribe) -> Facts {
        let none = vec![Relation::default(); LINKS];
        let mut facts = Facts { name: (0..=query.terms.len()).collect(), link: none.clone(), reach: none };
        for (i, entry) in query.terms.iter().enumerate() {
            if entry[0] > 0 {
                facts.link[usize::from(entry[0]) - 1][usize::from(entry[1])][i + 1] = true;
            }
        }
        facts.settle(lines);
        // The nil terms are one, and all its links go to itself.
        let nil_terms: Vec<usize> = (1..facts.name.len()).filter(|&t| query.terms[t - 1][1] == NIL).collect();
        if let Some(&first) = nil_terms.first() {
            for &other in &nil_terms[1..] {
                facts.join(facts.name[first], facts.name[other], lines);
            }
            let nil = facts.name[first];
            facts.link.iter_mut().for_each(|link| link[nil][nil] = true);
            facts.settle(lines);
        }
        for entry in query.equalities.iter().filter(|entry| entry[0] == 1) {
            facts.join(facts.named(entry[1]), facts.named(entry[2]), lines);
        }
        for entry in query.reachability.iter().filter(|entry| entry[0] == 1) {
            let (from, to) = (facts.named(entry[2]), facts.named(entry[3]));
            facts.reach[usize::from(entry[1]) - 1][from][to] = true;
        }
        facts
    }

    /// The line of the clash, lowest section first, then lowest place.
    fn clash(&self, query: &Query) -> Option<Line> {
        for (i, entry) in query.equalities.iter().enumerate() {
            if entry[0] == 0 && self.named(entry[1]) == self.named(entry[2]) {
                return Some([9, 2, i as u8 + 1, 0]);
            }
        }
        for (i, entry) in query.reachability.iter().enumerate() {
            let (from, to) = (self.named(entry[2]), self.named(entry[3]));
            if entry[0] == 0 && self.reach[usize::from(entry[1]) - 1][from][to] {
                return Some([9, 3, i as u8 + 1, 0]);
            }
        }
        for (i, entry) in query.data.iter().enumerate() {
            let partner = query.data.iter().position(|other| {
                other[0] == 1 && other[1] == entry[1] && self.named(other[2]) == self.named(entry[2])
            });
            if let (0, Some(j)) = (entry[0], partner) {
                return Some([9, 4, i as u8 + 1, j as u8 + 1]);
            }
        }
        None
    }
}

// ------------------------------------------------------------------------------------------------
// The eight rules, by link

enum Alternative {
    Join(usize, usize),
    Add(usize, usize),
}
use Alternative::{Add, Join};

/// A rule that applies: its line, its link and its alternatives.
struct Step {
    line: Line,
    link: usize,
    alternatives: Vec<Alternative>,
}

impl Facts {
    /// The terms round the cycle of links that x is on, from x; none if it is on no cycle.
    fn round(&self, link: usize, x: usize) -> Vec<usize> {
        let mut terms = vec![x];
        let mut at = x;
        while let Some(next) = self.live().find(|&y| self.link[link][at][y]) {
            if next == x {
                return terms;
            }
            if terms.contains(&next) {
                break;
            }
            terms.push(next);
            at = next;
        }
        Vec::new()
    }

    /// The rule's alternatives at this triple; none where a condition is not held.
    fn alternatives(&self, rule: u8, link: usize, x: usize, y: usize, z: usize) -> Vec<Alternative> {
        let next = |a: usize, b: usize| self.link[link][a][b];
        let reaches = |a: usize, b: usize| self.reach[link][a][b];
        match rule {
            1 => vec![Add(x, x)],
            2 if next(x, y) => vec![Add(x, y)],
            3 if reaches(x, y) && reaches(y, z) => vec![Add(x, z)],
            4 if next(x, y) && reaches(x, z) => vec![Join(x, z), Add(y, z)],
            5 if reaches(x, y) => self.round(link, x).into_iter().map(|t| Join(y, t)).collect(),
            6 if reaches(x, y) && reaches(y, x) && reaches(x, z) => vec![Join(x, y), Add(z, x)],
            7 if reaches(x, y) && reaches(x, z) => vec![Add(y, z), Add(z, y)],
            8 if next(x, z) && next(y, z) && reaches(x, y) && reaches(y, x) => vec![Join(x, y)],
            _ => Vec::new(),
        }
    }

    fn held(&self, link: usize, alternative: &Alternative) -> bool {
        match *alternative {
            Join(a, b) => a == b,
            Add(a, b) => self.reach[link][a][b],
        }
    }

    /// The rule for this link at the smallest triple at which it applies.
    fn find(&self, rule: u8, link: usize) -> Option<Step> {
        let live: Vec<usize> = self.live().collect();
        // 0 stands where a rule has no term.
        let second: &[usize] = if rule == 1 { &[0] } else { &live };
        let third: &[usize] = if [1, 2, 5].contains(&rule) { &[0] } else { &live };
        for &x in &live {
            for &y in second {
                // Every rule but REFLEX asks for one of the two.
                if rule > 1 && !self.link[link][x][y] && !self.reach[link][x][y] {
                    continue;
                }
                for &z in third {
                    let alternatives = self.alternatives(rule, link, x, y, z);
                    if !alternatives.is_empty() && !alternatives.iter().any(|a| self.held(link, a)) {
                        let z = if rule == 5 { alternatives.len() } else { z };
                        let line = [rule + 16 * link as u8, x as u8, y as u8, z as u8];
                        return Some(Step { line, link, alternatives });
                    }
                }
            }
        }
        None
    }

    fn take(&mut self, link: usize, alternative: &Alternative, lines: &mut Scribe) {
        match *alternative {
            Join(a, b) => self.join(a, b, lines),
            Add(a, b) => self.reach[link][a][b] = true,
        }
    }
}

// ------------------------------------------------------------------------------------------------
// Our walk

enum End {
    Satisfiable(Facts),
    Refuted,
    /// More lines than the scribe's budget; no part of the papers.
    Stopped,
}

fn path(order: &Order, query: &Query, facts: &Facts, left: usize, lines: &mut Scribe) -> End {
    if let Some(line) = facts.clash(query) {
        lines.line(line);
        return End::Refuted;
    }
    let Some(step) = order.iter().find_map(|&rule| (0..LINKS).find_map(|link| facts.find(rule, link))) else {
        return End::Satisfiable(facts.clone());
    };
    // No path has more rule steps (02, R-11): a run that met this would say so.
    assert!(left > 0, "a path of more than 3 times n times n, plus n rule steps");
    if !lines.line(step.line) {
        return End::Stopped;
    }
    for alternative in &step.alternatives {
        let mut branch = facts.clone();
        branch.take(step.link, alternative, lines);
        match path(order, query, &branch, left - 1, lines) {
            End::Refuted => {}
            end => return end,
        }
    }
    End::Refuted
}

fn walk(order: &Order, query: &Query, lines: &mut Scribe) -> End {
    let n = query.terms.len();
    let facts = Facts::start(query, lines);
    path(order, query, &facts, 3 * n * n + n, lines)
}

/// Whether order and query pass their checks.
pub fn accepted(order: &[u8], query: &[u8]) -> bool {
    reference::check_order(order).is_ok() && check_query(query).is_ok()
}

/// How many lines the walk has; `None` if there are more than `budget`, or if order or query is refused.
pub fn lines(order: &[u8], query: &[u8], budget: u64) -> Option<u64> {
    let order = reference::check_order(order).ok()?;
    let query = check_query(query).ok()?;
    let mut scribe = Scribe::new(budget);
    let end = walk(&order, &query, &mut scribe);
    (!matches!(end, End::Stopped)).then_some(scribe.count)
}

// ------------------------------------------------------------------------------------------------
// The heap shown

impl Facts {
    /// One link of every term not replaced: those known, then the missing ones, ascending.
    fn completed(&self, link: usize) -> Vec<Option<usize>> {
        let known = |x: usize| self.live().find(|&y| self.link[link][x][y]);
        let mut next: Vec<Option<usize>> = (0..self.name.len()).map(known).collect();
        for v in self.live() {
            if next[v].is_none() {
                next[v] = self.target(link, &next, v);
            }
        }
        next
    }

    /// Where the missing link of `v` leads.
    fn target(&self, link: usize, next: &[Option<usize>], v: usize) -> Option<usize> {
        let reaches = |x: usize, y: usize| self.reach[link][x][y];
        let reached: Vec<usize> = self.live().filter(|&x| reaches(v, x)).collect();
        if !reached.iter().all(|&x| reaches(x, v)) {
            let first = |u: usize| u != v && reached.iter().all(|&x| x == v || reaches(u, x));
            return reached.iter().copied().find(|&u| first(u));
        }
        // They are v's basin, in which v is the last term of its path.
        let within = |x: usize| next[x].filter(|y| reached.contains(y));
        let begins: Vec<usize> =
            reached.iter().copied().filter(|&x| !reached.iter().any(|&y| within(y) == Some(x))).collect();
        let last = |x: usize| std::iter::successors(Some(x), |&at| within(at)).last();
        if begins.len() == 1 {
            Some(begins[0])
        } else {
            begins.into_iter().find(|&x| last(x) != Some(v))
        }
    }

    fn report(&self, query: &Query) -> Vec<u8> {
        let n = query.terms.len();
        if n == 0 {
            return vec![3, 1, 1, 1, 0, 1, 0, 1, 0];
        }
        let live: Vec<usize> = self.live().collect();
        let node = |x: usize| live.iter().position(|&y| y == x).expect("a term not replaced") as u8 + 1;
        let field = |x: usize, literal: &&[u8]| literal[0] == 1 && self.named(literal[2]) == x;
        let data = |x: usize| {
            query
                .data
                .iter()
                .filter(|literal| field(x, literal))
                .fold(0u8, |byte, literal| byte | 1 << (literal[1] - 1))
        };
        let mut bytes = vec![3 * live.len() as u8];
        for link in 0..LINKS {
            let next = self.completed(link);
            bytes.extend(live.iter().map(|&x| node(next[x].expect("every term has a link"))));
        }
        bytes.push(n as u8);
        bytes.extend((1..=n).map(|t| node(self.name[t])));
        bytes.push(live.len() as u8);
        bytes.extend(live.iter().map(|&x| data(x)));
        bytes.extend([1, 0]);
        bytes
    }
}

// ------------------------------------------------------------------------------------------------
// The two calls and the program

pub fn verdict(order: &[u8], query: &[u8], report: &mut [u8]) -> Answer {
    report.fill(0);
    let order = reference::check_order(order)?;
    let query = check_query(query)?;
    if report.len() < REPORT_BYTES {
        return refuse(9, 0);
    }
    match walk(&order, &query, &mut Scribe::new(u64::MAX)) {
        End::Satisfiable(facts) => {
            let bytes = facts.report(&query);
            report[..bytes.len()].copy_from_slice(&bytes);
            Ok(Verdict::Satisfiable)
        }
        End::Refuted => Ok(Verdict::Refuted),
        End::Stopped => unreachable!("nothing stops this walk"),
    }
}

pub fn derivation(order: &[u8], query: &[u8], buffer: &mut [u8]) -> Answer {
    buffer.fill(0);
    let order = reference::check_order(order)?;
    let query = check_query(query)?;
    let mut scribe = Scribe::new(u64::MAX);
    match walk(&order, &query, &mut scribe) {
        End::Satisfiable(_) => refuse(11, 0),
        End::Refuted => reference::write_derivation(&scribe, buffer),
        End::Stopped => unreachable!("nothing stops this walk"),
    }
}

/// What linksverdict prints when this is its standard input: as heapverdict does.
pub fn linksverdict(input: &[u8]) -> String {
    let (order, query) = reference::split(input);
    let mut report = [0u8; REPORT_BYTES];
    let answer = verdict(order, query, &mut report);
    let (all, m) = (usize::from(report[0]), usize::from(report[0]) / LINKS);
    let n = usize::from(report[all + 1]);
    reference::printed(answer, &report[..all + n + m + 5], |buffer| derivation(order, query, buffer))
}
