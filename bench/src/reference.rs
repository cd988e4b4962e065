//! The whole of the scope paper (01) for the base, with the join lines of 02's R-1, read afresh and written plainly.
//!
//! Facts are rows of 16 bits: bit `y` of row `x` says something about the terms `x` and `y`. Inside this
//! file terms count from 0; in every byte that comes in or goes out they count from 1.

pub const TERMS: usize = 16;
pub const ORDER_BYTES: usize = 8;
pub const REPORT_BYTES: usize = 53;
pub const LINE_LIMIT: u64 = 16_000;
pub const DERIVATION_BYTES: usize = 64_002;
pub const INPUT_BYTES: usize = 1_024;

/// The term byte that names nil (02, R-3).
pub const NIL: u8 = 255;

/// Largest count and bytes per entry of sections 1 to 4.
pub const SECTION_LIMIT: [usize; 4] = [16, 60, 60, 60];
pub const SECTION_WIDTH: [usize; 4] = [1, 3, 3, 3];

// ------------------------------------------------------------------------------------------------
// Answers

#[derive(Clone, Copy, PartialEq, Eq, Debug)]
pub struct Refusal {
    pub number: u32,
    pub place: usize,
}

#[derive(Clone, Copy, PartialEq, Eq, Debug)]
pub enum Verdict {
    Satisfiable,
    Refuted,
}

pub type Answer = Result<Verdict, Refusal>;

pub fn refuse<T>(number: u32, place: usize) -> Result<T, Refusal> {
    Err(Refusal { number, place })
}

/// The answer as the C functions encode it.
pub fn encode(answer: Answer) -> u64 {
    match answer {
        Ok(Verdict::Satisfiable) => 0,
        Ok(Verdict::Refuted) => 1,
        Err(r) => u64::from(r.number) * 65_536 + r.place as u64,
    }
}

// ------------------------------------------------------------------------------------------------
// Checks 1 to 8

/// A query that passed checks 2 to 8 and 26: the entries of its sections.
#[derive(Clone, Copy)]
pub struct Query<'a> {
    terms: &'a [u8],
    equalities: &'a [u8],
    reachability: &'a [u8],
    data: &'a [u8],
}

/// An order list that passed check 1.
pub type Order = [u8; ORDER_BYTES];

pub fn check_order(order: &[u8]) -> Result<Order, Refusal> {
    let Ok(list) = Order::try_from(order) else {
        return refuse(1, 0);
    };
    let mut seen = 0u16;
    for rule in list {
        if !(1..=8).contains(&rule) {
            return refuse(1, 0);
        }
        seen |= 1 << rule;
    }
    if seen != 0b1_1111_1110 {
        return refuse(1, 0);
    }
    Ok(list)
}

pub fn check_query(bytes: &[u8]) -> Result<Query<'_>, Refusal> {
    // 2, 3, 26 and 4: one walk from the front.
    let mut begin = [0usize; 4];
    let mut end = [0usize; 4];
    let mut at = 0;
    for section in 0..4 {
        if at >= bytes.len() {
            return refuse(2, bytes.len());
        }
        let count = usize::from(bytes[at]);
        if count > SECTION_LIMIT[section] {
            return refuse(3, at);
        }
        begin[section] = at + 1;
        end[section] = at + 1 + count * SECTION_WIDTH[section];
        if end[section] > bytes.len() {
            return refuse(2, bytes.len());
        }
        at = end[section];
    }
    // Section 5 is retired (02, R-13): its count must be 0.
    match bytes.get(at) {
        None => return refuse(2, bytes.len()),
        Some(0) => at += 1,
        Some(_) => return refuse(26, at),
    }
    if at < bytes.len() {
        return refuse(4, at);
    }
    let part = |section: usize| &bytes[begin[section]..end[section]];
    let query = Query { terms: part(0), equalities: part(1), reachability: part(2), data: part(3) };
    // 5: a term byte is below its own term's number, or names nil.
    for (i, &byte) in query.terms.iter().enumerate() {
        if usize::from(byte) > i && byte != NIL {
            return refuse(5, begin[0] + i);
        }
    }
    // 6: signs.
    for section in 1..4 {
        for (i, entry) in part(section).chunks_exact(3).enumerate() {
            if entry[0] > 1 {
                return refuse(6, begin[section] + 3 * i);
            }
        }
    }
    // 7: term numbers of sections 2 to 4.
    let known = |byte: u8| byte >= 1 && usize::from(byte) <= query.terms.len();
    for section in 1..4 {
        for (i, entry) in part(section).chunks_exact(3).enumerate() {
            if section < 3 && !known(entry[1]) {
                return refuse(7, begin[section] + 3 * i + 1);
            }
            if !known(entry[2]) {
                return refuse(7, begin[section] + 3 * i + 2);
            }
        }
    }
    // 8: fields.
    for (i, entry) in part(3).chunks_exact(3).enumerate() {
        if !(1..=8).contains(&entry[1]) {
            return refuse(8, begin[3] + 3 * i + 1);
        }
    }
    Ok(query)
}

impl Query<'_> {
    pub fn term_count(&self) -> usize {
        self.terms.len()
    }
}

// ------------------------------------------------------------------------------------------------
// Facts, joining, the start, the clash

type Row = u16;
type Rows = [Row; TERMS];

fn bit(x: usize) -> Row {
    1 << x
}

fn lowest(row: Row) -> usize {
    row.trailing_zeros() as usize
}

/// The members of a row, ascending.
struct Members(Row);

impl Iterator for Members {
    type Item = usize;
    #[inline(always)]
    fn next(&mut self) -> Option<usize> {
        if self.0 == 0 {
            return None;
        }
        let x = lowest(self.0);
        self.0 &= self.0 - 1;
        Some(x)
    }
}

/// What a path holds.
#[derive(Clone)]
pub struct Facts {
    /// Terms not replaced.
    alive: Row,
    /// The term that stands for each term.
    name: [u8; TERMS],
    /// x reaches y, by rows and by columns.
    reach: Rows,
    back: Rows,
    /// f(x) = y; at most one bit a row outside a join.
    link: Rows,
    /// Negated literals.
    differ: Rows,
    unreached: Rows,
    plain_data: [u8; TERMS],
    negated_data: [u8; TERMS],
}

/// In a relation given by rows, lets `low` stand for `high`.
#[inline(always)]
fn rename(rows: &mut Rows, low: usize, high: usize) {
    rows[low] |= rows[high];
    rows[high] = 0;
    for row in rows.iter_mut() {
        let moved = (*row >> high) & 1;
        *row = (*row & !bit(high)) | (moved << low);
    }
}

impl Facts {
    /// Joins two terms that are not replaced, and what must be joined with them. `joined` hears of each
    /// pair: the term kept, and the one replaced.
    fn join(&mut self, a: usize, b: usize, joined: &mut impl FnMut(usize, usize)) {
        if a == b {
            return;
        }
        self.replace(a.min(b), a.max(b));
        joined(a.min(b), a.max(b));
        self.settle(joined);
    }

    /// Joins successors while some term has two.
    fn settle(&mut self, joined: &mut impl FnMut(usize, usize)) {
        while let Some(x) = (0..TERMS).find(|&x| self.link[x] & self.link[x].wrapping_sub(1) != 0) {
            let first = lowest(self.link[x]);
            let second = lowest(self.link[x] & (self.link[x] - 1));
            self.replace(first, second);
            joined(first, second);
        }
    }

    fn replace(&mut self, low: usize, high: usize) {
        self.alive &= !bit(high);
        for name in self.name.iter_mut() {
            if usize::from(*name) == high {
                *name = low as u8;
            }
        }
        rename(&mut self.reach, low, high);
        rename(&mut self.back, low, high);
        rename(&mut self.link, low, high);
        rename(&mut self.differ, low, high);
        rename(&mut self.unreached, low, high);
        self.plain_data[low] |= self.plain_data[high];
        self.negated_data[low] |= self.negated_data[high];
        self.plain_data[high] = 0;
        self.negated_data[high] = 0;
    }

    #[inline(always)]
    fn add(&mut self, x: usize, y: usize) {
        self.reach[x] |= bit(y);
        self.back[y] |= bit(x);
    }

    #[inline(always)]
    fn reaches(&self, x: usize, y: usize) -> bool {
        self.reach[x] >> y & 1 == 1
    }

    /// The name of a term given by its number in the query.
    fn named(&self, byte: u8) -> usize {
        usize::from(self.name[usize::from(byte) - 1])
    }

    pub fn start(query: &Query, joined: &mut impl FnMut(usize, usize)) -> Facts {
        let n = query.term_count();
        let mut facts = Facts {
            alive: ((1u32 << n) - 1) as Row,
            name: std::array::from_fn(|x| x as u8),
            reach: [0; TERMS],
            back: [0; TERMS],
            link: [0; TERMS],
            differ: [0; TERMS],
            unreached: [0; TERMS],
            plain_data: [0; TERMS],
            negated_data: [0; TERMS],
        };
        for (x, &byte) in query.terms.iter().enumerate() {
            if byte > 0 && byte != NIL {
                facts.link[usize::from(byte) - 1] |= bit(x);
            }
        }
        facts.settle(joined);
        facts.join_nil(query, joined);
        for entry in query.equalities.chunks_exact(3) {
            if entry[0] == 1 {
                facts.join(facts.named(entry[1]), facts.named(entry[2]), joined);
            }
        }
        for entry in query.equalities.chunks_exact(3) {
            if entry[0] == 0 {
                let (a, b) = (facts.named(entry[1]), facts.named(entry[2]));
                facts.differ[a] |= bit(b);
            }
        }
        for entry in query.reachability.chunks_exact(3) {
            let (a, b) = (facts.named(entry[1]), facts.named(entry[2]));
            if entry[0] == 1 {
                facts.add(a, b);
            } else {
                facts.unreached[a] |= bit(b);
            }
        }
        for entry in query.data.chunks_exact(3) {
            let a = facts.named(entry[2]);
            if entry[0] == 1 {
                facts.plain_data[a] |= 1 << (entry[1] - 1);
            } else {
                facts.negated_data[a] |= 1 << (entry[1] - 1);
            }
        }
        facts
    }

    /// The nil terms are joined to the lowest, and nil's link goes to itself.
    fn join_nil(&mut self, query: &Query, joined: &mut impl FnMut(usize, usize)) {
        let mut nil_terms = (0..query.term_count()).filter(|&x| query.terms[x] == NIL);
        let Some(first) = nil_terms.next() else {
            return;
        };
        for other in nil_terms {
            self.join(usize::from(self.name[first]), usize::from(self.name[other]), joined);
        }
        let nil = usize::from(self.name[first]);
        self.link[nil] |= bit(nil);
        self.settle(joined);
    }

    fn has_clash(&self) -> bool {
        let mut rows: Row = 0;
        let mut fields = 0;
        for x in 0..TERMS {
            rows |= self.reach[x] & self.unreached[x];
            rows |= self.differ[x] & bit(x);
            fields |= self.plain_data[x] & self.negated_data[x];
        }
        rows != 0 || fields != 0
    }

    /// The line of the clash: the literals in the query's order, lowest section first.
    fn clash_line(&self, query: &Query) -> Line {
        for (i, entry) in query.equalities.chunks_exact(3).enumerate() {
            if entry[0] == 0 && self.named(entry[1]) == self.named(entry[2]) {
                return [9, 2, i as u8 + 1, 0];
            }
        }
        for (i, entry) in query.reachability.chunks_exact(3).enumerate() {
            if entry[0] == 0 && self.reaches(self.named(entry[1]), self.named(entry[2])) {
                return [9, 3, i as u8 + 1, 0];
            }
        }
        for (i, entry) in query.data.chunks_exact(3).enumerate() {
            if entry[0] == 0 {
                let partner = query.data.chunks_exact(3).position(|other| {
                    other[0] == 1 && other[1] == entry[1] && self.named(other[2]) == self.named(entry[2])
                });
                if let Some(j) = partner {
                    return [9, 4, i as u8 + 1, j as u8 + 1];
                }
            }
        }
        unreachable!("a path with a clash has a clash line")
    }
}

// ------------------------------------------------------------------------------------------------
// The eight rules

/// A rule that applies, and where: terms from 0, `z` of CYCLE is the number of steps.
#[derive(Clone, Copy)]
struct Step {
    rule: u8,
    x: usize,
    y: usize,
    z: usize,
}

impl Step {
    fn line(&self) -> Line {
        let (x, y, z) = (self.x as u8 + 1, self.y as u8 + 1, self.z as u8 + 1);
        match self.rule {
            1 => [1, x, 0, 0],
            2 => [2, x, y, 0],
            5 => [5, x, y, self.z as u8],
            rule => [rule, x, y, z],
        }
    }
}

impl Facts {
    /// The smallest triple at which the rule applies.
    #[inline(always)]
    fn find(&self, rule: u8) -> Option<Step> {
        match rule {
            1 => self.find_reflex(),
            2 => self.find_trans1(),
            3 => self.find_trans2(),
            4 => self.find_func(),
            5 => self.find_cycle(),
            6 => self.find_scc(),
            7 => self.find_total(),
            _ => self.find_share(),
        }
    }

    fn find_reflex(&self) -> Option<Step> {
        Members(self.alive).find(|&x| !self.reaches(x, x)).map(|x| Step { rule: 1, x, y: 0, z: 0 })
    }

    fn find_trans1(&self) -> Option<Step> {
        Members(self.alive).find(|&x| self.link[x] & !self.reach[x] != 0).map(|x| Step {
            rule: 2,
            x,
            y: lowest(self.link[x]),
            z: 0,
        })
    }

    fn find_trans2(&self) -> Option<Step> {
        for x in Members(self.alive) {
            for y in Members(self.reach[x]) {
                let new = self.reach[y] & !self.reach[x];
                if new != 0 {
                    return Some(Step { rule: 3, x, y, z: lowest(new) });
                }
            }
        }
        None
    }

    fn find_func(&self) -> Option<Step> {
        for x in Members(self.alive) {
            if self.link[x] != 0 {
                let y = lowest(self.link[x]);
                let new = self.reach[x] & !self.reach[y] & !bit(x);
                if new != 0 {
                    return Some(Step { rule: 4, x, y, z: lowest(new) });
                }
            }
        }
        None
    }

    fn find_cycle(&self) -> Option<Step> {
        for x in Members(self.alive) {
            if self.link[x] == 0 {
                continue;
            }
            let mut round: Row = bit(x);
            let mut steps = 1;
            let mut at = self.link[x];
            while at & !round != 0 {
                round |= at;
                steps += 1;
                at = self.link[lowest(at)];
            }
            if at == bit(x) {
                let new = self.reach[x] & !round;
                if new != 0 {
                    return Some(Step { rule: 5, x, y: lowest(new), z: steps });
                }
            }
        }
        None
    }

    fn find_scc(&self) -> Option<Step> {
        for x in Members(self.alive) {
            let mutual = self.reach[x] & self.back[x] & !bit(x);
            let new = self.reach[x] & !self.back[x];
            if mutual != 0 && new != 0 {
                return Some(Step { rule: 6, x, y: lowest(mutual), z: lowest(new) });
            }
        }
        None
    }

    fn find_total(&self) -> Option<Step> {
        for x in Members(self.alive) {
            for y in Members(self.reach[x]) {
                let new = self.reach[x] & !self.reach[y] & !self.back[y];
                if new != 0 {
                    return Some(Step { rule: 7, x, y, z: lowest(new) });
                }
            }
        }
        None
    }

    fn find_share(&self) -> Option<Step> {
        for x in Members(self.alive) {
            if self.link[x] == 0 {
                continue;
            }
            for y in Members(self.reach[x] & self.back[x] & !bit(x)) {
                if self.link[y] == self.link[x] {
                    return Some(Step { rule: 8, x, y, z: lowest(self.link[x]) });
                }
            }
        }
        None
    }

    fn alternatives(&self, step: &Step) -> usize {
        match step.rule {
            4 | 6 | 7 => 2,
            5 => step.z,
            _ => 1,
        }
    }

    /// Joins or adds the alternative with this number, from 0.
    fn take(&mut self, step: &Step, number: usize, joined: &mut impl FnMut(usize, usize)) {
        let Step { rule, x, y, z } = *step;
        match (rule, number) {
            (1, _) => self.add(x, x),
            (2, _) => self.add(x, y),
            (3, _) => self.add(x, z),
            (4, 0) => self.join(x, z, joined),
            (4, _) => self.add(y, z),
            (5, _) => {
                let mut at = x;
                for _ in 0..number {
                    at = lowest(self.link[at]);
                }
                self.join(y, at, joined);
            }
            (6, 0) => self.join(x, y, joined),
            (6, _) => self.add(z, x),
            (7, 0) => self.add(y, z),
            (7, _) => self.add(z, y),
            _ => self.join(x, y, joined),
        }
    }
}

// ------------------------------------------------------------------------------------------------
// Our walk

pub type Line = [u8; 4];

/// What listens to the walk's lines. Answering `false` breaks the walk off.
pub trait Listener {
    const LINES: bool;
    fn line(&mut self, line: Line) -> bool;
}

/// For the verdict alone.
pub struct Deaf;

impl Listener for Deaf {
    const LINES: bool = false;
    fn line(&mut self, _: Line) -> bool {
        true
    }
}

/// Keeps as many lines as a derivation may have, counts all, and gives up past `budget`.
pub struct Scribe {
    pub lines: Vec<Line>,
    pub count: u64,
    /// Rule lines alone.
    pub steps: u64,
    pub budget: u64,
}

impl Scribe {
    pub fn new(budget: u64) -> Scribe {
        Scribe { lines: Vec::new(), count: 0, steps: 0, budget }
    }
}

impl Listener for Scribe {
    const LINES: bool = true;
    fn line(&mut self, line: Line) -> bool {
        if self.count < LINE_LIMIT {
            self.lines.push(line);
        }
        self.count += 1;
        self.steps += u64::from(line[0] <= 8);
        self.count <= self.budget
    }
}

#[derive(Clone, Copy, PartialEq, Eq, Debug)]
pub enum End {
    Satisfiable,
    Refuted,
    /// The listener broke it off; no part of the paper.
    Stopped,
}

struct Walk<'a, L> {
    query: Query<'a>,
    order: Order,
    listener: &'a mut L,
}

/// The line of two terms that were joined (02, R-1).
fn join_line(kept: usize, replaced: usize) -> Line {
    [10, kept as u8 + 1, replaced as u8 + 1, 0]
}

impl<L: Listener> Walk<'_, L> {
    /// Takes an alternative, its join lines at the head of the branch. Answers `false` if the walk is broken off.
    fn branch(&mut self, facts: &mut Facts, step: &Step, number: usize) -> bool {
        let mut on = true;
        facts.take(step, number, &mut |kept, replaced| {
            if L::LINES {
                on &= self.listener.line(join_line(kept, replaced));
            }
        });
        on
    }

    /// Walks on from these facts; if the end is `Satisfiable` they are those of the path that ended it.
    fn path(&mut self, facts: &mut Facts, mut left: usize) -> End {
        loop {
            if facts.has_clash() {
                if L::LINES && !self.listener.line(facts.clash_line(&self.query)) {
                    return End::Stopped;
                }
                return End::Refuted;
            }
            let Some(step) = self.order.iter().find_map(|&rule| facts.find(rule)) else {
                return End::Satisfiable;
            };
            // No path has more rule steps (02, R-5): a run that met this would say so.
            assert!(left > 0, "a path of more than n times n plus n rule steps");
            left -= 1;
            if L::LINES && !self.listener.line(step.line()) {
                return End::Stopped;
            }
            let last = facts.alternatives(&step) - 1;
            for number in 0..last {
                let mut branch = facts.clone();
                if !self.branch(&mut branch, &step, number) {
                    return End::Stopped;
                }
                match self.path(&mut branch, left) {
                    End::Refuted => {}
                    End::Satisfiable => {
                        *facts = branch;
                        return End::Satisfiable;
                    }
                    broken => return broken,
                }
            }
            if !self.branch(facts, &step, last) {
                return End::Stopped;
            }
        }
    }
}

/// Our walk from the start; also hands back the facts of the path that ended it.
pub fn walk<L: Listener>(order: &Order, query: &Query, listener: &mut L) -> (End, Facts) {
    let n = query.term_count();
    let mut on = true;
    let mut facts = Facts::start(query, &mut |kept, replaced| {
        if L::LINES {
            on &= listener.line(join_line(kept, replaced));
        }
    });
    if !on {
        return (End::Stopped, facts);
    }
    let mut walk = Walk { query: *query, order: *order, listener };
    let end = walk.path(&mut facts, n * n + n);
    (end, facts)
}

// ------------------------------------------------------------------------------------------------
// The heap shown

/// Gives every term that is not replaced a link, and writes the report. The facts are those of a path
/// with no clash and no applicable rule.
fn write_report(facts: &Facts, n: usize, report: &mut [u8]) {
    let mut link = facts.link;
    for v in Members(facts.alive) {
        if link[v] == 0 {
            link[v] = bit(target(facts, &link, v));
        }
    }
    let mut node = [0u8; TERMS];
    let mut m = 0;
    for x in Members(facts.alive) {
        m += 1;
        node[x] = m;
    }
    let mut fill = 0;
    let mut put = |byte: u8| {
        report[fill] = byte;
        fill += 1;
    };
    if n == 0 {
        put(1);
        put(1);
        put(0);
        put(1);
        put(0);
    } else {
        put(m);
        Members(facts.alive).for_each(|x| put(node[lowest(link[x])]));
        put(n as u8);
        (0..n).for_each(|t| put(node[usize::from(facts.name[t])]));
        put(m);
        Members(facts.alive).for_each(|x| put(facts.plain_data[x]));
    }
    put(1);
    put(0);
}

/// Where the missing link of `v` leads.
fn target(facts: &Facts, link: &Rows, v: usize) -> usize {
    let reached = facts.reach[v];
    if reached & !facts.back[v] == 0 {
        let basin = reached;
        let entered = Members(basin).fold(0, |row, x| row | link[x]);
        let begins = basin & !entered;
        if begins.count_ones() == 1 {
            return lowest(begins);
        }
        // The first term of v's own path: back along the links that enter it.
        let mut own = v;
        while let Some(before) = Members(basin).find(|&x| link[x] == bit(own)) {
            own = before;
        }
        lowest(begins & !bit(own))
    } else {
        Members(reached & !bit(v))
            .find(|&u| reached & !facts.reach[u] & !bit(v) == 0)
            .expect("a term that leaves its basin reaches a first term")
    }
}

// ------------------------------------------------------------------------------------------------
// The two calls

pub fn verdict(order: &[u8], query: &[u8], report: &mut [u8]) -> Answer {
    report.fill(0);
    let order = check_order(order)?;
    let query = check_query(query)?;
    if report.len() < REPORT_BYTES {
        return refuse(9, 0);
    }
    let (end, facts) = walk(&order, &query, &mut Deaf);
    match end {
        End::Satisfiable => {
            write_report(&facts, query.term_count(), report);
            Ok(Verdict::Satisfiable)
        }
        End::Refuted => Ok(Verdict::Refuted),
        End::Stopped => unreachable!("nothing stops this walk"),
    }
}

pub fn derivation(order: &[u8], query: &[u8], buffer: &mut [u8]) -> Answer {
    buffer.fill(0);
    let order = check_order(order)?;
    let query = check_query(query)?;
    let mut scribe = Scribe::new(u64::MAX);
    match walk(&order, &query, &mut scribe).0 {
        End::Satisfiable => refuse(11, 0),
        End::Stopped => unreachable!("nothing stops this walk"),
        End::Refuted => write_derivation(&scribe, buffer),
    }
}

/// The lines of a refuted walk, into a buffer that holds zeros.
pub fn write_derivation(scribe: &Scribe, buffer: &mut [u8]) -> Answer {
    let bytes = 2 + 4 * scribe.count;
    if scribe.count > LINE_LIMIT || bytes > buffer.len() as u64 {
        return refuse(12, 0);
    }
    buffer[0] = (scribe.count >> 8) as u8;
    buffer[1] = scribe.count as u8;
    for (i, line) in scribe.lines.iter().enumerate() {
        buffer[2 + 4 * i..6 + 4 * i].copy_from_slice(line);
    }
    Ok(Verdict::Refuted)
}

// ------------------------------------------------------------------------------------------------
// The program

/// The order list and the query of a program's standard input.
pub fn split(input: &[u8]) -> (&[u8], &[u8]) {
    let input = &input[..input.len().min(INPUT_BYTES)];
    input.split_at(input.len().min(ORDER_BYTES))
}

/// What heapverdict prints when this is its standard input.
pub fn heapverdict(input: &[u8]) -> String {
    let (order, query) = split(input);
    let mut report = [0u8; REPORT_BYTES];
    let answer = verdict(order, query, &mut report);
    let m = usize::from(report[0]);
    let n = usize::from(report[m + 1]);
    printed(answer, &report[..2 * m + n + 5], |buffer| derivation(order, query, buffer))
}

/// The text for an answer, with the report's bytes or what the derivation call writes.
pub fn printed(answer: Answer, report: &[u8], derivation: impl FnOnce(&mut [u8]) -> Answer) -> String {
    use std::fmt::Write;
    let mut text = String::new();
    match answer {
        Err(r) => writeln!(text, "refused {} at {}", r.number, r.place).unwrap(),
        Ok(Verdict::Satisfiable) => {
            let row: Vec<String> = report.iter().map(|b| format!("{b:02x}")).collect();
            writeln!(text, "sat\n{}", row.join(" ")).unwrap();
        }
        Ok(Verdict::Refuted) => {
            text.push_str("unsat\n");
            let mut buffer = vec![0u8; DERIVATION_BYTES];
            match derivation(&mut buffer) {
                Err(r) => writeln!(text, "refused {} at {}", r.number, r.place).unwrap(),
                Ok(_) => {
                    let count = usize::from(buffer[0]) << 8 | usize::from(buffer[1]);
                    for line in buffer[2..2 + 4 * count].chunks_exact(4) {
                        writeln!(text, "{} {} {} {}", line[0], line[1], line[2], line[3]).unwrap();
                    }
                }
            }
        }
    }
    text
}
