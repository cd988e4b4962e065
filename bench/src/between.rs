//! A second reading of request R-10: checks over six sections, and a plain search of small heaps. It shares no line with the proved code.

#[cfg(feature = "library")]
use crate::generate::{self, Random};
use std::fmt::Write;
use std::path::Path;
use std::time::Instant;

#[derive(Debug, PartialEq)]
pub enum Answer {
    Heap(Vec<u8>),
    Nothing,
    Refused(usize, usize),
}

/// The entries of each section, as slices of the query.
type Sections<'a> = Vec<Vec<&'a [u8]>>;

/// Section 5, the booleans, is retired (02, R-13).
const LIMITS: [usize; 6] = [16, 60, 60, 60, 0, 60];
/// What each byte of an entry is: e a term entry, s a sign, t a term, n a number 1 to 8.
const ROLES: [&[u8]; 6] = [b"e", b"stt", b"stt", b"snt", b"sn", b"sttt"];

fn sections(query: &[u8]) -> Result<Sections<'_>, (usize, usize)> {
    let mut at = 0;
    let mut starts = Vec::new();
    let mut all = Vec::new();
    for (limit, roles) in LIMITS.iter().zip(ROLES) {
        let count = *query.get(at).ok_or((2, query.len()))? as usize;
        if count > *limit {
            return Err((if *limit == 0 { 26 } else { 3 }, at));
        }
        let end = at + 1 + count * roles.len();
        if end > query.len() {
            return Err((2, query.len()));
        }
        starts.push(at + 1);
        all.push(query[at + 1..end].chunks(roles.len()).collect::<Vec<_>>());
        at = end;
    }
    if at < query.len() {
        return Err((4, at));
    }
    let n = query[0];
    let faults = |role: u8, i: usize, b: u8| match role {
        b'e' if b > i as u8 && b != 255 => Some(5),
        b's' if b > 1 => Some(6),
        b't' if b == 0 || b > n => Some(7),
        b'n' if b == 0 || b > 8 => Some(8),
        _ => None,
    };
    for k in 5..=8 {
        for (section, start) in starts.iter().enumerate() {
            for (i, entry) in all[section].iter().enumerate() {
                for (j, &b) in entry.iter().enumerate() {
                    if faults(ROLES[section][j], i, b) == Some(k) {
                        return Err((k, start + i * ROLES[section].len() + j));
                    }
                }
            }
        }
    }
    Ok(all)
}

/// How many links lead from v to w at least, if w is met.
fn steps(links: &[usize], v: usize, w: usize) -> Option<usize> {
    let mut at = v;
    for k in 0..=links.len() {
        if at == w {
            return Some(k);
        }
        at = links[at];
    }
    None
}

struct Search<'a> {
    sections: &'a Sections<'a>,
    links: Vec<usize>,
    nodes: Vec<usize>,
    counts: Vec<Vec<Option<usize>>>,
}

impl Search<'_> {
    fn entry(&self, t: usize) -> usize {
        self.sections[0][t][0] as usize
    }

    /// Every literal whose last term is t holds; terms and nodes are counted from 0 here.
    fn holds(&self, t: usize) -> bool {
        let node = |b: u8| self.nodes[b as usize - 1];
        let due = |terms: &[u8]| terms.iter().copied().max() == Some(t as u8 + 1);
        let nil = |u: usize| self.entry(u) == 255;
        if nil(t)
            && (self.links[self.nodes[t]] != self.nodes[t] || (0..t).any(|u| nil(u) && self.nodes[u] != self.nodes[t]))
        {
            return false;
        }
        let count = |a: u8, b: u8| self.counts[node(a)][node(b)];
        let fields = &self.sections[3];
        for x in fields.iter().filter(|x| x[0] == 1 && x[2] as usize <= t + 1) {
            for y in fields.iter().filter(|y| y[0] == 0 && y[1] == x[1] && y[2] as usize <= t + 1) {
                if node(x[2]) == node(y[2]) {
                    return false;
                }
            }
        }
        self.sections[1].iter().filter(|l| due(&l[1..])).all(|l| (node(l[1]) == node(l[2])) == (l[0] == 1))
            && self.sections[2].iter().filter(|l| due(&l[1..])).all(|l| count(l[1], l[2]).is_some() == (l[0] == 1))
            && self.sections[5].iter().filter(|l| due(&l[1..])).all(|l| {
                let between = matches!((count(l[1], l[2]), count(l[1], l[3])), (Some(y), Some(z)) if y <= z);
                between == (l[0] == 1)
            })
    }

    fn choose(&mut self) -> bool {
        let t = self.nodes.len();
        if t == self.sections[0].len() {
            return true;
        }
        let e = self.entry(t);
        let options = if e == 0 || e == 255 {
            0..self.links.len()
        } else {
            self.links[self.nodes[e - 1]]..self.links[self.nodes[e - 1]] + 1
        };
        for v in options {
            self.nodes.push(v);
            if self.holds(t) && self.choose() {
                return true;
            }
            self.nodes.pop();
        }
        false
    }
}

fn search(sections: &Sections<'_>) -> Option<Vec<u8>> {
    let n = sections[0].len();
    for m in 1..=n.max(1) {
        let mut links = vec![0; m];
        loop {
            let counts = (0..m).map(|v| (0..m).map(|w| steps(&links, v, w)).collect()).collect();
            let mut s = Search { sections, links: links.clone(), nodes: Vec::new(), counts };
            if s.choose() {
                let mut data = vec![0u8; m];
                for l in sections[3].iter().filter(|l| l[0] == 1) {
                    data[s.nodes[l[2] as usize - 1]] |= 1 << (l[1] - 1);
                }
                let numbers = |xs: &[usize]| xs.iter().map(|&x| x as u8 + 1).collect::<Vec<_>>();
                return Some(
                    [
                        vec![m as u8],
                        numbers(&links),
                        vec![n as u8],
                        numbers(&s.nodes),
                        vec![m as u8],
                        data,
                        vec![1, 0],
                    ]
                    .concat(),
                );
            }
            let Some(i) = (0..m).rev().find(|&i| links[i] + 1 < m) else { break };
            links[i] += 1;
            links[i + 1..].fill(0);
        }
    }
    None
}

pub fn answer(query: &[u8], room: usize) -> Answer {
    let sections = match sections(query) {
        Ok(sections) => sections,
        Err((number, place)) => return Answer::Refused(number, place),
    };
    if room < 53 {
        return Answer::Refused(9, 0);
    }
    if sections[0].len() > 5 {
        return Answer::Refused(21, 0);
    }
    search(&sections).map_or(Answer::Nothing, Answer::Heap)
}

fn text(answer: &Answer) -> String {
    match answer {
        Answer::Heap(report) => report.iter().fold("heap ".to_string(), |mut s, b| {
            write!(s, "{b:02x}").unwrap();
            s
        }),
        Answer::Nothing => "none".to_string(),
        Answer::Refused(number, place) => format!("refused {number} at {place}"),
    }
}

/// The vectors of R-10: a query in hex, the room, ` = ` and the answer on each line.
pub fn compare(path: &Path) -> Result<bool, String> {
    let lines = std::fs::read_to_string(path).map_err(|e| format!("{}: {e}", path.display()))?;
    let mut wrong = 0;
    for line in lines.lines() {
        let (given, expected) = line.split_once(" = ").ok_or("no answer")?;
        let (hex, room) = given.split_once(' ').ok_or("no room")?;
        let query: Vec<u8> = (0..hex.len() / 2)
            .map(|i| u8::from_str_radix(&hex[2 * i..2 * i + 2], 16))
            .collect::<Result<_, _>>()
            .map_err(|e| e.to_string())?;
        let found = text(&answer(&query, room.parse().map_err(|_| "room")?));
        if found != expected {
            wrong += 1;
            println!("{line}: {found}");
        }
    }
    println!("{} lines, {wrong} differ", lines.lines().count());
    Ok(wrong == 0)
}

/// Queries of five variables that the search leaves late: true literals about the last term, and one that fails.
pub fn slow() -> Vec<(&'static str, Vec<u8>)> {
    let section = |entries: Vec<Vec<u8>>| [vec![entries.len() as u8], entries.concat()].concat();
    let with = |last: Vec<u8>| {
        let mut between = vec![vec![1, 5, 5, 5]; 59];
        between.push(last);
        [
            section(vec![vec![0]; 5]),
            section(vec![vec![1, 5, 5]; 60]),
            section(vec![vec![1, 5, 5]; 60]),
            section(vec![]),
            section(vec![]),
            section(between),
        ]
        .concat()
    };
    let distinct = |true_ones: usize, last: Vec<Vec<u8>>| {
        let mut pairs = vec![vec![1, 5, 5]; true_ones];
        pairs.extend((1..=5).flat_map(|a| (a + 1..=5).map(move |b| vec![0, a, b])));
        let mut between = vec![vec![1, 5, 5, 5]; 60 - last.len()];
        between.extend(last);
        [
            section(vec![vec![0]; 5]),
            section(pairs),
            section(vec![vec![1, 5, 5]; 60]),
            section(vec![]),
            section(vec![]),
            section(between),
        ]
        .concat()
    };
    let ring: Vec<Vec<u8>> = (1..=4).flat_map(|a| [vec![1, 5, a, a], vec![1, a, 5, 5]]).collect();
    vec![
        ("none, the last literal fails", with(vec![0, 5, 5, 5])),
        ("none, five apart", distinct(0, vec![vec![0, 5, 5, 5]])),
        ("a ring of five, told by the last literals", distinct(0, ring.clone())),
        ("the same, every section full", distinct(50, ring)),
    ]
}

/// A call does what was expected: its number, and every byte that was lent.
fn agrees(expected: &Answer, number: u64, report: &[u8]) -> bool {
    let blank = |bytes: &[u8]| bytes.iter().all(|&b| b == 0);
    match expected {
        Answer::Heap(bytes) => number == 0 && report[..bytes.len()] == bytes[..] && blank(&report[bytes.len()..]),
        Answer::Nothing => number == 1 && blank(report),
        Answer::Refused(k, place) => number == (k * 65536 + place) as u64 && blank(report),
    }
}

/// A query of six sections of few literals, sometimes damaged, and sometimes with booleans, which are refused.
#[cfg(feature = "library")]
fn query(random: &mut Random) -> Vec<u8> {
    let n = random.between(0, 5) + usize::from(random.percent(5));
    let mut bytes = vec![n as u8];
    for t in 0..n {
        bytes.push(if random.percent(10) { 255 } else { random.below(t + 1) as u8 });
    }
    for roles in &ROLES[1..] {
        let retired = *roles == b"sn";
        let count = if (retired && random.percent(90)) || (n == 0 && !retired) { 0 } else { random.below(4) };
        bytes.push(count as u8);
        for role in roles.repeat(count) {
            bytes.push(match role {
                b's' => random.below(2) as u8,
                b't' => random.between(1, n) as u8,
                _ => random.between(1, 8) as u8,
            });
        }
    }
    if random.percent(20) {
        generate::damage(random, &mut bytes);
    }
    bytes
}

/// A call beside the plain search, on random queries and rooms, with junk in the report: whether all agree.
#[cfg(feature = "library")]
pub fn differ(count: usize, seed: u64, call: &dyn Fn(&[u8], &mut [u8]) -> u64) -> bool {
    let mut random = Random::new(seed);
    let (mut wrong, mut heaps, mut refused) = (0, 0, 0);
    for _ in 0..count {
        let query = query(&mut random);
        let room = [52, 53, 53, 53, 54, 60][random.below(6)];
        let mut report: Vec<u8> = (0..room).map(|_| random.byte()).collect();
        let expected = answer(&query, room);
        let number = call(&query, &mut report);
        heaps += usize::from(matches!(expected, Answer::Heap(_)));
        refused += usize::from(matches!(expected, Answer::Refused(..)));
        if !agrees(&expected, number, &report) {
            wrong += 1;
            println!("{query:?} {room}: {}, not {number} {report:?}", text(&expected));
        }
    }
    println!("{count} queries, {heaps} heaps, {refused} refused, {wrong} differ");
    wrong == 0
}

/// The best of three runs, in milliseconds.
fn best(run: &mut dyn FnMut()) -> f64 {
    let mut least = f64::INFINITY;
    for _ in 0..3 {
        let start = Instant::now();
        run();
        least = least.min(start.elapsed().as_secs_f64() * 1000.0);
    }
    least
}

/// Each slow query by the plain search and by the others; whether all answer alike.
pub fn time(others: &[(&str, &dyn Fn(&[u8], &mut [u8]) -> u64)]) -> bool {
    let mut alike = true;
    for (name, query) in slow() {
        let expected = answer(&query, 53);
        let plain = best(&mut || {
            std::hint::black_box(answer(&query, 53));
        });
        println!("{name}: {}, plain {plain:.1} ms", text(&expected).split(' ').next().unwrap_or(""));
        for (other, call) in others {
            let mut report = [0; 53];
            let number = call(&query, &mut report);
            let same = agrees(&expected, number, &report);
            let spent = best(&mut || {
                std::hint::black_box(call(&query, &mut report));
            });
            println!("    {other} {spent:.1} ms{}", if same { "" } else { ", and another answer" });
            alike &= same;
        }
    }
    alike
}
