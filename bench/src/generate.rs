//! Random orders, queries and inputs. The same seed gives the same row on every machine.

use crate::reference::{self, End, Scribe};

pub struct Random(u64);

impl Random {
    pub fn new(seed: u64) -> Random {
        Random(seed)
    }

    /// SplitMix64.
    pub fn word(&mut self) -> u64 {
        self.0 = self.0.wrapping_add(0x9e37_79b9_7f4a_7c15);
        let mut z = self.0;
        z = (z ^ (z >> 30)).wrapping_mul(0xbf58_476d_1ce4_e5b9);
        z = (z ^ (z >> 27)).wrapping_mul(0x94d0_49bb_1331_11eb);
        z ^ (z >> 31)
    }

    pub fn below(&mut self, bound: usize) -> usize {
        (self.word() % bound as u64) as usize
    }

    /// From `low` to `high`, both included.
    pub fn between(&mut self, low: usize, high: usize) -> usize {
        low + self.below(high - low + 1)
    }

    pub fn percent(&mut self, percent: usize) -> bool {
        self.below(100) < percent
    }

    pub fn byte(&mut self) -> u8 {
        self.word() as u8
    }
}

pub fn order(random: &mut Random) -> [u8; 8] {
    let mut list = [1, 2, 3, 4, 5, 6, 7, 8];
    for i in (1..8).rev() {
        list.swap(i, random.below(i + 1));
    }
    list
}

/// A query as lists of entries, from which the bytes are made. One with booleans is an old query, which is refused (02, R-13).
#[derive(Clone, Default)]
pub struct Draft {
    pub terms: Vec<u8>,
    pub equalities: Vec<[u8; 3]>,
    pub reachability: Vec<[u8; 3]>,
    pub data: Vec<[u8; 3]>,
    pub booleans: Vec<[u8; 2]>,
}

impl Draft {
    pub fn bytes(&self) -> Vec<u8> {
        let mut bytes = vec![self.terms.len() as u8];
        bytes.extend(&self.terms);
        for section in [&self.equalities, &self.reachability, &self.data] {
            bytes.push(section.len() as u8);
            bytes.extend(section.iter().flatten());
        }
        bytes.push(self.booleans.len() as u8);
        bytes.extend(self.booleans.iter().flatten());
        bytes
    }
}

/// How a random query is drawn.
#[derive(Clone, Copy)]
pub struct Shape {
    pub terms: usize,
    /// Of 100 terms, how many are f of an earlier one; of the others, how many name nil.
    pub links: usize,
    pub nil: usize,
    pub equalities: usize,
    pub reachability: usize,
    pub data: usize,
    /// Of 100 equality, reachability and other literals, how many are plain.
    pub plain_equal: usize,
    pub plain_reach: usize,
    pub plain_other: usize,
}

pub fn draft(random: &mut Random, shape: &Shape) -> Draft {
    let n = shape.terms;
    let mut draft = Draft::default();
    for i in 0..n {
        draft.terms.push(if random.percent(shape.links) {
            random.below(i + 1) as u8
        } else if random.percent(shape.nil) {
            reference::NIL
        } else {
            0
        });
    }
    let term = |random: &mut Random| random.between(1, n) as u8;
    if n > 0 {
        for _ in 0..shape.equalities {
            let sign = u8::from(random.percent(shape.plain_equal));
            draft.equalities.push([sign, term(random), term(random)]);
        }
        for _ in 0..shape.reachability {
            let sign = u8::from(random.percent(shape.plain_reach));
            draft.reachability.push([sign, term(random), term(random)]);
        }
        for _ in 0..shape.data {
            let sign = u8::from(random.percent(shape.plain_other));
            // Few fields, so that literals meet.
            let fields = if random.percent(70) { 2 } else { 8 };
            draft.data.push([sign, random.between(1, fields) as u8, term(random)]);
        }
    }
    draft
}

/// A shape with at most this many terms.
pub fn shape(random: &mut Random, most: usize) -> Shape {
    let terms = random.below(most + 1);
    let big = 1 + terms;
    let percent = |random: &mut Random| [0, 20, 50, 80, 100][random.below(5)];
    Shape {
        terms,
        links: [0, 30, 60, 100][random.below(4)],
        nil: [0, 0, 15, 40][random.below(4)],
        equalities: random.below(big),
        reachability: if random.percent(30) { random.below(4) } else { random.below(2 * big) },
        data: if random.percent(50) { 0 } else { random.below(big) },
        plain_equal: percent(random),
        plain_reach: [30, 50, 70, 90, 100][random.below(5)],
        plain_other: percent(random),
    }
}

pub fn query(random: &mut Random, most: usize) -> Vec<u8> {
    let shape = shape(random, most);
    draft(random, &shape).bytes()
}

/// How a walk of at most `budget` lines ends, and with how many lines; `None` if it has more, or if order
/// or query is refused.
pub fn walked(order: &[u8], query: &[u8], budget: u64) -> Option<(End, u64)> {
    let order = reference::check_order(order).ok()?;
    let query = reference::check_query(query).ok()?;
    let mut scribe = Scribe::new(budget);
    let (end, _) = reference::walk(&order, &query, &mut scribe);
    (end != End::Stopped).then_some((end, scribe.count))
}

/// Damages an input in one or a few places, or makes an old query of it.
pub fn damage(random: &mut Random, bytes: &mut Vec<u8>) {
    if random.percent(10) && bytes.pop().is_some() {
        let count = random.between(1, 61);
        bytes.push(count as u8);
        bytes.extend((0..count).flat_map(|_| [random.below(2) as u8, random.between(1, 8) as u8]));
    }
    for _ in 0..=random.below(3) {
        let length = bytes.len();
        match random.below(7) {
            0 if length > 0 => bytes.truncate(random.below(length)),
            1 => bytes.extend((0..=random.below(4)).map(|_| 0)),
            2 => {
                let extra = random.byte();
                bytes.insert(random.below(length + 1), extra);
            }
            3 if length > 0 => {
                bytes.remove(random.below(length));
            }
            4 if length > 0 => {
                let at = random.below(length);
                bytes[at] = random.byte();
            }
            _ if length > 0 => {
                // Near misses.
                let at = random.below(length);
                bytes[at] = [0, 1, 2, 8, 9, 16, 17, 60, 61, 254, 255][random.below(11)];
            }
            _ => {}
        }
    }
}

/// A random input for heapverdict, valid unless `damaged`, whose walk has at most `budget` lines.
pub fn input(random: &mut Random, damaged: bool, budget: u64) -> Vec<u8> {
    loop {
        let most = [4, 8, 12, 16][random.below(4)];
        let order = order(random);
        let query = if random.percent(10) { crowded(random) } else { query(random, most) };
        let mut bytes = [&order[..], &query].concat();
        if damaged {
            let before = bytes.clone();
            damage(random, &mut bytes);
            if bytes == before {
                continue;
            }
        }
        if within(&bytes, budget) {
            return bytes;
        }
    }
}

/// Whether heapverdict's walk for this input has at most `budget` lines, or it is refused.
pub fn within(input: &[u8], budget: u64) -> bool {
    let input = &input[..input.len().min(reference::INPUT_BYTES)];
    let (order, query) = input.split_at(input.len().min(reference::ORDER_BYTES));
    let refused = reference::check_order(order).is_err() || reference::check_query(query).is_err();
    refused || walked(order, query, budget).is_some()
}

/// A query with sections up to their limits.
pub fn crowded(random: &mut Random) -> Vec<u8> {
    let most = |random: &mut Random| if random.percent(40) { 60 } else { random.below(61) };
    let shape = Shape {
        terms: random.between(1, 16),
        links: random.below(101),
        nil: [0, 0, 15, 40][random.below(4)],
        equalities: most(random),
        reachability: most(random),
        data: most(random),
        plain_equal: [0, 2, 10][random.below(3)],
        plain_reach: random.below(101),
        plain_other: [0, 1, 99, 100][random.below(4)],
    };
    draft(random, &shape).bytes()
}

/// Inputs of all sizes, every second one damaged.
pub fn inputs(count: usize, seed: u64) -> Vec<Vec<u8>> {
    let mut random = Random::new(seed);
    (0..count).map(|i| input(&mut random, i % 2 == 1, 300)).collect()
}
