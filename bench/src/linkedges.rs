//! Inputs at the edges of queries with three links (02, R-11): CYCLE by each link with all of its alternatives, every refusal at several
//! places and two faults at once, the fewest and the most bytes, nil, long paths and long derivations.

use crate::edges::{plain, two_faults, under};
use crate::generate::{self, Draft, Random};
use crate::{linkheaps, links, long};

const ORDER: [u8; 8] = [1, 2, 3, 4, 5, 6, 7, 8];

/// A query with links 1, 2, 3, 1 and so on, from `first`, in the order of its link bytes.
fn mixed(draft: &Draft, first: u8) -> Vec<u8> {
    let mut at = first + 1;
    linkheaps::linked(&draft.bytes(), || {
        at += 1;
        at % 3 + 1
    })
}

/// Two entries in each of sections 2 to 4 and three terms; satisfiable. The places of its bytes: counts 0, 7, 14, 23, 30; terms 1 to 6;
/// entries at 8, 11, 15, 19, 24, 27; links at 1, 3, 5, 16 and 20; 31 bytes.
fn middle() -> Vec<u8> {
    let draft = Draft {
        terms: vec![0, 1, 0],
        equalities: vec![[0, 1, 2], [1, 3, 3]],
        reachability: vec![[1, 1, 3], [0, 2, 1]],
        data: vec![[1, 1, 1], [0, 8, 2]],
        ..Draft::default()
    };
    mixed(&draft, 2)
}

/// Every section full: 637 bytes.
fn longest() -> Draft {
    let term = |i: u8| i % 16 + 1;
    Draft {
        terms: (0..16u8).map(|i| if i % 3 == 1 { i } else { 0 }).collect(),
        equalities: (0..60u8).map(|i| [1, term(i), term(i)]).collect(),
        reachability: (0..60u8).map(|i| [1, term(i), term(i)]).collect(),
        data: (0..60u8).map(|i| [1, i % 8 + 1, term(i)]).collect(),
        ..Draft::default()
    }
}

pub fn inputs() -> Vec<Vec<u8>> {
    let mut all = Vec::new();
    cycles(&mut all);
    lengths(&mut all);
    counts(&mut all);
    single_faults(&mut all);
    double_faults(&mut all);
    old_queries(&mut all);
    nil(&mut all);
    deep(&mut all);
    random(&mut all);
    all.extend(long());
    all
}

/// CYCLE by links 1, 2 and 3 with 1 to 14 alternatives: all of them refuted, or all but the last or a middle one.
fn cycles(all: &mut Vec<Vec<u8>>) {
    for k in 1..=14u8 {
        // Terms 1 to k+1 in a chain, the last joined with the first; term k+2 is reached.
        let y = k + 2;
        let mut draft = Draft { terms: (0..=k).chain([0]).collect(), ..Draft::default() };
        draft.equalities.push([1, k + 1, 1]);
        draft.reachability.push([1, k / 2 + 1, y]);
        draft.equalities.extend((1..=k).map(|x| [0, x, y]));
        for link in 1..=3 {
            for order in [[5, 1, 2, 3, 4, 6, 7, 8], ORDER] {
                if order[0] != 5 && k > 5 {
                    continue;
                }
                all.push(under(&order, &linkheaps::linked(&draft.bytes(), || link)));
                for open in [k, k / 2 + 1] {
                    let mut met = draft.clone();
                    met.equalities.retain(|entry| *entry != [0, open, y]);
                    all.push(under(&order, &linkheaps::linked(&met.bytes(), || link)));
                }
            }
        }
    }
    // Two rings through one term, by links 2 and 3, and a term on each of them.
    let mut draft = Draft { terms: vec![0, 1, 2, 3, 1, 5, 6, 0, 0], ..Draft::default() };
    draft.equalities = vec![[1, 4, 1], [1, 7, 1], [0, 8, 1], [0, 8, 2], [0, 9, 1], [0, 9, 5]];
    draft.reachability = vec![[1, 2, 8], [1, 5, 9]];
    for order in [[5, 1, 2, 3, 4, 6, 7, 8], [8, 7, 6, 5, 4, 3, 2, 1], ORDER] {
        for also in [None, Some([0, 8, 3]), Some([0, 9, 6])] {
            let mut draft = draft.clone();
            draft.equalities.extend(also);
            let mut links = [2, 2, 2, 3, 3, 3, 2, 3].into_iter();
            all.push(under(&order, &linkheaps::linked(&draft.bytes(), || links.next().expect("eight links"))));
        }
    }
}

/// The fewest and the most bytes.
fn lengths(all: &mut Vec<Vec<u8>>) {
    for length in [0, 1, 7, 8] {
        all.push(ORDER[..length].to_vec());
    }
    for length in 0..=middle().len() {
        all.push(plain(&middle()[..length]));
    }
    let mut full = longest();
    let query = mixed(&full, 1);
    assert_eq!(query.len(), 637);
    all.push(plain(&query));
    for length in [1, 32, 33, 34, 213, 214, 215, 454, 455, 456, 634, 635, 636] {
        all.push(plain(&query[..length]));
    }
    for more in [1, 2, 378, 379, 380, 2000] {
        all.push(plain(&[&query[..], &vec![0; more]].concat()));
    }
    // One that needs a few lines.
    full.reachability[59] = [0, 16, 16];
    all.push(under(&[2, 3, 4, 1, 5, 6, 7, 8], &mixed(&full, 1)));
    all.push(under(&[1, 2, 3, 4, 5, 6, 7, 7], &query));
}

/// 60 and 61 entries in each of sections 2 to 5, and other counts.
fn counts(all: &mut Vec<Vec<u8>>) {
    let entries: [&[u8]; 4] = [&[1, 1, 1], &[1, 3, 1, 1], &[1, 8, 1], &[1, 1]];
    for (i, entry) in entries.iter().enumerate() {
        let before = vec![0; i];
        let after = vec![0; 3 - i];
        for count in [1, 59, 60, 61, 62, 255] {
            let body = entry.repeat(count);
            all.push(plain(&[&[1, 0, 0][..], &before, &[count as u8], &body, &after].concat()));
            // One byte too few.
            all.push(plain(&[&[1, 0, 0][..], &before, &[count as u8], &body[..body.len() - 1]].concat()));
        }
    }
    for count in [15, 16, 17, 18, 128, 255] {
        all.push(plain(&[&[count][..], &vec![0; 2 * usize::from(count)], &[0; 4]].concat()));
        all.push(plain(&[&[count][..], &vec![0; 2 * usize::from(count) - 1]].concat()));
    }
}

/// Every byte of the middle query set to each of some values: refusals 2 to 8, 22 and 26 at all places, and some queries that are still
/// accepted.
fn single_faults(all: &mut Vec<Vec<u8>>) {
    let query = middle();
    for at in 0..query.len() {
        for value in [0, 1, 2, 3, 4, 8, 9, 17, 61, 254, 255] {
            if query[at] != value {
                let mut bad = query.clone();
                bad[at] = value;
                all.push(plain(&bad));
            }
        }
    }
}

/// Two faults at once: 22 comes before 5 to 8 and behind the others; of one kind, the lower place.
fn double_faults(all: &mut Vec<Vec<u8>>) {
    // Faults of 22 (sections 1 and 3), 5, 6, 7 and 8: see `middle`.
    let faults: [(usize, u8); 14] = [
        (1, 1),
        (3, 0),
        (5, 4),
        (16, 0),
        (20, 4),
        (4, 2),
        (6, 3),
        (8, 2),
        (24, 255),
        (9, 0),
        (18, 4),
        (29, 17),
        (25, 0),
        (28, 9),
    ];
    for (i, &(first, one)) in faults.iter().enumerate() {
        all.extend(two_faults(&middle(), &faults, i));
        // With a fault of length: too short, a count too high, bytes that follow, booleans; and a bad order list.
        let mut bad = middle();
        bad[first] = one;
        all.push(plain(&bad[..30]));
        all.push(plain(&[&bad[..], &[0]].concat()));
        all.push(under(&[1, 2, 3, 4, 5, 6, 7, 7], &bad));
        bad[30] = 1;
        all.push(plain(&[&bad[..], &[1, 1]].concat()));
        bad[14] = 61;
        all.push(plain(&bad));
    }
}

/// Old queries (02, R-13): refused at the count of section 5, before what is wrong in or behind it, and before 22 and 5 to 8.
fn old_queries(all: &mut Vec<Vec<u8>>) {
    let four = middle();
    let four = &four[..four.len() - 1];
    for literals in [vec![[1, 1]], vec![[2, 9], [0, 8]], vec![[0, 0]; 60], vec![[1, 8]; 61]] {
        let five = [four, &[literals.len() as u8], &literals.concat()].concat();
        all.push(plain(&five));
        all.push(plain(&five[..five.len() - 1]));
        all.push(plain(&[&five[..], &[0]].concat()));
    }
}

/// Nil: one node, whose three links go to itself.
fn nil(all: &mut Vec<Vec<u8>>) {
    let lists: [&[u8]; 8] = [
        &[255],
        &[255, 1, 2, 3],
        // Two successors of nil by one link, and by two: its own links double them.
        &[255, 1, 1],
        &[0, 255, 2, 1, 2],
        // A successor of nil stands below nil's other name; the nil terms have links before they are joined.
        &[255, 1, 255, 3, 255, 5],
        &[0, 1, 255, 0, 255, 3, 5, 1],
        &[255, 254, 255],
        &[255; 16],
    ];
    for terms in lists {
        let n = terms.len() as u8;
        let bare = Draft { terms: terms.to_vec(), ..Draft::default() };
        for first in 1..=3 {
            all.push(plain(&mixed(&bare, first)));
            for equal in [[1, 1, n], [0, 1, n], [1, n / 2 + 1, n], [0, n / 2 + 1, n]] {
                for reach in [[1, n, 1], [0, n, 1], [1, n / 2 + 1, n]] {
                    let mut more = bare.clone();
                    more.equalities.push(equal);
                    more.reachability.push(reach);
                    all.push(plain(&mixed(&more, first)));
                }
            }
        }
    }
}

/// Long paths: by each link every term reaches every other. Under orders that begin with each rule; and with the last fact denied, so that there
/// are lines.
fn deep(all: &mut Vec<Vec<u8>>) {
    for first in 1..=8u8 {
        let mut order = ORDER.to_vec();
        order.retain(|&rule| rule != first);
        order.insert(0, first);
        for n in [2, 5, 16] {
            let mut ring = Draft { terms: vec![0; usize::from(n)], ..Draft::default() };
            for _ in 0..3 {
                ring.reachability.extend((1..=n).map(|i| [1, i, i % n + 1]));
            }
            let mut at = 0;
            let query = linkheaps::linked(&ring.bytes(), || {
                at += 1;
                (at - 1) / n + 1
            });
            all.push(under(&order, &query));
            // With TOTAL first there are too many lines.
            if n == 2 || first != 7 && n == 5 || [1, 3, 8].contains(&first) {
                ring.reachability.push([0, n, n - 1]);
                let mut at = 0;
                let query = linkheaps::linked(&ring.bytes(), || {
                    at += 1;
                    ((at - 1) / n + 1).min(3)
                });
                all.push(under(&order, &query));
            }
        }
        // A chain by links in turn, and one closed to a ring.
        let mut chain = Draft { terms: (0..16).collect(), ..Draft::default() };
        all.push(under(&order, &mixed(&chain, 1)));
        chain.equalities.push([1, 1, 16]);
        all.push(under(&order, &mixed(&chain, 1)));
        all.push(under(&order, &linkheaps::linked(&chain.bytes(), || 3)));
    }
}

/// Queries of all sizes, every second one damaged.
fn random(all: &mut Vec<Vec<u8>>) {
    let mut random = Random::new(11);
    for i in 0..200 {
        all.push(input(&mut random, i % 2 == 1, 300));
    }
}

/// A random input for linksverdict, valid unless `damaged`, whose walk has at most `budget` lines.
pub fn input(random: &mut Random, damaged: bool, budget: u64) -> Vec<u8> {
    loop {
        let most = [4, 8, 12, 16][random.below(4)];
        let order = generate::order(random);
        let query = if random.percent(10) { generate::crowded(random) } else { generate::query(random, most) };
        // Some with two links or one, so that facts of one link meet.
        let highest = random.between(1, 3);
        let query = linkheaps::linked(&query, || random.between(1, highest) as u8);
        let mut bytes = under(&order, &query);
        if damaged {
            let before = bytes.clone();
            generate::damage(random, &mut bytes);
            if bytes == before {
                continue;
            }
        }
        let (order, query) = crate::reference::split(&bytes);
        if !links::accepted(order, query) || links::lines(order, query, budget).is_some() {
            return bytes;
        }
    }
}

/// Queries of long.txt by one link: with 16,000 lines, and with 16,001, 16,002 and 65,598, which are too many (refusal 12); the last looks like 62
/// if it is counted in two bytes.
pub fn long() -> [Vec<u8>; 4] {
    let inputs = long::inputs();
    [(3, 1), (6, 1), (7, 1), (8, 3)].map(|(i, link)| {
        let (order, query) = inputs[i].split_at(8);
        under(order, &linkheaps::linked(query, || link))
    })
}
