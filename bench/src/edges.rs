//! Inputs at the edges: the fewest and most bytes, every refusal at several places, two faults at once.

use crate::generate::{Draft, Random};

const ORDER: [u8; 8] = [1, 2, 3, 4, 5, 6, 7, 8];

pub fn under(order: &[u8], query: &[u8]) -> Vec<u8> {
    [order, query].concat()
}

pub fn plain(query: &[u8]) -> Vec<u8> {
    under(&ORDER, query)
}

/// Two entries in each of sections 2 to 4 and three terms; satisfiable. The places of its bytes:
/// counts 0, 4, 11, 18, 25; terms 1 to 3; entries at 5, 8, 12, 15, 19, 22; 26 bytes.
fn middle() -> Vec<u8> {
    Draft {
        terms: vec![0, 1, 0],
        equalities: vec![[0, 1, 2], [1, 3, 3]],
        reachability: vec![[1, 1, 3], [0, 2, 1]],
        data: vec![[1, 1, 1], [0, 8, 2]],
        ..Draft::default()
    }
    .bytes()
}

/// Every section full: 561 bytes. `wild` varies what the literals say.
fn longest(wild: u8) -> Draft {
    let term = |i: u8| i % 16 + 1;
    Draft {
        terms: (0..16u8).map(|i| if i % 3 == 1 { i } else { 0 }).collect(),
        equalities: (0..60u8).map(|i| [0, term(i), term(i + 1 + i / 16)]).collect(),
        reachability: (0..60u8).map(|i| [u8::from(i % 4 < wild), term(i), term(3 * i + i / 16)]).collect(),
        data: (0..60u8).map(|i| [u8::from(i % 8 < 4), i % 8 + 1, term(i)]).collect(),
        ..Draft::default()
    }
}

pub fn inputs() -> Vec<Vec<u8>> {
    let mut all = Vec::new();
    examples(&mut all);
    orders(&mut all);
    lengths(&mut all);
    counts(&mut all);
    single_faults(&mut all);
    double_faults(&mut all);
    clashes(&mut all);
    cycles(&mut all);
    deep(&mut all);
    nil(&mut all);
    old_queries(&mut all);
    all
}

/// E1 to E10.
fn examples(all: &mut Vec<Vec<u8>>) {
    let e4 = [3, 0, 1, 0, 1, 0, 1, 3, 2, 1, 1, 3, 0, 2, 3, 0, 0];
    all.push(plain(&[0, 0, 0, 0, 0]));
    all.push(plain(&[1, 0, 0, 0, 0, 0]));
    all.push(plain(&[2, 0, 0, 1, 0, 1, 2, 2, 1, 1, 2, 1, 2, 1, 0, 0]));
    all.push(plain(&e4));
    all.push(under(&[4, 1, 2, 3, 5, 6, 7, 8], &e4));
    all.push(plain(&[1, 0, 0, 1, 0, 1, 1, 0, 0]));
    all.push(plain(&[3, 0, 1, 1, 1, 0, 2, 3, 0, 0, 0]));
    all.push(plain(&[0, 0, 0, 0, 2, 1, 1, 0, 1]));
    all.push(plain(&[1, 0, 0, 0, 2, 1, 1, 1, 0, 1, 1, 0]));
    all.push(plain(&[2, 0, 0, 1, 1, 1, 2, 0, 2, 1, 1, 1, 0, 1, 2, 0]));
    all.push(plain(&[4, 0, 0, 1, 2, 2, 1, 3, 4, 0, 1, 2, 2, 1, 1, 2, 1, 2, 1, 0, 0]));
    all.push(plain(&[4, 0, 0, 1, 2, 2, 1, 3, 4, 0, 1, 2, 1, 1, 1, 2, 0, 0]));
    all.push(plain(&[17]));
    all.push(plain(&[&[17][..], &[0; 17], &[0; 4]].concat()));
    all.push(plain(&[&[16][..], &[0; 16], &[0; 4]].concat()));
    all.push(plain(&[1, 1, 0, 0, 0, 0]));
    all.push(plain(&[]));
    all.push(under(&[1, 1, 3, 4, 5, 6, 7, 8], &[0; 5]));
    for count in [60, 61] {
        for sign in [0, 1] {
            let entries = [sign, 1, 1].repeat(usize::from(count));
            all.push(plain(&[&[1, 0, count][..], &entries, &[0; 3]].concat()));
        }
    }
}

/// Order lists, good and bad.
fn orders(all: &mut Vec<Vec<u8>>) {
    for bad in [
        [0, 1, 2, 3, 4, 5, 6, 7],
        [2, 3, 4, 5, 6, 7, 8, 9],
        [1, 2, 3, 4, 5, 6, 7, 7],
        [1, 2, 3, 4, 5, 6, 7, 0],
        [1, 2, 3, 4, 5, 6, 7, 9],
        [1, 2, 3, 4, 5, 6, 7, 255],
        [1, 2, 3, 4, 5, 6, 7, 0x18],
        [0; 8],
        [255; 8],
        [8; 8],
    ] {
        all.push(under(&bad, &middle()));
        // Check 1 comes before all others.
        all.push(under(&bad, &[17]));
        all.push(under(&bad, &[]));
    }
    for good in [[8, 7, 6, 5, 4, 3, 2, 1], [5, 6, 7, 8, 1, 2, 3, 4], [7, 6, 4, 5, 8, 3, 2, 1]] {
        all.push(under(&good, &middle()));
    }
}

/// The fewest and the most bytes.
fn lengths(all: &mut Vec<Vec<u8>>) {
    for length in 0..=8 {
        all.push(ORDER[..length].to_vec());
    }
    // Every shortening of a query, and of the longest one near its end.
    for length in 0..=middle().len() {
        all.push(plain(&middle()[..length]));
    }
    for wild in [0, 1] {
        let query = longest(wild).bytes();
        assert_eq!(query.len(), 561);
        all.push(plain(&query));
        for length in [1, 16, 17, 18, 197, 198, 199, 378, 379, 380, 558, 559, 560] {
            all.push(plain(&query[..length]));
        }
        for more in [1, 2, 120, 121, 454, 455, 456, 2000] {
            all.push(plain(&[&query[..], &vec![0; more]].concat()));
        }
    }
    // A longest query that can be met, and one that needs a few lines.
    let mut free = longest(0);
    for (i, entry) in free.equalities.iter_mut().enumerate() {
        *entry = [1, (i % 16) as u8 + 1, (i % 16) as u8 + 1];
    }
    for entry in free.reachability.iter_mut() {
        *entry = [1, entry[1], entry[1]];
    }
    for entry in free.data.iter_mut() {
        entry[0] = 1;
    }
    all.push(plain(&free.bytes()));
    free.reachability[59] = [0, 16, 16];
    all.push(under(&[2, 3, 4, 1, 5, 6, 7, 8], &free.bytes()));
    // Bytes after a short query, up to and past the 1,024 that are read.
    for total in [14, 100, 1022, 1023, 1024, 1025, 1026, 2048, 65_534] {
        let mut input = plain(&[1, 0, 0, 0, 0, 0]);
        input.resize(total, 1);
        all.push(input);
    }
    // Junk.
    let mut random = Random::new(10);
    for length in [1, 7, 8, 9, 100, 1023, 1024, 1025, 3000] {
        let junk: Vec<u8> = (0..length).map(|_| random.byte()).collect();
        all.push(junk.clone());
        all.push(plain(&junk));
        all.push(plain(&junk.iter().map(|b| b % 16).collect::<Vec<_>>()));
        all.push(plain(&junk.iter().map(|b| b % 2).collect::<Vec<_>>()));
    }
    all.push(vec![0; 1024]);
    all.push(vec![255; 1024]);
}

/// 60 and 61 entries in each of sections 2 to 4, and other counts; in section 5 each of them is refused (02, R-13).
fn counts(all: &mut Vec<Vec<u8>>) {
    for section in 2..=5usize {
        let width = if section == 5 { 2 } else { 3 };
        let entry = if section == 4 { [1, 8, 1] } else { [1, 1, 1] };
        let before = vec![0; section - 2];
        let after = vec![0; 5 - section];
        for count in [1, 59, 60, 61, 62, 255] {
            let entries = entry[..width].repeat(count);
            all.push(plain(&[&[1, 0][..], &before, &[count as u8], &entries, &after].concat()));
            // The count alone: above the limit it is refused before the query's end is met.
            all.push(plain(&[&[1, 0][..], &before, &[count as u8]].concat()));
            // One byte too few.
            all.push(plain(&[&[1, 0][..], &before, &[count as u8], &entries[..count * width - 1]].concat()));
        }
    }
    for count in [16, 17, 18, 60, 128, 255] {
        all.push(plain(&[count]));
        all.push(plain(&[&[count][..], &vec![0; usize::from(count)], &[0; 4]].concat()));
        all.push(plain(&[&[count][..], &vec![0; usize::from(count) - 1]].concat()));
    }
}

/// Every byte of the middle query set to each of some values: refusals 2 to 8 at all places, and some
/// queries that are still accepted.
fn single_faults(all: &mut Vec<Vec<u8>>) {
    let query = middle();
    for at in 0..query.len() {
        for value in [0, 1, 2, 3, 4, 8, 9, 17, 61, 254, 255] {
            if query[at] != value {
                let mut bad = query.clone();
                bad[at] = value;
                all.push(plain(&bad));
            }
        }
    }
    // The last term's byte, and terms of literals, with 16 terms.
    for value in [14, 15, 16, 17, 254, 255] {
        let mut bad = [&[16][..], &[0; 16], &[0; 4]].concat();
        bad[16] = value;
        all.push(plain(&bad));
        all.push(plain(&[&[16][..], &[0; 16], &[1, 1, 1, value, 1, 1, value, 1, 1, 1, 8, value, 0]].concat()));
    }
    // No terms: every term number is too high.
    all.push(plain(&[0, 1, 1, 1, 1, 0, 0, 0]));
    all.push(plain(&[0, 0, 1, 0, 0, 0, 0, 0]));
    all.push(plain(&[0, 0, 0, 1, 1, 1, 1, 0]));
}

/// A query with the fault at `i` and one of those before it, each in turn: a fault is a place and the byte put there.
pub fn two_faults(query: &[u8], faults: &[(usize, u8)], i: usize) -> Vec<Vec<u8>> {
    let with = |&(second, other): &(usize, u8)| {
        let mut bad = query.to_vec();
        bad[faults[i].0] = faults[i].1;
        bad[second] = other;
        plain(&bad)
    };
    faults[..i].iter().map(with).collect()
}

/// Two faults at once: the lower refusal is met first, wherever it stands; of one kind, the lower place.
fn double_faults(all: &mut Vec<Vec<u8>>) {
    // One fault each of 5, 6, 7, 8 (places early and late), see `middle`.
    let faults: [(usize, u8); 12] = [
        (1, 1),
        (3, 3),
        (5, 2),
        (15, 255),
        (22, 2),
        (6, 0),
        (10, 4),
        (14, 4),
        (21, 0),
        (24, 17),
        (20, 0),
        (23, 9),
    ];
    for (i, &(first, one)) in faults.iter().enumerate() {
        all.extend(two_faults(&middle(), &faults, i));
        // With a fault of length: too short, a count too high, bytes that follow; and a bad order list.
        let mut bad = middle();
        bad[first] = one;
        all.push(plain(&bad[..25]));
        all.push(plain(&[&bad[..], &[0]].concat()));
        all.push(under(&[1, 2, 3, 4, 5, 6, 7, 7], &bad));
        bad[25] = 61;
        all.push(plain(&bad));
        bad[25] = 1;
        all.push(plain(&[&bad[..], &[1, 1]].concat()));
        bad[11] = 200;
        all.push(plain(&bad));
    }
}

/// Which clash is reported: lowest section, lowest place, lowest plain partner.
fn clashes(all: &mut Vec<Vec<u8>>) {
    let equalities = vec![[0, 1, 2], [0, 2, 3], [1, 2, 3], [0, 3, 2]];
    let reachability = vec![[0, 1, 1], [0, 2, 1], [0, 3, 1], [1, 2, 1], [0, 2, 1]];
    let data = vec![[1, 4, 1], [0, 5, 2], [1, 5, 3], [1, 5, 2], [0, 5, 3], [0, 4, 1], [1, 4, 1], [1, 5, 3]];
    for left_out in 0..8u8 {
        let kept = |section: u8| left_out >> section & 1 == 0;
        let mut draft = Draft { terms: vec![0, 0, 0], equalities: equalities.clone(), ..Draft::default() };
        if !kept(0) {
            draft.equalities.retain(|entry| entry[0] == 1);
        }
        if kept(1) {
            draft.reachability = reachability.clone();
        }
        if kept(2) {
            draft.data = data.clone();
        }
        all.push(plain(&draft.bytes()));
        all.push(under(&[8, 7, 6, 5, 4, 3, 2, 1], &draft.bytes()));
        // The same entries from back to front.
        draft.equalities.reverse();
        draft.reachability.reverse();
        draft.data.reverse();
        all.push(plain(&draft.bytes()));
    }
    // A partner that becomes one by a join on the way.
    let mut late = Draft { terms: vec![0, 1, 0], ..Draft::default() };
    late.equalities = vec![[1, 1, 2]];
    late.reachability = vec![[1, 1, 3]];
    late.data = vec![[0, 1, 3], [1, 2, 1], [0, 2, 3], [1, 2, 3], [1, 1, 2], [1, 1, 1]];
    all.push(plain(&late.bytes()));
    late.data.remove(3);
    all.push(plain(&late.bytes()));
}

/// CYCLE with 1 to 14 alternatives: all of them refuted, or all but the last or a middle one.
fn cycles(all: &mut Vec<Vec<u8>>) {
    for k in 1..=14u8 {
        // Terms 1 to k+1 in a chain, the last joined with the first; term k+2 is reached.
        let y = k + 2;
        let mut draft = Draft { terms: (0..=k).chain([0]).collect(), ..Draft::default() };
        draft.equalities.push([1, k + 1, 1]);
        draft.reachability.push([1, k / 2 + 1, y]);
        draft.equalities.extend((1..=k).map(|x| [0, x, y]));
        for order in [[5, 1, 2, 3, 4, 6, 7, 8], [1, 2, 5, 3, 4, 6, 7, 8], [8, 7, 6, 4, 3, 2, 1, 5], ORDER] {
            if k <= 6 || order[0] == 5 || order[2] == 5 {
                all.push(under(&order, &draft.bytes()));
                for open in [k, k / 2 + 1] {
                    let mut met = draft.clone();
                    met.equalities.retain(|entry| *entry != [0, open, y]);
                    all.push(under(&order, &met.bytes()));
                }
            }
        }
    }
}

/// Long paths: rings and fans of many variables, under orders that bring each rule to the front.
fn deep(all: &mut Vec<Vec<u8>>) {
    let ring = |n: u8| Draft {
        terms: vec![0; usize::from(n)],
        reachability: (1..=n).map(|i| [1, i, i % n + 1]).collect(),
        ..Draft::default()
    };
    for first in 1..=8u8 {
        let mut order: Vec<u8> = ORDER.to_vec();
        order.retain(|&rule| rule != first);
        order.insert(0, first);
        let order: [u8; 8] = order.try_into().unwrap();
        for n in [2, 5, 16] {
            all.push(under(&order, &ring(n).bytes()));
        }
        // A chain of links, and one closed to a ring.
        let mut chain = Draft { terms: (0..16).collect(), ..Draft::default() };
        all.push(under(&order, &chain.bytes()));
        // Its end reaches its beginning: a path of 255 steps, one short of 16 times 16.
        chain.reachability.push([1, 16, 1]);
        all.push(under(&order, &chain.bytes()));
        chain.reachability.clear();
        chain.equalities.push([1, 1, 16]);
        all.push(under(&order, &chain.bytes()));
        // The closed chain reaches a variable outside it: fourteen alternatives.
        let mut closed = Draft { terms: (0..15).chain([0]).collect(), ..Draft::default() };
        closed.equalities.push([1, 15, 1]);
        closed.reachability.push([1, 7, 16]);
        all.push(under(&order, &closed.bytes()));
        closed.equalities.push([0, 16, 1]);
        all.push(under(&order, &closed.bytes()));
        // A basin of several paths, closed to one ring.
        let mut paths = Draft { terms: vec![0, 1, 0, 3, 0, 0, 6], ..Draft::default() };
        paths.reachability = vec![[1, 2, 3], [1, 4, 5], [1, 5, 6], [1, 7, 1]];
        paths.equalities = vec![[0, 1, 3], [0, 1, 5], [0, 3, 5], [0, 1, 6], [0, 3, 6], [0, 5, 6]];
        all.push(under(&order, &paths.bytes()));
        // A term that leaves its basin for a first one.
        let mut fan = Draft { terms: vec![0; 4], ..Draft::default() };
        fan.reachability = vec![[1, 4, 1], [1, 4, 2], [1, 4, 3], [0, 1, 4], [0, 2, 1], [0, 3, 2]];
        all.push(under(&order, &fan.bytes()));
    }
}

/// Nil (02, R-3): one node, whose link goes to itself.
fn nil(all: &mut Vec<Vec<u8>>) {
    // Null in a live list: 1 reaches nil and nil reaches 2, which is not nil. Then the same with a variable in nil's place.
    for null in [255, 0] {
        let list = Draft {
            terms: vec![0, 0, null],
            equalities: vec![[0, 2, 3]],
            reachability: vec![[1, 1, 3], [1, 3, 2]],
            ..Draft::default()
        };
        all.push(plain(&list.bytes()));
    }
    let mut terms: Vec<Vec<u8>> = vec![
        vec![255],
        vec![255; 16],
        vec![255, 1, 2, 3],
        // f of nil twice: nil's own link doubles its successors.
        vec![255, 1, 1],
        vec![0, 255, 2, 1, 2],
        // f of nil stands below nil's other name; the nil terms have links before they are joined.
        vec![255, 1, 255, 3, 255, 5],
        vec![0, 1, 255, 0, 255, 3, 5, 1],
        vec![254],
        vec![0, 254],
        vec![255, 254, 255],
    ];
    terms.push((0..16u8).map(|i| if i % 2 == 0 { 255 } else { i }).collect());
    for terms in terms {
        let n = terms.len() as u8;
        let bare = Draft { terms, ..Draft::default() };
        all.push(plain(&bare.bytes()));
        for equal in [[1, 1, n], [0, 1, n], [1, n / 2 + 1, n], [0, n / 2 + 1, n]] {
            for reach in [[1, n, 1], [0, n, 1], [1, n / 2 + 1, n], [0, 1, n / 2 + 1]] {
                let mut more = bare.clone();
                more.equalities.push(equal);
                more.reachability.push(reach);
                all.push(plain(&more.bytes()));
                all.push(under(&[8, 7, 6, 5, 4, 3, 2, 1], &more.bytes()));
            }
        }
    }
}

/// Old queries (02, R-13): refused at the count of section 5, before what is wrong in or behind it, and before 5 to 8.
fn old_queries(all: &mut Vec<Vec<u8>>) {
    let four = middle();
    let four = &four[..four.len() - 1];
    for literals in [vec![[1, 1]], vec![[1, 7], [0, 8], [1, 8], [0, 7]], vec![[2, 9]], vec![[0, 0]; 60], vec![[1, 8]; 61]] {
        let count = [literals.len() as u8];
        let five = [four, &count[..], &literals.concat()].concat();
        all.push(plain(&five));
        all.push(plain(&five[..five.len() - 1]));
        all.push(plain(&[&five[..], &[0]].concat()));
        for (place, byte) in [(1, 1), (5, 2), (6, 0), (20, 9), (18, 61), (11, 61)] {
            let mut bad = five.clone();
            bad[place] = byte;
            all.push(plain(&bad));
        }
    }
}
