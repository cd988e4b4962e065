//! Time of the checking call (02, R-8) on derivations of 16,000 lines: our own, and hostile ones.

use crate::library;
use crate::long;
use crate::timing;
use crate::vectors;
use std::hint::black_box;
use std::path::Path;
use std::time::Instant;

const LINES: usize = 16000;
const ORDER: [u8; 8] = [1, 2, 3, 8, 4, 5, 6, 7];

/// Microseconds of a call.
fn timed(call: &mut dyn FnMut()) -> f64 {
    let begin = Instant::now();
    call();
    begin.elapsed().as_secs_f64() * 1e6
}

/// The best of `rounds` checking calls, in microseconds, and the answer; and the best of as many calls that write a derivation, in turn with
/// them, so that what else the machine does falls on both.
fn best(rounds: usize, query: &[u8], derivation: &[u8], order: &[u8], written: &[u8]) -> (f64, u64, f64) {
    let mut buffer = vec![0u8; 2 + 4 * LINES];
    let (mut least, mut bound, mut answer) = (f64::MAX, f64::MAX, 0);
    for _ in 0..rounds {
        least = least.min(timed(&mut || answer = library::check(black_box(query), black_box(derivation))));
        bound = bound.min(timed(&mut || {
            library::derivation(black_box(order), black_box(written), black_box(&mut buffer));
        }));
    }
    (least, answer, bound)
}

/// Lines behind their count.
fn counted(lines: &[[u8; 4]]) -> Vec<u8> {
    let mut bytes = vec![(lines.len() / 256) as u8, (lines.len() % 256) as u8];
    bytes.extend(lines.iter().flatten());
    bytes
}

/// The derivation that the library writes, as lines.
fn derived(order: &[u8], query: &[u8]) -> Option<Vec<[u8; 4]>> {
    let mut buffer = vec![0u8; 2 + 4 * LINES];
    if library::derivation(order, query, &mut buffer) != 1 {
        return None;
    }
    let count = 256 * buffer[0] as usize + buffer[1] as usize;
    Some(buffer[2..2 + 4 * count].chunks(4).map(|line| [line[0], line[1], line[2], line[3]]).collect())
}

/// A chain of 16 terms, each f of the one before it, whose last reaches the first: no step branches or joins, and each adds one of the 255
/// facts that are not in the query, so that no path is longer.
fn deep() -> Vec<u8> {
    let mut query = vec![16];
    query.extend(0..16u8);
    query.extend([0, 1, 1, 16, 1, 0, 0]);
    query
}

/// Its path of 255 rule lines: x>x for each term, the links as facts, and x>z from x>y and y>z until every pair is held.
fn deep_lines() -> Vec<[u8; 4]> {
    let mut reach = [[false; 17]; 17];
    reach[16][1] = true;
    let mut lines = Vec::new();
    for x in 1..=16usize {
        reach[x][x] = true;
        lines.push([1, x as u8, 0, 0]);
    }
    for x in 1..=15usize {
        reach[x][x + 1] = true;
        lines.push([2, x as u8, x as u8 + 1, 0]);
    }
    loop {
        let found = (1..=16usize)
            .flat_map(|x| (1..=16usize).flat_map(move |y| (1..=16usize).map(move |z| (x, y, z))))
            .find(|&(x, y, z)| reach[x][y] && reach[y][z] && !reach[x][z]);
        let Some((x, y, z)) = found else { return lines };
        reach[x][z] = true;
        lines.push([3, x as u8, y as u8, z as u8]);
    }
}

/// The query with section 4 filled up by negated literals: they clash with nothing, and each look for a clash goes through all of them.
fn filled(query: &[u8]) -> Vec<u8> {
    let mut at = 0;
    for width in [1, 3, 3] {
        at += 1 + width * query[at] as usize;
    }
    let mut bytes = query[..at].to_vec();
    bytes.push(60);
    bytes.extend([0u8, 1, 1].repeat(60));
    bytes.push(0);
    bytes
}

/// Microseconds a rule step of the verdict call on these inputs. Steps are those of the walk under the order list, as the reference takes
/// them: the library settles long walks without them, so that on such inputs this is no step that it takes.
fn step(name: &str, inputs: &[Vec<u8>], rounds: usize) -> Result<f64, String> {
    let (steps, _) = timing::counts(name, inputs)?;
    Ok(timing::best(inputs, rounds, &library::verdict) * inputs.len() as f64 / steps as f64)
}

/// Times of 16,000 lines of each kind. Our own are held to the time of the call that writes them, and all others to that of the first query's.
/// Beside them, the rule steps of the verdict call.
pub fn run(directory: &Path) -> Result<bool, String> {
    for name in timing::WORKLOADS {
        let inputs = vectors::read_bin(&directory.join(format!("{name}.bin")))?;
        println!("{name}: {:.3} us a rule step of the verdict call", step(name, &inputs, 100)?);
    }
    let show = |kind: &str, query: &[u8], lines: &[[u8; 4]], wanted: u64, order: &[u8], written: &[u8]| -> bool {
        let (time, answer, bound) = best(40, query, &counted(lines), order, written);
        let (line, times) = (time / lines.len() as f64, time / bound);
        println!(
            "{kind:<40} {:6} lines {time:6.0} us, {line:.3} us a line, {times:.2} of {bound:6.0} us, answer {answer}",
            lines.len()
        );
        answer == wanted && times < 1.0
    };
    let inputs: Vec<Vec<u8>> = long::inputs()
        .into_iter()
        .filter(|input| derived(&input[..8], &input[8..]).is_some_and(|lines| lines.len() == LINES))
        .collect();
    let mut good = true;
    for input in &inputs {
        let (order, query) = input.split_at(8);
        let lines = derived(order, query).ok_or("no derivation")?;
        println!("the next: {:.3} us a rule step of the verdict call", step("our own", &[input.clone()], 5)?);
        good &= show("our own", query, &lines, 0, order, query);
        let mut last = lines.clone();
        last[LINES - 1] = [9, 0, 255, 0];
        good &= show("our own, its last line naming 0 and 255", query, &last, LINES as u64, order, query);
        let more = filled(query);
        good &= show("our own, 60 negated literals more", &more, &lines, 0, order, &more);
    }
    let (order, written) = inputs.first().ok_or("no query with 16,000 lines")?.split_at(8);
    // as deep as a path can be, and the lines run out or go on with terms that are not there
    let query = deep();
    let lines = deep_lines();
    let depth = lines.len();
    good &= show("as deep as it can be, then nothing", &query, &lines, depth as u64 + 1, order, written);
    for term in [0u8, 255] {
        let mut more = lines.clone();
        more.resize(LINES, [3, term, term, term]);
        good &=
            show(&format!("as deep as it can be, then terms {term}"), &query, &more, depth as u64 + 1, order, written);
    }
    // a full tree, and lines behind it
    let full = [1u8, 0, 0, 1, 0, 1, 1, 0, 0];
    let mut more = derived(&ORDER, &full).ok_or("no derivation of E5")?;
    let tree = more.len();
    more.resize(LINES, [9, 3, 1, 0]);
    good &= show("going on after the tree is full", &full, &more, tree as u64 + 1, order, written);
    Ok(good)
}
