//! `cargo test`: the starred examples, the report's buffer, the stored test data, a short check against
//! the enumerator.

use crate::reference::{derivation, encode, heapverdict, verdict, End};
use crate::{check, generate, linkedges, linkheaps, links, vectors};
use std::path::Path;

const ORDER: [u8; 8] = [1, 2, 3, 4, 5, 6, 7, 8];

fn bytes(hex: &str) -> Vec<u8> {
    hex.split_whitespace().map(|b| u8::from_str_radix(b, 16).unwrap()).collect()
}

fn printed(order: &[u8], query: &str) -> String {
    heapverdict(&[order, &bytes(query)].concat())
}

#[test]
fn starred_examples() {
    let e4 = "03 00 01 00 01 00 01 03 02 01 01 03 00 02 03 00 00";
    assert_eq!(printed(&ORDER, "00 00 00 00 00"), "sat\n01 01 00 01 00 01 00\n");
    assert_eq!(printed(&ORDER, "01 00 00 00 00 00"), "sat\n01 01 01 01 01 00 01 00\n");
    assert_eq!(
        printed(&ORDER, "02 00 00 01 00 01 02 02 01 01 02 01 02 01 00 00"),
        "sat\n02 02 01 02 01 02 02 00 00 01 00\n"
    );
    assert_eq!(printed(&ORDER, e4).lines().count(), 9);
    assert_eq!(printed(&[4, 1, 2, 3, 5, 6, 7, 8], e4), "unsat\n4 1 2 3\n10 1 3 0\n9 2 1 0\n9 3 2 0\n");
    assert_eq!(printed(&ORDER, "01 00 00 01 00 01 01 00 00"), "unsat\n1 1 0 0\n9 3 1 0\n");
    assert_eq!(printed(&ORDER, "03 00 01 01 01 00 02 03 00 00 00"), "unsat\n10 2 3 0\n9 2 1 0\n");
    // E7 is refused, and "becomes its rewriting" (02, R-13).
    assert_eq!(printed(&ORDER, "00 00 00 00 02 01 01 00 01"), "refused 26 at 4\n");
    assert_eq!(printed(&ORDER, "01 00 00 00 02 01 01 01 00 01 01 00"), "unsat\n9 4 2 1\n");
    assert_eq!(printed(&ORDER, "02 00 00 01 01 01 02 00 02 01 01 01 00 01 02 00"), "unsat\n10 1 2 0\n9 4 2 1\n");
    // Null in a live list (02, R-3): a heap for a variable, none for nil.
    assert_eq!(
        printed(&[1, 2, 3, 8, 4, 5, 6, 7], "02 00 00 01 00 01 02 02 01 01 02 01 02 01 00 00"),
        "sat\n02 02 01 02 01 02 02 00 00 01 00\n"
    );
    assert_eq!(
        printed(&[1, 2, 3, 8, 4, 5, 6, 7], "02 00 ff 01 00 01 02 02 01 01 02 01 02 01 00 00"),
        "unsat\n1 1 0 0\n1 2 0 0\n5 2 1 1\n10 1 2 0\n9 2 1 0\n"
    );
    let e9 = "04 00 00 01 02 02 01 03 04 00 01 02 02 01 01 02 01 02 01 00 00";
    assert!(printed(&ORDER, e9).starts_with("unsat\n"));
    assert!(printed(&ORDER, "04 00 00 01 02 02 01 03 04 00 01 02 01 01 01 02 00 00").starts_with("sat\n"));
}

#[test]
fn buffers() {
    let empty = [0; 5];
    let mut report = vec![7u8; 52];
    assert_eq!(encode(verdict(&ORDER, &empty, &mut report)), 9 * 65_536);
    assert!(report.iter().all(|&b| b == 0));
    let mut report = vec![7u8; 53];
    assert_eq!(encode(verdict(&ORDER, &empty, &mut report)), 0);
    let mut buffer = vec![7u8; 10];
    assert_eq!(encode(derivation(&ORDER, &empty, &mut buffer)), 11 * 65_536);
    let e5 = bytes("01 00 00 01 00 01 01 00 00");
    assert_eq!(encode(derivation(&ORDER, &e5, &mut buffer)), 1);
    assert_eq!(buffer, [0, 2, 1, 1, 0, 0, 9, 3, 1, 0]);
    for length in 0..10 {
        let mut buffer = vec![7u8; length];
        assert_eq!(encode(derivation(&ORDER, &e5, &mut buffer)), 12 * 65_536);
        assert!(buffer.iter().all(|&b| b == 0));
    }
}

#[test]
fn stored_data() {
    let directory = Path::new(env!("CARGO_MANIFEST_DIR")).join("../tests/data");
    assert_eq!(vectors::compare(&directory, &|input| Ok(heapverdict(input))), Ok(true));
}

/// What the gate's program `vectors` reads and must print is the stored data, one file after another, and 65,535 behind a row.
#[test]
fn gate_data() {
    let root = Path::new(env!("CARGO_MANIFEST_DIR")).join("..");
    let part = |name: &str| std::fs::read(root.join("tests/data").join(name)).unwrap();
    let one_link = ["base", "edges", "random", "long", "R-1", "R-3", "R-13", "rewritten"];
    let row = |names: &[&str], ending: &str| names.iter().map(|name| part(&format!("{name}.{ending}"))).collect::<Vec<_>>().concat();
    let rows = |first: &str, others: &str| [row(&one_link, first), row(&["luck"], others), row(&["R-11", "link-edges"], others)];
    let stored = |file: &str| std::fs::read(root.join("crates/vectors").join(file)).unwrap();
    assert!(rows("bin", "bin").join(&[255u8; 2][..]) == stored("stdin"));
    assert!(rows("txt", "out").concat() == stored("stdout"));
}

#[test]
fn small_heaps() {
    assert_eq!(check::run(3_000, 5), Ok(true));
}

#[test]
fn slow_walk() {
    assert_eq!(check::slow(100, 5), Ok(true));
}

#[test]
fn longest_path() {
    // A chain of 16 terms whose end reaches its beginning: all but one of 256 facts come from a step.
    let query = [&[16][..], &(0..16).collect::<Vec<u8>>(), &[0, 1, 1, 16, 1, 0, 0]].concat();
    assert_eq!(generate::walked(&ORDER, &query, 1_000), Some((End::Satisfiable, 255)));
}

/// E3 and E4 with link 1, nil's links, link bytes at fault, and the buffers (02, R-11).
#[test]
fn three_links() {
    let printed = |order: &[u8], query: &str| links::linksverdict(&[order, &bytes(query)].concat());
    let e4 = "03 00 00 01 01 00 00 01 00 01 03 02 01 01 01 03 00 01 02 03 00 00";
    assert_eq!(printed(&ORDER, "00 00 00 00 00"), "sat\n03 01 01 01 00 01 00 01 00\n");
    assert_eq!(
        printed(&ORDER, "02 00 00 00 00 01 00 01 02 02 01 01 01 02 01 01 02 01 00 00"),
        "sat\n06 02 01 01 02 01 02 02 01 02 02 00 00 01 00\n"
    );
    assert_eq!(printed(&[4, 1, 2, 3, 5, 6, 7, 8], e4), "unsat\n4 1 2 3\n10 1 3 0\n9 2 1 0\n9 3 2 0\n");
    // Not 1 reaches 1 by link 3: REFLEX for links 1, 2 and 3.
    assert_eq!(printed(&ORDER, "01 00 00 00 01 00 03 01 01 00 00"), "unsat\n1 1 0 0\n17 1 0 0\n33 1 0 0\n9 3 1 0\n");
    // Term 1 has two successors by each of links 1 and 2: link 1 goes first.
    assert_eq!(
        printed(&ORDER, "05 00 00 02 01 02 01 01 01 01 01 01 00 02 03 00 00 00"),
        "unsat\n10 4 5 0\n10 2 3 0\n9 2 1 0\n"
    );
    // Nil, with successors by links 1 and 2: its three links are there before the first join, so that 3 is joined to it, not 4 to 3.
    assert_eq!(
        printed(&ORDER, "04 00 ff 01 01 02 01 02 02 01 00 03 04 00 00 00"),
        "unsat\n10 1 2 0\n10 1 3 0\n10 1 4 0\n9 2 1 0\n"
    );
    // A ring of three by link 2 and a term on it that is neither of the first two: CYCLE's third alternative.
    assert_eq!(
        printed(&ORDER, "05 00 00 02 01 02 02 02 03 00 00 03 01 01 04 00 01 05 00 02 05 01 01 02 01 05 00 00"),
        "sat\n09 01 02 03 02 03 01 01 02 03 05 01 02 03 01 03 03 00 00 00 01 00\n"
    );
    for (query, refusal) in [
        ("01 01 00 00 00 00 00", "refused 22 at 1\n"),
        ("01 03 ff 00 00 00 00", "refused 22 at 1\n"),
        ("02 00 09 00 01 00 00 00 00", "refused 22 at 1\n"),
        ("02 00 00 04 01 00 00 00 00", "refused 22 at 3\n"),
        ("01 01 01 01 02 00 00 01 00 00 01 01 00 00", "refused 22 at 9\n"),
        ("01 01 01 01 02 00 00 01 00 01 01 01 00 00", "refused 5 at 2\n"),
        ("01 01 00 00 00 00 01", "refused 26 at 6\n"),
        ("01 01 00 00 00 00 00 00", "refused 4 at 7\n"),
    ] {
        assert_eq!(printed(&ORDER, query), refusal);
    }
    let empty = [0; 5];
    assert_eq!(encode(links::verdict(&ORDER, &empty, &mut [7; 84])), 9 * 65_536);
    assert_eq!(encode(links::verdict(&ORDER, &empty, &mut [7; 85])), 0);
    assert_eq!(encode(links::derivation(&ORDER, &empty, &mut [7; 10])), 11 * 65_536);
    assert_eq!(encode(links::derivation(&[4, 1, 2, 3, 5, 6, 7, 8], &bytes(e4), &mut [7; 17])), 12 * 65_536);
    assert_eq!(encode(links::derivation(&[4, 1, 2, 3, 5, 6, 7, 8], &bytes(e4), &mut [7; 18])), 1);
}

#[test]
fn three_links_small_heaps() {
    assert_eq!(linkheaps::random(1_000, 5), Ok(true));
}

#[test]
fn three_links_vectors() {
    let directory = Path::new(env!("CARGO_MANIFEST_DIR")).join("../tests/data");
    let program = |input: &[u8]| Ok(links::linksverdict(input));
    for name in ["R-11", "link-edges"] {
        let [bin, out] = ["bin", "out"].map(|ending| directory.join(format!("{name}.{ending}")));
        assert!(vectors::agree(&bin, &out, &program).unwrap());
    }
}

/// The stored queries have the verdicts of their rewritings with link 1.
#[test]
fn three_links_rewritten() {
    let directory = Path::new(env!("CARGO_MANIFEST_DIR")).join("../tests/data");
    for name in ["base", "R-3", "R-13", "rewritten"] {
        assert_eq!(linkheaps::rewritten(&directory.join(format!("{name}.bin"))), Ok(true));
    }
}

/// As many lines as a derivation may have, and more.
#[test]
fn three_links_long() {
    let inputs = linkedges::long();
    let lines = inputs.each_ref().map(|input| links::lines(&input[..8], &input[8..], u64::MAX));
    assert_eq!(lines, [16_000, 16_001, 16_002, 65_598].map(Some));
    assert_eq!(links::linksverdict(&inputs[0]).lines().count(), 16_001);
    assert_eq!(links::linksverdict(&inputs[1]), "unsat\nrefused 12 at 0\n");
}
