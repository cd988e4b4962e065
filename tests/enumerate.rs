// Makes the queries of crates/enumerator again, decides each by trying every heap of up to one node more than it has terms, and prints
// what that program must print. It reads nothing and uses nothing of the prover or of that program:
//
//     rustc -O -o target/enumerate tests/enumerate.rs && target/enumerate | cmp - crates/enumerator/stdout

const QUERIES: usize = 6000;

struct Random(u64);

impl Random {
    fn below(&mut self, bound: usize) -> usize {
        self.0 = (self.0 * 1103515245 + 12345) & 0x7fff_ffff;
        (self.0 >> 16) as usize % bound
    }
}

/// A literal's sign and its numbers, terms and all else counted from 1 as in a query's bytes.
struct Literal {
    plain: bool,
    first: usize,
    second: usize,
}

/// Terms are counted from 0 here.
#[derive(Clone, Copy, PartialEq)]
enum Term {
    Variable,
    Nil,
    LinkOf(usize),
}
use Term::{LinkOf, Nil, Variable};

struct Query {
    terms: Vec<Term>,
    equalities: Vec<Literal>,
    reachability: Vec<Literal>,
    data: Vec<Literal>,
}

/// The orders are drawn so that the draws that follow are the same; which order it is has no effect on a verdict.
fn skip_order(random: &mut Random) {
    for i in 1..=8 {
        random.below(i);
    }
}

fn literals(random: &mut Random, count: usize, first: usize, second: usize) -> Vec<Literal> {
    (0..count)
        .map(|_| Literal {
            plain: random.below(3) != 0,
            first: random.below(first) + 1,
            second: random.below(second) + 1,
        })
        .collect()
}

fn random_query(random: &mut Random) -> Query {
    let n = (random.below(16) + 3) / 4;
    let terms = (0..n)
        .map(|t| match random.below(t + 2) {
            0 => Variable,
            drawn if drawn > t => Nil,
            drawn => LinkOf(drawn - 1),
        })
        .collect();
    let about_terms = |count: usize| if n == 0 { 0 } else { count };
    let count = about_terms(random.below(3));
    let equalities = literals(random, count, n, n);
    let count = about_terms(random.below(5));
    let reachability = literals(random, count, n, n);
    let count = about_terms(random.below(3));
    let data = literals(random, count, 2, n);
    Query { terms, equalities, reachability, data }
}

/// Example E9 with up to three bytes of its literals drawn anew: few queries at random need SHARE.
fn near_share(random: &mut Random) -> Query {
    let literal = |plain, first, second| Literal { plain, first, second };
    let mut literals = vec![literal(true, 3, 4), literal(false, 1, 2), literal(true, 1, 2), literal(true, 2, 1)];
    for _ in 0..random.below(4) {
        let changed = &mut literals[random.below(4)];
        match random.below(3) {
            0 => changed.plain = random.below(3) != 0,
            1 => changed.first = random.below(4) + 1,
            _ => changed.second = random.below(4) + 1,
        }
    }
    let reachability = literals.split_off(2);
    let terms = vec![Variable, Variable, LinkOf(0), LinkOf(1)];
    Query { terms, equalities: literals, reachability, data: vec![] }
}

/// One query in eight is near E9.
fn next_query(random: &mut Random) -> Query {
    if random.below(8) == 0 { near_share(random) } else { random_query(random) }
}

/// Every row of `length` numbers below `size`.
fn rows(length: usize, size: usize) -> Vec<Vec<usize>> {
    let mut all = vec![vec![]];
    for _ in 0..length {
        all = all
            .iter()
            .flat_map(|row| (0..size).map(move |x| [row.as_slice(), &[x]].concat()))
            .collect();
    }
    all
}

/// reach[a][b]: some number of links leads from a to b (the closure of the links, by Warshall's algorithm).
fn closure(links: &[usize]) -> Vec<Vec<bool>> {
    let size = links.len();
    let mut reach: Vec<Vec<bool>> = (0..size)
        .map(|a| (0..size).map(|b| a == b || links[a] == b).collect())
        .collect();
    for via in 0..size {
        for a in 0..size {
            for b in 0..size {
                reach[a][b] |= reach[a][via] && reach[via][b];
            }
        }
    }
    reach
}

/// Two literals of opposite signs that say the same thing.
fn conflict(literals: &[Literal], same: impl Fn(&Literal, &Literal) -> bool) -> bool {
    literals
        .iter()
        .any(|p| literals.iter().any(|q| p.plain && !q.plain && same(p, q)))
}

/// Data are free, so a heap with these links and nodes exists unless two literals conflict.
fn meets(query: &Query, reach: &[Vec<bool>], nodes: &[usize]) -> bool {
    let node = |t: usize| nodes[t - 1];
    query.equalities.iter().all(|l| (node(l.first) == node(l.second)) == l.plain)
        && query.reachability.iter().all(|l| reach[node(l.first)][node(l.second)] == l.plain)
        && !conflict(&query.data, |p, q| p.first == q.first && node(p.second) == node(q.second))
}

/// The node of every term, for a choice of nodes for nil and the variables.
fn nodes_of(query: &Query, links: &[usize], nil: usize, variables: &[usize]) -> Vec<usize> {
    let mut nodes: Vec<usize> = vec![];
    let mut free = variables.iter();
    for term in &query.terms {
        nodes.push(match *term {
            LinkOf(t) => links[nodes[t]],
            Nil => nil,
            Variable => *free.next().unwrap(),
        });
    }
    nodes
}

/// Where nil can be: at a node whose link goes to itself. A query that does not name nil asks for no such node.
fn places_of_nil(query: &Query, links: &[usize]) -> Vec<usize> {
    if query.terms.contains(&Nil) {
        (0..links.len()).filter(|&x| links[x] == x).collect()
    } else {
        vec![0]
    }
}

fn satisfiable(query: &Query, heaps: &[Vec<(Vec<usize>, Vec<Vec<bool>>)>]) -> bool {
    let variables = query.terms.iter().filter(|&&t| t == Variable).count();
    (1..=query.terms.len() + 1).any(|size| {
        let choices = rows(variables, size);
        heaps[size].iter().any(|(links, reach)| {
            places_of_nil(query, links)
                .iter()
                .any(|&nil| choices.iter().any(|v| meets(query, reach, &nodes_of(query, links, nil, v))))
        })
    })
}

fn main() {
    let heaps: Vec<Vec<_>> = (0..=5)
        .map(|size| rows(size, size).into_iter().map(|l| { let r = closure(&l); (l, r) }).collect())
        .collect();
    let mut random = Random(1);
    let mut count = 0;
    for _ in 0..QUERIES {
        skip_order(&mut random);
        if satisfiable(&next_query(&mut random), &heaps) {
            count += 1;
        }
    }
    println!("queries {QUERIES}");
    println!("satisfiable {count}");
    println!("refuted {}", QUERIES - count);
    println!("disagreements 0");
    println!("reports that fail 0");
}
