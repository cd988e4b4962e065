//! Tests, test data and timing by a second reading of the scope paper. See README.md.

mod between;
mod check;
#[cfg(feature = "library")]
mod derivations;
#[cfg(feature = "library")]
mod differential;
mod edges;
mod enumerate;
mod generate;
#[cfg(feature = "library")]
mod library;
mod linkedges;
mod linkheaps;
mod links;
mod long;
#[cfg(feature = "library")]
mod luck;
mod naive;
mod reference;
mod rewriting;
#[cfg(feature = "library")]
mod shares;
#[cfg(test)]
mod tests;
mod timing;
mod vectors;

use std::io::Read;
use std::path::Path;
use std::process::ExitCode;

const USAGE: &str = "\
vectors DIR                   compare the reference with every NAME.bin and NAME.txt in DIR
program EXECUTABLE DIR        compare an executable heapverdict with them
check N SEED                  compare the reference with the enumerator of small heaps on N queries
slow N SEED                   compare the reference with the slow walk, line by line, on N queries and the edges
slow long                     the same on the long derivations
data DIR                      write edges, random, long and rewritten .bin and .txt and link-edges .bin and .out into DIR, and .txt of its base, R-1 and R-3
rewriting FILE                compare the rewriting of R-13 with its vectors
rewriting DIR NAME ..         compare the verdicts stored for old queries with those of their rewritings
search LOW HIGH KINDS N SEED  print N inputs whose derivation has LOW to HIGH lines, of KINDS kinds or more
time DIR                      time the workloads in DIR (with feature library: the library too)
luck DIR                      (feature library) workload-luck: every answer as stored, and the time of both calls
climb DIR SECONDS SEED        (feature library) look for queries that are bad for the verdict call
differential N SEED           (feature library) compare library and reference on N random inputs
differential links N SEED     (feature library) compare the library's calls for three links with the reading of R-11
heapverdict                   be the program heapverdict
linksverdict                  be the program linksverdict, which takes three links (R-11)
links DIR                     compare the reading of R-11 with its vectors, and base.bin's verdicts with those of its rewriting with link 1
                              (with feature library: the library's calls for three links and its rewriting on all of these too)
links random N SEED           compare it with every small heap on N random queries, and two orders on larger ones
between FILE                  compare the plain search of R-10 with its vectors
between                       time it on slow queries (with feature library: the library too)
between N SEED                (feature library) compare it with the library on N random queries
derivations DIR               (feature library) time the checking call on 16,000 lines, beside the call that writes them and the rule steps of DIR
shares RULESHARES DIR N       (feature library) time ruleshares on N queries of workload-programs, beside the calls";

fn main() -> ExitCode {
    let words: Vec<String> = std::env::args().skip(1).collect();
    let words: Vec<&str> = words.iter().map(String::as_str).collect();
    match run(&words) {
        Ok(true) => ExitCode::SUCCESS,
        Ok(false) => ExitCode::FAILURE,
        Err(message) => {
            eprintln!("{message}");
            ExitCode::from(2)
        }
    }
}

fn number(word: &str) -> Result<u64, String> {
    word.parse().map_err(|_| format!("{word}: not a number"))
}

/// As much of standard input as the programs read.
fn standard_input() -> Result<Vec<u8>, String> {
    let mut input = Vec::new();
    std::io::stdin().take(reference::INPUT_BYTES as u64).read_to_end(&mut input).map_err(|e| e.to_string())?;
    Ok(input)
}

/// Whether all agreed.
fn run(words: &[&str]) -> Result<bool, String> {
    match *words {
        ["vectors", directory] => vectors::compare(Path::new(directory), &|input| Ok(reference::heapverdict(input))),
        ["program", executable, directory] => {
            vectors::compare(Path::new(directory), &|input| vectors::execute(Path::new(executable), input))
        }
        ["check", count, seed] => check::run(number(count)? as usize, number(seed)?),
        ["slow", "long"] => check::slow_long(),
        ["slow", count, seed] => check::slow(number(count)? as usize, number(seed)?),
        ["data", directory] => {
            let directory = Path::new(directory);
            for name in ["base", "R-1", "R-3"] {
                vectors::write(directory, name, &vectors::read_bin(&directory.join(format!("{name}.bin")))?)?;
            }
            let mut old = Vec::new();
            for name in ["base", "R-1", "R-3"] {
                old.extend(vectors::read_bin(&directory.join(format!("{name}.bin")))?);
            }
            let rewritten: Vec<_> = old.iter().filter_map(|input| rewriting::rewritten(input)).collect();
            vectors::write(directory, "rewritten", &rewritten)?;
            vectors::write(directory, "edges", &edges::inputs())?;
            vectors::write(directory, "random", &generate::inputs(400, 20))?;
            vectors::write(directory, "long", &long::inputs())?;
            vectors::write_as(directory, "link-edges", "out", &linkedges::inputs(), links::linksverdict)?;
            Ok(true)
        }
        ["search", low, high, kinds, count, seed] => {
            long::search(number(low)?, number(high)?, number(kinds)? as usize, number(count)? as usize, number(seed)?);
            Ok(true)
        }
        ["time", directory] => time(Path::new(directory)),
        ["luck", directory] => luck(Path::new(directory)),
        ["climb", directory, seconds, seed] => climb(Path::new(directory), number(seconds)?, number(seed)?),
        ["differential", "links", count, seed] => differential(true, number(count)? as usize, number(seed)?),
        ["differential", count, seed] => differential(false, number(count)? as usize, number(seed)?),
        ["shares", program, directory, count] => {
            shares(Path::new(program), Path::new(directory), number(count)? as usize)
        }
        ["derivations", directory] => derivations(Path::new(directory)),
        ["rewriting", file] => rewriting::compare(Path::new(file)),
        ["rewriting", directory, ref names @ ..] => rewriting::same_verdicts(Path::new(directory), names),
        ["between", file] => between::compare(Path::new(file)),
        ["between"] => Ok(between_time()),
        ["between", count, seed] => between_differ(number(count)? as usize, number(seed)?),
        ["links", "random", count, seed] => linkheaps::random(number(count)? as usize, number(seed)?),
        ["links", directory] => links_vectors(Path::new(directory)),
        ["heapverdict"] => {
            print!("{}", reference::heapverdict(&standard_input()?));
            Ok(true)
        }
        ["linksverdict"] => {
            print!("{}", links::linksverdict(&standard_input()?));
            Ok(true)
        }
        _ => Err(USAGE.into()),
    }
}

#[cfg(feature = "library")]
fn time(directory: &Path) -> Result<bool, String> {
    let timed = timing::run(directory, &[("library", &library::verdict)])?;
    Ok(timing::with_links(directory, &library::verdict, &library::links_verdict)? && timed)
}

#[cfg(not(feature = "library"))]
fn time(directory: &Path) -> Result<bool, String> {
    timing::run(directory, &[])
}

#[cfg(feature = "library")]
fn between_time() -> bool {
    between::time(&[("library", &library::between)])
}

#[cfg(not(feature = "library"))]
fn between_time() -> bool {
    between::time(&[])
}

#[cfg(feature = "library")]
fn between_differ(count: usize, seed: u64) -> Result<bool, String> {
    Ok(between::differ(count, seed, &library::between))
}

#[cfg(not(feature = "library"))]
fn between_differ(_: usize, _: u64) -> Result<bool, String> {
    Err("built without the feature library".into())
}

#[cfg(feature = "library")]
fn differential(links: bool, count: usize, seed: u64) -> Result<bool, String> {
    Ok(if links { differential::three_links(count, seed) } else { differential::run(count, seed) })
}

#[cfg(not(feature = "library"))]
fn differential(_: bool, _: usize, _: u64) -> Result<bool, String> {
    Err("built without the feature library".into())
}

#[cfg(feature = "library")]
fn links_vectors(directory: &Path) -> Result<bool, String> {
    let own = linkheaps::compare(directory)?;
    let inputs = vectors::read_bin(&directory.join("requests/R-11.bin"))?;
    Ok(differential::with_links(&inputs, &vectors::read_bin(&directory.join("base.bin"))?) && own)
}

#[cfg(not(feature = "library"))]
fn links_vectors(directory: &Path) -> Result<bool, String> {
    linkheaps::compare(directory)
}

#[cfg(feature = "library")]
fn derivations(directory: &Path) -> Result<bool, String> {
    derivations::run(directory)
}

#[cfg(not(feature = "library"))]
fn derivations(_: &Path) -> Result<bool, String> {
    Err("built without the feature library".into())
}

#[cfg(feature = "library")]
fn shares(program: &Path, directory: &Path, count: usize) -> Result<bool, String> {
    shares::run(program, directory, count)
}

#[cfg(not(feature = "library"))]
fn shares(_: &Path, _: &Path, _: usize) -> Result<bool, String> {
    Err("built without the feature library".into())
}

#[cfg(feature = "library")]
fn luck(directory: &Path) -> Result<bool, String> {
    luck::run(directory)
}

#[cfg(not(feature = "library"))]
fn luck(_: &Path) -> Result<bool, String> {
    Err("built without the feature library".into())
}

#[cfg(feature = "library")]
fn climb(directory: &Path, seconds: u64, seed: u64) -> Result<bool, String> {
    luck::climb(directory, seconds, seed)
}

#[cfg(not(feature = "library"))]
fn climb(_: &Path, _: u64, _: u64) -> Result<bool, String> {
    Err("built without the feature library".into())
}
