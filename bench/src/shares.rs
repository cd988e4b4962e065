//! Time of the program ruleshares on a long stream of queries, beside the two library calls that it makes for each.

use crate::library;
use crate::vectors;
use std::hint::black_box;
use std::io::Write;
use std::path::Path;
use std::process::{Command, Stdio};
use std::time::Instant;

const ORDER: [u8; 8] = [1, 2, 3, 8, 4, 5, 6, 7];

/// `count` queries of workload-programs, over and over, under one order list.
pub fn run(program: &Path, directory: &Path, count: usize) -> Result<bool, String> {
    let inputs = vectors::read_bin(&directory.join("workload-programs.bin"))?;
    let queries: Vec<&[u8]> = inputs.iter().map(|input| &input[8..]).collect();
    let stream = |sink: &mut dyn Write| -> std::io::Result<()> {
        sink.write_all(&ORDER)?;
        for query in queries.iter().cycle().take(count) {
            sink.write_all(&[(query.len() / 256) as u8, (query.len() % 256) as u8])?;
            sink.write_all(query)?;
        }
        Ok(())
    };
    let mut input = Vec::new();
    stream(&mut input).map_err(|e| e.to_string())?;
    let begin = Instant::now();
    let mut child = Command::new(program)
        .stdin(Stdio::piped())
        .stdout(Stdio::null())
        .spawn()
        .map_err(|e| format!("{}: {e}", program.display()))?;
    child.stdin.take().unwrap().write_all(&input).map_err(|e| e.to_string())?;
    let ended = child.wait().map_err(|e| e.to_string())?;
    let whole = begin.elapsed().as_secs_f64();
    let mut report = [0u8; 53];
    let mut buffer = vec![0u8; 64002];
    let begin = Instant::now();
    for query in queries.iter().cycle().take(count) {
        // a satisfiable query asks for no derivation
        if library::verdict(&ORDER, black_box(query), &mut report) != 0 {
            black_box(library::derivation(&ORDER, black_box(query), &mut buffer));
        }
    }
    let calls = begin.elapsed().as_secs_f64();
    println!("{count} queries: ruleshares {whole:.2} s, the calls that it makes {calls:.2} s");
    Ok(ended.success())
}
