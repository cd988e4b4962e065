//! Files in the vectors' format. `.bin`: a length in two bytes, high byte first, then that many bytes;
//! `.txt`: what heapverdict prints for each, a line `--` after each.

use crate::reference;
use std::io::Write;
use std::path::Path;
use std::process::{Command, Stdio};

pub fn read_bin(path: &Path) -> Result<Vec<Vec<u8>>, String> {
    let bytes = std::fs::read(path).map_err(|e| format!("{}: {e}", path.display()))?;
    let mut inputs = Vec::new();
    let mut rest = &bytes[..];
    while !rest.is_empty() {
        if rest.len() < 2 {
            return Err(format!("{}: ends inside a length", path.display()));
        }
        let length = usize::from(rest[0]) << 8 | usize::from(rest[1]);
        if rest.len() < 2 + length {
            return Err(format!("{}: ends inside an input", path.display()));
        }
        inputs.push(rest[2..2 + length].to_vec());
        rest = &rest[2 + length..];
    }
    Ok(inputs)
}

pub fn read_txt(path: &Path) -> Result<Vec<String>, String> {
    let text = std::fs::read_to_string(path).map_err(|e| format!("{}: {e}", path.display()))?;
    let mut outputs = Vec::new();
    let mut current = String::new();
    for line in text.split_inclusive('\n') {
        if line == "--\n" {
            outputs.push(std::mem::take(&mut current));
        } else {
            current.push_str(line);
        }
    }
    if current.is_empty() {
        Ok(outputs)
    } else {
        Err(format!("{}: the last output has no line -- after it", path.display()))
    }
}

/// Writes NAME.bin, and NAME.txt with what the reference prints.
pub fn write(directory: &Path, name: &str, inputs: &[Vec<u8>]) -> Result<(), String> {
    write_as(directory, name, "txt", inputs, reference::heapverdict)
}

/// Writes NAME.bin, and what a program prints beside it.
pub fn write_as(
    directory: &Path,
    name: &str,
    ending: &str,
    inputs: &[Vec<u8>],
    program: fn(&[u8]) -> String,
) -> Result<(), String> {
    let mut bin = Vec::new();
    let mut txt = String::new();
    for input in inputs {
        let length = u16::try_from(input.len()).map_err(|_| "input too long for its length".to_string())?;
        bin.extend(length.to_be_bytes());
        bin.extend(input);
        txt.push_str(&program(input));
        txt.push_str("--\n");
    }
    std::fs::create_dir_all(directory).map_err(|e| e.to_string())?;
    for (ending, bytes) in [("bin", &bin[..]), (ending, txt.as_bytes())] {
        let path = directory.join(format!("{name}.{ending}"));
        std::fs::write(&path, bytes).map_err(|e| format!("{}: {e}", path.display()))?;
        println!("{}: {} inputs, {} bytes", path.display(), inputs.len(), bytes.len());
    }
    Ok(())
}

/// What is run on an input, and answers what it printed.
pub type Program<'a> = &'a dyn Fn(&[u8]) -> Result<String, String>;

/// Runs every NAME.bin of a directory that has a NAME.txt beside it, and compares byte for byte.
pub fn compare(directory: &Path, program: Program) -> Result<bool, String> {
    let mut names: Vec<_> = std::fs::read_dir(directory)
        .map_err(|e| format!("{}: {e}", directory.display()))?
        .filter_map(|entry| entry.ok().map(|e| e.path()))
        .filter(|path| path.extension().is_some_and(|e| e == "bin") && path.with_extension("txt").exists())
        .collect();
    names.sort();
    if names.is_empty() {
        return Err(format!("{}: no vectors here", directory.display()));
    }
    let mut all = true;
    for path in names {
        all &= agree(&path, &path.with_extension("txt"), program)?;
    }
    Ok(all)
}

/// Runs the inputs of one file, and compares with the stored output byte for byte.
pub fn agree(bin: &Path, stored: &Path, program: Program) -> Result<bool, String> {
    let inputs = read_bin(bin)?;
    let outputs = read_txt(stored)?;
    if inputs.len() != outputs.len() {
        return Err(format!("{}: {} inputs but {} outputs", bin.display(), inputs.len(), outputs.len()));
    }
    let mut agree = 0;
    for (i, (input, expected)) in inputs.iter().zip(&outputs).enumerate() {
        let printed = program(input)?;
        if &printed == expected {
            agree += 1;
        } else {
            println!("input {i}: {}", hex(input));
            println!("expected:\n{}printed:\n{}", begin(expected), begin(&printed));
        }
    }
    println!("{}: {agree} of {} agree", bin.file_name().unwrap().to_string_lossy(), inputs.len());
    Ok(agree == inputs.len())
}

/// The first lines of a long output.
fn begin(text: &str) -> String {
    let mut shown: String = text.split_inclusive('\n').take(40).collect();
    if shown.len() < text.len() {
        shown.push_str("...\n");
    }
    shown
}

/// Runs an executable with this standard input.
pub fn execute(program: &Path, input: &[u8]) -> Result<String, String> {
    let run = || -> std::io::Result<Vec<u8>> {
        let mut child = Command::new(program).stdin(Stdio::piped()).stdout(Stdio::piped()).spawn()?;
        let mut stdin = child.stdin.take().expect("piped");
        let input = input.to_vec();
        // It need not read all, so a broken pipe is no fault.
        let writer = std::thread::spawn(move || drop(stdin.write_all(&input)));
        let output = child.wait_with_output()?;
        writer.join().expect("the writer does not panic");
        Ok(output.stdout)
    };
    let bytes = run().map_err(|e| format!("{}: {e}", program.display()))?;
    Ok(String::from_utf8_lossy(&bytes).into_owned())
}

pub fn hex(bytes: &[u8]) -> String {
    bytes.iter().map(|b| format!("{b:02x}")).collect::<Vec<_>>().join(" ")
}
