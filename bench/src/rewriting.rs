//! A second reading of request R-13's rewriting: an old query, with booleans, as a query without. It shares no line with the proved code.

use crate::{reference, vectors};
use std::path::Path;

/// The most entries of each section as they stood, and what each byte of an entry is: e a term entry, s a sign, t a term, n a number 1 to 8.
const SECTIONS: [(usize, &[u8]); 5] = [(16, b"e"), (60, b"stt"), (60, b"stt"), (60, b"snt"), (60, b"sn")];

/// The bytes written, or a refusal's number and place.
pub fn rewrite(old: &[u8], room: usize) -> Result<Vec<u8>, (usize, usize)> {
    let mut places = Vec::new();
    let mut at = 0;
    for (limit, roles) in SECTIONS {
        let count = usize::from(*old.get(at).ok_or((2, old.len()))?);
        if count > limit {
            return Err((3, at));
        }
        let end = at + 1 + count * roles.len();
        if end > old.len() {
            return Err((2, old.len()));
        }
        places.push(at + 1..end);
        at = end;
    }
    if at < old.len() {
        return Err((4, at));
    }
    let n = old[0];
    for number in 5..=8 {
        for (place, (_, roles)) in places.iter().zip(SECTIONS) {
            for (i, p) in place.clone().enumerate() {
                let byte = old[p];
                let wrong = match roles[i % roles.len()] {
                    b'e' => number == 5 && usize::from(byte) > i && byte != reference::NIL,
                    b's' => number == 6 && byte > 1,
                    b't' => number == 7 && !(1..=n).contains(&byte),
                    _ => number == 8 && !(1..=8).contains(&byte),
                };
                if wrong {
                    return Err((number, p));
                }
            }
        }
    }
    let mut parts: Vec<Vec<u8>> = places.iter().map(|place| old[place.clone()].to_vec()).collect();
    let booleans = parts.pop().unwrap_or_default();
    if !booleans.is_empty() {
        parts[0].push(0);
        for literal in booleans.chunks_exact(2) {
            parts[3].extend([literal[0], literal[1], n + 1]);
        }
    }
    let mut bytes = Vec::new();
    for (part, (limit, roles)) in parts.iter().zip(SECTIONS) {
        if part.len() > limit * roles.len() {
            return Err((27, 0));
        }
        bytes.push((part.len() / roles.len()) as u8);
        bytes.extend(part);
    }
    bytes.push(0);
    if bytes.len() > room {
        return Err((27, 0));
    }
    Ok(bytes)
}

fn hex(bytes: &[u8]) -> String {
    bytes.iter().map(|b| format!("{b:02x}")).collect()
}

/// The vectors of the rewriting: an old query in hex (`-` is an empty one), the room, ` = ` and the answer on each line.
pub fn compare(path: &Path) -> Result<bool, String> {
    let text = std::fs::read_to_string(path).map_err(|e| format!("{}: {e}", path.display()))?;
    let mut wrong = 0;
    for line in text.lines() {
        let (given, expected) = line.split_once(" = ").ok_or("no answer")?;
        let (digits, room) = given.split_once(' ').ok_or("no room")?;
        let digits = digits.trim_matches('-');
        let old = (0..digits.len() / 2)
            .map(|i| u8::from_str_radix(&digits[2 * i..2 * i + 2], 16))
            .collect::<Result<Vec<u8>, _>>()
            .map_err(|e| e.to_string())?;
        let answer = match rewrite(&old, room.parse().map_err(|_| "no room")?) {
            Ok(bytes) => format!("query {}", hex(&bytes)),
            Err((number, place)) => format!("refused {number} at {place}"),
        };
        if answer != expected {
            println!("{given}: {answer}, expected {expected}");
            wrong += 1;
        }
    }
    println!("{}: {} of {} agree", path.display(), text.lines().count() - wrong, text.lines().count());
    Ok(wrong == 0)
}

/// An input of heapverdict with its query rewritten, if it is an old one that can be.
pub fn rewritten(input: &[u8]) -> Option<Vec<u8>> {
    let (order, old) = input.split_at_checked(reference::ORDER_BYTES)?;
    let refused = reference::check_query(old).err()?;
    let query = rewrite(old, usize::MAX).ok()?;
    (refused.number == 26).then(|| [order, &query].concat())
}

/// Old and rewritten query have the same verdict: the first lines that are stored for old queries, against the reference on their rewriting.
pub fn same_verdicts(directory: &Path, names: &[&str]) -> Result<bool, String> {
    let mut agreed = true;
    for name in names {
        let inputs = vectors::read_bin(&directory.join(format!("{name}.bin")))?;
        let text = ["txt", "out"].map(|ending| directory.join(format!("{name}.{ending}"))).into_iter().find(|p| p.exists());
        let outputs = vectors::read_txt(&text.ok_or("no stored output")?)?;
        let mut count = 0;
        for (input, output) in inputs.iter().zip(&outputs) {
            if let Some(input) = rewritten(input) {
                count += 1;
                let answer = reference::heapverdict(&input);
                if answer.lines().next() != output.lines().next() {
                    println!("{name}: {} gives {answer}", hex(&input));
                    agreed = false;
                }
            }
        }
        println!("{name}: {count} old queries, each with its rewriting's verdict");
    }
    Ok(agreed)
}
