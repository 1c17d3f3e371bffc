//! What a proved program said of each file or text, kept in one file: a wrong variant of the second program is
//! held to that, so that the proved one is not run again for each of them.

use std::io::{Error, Result};

/// Adds an answer: a line `NAME BYTES`, then so many bytes.
pub fn add(stored: &mut Vec<u8>, name: &str, answer: &[u8]) {
    stored.extend(format!("{name} {}\n", answer.len()).bytes());
    stored.extend(answer);
}

/// Tells whether any of these answers, each with its name, is another than the one stored. An error where the
/// stored answers are not of these names.
pub fn caught(
    path: &str,
    own: impl Iterator<Item = (Vec<u8>, String)>,
    what: &str,
) -> Result<bool> {
    let stored = std::fs::read(path)?;
    let mut rest = &stored[..];
    let mut differ = Vec::new();
    for (answer, name) in own {
        let given = next_answer(&mut rest, &name)
            .ok_or_else(|| Error::other(format!("{path} has no answer for {name}")))?;
        if answer != given {
            differ.push(name);
        }
    }
    if !rest.is_empty() {
        return Err(Error::other(format!(
            "{path} has more answers than {what}s"
        )));
    }
    match differ.first() {
        Some(first) => println!("{} {what}s, first {first}", differ.len()),
        None => println!("no {what} differs"),
    }
    Ok(!differ.is_empty())
}

/// The next stored answer, which must have this name.
fn next_answer<'a>(rest: &mut &'a [u8], name: &str) -> Option<&'a [u8]> {
    let end = rest.iter().position(|&byte| byte == b'\n')?;
    let line = std::str::from_utf8(&rest[..end]).ok()?;
    let size: usize = line.strip_prefix(name)?.trim_start().parse().ok()?;
    let answer = rest.get(end + 1..end + 1 + size)?;
    *rest = &rest[end + 1 + size..];
    Some(answer)
}
