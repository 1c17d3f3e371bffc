//! The second program as a program: standard input to standard output. Without a word it is `drrrun`, which
//! lists the run of a file, and `--waiting` is that program's own word; the words `drrmake` and `drrshow` make
//! it those two.

use std::io::{stderr, stdin, stdout, Error, Read, Result, Write};

mod drr;
mod textform;

fn main() -> Result<()> {
    let mut input = Vec::new();
    stdin().read_to_end(&mut input)?;
    let [plain, waiting] = drr::texts(&input).map(String::into_bytes);
    let (output, error) = match std::env::args().nth(1).as_deref() {
        None => (plain, String::new()),
        Some("--waiting") => (waiting, String::new()),
        Some("drrmake") => textform::made(&input),
        Some("drrshow") => (textform::show(&input).into_bytes(), String::new()),
        Some(word) => return Err(Error::other(format!("no such program: {word}"))),
    };
    stderr().write_all(error.as_bytes())?;
    stdout().write_all(&output)
}
