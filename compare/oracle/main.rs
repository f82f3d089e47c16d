//! The oracle: the Rust's answers to the lines of standard input, in the form of our programs.
//!
//!     oracle records     a value to a line: canonical blocks; `refused N` for a line that holds no number
//!     oracle listing     a value to a line: the value, then its listing or refusal
//!     oracle number      any bytes but the line feed: `ok 0xH` or `refused N`
//!     oracle message     `N CARRIED` to a line: the message of that refusal

mod answers;

use answers::*;
use std::io::{self, BufRead, BufWriter, Write};

type Answer<W> = fn(&mut W, &[u8]) -> io::Result<()>;

fn valued<W: Write>(out: &mut W, line: &[u8], answer: fn(&mut W, u64) -> io::Result<()>) -> io::Result<()> {
    match number_of(line) {
        Ok(esr) => answer(out, esr),
        Err(error) => writeln!(out, "refused {}", parse_refusal(&error)),
    }
}

fn write_message(out: &mut impl Write, line: &[u8]) -> io::Result<()> {
    let mut parts = line.split(|&b| b == b' ').map(number_of);
    let error = match (parts.next(), parts.next()) {
        (Some(Ok(number)), Some(Ok(carried))) => u8::try_from(number).ok().and_then(|n| error_of(n, carried)),
        _ => None,
    };
    match error {
        Some(error) => writeln!(out, "{error}"),
        None => writeln!(out, "refused 12"),
    }
}

fn answer_of<W: Write>(mode: &str) -> Option<Answer<W>> {
    Some(match mode {
        "records" => |out, line| valued(out, line, write_records),
        "listing" => |out, line| valued(out, line, write_listing),
        "number" => |out, line| write_number(out, line),
        "message" => |out, line| write_message(out, line),
        _ => return None,
    })
}

fn main() -> io::Result<()> {
    let mode = std::env::args().nth(1).unwrap_or_default();
    let Some(answer) = answer_of(&mode) else {
        eprintln!("usage: oracle records|listing|number|message");
        std::process::exit(2);
    };
    let mut input = io::stdin().lock();
    let mut out = BufWriter::with_capacity(1 << 16, io::stdout().lock());
    let mut line = Vec::new();
    while input.read_until(b'\n', &mut line)? != 0 {
        if line.last() == Some(&b'\n') {
            line.pop();
        }
        answer(&mut out, &line)?;
        line.clear();
    }
    out.flush()
}
