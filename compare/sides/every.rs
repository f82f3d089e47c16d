//! One side's answers to ranges of syndromes, as digests.
//!
//!     every rust|ours           a line `START COUNT` of standard input: the digest of the answers to START, START + 1 .., and how many
//!                               of them are accepted
//!     every rust|ours show      a value to a line: its canonical block (ours without the refusal's message)
//!
//! The two sides share how numbers are mixed. What an answer consists of is said twice: of the Rust's tree of fields, whose strings are
//! hashed anew each time, and of our flat records, whose codes are looked up in digests of what the archive gives for them.

#[allow(dead_code)]
#[path = "../oracle/answers.rs"]
mod answers;
mod digest;
#[allow(dead_code)]
mod capi;

use answers::{number_of, numbered, write_records};
use decoder::{FieldInfo, decode};
use digest::{ABSENT, mix};
use std::io::{self, BufRead, BufWriter, Write};

trait Side {
    /// The digest of the answer to a value, and whether the value is accepted.
    fn digest(&self, esr: u64) -> (u64, bool);
    fn show(&self, out: &mut impl Write, esr: u64) -> io::Result<()>;
}

struct Rust;

fn tree(state: &mut u64, depth: u64, fields: &[FieldInfo]) -> u64 {
    let mut count = 0;
    for field in fields {
        let name = digest::string(field.name.as_bytes());
        let long = field.long_name.map_or(ABSENT, |long| digest::string(long.as_bytes()));
        let text = field.description.as_ref().map_or(ABSENT, |text| digest::string(text.as_bytes()));
        let record = digest::record(depth, [name, long, text], field.start as u64, field.width as u64, field.value);
        *state = mix(*state, record);
        count += 1 + tree(state, depth + 1, &field.subfields);
    }
    count
}

impl Side for Rust {
    fn digest(&self, esr: u64) -> (u64, bool) {
        match decode(esr) {
            Err(error) => {
                let (number, carried) = numbered(&error);
                (digest::refused(number, carried), false)
            }
            Ok(fields) => {
                let mut state = digest::refused(0, 0);
                let count = tree(&mut state, 0, &fields);
                (mix(state, count), true)
            }
        }
    }

    fn show(&self, out: &mut impl Write, esr: u64) -> io::Result<()> {
        write_records(out, esr)
    }
}

/// Ours, with the digest of the text of each code.
struct Ours(Vec<u64>);

/// The slots before those of ISS's own records.
const TOP: usize = 5;

fn said(code: u16) -> Option<Vec<u8>> {
    let mut buffer = vec![0; 1 << 16];
    let filled = capi::text(code, &mut buffer);
    assert!(filled.refusal == 0, "the text {code} is refused");
    buffer.truncate(filled.count);
    (code != 0).then_some(buffer)
}

impl Ours {
    fn new() -> Ours {
        let digest = |code| said(code).map_or(ABSENT, |text| digest::string(&text));
        Ours((0..=u16::MAX).map(digest).collect())
    }
}

impl Side for Ours {
    fn digest(&self, esr: u64) -> (u64, bool) {
        let mut slots = [capi::Record::default(); capi::SLOTS];
        let answer = capi::decode(esr, &mut slots);
        let mut state = digest::refused(answer.refusal, answer.carried);
        if answer.refusal != 0 {
            return (state, false);
        }
        for (at, slot) in slots[..answer.count].iter().enumerate() {
            let strings = [slot.name, slot.long.into(), slot.text].map(|code| self.0[usize::from(code)]);
            let depth = u64::from(at >= TOP);
            state = mix(state, digest::record(depth, strings, slot.start.into(), slot.width.into(), slot.value));
        }
        (mix(state, answer.count as u64), true)
    }

    fn show(&self, out: &mut impl Write, esr: u64) -> io::Result<()> {
        let mut slots = [capi::Record::default(); capi::SLOTS];
        let answer = capi::decode(esr, &mut slots);
        writeln!(out, "> {esr:#x}")?;
        if answer.refusal != 0 {
            return writeln!(out, "refused {} carried={:#x}", answer.refusal, answer.carried);
        }
        for (at, slot) in slots[..answer.count].iter().enumerate() {
            let [name, long, text] = [slot.name, slot.long.into(), slot.text]
                .map(|code| said(code).map_or("-".into(), |text| String::from_utf8_lossy(&text).into_owned()));
            let capi::Record { value, start, width, .. } = slot;
            writeln!(out, "{}|{name}|{long}|{start}|{width}|{value:#x}|{text}", u8::from(at >= TOP))?;
        }
        Ok(())
    }
}

fn range(side: &impl Side, start: u64, count: u64) -> (u64, u64) {
    (start..start + count).fold((0, 0), |(state, accepted), esr| {
        let (answer, taken) = side.digest(esr);
        (mix(state, answer), accepted + u64::from(taken))
    })
}

fn serve(side: &impl Side, showing: bool) -> io::Result<()> {
    let mut out = BufWriter::new(io::stdout().lock());
    for line in io::stdin().lock().lines() {
        let line = line?;
        let numbers: Vec<u64> = line.split(' ').map(|word| number_of(word.as_bytes()).expect("a number")).collect();
        match (showing, &numbers[..]) {
            (true, &[esr]) => side.show(&mut out, esr)?,
            (false, &[start, count]) => {
                let (state, accepted) = range(side, start, count);
                writeln!(out, "{state:016x} {accepted}")?;
                out.flush()?;
            }
            _ => panic!("the line is not understood: {line}"),
        }
    }
    out.flush()
}

fn main() -> io::Result<()> {
    let words: Vec<String> = std::env::args().skip(1).collect();
    let served = match words.iter().map(String::as_str).collect::<Vec<_>>()[..] {
        ["rust"] => serve(&Rust, false),
        ["rust", "show"] => serve(&Rust, true),
        ["ours"] => serve(&Ours::new(), false),
        ["ours", "show"] => serve(&Ours::new(), true),
        _ => {
            eprintln!("usage: every rust|ours [show]");
            std::process::exit(2);
        }
    };
    // whoever asked has stopped listening
    served.or_else(|error| if error.kind() == io::ErrorKind::BrokenPipe { Ok(()) } else { Err(error) })
}
