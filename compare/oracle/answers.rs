//! The Rust's answers in document 01's terms: a refusal's number and what it carries, records in canonical lines, listings.

use decoder::{DecodeError, FieldInfo, decode, parse_number};
use std::io::{self, Write};
use std::num::{IntErrorKind, ParseIntError};

pub fn numbered(error: &DecodeError) -> (u8, u64) {
    match *error {
        DecodeError::InvalidRes0 { res0 } => (1, res0),
        DecodeError::InvalidEc { ec } => (2, ec),
        DecodeError::InvalidFsc { fsc } => (3, fsc),
        DecodeError::InvalidSet { set } => (4, set),
        DecodeError::InvalidAet { aet } => (5, aet),
        DecodeError::InvalidAm { am } => (6, am),
        DecodeError::InvalidLd64bIss { iss } => (7, iss),
    }
}

pub fn error_of(number: u8, carried: u64) -> Option<DecodeError> {
    Some(match number {
        1 => DecodeError::InvalidRes0 { res0: carried },
        2 => DecodeError::InvalidEc { ec: carried },
        3 => DecodeError::InvalidFsc { fsc: carried },
        4 => DecodeError::InvalidSet { set: carried },
        5 => DecodeError::InvalidAet { aet: carried },
        6 => DecodeError::InvalidAm { am: carried },
        7 => DecodeError::InvalidLd64bIss { iss: carried },
        _ => return None,
    })
}

pub fn parse_refusal(error: &ParseIntError) -> u8 {
    match error.kind() {
        IntErrorKind::Empty => 8,
        IntErrorKind::InvalidDigit => 9,
        IntErrorKind::PosOverflow => 10,
        other => panic!("no number for {other:?}"),
    }
}

/// A number from any bytes. The Rust takes text: bytes that are no UTF-8 never reach it, so for them document 01 decides. It says that
/// bytes above 0x7F are no digits; each becomes a character that is none, and the Rust's reader does the rest.
pub fn number_of(line: &[u8]) -> Result<u64, ParseIntError> {
    match std::str::from_utf8(line) {
        Ok(text) => parse_number(text),
        Err(_) => {
            let plain: String = line.iter().map(|&b| if b < 0x80 { b as char } else { '?' }).collect();
            parse_number(&plain)
        }
    }
}

pub fn write_number(out: &mut impl Write, line: &[u8]) -> io::Result<()> {
    match number_of(line) {
        Ok(value) => writeln!(out, "ok {value:#x}"),
        Err(error) => writeln!(out, "refused {}", parse_refusal(&error)),
    }
}

fn write_record(out: &mut impl Write, depth: usize, field: &FieldInfo) -> io::Result<()> {
    let FieldInfo { name, long_name, start, width, value, description, subfields } = field;
    let long = long_name.unwrap_or("-");
    let text = description.as_deref().unwrap_or("-");
    writeln!(out, "{depth}|{name}|{long}|{start}|{width}|{value:#x}|{text}")?;
    subfields.iter().try_for_each(|inner| write_record(out, depth + 1, inner))
}

/// A canonical block: the value, then its refusal or a line for each record.
pub fn write_records(out: &mut impl Write, esr: u64) -> io::Result<()> {
    writeln!(out, "> {esr:#x}")?;
    match decode(esr) {
        Ok(fields) => fields.iter().try_for_each(|field| write_record(out, 0, field)),
        Err(error) => {
            let (number, carried) = numbered(&error);
            writeln!(out, "refused {number} carried={carried:#x} {error}")
        }
    }
}

fn write_listed(out: &mut impl Write, depth: usize, field: &FieldInfo) -> io::Result<()> {
    let indent = 2 * depth;
    writeln!(out, "{:indent$}{field}", "")?;
    if let Some(text) = &field.description {
        writeln!(out, "{:indent$}# {text}", "")?;
    }
    field.subfields.iter().try_for_each(|inner| write_listed(out, depth + 1, inner))
}

/// Document 01's listing over the Rust's own lines and texts.
pub fn write_fields(out: &mut impl Write, fields: &[FieldInfo]) -> io::Result<()> {
    fields.iter().try_for_each(|field| write_listed(out, 0, field))
}

/// A block of the listing program: the value, then its listing or its refusal.
pub fn write_listing(out: &mut impl Write, esr: u64) -> io::Result<()> {
    writeln!(out, "> {esr:#x}")?;
    match decode(esr) {
        Ok(fields) => write_fields(out, &fields),
        Err(error) => writeln!(out, "refused {}: {error}", numbered(&error).0),
    }
}
