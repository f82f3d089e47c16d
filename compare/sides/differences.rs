//! The Rust as published beside the Rust as document 01 fills it in, on every ISS of every class: what differs, how often, and the
//! smallest value that shows it. Prints two tables. It ends with status 1 where they differ in more than texts and refusals; a value that one of them
//! accepts is a difference of refusals.

#[allow(dead_code)]
#[path = "../oracle/answers.rs"]
mod answers;

use answers::numbered;
use std::collections::BTreeMap;
use std::thread;

const ACCEPTED: (u8, u64) = (0, 0);

/// How often something differs, and the smallest value that shows it.
#[derive(Default)]
struct Found {
    texts: BTreeMap<(&'static str, String, String), (u64, u64)>,
    /// By class, status, and the number of each; 0 where a value is accepted.
    refusals: BTreeMap<(u64, u64, u8, u8), (u64, u64)>,
}

fn note<K: Ord>(found: &mut BTreeMap<K, (u64, u64)>, key: K, count: u64, esr: u64) {
    let entry = found.entry(key).or_insert((0, esr));
    *entry = (entry.0 + count, entry.1.min(esr));
}

impl Found {
    fn add(&mut self, other: Found) {
        for (key, (count, esr)) in other.texts {
            note(&mut self.texts, key, count, esr);
        }
        for (key, (count, esr)) in other.refusals {
            note(&mut self.refusals, key, count, esr);
        }
    }

    fn compare_fields(&mut self, esr: u64, theirs: &[published::FieldInfo], ours: &[decoder::FieldInfo]) {
        assert!(theirs.len() == ours.len(), "the fields of {esr:#x} differ");
        for (a, b) in theirs.iter().zip(ours) {
            let same = (a.name, a.long_name, a.start, a.width, a.value) == (b.name, b.long_name, b.start, b.width, b.value);
            assert!(same, "a field of {esr:#x} differs in more than its text");
            if a.description != b.description {
                let text = |text: &Option<String>| text.clone().unwrap_or("-".into());
                note(&mut self.texts, (a.name, text(&a.description), text(&b.description)), 1, esr);
            }
            self.compare_fields(esr, &a.subfields, &b.subfields);
        }
    }

    fn compare(&mut self, esr: u64) {
        match (published::decode(esr), decoder::decode(esr)) {
            (Ok(theirs), Ok(ours)) => self.compare_fields(esr, &theirs, &ours),
            (theirs, ours) => {
                let theirs = theirs.map_or_else(|error| theirs_numbered(&error), |_| ACCEPTED);
                let ours = ours.map_or_else(|error| numbered(&error), |_| ACCEPTED);
                if theirs != ours {
                    note(&mut self.refusals, (esr >> 26, esr & 63, theirs.0, ours.0), 1, esr);
                }
            }
        }
    }
}

fn theirs_numbered(error: &published::DecodeError) -> (u8, u64) {
    use published::DecodeError::*;
    match *error {
        InvalidRes0 { res0 } => (1, res0),
        InvalidEc { ec } => (2, ec),
        InvalidFsc { fsc } => (3, fsc),
        InvalidSet { set } => (4, set),
        InvalidAet { aet } => (5, aet),
        InvalidAm { am } => (6, am),
        InvalidLd64bIss { iss } => (7, iss),
    }
}

fn walked(half: u64) -> Found {
    let mut found = Found::default();
    for ec in 0..64 {
        for iss in half << 24..(half + 1) << 24 {
            found.compare(ec << 26 | iss);
        }
    }
    found
}

fn main() {
    let halves = [0, 1].map(|half| thread::spawn(move || walked(half)));
    let mut found = Found::default();
    for half in halves {
        found.add(half.join().expect("the two differ in more than texts and refusals"));
    }
    println!("| field | as published | by 01 | values | smallest |\n|---|---|---|---|---|");
    for ((name, theirs, ours), (count, esr)) in &found.texts {
        println!("| {name} | {theirs} | {ours} | {count} | {esr:#x} |");
    }
    println!("\n| class | status | refused as published | refused by 01 | values | smallest |\n|---|---|---|---|---|---|");
    for ((class, status, theirs, ours), (count, esr)) in &found.refusals {
        println!("| {class:#x} | {status:#x} | {theirs} | {ours} | {count} | {esr:#x} |");
    }
}
