//! Times our archive beside the Rust: `decode`, the listing and the number reader, each over the same 4,096 inputs, half of them accepted.
//!
//!     bench ROUNDS < VALUES     VALUES is `compare/sample values` without class 0x18; the inputs are chosen from it
//!
//! A round times each side in turn, 200 times over all inputs. Both sides are called through pointers that the compiler cannot see
//! through, and every field of an answer is used. Before anything is timed the two sides' answers are compared. A line for each gives the
//! medians over the rounds, two more those of both engines, accepted and refused values apart; the last three lines are our time over the Rust's.

#[allow(dead_code)]
#[path = "../oracle/answers.rs"]
mod answers;
#[allow(dead_code)]
mod capi;

use answers::{number_of, numbered, parse_refusal, write_fields};
use decoder::{DecodeError, FieldInfo, decode, parse_number};
use std::collections::{BTreeMap, BTreeSet, VecDeque};
use std::hint::black_box;
use std::io::{self, BufRead};
use std::num::ParseIntError;
use std::time::Instant;

const INPUTS: usize = 4096;
const TIMES: usize = 200;
const EMPTY: capi::Record = capi::Record { value: 0, name: 0, text: 0, long: 0, start: 0, width: 0, mark: 0 };

type Fields = Result<Vec<FieldInfo>, DecodeError>;

/// Values in turn from each class and refusal, half of them accepted.
fn chosen(values: &[u64]) -> Vec<u64> {
    let mut groups: BTreeMap<(u8, u64), VecDeque<u64>> = BTreeMap::new();
    for &esr in values {
        let refusal = decode(esr).map_or_else(|error| numbered(&error).0, |_| 0);
        groups.entry((refusal, esr >> 26 & 63)).or_default().push_back(esr);
    }
    let refusals: BTreeSet<u8> = groups.keys().map(|key| key.0).collect();
    let classes: BTreeSet<u64> = groups.keys().map(|key| key.1).collect();
    assert!(refusals.len() == 8 && classes.len() == 63, "the values do not have all refusals, and all classes but 0x18");
    let mut taken = Vec::new();
    for accepted in [true, false] {
        let end = taken.len() + INPUTS / 2;
        while taken.len() < end {
            for (key, group) in &mut groups {
                if (key.0 == 0) == accepted && taken.len() < end {
                    taken.extend(group.pop_front());
                }
            }
        }
    }
    taken
}

/// The texts of the values, in both bases. Those of the refused half are spoilt: by a character that is no digit, by digits that take the
/// number past 64 bits, and now and then by having no digits.
fn spelled(values: &[u64]) -> Vec<String> {
    let mut texts = Vec::new();
    for (at, value) in values.iter().enumerate() {
        let mut text = if at % 2 == 0 { format!("{value:#x}") } else { format!("{value}") };
        if at >= INPUTS / 2 {
            match at % 16 {
                0 => text.truncate(2),
                1 => text.clear(),
                k if k < 8 => text.insert(2.max(at / 16 % (text.len() + 1)).min(text.len()), 'g'),
                _ => text.push_str("00000000000000000000"),
            }
        }
        texts.push(text);
    }
    texts
}

fn use_strings(sum: u64, string: &str) -> u64 {
    sum.wrapping_add(string.as_ptr() as u64).wrapping_add(string.len() as u64)
}

fn use_fields(mut sum: u64, fields: &[FieldInfo]) -> u64 {
    for field in fields {
        sum = use_strings(sum, field.name);
        sum = use_strings(sum, field.long_name.unwrap_or_default());
        sum = use_strings(sum, field.description.as_deref().unwrap_or_default());
        sum = sum.wrapping_add(field.start as u64).wrapping_add(field.width as u64).wrapping_add(field.value);
        sum = use_fields(sum, &field.subfields);
    }
    sum
}

fn rust_decode(values: &[u64]) -> u64 {
    let call: fn(u64) -> Fields = black_box(decode);
    values.iter().fold(0, |sum, &esr| match call(esr) {
        Ok(fields) => use_fields(sum, &fields),
        Err(error) => {
            let (number, carried) = numbered(&error);
            sum.wrapping_add(carried).wrapping_add(number.into())
        }
    })
}

extern "C" {
    fn esr_decode_by_layouts(esr: u64, slots: *mut capi::Record, length: usize) -> capi::Filled;
}

/// The decoder in the Rust's shape, one routine per layout. It writes into the slots that it is lent and nowhere else: that is proved of it.
fn decode_by_layouts(esr: u64, slots: &mut [capi::Record]) -> capi::Filled {
    unsafe { esr_decode_by_layouts(esr, slots.as_mut_ptr(), slots.len()) }
}

fn our_decode(values: &[u64]) -> u64 {
    filled_by(capi::decode, values)
}

fn layouts_decode(values: &[u64]) -> u64 {
    filled_by(decode_by_layouts, values)
}

fn filled_by(decode: fn(u64, &mut [capi::Record]) -> capi::Filled, values: &[u64]) -> u64 {
    let call: fn(u64, &mut [capi::Record]) -> capi::Filled = black_box(decode);
    let mut slots = [EMPTY; capi::SLOTS];
    values.iter().fold(0, |sum, &esr| {
        let answer = call(esr, &mut slots);
        let sum = sum.wrapping_add(answer.carried).wrapping_add(answer.refusal.into());
        slots[..answer.count].iter().fold(sum, |sum, slot| {
            let codes = u64::from(slot.name) + u64::from(slot.long) + u64::from(slot.text);
            let bits = u64::from(slot.start) + u64::from(slot.width) + u64::from(slot.mark);
            sum.wrapping_add(slot.value).wrapping_add(codes).wrapping_add(bits)
        })
    })
}

fn rust_listing(values: &[u64]) -> u64 {
    let call: fn(u64) -> Fields = black_box(decode);
    let mut text = Vec::with_capacity(1 << 14);
    values.iter().fold(0, |sum, &esr| {
        text.clear();
        if let Ok(fields) = call(esr) {
            write_fields(&mut text, &fields).unwrap();
        }
        sum.wrapping_add(black_box(&text).len() as u64)
    })
}

fn our_listing(values: &[u64]) -> u64 {
    let call: fn(u64, &mut [u8]) -> capi::Filled = black_box(capi::listing);
    let mut text = [0; 1 << 14];
    values.iter().fold(0, |sum, &esr| {
        let count = call(esr, &mut text).count;
        black_box(&text);
        sum.wrapping_add(count as u64)
    })
}

fn rust_number(texts: &[String]) -> u64 {
    let call: fn(&str) -> Result<u64, ParseIntError> = black_box(parse_number);
    texts.iter().fold(0, |sum, text| match call(text) {
        Ok(value) => sum.wrapping_add(value),
        Err(error) => sum.wrapping_add(parse_refusal(&error).into()),
    })
}

fn our_number(texts: &[String]) -> u64 {
    let call: fn(&[u8]) -> capi::Number = black_box(capi::parse_number);
    texts.iter().fold(0, |sum, text| {
        let number = call(text.as_bytes());
        sum.wrapping_add(number.value).wrapping_add(number.carried).wrapping_add(number.refusal.into())
    })
}

fn seconds<T: ?Sized>(run: fn(&T) -> u64, inputs: &T) -> f64 {
    let began = Instant::now();
    for _ in 0..TIMES {
        black_box(run(black_box(inputs)));
    }
    began.elapsed().as_secs_f64()
}

fn median(mut times: Vec<f64>) -> f64 {
    times.sort_by(f64::total_cmp);
    times[times.len() / 2]
}

/// Both sides in turn, round by round; the ratio of their medians.
fn timed<T: ?Sized>(name: &str, rounds: usize, inputs: &T, rust: fn(&T) -> u64, ours: fn(&T) -> u64) -> f64 {
    let (mut rusts, mut our) = (Vec::new(), Vec::new());
    for _ in 0..rounds {
        rusts.push(seconds(rust, inputs));
        our.push(seconds(ours, inputs));
    }
    let least = |times: &[f64]| times.iter().copied().fold(f64::MAX, f64::min);
    let each = |time: f64| time * 1e9 / (TIMES * INPUTS) as f64;
    let (rust_least, our_least) = (each(least(&rusts)), each(least(&our)));
    let (rust_median, our_median) = (each(median(rusts)), each(median(our)));
    println!("{name}: the Rust {rust_median:.1} ns (least {rust_least:.1}), ours {our_median:.1} ns (least {our_least:.1}), {rounds} rounds");
    our_median / rust_median
}

/// The Rust and both engines in turn, round by round, over the accepted values and over the refused ones: the medians.
fn engines(rounds: usize, values: &[u64]) {
    let (accepted, refused) = values.split_at(INPUTS / 2);
    for (name, part) in [("accepted", accepted), ("refused", refused)] {
        let mut times = [Vec::new(), Vec::new(), Vec::new()];
        for _ in 0..rounds {
            for (run, times) in [rust_decode, our_decode, layouts_decode].into_iter().zip(&mut times) {
                times.push(seconds(run, part));
            }
        }
        let [rust, engine, layouts] = times.map(|times| median(times) * 1e9 / (TIMES * part.len()) as f64);
        println!("decode, {name}: the Rust {rust:.1} ns, the engine {engine:.1} ns, by layouts {layouts:.1} ns");
    }
}

/// What is timed has to be the same: refusals and counts, listings, numbers.
fn agree(values: &[u64], texts: &[String]) {
    let mut slots = [EMPTY; capi::SLOTS];
    let mut text = vec![0; 1 << 14];
    for &esr in values {
        let ours = capi::decode(esr, &mut slots);
        let mut others = [EMPTY; capi::SLOTS];
        let other = decode_by_layouts(esr, &mut others);
        assert!((other.refusal, other.carried, other.count) == (ours.refusal, ours.carried, ours.count), "{esr:#x} is decoded otherwise by layouts");
        assert!(others[..other.count] == slots[..ours.count], "{esr:#x} has other records by layouts");
        let listed = capi::listing(esr, &mut text);
        let told = (ours.refusal, ours.carried);
        match decode(esr) {
            Err(error) => assert!(told == numbered(&error) && listed.refusal == told.0, "{esr:#x} is refused otherwise"),
            Ok(fields) => {
                let mut rust = Vec::new();
                write_fields(&mut rust, &fields).unwrap();
                assert!(told == (0, 0) && rust == text[..listed.count], "{esr:#x} is listed otherwise");
            }
        }
    }
    for text in texts {
        let ours = capi::parse_number(text.as_bytes());
        let rust = parse_number(text).map_or_else(|error| (0, parse_refusal(&error)), |value| (value, 0));
        assert!((ours.value, ours.refusal) == rust, "{text} is read otherwise");
    }
}

fn main() {
    let rounds = std::env::args().nth(1).and_then(|word| word.parse().ok()).expect("usage: bench ROUNDS < VALUES");
    let values: Vec<u64> = io::stdin().lock().lines().map(|line| number_of(line.unwrap().as_bytes()).unwrap()).collect();
    let values = chosen(&values);
    let texts = spelled(&values);
    agree(&values, &texts);
    let accepted = values.iter().filter(|&&esr| decode(esr).is_ok()).count();
    let numbers = texts.iter().filter(|text| parse_number(text).is_ok()).count();
    println!("{INPUTS} values of all classes and refusals, {accepted} accepted; {INPUTS} strings, {numbers} accepted; {TIMES} times each");
    engines(rounds, &values);
    let ratios = [
        ("decode", timed("decode", rounds, &values[..], rust_decode, our_decode)),
        ("listing", timed("listing", rounds, &values[..], rust_listing, our_listing)),
        ("number", timed("number", rounds, &texts[..], rust_number, our_number)),
    ];
    for (name, ratio) in ratios {
        println!("{name} {ratio:.2}");
    }
}
