//! Our archive of this processor, as include/esr.h declares it.

/// The most records that an answer has.
pub const SLOTS: usize = 19;

#[repr(C)]
#[derive(Clone, Copy, Default, PartialEq)]
pub struct Record {
    pub value: u64,
    pub name: u16,
    pub text: u16,
    pub long: u8,
    pub start: u8,
    pub width: u8,
    pub mark: u8,
}

/// How many slots or bytes of the lent memory were filled, or why none was.
#[repr(C)]
pub struct Filled {
    pub carried: u64,
    pub count: usize,
    pub refusal: u8,
    pub start: u8,
    pub width: u8,
}

#[repr(C)]
pub struct Number {
    pub value: u64,
    pub carried: u64,
    pub refusal: u8,
    pub start: u8,
    pub width: u8,
}

extern "C" {
    fn esr_decode(esr: u64, slots: *mut Record, length: usize) -> Filled;
    fn esr_text(code: u16, buffer: *mut u8, length: usize) -> Filled;
    fn esr_listing(esr: u64, buffer: *mut u8, length: usize) -> Filled;
    fn esr_parse_number(string: *const u8, length: usize) -> Number;
}

// Each function reads or writes the memory that it is lent and no other: that is proved of it.

pub fn decode(esr: u64, slots: &mut [Record]) -> Filled {
    unsafe { esr_decode(esr, slots.as_mut_ptr(), slots.len()) }
}

pub fn text(code: u16, buffer: &mut [u8]) -> Filled {
    unsafe { esr_text(code, buffer.as_mut_ptr(), buffer.len()) }
}

pub fn listing(esr: u64, buffer: &mut [u8]) -> Filled {
    unsafe { esr_listing(esr, buffer.as_mut_ptr(), buffer.len()) }
}

pub fn parse_number(string: &[u8]) -> Number {
    unsafe { esr_parse_number(string.as_ptr(), string.len()) }
}
