// What document 01 decides of abort.rs, in 01's words, and 02's #102: the abort statuses and the external ones among them, and the house texts. `build.py`
// puts each function in the place of the one of its name.

fn is_external_abort_fsc(status: u64) -> bool {
    status == 0x10 || (0x12..=0x17).contains(&status)
}

fn describe_fsc(status: u64) -> Result<&'static str, DecodeError> {
    Ok(match status {
        0x00 => "Address size fault, level 0",
        0x01 => "Address size fault, level 1",
        0x02 => "Address size fault, level 2",
        0x03 => "Address size fault, level 3",
        0x04 => "Translation fault, level 0",
        0x05 => "Translation fault, level 1",
        0x06 => "Translation fault, level 2",
        0x07 => "Translation fault, level 3",
        0x08 => "Access flag fault, level 0",
        0x09 => "Access flag fault, level 1",
        0x0A => "Access flag fault, level 2",
        0x0B => "Access flag fault, level 3",
        0x0C => "Permission fault, level 0",
        0x0D => "Permission fault, level 1",
        0x0E => "Permission fault, level 2",
        0x0F => "Permission fault, level 3",
        0x10 => "External abort",
        0x11 => "Tag check fault",
        0x12 => "External abort on table walk, level -2",
        0x13 => "External abort on table walk, level -1",
        0x14 => "External abort on table walk, level 0",
        0x15 => "External abort on table walk, level 1",
        0x16 => "External abort on table walk, level 2",
        0x17 => "External abort on table walk, level 3",
        0x18 => "Parity or ECC error",
        0x1B => "Parity or ECC error on table walk, level -1",
        0x1C => "Parity or ECC error on table walk, level 0",
        0x1D => "Parity or ECC error on table walk, level 1",
        0x1E => "Parity or ECC error on table walk, level 2",
        0x1F => "Parity or ECC error on table walk, level 3",
        0x21 => "Alignment fault",
        0x22 => "Granule protection fault on table walk, level -2",
        0x23 => "Granule protection fault on table walk, level -1",
        0x24 => "Granule protection fault on table walk, level 0",
        0x25 => "Granule protection fault on table walk, level 1",
        0x26 => "Granule protection fault on table walk, level 2",
        0x27 => "Granule protection fault on table walk, level 3",
        0x28 => "Granule protection fault",
        0x29 => "Address size fault, level -1",
        0x2A => "Translation fault, level -2",
        0x2B => "Translation fault, level -1",
        0x2C => "Address size fault, level -2",
        0x30 => "TLB conflict abort",
        0x31 => "Unsupported atomic hardware update",
        0x34 => "Lockdown",
        0x35 => "Unsupported exclusive or atomic access",
        _ => return Err(DecodeError::InvalidFsc { fsc: status }),
    })
}

fn describe_isv(isv: bool) -> &'static str {
    ["No instruction syndrome", "Instruction syndrome valid"][isv as usize]
}

fn describe_sf(sf: bool) -> &'static str {
    ["32-bit register", "64-bit register"][sf as usize]
}

fn describe_ar(ar: bool) -> &'static str {
    ["No acquire or release", "Acquire or release"][ar as usize]
}

fn describe_fnv(fnv: bool) -> &'static str {
    ["FAR is valid", "FAR is not valid"][fnv as usize]
}

pub(super) fn describe_pfv(pfv: bool) -> &'static str {
    ["PFAR is not valid", "PFAR is valid"][pfv as usize]
}

pub(super) fn describe_wnr(wnr: bool) -> &'static str {
    ["Caused by reading", "Caused by writing"][wnr as usize]
}

fn describe_fnp(fnp: bool, far_not_valid: bool) -> &'static str {
    if far_not_valid {
        return "FAR is not valid";
    }
    ["FAR is precise", "FAR is not precise"][fnp as usize]
}
