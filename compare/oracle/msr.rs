// Class 0x18, whose file is not to be had: accepted, ISS undivided and without text, as document 01 says.
use crate::{DecodeError, FieldInfo};

pub fn decode_iss_msr(_iss: u64) -> Result<(Vec<FieldInfo>, Option<String>), DecodeError> {
    Ok((vec![], None))
}
