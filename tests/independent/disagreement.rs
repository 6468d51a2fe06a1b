//! What is said when the expected side and the product differ.

use crate::product::{Lent, Returned};

pub struct Disagreement {
    pub bytes: Vec<u8>,
    pub about: String,
    pub expected: String,
    pub came: String,
}

pub fn hex(bytes: &[u8]) -> String {
    bytes.iter().map(|byte| format!("{byte:02X}")).collect()
}

pub fn differ(bytes: &[u8], about: &str, expected: String, came: String) -> Disagreement {
    Disagreement { bytes: bytes.to_vec(), about: about.to_string(), expected, came }
}

pub fn agree(bytes: &[u8], same: bool, about: &str, sides: impl Fn() -> (String, String)) -> Result<(), Disagreement> {
    if same {
        return Ok(());
    }
    let (expected, came) = sides();
    Err(differ(bytes, about, expected, came))
}

/// What a call returned and the buffer it left, or what it has to return and leave.
pub struct Called {
    pub returned: Returned,
    pub buffer: Lent,
}

/// The number and the value, then the buffer with its guards.
pub fn same_call(bytes: &[u8], who: &str, what: &str, due: &Called, came: &Called) -> Result<(), Disagreement> {
    let length = due.buffer.length;
    let words = |called: &Called| format!("number {}, value {}", called.returned.number, called.returned.value);
    let about = format!("{who} number and value, {what} of {length}");
    agree(bytes, due.returned == came.returned, &about, || (words(due), words(came)))?;
    let (left, after) = (&due.buffer.whole, &came.buffer.whole);
    let about = format!("the {what} of {length}, with {} guard bytes before it", due.buffer.before);
    agree(bytes, left == after, &about, || (hex(left), hex(after)))
}
