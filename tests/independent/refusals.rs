//! The refusals that there are on each side: of analysing, of converting and of writing.

use crate::model::field_refusals;
use crate::reading::{Check, CHECKS};
use std::collections::BTreeSet;

/// All refusals: those within a record, then a byte after the end record and a reply buffer that is too short.
pub fn refusals() -> BTreeSet<u8> {
    CHECKS.iter().flat_map(Check::refusals).chain([10, 11]).collect()
}

/// The refusals of reading, which are those of a conversion.
pub fn refusals_of_reading() -> BTreeSet<u8> {
    refusals().into_iter().filter(|number| *number != 11).collect()
}

/// The refusals of a writing: the headers of written bytes are right, and nothing comes after their end record.
pub fn refusals_of_writing() -> BTreeSet<u8> {
    field_refusals().into_iter().chain([6, 7, 8, 9, 11]).collect()
}
