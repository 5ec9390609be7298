//! Many groups, none a twin of another.

use crate::draft::group;

/// So many groups of one member, 100 and up: 4 bytes each.
pub fn lone_groups(count: u16) -> Vec<Vec<u8>> {
    (0..count).map(|n| group(&[100 + n])).collect()
}

/// The same as rows of a text, 10 bytes each.
pub fn lone_rows(count: u16) -> String {
    (0..count).map(|n| format!("group {}\n", 100 + n)).collect()
}
