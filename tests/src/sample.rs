//! The sample sheet of document 01.

use mungaite::Query;

pub use mungaite::EMPTY;

#[rustfmt::skip]
pub const SAMPLE: [u8; 80] = [
    0x01, 0x00, 0x50, 0x00, 0x01, 0x00, 0x04, 0x00, 0x02,
    0x06, 0x01, 0x00, 0x14, 0x00, 0x15,
    0x0B, 0x02, 0x00, 0x0A, 0x80, 0x00, 0x00, 0x05, 0x00, 0x01, 0x01,
    0x0B, 0x02, 0x00, 0x14, 0x00, 0x1E, 0x00, 0x05, 0x00, 0x02, 0x01,
    0x08, 0x03, 0x00, 0x0C, 0x00, 0x14, 0x00, 0x05,
    0x0B, 0x02, 0x00, 0x0D, 0x00, 0x15, 0x00, 0x05, 0x00, 0x01, 0x00,
    0x0D, 0x04, 0x00, 0x05, 0x00, 0x01, 0x00, 0x0A, 0x00, 0x15, 0x02, 0x00, 0x0A,
    0x0B, 0x04, 0x00, 0x05, 0x00, 0x02, 0x00, 0x14, 0x00, 0x1E, 0x01,
];

/// The sample typed as text, a row for each record.
pub const SAMPLE_TEXT: &str = "group 20 21
allow 10 g0 5 1 on
allow 20 30 5 2 on
trans 12 20 5
allow 13 21 5 1 off
limit 5 1 10 21 2 10
limit 5 2 20 30 1
";

/// The type field of group 0.
pub const G0: u16 = 32768;

/// A query with no switch on.
pub const fn query(source: u16, destination: u16, class: u16, action: u16) -> Query {
    Query::new(source, destination, class, action)
}

/// The query under another switch word.
pub const fn under(switches: u32, query: Query) -> Query {
    Query { switches, ..query }
}

/// The sample sheet's queries, two that a query's own causes refuse, one that is denied for its action alone, one that
/// a transition stops at its destination, and two with every other switch on.
pub const QUERIES: [Query; 11] = [
    query(10, 21, 5, 1),
    query(10, G0, 5, 1),
    query(13, 21, 5, 1),
    query(12, 20, 9, 9),
    query(20, 30, 5, 2),
    query(1024, 21, 5, 1),
    query(10, 32769, 5, 1),
    query(10, 21, 5, 2),
    query(12, 21, 5, 1),
    under(0x5555_5555, query(10, 21, 5, 1)),
    under(0xAAAA_AAAA, query(13, 21, 5, 1)),
];
