//! What the tests and the benchmark share: images written down record by record, records as text, and the sample sheet.

pub mod draft;
pub mod sample;
pub mod text;
