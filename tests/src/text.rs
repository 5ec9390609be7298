//! Records written as rows of a text.

/// Records as text, each a row with its line feed.
pub fn text_of<'a>(records: impl IntoIterator<Item = &'a Vec<u8>>) -> Vec<u8> {
    records.into_iter().flat_map(|record| format!("{}\n", row_of(record)).into_bytes()).collect()
}

/// The row of a record whose kind and length are right, without a line feed.
pub fn row_of(record: &[u8]) -> String {
    let number = |at: usize| u16::from_be_bytes([record[at], record[at + 1]]);
    let type_word = |at: usize| match number(at) {
        basic @ 0..32768 => basic.to_string(),
        group => format!("g{}", group - 32768),
    };
    let words: Vec<String> = match record[1] {
        1 => (2..record.len()).step_by(2).map(type_word).collect(),
        2 => {
            let condition = match record[10] {
                0 => "off".to_string(),
                1 => "on".to_string(),
                switch => format!("s{}", switch - 2),
            };
            vec![type_word(2), type_word(4), number(6).to_string(), number(8).to_string(), condition]
        }
        3 => vec![type_word(2), type_word(4), number(6).to_string()],
        _ => {
            let numbers = [number(2).to_string(), number(4).to_string()].into_iter();
            let arguments = [type_word(6), type_word(8), record[10].to_string()];
            numbers.chain(arguments).chain((11..record.len()).step_by(2).map(type_word)).collect()
        }
    };
    format!("{} {}", ["group", "allow", "trans", "limit"][usize::from(record[1]) - 1], words.join(" "))
}

/// The number of the row at a place of a text, counted from 1.
pub fn row_number(text: &[u8], place: usize) -> usize {
    1 + text[..place].iter().filter(|&&byte| byte == b'\n').count()
}
