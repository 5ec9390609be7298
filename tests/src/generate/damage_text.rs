//! Texts with something wrong, most often just one thing.

use crate::random::Random;

/// Words that are outside the form at some place, or just within it.
#[rustfmt::skip]
const WORDS: [&[u8]; 66] = [
    b"", b"0", b"1", b"00", b"01", b"007", b"g00", b"g01", b"+1", b"-1", b"g+1", b"+0", b"1.", b"0x1", b"1e3", b"one",
    b"2", b"3", b"4", b"5", b"255", b"256", b"257", b"1023", b"1024", b"1025", b"32767", b"32768", b"32769", b"65535",
    b"65536", b"65537", b"4294967296", b"4294967297", b"18446744073709551616", b"18446744073709551617",
    b"g", b"g0", b"g1", b"g255", b"g256", b"g32767", b"g32768", b"g65536", b"G0", b"g 0", b"gg0", b"0g",
    b"s", b"s0", b"s1", b"s31", b"s32", b"s00", b"s01", b"s031", b"s-1", b"s1x", b"S1",
    b"on", b"off", b"ON", b"Off", b"o", b"group", b"limit",
];

/// Words just outside the form or within it where a condition is meant.
const CONDITIONS: [&[u8]; 12] =
    [b"s31", b"s32", b"s33", b"s", b"s00", b"s07", b"S0", b"S31", b"s1 ", b"s1x", b"0", b"31"];

/// Words just outside the form where another number or a group is meant.
const EDGES: [&[u8]; 8] = [b"65536", b"32768", b"256", b"g32768", b"g32767", b"g", b"g0", b"01"];

/// Bytes that a number, a word or a row may be cut or joined by.
const BYTES: [u8; 22] = *b"\n\n\n\r\t 019gGofnsSX+-,\0\xFF";

/// Damages one row, or in one of five cases two.
pub fn damage_rows(random: &mut Random, rows: &mut Vec<Vec<u8>>) {
    for _ in 0..1 + usize::from(random.percent(20)) {
        if rows.is_empty() {
            rows.push(random.pick(&WORDS).to_vec());
        }
        let row = random.of(0..=rows.len() - 1);
        match random.of(0..=9) {
            0 | 1 => damage_byte(random, &mut rows[row]),
            2..=4 => damage_word(random, &mut rows[row]),
            5..=7 => damage_space(random, &mut rows[row]),
            _ => damage_row(random, rows, row),
        }
    }
}

/// A byte changed, put in or taken out.
fn damage_byte(random: &mut Random, row: &mut Vec<u8>) {
    let byte = if random.percent(50) { random.pick(&BYTES) } else { random.byte() };
    let at = random.of(0..=row.len());
    match random.of(0..=2) {
        0 if at < row.len() => row[at] = byte,
        1 if at < row.len() => drop(row.remove(at)),
        _ => row.insert(at, byte),
    }
}

/// A word changed, put in, doubled or taken out, or two words swapped.
fn damage_word(random: &mut Random, row: &mut Vec<u8>) {
    let mut words: Vec<Vec<u8>> = row.split(|&byte| byte == b' ').map(<[u8]>::to_vec).collect();
    let (at, other) = (random.of(0..=words.len() - 1), random.of(0..=words.len() - 1));
    if row.starts_with(b"allow") && random.percent(25) {
        *words.last_mut().expect("a row has a word") = random.pick(&CONDITIONS).to_vec();
        *row = words.join(&b' ');
        return;
    }
    match random.of(0..=10) {
        0 => words.insert(at, random.pick(&WORDS).to_vec()),
        1 => words.push(random.pick(&WORDS).to_vec()),
        2 => drop(words.remove(at)),
        3 => words.insert(at, words[at].clone()),
        4 => words.swap(at, other),
        5 => words[at].make_ascii_uppercase(),
        6 if !words[at].is_empty() => words[at].insert(random.of(0..=1), random.pick(b"0+g")),
        7 => words[at] = random.pick(&EDGES).to_vec(),
        8 => *words.last_mut().expect("a row has a word") = random.pick(&EDGES).to_vec(),
        _ => words[at] = random.pick(&WORDS).to_vec(),
    }
    *row = words.join(&b' ');
}

/// A space too many, before, between or behind the words, or another byte in a space's place.
fn damage_space(random: &mut Random, row: &mut Vec<u8>) {
    let spaces: Vec<usize> = (0..row.len()).filter(|&at| row[at] == b' ').collect();
    let between = if spaces.is_empty() { 0 } else { random.pick(&spaces) };
    match random.of(0..=6) {
        0 => row.insert(0, b' '),
        1 => row.push(b' '),
        2 | 3 => row.insert(between, b' '),
        4 => row.push(b'\r'),
        _ if row.is_empty() => row.push(b' '),
        _ => row[between] = random.pick(b"\t\t\t\r\n\x0B,\xA0"),
    }
}

/// A row doubled, left out, moved, cut, joined with the next, or replaced.
fn damage_row(random: &mut Random, rows: &mut Vec<Vec<u8>>, row: usize) {
    let (other, length) = (random.of(0..=rows.len() - 1), random.of(1..=20));
    match random.of(0..=7) {
        0 => rows.insert(other, rows[row].clone()),
        1 => drop(rows.remove(row)),
        2 | 3 => rows.swap(row, other),
        4 => rows[row].truncate(length),
        5 => rows[row] = [rows[row].clone(), rows[other].clone()].concat(),
        6 => rows[row] = vec![b' '; random.of(1..=3)],
        _ => rows[row] = random.bytes(length),
    }
}
