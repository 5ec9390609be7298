//! Images and records with something wrong, most often just one thing.

use super::query::bad_type;
use crate::random::Random;

/// Damages an accepted image in one way, or in two.
pub fn damage_image(random: &mut Random, image: &mut Vec<u8>) {
    let places = record_places(image);
    let groups = usize::from(number(image, 3));
    let times = 1 + usize::from(random.percent(25));
    for _ in 0..times {
        if image.len() >= 9 {
            damage_once(random, image, &places, groups);
        }
    }
}

fn damage_once(random: &mut Random, image: &mut Vec<u8>, places: &[usize], groups: usize) {
    match random.of(0..=9) {
        0 => {
            let at = random.of(0..=image.len() - 1);
            image[at] = random.byte();
        }
        1 => {
            let left = image.len() - random.of(1..=image.len().min(15));
            image.truncate(left);
            mend_length(random, image);
        }
        2 => {
            let more = random.of(1..=15);
            image.extend(random.bytes(more));
            mend_length(random, image);
        }
        3 => {
            let at = random.pick(&[3, 5, 7]);
            let old = number(image, at);
            set(image, at, random.pick(&[old.wrapping_sub(1), old.wrapping_add(1), 256, 257, 1024, 1025, 65535]));
        }
        4 => {
            let length = image.len() as u16;
            set(image, 1, random.pick(&[0, 8, 9, length - 1, length + 1, 65535]));
        }
        5 if random.percent(40) => image[0] = random.pick(&[0, 2, 255]),
        5 => image.truncate(random.of(0..=8)),
        _ if places.is_empty() => set(image, 7, 1),
        _ => {
            let at = random.pick(places).min(image.len());
            damage_head_or_field(random, &mut image[at..], groups);
        }
    }
}

/// Damages a record that is to be added.
pub fn damage_record(random: &mut Random, record: &mut Vec<u8>, groups: usize) {
    match random.of(0..=7) {
        0 => record.truncate(random.of(0..=record.len() - 1)),
        1 => {
            let more = random.of(1..=3);
            record.extend(random.bytes(more));
        }
        2 => {
            let length = random.of(1..=140);
            record.resize(length, 0);
            record[0] = length as u8;
        }
        3 => damage_head_or_field(random, record, groups),
        _ => break_fields(random, record, groups),
    }
}

/// Damages the record that some bytes start with, its length unchanged.
fn damage_head_or_field(random: &mut Random, rest: &mut [u8], groups: usize) {
    if rest.len() < 2 {
        return;
    }
    match random.of(0..=3) {
        0 => rest[0] = random.pick(&[0, 1, 8, 11, 255, rest[0] ^ 1, rest[0].wrapping_add(2), rest[0].wrapping_sub(2)]),
        1 => rest[1] = random.pick(&[0, 1, 2, 3, 4, 5]),
        _ => {
            let end = rest.len().min(usize::from(rest[0]));
            break_fields(random, &mut rest[..end], groups);
        }
    }
}

/// Breaks a field, in one of four cases two, so that it matters which comes first.
fn break_fields(random: &mut Random, record: &mut [u8], groups: usize) {
    for _ in 0..1 + usize::from(random.percent(25)) {
        break_field(random, record, groups);
    }
}

/// Writes into one field what most likely breaks its rule.
fn break_field(random: &mut Random, record: &mut [u8], groups: usize) {
    let last = record.len().saturating_sub(2);
    match record.get(1) {
        Some(1) => {
            let at = 2 * random.of(1..=(last / 2).max(1));
            let before = if at > 2 && at <= last { number(record, at - 2) } else { 1024 };
            set(record, at, random.pick(&[before, before, before.saturating_sub(1), 1024, 32768]));
        }
        Some(2) if random.percent(30) => set_byte(record, 10, random.pick(&[33, 34, 34, 35, 66, 128, 255])),
        Some(2 | 3) => set(record, random.pick(&[2, 4]), bad_type(random, groups)),
        Some(4) if random.percent(40) => set_byte(record, 10, random.pick(&[0, 1, 2, 3, 4, 255])),
        Some(4) => set(record, random.pick(&[6, 8, 11, last]), bad_type(random, groups)),
        _ => {}
    }
}

/// Sets the length field to the image's length, in two of three cases.
fn mend_length(random: &mut Random, image: &mut [u8]) {
    if random.percent(67) {
        set(image, 1, image.len() as u16);
    }
}

/// Where the records of an accepted image start.
fn record_places(image: &[u8]) -> Vec<usize> {
    let next = |&at: &usize| Some(at + usize::from(*image.get(at)?));
    std::iter::successors(Some(9), next).take_while(|&at| at < image.len()).collect()
}

fn number(bytes: &[u8], at: usize) -> u16 {
    u16::from_be_bytes([bytes[at], bytes[at + 1]])
}

/// Writes a number, if its place is there.
fn set(bytes: &mut [u8], at: usize, value: u16) {
    if let Some(place) = bytes.get_mut(at..at + 2) {
        place.copy_from_slice(&value.to_be_bytes());
    }
}

fn set_byte(bytes: &mut [u8], at: usize, value: u8) {
    if let Some(place) = bytes.get_mut(at) {
        *place = value;
    }
}
