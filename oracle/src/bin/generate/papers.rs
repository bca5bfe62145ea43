//! Papers as bytes, and damage done to them.

use oracle::record::{HEADER_BYTES, MOST_BYTES};

use crate::random::Random;

/// A node of a task or formula set, or an entry of a diagram.
pub type Triple = (u8, u16, u16);

pub fn record(kind: u16, body: &[u8]) -> Vec<u8> {
    let mut bytes = (body.len() as u32).to_le_bytes().to_vec();
    bytes.extend(kind.to_le_bytes());
    bytes.extend(body);
    bytes
}

pub fn triple_bytes(&(first, second, third): &Triple) -> [u8; 5] {
    let [a0, a1] = second.to_le_bytes();
    let [b0, b1] = third.to_le_bytes();
    [first, a0, a1, b0, b1]
}

pub fn triples(kind: u16, entries: &[Triple]) -> Vec<u8> {
    let body: Vec<u8> = entries.iter().flat_map(triple_bytes).collect();
    record(kind, &body)
}

pub fn list(states: &[u64]) -> Vec<u8> {
    let body: Vec<u8> = states
        .iter()
        .flat_map(|state| state.to_le_bytes())
        .collect();
    record(oracle::record::LIST, &body)
}

pub fn plan(steps: &[u16]) -> Vec<u8> {
    let body: Vec<u8> = steps.iter().flat_map(|step| step.to_le_bytes()).collect();
    record(oracle::record::PLAN, &body)
}

pub fn proof(body: &[u8]) -> Vec<u8> {
    record(oracle::record::PROOF, body)
}

/// A paper as a word of a script, now and then with capital digits.
pub fn as_word(random: &mut Random, paper: &[u8]) -> String {
    let capital = random.one_in(8);
    let digits = if capital {
        b"0123456789ABCDEF"
    } else {
        b"0123456789abcdef"
    };
    let mut word = String::with_capacity(4 + 2 * paper.len());
    word.push_str("hex:");
    for byte in paper {
        word.push(char::from(digits[usize::from(byte >> 4)]));
        word.push(char::from(digits[usize::from(byte & 15)]));
    }
    word
}

/// Damages a paper once, seldom more often.
pub fn damage(random: &mut Random, paper: &mut Vec<u8>) {
    let times = if random.percent(80) {
        1
    } else {
        random.between(2, 4)
    };
    for _ in 0..times {
        damage_once(random, paper);
    }
}

fn damage_once(random: &mut Random, paper: &mut Vec<u8>) {
    match random.below(18) {
        0 | 1 => flip_bit(random, paper),
        2 | 3 => change_byte(random, paper),
        4 => {
            let length = random.below(paper.len() + 1);
            paper.truncate(length);
        }
        5 => remove_bytes(random, paper),
        6 => insert_bytes(random, paper),
        7 => {
            let count = random.between(1, 9);
            paper.extend((0..count).map(|_| random_byte(random)));
        }
        8 => paper.extend(random_record(random)),
        9 | 10 => change_length(random, paper),
        11 => change_kind(random, paper),
        12 => copy_record(random, paper),
        13 => swap_records(random, paper),
        14..=16 => resize_body(random, paper),
        _ if random.one_in(6) => oversize(random, paper),
        _ => drop_record(random, paper),
    }
}

/// Makes a paper as long as allowed, or longer.
pub fn oversize(random: &mut Random, paper: &mut Vec<u8>) {
    let length = MOST_BYTES + random.pick(&[0, 1, 1, 1, 2, 700]);
    paper.resize(length.max(paper.len()), random.pick(&[0, 0xFF]));
}

fn random_byte(random: &mut Random) -> u8 {
    match random.below(4) {
        0 => random.pick(&[0, 1, 0x7F, 0x80, 0xFE, 0xFF]),
        1 => random.below(12) as u8,
        _ => random.word() as u8,
    }
}

fn flip_bit(random: &mut Random, paper: &mut [u8]) {
    if !paper.is_empty() {
        let place = random.below(paper.len());
        paper[place] ^= 1 << random.below(8);
    }
}

fn change_byte(random: &mut Random, paper: &mut [u8]) {
    if !paper.is_empty() {
        let place = random.below(paper.len());
        paper[place] = random_byte(random);
    }
}

fn remove_bytes(random: &mut Random, paper: &mut Vec<u8>) {
    let begin = random.below(paper.len() + 1);
    let end = (begin + random.between(1, 12)).min(paper.len());
    paper.drain(begin..end);
}

fn insert_bytes(random: &mut Random, paper: &mut Vec<u8>) {
    let place = random.below(paper.len() + 1);
    let count = random.between(1, 12);
    let bytes: Vec<u8> = (0..count).map(|_| random_byte(random)).collect();
    paper.splice(place..place, bytes);
}

fn random_record(random: &mut Random) -> Vec<u8> {
    let kind = random.between(0, 10) as u16;
    let lawful = match kind {
        1 => 9,
        2 | 7 | 8 => 5,
        3 => random.pick(&[4, 12]),
        4 | 5 => 2,
        6 => 8,
        _ => random.below(4),
    };
    let length = if random.percent(70) {
        lawful
    } else {
        random.below(14)
    };
    let body: Vec<u8> = (0..length).map(|_| random_byte(random)).collect();
    record(kind, &body)
}

/// Begin and end of the whole records from the front of a paper.
fn record_ranges(paper: &[u8]) -> Vec<(usize, usize)> {
    let mut ranges = Vec::new();
    let mut offset = 0;
    while let Ok(record) = oracle::record::record_at(paper, offset) {
        let end = offset + HEADER_BYTES + record.body.len();
        ranges.push((offset, end));
        offset = end;
    }
    ranges
}

/// A record of a paper, often of a kind that is seldom there.
fn pick_record(random: &mut Random, paper: &[u8]) -> Option<(usize, usize)> {
    let mut ranges = record_ranges(paper);
    if ranges.is_empty() {
        return None;
    }
    if random.coin() {
        let kind = |begin: usize| [paper[begin + 4], paper[begin + 5]];
        let mut kinds: Vec<[u8; 2]> = ranges.iter().map(|&(begin, _)| kind(begin)).collect();
        kinds.sort_unstable();
        kinds.dedup();
        let wanted = random.pick(&kinds);
        ranges.retain(|&(begin, _)| kind(begin) == wanted);
    }
    Some(random.pick(&ranges))
}

fn change_length(random: &mut Random, paper: &mut [u8]) {
    let Some((begin, end)) = pick_record(random, paper) else {
        return;
    };
    let length = (end - begin - HEADER_BYTES) as u32;
    let left = (paper.len() - begin - HEADER_BYTES) as u32;
    let changed = match random.below(10) {
        0 => length + 1,
        1 => length.wrapping_sub(1),
        2 => left,
        3 => left + 1,
        4 => u32::MAX - random.below(8) as u32,
        5 => 0,
        6 => 1 << 31,
        7 => length | 1 << 16,
        8 => length + random.between(2, 12) as u32,
        _ => random.pick(&[2, 4, 5, 8, 9, 12]),
    };
    paper[begin..begin + 4].copy_from_slice(&changed.to_le_bytes());
}

/// Gives a record another body length, and says so in its header.
fn resize_body(random: &mut Random, paper: &mut Vec<u8>) {
    let Some((begin, end)) = pick_record(random, paper) else {
        return;
    };
    let length = end - begin - HEADER_BYTES;
    let changed = match random.below(3) {
        0 => length + random.between(1, 8),
        1 => length.saturating_sub(random.between(1, 8)),
        _ => random.pick(&[0, 2, 4, 5, 8, 9, 10, 12, 16]),
    };
    let mut body = paper[begin + HEADER_BYTES..end].to_vec();
    body.resize(changed, random_byte(random));
    let kind = u16::from_le_bytes([paper[begin + 4], paper[begin + 5]]);
    paper.splice(begin..end, record(kind, &body));
}

fn change_kind(random: &mut Random, paper: &mut [u8]) {
    if let Some((begin, _)) = pick_record(random, paper) {
        let kind = match random.below(5) {
            0 => random.word() as u16,
            1 => u16::from_le_bytes([paper[begin + 4], 1]),
            _ => random.between(0, 10) as u16,
        };
        paper[begin + 4..begin + 6].copy_from_slice(&kind.to_le_bytes());
    }
}

/// Copies one record to the front or the end of one.
fn copy_record(random: &mut Random, paper: &mut Vec<u8>) {
    let (Some((begin, end)), Some(other)) =
        (pick_record(random, paper), pick_record(random, paper))
    else {
        return;
    };
    let copy = paper[begin..end].to_vec();
    let place = if random.coin() { other.0 } else { other.1 };
    paper.splice(place..place, copy);
}

fn swap_records(random: &mut Random, paper: &mut Vec<u8>) {
    let ranges = record_ranges(paper);
    if ranges.len() < 2 {
        return;
    }
    let first = random.below(ranges.len() - 1);
    let ((begin, middle), (_, end)) = (ranges[first], ranges[first + 1]);
    let swapped = [&paper[middle..end], &paper[begin..middle]].concat();
    paper.splice(begin..end, swapped);
}

fn drop_record(random: &mut Random, paper: &mut Vec<u8>) {
    if let Some((begin, end)) = pick_record(random, paper) {
        paper.drain(begin..end);
    }
}
