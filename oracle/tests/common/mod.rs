//! Papers of the worked examples, and small builders.
#![allow(dead_code)]

use oracle::refusal::Refusal;
use oracle::set::Set;
use oracle::task::Task;

const BLADE: &str = "
    09 00 00 00 01 00 03 00 00 00 00 00 00 00 00
    05 00 00 00 02 00 02 00 00 00 00
    05 00 00 00 02 00 03 00 00 00 00
    05 00 00 00 02 00 07 00 00 00 00
    05 00 00 00 02 00 08 01 00 00 00
    05 00 00 00 02 00 09 02 00 03 00
    05 00 00 00 02 00 02 00 00 00 00
    05 00 00 00 02 00 07 01 00 00 00
    05 00 00 00 02 00 02 01 00 00 00
    05 00 00 00 02 00 02 00 00 00 00
    05 00 00 00 02 00 07 02 00 00 00
    05 00 00 00 02 00 0A 08 00 09 00
    05 00 00 00 02 00 02 02 00 00 00
    0C 00 00 00 03 00 01 00 04 00 28 00 00 00 02 00 00 00
    0C 00 00 00 03 00 05 00 06 00 19 00 00 00 01 00 00 00
    0C 00 00 00 03 00 07 00 0A 00 05 00 00 00 01 00 00 00
    02 00 00 00 04 00 0B 00";

pub fn hex(text: &str) -> Vec<u8> {
    let digits: Vec<u8> = text
        .chars()
        .filter_map(|c| c.to_digit(16))
        .map(|d| d as u8)
        .collect();
    digits
        .chunks(2)
        .map(|pair| pair[0] << 4 | pair[1])
        .collect()
}

pub fn blade() -> Vec<u8> {
    hex(BLADE)
}

pub fn variant() -> Vec<u8> {
    let mut paper = blade();
    paper[77] = 2;
    paper
}

pub fn read(paper: &[u8]) -> Task {
    Task::read(paper).expect("a lawful task")
}

pub fn record(kind: u16, body: &[u8]) -> Vec<u8> {
    let mut bytes = (body.len() as u32).to_le_bytes().to_vec();
    bytes.extend(kind.to_le_bytes());
    bytes.extend(body);
    bytes
}

pub fn header(n: u8, start: u64) -> Vec<u8> {
    let mut body = vec![n];
    body.extend(start.to_le_bytes());
    record(1, &body)
}

pub fn node_bytes((tag, a, b): (u8, u16, u16)) -> Vec<u8> {
    let mut body = vec![tag];
    body.extend(a.to_le_bytes());
    body.extend(b.to_le_bytes());
    body
}

pub fn node(tag: u8, a: u16, b: u16) -> Vec<u8> {
    record(2, &node_bytes((tag, a, b)))
}

pub fn nodes(list: &[(u8, u16, u16)]) -> Vec<u8> {
    list.iter()
        .flat_map(|&(tag, a, b)| node(tag, a, b))
        .collect()
}

/// An operator record that leaves the costs out.
pub fn operator(precondition: u16, effect: u16) -> Vec<u8> {
    let mut body = precondition.to_le_bytes().to_vec();
    body.extend(effect.to_le_bytes());
    record(3, &body)
}

pub fn priced(precondition: u16, effect: u16, minutes: u32, crew: u32) -> Vec<u8> {
    let mut body = precondition.to_le_bytes().to_vec();
    body.extend(effect.to_le_bytes());
    body.extend(minutes.to_le_bytes());
    body.extend(crew.to_le_bytes());
    record(3, &body)
}

pub fn goal(number: u16) -> Vec<u8> {
    record(4, &number.to_le_bytes())
}

pub fn plan(steps: &[u16]) -> Vec<u8> {
    let body: Vec<u8> = steps.iter().flat_map(|s| s.to_le_bytes()).collect();
    record(5, &body)
}

pub fn list(states: &[u64]) -> Vec<u8> {
    let body: Vec<u8> = states.iter().flat_map(|s| s.to_le_bytes()).collect();
    record(6, &body)
}

pub fn diagram(entries: &[(u8, u16, u16)]) -> Vec<u8> {
    let body: Vec<u8> = entries.iter().flat_map(|&e| node_bytes(e)).collect();
    record(7, &body)
}

pub fn formula(nodes: &[(u8, u16, u16)]) -> Vec<u8> {
    let body: Vec<u8> = nodes.iter().flat_map(|&e| node_bytes(e)).collect();
    record(8, &body)
}

pub fn proof(body: &[u8]) -> Vec<u8> {
    record(9, body)
}

pub fn list_set(states: &[u64], n: u32) -> Set {
    Set::read_list(&list(states), n).expect("a lawful list")
}

/// "Not v1 and not v2" as a diagram and as a formula.
pub const DIAGRAM: &[(u8, u16, u16)] = &[(2, 1, 0), (1, 2, 0)];
pub const FORMULA: &[(u8, u16, u16)] = &[(2, 1, 0), (3, 0, 0), (2, 2, 0), (3, 2, 0), (4, 1, 3)];

/// The proof body for the variant.
pub const BODY: &[u8] = &[2, 255, 255, 2, 255, 255, 2, 255, 255, 1, 255, 255];

/// The number and place of a refusal.
pub fn refusal<T>(answer: Result<T, Refusal>) -> (u8, usize) {
    match answer {
        Ok(_) => panic!("accepted"),
        Err(refusal) => (refusal.number(), refusal.place),
    }
}
