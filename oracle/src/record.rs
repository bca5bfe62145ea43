//! Papers as rows of records. This layer is tried over a whole paper before
//! anything is looked at inside the bodies.

use crate::refusal::{Fault, Refusal};

pub const MOST_BYTES: usize = 65_536;
pub const HEADER_BYTES: usize = 6;

pub const TASK_HEADER: u16 = 1;
pub const TASK_NODE: u16 = 2;
pub const TASK_OPERATOR: u16 = 3;
pub const TASK_GOAL: u16 = 4;
pub const PLAN: u16 = 5;
pub const LIST: u16 = 6;
pub const DIAGRAM: u16 = 7;
pub const FORMULA: u16 = 8;
pub const PROOF: u16 = 9;

/// One whole record of a paper.
#[derive(Clone, Copy, Debug)]
pub struct Record<'a> {
    pub offset: usize,
    pub kind: u16,
    pub body: &'a [u8],
}

impl Record<'_> {
    fn end(&self) -> usize {
        self.offset + HEADER_BYTES + self.body.len()
    }
}

/// The record at an offset, refused where the paper is cut short there.
pub fn record_at(paper: &[u8], offset: usize) -> Result<Record<'_>, Refusal> {
    let cut = Fault::CutShort.at(offset);
    let (header, rest) = paper[offset..].split_at_checked(HEADER_BYTES).ok_or(cut)?;
    let length = u32_at(header, 0) as usize;
    let kind = u16_at(header, 4);
    let body = rest.get(..length).ok_or(cut)?;
    Ok(Record { offset, kind, body })
}

/// The body of a paper that is one record of the kind wanted.
pub fn sole_body(paper: &[u8], kind: u16) -> Result<&[u8], Refusal> {
    check_size(paper)?;
    let record = record_at(paper, 0)?;
    check_record(&record, &[kind])?;
    check_end(paper, record.end())?;
    Ok(record.body)
}

/// The records of a task paper, header first and goal last.
pub fn task_records(paper: &[u8]) -> Result<Vec<Record<'_>>, Refusal> {
    check_size(paper)?;
    let mut records = Vec::with_capacity(paper.len() / 11 + 1);
    let mut offset = 0;
    let mut kinds: &[u16] = &[TASK_HEADER];
    loop {
        let record = record_at(paper, offset)?;
        check_record(&record, kinds)?;
        offset = record.end();
        records.push(record);
        kinds = match record.kind {
            TASK_HEADER | TASK_NODE => &[TASK_NODE, TASK_OPERATOR, TASK_GOAL],
            TASK_OPERATOR => &[TASK_OPERATOR, TASK_GOAL],
            _ => break,
        };
    }
    check_end(paper, offset)?;
    Ok(records)
}

fn check_size(paper: &[u8]) -> Result<(), Refusal> {
    if paper.len() > MOST_BYTES {
        return Err(Fault::TooLong.at(0));
    }
    Ok(())
}

fn check_record(record: &Record, kinds: &[u16]) -> Result<(), Refusal> {
    if !kinds.contains(&record.kind) {
        return Err(Fault::WrongKind.at(record.offset));
    }
    if !length_suits(record.kind, record.body.len()) {
        return Err(Fault::WrongLength.at(record.offset));
    }
    Ok(())
}

/// Nothing may follow: what does is cut short or a record too many.
fn check_end(paper: &[u8], offset: usize) -> Result<(), Refusal> {
    if offset == paper.len() {
        return Ok(());
    }
    record_at(paper, offset)?;
    Err(Fault::WrongKind.at(offset))
}

fn length_suits(kind: u16, length: usize) -> bool {
    match kind {
        TASK_HEADER => length == 9,
        TASK_NODE => length == 5,
        TASK_OPERATOR => length == 12 || length == 4,
        TASK_GOAL => length == 2,
        PLAN => length.is_multiple_of(2),
        LIST => length.is_multiple_of(8),
        DIAGRAM | FORMULA => length.is_multiple_of(5),
        _ => true,
    }
}

pub fn u16_at(bytes: &[u8], offset: usize) -> u16 {
    u16::from_le_bytes([bytes[offset], bytes[offset + 1]])
}

pub fn u32_at(bytes: &[u8], offset: usize) -> u32 {
    let mut word = [0; 4];
    word.copy_from_slice(&bytes[offset..offset + 4]);
    u32::from_le_bytes(word)
}

pub fn u64_at(bytes: &[u8], offset: usize) -> u64 {
    let mut word = [0; 8];
    word.copy_from_slice(&bytes[offset..offset + 8]);
    u64::from_le_bytes(word)
}
