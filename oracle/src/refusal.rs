//! Refusals: a number, the layer it belongs to, and a place.

use std::fmt;

/// What is wrong. The discriminant is the number of the refusal.
#[derive(Clone, Copy, Debug, PartialEq, Eq)]
pub enum Fault {
    TooLong = 1,
    CutShort = 2,
    WrongKind = 3,
    WrongLength = 4,
    BadHeader = 5,
    TooManyRecords = 6,
    BadNode = 7,
    NamedTwice = 8,
    TooManySteps = 9,
    NoSuchOperator = 10,
    NotApplicable = 11,
    CostRefused = 12,
    GoalFalse = 13,
    TooManyEntries = 14,
    BadEntry = 15,
    StartNotInside = 16,
    BadTree = 17,
    LeafNotSettled = 18,
    BytesAfterTrees = 19,
}

#[derive(Clone, Copy, Debug, PartialEq, Eq)]
pub enum Layer {
    Record,
    Task,
    Plan,
    Set,
    Proof,
}

#[derive(Clone, Copy, Debug, PartialEq, Eq)]
pub struct Refusal {
    pub fault: Fault,
    pub place: usize,
}

impl Fault {
    pub fn at(self, place: usize) -> Refusal {
        Refusal { fault: self, place }
    }

    pub fn number(self) -> u8 {
        self as u8
    }

    pub fn layer(self) -> Layer {
        match self.number() {
            1..=4 => Layer::Record,
            5..=8 => Layer::Task,
            9..=13 => Layer::Plan,
            14..=15 => Layer::Set,
            _ => Layer::Proof,
        }
    }

    pub fn words(self) -> &'static str {
        match self {
            Fault::TooLong => "longer than 65536 bytes",
            Fault::CutShort => "cut short",
            Fault::WrongKind => "this kind of record may not stand here",
            Fault::WrongLength => "the body's length does not suit its kind",
            Fault::BadHeader => "bad number of variables or bad start",
            Fault::TooManyRecords => "too many nodes or operators",
            Fault::BadNode => "bad node, or no node of the sort wanted",
            Fault::NamedTwice => "a node is named twice",
            Fault::TooManySteps => "more than 4096 steps",
            Fault::NoSuchOperator => "no such operator",
            Fault::NotApplicable => "the operator is not applicable",
            Fault::CostRefused => "the cost grows too large",
            Fault::GoalFalse => "the goal is false",
            Fault::TooManyEntries => "more than 1024 entries",
            Fault::BadEntry => "bad entry, or none",
            Fault::StartNotInside => "the start is not inside the set",
            Fault::BadTree => "neither a leaf nor a free variable",
            Fault::LeafNotSettled => "the leaf is not settled",
            Fault::BytesAfterTrees => "bytes after the last tree",
        }
    }
}

impl Refusal {
    pub fn number(self) -> u8 {
        self.fault.number()
    }

    pub fn layer(self) -> Layer {
        self.fault.layer()
    }
}

impl fmt::Display for Layer {
    fn fmt(&self, f: &mut fmt::Formatter) -> fmt::Result {
        f.write_str(match self {
            Layer::Record => "record",
            Layer::Task => "task",
            Layer::Plan => "plan",
            Layer::Set => "set",
            Layer::Proof => "proof",
        })
    }
}

impl fmt::Display for Refusal {
    fn fmt(&self, f: &mut fmt::Formatter) -> fmt::Result {
        write!(
            f,
            "refused number={} layer={} place={}",
            self.number(),
            self.layer(),
            self.place
        )
    }
}
