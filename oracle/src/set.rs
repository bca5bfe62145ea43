//! Sets of states: lists, diagrams, formulas, and layers made of sets.
//!
//! A set answers each cube with true (inside), false (outside) or open.

use crate::logic::{bits_below, Cube, Value};
use crate::node::{value_in, Node, NodeReader, NODE_BYTES};
use crate::record::{sole_body, u16_at, u64_at, DIAGRAM, FORMULA, LIST};
use crate::refusal::{Fault, Refusal};

pub const MOST_ENTRIES: usize = 1_024;
pub const STATE_BYTES: usize = 8;
pub const ENTRY_BYTES: usize = 5;

/// The tags of a formula set are below this one.
const FIRST_EFFECT_TAG: u8 = 6;

#[derive(Clone, Debug)]
pub struct Set {
    width: u32,
    shape: Shape,
}

#[derive(Clone, Debug)]
enum Shape {
    Empty,
    List(List),
    Diagram(Diagram),
    Formula(Vec<Node>),
    Complement(Box<Set>),
    Meeting(Box<Set>, Box<Set>),
    Joining(Box<Set>, Box<Set>),
}

impl Set {
    pub fn empty(width: u32) -> Set {
        Set {
            width,
            shape: Shape::Empty,
        }
    }

    pub fn read_list(paper: &[u8], n: u32) -> Result<Set, Refusal> {
        let shape = Shape::List(List::read(paper, n)?);
        Ok(Set { width: n, shape })
    }

    pub fn read_diagram(paper: &[u8], n: u32) -> Result<Set, Refusal> {
        let shape = Shape::Diagram(Diagram::read(paper, n)?);
        Ok(Set { width: n, shape })
    }

    pub fn read_formula(paper: &[u8], n: u32) -> Result<Set, Refusal> {
        let shape = Shape::Formula(read_formula_nodes(paper, n)?);
        Ok(Set { width: n, shape })
    }

    /// The layers: their width is that of their first part.
    pub fn complement(a: Set) -> Set {
        Set {
            width: a.width,
            shape: Shape::Complement(Box::new(a)),
        }
    }

    pub fn meeting(a: Set, b: Set) -> Set {
        Set {
            width: a.width,
            shape: Shape::Meeting(Box::new(a), Box::new(b)),
        }
    }

    pub fn joining(a: Set, b: Set) -> Set {
        Set {
            width: a.width,
            shape: Shape::Joining(Box::new(a), Box::new(b)),
        }
    }

    pub fn width(&self) -> u32 {
        self.width
    }

    /// The answer to a cube; to a cube of another width it is outside.
    pub fn ask(&self, cube: &Cube) -> Value {
        if cube.width() != self.width {
            return Value::False;
        }
        match &self.shape {
            Shape::Empty => Value::False,
            Shape::List(list) => list.ask(cube),
            Shape::Diagram(diagram) => diagram.ask(cube),
            Shape::Formula(nodes) => value_in(nodes, nodes.len() as u16 - 1, cube),
            Shape::Complement(a) => !a.ask(cube),
            Shape::Meeting(a, b) => match a.ask(cube) {
                Value::False => Value::False,
                answer => answer.and(b.ask(cube)),
            },
            Shape::Joining(a, b) => match a.ask(cube) {
                Value::True => Value::True,
                answer => answer.or(b.ask(cube)),
            },
        }
    }
}

/// The body of a set paper with no more entries than allowed.
fn read_entries(paper: &[u8], kind: u16, entry_bytes: usize) -> Result<&[u8], Refusal> {
    let body = sole_body(paper, kind)?;
    if body.len() / entry_bytes > MOST_ENTRIES {
        return Err(Fault::TooManyEntries.at(MOST_ENTRIES));
    }
    Ok(body)
}

/// The states listed, in rising order.
#[derive(Clone, Debug)]
struct List {
    states: Vec<u64>,
}

impl List {
    fn read(paper: &[u8], n: u32) -> Result<List, Refusal> {
        let body = read_entries(paper, LIST, STATE_BYTES)?;
        let mut states: Vec<u64> = Vec::with_capacity(body.len() / STATE_BYTES);
        for (number, entry) in body.chunks_exact(STATE_BYTES).enumerate() {
            let state = u64_at(entry, 0);
            let rising = states.last().is_none_or(|&before| before < state);
            if state > bits_below(n) || !rising {
                return Err(Fault::BadEntry.at(number));
            }
            states.push(state);
        }
        Ok(List { states })
    }

    fn ask(&self, cube: &Cube) -> Value {
        if cube.is_total() {
            return Value::from(self.states.binary_search(&cube.value()).is_ok());
        }
        let listed: u64 = self.states.iter().map(|&s| u64::from(cube.holds(s))).sum();
        let free = cube.free().count_ones();
        if listed == 0 {
            Value::False
        } else if free < 64 && listed == 1 << free {
            Value::True
        } else {
            Value::Open
        }
    }
}

/// Entries with shared children; the last one is the root.
#[derive(Clone, Debug)]
struct Diagram {
    entries: Vec<DiagramEntry>,
}

#[derive(Clone, Copy, Debug)]
struct DiagramEntry {
    variable: u8,
    low: Child,
    high: Child,
}

#[derive(Clone, Copy, Debug)]
enum Child {
    Outside,
    Inside,
    Entry(u16),
}

impl Child {
    fn from_number(number: u16) -> Child {
        match number {
            0 => Child::Outside,
            1 => Child::Inside,
            _ => Child::Entry(number - 2),
        }
    }
}

impl Diagram {
    fn read(paper: &[u8], n: u32) -> Result<Diagram, Refusal> {
        let body = read_entries(paper, DIAGRAM, ENTRY_BYTES)?;
        if body.is_empty() {
            return Err(Fault::BadEntry.at(0));
        }
        let mut diagram = Diagram {
            entries: Vec::with_capacity(body.len() / ENTRY_BYTES),
        };
        for (number, bytes) in body.chunks_exact(ENTRY_BYTES).enumerate() {
            let entry = DiagramEntry {
                variable: bytes[0],
                low: Child::from_number(u16_at(bytes, 1)),
                high: Child::from_number(u16_at(bytes, 3)),
            };
            let lawful = u32::from(entry.variable) < n
                && diagram.child_suits(entry.variable, entry.low)
                && diagram.child_suits(entry.variable, entry.high);
            if !lawful {
                return Err(Fault::BadEntry.at(number));
            }
            diagram.entries.push(entry);
        }
        Ok(diagram)
    }

    /// Whether a child is an end, or an earlier entry of a greater variable.
    fn child_suits(&self, variable: u8, child: Child) -> bool {
        match child {
            Child::Outside | Child::Inside => true,
            Child::Entry(number) => self
                .entries
                .get(usize::from(number))
                .is_some_and(|below| below.variable > variable),
        }
    }

    /// Follows known variables from the root as far as they lead.
    fn ask(&self, cube: &Cube) -> Value {
        let mut number = self.entries.len() - 1;
        loop {
            let entry = &self.entries[number];
            let child = match cube.variable(u32::from(entry.variable)) {
                Value::False => entry.low,
                Value::True => entry.high,
                Value::Open => return self.answer_of_entry(number, cube),
            };
            number = match child {
                Child::Outside => return Value::False,
                Child::Inside => return Value::True,
                Child::Entry(below) => usize::from(below),
            };
        }
    }

    /// The answer of one entry: those of all entries up to it, each once.
    fn answer_of_entry(&self, last: usize, cube: &Cube) -> Value {
        let mut answers = [Value::Open; MOST_ENTRIES];
        for (number, entry) in self.entries[..=last].iter().enumerate() {
            let answer_of = |child: Child| match child {
                Child::Outside => Value::False,
                Child::Inside => Value::True,
                Child::Entry(below) => answers[usize::from(below)],
            };
            answers[number] = match cube.variable(u32::from(entry.variable)) {
                Value::False => answer_of(entry.low),
                Value::True => answer_of(entry.high),
                Value::Open => both(answer_of(entry.low), answer_of(entry.high)),
            };
        }
        answers[last]
    }
}

/// The answer on which two branches agree.
fn both(low: Value, high: Value) -> Value {
    if low == high {
        low
    } else {
        Value::Open
    }
}

/// The nodes of a formula set; the last one is the root.
fn read_formula_nodes(paper: &[u8], n: u32) -> Result<Vec<Node>, Refusal> {
    let body = read_entries(paper, FORMULA, NODE_BYTES)?;
    if body.is_empty() {
        return Err(Fault::BadEntry.at(0));
    }
    let mut reader = NodeReader::default();
    for (number, bytes) in body.chunks_exact(NODE_BYTES).enumerate() {
        if bytes[0] >= FIRST_EFFECT_TAG || reader.read(bytes, n).is_err() {
            return Err(Fault::BadEntry.at(number));
        }
    }
    Ok(reader.into_nodes())
}
