//! Tasks and the reading of task papers.

use crate::logic::{bits_below, Cube, Value};
use crate::node::{is_true_in, resulting_state, successor, value_in};
use crate::node::{Node, NodeFault, NodeReader, Sort};
use crate::record::{task_records, u16_at, u32_at, u64_at, Record};
use crate::record::{TASK_HEADER, TASK_NODE, TASK_OPERATOR};
use crate::refusal::{Fault, Refusal};

pub const MOST_VARIABLES: u32 = 64;
pub const MOST_NODES: usize = 1_024;
pub const MOST_OPERATORS: usize = 128;

#[derive(Clone, Copy, Debug, PartialEq, Eq)]
pub struct Operator {
    pub precondition: u16,
    pub effect: u16,
    pub minutes: u32,
    pub crew: u32,
}

/// A task. Only the blank one has no goal node; its goal is false.
#[derive(Clone, Debug, Default, PartialEq, Eq)]
pub struct Task {
    n: u32,
    start: u64,
    nodes: Vec<Node>,
    operators: Vec<Operator>,
    goal: Option<u16>,
}

impl Task {
    pub fn blank() -> Task {
        Task::default()
    }

    pub fn read(paper: &[u8]) -> Result<Task, Refusal> {
        let records = task_records(paper)?;
        let mut reader = TaskReader::default();
        for record in &records {
            reader
                .take(record)
                .map_err(|fault| fault.at(record.offset))?;
        }
        Ok(reader.into_task())
    }

    pub fn n(&self) -> u32 {
        self.n
    }

    pub fn start(&self) -> u64 {
        self.start
    }

    pub fn nodes(&self) -> &[Node] {
        &self.nodes
    }

    pub fn operators(&self) -> &[Operator] {
        &self.operators
    }

    pub fn goal_holds(&self, state: u64) -> bool {
        self.goal
            .is_some_and(|goal| is_true_in(&self.nodes, goal, state))
    }

    pub fn goal_in(&self, cube: &Cube) -> Value {
        self.goal
            .map_or(Value::False, |goal| value_in(&self.nodes, goal, cube))
    }

    pub fn applicable(&self, operator: &Operator, state: u64) -> bool {
        is_true_in(&self.nodes, operator.precondition, state)
    }

    pub fn precondition_in(&self, operator: &Operator, cube: &Cube) -> Value {
        value_in(&self.nodes, operator.precondition, cube)
    }

    pub fn result(&self, operator: &Operator, state: u64) -> u64 {
        resulting_state(&self.nodes, operator.effect, state)
    }

    pub fn successor(&self, operator: &Operator, cube: &Cube) -> Cube {
        successor(&self.nodes, operator.effect, cube)
    }
}

/// Takes the records of a task paper in their order.
#[derive(Default)]
struct TaskReader {
    n: u32,
    start: u64,
    nodes: NodeReader,
    operators: Vec<Operator>,
    goal: Option<u16>,
}

impl TaskReader {
    fn take(&mut self, record: &Record) -> Result<(), Fault> {
        match record.kind {
            TASK_HEADER => self.take_header(record.body),
            TASK_NODE => self.take_node(record.body),
            TASK_OPERATOR => self.take_operator(record.body),
            _ => self.take_goal(record.body),
        }
    }

    fn take_header(&mut self, body: &[u8]) -> Result<(), Fault> {
        self.n = u32::from(body[0]);
        self.start = u64_at(body, 1);
        let lawful = (1..=MOST_VARIABLES).contains(&self.n) && self.start <= bits_below(self.n);
        if lawful {
            Ok(())
        } else {
            Err(Fault::BadHeader)
        }
    }

    fn take_node(&mut self, body: &[u8]) -> Result<(), Fault> {
        if self.nodes.len() == MOST_NODES {
            return Err(Fault::TooManyRecords);
        }
        self.nodes.read(body, self.n).map_err(task_fault)
    }

    fn take_operator(&mut self, body: &[u8]) -> Result<(), Fault> {
        if self.operators.len() == MOST_OPERATORS {
            return Err(Fault::TooManyRecords);
        }
        let (precondition, effect) = (u16_at(body, 0), u16_at(body, 2));
        if !self.nodes.has(precondition, Sort::Formula) || !self.nodes.has(effect, Sort::Effect) {
            return Err(Fault::BadNode);
        }
        self.nodes.name(precondition).map_err(task_fault)?;
        self.nodes.name(effect).map_err(task_fault)?;
        let (minutes, crew) = match body.len() {
            12 => (u32_at(body, 4), u32_at(body, 8)),
            _ => (1, 1),
        };
        self.operators.push(Operator {
            precondition,
            effect,
            minutes,
            crew,
        });
        Ok(())
    }

    fn take_goal(&mut self, body: &[u8]) -> Result<(), Fault> {
        let goal = u16_at(body, 0);
        if !self.nodes.has(goal, Sort::Formula) {
            return Err(Fault::BadNode);
        }
        self.nodes.name(goal).map_err(task_fault)?;
        self.goal = Some(goal);
        Ok(())
    }

    fn into_task(self) -> Task {
        Task {
            n: self.n,
            start: self.start,
            nodes: self.nodes.into_nodes(),
            operators: self.operators,
            goal: self.goal,
        }
    }
}

fn task_fault(fault: NodeFault) -> Fault {
    match fault {
        NodeFault::Bad => Fault::BadNode,
        NodeFault::NamedTwice => Fault::NamedTwice,
    }
}
