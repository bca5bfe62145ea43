//! Proofs that the goal cannot be reached: the tree rule, and the plain
//! proof of a list.

use crate::logic::{Cube, Value};
use crate::record::{sole_body, PROOF};
use crate::refusal::{Fault, Refusal};
use crate::set::Set;
use crate::task::{Operator, Task};

pub const LEAF: u8 = 0xFF;

/// What the leaves of one tree have to settle.
#[derive(Clone, Copy, Debug)]
pub enum Duty<'a> {
    Goal,
    Operator(&'a Operator),
}

/// The duties of a task's trees, in their order.
pub fn duties(task: &Task) -> impl Iterator<Item = Duty<'_>> {
    std::iter::once(Duty::Goal).chain(task.operators().iter().map(Duty::Operator))
}

/// Whether a leaf with this cube is settled.
pub fn settled(task: &Task, set: &Set, duty: Duty, cube: &Cube) -> bool {
    match duty {
        Duty::Goal => task.goal_in(cube) == Value::False || set.ask(cube) == Value::False,
        Duty::Operator(operator) => {
            task.precondition_in(operator, cube) == Value::False
                || set.ask(cube) == Value::False
                || set.ask(&task.successor(operator, cube)) == Value::True
        }
    }
}

/// Judges a proof paper over a task and a set.
pub fn judge_proof(task: &Task, set: &Set, paper: &[u8]) -> Result<(), Refusal> {
    let body = sole_body(paper, PROOF)?;
    if set.ask(&Cube::of_state(task.n(), task.start())) != Value::True {
        return Err(Fault::StartNotInside.at(0));
    }
    let mut judge = Judge {
        task,
        set,
        body,
        offset: 0,
    };
    for duty in duties(task) {
        judge.tree(duty, Cube::whole(task.n()))?;
    }
    if judge.offset < body.len() {
        return Err(Fault::BytesAfterTrees.at(judge.offset));
    }
    Ok(())
}

/// Reads the body from left to right.
struct Judge<'a> {
    task: &'a Task,
    set: &'a Set,
    body: &'a [u8],
    offset: usize,
}

impl Judge<'_> {
    /// One tree. It is never deeper than there are variables.
    fn tree(&mut self, duty: Duty, cube: Cube) -> Result<(), Refusal> {
        let offset = self.offset;
        let byte = *self.body.get(offset).ok_or(Fault::BadTree.at(offset))?;
        self.offset += 1;
        if byte == LEAF {
            return if settled(self.task, self.set, duty, &cube) {
                Ok(())
            } else {
                Err(Fault::LeafNotSettled.at(offset))
            };
        }
        let variable = u32::from(byte);
        if !cube.is_free(variable) {
            return Err(Fault::BadTree.at(offset));
        }
        self.tree(duty, cube.with(variable, false))?;
        self.tree(duty, cube.with(variable, true))
    }
}

/// The plain tree of some states of width n.
pub fn plain_tree(n: u32, states: &[u64]) -> Vec<u8> {
    let mut tree = Vec::new();
    grow_plain(Cube::whole(n), states, &mut tree);
    tree
}

fn grow_plain(cube: Cube, states: &[u64], tree: &mut Vec<u8>) {
    if states.is_empty() || cube.is_total() {
        tree.push(LEAF);
        return;
    }
    let variable = cube.free().trailing_zeros();
    tree.push(variable as u8);
    for truth in [false, true] {
        let branch = cube.with(variable, truth);
        let held: Vec<u64> = states
            .iter()
            .copied()
            .filter(|&s| branch.holds(s))
            .collect();
        grow_plain(branch, &held, tree);
    }
}

/// The body of the plain proof of a list: its plain tree for the goal and
/// for each operator.
pub fn plain_body(task: &Task, states: &[u64]) -> Vec<u8> {
    plain_tree(task.n(), states).repeat(1 + task.operators().len())
}
