//! Steps from the start, and judging a plan paper.

use crate::cost::CostKind;
use crate::record::{sole_body, u16_at, PLAN};
use crate::refusal::{Fault, Refusal};
use crate::task::Task;

pub const MOST_STEPS: usize = 4_096;

/// How far a row of operators has led.
#[derive(Clone, Copy, Debug, PartialEq, Eq)]
pub struct Reached<C> {
    pub state: u64,
    pub steps: usize,
    pub cost: C,
}

impl<C: Copy> Reached<C> {
    pub fn start<K: CostKind<Cost = C>>(task: &Task, kind: &K) -> Reached<C> {
        Reached {
            state: task.start(),
            steps: 0,
            cost: kind.zero(),
        }
    }

    /// One step further with an operator number.
    pub fn step<K: CostKind<Cost = C>>(
        &self,
        task: &Task,
        kind: &K,
        number: u16,
    ) -> Result<Reached<C>, Refusal> {
        if self.steps >= MOST_STEPS {
            return Err(Fault::TooManySteps.at(MOST_STEPS));
        }
        let operator = task
            .operators()
            .get(usize::from(number))
            .ok_or(Fault::NoSuchOperator.at(self.steps))?;
        if !task.applicable(operator, self.state) {
            return Err(Fault::NotApplicable.at(self.steps));
        }
        let cost = kind
            .join(self.cost, kind.of(operator))
            .ok_or(Fault::CostRefused.at(self.steps))?;
        Ok(Reached {
            state: task.result(operator, self.state),
            steps: self.steps + 1,
            cost,
        })
    }

    /// The goal must be true here.
    pub fn finish(self, task: &Task) -> Result<Reached<C>, Refusal> {
        if task.goal_holds(self.state) {
            Ok(self)
        } else {
            Err(Fault::GoalFalse.at(self.steps))
        }
    }
}

/// Judges a plan paper on a task for a cost kind.
pub fn judge_plan<K: CostKind>(
    task: &Task,
    kind: &K,
    paper: &[u8],
) -> Result<Reached<K::Cost>, Refusal> {
    let body = sole_body(paper, PLAN)?;
    if body.len() / 2 > MOST_STEPS {
        return Err(Fault::TooManySteps.at(MOST_STEPS));
    }
    let mut reached = Reached::start(task, kind);
    for number in body.chunks_exact(2) {
        reached = reached.step(task, kind, u16_at(number, 0))?;
    }
    reached.finish(task)
}
