//! Reachable states and the ways to them.

use std::collections::HashMap;

use oracle::task::Task;

use crate::random::Random;

/// No search goes over more states than this.
const MOST_STATES: usize = 9_000;
/// Nor does it look at more nodes than this, roughly.
const MOST_WORK: usize = 4_000_000;

pub struct Reach {
    pub states: Vec<u64>,
    /// For each state the one before it and the operator, none at the first.
    before: Vec<Option<(usize, u16)>>,
    /// Whether all reachable states are there.
    pub complete: bool,
}

pub fn search(task: &Task, from: u64) -> Reach {
    let work = task.nodes().len() + task.operators().len() + 1;
    let most = MOST_STATES.min(MOST_WORK / work);
    let mut reach = Reach {
        states: vec![from],
        before: vec![None],
        complete: true,
    };
    let mut found = HashMap::from([(from, 0)]);
    let mut next = 0;
    while next < reach.states.len() {
        if reach.states.len() > most {
            reach.complete = false;
            break;
        }
        let state = reach.states[next];
        for (number, operator) in task.operators().iter().enumerate() {
            if !task.applicable(operator, state) {
                continue;
            }
            let result = task.result(operator, state);
            found.entry(result).or_insert_with(|| {
                reach.states.push(result);
                reach.before.push(Some((next, number as u16)));
                reach.states.len() - 1
            });
        }
        next += 1;
    }
    reach
}

impl Reach {
    /// A shortest row of operators to a found state.
    pub fn way_to(&self, mut place: usize) -> Vec<u16> {
        let mut way = Vec::new();
        while let Some((before, operator)) = self.before[place] {
            way.push(operator);
            place = before;
        }
        way.reverse();
        way
    }

    pub fn goals(&self, task: &Task) -> Vec<usize> {
        (0..self.states.len())
            .filter(|&place| task.goal_holds(self.states[place]))
            .collect()
    }
}

pub fn applicable_numbers(task: &Task, state: u64) -> Vec<u16> {
    (0..task.operators().len() as u16)
        .filter(|&number| task.applicable(&task.operators()[usize::from(number)], state))
        .collect()
}

/// Random applicable operators, as many as wanted where there are such.
pub fn wander(random: &mut Random, task: &Task, mut state: u64, count: usize) -> (Vec<u16>, u64) {
    let mut way = Vec::new();
    while way.len() < count {
        let numbers = applicable_numbers(task, state);
        if numbers.is_empty() {
            break;
        }
        let number = random.pick(&numbers);
        state = task.result(&task.operators()[usize::from(number)], state);
        way.push(number);
    }
    (way, state)
}
