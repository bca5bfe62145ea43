//! A task with what the generator knows of it.

use oracle::logic::bits_below;
use oracle::task::Task;

use crate::random::Random;
use crate::search::{search, wander, Reach};
use crate::sets::Target;

/// More reachable states than this are not written as states.
const MOST_WRITTEN: usize = 1_040;

/// How long a way by chance may be.
const STUMBLING_STEPS: usize = 20;

pub struct World {
    pub task: Task,
    pub active: Vec<u32>,
    pub reach: Reach,
    /// Places of goal states among the reached ones.
    pub goals: Vec<usize>,
}

impl World {
    pub fn new(task: Task, active: Vec<u32>) -> World {
        let reach = search(&task, task.start());
        let goals = reach.goals(&task);
        World {
            task,
            active,
            reach,
            goals,
        }
    }

    pub fn n(&self) -> u32 {
        self.task.n()
    }

    pub fn unsolvable(&self) -> bool {
        self.reach.complete && self.goals.is_empty()
    }

    /// The reachable states in rising order, if they are all known and few.
    pub fn reachable(&self) -> Option<Vec<u64>> {
        if !self.reach.complete || self.reach.states.len() > MOST_WRITTEN {
            return None;
        }
        let mut states = self.reach.states.clone();
        states.sort_unstable();
        Some(states)
    }

    pub fn random_state(&self, random: &mut Random) -> u64 {
        let near = random.pick(&self.reach.states);
        if self.active.is_empty() || random.one_in(6) {
            return random.word() & bits_below(self.n());
        }
        (0..random.between(0, 3)).fold(near, |state, _| state ^ 1 << random.pick(&self.active))
    }

    pub fn plan(&self, random: &mut Random) -> Vec<u16> {
        let mut steps = match random.below(10) {
            0 => self.random_numbers(random),
            1 => {
                let count = random.below(12);
                wander(random, &self.task, self.task.start(), count).0
            }
            _ => self.way_to_goal(random),
        };
        if random.percent(30) {
            self.change_steps(random, &mut steps);
        }
        steps
    }

    /// A way to a goal state where there is one; else to any state.
    pub fn way_to_goal(&self, random: &mut Random) -> Vec<u16> {
        if self.goals.is_empty() {
            let place = random.below(self.reach.states.len());
            return self.reach.way_to(place);
        }
        if random.percent(40) {
            let place = self.goals[random.below(self.goals.len().min(4))];
            return self.reach.way_to(place);
        }
        if random.percent(60) {
            if let Some(way) = self.stumble_on_goal(random) {
                return way;
            }
        }
        let count = random.between(1, 10);
        let (mut way, state) = wander(random, &self.task, self.task.start(), count);
        let onward = search(&self.task, state);
        if let Some(&place) = onward.goals(&self.task).first() {
            way.extend(onward.way_to(place));
        }
        way
    }

    /// Random steps, cut off at a random one of the goal states they meet.
    fn stumble_on_goal(&self, random: &mut Random) -> Option<Vec<u16>> {
        let (mut way, _) = wander(random, &self.task, self.task.start(), STUMBLING_STEPS);
        let mut state = self.task.start();
        let mut ends = Vec::new();
        for (place, &number) in way.iter().enumerate() {
            state = self
                .task
                .result(&self.task.operators()[usize::from(number)], state);
            if self.task.goal_holds(state) {
                ends.push(place + 1);
            }
        }
        if ends.is_empty() {
            return None;
        }
        way.truncate(random.pick(&ends));
        Some(way)
    }

    /// A long way that ends in a goal state where that comes about.
    pub fn long_way(&self, random: &mut Random, count: usize) -> Vec<u16> {
        let mut way = Vec::new();
        for _ in 0..8 {
            let (found, state) = wander(random, &self.task, self.task.start(), count);
            way = found;
            if self.task.goal_holds(state) {
                break;
            }
        }
        way
    }

    fn random_numbers(&self, random: &mut Random) -> Vec<u16> {
        let count = random.below(8);
        (0..count).map(|_| self.any_number(random)).collect()
    }

    /// An operator number, now and then of no operator.
    pub fn any_number(&self, random: &mut Random) -> u16 {
        let count = self.task.operators().len();
        match random.below(8) {
            0 => random.pick(&[count as u16, count as u16 + 1, 128, 256, u16::MAX]),
            _ if count > 0 => random.below(count) as u16,
            _ => random.below(3) as u16,
        }
    }

    fn change_steps(&self, random: &mut Random, steps: &mut Vec<u16>) {
        let place = random.below(steps.len() + 1);
        match random.below(5) {
            0 => {
                steps.pop();
            }
            1 if place < steps.len() => {
                steps.remove(place);
            }
            2 if place < steps.len() => steps[place] = self.any_number(random),
            3 if place < steps.len() => steps.swap(place, 0),
            _ => steps.insert(place, self.any_number(random)),
        }
    }

    /// A set to prove over, most often one that can do.
    pub fn target(&self, random: &mut Random) -> Target {
        let states = match self.reachable() {
            Some(states) => states,
            None => return self.rough_target(random),
        };
        match random.below(20) {
            0..=8 => Target::of_states(self.n(), &states),
            9..=12 => self.projection(random),
            13..=14 => self.closed_target(random, states),
            15 => {
                let mut fewer = states;
                fewer.remove(random.below(fewer.len()));
                Target::of_states(self.n(), &fewer)
            }
            16 => {
                let mut target = Target::of_states(self.n(), &states);
                let more = self.random_state(random);
                target
                    .cubes
                    .push(oracle::logic::Cube::of_state(self.n(), more));
                target
            }
            _ => self.rough_target(random),
        }
    }

    /// The reached states, seen only in some variables.
    fn projection(&self, random: &mut Random) -> Target {
        let mut bits = self.active.iter().fold(0u64, |bits, v| bits | 1 << v);
        if !self.active.is_empty() {
            for _ in 0..random.below(3) {
                bits &= !(1 << random.pick(&self.active));
            }
        }
        if random.one_in(5) {
            bits |= random.word() & random.word() & random.word() & bits_below(self.n());
        }
        Target::projected(self.n(), &self.reach.states, bits)
    }

    /// The reachable states and what other states lead to.
    fn closed_target(&self, random: &mut Random, mut states: Vec<u64>) -> Target {
        for _ in 0..random.between(1, 3) {
            let more = search(&self.task, self.random_state(random));
            let fits = more.complete && states.len() + more.states.len() <= MOST_WRITTEN;
            if fits && more.goals(&self.task).is_empty() {
                states.extend(more.states);
            }
        }
        states.sort_unstable();
        states.dedup();
        Target::of_states(self.n(), &states)
    }

    fn rough_target(&self, random: &mut Random) -> Target {
        match random.below(4) {
            0 => {
                let count = random.below(10);
                let mut states: Vec<u64> = (0..count).map(|_| self.random_state(random)).collect();
                states.push(self.task.start());
                states.sort_unstable();
                states.dedup();
                Target::of_states(self.n(), &states)
            }
            1 => {
                let mut target = Target::of_states(self.n(), &[]);
                target.negated = random.coin();
                target
            }
            _ => self.projection(random),
        }
    }
}
