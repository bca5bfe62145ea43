//! Random lawful tasks, and unlawful ones made from them.

use oracle::logic::bits_below;
use oracle::record::{TASK_GOAL, TASK_HEADER, TASK_NODE, TASK_OPERATOR};
use oracle::task::{Task, MOST_NODES, MOST_OPERATORS};

use crate::papers::{record, triple_bytes, Triple};
use crate::random::Random;
use crate::search::{search, Reach};

const FALSE: u8 = 0;
const TRUE: u8 = 1;
const VARIABLE: u8 = 2;
const NOT: u8 = 3;
const AND: u8 = 4;
const OR: u8 = 5;
const NOTHING: u8 = 6;
const SET: u8 = 7;
const CLEAR: u8 = 8;
const BOTH: u8 = 9;
const WHEN: u8 = 10;

/// Nodes under construction, each named at most once.
#[derive(Clone, Default)]
pub struct Nodes(pub Vec<Triple>);

impl Nodes {
    pub fn push(&mut self, tag: u8, a: u16, b: u16) -> u16 {
        self.0.push((tag, a, b));
        self.0.len() as u16 - 1
    }

    pub fn negation(&mut self, a: u16) -> u16 {
        self.push(NOT, a, 0)
    }

    pub fn constant(&mut self, truth: bool) -> u16 {
        self.push(if truth { TRUE } else { FALSE }, 0, 0)
    }

    pub fn literal(&mut self, variable: u32, truth: bool) -> u16 {
        let node = self.push(VARIABLE, variable as u16, 0);
        if truth {
            node
        } else {
            self.negation(node)
        }
    }

    /// All parts joined by "and" (or "or"), in a chain or in pairs.
    pub fn join(&mut self, random: &mut Random, conjunction: bool, mut parts: Vec<u16>) -> u16 {
        let tag = if conjunction { AND } else { OR };
        if parts.is_empty() {
            return self.constant(conjunction);
        }
        let chain = random.coin();
        while parts.len() > 1 {
            let first = if chain {
                0
            } else {
                random.below(parts.len() - 1)
            };
            let (a, b) = (parts[first], parts[first + 1]);
            let (a, b) = if random.one_in(4) { (b, a) } else { (a, b) };
            parts.splice(first..first + 2, [self.push(tag, a, b)]);
        }
        parts[0]
    }

    /// The literals of the known bits, joined by "and".
    pub fn literals(&mut self, random: &mut Random, known: u64, value: u64) -> u16 {
        let parts = (0..64)
            .filter(|v| known >> v & 1 == 1)
            .map(|v| self.literal(v, value >> v & 1 == 1))
            .collect();
        self.join(random, true, parts)
    }

    pub fn formula(&mut self, random: &mut Random, variables: &[u32], depth: usize) -> u16 {
        if depth == 0 || random.percent(35) {
            return match random.below(12) {
                0 => {
                    let truth = random.coin();
                    self.constant(truth)
                }
                _ => {
                    let truth = random.coin();
                    self.literal(random.pick(variables), truth)
                }
            };
        }
        if random.one_in(6) {
            let a = self.formula(random, variables, depth - 1);
            return self.negation(a);
        }
        let tag = random.pick(&[AND, OR]);
        let a = self.formula(random, variables, depth - 1);
        let b = self.formula(random, variables, depth - 1);
        self.push(tag, a, b)
    }

    pub fn effect(&mut self, random: &mut Random, variables: &[u32], depth: usize) -> u16 {
        if depth == 0 || random.percent(35) {
            let variable = random.pick(variables) as u16;
            return match random.below(11) {
                0 => self.push(NOTHING, 0, 0),
                1..=5 => self.push(SET, variable, 0),
                _ => self.push(CLEAR, variable, 0),
            };
        }
        if random.percent(40) {
            let condition = self.formula(random, variables, 2);
            let then = self.effect(random, variables, depth - 1);
            return self.push(WHEN, condition, then);
        }
        let a = self.effect(random, variables, depth - 1);
        let b = self.effect(random, variables, depth - 1);
        self.push(BOTH, a, b)
    }

    fn both(&mut self, effects: Vec<u16>) -> u16 {
        let mut effects = effects.into_iter();
        let first = match effects.next() {
            Some(effect) => effect,
            None => self.push(NOTHING, 0, 0),
        };
        effects.fold(first, |a, b| self.push(BOTH, a, b))
    }
}

#[derive(Clone)]
pub struct DraftOperator {
    pub precondition: u16,
    pub effect: u16,
    /// Minutes and crew; none leaves them out of the record.
    pub costs: Option<(u32, u32)>,
}

/// A task paper before it is written.
#[derive(Clone)]
pub struct Draft {
    pub n: u32,
    pub start: u64,
    pub nodes: Nodes,
    pub operators: Vec<DraftOperator>,
    pub goal: u16,
    /// The variables that its formulas and effects speak of.
    pub active: Vec<u32>,
}

impl Draft {
    pub fn bytes(&self) -> Vec<u8> {
        let mut header = vec![self.n as u8];
        header.extend(self.start.to_le_bytes());
        let mut paper = record(TASK_HEADER, &header);
        for node in &self.nodes.0 {
            paper.extend(record(TASK_NODE, &triple_bytes(node)));
        }
        for operator in &self.operators {
            paper.extend(record(TASK_OPERATOR, &operator.bytes()));
        }
        paper.extend(record(TASK_GOAL, &self.goal.to_le_bytes()));
        paper
    }

    fn add_operator(&mut self, precondition: u16, effect: u16) {
        self.operators.push(DraftOperator {
            precondition,
            effect,
            costs: None,
        });
    }
}

impl DraftOperator {
    fn bytes(&self) -> Vec<u8> {
        let mut body = self.precondition.to_le_bytes().to_vec();
        body.extend(self.effect.to_le_bytes());
        if let Some((minutes, crew)) = self.costs {
            body.extend(minutes.to_le_bytes());
            body.extend(crew.to_le_bytes());
        }
        body
    }
}

/// A lawful task with everything random about it.
pub fn invent(random: &mut Random) -> Draft {
    let mut draft = match random.below(100) {
        0..=50 => {
            let n = random.between(1, 6) as u32;
            loose(random, n, (0..n).collect())
        }
        51..=64 => {
            let n = random.between(7, 20) as u32;
            let active = some_variables(random, n, 6);
            loose(random, n, active)
        }
        65..=79 => {
            let n = random.pick(&[31, 32, 33, 63, 64, 64, 64, 64]);
            let active = some_variables(random, n, 5);
            loose(random, n, active)
        }
        80..=91 => {
            let bits = match random.below(40) {
                0..=29 => random.between(2, 6),
                30..=36 => random.between(7, 10),
                _ => random.between(11, 13),
            };
            counter(random, bits as u32)
        }
        _ => always_there(random),
    };
    add_goal(random, &mut draft);
    if random.one_in(25) {
        deepen_goal(random, &mut draft);
    }
    price(random, &mut draft);
    if random.one_in(30) {
        fill(random, &mut draft, MOST_NODES, MOST_OPERATORS);
    }
    if random.percent(60) {
        scatter(random, &mut draft);
    }
    draft
}

fn some_variables(random: &mut Random, n: u32, most: usize) -> Vec<u32> {
    let mut variables: Vec<u32> = (0..n).collect();
    random.shuffle(&mut variables);
    variables.truncate(random.between(2, most));
    if random.coin() && !variables.contains(&(n - 1)) {
        variables[0] = n - 1;
    }
    variables.sort_unstable();
    variables
}

fn bare(random: &mut Random, n: u32, active: Vec<u32>) -> Draft {
    let start = match random.below(4) {
        0 => 0,
        1 => bits_below(n),
        _ => random.word() & bits_below(n),
    };
    Draft {
        n,
        start,
        nodes: Nodes::default(),
        operators: Vec::new(),
        goal: 0,
        active,
    }
}

/// Operators with random preconditions and effects.
fn loose(random: &mut Random, n: u32, active: Vec<u32>) -> Draft {
    let mut draft = bare(random, n, active);
    for _ in 0..random.below(8) {
        add_random_operator(random, &mut draft);
    }
    draft
}

fn add_random_operator(random: &mut Random, draft: &mut Draft) {
    let active = draft.active.clone();
    let precondition = if random.percent(60) {
        let known = some_bits(random, &active, 3);
        let value = random.word();
        draft.nodes.literals(random, known, value)
    } else {
        draft.nodes.formula(random, &active, 3)
    };
    let depth = random.between(0, 4);
    let effect = draft.nodes.effect(random, &active, depth);
    draft.add_operator(precondition, effect);
}

fn some_bits(random: &mut Random, variables: &[u32], most: usize) -> u64 {
    let count = random.between(0, most);
    (0..count).fold(0, |bits, _| bits | 1 << random.pick(variables))
}

/// A counter: one operator with conditions, or one for each bit.
fn counter(random: &mut Random, bits: u32) -> Draft {
    let n = match random.below(3) {
        0 => bits,
        1 => (bits + random.between(1, 4) as u32).min(64),
        _ => random.between(bits as usize, 64) as u32,
    };
    let offset = if random.coin() {
        0
    } else {
        random.below((n - bits) as usize + 1) as u32
    };
    let variables: Vec<u32> = (offset..offset + bits).collect();
    let counting: u64 = variables.iter().fold(0, |bits, v| bits | 1 << v);
    let mut draft = bare(random, n, variables.clone());
    draft.start &= !counting;
    let below = |i: usize| variables[..i].iter().fold(0u64, |bits, v| bits | 1 << v);
    let wraps = random.coin();
    if random.coin() {
        let mut effects = Vec::new();
        for (i, &v) in variables.iter().enumerate() {
            let rise = draft.nodes.literals(random, below(i) | 1 << v, below(i));
            let set = draft.nodes.push(SET, v as u16, 0);
            effects.push(draft.nodes.push(WHEN, rise, set));
            let fall = draft.nodes.literals(random, below(i) | 1 << v, u64::MAX);
            let clear = draft.nodes.push(CLEAR, v as u16, 0);
            effects.push(draft.nodes.push(WHEN, fall, clear));
        }
        let effect = draft.nodes.both(effects);
        let precondition = if wraps {
            draft.nodes.constant(true)
        } else {
            let full = draft.nodes.literals(random, counting, u64::MAX);
            draft.nodes.negation(full)
        };
        draft.add_operator(precondition, effect);
    } else {
        for (i, &v) in variables.iter().enumerate() {
            let precondition = draft.nodes.literals(random, below(i) | 1 << v, below(i));
            let mut effects = vec![draft.nodes.push(SET, v as u16, 0)];
            for &lower in &variables[..i] {
                effects.push(draft.nodes.push(CLEAR, lower as u16, 0));
            }
            let effect = draft.nodes.both(effects);
            draft.add_operator(precondition, effect);
        }
    }
    if random.one_in(3) {
        add_random_operator(random, &mut draft);
    }
    draft
}

/// Operators that can be used everywhere, so that costs decide.
fn always_there(random: &mut Random) -> Draft {
    let n = random.between(1, 3) as u32;
    let mut draft = bare(random, n, (0..n).collect());
    for _ in 0..random.between(1, 4) {
        let precondition = draft.nodes.constant(true);
        let effect = draft.nodes.effect(random, &draft.active.clone(), 1);
        draft.add_operator(precondition, effect);
    }
    draft
}

/// Puts in a goal that can be reached, or one that cannot, or any.
fn add_goal(random: &mut Random, draft: &mut Draft) {
    let reach = reach_without_goal(draft);
    let active = draft.active.clone();
    draft.goal = match random.below(10) {
        0 => draft.nodes.formula(random, &active, 4),
        1..=4 => reachable_goal(random, draft, &reach),
        _ => unreachable_goal(random, draft, &reach),
    };
    if random.one_in(5) {
        let truth = random.coin();
        let constant = draft.nodes.constant(truth);
        let tag = if truth { AND } else { OR };
        draft.goal = draft.nodes.push(tag, draft.goal, constant);
    }
}

fn reach_without_goal(draft: &Draft) -> Reach {
    let mut goalless = draft.clone();
    goalless.goal = goalless.nodes.constant(false);
    let task = Task::read(&goalless.bytes()).unwrap_or_default();
    search(&task, draft.start)
}

fn reachable_goal(random: &mut Random, draft: &mut Draft, reach: &Reach) -> u16 {
    let deep = reach.states.len() - 1 - random.below(reach.states.len().min(3));
    let any = random.below(reach.states.len());
    let state = reach.states[random.pick(&[deep, any])];
    let known = draft.active.iter().fold(0, |bits, &v| bits | 1 << v);
    let known = if random.coin() {
        known & random.word()
    } else {
        known
    };
    draft.nodes.literals(random, known, state)
}

/// The literals of a state that is not reached, as few as keep it so.
fn unreachable_goal(random: &mut Random, draft: &mut Draft, reach: &Reach) -> u16 {
    let variables: Vec<u32> = if random.one_in(5) {
        (0..draft.n).collect()
    } else {
        draft.active.clone()
    };
    let mut known = variables.iter().fold(0u64, |bits, &v| bits | 1 << v);
    let reached = |known: u64, value: u64| reach.states.iter().any(|s| s & known == value & known);
    let value = (0..20)
        .map(|_| random.word())
        .find(|&value| !reached(known, value));
    let Some(value) = value else {
        return contradiction(random, draft);
    };
    let mut order = variables;
    random.shuffle(&mut order);
    for v in order {
        if random.percent(85) && !reached(known & !(1 << v), value) {
            known &= !(1 << v);
        }
    }
    draft.nodes.literals(random, known, value)
}

fn contradiction(random: &mut Random, draft: &mut Draft) -> u16 {
    if random.one_in(3) {
        return draft.nodes.constant(false);
    }
    let variable = random.pick(&draft.active);
    let a = draft.nodes.literal(variable, true);
    let b = draft.nodes.literal(variable, false);
    draft.nodes.push(AND, a, b)
}

/// Wraps the goal in a long chain of negations.
fn deepen_goal(random: &mut Random, draft: &mut Draft) {
    let room = MOST_NODES.saturating_sub(draft.nodes.0.len());
    let pairs = random.below(room / 2 + 1);
    for _ in 0..2 * pairs {
        draft.goal = draft.nodes.negation(draft.goal);
    }
}

fn price(random: &mut Random, draft: &mut Draft) {
    let style = random.below(10);
    for operator in &mut draft.operators {
        operator.costs = match style {
            0..=4 => Some((random.below(100) as u32, random.below(9) as u32)),
            5 => None,
            6 if random.coin() => None,
            _ => Some((any_cost(random), any_cost(random))),
        };
    }
}

fn any_cost(random: &mut Random) -> u32 {
    match random.below(9) {
        0 => 0,
        1 => 1,
        2 => u32::MAX,
        3 => u32::MAX - random.below(3) as u32,
        4 => u32::MAX / 2 + random.below(3) as u32,
        5 => u32::MAX / random.between(3, 12) as u32,
        6 => random.word() as u32,
        _ => random.below(1_000) as u32,
    }
}

/// Adds unused nodes and plain operators up to the given numbers.
pub fn fill(random: &mut Random, draft: &mut Draft, nodes: usize, operators: usize) {
    let (most_nodes, most_operators) = match random.below(3) {
        0 => (nodes, draft.operators.len()),
        1 => (draft.nodes.0.len(), operators),
        _ => (nodes, operators),
    };
    while draft.operators.len() < most_operators && draft.nodes.0.len() + 3 <= nodes {
        let active = draft.active.clone();
        let truth = random.coin();
        let precondition = draft.nodes.literal(random.pick(&active), truth);
        let effect = draft.nodes.effect(random, &active, 0);
        draft.add_operator(precondition, effect);
        if let Some(operator) = draft.operators.last_mut() {
            operator.costs = random.coin().then_some((3, 1));
        }
    }
    while draft.nodes.0.len() < most_nodes {
        let variable = random.pick(&draft.active) as u16;
        let tag = random.pick(&[VARIABLE, SET, CLEAR]);
        draft.nodes.push(tag, variable, 0);
    }
}

/// Puts the nodes into another lawful order, with unused ones between.
fn scatter(random: &mut Random, draft: &mut Draft) {
    let room = MOST_NODES.saturating_sub(draft.nodes.0.len());
    for _ in 0..random.below(4).min(room) {
        let variable = random.pick(&draft.active) as u16;
        draft
            .nodes
            .push(random.pick(&[VARIABLE, SET, CLEAR]), variable, 0);
    }
    let old = std::mem::take(&mut draft.nodes.0);
    let mut waiting: Vec<usize> = old.iter().map(|node| operands(node).len()).collect();
    let mut user = vec![None; old.len()];
    for (number, node) in old.iter().enumerate() {
        for operand in operands(node) {
            user[usize::from(operand)] = Some(number);
        }
    }
    let mut ready: Vec<usize> = (0..old.len()).filter(|&i| waiting[i] == 0).collect();
    let mut renamed = vec![0u16; old.len()];
    while !ready.is_empty() {
        let number = ready.swap_remove(random.below(ready.len()));
        renamed[number] = draft.nodes.0.len() as u16;
        draft.nodes.0.push(rename(&old[number], &renamed));
        if let Some(user) = user[number] {
            waiting[user] -= 1;
            if waiting[user] == 0 {
                ready.push(user);
            }
        }
    }
    for operator in &mut draft.operators {
        operator.precondition = renamed[usize::from(operator.precondition)];
        operator.effect = renamed[usize::from(operator.effect)];
    }
    draft.goal = renamed[usize::from(draft.goal)];
}

fn operands(&(tag, a, b): &Triple) -> Vec<u16> {
    match tag {
        NOT => vec![a],
        AND | OR | BOTH | WHEN => vec![a, b],
        _ => vec![],
    }
}

fn rename(&(tag, a, b): &Triple, renamed: &[u16]) -> Triple {
    match tag {
        NOT => (tag, renamed[usize::from(a)], 0),
        AND | OR | BOTH | WHEN => (tag, renamed[usize::from(a)], renamed[usize::from(b)]),
        _ => (tag, a, b),
    }
}

/// Breaks one of the rules on contents, most often.
pub fn break_contents(random: &mut Random, draft: &mut Draft) {
    let count = draft.nodes.0.len();
    let place = random.below(count);
    let near = random.below(count + 2) as u16;
    match random.below(16) {
        0 => draft.n = random.pick(&[0, 65, 128, 255]),
        1 if draft.n < 64 => draft.start |= 1 << random.between(draft.n as usize, 63),
        2 | 3 => draft.nodes.0[place].0 = random.below(13) as u8,
        4 => draft.nodes.0[place].1 = near,
        5 => draft.nodes.0[place].2 = near,
        6 => draft.nodes.0[place].1 = random.pick(&[draft.n as u16, 64, 255, 256, 1_024, u16::MAX]),
        7 => draft.nodes.0[place].2 = random.pick(&[1, 256, 1_024, u16::MAX]),
        8 => draft.goal = random.pick(&[near, u16::MAX, count as u16]),
        9 | 10 => {
            if let Some(first) = draft.operators.first().cloned() {
                let last = draft.operators.len() - 1;
                let changed = random.between(0, last);
                let operator = &mut draft.operators[changed];
                match random.below(4) {
                    0 => operator.precondition = near,
                    1 => operator.effect = near,
                    2 => operator.precondition = first.precondition,
                    _ => operator.effect = first.effect,
                }
            }
        }
        11 => {
            let earlier = random.below(place + 1) as u16;
            draft.nodes.0[place] = (random.pick(&[AND, OR, BOTH]), earlier, earlier);
        }
        12 => {
            let (a, b) = (
                random.below(place + 1) as u16,
                random.below(place + 1) as u16,
            );
            draft.nodes.0[place] = (random.pick(&[AND, OR, BOTH, WHEN]), a, b);
        }
        13 => draft.nodes.0.truncate(place),
        14 => {
            fill(random, draft, MOST_NODES, MOST_OPERATORS);
            let extra = random.between(1, 3);
            for _ in 0..extra {
                let tag = random.pick(&[TRUE, TRUE, 99]);
                draft.nodes.push(tag, 0, 0);
            }
        }
        _ => {
            let operators = MOST_OPERATORS + random.between(1, 2);
            fill(random, draft, MOST_NODES - 10, operators);
        }
    }
}
