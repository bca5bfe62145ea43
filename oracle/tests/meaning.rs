//! The fast ways of the library against the plain words of the rules.

mod common;

use common::*;
use oracle::logic::{Cube, Value};
use oracle::node::Node;
use oracle::proof::{judge_proof, plain_body, plain_tree};
use oracle::set::Set;
use oracle::task::{Operator, Task};

const N: u32 = 3;

/// A small source of random numbers.
struct Dice(u64);

impl Dice {
    fn below(&mut self, limit: usize) -> usize {
        self.0 = self
            .0
            .wrapping_mul(6_364_136_223_846_793_005)
            .wrapping_add(1);
        (self.0 >> 33) as usize % limit
    }

    fn formula(&mut self, nodes: &mut Vec<(u8, u16, u16)>, depth: usize) -> u16 {
        let node = match self.below(if depth == 0 { 4 } else { 9 }) {
            0 => (self.below(2) as u8, 0, 0),
            1..=3 => (2, self.below(N as usize) as u16, 0),
            4 => (3, self.formula(nodes, depth - 1), 0),
            other => {
                let a = self.formula(nodes, depth - 1);
                let b = self.formula(nodes, depth - 1);
                (if other < 7 { 4 } else { 5 }, a, b)
            }
        };
        nodes.push(node);
        nodes.len() as u16 - 1
    }

    fn effect(&mut self, nodes: &mut Vec<(u8, u16, u16)>, depth: usize) -> u16 {
        let node = match self.below(if depth == 0 { 5 } else { 11 }) {
            0 => (6, 0, 0),
            1 | 2 => (7, self.below(N as usize) as u16, 0),
            3 | 4 => (8, self.below(N as usize) as u16, 0),
            5..=7 => {
                let a = self.formula(nodes, 2);
                (10, a, self.effect(nodes, depth - 1))
            }
            _ => {
                let a = self.effect(nodes, depth - 1);
                (9, a, self.effect(nodes, depth - 1))
            }
        };
        nodes.push(node);
        nodes.len() as u16 - 1
    }

    fn task(&mut self, operators: usize) -> Task {
        let mut list = Vec::new();
        let mut records = Vec::new();
        for _ in 0..operators {
            let precondition = self.formula(&mut list, 3);
            let effect = self.effect(&mut list, 4);
            records.extend(operator(precondition, effect));
        }
        let end = self.formula(&mut list, 3);
        let start = self.below(1 << N) as u64;
        let parts = [header(N as u8, start), nodes(&list), records, goal(end)];
        read(&parts.concat())
    }
}

fn cubes() -> impl Iterator<Item = Cube> {
    (0..1u64 << N).flat_map(|known| {
        (0..1u64 << N)
            .filter(move |value| value & !known == 0)
            .map(move |value| Cube::new(N, known, value))
    })
}

fn and(x: Value, y: Value) -> Value {
    match (x, y) {
        (Value::True, Value::True) => Value::True,
        (Value::False, _) | (_, Value::False) => Value::False,
        _ => Value::Open,
    }
}

fn or(x: Value, y: Value) -> Value {
    !and(!x, !y)
}

fn value(nodes: &[Node], number: u16, cube: &Cube) -> Value {
    match nodes[usize::from(number)] {
        Node::False => Value::False,
        Node::True => Value::True,
        Node::Variable(v) => match (cube.known() >> v & 1, cube.value() >> v & 1) {
            (0, _) => Value::Open,
            (_, 0) => Value::False,
            _ => Value::True,
        },
        Node::Not(a) => !value(nodes, a, cube),
        Node::And(a, b) => and(value(nodes, a, cube), value(nodes, b, cube)),
        Node::Or(a, b) => or(value(nodes, a, cube), value(nodes, b, cube)),
        other => panic!("{other:?} is no formula"),
    }
}

fn condition(nodes: &[Node], number: u16, cube: &Cube, v: u32, sets: bool) -> Value {
    match nodes[usize::from(number)] {
        Node::Nothing => Value::False,
        Node::Set(a) => Value::from(sets && u32::from(a) == v),
        Node::Clear(a) => Value::from(!sets && u32::from(a) == v),
        Node::Both(a, b) => or(
            condition(nodes, a, cube, v, sets),
            condition(nodes, b, cube, v, sets),
        ),
        Node::When(f, a) => and(value(nodes, f, cube), condition(nodes, a, cube, v, sets)),
        other => panic!("{other:?} is no effect"),
    }
}

fn successor(task: &Task, operator: &Operator, cube: &Cube) -> Cube {
    let mut after = Cube::whole(cube.width());
    for v in 0..cube.width() {
        let set = condition(task.nodes(), operator.effect, cube, v, true);
        let clear = condition(task.nodes(), operator.effect, cube, v, false);
        match or(set, and(cube.variable(v), !clear)) {
            Value::Open => {}
            truth => after = after.with(v, truth == Value::True),
        }
    }
    after
}

#[test]
fn the_tables_of_the_logic() {
    use Value::{False, Open, True};
    let rows = [
        (True, True, True, True),
        (True, False, False, True),
        (True, Open, Open, True),
        (False, False, False, False),
        (False, Open, False, Open),
        (Open, Open, Open, Open),
    ];
    for (x, y, both, either) in rows {
        assert_eq!((x.and(y), x.or(y)), (both, either));
        assert_eq!((y.and(x), y.or(x)), (both, either));
        assert_eq!((and(x, y), or(x, y)), (both, either));
    }
    assert_eq!((!True, !False, !Open), (False, True, Open));
}

#[test]
fn formulas_and_successors() {
    let mut dice = Dice(7);
    for _ in 0..400 {
        let task = dice.task(1);
        let operator = &task.operators()[0];
        for cube in cubes() {
            let precondition = value(task.nodes(), operator.precondition, &cube);
            assert_eq!(task.precondition_in(operator, &cube), precondition);
            let after = successor(&task, operator, &cube);
            assert_eq!(task.successor(operator, &cube), after);
            for state in (0..1 << N).filter(|&state| cube.holds(state)) {
                assert!(after.holds(task.result(operator, state)));
            }
        }
        for state in 0..1 << N {
            let total = Cube::of_state(N, state);
            let truth = Value::from(task.applicable(operator, state));
            assert_eq!(task.precondition_in(operator, &total), truth);
            assert_eq!(Value::from(task.goal_holds(state)), task.goal_in(&total));
            let result = Cube::of_state(N, task.result(operator, state));
            assert_eq!(task.successor(operator, &total), result);
        }
    }
}

#[test]
fn answers_of_lists() {
    for bits in 0..1u64 << (1 << N) {
        let states: Vec<u64> = (0..1 << N).filter(|state| bits >> state & 1 == 1).collect();
        let set = list_set(&states, N);
        for cube in cubes() {
            let all = (0..1 << N).filter(|&state| cube.holds(state)).count();
            let listed = states.iter().filter(|&&state| cube.holds(state)).count();
            let answer = match listed {
                0 => Value::False,
                _ if listed == all => Value::True,
                _ => Value::Open,
            };
            assert_eq!(set.ask(&cube), answer);
        }
    }
}

fn child_answer(entries: &[(u8, u16, u16)], child: u16, cube: &Cube) -> Value {
    if child < 2 {
        return Value::from(child == 1);
    }
    let (variable, low, high) = entries[usize::from(child) - 2];
    let low = child_answer(entries, low, cube);
    let high = child_answer(entries, high, cube);
    match cube.variable(u32::from(variable)) {
        Value::False => low,
        Value::True => high,
        Value::Open if low == high => low,
        Value::Open => Value::Open,
    }
}

#[test]
fn answers_of_diagrams() {
    let mut dice = Dice(11);
    for _ in 0..400 {
        let mut entries: Vec<(u8, u16, u16)> = Vec::new();
        for variable in (0..N as u8).rev() {
            let below = entries.len() + 2;
            for _ in 0..dice.below(4) {
                entries.push((variable, dice.below(below) as u16, dice.below(below) as u16));
            }
        }
        let Ok(set) = Set::read_diagram(&diagram(&entries), N) else {
            assert!(entries.is_empty());
            continue;
        };
        for cube in cubes() {
            let answer = child_answer(&entries, entries.len() as u16 + 1, &cube);
            assert_eq!(set.ask(&cube), answer);
        }
    }
}

fn reachable(task: &Task) -> Vec<u64> {
    let mut states = vec![task.start()];
    let mut next = 0;
    while next < states.len() {
        let state = states[next];
        for operator in task.operators() {
            let result = task.result(operator, state);
            if task.applicable(operator, state) && !states.contains(&result) {
                states.push(result);
            }
        }
        next += 1;
    }
    states.sort_unstable();
    states
}

#[test]
fn plain_proofs_are_accepted_exactly_where_the_goal_cannot_be_reached() {
    let mut dice = Dice(13);
    let mut impossible = 0;
    for _ in 0..600 {
        let operators = dice.below(4);
        let task = dice.task(operators);
        let states = reachable(&task);
        let unsolvable = !states.iter().any(|&state| task.goal_holds(state));
        let paper = proof(&plain_body(&task, &states));
        let accepted = judge_proof(&task, &list_set(&states, N), &paper).is_ok();
        assert_eq!(accepted, unsolvable);
        impossible += usize::from(unsolvable);
    }
    assert!((100..500).contains(&impossible));
}

#[test]
fn plain_trees_are_trees() {
    for bits in 0..1u64 << (1 << N) {
        let states: Vec<u64> = (0..1 << N).filter(|state| bits >> state & 1 == 1).collect();
        let tree = plain_tree(N, &states);
        let leaves = tree.iter().filter(|&&byte| byte == 0xFF).count();
        assert_eq!(tree.len(), 2 * leaves - 1);
    }
    assert_eq!(plain_tree(N, &[]), [0xFF]);
    assert_eq!(plain_tree(0, &[0]), [0xFF]);
}
