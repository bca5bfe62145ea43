//! Formula and effect nodes: reading them, and what they mean in a state
//! and in a cube.

use crate::logic::{Cube, Value};
use crate::record::u16_at;

pub const NODE_BYTES: usize = 5;

/// A node. Operands of formulas and effects are numbers of earlier nodes.
#[derive(Clone, Copy, Debug, PartialEq, Eq)]
pub enum Node {
    False,
    True,
    Variable(u8),
    Not(u16),
    And(u16, u16),
    Or(u16, u16),
    Nothing,
    Set(u8),
    Clear(u8),
    Both(u16, u16),
    When(u16, u16),
}

#[derive(Clone, Copy, Debug, PartialEq, Eq)]
pub enum Sort {
    Formula,
    Effect,
}

impl Node {
    pub fn sort(self) -> Sort {
        match self {
            Node::False
            | Node::True
            | Node::Variable(_)
            | Node::Not(_)
            | Node::And(..)
            | Node::Or(..) => Sort::Formula,
            Node::Nothing | Node::Set(_) | Node::Clear(_) | Node::Both(..) | Node::When(..) => {
                Sort::Effect
            }
        }
    }
}

/// Why a node is no node.
#[derive(Clone, Copy, Debug, PartialEq, Eq)]
pub enum NodeFault {
    Bad,
    NamedTwice,
}

/// The nodes read so far from one paper, and which of them have been named.
#[derive(Default)]
pub struct NodeReader {
    nodes: Vec<Node>,
    named: Vec<bool>,
}

impl NodeReader {
    pub fn len(&self) -> usize {
        self.nodes.len()
    }

    pub fn is_empty(&self) -> bool {
        self.nodes.is_empty()
    }

    pub fn into_nodes(self) -> Vec<Node> {
        self.nodes
    }

    pub fn has(&self, number: u16, sort: Sort) -> bool {
        self.nodes
            .get(usize::from(number))
            .is_some_and(|node| node.sort() == sort)
    }

    /// Names a node that is there; it may be done once for each.
    pub fn name(&mut self, number: u16) -> Result<(), NodeFault> {
        let named = &mut self.named[usize::from(number)];
        if *named {
            return Err(NodeFault::NamedTwice);
        }
        *named = true;
        Ok(())
    }

    /// Reads the next node from its five bytes, for n variables.
    pub fn read(&mut self, bytes: &[u8], n: u32) -> Result<(), NodeFault> {
        let node = self.decode(bytes, n).ok_or(NodeFault::Bad)?;
        match node {
            Node::Not(a) => self.name(a)?,
            Node::And(a, b) | Node::Or(a, b) | Node::Both(a, b) | Node::When(a, b) => {
                self.name(a)?;
                self.name(b)?;
            }
            _ => {}
        }
        self.nodes.push(node);
        self.named.push(false);
        Ok(())
    }

    fn decode(&self, bytes: &[u8], n: u32) -> Option<Node> {
        let (a, b) = (u16_at(bytes, 1), u16_at(bytes, 3));
        let unused = |operand: u16| (operand == 0).then_some(());
        let variable = |operand: u16| (u32::from(operand) < n).then_some(operand as u8);
        let formula = |operand: u16| self.has(operand, Sort::Formula).then_some(operand);
        let effect = |operand: u16| self.has(operand, Sort::Effect).then_some(operand);
        Some(match bytes[0] {
            0 => {
                unused(a)?;
                unused(b)?;
                Node::False
            }
            1 => {
                unused(a)?;
                unused(b)?;
                Node::True
            }
            2 => {
                unused(b)?;
                Node::Variable(variable(a)?)
            }
            3 => {
                unused(b)?;
                Node::Not(formula(a)?)
            }
            4 => Node::And(formula(a)?, formula(b)?),
            5 => Node::Or(formula(a)?, formula(b)?),
            6 => {
                unused(a)?;
                unused(b)?;
                Node::Nothing
            }
            7 => {
                unused(b)?;
                Node::Set(variable(a)?)
            }
            8 => {
                unused(b)?;
                Node::Clear(variable(a)?)
            }
            9 => Node::Both(effect(a)?, effect(b)?),
            10 => Node::When(formula(a)?, effect(b)?),
            _ => return None,
        })
    }
}

/// The value of a formula node in a cube.
pub fn value_in(nodes: &[Node], formula: u16, cube: &Cube) -> Value {
    match nodes[usize::from(formula)] {
        Node::True => Value::True,
        Node::Variable(v) => cube.variable(u32::from(v)),
        Node::Not(a) => !value_in(nodes, a, cube),
        Node::And(a, b) => match value_in(nodes, a, cube) {
            Value::False => Value::False,
            left => left.and(value_in(nodes, b, cube)),
        },
        Node::Or(a, b) => match value_in(nodes, a, cube) {
            Value::True => Value::True,
            left => left.or(value_in(nodes, b, cube)),
        },
        _ => Value::False,
    }
}

/// Whether a formula node is true in a state.
pub fn is_true_in(nodes: &[Node], formula: u16, state: u64) -> bool {
    match nodes[usize::from(formula)] {
        Node::True => true,
        Node::Variable(v) => state >> v & 1 == 1,
        Node::Not(a) => !is_true_in(nodes, a, state),
        Node::And(a, b) => is_true_in(nodes, a, state) && is_true_in(nodes, b, state),
        Node::Or(a, b) => is_true_in(nodes, a, state) || is_true_in(nodes, b, state),
        _ => false,
    }
}

/// The state that an effect node leads to from a state.
pub fn resulting_state(nodes: &[Node], effect: u16, state: u64) -> u64 {
    let (mut set, mut clear) = (0, 0);
    gather_in_state(nodes, effect, state, &mut set, &mut clear);
    set | (state & !clear)
}

fn gather_in_state(nodes: &[Node], effect: u16, state: u64, set: &mut u64, clear: &mut u64) {
    match nodes[usize::from(effect)] {
        Node::Set(v) => *set |= 1 << v,
        Node::Clear(v) => *clear |= 1 << v,
        Node::Both(a, b) => {
            gather_in_state(nodes, a, state, set, clear);
            gather_in_state(nodes, b, state, set, clear);
        }
        Node::When(condition, a) if is_true_in(nodes, condition, state) => {
            gather_in_state(nodes, a, state, set, clear);
        }
        _ => {}
    }
}

/// One condition for each variable: true in the bits that are sure, open in
/// those that are possible but not sure, and else false.
#[derive(Clone, Copy, Default)]
struct Conditions {
    sure: u64,
    possible: u64,
}

impl Conditions {
    fn join(&mut self, variable: u8, sure: bool) {
        self.sure |= u64::from(sure) << variable;
        self.possible |= 1 << variable;
    }
}

/// The successor of a cube under an effect node.
pub fn successor(nodes: &[Node], effect: u16, cube: &Cube) -> Cube {
    let (mut set, mut clear) = (Conditions::default(), Conditions::default());
    gather_in_cube(nodes, effect, cube, true, &mut set, &mut clear);
    let (was_true, was_false) = (cube.value(), cube.known() & !cube.value());
    let is_true = set.sure | (was_true & !clear.possible);
    let is_false = !set.possible & (was_false | clear.sure);
    Cube::new(cube.width(), is_true | is_false, is_true)
}

fn gather_in_cube(
    nodes: &[Node],
    effect: u16,
    cube: &Cube,
    sure: bool,
    set: &mut Conditions,
    clear: &mut Conditions,
) {
    match nodes[usize::from(effect)] {
        Node::Set(v) => set.join(v, sure),
        Node::Clear(v) => clear.join(v, sure),
        Node::Both(a, b) => {
            gather_in_cube(nodes, a, cube, sure, set, clear);
            gather_in_cube(nodes, b, cube, sure, set, clear);
        }
        Node::When(condition, a) => match value_in(nodes, condition, cube) {
            Value::False => {}
            Value::Open => gather_in_cube(nodes, a, cube, false, set, clear),
            Value::True => gather_in_cube(nodes, a, cube, sure, set, clear),
        },
        _ => {}
    }
}
