//! Proof bodies: grown until every leaf is settled, random, or damaged.

use oracle::logic::Cube;
use oracle::proof::{duties, judge_proof, settled, Duty, LEAF};
use oracle::record::{HEADER_BYTES, MOST_BYTES};
use oracle::refusal::Fault;
use oracle::set::Set;
use oracle::task::Task;

use crate::papers::proof;
use crate::random::Random;

/// The longest body a proof paper can have.
pub const LONGEST_BODY: usize = MOST_BYTES - HEADER_BYTES;

/// How a tree chooses the variable to split on: the first free one in an
/// order, or any free one.
#[derive(Clone)]
pub struct Order {
    pub variables: Vec<u32>,
    pub any: bool,
}

/// A random order, which most often has the active variables in front.
pub fn random_order(random: &mut Random, n: u32, active: &[u32]) -> Order {
    let mut variables: Vec<u32> = (0..n).collect();
    match random.below(6) {
        0 => {}
        1 => variables.reverse(),
        2 => random.shuffle(&mut variables),
        _ => {
            random.shuffle(&mut variables);
            variables.sort_by_key(|v| !active.contains(v));
        }
    }
    Order {
        variables,
        any: n <= 8 && random.one_in(4),
    }
}

pub struct Grown {
    pub body: Vec<u8>,
    /// Whether every leaf is settled.
    pub settled: bool,
}

/// Splits until every leaf is settled, or the body has the length allowed.
/// Settled leaves are split this many times more, if they can be.
pub fn grow(
    random: &mut Random,
    task: &Task,
    set: &Set,
    order: &Order,
    longest: usize,
    more: usize,
) -> Grown {
    let mut grower = Grower {
        random,
        task,
        set,
        order,
        longest,
        more,
        grown: Grown {
            body: Vec::new(),
            settled: true,
        },
    };
    for duty in duties(task) {
        grower.tree(duty, Cube::whole(task.n()));
    }
    grower.grown
}

struct Grower<'a> {
    random: &'a mut Random,
    task: &'a Task,
    set: &'a Set,
    order: &'a Order,
    longest: usize,
    more: usize,
    grown: Grown,
}

impl Grower<'_> {
    fn tree(&mut self, duty: Duty, cube: Cube) {
        let done = settled(self.task, self.set, duty, &cube);
        let full = self.grown.body.len() >= self.longest;
        let split = !cube.is_total() && !full && (!done || self.more > 0);
        if !split {
            self.grown.settled &= done;
            self.grown.body.push(LEAF);
            return;
        }
        if done {
            self.more -= 1;
        }
        let variable = self.choose(&cube);
        self.grown.body.push(variable as u8);
        self.tree(duty, cube.with(variable, false));
        self.tree(duty, cube.with(variable, true));
    }

    fn choose(&mut self, cube: &Cube) -> u32 {
        let free = |v: &u32| cube.is_free(*v);
        if self.order.any {
            let variables: Vec<u32> = (0..self.task.n()).filter(free).collect();
            return self.random.pick(&variables);
        }
        let first = self.order.variables.iter().copied().find(free);
        first.unwrap_or(cube.free().trailing_zeros())
    }
}

/// A row of random trees, without regard to anything they should settle.
pub fn random_body(random: &mut Random, task: &Task) -> Vec<u8> {
    let mut body = Vec::new();
    for _ in duties(task) {
        random_tree(random, Cube::whole(task.n()), 4, &mut body);
    }
    body
}

fn random_tree(random: &mut Random, cube: Cube, depth: usize, body: &mut Vec<u8>) {
    if depth == 0 || cube.is_total() || random.percent(30) {
        body.push(LEAF);
        return;
    }
    let free: Vec<u32> = (0..cube.width()).filter(|&v| cube.is_free(v)).collect();
    let variable = random.pick(&free);
    body.push(variable as u8);
    random_tree(random, cube.with(variable, false), depth - 1, body);
    random_tree(random, cube.with(variable, true), depth - 1, body);
}

/// Takes back a split above two leaves: a body grown no further than it had
/// to be has a leaf there that is not settled.
pub fn prune(random: &mut Random, body: &mut Vec<u8>) {
    let splits: Vec<usize> = (2..body.len())
        .filter(|&end| body[end - 2] != LEAF && body[end - 1..=end] == [LEAF, LEAF])
        .map(|end| end - 2)
        .collect();
    if !splits.is_empty() {
        let place = random.pick(&splits);
        body.drain(place..place + 2);
    }
}

/// Takes back one of the splits above the first leaf that is not settled, so
/// that a leaf with more free variables takes its place.
pub fn prune_above_fault(random: &mut Random, task: &Task, set: &Set, body: &mut Vec<u8>) {
    let Err(refusal) = judge_proof(task, set, &proof(body)) else {
        return;
    };
    if refusal.fault != Fault::LeafNotSettled {
        return;
    }
    let above: Vec<usize> = (0..refusal.place)
        .filter(|&place| body[place] != LEAF && tree_end(body, place) > refusal.place)
        .collect();
    if let Some(nearest) = above.len().checked_sub(1) {
        let place = above[nearest - random.below(above.len().min(4))];
        let end = tree_end(body, place);
        body.splice(place..end, [LEAF]);
    }
}

/// Where the tree that begins at a place ends.
fn tree_end(body: &[u8], place: usize) -> usize {
    let mut wanted = 1;
    let mut end = place;
    while wanted > 0 && end < body.len() {
        wanted = if body[end] == LEAF {
            wanted - 1
        } else {
            wanted + 1
        };
        end += 1;
    }
    end
}

/// Breaks a body.
pub fn break_body(random: &mut Random, n: u32, body: &mut Vec<u8>) {
    let place = random.below(body.len() + 1);
    let byte = match random.below(4) {
        0 => LEAF,
        1 => random.pick(&[n as u8, 64, 254, 128]),
        2 => random.below(n.max(1) as usize) as u8,
        _ => random.word() as u8,
    };
    match random.below(7) {
        0 => body.truncate(place),
        1 => body.insert(place, byte),
        2 => body.push(byte),
        3 if place < body.len() => {
            body.remove(place);
        }
        4 if body.len() > 1 => {
            let last = body.len() - 1;
            body.swap(place.min(last), last / 2);
        }
        5 if place < body.len() => {
            let copied = body[place];
            body.insert(place, copied);
        }
        _ if place < body.len() => body[place] = byte,
        _ => body.extend([byte, byte]),
    }
}
