//! Sets of states in the mind of the generator, and ways to write them.

use std::collections::{BTreeMap, BTreeSet};

use oracle::logic::{bits_below, Cube};
use oracle::record::{DIAGRAM, FORMULA};
use oracle::set::MOST_ENTRIES;

use crate::papers::{as_word, damage, list, triples, Triple};
use crate::random::Random;
use crate::tasks::Nodes;

/// Lists are not spread out further than this.
const MOST_SPREAD: usize = 1_100;
/// Sets of more cubes than this are not written as formulas.
const MOST_CUBES: usize = 300;
/// How much work goes into one diagram.
const DIAGRAM_FUEL: usize = 6_000;

/// The states of some cubes, or all others.
#[derive(Clone)]
pub struct Target {
    pub n: u32,
    pub cubes: Vec<Cube>,
    pub negated: bool,
}

impl Target {
    pub fn of_states(n: u32, states: &[u64]) -> Target {
        Target {
            n,
            cubes: states
                .iter()
                .map(|&state| Cube::of_state(n, state))
                .collect(),
            negated: false,
        }
    }

    /// States that agree with a given one on the bits.
    pub fn projected(n: u32, states: &[u64], bits: u64) -> Target {
        let values: BTreeSet<u64> = states.iter().map(|state| state & bits).collect();
        Target {
            n,
            cubes: values
                .iter()
                .map(|&value| Cube::new(n, bits, value))
                .collect(),
            negated: false,
        }
    }

    fn complement(&self) -> Target {
        Target {
            negated: !self.negated,
            ..self.clone()
        }
    }

    fn with_cubes(&self, cubes: Vec<Cube>) -> Target {
        Target {
            cubes,
            ..self.clone()
        }
    }

    fn holds(&self, state: u64) -> bool {
        self.cubes.iter().any(|cube| cube.holds(state)) != self.negated
    }

    /// The states in rising order, if they are few.
    fn states(&self) -> Option<Vec<u64>> {
        if self.negated {
            let all = 0..=bits_below(self.n);
            return (self.n <= 10).then(|| all.filter(|&s| self.holds(s)).collect());
        }
        let mut states = BTreeSet::new();
        for cube in &self.cubes {
            let free = cube.free().count_ones();
            if free > 10 || states.len() + (1 << free) > 2 * MOST_SPREAD {
                return None;
            }
            states.extend(states_of(cube));
        }
        (states.len() <= MOST_SPREAD).then(|| states.into_iter().collect())
    }
}

/// All states of a cube, which has few free variables.
fn states_of(cube: &Cube) -> impl Iterator<Item = u64> {
    let (value, free) = (cube.value(), cube.free());
    let mut part = Some(0u64);
    std::iter::from_fn(move || {
        let now = part?;
        let next = (now | !free).wrapping_add(1) & free;
        part = (next != 0).then_some(next);
        Some(value | now)
    })
}

/// Merges cubes that differ in one known variable.
fn merged(mut cubes: Vec<Cube>) -> Vec<Cube> {
    let mut first = 0;
    while first < cubes.len() {
        let a = cubes[first];
        let partner = (first + 1..cubes.len()).find(|&second| {
            let b = cubes[second];
            a.known() == b.known() && (a.value() ^ b.value()).count_ones() <= 1
        });
        match partner {
            Some(second) => {
                let b = cubes.swap_remove(second);
                let differ = a.value() ^ b.value();
                cubes[first] = Cube::new(a.width(), a.known() & !differ, a.value());
                first = 0;
            }
            None => first += 1,
        }
    }
    cubes
}

/// What is wrong with a set paper.
#[derive(Clone, Copy, PartialEq, Eq)]
enum Flaw {
    None,
    /// An entry breaks a rule.
    Entry,
    /// The bytes are damaged.
    Bytes,
    /// It is written as a paper of any kind.
    Kind,
}

/// Writes sets as words of a script, with layers and papers.
pub struct SetWriter<'a> {
    pub random: &'a mut Random,
    /// Whether papers may have flaws.
    pub flawed: bool,
}

impl SetWriter<'_> {
    pub fn write(&mut self, target: &Target, depth: usize) -> String {
        if depth > 0 && self.random.percent(35) {
            self.layer(target, depth - 1)
        } else {
            self.paper(target)
        }
    }

    fn layer(&mut self, target: &Target, depth: usize) -> String {
        if self.random.one_in(60) {
            let pairs = self.random.between(5, 200);
            return "complement complement ".repeat(pairs) + &self.write(target, 0);
        }
        match self.random.below(3) {
            0 => format!("complement {}", self.write(&target.complement(), depth)),
            1 => self.two_parts(target, depth),
            _ => self.two_wider(target, depth),
        }
    }

    /// The cubes of a set dealt out to two parts, some to both.
    fn two_parts(&mut self, target: &Target, depth: usize) -> String {
        let (mut first, mut second) = (Vec::new(), Vec::new());
        for &cube in &target.cubes {
            let share = self.random.below(5);
            if share < 3 {
                first.push(cube);
            }
            if share > 1 {
                second.push(cube);
            }
        }
        let layer = if target.negated { "meeting" } else { "joining" };
        let first = self.write(&target.with_cubes(first), depth);
        let second = self.write(&target.with_cubes(second), depth);
        format!("{layer} {first} {second}")
    }

    /// A set within two wider ones that share nothing else.
    fn two_wider(&mut self, target: &Target, depth: usize) -> String {
        if target.n == 0 {
            return self.two_parts(target, depth);
        }
        let variable = self.random.below(target.n as usize) as u32;
        let mut parts = [target.cubes.clone(), target.cubes.clone()];
        for (part, truth) in parts.iter_mut().zip([false, true]) {
            for _ in 0..self.random.below(3) {
                let narrow = target.n as usize - self.random.below(target.n.min(3) as usize);
                let mut cube = Cube::whole(target.n).with(variable, truth);
                for _ in 0..narrow {
                    let other = self.random.below(target.n as usize) as u32;
                    if cube.is_free(other) {
                        cube = cube.with(other, self.random.coin());
                    }
                }
                part.push(cube);
            }
        }
        let layer = if target.negated { "joining" } else { "meeting" };
        let [first, second] = parts.map(|cubes| self.write(&target.with_cubes(cubes), depth));
        format!("{layer} {first} {second}")
    }

    /// One paper for a set, of a kind that can hold it.
    fn paper(&mut self, target: &Target) -> String {
        let flaw = self.flaw();
        let mut kinds = ["list", "diagram", "formula"];
        self.random.shuffle(&mut kinds);
        for kind in kinds {
            let paper = match kind {
                "list" => self.list(target, flaw),
                "diagram" => self.diagram(target, flaw),
                _ => self.formula(target, flaw),
            };
            if let Some(paper) = paper {
                return self.word(kind, paper, flaw);
            }
        }
        let all = triples(FORMULA, &[(1, 0, 0)]);
        self.word("formula", all, flaw)
    }

    fn flaw(&mut self) -> Flaw {
        match self.random.below(20) {
            _ if !self.flawed => Flaw::None,
            0..=4 => Flaw::None,
            5..=14 => Flaw::Entry,
            15..=18 => Flaw::Bytes,
            _ => Flaw::Kind,
        }
    }

    fn word(&mut self, kind: &str, mut paper: Vec<u8>, flaw: Flaw) -> String {
        let kind = match flaw {
            Flaw::Kind => self.random.pick(&["list", "diagram", "formula"]),
            _ => kind,
        };
        if flaw == Flaw::Bytes {
            damage(self.random, &mut paper);
        }
        format!("{kind} {}", as_word(self.random, &paper))
    }

    fn list(&mut self, target: &Target, flaw: Flaw) -> Option<Vec<u8>> {
        let mut states = target.states()?;
        if flaw == Flaw::Entry {
            self.break_list(target.n, &mut states);
        }
        Some(list(&states))
    }

    fn break_list(&mut self, n: u32, states: &mut Vec<u64>) {
        let place = self.random.below(states.len() + 1);
        match self.random.below(5) {
            0 if place < states.len() => states.insert(place, states[place]),
            1 => states.insert(place, self.random.word() & bits_below(n)),
            2 if n < 64 => states.push(1 << self.random.between(n as usize, 63)),
            3 if place > 0 => states.swap(place - 1, 0),
            _ if self.random.one_in(4) => states.resize(MOST_ENTRIES + 1, 0),
            _ => states.reverse(),
        }
    }

    fn diagram(&mut self, target: &Target, flaw: Flaw) -> Option<Vec<u8>> {
        if target.n == 0 {
            return None;
        }
        let mut builder = DiagramBuilder {
            random: self.random,
            n: target.n,
            negated: target.negated,
            entries: Vec::new(),
            places: BTreeMap::new(),
            fuel: DIAGRAM_FUEL,
        };
        let mut entries = builder.build_whole(&target.cubes)?;
        self.pad(&mut entries, (target.n as u8 - 1, 0, 1));
        if flaw == Flaw::Entry {
            self.break_diagram(target.n, &mut entries);
        } else if entries.len() > MOST_ENTRIES + 1 && !self.random.one_in(20) {
            return None;
        }
        Some(triples(DIAGRAM, &entries))
    }

    /// Seldom, fills up with entries that nobody names, before the root.
    fn pad(&mut self, entries: &mut Vec<Triple>, filler: Triple) {
        if !self.random.one_in(40) {
            return;
        }
        let wanted = MOST_ENTRIES + self.random.pick(&[0, 0, 1]);
        let missing = wanted.saturating_sub(entries.len());
        let root = entries.len() - 1;
        entries.splice(root..root, vec![filler; missing]);
    }

    fn break_diagram(&mut self, n: u32, entries: &mut Vec<Triple>) {
        let place = self.random.below(entries.len());
        let child = self.random.below(entries.len() + 4) as u16;
        match self.random.below(9) {
            6..=8 => self.level_children(entries),
            0 => entries[place].0 = self.random.pick(&[n as u8, 64, 255, 0]),
            1 => entries[place].1 = child,
            2 => entries[place].2 = child,
            3 => entries[place].1 = self.random.pick(&[place as u16 + 2, 256, u16::MAX]),
            4 => entries.swap(place, 0),
            _ if self.random.one_in(3) => entries.resize(MOST_ENTRIES + 1, (0, 1, 0)),
            _ => entries.clear(),
        }
    }

    /// Gives an entry the variable of one of its children, or a greater one.
    fn level_children(&mut self, entries: &mut [Triple]) {
        let above: Vec<usize> = (0..entries.len())
            .filter(|&place| entries[place].1 > 1 || entries[place].2 > 1)
            .collect();
        if above.is_empty() {
            return;
        }
        let place = self.random.pick(&above);
        let child = entries[place].1.max(entries[place].2) - 2;
        let variable = entries[usize::from(child)].0;
        entries[place].0 = variable + self.random.pick(&[0, 0, 1]);
    }

    fn formula(&mut self, target: &Target, flaw: Flaw) -> Option<Vec<u8>> {
        if target.cubes.len() > MOST_CUBES {
            return None;
        }
        let cubes = merged(target.cubes.clone());
        let mut nodes = Nodes::default();
        for _ in 0..self.random.below(3) {
            let truth = self.random.coin();
            nodes.constant(truth);
        }
        let inside_out = target.negated && self.random.coin();
        let mut parts = Vec::new();
        for cube in &cubes {
            let conjunction = !inside_out;
            let literals = (0..target.n)
                .filter(|v| cube.known() >> v & 1 == 1)
                .map(|v| nodes.literal(v, (cube.value() >> v & 1 == 1) != inside_out))
                .collect();
            parts.push(nodes.join(self.random, conjunction, literals));
            if nodes.0.len() > 2 * MOST_ENTRIES {
                return None;
            }
        }
        let whole = nodes.join(self.random, inside_out, parts);
        if target.negated && !inside_out {
            nodes.negation(whole);
        }
        let mut nodes = nodes.0;
        self.pad(&mut nodes, (1, 0, 0));
        if flaw == Flaw::Entry {
            self.break_formula(target.n, &mut nodes);
        } else if nodes.len() > MOST_ENTRIES + 1 && !self.random.one_in(20) {
            return None;
        }
        Some(triples(FORMULA, &nodes))
    }

    fn break_formula(&mut self, n: u32, nodes: &mut Vec<Triple>) {
        let place = self.random.below(nodes.len());
        let near = self.random.below(nodes.len() + 2) as u16;
        match self.random.below(7) {
            0 => nodes[place].0 = self.random.between(0, 12) as u8,
            1 => nodes[place].1 = near,
            2 => nodes[place].2 = near,
            3 => nodes[place] = (2, n as u16, 0),
            4 => nodes[place] = (self.random.pick(&[4, 5]), near, near),
            5 => nodes.swap(place, 0),
            _ if self.random.one_in(3) => nodes.resize(MOST_ENTRIES + 1, (1, 0, 0)),
            _ => nodes.clear(),
        }
    }
}

/// Sets that are not made for anything.
impl SetWriter<'_> {
    /// Any set of width n, in the given variables where there are some.
    pub fn random_set(&mut self, n: u32, variables: &[u32], depth: usize) -> String {
        if depth > 0 && self.random.percent(40) {
            let first = self.random_set(n, variables, depth - 1);
            let layer = self.random.pick(&["complement", "meeting", "joining"]);
            if layer == "complement" {
                return format!("{layer} {first}");
            }
            let second = self.random_set(n, variables, depth - 1);
            return format!("{layer} {first} {second}");
        }
        let flaw = self.flaw();
        if variables.is_empty() {
            let states: &[u64] = self.random.pick(&[&[], &[0]]);
            return self.word("list", list(states), flaw);
        }
        match self.random.below(3) {
            0 => {
                let states: BTreeSet<u64> = (0..self.random.below(12))
                    .map(|_| self.random.word() & bits_below(n))
                    .collect();
                let states: Vec<u64> = states.into_iter().collect();
                self.word("list", list(&states), flaw)
            }
            1 => {
                let entries = self.random_entries(variables);
                self.word("diagram", triples(DIAGRAM, &entries), flaw)
            }
            _ => {
                let nodes = self.random_nodes(variables);
                self.word("formula", triples(FORMULA, &nodes), flaw)
            }
        }
    }

    /// Lawful entries, with the greatest variables first.
    fn random_entries(&mut self, variables: &[u32]) -> Vec<Triple> {
        let count = self.random.between(1, 12);
        let mut chosen: Vec<u32> = (0..count).map(|_| self.random.pick(variables)).collect();
        chosen.sort_unstable_by(|a, b| b.cmp(a));
        let mut entries: Vec<Triple> = Vec::new();
        for variable in chosen {
            let below = entries
                .iter()
                .filter(|entry| u32::from(entry.0) > variable)
                .count();
            let mut child = || self.random.below(below + 2) as u16;
            entries.push((variable as u8, child(), child()));
        }
        entries
    }

    /// A random formula, seldom with a long chain of negations on top.
    fn random_nodes(&mut self, variables: &[u32]) -> Vec<Triple> {
        let mut nodes = Nodes::default();
        let mut root = nodes.formula(self.random, variables, 4);
        if self.random.one_in(10) {
            let wanted = MOST_ENTRIES - self.random.below(2);
            while nodes.0.len() < wanted {
                root = nodes.negation(root);
            }
        }
        nodes.0
    }
}

/// Builds the shared entries of a diagram from cubes.
struct DiagramBuilder<'a> {
    random: &'a mut Random,
    n: u32,
    negated: bool,
    entries: Vec<Triple>,
    places: BTreeMap<Triple, u16>,
    fuel: usize,
}

impl DiagramBuilder<'_> {
    /// Entries whose last one is the root; a few are named by nobody.
    fn build_whole(&mut self, cubes: &[Cube]) -> Option<Vec<Triple>> {
        for _ in 0..self.random.below(3) {
            let variable = self.random.below(self.n as usize) as u8;
            let ends = (self.random.below(2) as u16, self.random.below(2) as u16);
            self.entries.push((variable, ends.0, ends.1));
        }
        let root = self.build(cubes)?;
        let last = self.entries.len() as u16 + 1;
        if root < 2 {
            let variable = self.random.below(self.n as usize) as u8;
            self.entries.push((variable, root, root));
        } else if root != last {
            self.entries.push(self.entries[usize::from(root) - 2]);
        }
        Some(std::mem::take(&mut self.entries))
    }

    fn end(&self, inside: bool) -> u16 {
        u16::from(inside != self.negated)
    }

    fn build(&mut self, cubes: &[Cube]) -> Option<u16> {
        self.fuel = self.fuel.checked_sub(1)?;
        if cubes.is_empty() {
            return Some(self.end(false));
        }
        if cubes.iter().any(|cube| cube.known() == 0) {
            return Some(self.end(true));
        }
        let known = cubes.iter().fold(0, |bits, cube| bits | cube.known());
        let variable = known.trailing_zeros();
        let low = self.build(&branch(cubes, variable, false))?;
        let high = self.build(&branch(cubes, variable, true))?;
        if low == high && !self.random.one_in(10) {
            return Some(low);
        }
        let entry = (variable as u8, low, high);
        if let Some(&place) = self.places.get(&entry) {
            return Some(place);
        }
        self.entries.push(entry);
        let place = self.entries.len() as u16 + 1;
        self.places.insert(entry, place);
        Some(place)
    }
}

/// The cubes of one branch, without the variable it is split on.
fn branch(cubes: &[Cube], variable: u32, truth: bool) -> Vec<Cube> {
    let bit = 1 << variable;
    cubes
        .iter()
        .filter(|cube| cube.known() & bit == 0 || (cube.value() & bit != 0) == truth)
        .map(|cube| Cube::new(cube.width(), cube.known() & !bit, cube.value()))
        .collect()
}
