//! What happens in a script: tasks, cards, plans, proofs and walks.

use std::rc::Rc;

use oracle::plan::MOST_STEPS;
use oracle::proof::plain_body;
use oracle::record::FORMULA;
use oracle::script::{parse_line, Command};
use oracle::set::Set;
use oracle::task::Task;

use crate::papers::{as_word, damage, list, oversize, plan, proof, triples};
use crate::proofs::LONGEST_BODY;
use crate::proofs::{break_body, grow, prune, prune_above_fault, random_body, random_order};
use crate::random::Random;
use crate::search::{applicable_numbers, search, wander};
use crate::sets::{SetWriter, Target};
use crate::tasks::{break_contents, invent};
use crate::world::World;
use crate::writer::{Stage, Writer};

const SIMPLE_KINDS: [&str; 3] = ["minutes", "crew", "steps"];
/// Ordinary proof bodies are not grown beyond these lengths.
const SHORT_BODY: usize = 1_500;
const LONG_BODY: usize = 12_000;
/// Walks are planned anew only over so many states.
const MOST_REPLANNED: usize = 300;

/// A script of about so many commands.
pub fn write_script(random: &mut Random, count: usize) -> Writer {
    let mut writer = Writer::new();
    let long_walk = count >= 200 && random.one_in(20);
    if random.one_in(6) {
        blank_scene(random, &mut writer);
    }
    while writer.commands < count {
        scene(random, &mut writer, count);
    }
    if long_walk {
        long_walk_scene(random, &mut writer);
    }
    if writer.stage == Stage::Card && random.one_in(5) {
        begin(random, &mut writer);
        for _ in 0..random.below(4) {
            let number = writer.card.any_number(random);
            step(random, &mut writer, number);
        }
    }
    writer
}

/// A card opened before any task was read.
fn blank_scene(random: &mut Random, writer: &mut Writer) {
    open(random, writer);
    for _ in 0..random.between(1, 6) {
        action(random, writer);
    }
}

fn scene(random: &mut Random, writer: &mut Writer, count: usize) {
    while random.percent(45) {
        spoilt_task(random, writer);
    }
    if random.percent(90) {
        lawful_task(random, writer);
    }
    open(random, writer);
    let last = (writer.commands + random.between(8, 60)).min(count.max(1));
    while writer.commands < last {
        action(random, writer);
    }
}

fn action(random: &mut Random, writer: &mut Writer) {
    let (plans, proofs) = if writer.card.unsolvable() {
        (15, 60)
    } else {
        (45, 30)
    };
    let choice = random.below(110);
    match choice {
        _ if choice < plans => lodge_plan(random, writer),
        _ if choice < plans + proofs => lodge_proof(random, writer),
        75..=98 => walk(random, writer),
        99..=101 => spoilt_task(random, writer),
        102..=103 => lawful_task(random, writer),
        104..=106 => open(random, writer),
        _ => {
            writer.command(random, "card");
        }
    }
}

fn show(random: &mut Random, writer: &mut Writer) {
    if random.percent(75) {
        writer.command(random, "card");
    }
}

fn open(random: &mut Random, writer: &mut Writer) {
    let first = random.pick(&SIMPLE_KINDS);
    let kind = if random.percent(45) {
        first.to_string()
    } else {
        format!("{first},{}", random.pick(&SIMPLE_KINDS))
    };
    open_for(random, writer, &kind);
}

fn open_for(random: &mut Random, writer: &mut Writer, kind: &str) {
    writer.command(random, &format!("open {kind}"));
    writer.stage = Stage::Card;
    writer.card = Rc::clone(&writer.place);
    show(random, writer);
}

fn lawful_task(random: &mut Random, writer: &mut Writer) {
    let draft = invent(random);
    read_task(random, writer, &draft.bytes(), draft.active);
}

fn spoilt_task(random: &mut Random, writer: &mut Writer) {
    let mut draft = invent(random);
    let contents = random.percent(55);
    if contents {
        break_contents(random, &mut draft);
    }
    let mut paper = draft.bytes();
    if !contents || random.one_in(8) {
        damage(random, &mut paper);
    }
    if random.one_in(150) {
        oversize(random, &mut paper);
    }
    read_task(random, writer, &paper, draft.active);
    if writer.stage != Stage::NoCard {
        show(random, writer);
    }
}

fn read_task(random: &mut Random, writer: &mut Writer, paper: &[u8], active: Vec<u32>) {
    let word = as_word(random, paper);
    writer.command(random, &format!("task {word}"));
    writer.place = Rc::new(match Task::read(paper) {
        Ok(task) => {
            let active = active.into_iter().filter(|&v| v < task.n()).collect();
            World::new(task, active)
        }
        Err(_) => World::new(Task::blank(), Vec::new()),
    });
}

fn lodge_plan(random: &mut Random, writer: &mut Writer) {
    let world = Rc::clone(&writer.card);
    let steps = if random.one_in(50) {
        long_plan(random, &world)
    } else {
        world.plan(random)
    };
    let mut paper = plan(&steps);
    if random.percent(12) {
        damage(random, &mut paper);
    }
    let word = as_word(random, &paper);
    writer.command(random, &format!("plan {word}"));
    show(random, writer);
}

/// A plan of about as many steps as there may be.
fn long_plan(random: &mut Random, world: &World) -> Vec<u16> {
    let most = MOST_STEPS;
    let count = random.pick(&[most - 1, most, most, most, most + 1, most + 1, most + 900]);
    let mut steps = world.long_way(random, count);
    if steps.len() < count && random.coin() {
        let number = world.any_number(random);
        steps.resize(count, number);
    }
    steps
}

fn lodge_proof(random: &mut Random, writer: &mut Writer) {
    let world = Rc::clone(&writer.card);
    let (set, body) = match random.below(100) {
        0 if world.unsolvable() => longest_proof(random, &world),
        1..=15 if world.unsolvable() => plain_proof(random, &world),
        _ => grown_proof(random, &world),
    };
    let mut body = body;
    match random.below(100) {
        0..=13 => break_body(random, world.n(), &mut body),
        14..=27 => {
            for _ in 0..random.between(1, 3) {
                prune(random, &mut body);
            }
        }
        _ => {}
    }
    let mut paper = proof(&body);
    if random.percent(6) {
        damage(random, &mut paper);
    }
    let word = as_word(random, &paper);
    writer.command(random, &format!("proof {set} {word}"));
    show(random, writer);
}

/// The list of all reachable states with its plain proof.
fn plain_proof(random: &mut Random, world: &World) -> (String, Vec<u8>) {
    let Some(states) = world.reachable() else {
        return grown_proof(random, world);
    };
    let body = plain_body(&world.task, &states);
    if body.len() > LONG_BODY && !random.one_in(10) {
        return grown_proof(random, world);
    }
    let set = format!("list {}", as_word(random, &list(&states)));
    (set, body)
}

fn grown_proof(random: &mut Random, world: &World) -> (String, Vec<u8>) {
    let longest = if random.one_in(12) {
        LONG_BODY
    } else {
        SHORT_BODY
    };
    let flawed = random.percent(15);
    let mut best = None;
    for _ in 0..4 {
        let depth = random.pick(&[0, 0, 1, 2, 3]);
        let written = if random.one_in(8) {
            SetWriter { random, flawed }.random_set(world.n(), &world.active, depth)
        } else {
            let target = world.target(random);
            SetWriter { random, flawed }.write(&target, depth)
        };
        let Some(set) = read_set(&written, world.n()) else {
            return (written, random_body(random, &world.task));
        };
        if random.one_in(12) {
            return (written, random_body(random, &world.task));
        }
        let order = random_order(random, world.n(), &world.active);
        let more = if random.coin() { 0 } else { random.below(6) };
        let mut grown = grow(random, &world.task, &set, &order, longest, more);
        if !grown.settled && random.coin() {
            prune_above_fault(random, &world.task, &set, &mut grown.body);
        }
        best = Some((written, grown.body));
        if grown.settled || !world.unsolvable() || random.one_in(5) {
            break;
        }
    }
    best.unwrap_or_default()
}

/// A proof paper of the greatest length, or of two bytes more.
fn longest_proof(random: &mut Random, world: &World) -> (String, Vec<u8>) {
    let target = match world.reachable() {
        Some(states) => Target::of_states(world.n(), &states),
        None => world.target(random),
    };
    let written = SetWriter {
        random,
        flawed: false,
    }
    .write(&target, 1);
    let Some(set) = read_set(&written, world.n()) else {
        return (written, Vec::new());
    };
    let mut order = random_order(random, world.n(), &world.active);
    order.any = false;
    let plain = grow(random, &world.task, &set, &order, LONG_BODY, 0);
    let room = LONGEST_BODY.saturating_sub(plain.body.len()) / 2;
    let more = room + random.pick(&[0, 0, 1]);
    let grown = grow(random, &world.task, &set, &order, LONGEST_BODY + 2, more);
    (written, grown.body)
}

/// The set that a script writes so, unless a paper of it is refused.
fn read_set(written: &str, n: u32) -> Option<Set> {
    let line = format!("proof {written} hex:");
    match parse_line(line.as_bytes()) {
        Ok(Some(Command::Proof(set, _))) => set.read(n).ok(),
        _ => None,
    }
}

fn begin(random: &mut Random, writer: &mut Writer) {
    writer.command(random, "begin");
    writer.stage = Stage::Walk;
}

/// Writes a step and tells whether it is accepted.
fn step(random: &mut Random, writer: &mut Writer, number: u16) -> bool {
    let digits = match random.below(40) {
        0 => format!("{number:05}"),
        1 => format!("{number:030}"),
        _ => number.to_string(),
    };
    let answer = writer.command(random, &format!("step {digits}"));
    answer.starts_with("step accepted")
}

fn walk(random: &mut Random, writer: &mut Writer) {
    let world = Rc::clone(&writer.card);
    begin(random, writer);
    let mut way = world.way_to_goal(random);
    way.truncate(80);
    way.reverse();
    let mut state = world.task.start();
    for _ in 0..way.len() + random.below(6) {
        let planned = if random.percent(80) {
            way.last().copied()
        } else {
            None
        };
        let number = planned.unwrap_or_else(|| stray_number(random, &world, state));
        if step(random, writer, number) {
            state = world
                .task
                .result(&world.task.operators()[usize::from(number)], state);
            if planned.is_some() {
                way.pop();
            } else {
                way = new_way(&world, state);
            }
        }
        if random.one_in(12) {
            writer.command(random, "card");
        }
    }
    end_walk(random, writer);
}

fn stray_number(random: &mut Random, world: &World, state: u64) -> u16 {
    let numbers = applicable_numbers(&world.task, state);
    if numbers.is_empty() || random.coin() {
        world.any_number(random)
    } else {
        random.pick(&numbers)
    }
}

/// The way to a goal state from here, last step first.
fn new_way(world: &World, state: u64) -> Vec<u16> {
    if world.reach.states.len() > MOST_REPLANNED {
        return Vec::new();
    }
    let reach = search(&world.task, state);
    let goal = reach.goals(&world.task).first().copied();
    let mut way = goal.map_or(Vec::new(), |place| reach.way_to(place));
    way.reverse();
    way
}

fn end_walk(random: &mut Random, writer: &mut Writer) {
    let end = if random.percent(70) {
        "finish"
    } else {
        "give-up"
    };
    writer.command(random, end);
    writer.stage = Stage::Card;
    show(random, writer);
}

/// A walk of as many steps as there may be, and more.
fn long_walk_scene(random: &mut Random, writer: &mut Writer) {
    for _ in 0..20 {
        lawful_task(random, writer);
        let world = Rc::clone(&writer.place);
        let count = MOST_STEPS + random.between(1, 4);
        let (way, _) = wander(random, &world.task, world.task.start(), count);
        if way.len() < count {
            continue;
        }
        let kind = random.pick(&["steps", "crew", "steps,crew", "crew,steps", "steps,steps"]);
        open_for(random, writer, kind);
        begin(random, writer);
        for number in way {
            step(random, writer, number);
        }
        let number = world.any_number(random);
        step(random, writer, number);
        end_walk(random, writer);
        return;
    }
}

/// The last line of a script that is to end its run.
pub fn bad_line(random: &mut Random, stage: Stage) -> String {
    let all = triples(FORMULA, &[(1, 0, 0)]);
    let set = format!("formula {}", as_word(random, &all));
    let not_now: &[&str] = match stage {
        Stage::NoCard => &[
            "card",
            "begin",
            "plan hex:",
            "proof list hex: hex:",
            "step 0",
            "finish",
        ],
        Stage::Card => &["step 0", "finish", "give-up", " step 00 # early"],
        Stage::Walk => &[
            "begin",
            "open steps",
            "task hex:",
            "plan hex:000000000500",
            "proof complement list hex:000000000600 hex:00000000090000",
        ],
    };
    if random.percent(40) {
        return random.pick(not_now).to_string();
    }
    let never = [
        "frobnicate",
        "Card",
        "CARD",
        "card card",
        "card\u{a0}",
        "\u{b}card",
        "\u{feff}card",
        "card,",
        "cards",
        "task",
        "task hex:0",
        "task hex:0g",
        "task hex:00 hex:00",
        "task hex: 00",
        "task hex:+1",
        "task HEX:00",
        "task no/such/file",
        "task hex",
        "open",
        "open minute",
        "open Minutes",
        "open minutes,",
        "open ,crew",
        "open ,",
        "open minutes, crew",
        "open minutes crew",
        "open minutes,crew,steps",
        "open minutes;crew",
        "open # steps",
        "plan",
        "plan hex:000000000500 hex:",
        "plan hex:0000000005 00",
        "plan /",
        "proof",
        "proof list",
        "proof list hex:",
        "proof list hex: hex: hex:",
        "proof hex:",
        "proof hex: hex:",
        "proof complement hex: hex:",
        "proof complement list hex:",
        "proof meeting list hex: hex:",
        "proof meeting list hex: list hex:",
        "proof joining complement list hex: hex:",
        "proof set hex: hex:",
        "proof list hex:0 hex:",
        "proof list hex: hex:0",
        "proof list no/such/file hex:",
        "proof list hex: no/such/file",
        "begin now",
        "step",
        "step -1",
        "step +1",
        "step 65536",
        "step 100000",
        "step 18446744073709551616",
        "step 4294967296",
        "step 0x1",
        "step 1.0",
        "step 1 2",
        "step 1_0",
        "step \u{661}",
        "finish 1",
        "finish now",
        "give-up now",
        "giveup",
        "give up",
        "-",
        "task: hex:",
    ];
    match random.below(12) {
        0 => format!("proof meeting {set} {set}"),
        1 => format!("proof {set}"),
        2 => format!("proof {set} {set}"),
        3 => format!("proof Complement {set} hex:0100000009 00ff"),
        _ => random.pick(&never).to_string(),
    }
}
