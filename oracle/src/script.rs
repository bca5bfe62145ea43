//! The script language: commands, and the bench that works them.

use std::ffi::OsStr;
use std::fmt;
use std::fs::File;
use std::io::Read;
use std::os::unix::ffi::OsStrExt;

use crate::card::{Card, Verdict, WalkingCard};
use crate::cost::{CostKind, Pair, Simple};
use crate::plan::Reached;
use crate::record::MOST_BYTES;
use crate::refusal::Refusal;
use crate::set::Set;
use crate::task::{Operator, Task};

/// What is wrong with a line that ends the run.
pub type Complaint = String;

/// The kinds a script can name.
#[derive(Clone, Copy, Debug, PartialEq, Eq)]
pub enum Kind {
    One(Simple),
    Two(Pair<Simple, Simple>),
}

#[derive(Clone, Copy, Debug, PartialEq, Eq, PartialOrd, Ord)]
pub enum Cost {
    One(u32),
    Two(u32, u32),
}

impl CostKind for Kind {
    type Cost = Cost;

    fn zero(&self) -> Cost {
        match self {
            Kind::One(kind) => Cost::One(kind.zero()),
            Kind::Two(pair) => two(pair.zero()),
        }
    }

    fn of(&self, operator: &Operator) -> Cost {
        match self {
            Kind::One(kind) => Cost::One(kind.of(operator)),
            Kind::Two(pair) => two(pair.of(operator)),
        }
    }

    fn join(&self, so_far: Cost, next: Cost) -> Option<Cost> {
        match (self, so_far, next) {
            (Kind::One(kind), Cost::One(x), Cost::One(y)) => kind.join(x, y).map(Cost::One),
            (Kind::Two(pair), Cost::Two(x, v), Cost::Two(y, w)) => {
                pair.join((x, v), (y, w)).map(two)
            }
            _ => None,
        }
    }
}

fn two((first, second): (u32, u32)) -> Cost {
    Cost::Two(first, second)
}

impl fmt::Display for Cost {
    fn fmt(&self, f: &mut fmt::Formatter) -> fmt::Result {
        match self {
            Cost::One(cost) => write!(f, "{cost}"),
            Cost::Two(first, second) => write!(f, "{first},{second}"),
        }
    }
}

/// A set as a script writes it: papers and layers.
#[derive(Clone, Debug, PartialEq, Eq)]
pub enum WrittenSet {
    List(Vec<u8>),
    Diagram(Vec<u8>),
    Formula(Vec<u8>),
    Complement(Box<WrittenSet>),
    Meeting(Box<WrittenSet>, Box<WrittenSet>),
    Joining(Box<WrittenSet>, Box<WrittenSet>),
}

impl WrittenSet {
    /// Reads the papers from left to right, at n variables.
    pub fn read(&self, n: u32) -> Result<Set, Refusal> {
        match self {
            WrittenSet::List(paper) => Set::read_list(paper, n),
            WrittenSet::Diagram(paper) => Set::read_diagram(paper, n),
            WrittenSet::Formula(paper) => Set::read_formula(paper, n),
            WrittenSet::Complement(a) => Ok(Set::complement(a.read(n)?)),
            WrittenSet::Meeting(a, b) => Ok(Set::meeting(a.read(n)?, b.read(n)?)),
            WrittenSet::Joining(a, b) => Ok(Set::joining(a.read(n)?, b.read(n)?)),
        }
    }
}

#[derive(Clone, Debug, PartialEq, Eq)]
pub enum Command {
    Task(Vec<u8>),
    Open(Kind, String),
    Plan(Vec<u8>),
    Proof(WrittenSet, Vec<u8>),
    Begin,
    Step(u16),
    Finish,
    GiveUp,
    Card,
}

/// The command on a line, if there is one; files it names are read.
pub fn parse_line(line: &[u8]) -> Result<Option<Command>, Complaint> {
    let comment = line.iter().position(|&byte| byte == b'#');
    let mut words = Words(&line[..comment.unwrap_or(line.len())]);
    let Some(first) = words.next() else {
        return Ok(None);
    };
    let command = match first {
        b"task" => Command::Task(parse_paper(&mut words)?),
        b"open" => parse_open(&mut words)?,
        b"plan" => Command::Plan(parse_paper(&mut words)?),
        b"proof" => Command::Proof(parse_set(&mut words)?, parse_paper(&mut words)?),
        b"begin" => Command::Begin,
        b"step" => Command::Step(parse_number(&mut words)?),
        b"finish" => Command::Finish,
        b"give-up" => Command::GiveUp,
        b"card" => Command::Card,
        _ => return Err(format!("no command is called '{}'", shown(first))),
    };
    match words.next() {
        Some(word) => Err(format!("'{}' is one word too many", shown(word))),
        None => Ok(Some(command)),
    }
}

/// The words of a line, parted by spaces, tabs and carriage returns.
struct Words<'a>(&'a [u8]);

impl<'a> Iterator for Words<'a> {
    type Item = &'a [u8];

    fn next(&mut self) -> Option<&'a [u8]> {
        let begin = self.0.iter().position(|&byte| !is_blank(byte))?;
        let rest = &self.0[begin..];
        let end = rest.iter().position(|&byte| is_blank(byte));
        let (word, after) = rest.split_at(end.unwrap_or(rest.len()));
        self.0 = after;
        Some(word)
    }
}

fn is_blank(byte: u8) -> bool {
    matches!(byte, b' ' | b'\t' | b'\r')
}

fn shown(word: &[u8]) -> String {
    let text: String = String::from_utf8_lossy(word).chars().take(40).collect();
    text.escape_debug().to_string()
}

fn wanted<'a>(words: &mut Words<'a>, what: &str) -> Result<&'a [u8], Complaint> {
    words.next().ok_or_else(|| format!("{what} is missing"))
}

fn parse_paper(words: &mut Words) -> Result<Vec<u8>, Complaint> {
    let word = wanted(words, "a paper (hex:.. or a path)")?;
    match word.strip_prefix(b"hex:") {
        Some(digits) => parse_hex(digits)
            .ok_or_else(|| "hex: wants an even number of hexadecimal digits".to_string()),
        None => read_file(word),
    }
}

fn parse_hex(digits: &[u8]) -> Option<Vec<u8>> {
    if !digits.len().is_multiple_of(2) {
        return None;
    }
    let digit = |byte: u8| char::from(byte).to_digit(16).map(|value| value as u8);
    digits
        .chunks_exact(2)
        .map(|pair| Some(digit(pair[0])? << 4 | digit(pair[1])?))
        .collect()
}

/// The bytes of a file; of a long one, one more than a paper may have.
fn read_file(path: &[u8]) -> Result<Vec<u8>, Complaint> {
    let complain = |error| format!("the file '{}' cannot be read: {error}", shown(path));
    let file = File::open(OsStr::from_bytes(path)).map_err(complain)?;
    let mut bytes = Vec::new();
    file.take(MOST_BYTES as u64 + 1)
        .read_to_end(&mut bytes)
        .map_err(complain)?;
    Ok(bytes)
}

fn parse_open(words: &mut Words) -> Result<Command, Complaint> {
    let word = wanted(words, "a cost kind")?;
    let kind = parse_kind(word).ok_or_else(|| {
        format!(
            "'{}' is no cost kind; minutes, crew, steps or two of them joined by a comma are",
            shown(word)
        )
    })?;
    Ok(Command::Open(
        kind,
        String::from_utf8_lossy(word).into_owned(),
    ))
}

fn parse_kind(word: &[u8]) -> Option<Kind> {
    match word.iter().position(|&byte| byte == b',') {
        None => parse_simple(word).map(Kind::One),
        Some(comma) => {
            let first = parse_simple(&word[..comma])?;
            let second = parse_simple(&word[comma + 1..])?;
            Some(Kind::Two(Pair(first, second)))
        }
    }
}

fn parse_simple(word: &[u8]) -> Option<Simple> {
    match word {
        b"minutes" => Some(Simple::Minutes),
        b"crew" => Some(Simple::Crew),
        b"steps" => Some(Simple::Steps),
        _ => None,
    }
}

fn parse_set(words: &mut Words) -> Result<WrittenSet, Complaint> {
    let word = wanted(words, "a set")?;
    let part = |words: &mut Words| parse_set(words).map(Box::new);
    Ok(match word {
        b"list" => WrittenSet::List(parse_paper(words)?),
        b"diagram" => WrittenSet::Diagram(parse_paper(words)?),
        b"formula" => WrittenSet::Formula(parse_paper(words)?),
        b"complement" => WrittenSet::Complement(part(words)?),
        b"meeting" => WrittenSet::Meeting(part(words)?, part(words)?),
        b"joining" => WrittenSet::Joining(part(words)?, part(words)?),
        _ => return Err(format!("'{}' begins no set", shown(word))),
    })
}

fn parse_number(words: &mut Words) -> Result<u16, Complaint> {
    let word = wanted(words, "an operator number")?;
    let value = word.iter().try_fold(0u16, |value, &byte| {
        let digit = char::from(byte).to_digit(10)? as u16;
        value.checked_mul(10)?.checked_add(digit)
    });
    value.ok_or_else(|| format!("'{}' is no number from 0 to 65535", shown(word)))
}

/// The card of a script, if there is one.
enum Desk {
    Bare,
    Card(Card<Kind>),
    Walk(WalkingCard<Kind>),
}

/// The task place and the card of a script.
pub struct Bench {
    place: Task,
    desk: Desk,
}

impl Default for Bench {
    fn default() -> Bench {
        Bench {
            place: Task::blank(),
            desk: Desk::Bare,
        }
    }
}

impl Bench {
    /// Works a command and tells the line to print; a command that is not
    /// allowed now changes nothing.
    pub fn work(&mut self, command: &Command) -> Result<String, Complaint> {
        match command {
            Command::Task(paper) => self.task(paper),
            Command::Open(kind, name) => self.open(*kind, name),
            Command::Plan(paper) => self.plan(paper),
            Command::Proof(set, paper) => self.proof(set, paper),
            Command::Begin => self.begin(),
            Command::Step(number) => self.step(*number),
            Command::Finish => self.finish(),
            Command::GiveUp => self.give_up(),
            Command::Card => self.show(),
        }
    }

    fn task(&mut self, paper: &[u8]) -> Result<String, Complaint> {
        self.not_walking()?;
        let answer = Task::read(paper);
        let line = match &answer {
            Ok(task) => format!(
                "task accepted variables={} start={} nodes={} operators={}",
                task.n(),
                task.start(),
                task.nodes().len(),
                task.operators().len()
            ),
            Err(refusal) => refused("task", *refusal),
        };
        self.place = answer.unwrap_or_default();
        Ok(line)
    }

    fn open(&mut self, kind: Kind, name: &str) -> Result<String, Complaint> {
        self.not_walking()?;
        self.desk = Desk::Card(Card::open(&self.place, kind));
        Ok(format!("open {name}"))
    }

    fn plan(&mut self, paper: &[u8]) -> Result<String, Complaint> {
        let answer = self.card()?.lodge_plan(paper);
        Ok(answer_line("plan", answer))
    }

    fn proof(&mut self, set: &WrittenSet, paper: &[u8]) -> Result<String, Complaint> {
        let card = self.card()?;
        Ok(match set.read(card.task().n()) {
            Err(refusal) => refused("set", refusal),
            Ok(set) => match card.lodge_proof(&set, paper) {
                Err(refusal) => refused("proof", refusal),
                Ok(()) => "proof accepted".to_string(),
            },
        })
    }

    fn begin(&mut self) -> Result<String, Complaint> {
        self.card()?;
        if let Desk::Card(card) = std::mem::replace(&mut self.desk, Desk::Bare) {
            self.desk = Desk::Walk(card.begin());
        }
        Ok("begin".to_string())
    }

    fn step(&mut self, number: u16) -> Result<String, Complaint> {
        match &mut self.desk {
            Desk::Walk(walk) => Ok(answer_line("step", walk.step(number))),
            _ => Err(no_walk()),
        }
    }

    fn finish(&mut self) -> Result<String, Complaint> {
        let (card, answer) = self.take_walk()?.finish();
        self.desk = Desk::Card(card);
        Ok(answer_line("finish", answer))
    }

    fn give_up(&mut self) -> Result<String, Complaint> {
        self.desk = Desk::Card(self.take_walk()?.give_up());
        Ok("give-up".to_string())
    }

    fn show(&mut self) -> Result<String, Complaint> {
        let card = match &self.desk {
            Desk::Bare => return Err(no_card()),
            Desk::Card(card) => card,
            Desk::Walk(walk) => walk.card(),
        };
        let cost = card.cost().map_or("none".to_string(), |c| c.to_string());
        let impossible = if card.impossible() { "yes" } else { "no" };
        let latest = match card.latest() {
            None => "none".to_string(),
            Some(Verdict::Reached(reached)) => format!("accepted {reached}"),
            Some(Verdict::Impossible) => "accepted".to_string(),
            Some(Verdict::Refused(refusal)) => refusal.to_string(),
        };
        Ok(format!(
            "card cost={cost} impossible={impossible} latest={latest}"
        ))
    }

    fn not_walking(&self) -> Result<(), Complaint> {
        match self.desk {
            Desk::Walk(_) => Err(mid_walk()),
            _ => Ok(()),
        }
    }

    fn card(&mut self) -> Result<&mut Card<Kind>, Complaint> {
        match &mut self.desk {
            Desk::Bare => Err(no_card()),
            Desk::Card(card) => Ok(card),
            Desk::Walk(_) => Err(mid_walk()),
        }
    }

    fn take_walk(&mut self) -> Result<WalkingCard<Kind>, Complaint> {
        match std::mem::replace(&mut self.desk, Desk::Bare) {
            Desk::Walk(walk) => Ok(walk),
            other => {
                self.desk = other;
                Err(no_walk())
            }
        }
    }
}

impl fmt::Display for Reached<Cost> {
    fn fmt(&self, f: &mut fmt::Formatter) -> fmt::Result {
        let Reached { state, steps, cost } = self;
        write!(f, "state={state} steps={steps} cost={cost}")
    }
}

fn answer_line(what: &str, answer: Result<Reached<Cost>, Refusal>) -> String {
    match answer {
        Ok(reached) => format!("{what} accepted {reached}"),
        Err(refusal) => refused(what, refusal),
    }
}

fn refused(what: &str, refusal: Refusal) -> String {
    format!("{what} {refusal}: {}", refusal.fault.words())
}

fn no_card() -> Complaint {
    "no card is open; open one first".to_string()
}

fn no_walk() -> Complaint {
    "no walk is under way; begin one first".to_string()
}

fn mid_walk() -> Complaint {
    "a walk is under way; only step, finish, give-up and card are taken".to_string()
}
