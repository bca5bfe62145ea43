//! The script under construction. Every line is worked on a bench as soon
//! as it is written, so that no line can end the run.

use std::rc::Rc;

use oracle::script::{parse_line, Bench};
use oracle::task::Task;

use crate::random::Random;
use crate::world::World;

#[derive(Clone, Copy, PartialEq, Eq)]
pub enum Stage {
    NoCard,
    Card,
    Walk,
}

pub struct Writer {
    pub text: String,
    pub commands: usize,
    pub stage: Stage,
    /// What is known of the task in the place, and of the card's task.
    pub place: Rc<World>,
    pub card: Rc<World>,
    bench: Bench,
}

impl Writer {
    pub fn new() -> Writer {
        let blank = Rc::new(World::new(Task::blank(), Vec::new()));
        Writer {
            text: String::new(),
            commands: 0,
            stage: Stage::NoCard,
            place: Rc::clone(&blank),
            card: blank,
            bench: Bench::default(),
        }
    }

    /// Writes a command and tells what a run prints for it.
    pub fn command(&mut self, random: &mut Random, command: &str) -> String {
        self.text.push_str(preface(random));
        let line = dressed(random, command);
        self.text.push_str(&line);
        self.text.push('\n');
        self.commands += 1;
        let answer = parse_line(line.as_bytes())
            .and_then(|parsed| parsed.ok_or("no command".to_string()))
            .and_then(|parsed| self.bench.work(&parsed));
        match answer {
            Ok(answer) => answer,
            Err(complaint) => panic!("the line '{line:.80}' ends the run: {complaint}"),
        }
    }

    /// Takes the last line feed away, so that the script ends in a line.
    pub fn cut_last_line_feed(&mut self) {
        if self.text.ends_with('\n') {
            self.text.pop();
        }
    }
}

/// What may stand before a command without doing anything.
fn preface(random: &mut Random) -> &'static str {
    if random.one_in(40) {
        random.pick(&[
            "\n",
            "# between\n",
            " \t \r\n",
            "   # größer ✓ hex:0\n",
            "#\n",
        ])
    } else {
        ""
    }
}

/// A line for a command, now and then with blanks and a comment about it.
fn dressed(random: &mut Random, command: &str) -> String {
    let mut line = String::new();
    if random.one_in(30) {
        line.push_str(random.pick(&[" ", "\t", "  \t "]));
    }
    if random.one_in(20) {
        let blank = random.pick(&["  ", "\t", " \t ", "\r"]);
        line.push_str(&command.replace(' ', blank));
    } else {
        line.push_str(command);
    }
    if random.one_in(30) {
        line.push_str(random.pick(&[" ", "\r", " # so", "#so # on", "\t\r"]));
    }
    line
}
