//! `generate SEED COUNT [--errors]` writes a script of about COUNT commands
//! to standard output. The same seed and count give the same script. With
//! `--errors` its last line is one that ends the run.

mod papers;
mod proofs;
mod random;
mod scenes;
mod search;
mod sets;
mod tasks;
mod world;
mod writer;

use std::io::{self, Write};
use std::process::ExitCode;

use random::Random;
use scenes::{bad_line, write_script};

/// Scrambles seeds, so that scripts of neighbouring seeds differ.
const SCRAMBLE: u64 = 0xA076_1D64_78BD_642F;

struct Arguments {
    seed: u64,
    count: usize,
    errors: bool,
}

fn read_arguments() -> Option<Arguments> {
    let (flags, numbers): (Vec<String>, Vec<String>) = std::env::args()
        .skip(1)
        .partition(|word| word.starts_with("--"));
    let [seed, count] = numbers.as_slice() else {
        return None;
    };
    let errors = match flags.as_slice() {
        [] => false,
        [flag] if flag == "--errors" => true,
        _ => return None,
    };
    Some(Arguments {
        seed: seed.parse().ok()?,
        count: count.parse().ok()?,
        errors,
    })
}

fn script(arguments: &Arguments) -> String {
    let mut random = Random::new(arguments.seed.wrapping_mul(SCRAMBLE));
    let mut writer = write_script(&mut random, arguments.count);
    if arguments.errors {
        let line = bad_line(&mut random, writer.stage);
        writer.text.push_str(&line);
        writer.text.push('\n');
    }
    if random.one_in(4) {
        writer.cut_last_line_feed();
    }
    writer.text
}

fn main() -> ExitCode {
    let Some(arguments) = read_arguments() else {
        eprintln!("usage: generate SEED COUNT [--errors]");
        return ExitCode::from(2);
    };
    match io::stdout().write_all(script(&arguments).as_bytes()) {
        Ok(()) => ExitCode::SUCCESS,
        Err(error) => {
            eprintln!("generate: {error}");
            ExitCode::FAILURE
        }
    }
}
