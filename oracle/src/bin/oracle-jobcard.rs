//! `oracle-jobcard [FILE]` works a script as the program `jobcard` does.

use std::fs::File;
use std::io::{self, BufRead, BufReader, Write};
use std::process::ExitCode;
use std::thread;

use oracle::script::{parse_line, Bench};

/// Layers may be nested as deep as a line is long.
const STACK_BYTES: usize = 1 << 28;

fn main() -> ExitCode {
    let worker = thread::Builder::new()
        .stack_size(STACK_BYTES)
        .spawn(work_script);
    let outcome = match worker {
        Ok(handle) => handle.join().unwrap_or_else(|_| Err("failed".to_string())),
        Err(error) => Err(format!("no memory: {error}")),
    };
    match outcome {
        Ok(()) => ExitCode::SUCCESS,
        Err(complaint) => {
            eprintln!("jobcard: {complaint}");
            ExitCode::FAILURE
        }
    }
}

fn work_script() -> Result<(), String> {
    let mut arguments = std::env::args_os().skip(1);
    let file = arguments.next();
    if arguments.next().is_some() {
        return Err("at most one argument is taken, the script".to_string());
    }
    match file {
        None => work_lines(io::stdin().lock()),
        Some(path) => {
            let file = File::open(path).map_err(unreadable)?;
            work_lines(BufReader::new(file))
        }
    }
}

fn work_lines(mut script: impl BufRead) -> Result<(), String> {
    let mut output = io::stdout().lock();
    let mut bench = Bench::default();
    let mut line = Vec::new();
    for number in 1.. {
        line.clear();
        if script.read_until(b'\n', &mut line).map_err(unreadable)? == 0 {
            break;
        }
        let text = line.strip_suffix(b"\n").unwrap_or(&line);
        let place = |complaint| format!("line {number}: {complaint}");
        if let Some(command) = parse_line(text).map_err(place)? {
            let answer = bench.work(&command).map_err(place)?;
            writeln!(output, "{answer}").map_err(|error| format!("output fails: {error}"))?;
        }
    }
    output
        .flush()
        .map_err(|error| format!("output fails: {error}"))
}

fn unreadable(error: io::Error) -> String {
    format!("the script cannot be read: {error}")
}
