mod common;

use common::*;
use oracle::script::{parse_line, Bench};

/// The lines a script prints, refusal lines without their words, and the
/// number of the line that ended the run.
fn run(script: &str) -> (Vec<String>, Option<usize>) {
    let mut bench = Bench::default();
    let mut lines = Vec::new();
    for (number, line) in script.split('\n').enumerate() {
        let command = match parse_line(line.as_bytes()) {
            Ok(Some(command)) => command,
            Ok(None) => continue,
            Err(_) => return (lines, Some(number + 1)),
        };
        match bench.work(&command) {
            Ok(answer) => lines.push(answer.split(": ").next().unwrap().to_string()),
            Err(_) => return (lines, Some(number + 1)),
        }
    }
    (lines, None)
}

fn as_word(paper: &[u8]) -> String {
    let digits: String = paper.iter().map(|byte| format!("{byte:02x}")).collect();
    format!("hex:{digits}")
}

fn check(script: &str, expected: &str) {
    let script = script
        .replace("BLADE", &as_word(&blade()))
        .replace("VARIANT", &as_word(&variant()));
    let (lines, ended) = run(&script);
    let expected: Vec<&str> = expected.lines().map(str::trim).collect();
    assert_eq!(lines, expected);
    assert_eq!(ended, None);
}

#[test]
fn plans_of_the_blade_task() {
    check(
        "task BLADE
         open minutes,crew
         plan hex:060000000500000001000200
         plan hex:04000000050000000200
         plan hex:000000000500
         plan hex:04000000050000000100
         card",
        "task accepted variables=3 start=0 nodes=12 operators=3
         open minutes,crew
         plan accepted state=7 steps=3 cost=70,2
         plan refused number=11 layer=plan place=1
         plan refused number=13 layer=plan place=0
         plan refused number=13 layer=plan place=2
         card cost=70,2 impossible=no latest=refused number=13 layer=plan place=2",
    );
}

#[test]
fn a_walk_and_a_proof() {
    check(
        "task BLADE
         open minutes,crew
         plan hex:060000000500000001000200
         begin
         step 0
         step 2
         give-up
         card
         task VARIANT
         open steps
         proof list hex:10000000060000000000000000000100000000000000 hex:0c000000090002ffff02ffff02ffff01ffff
         card",
        "task accepted variables=3 start=0 nodes=12 operators=3
         open minutes,crew
         plan accepted state=7 steps=3 cost=70,2
         begin
         step accepted state=1 steps=1 cost=40,2
         step refused number=11 layer=plan place=1
         give-up
         card cost=70,2 impossible=no latest=accepted state=7 steps=3 cost=70,2
         task accepted variables=3 start=0 nodes=12 operators=3
         open steps
         proof accepted
         card cost=none impossible=yes latest=accepted",
    );
}

#[test]
fn a_card_keeps_its_own_task_and_refused_sets_leave_it_alone() {
    check(
        "open crew
         card
         task BLADE
         plan hex:000000000500
         open crew # the blade task
         plan hex:
         proof meeting list hex:0000000006 list hex: hex:
         card
         task hex:00",
        "open crew
         card cost=none impossible=no latest=none
         task accepted variables=3 start=0 nodes=12 operators=3
         plan refused number=13 layer=plan place=0
         open crew
         plan refused number=2 layer=record place=0
         set refused number=2 layer=record place=0
         card cost=none impossible=no latest=refused number=2 layer=record place=0
         task refused number=2 layer=record place=0",
    );
}

#[test]
fn blanks_and_comments() {
    let (lines, ended) =
        run("\r\n \t open\tsteps,steps \r\n#card\n\nbegin# now\nstep 00000000\ncard");
    assert_eq!(ended, None);
    assert_eq!(
        lines,
        [
            "open steps,steps",
            "begin",
            "step refused number=10 layer=plan place=0",
            "card cost=none impossible=no latest=none"
        ]
    );
}

#[test]
fn lines_that_end_the_run() {
    let bad = [
        "Card",
        "card card",
        "open",
        "open minutes,",
        "open minutes,crew,steps",
        "open minute",
        "plan",
        "plan hex:0",
        "plan hex:0g",
        "plan HEX:00",
        "plan /no/such/file",
        "plan hex: hex:",
        "proof list hex:",
        "proof complement hex: hex:",
        "proof meeting list hex: hex:",
        "step 0",
        "finish",
        "give-up",
        "begin\nbegin",
        "begin\nplan hex:",
        "begin\nopen crew",
        "begin\ntask hex:",
        "begin\nstep",
        "begin\nstep +1",
        "begin\nstep -1",
        "begin\nstep 65536",
        "begin\nstep 1 2",
        "begin\nstep 99999999999999999999999",
    ];
    for lines in bad {
        let script = format!("open steps\n\n{lines}\ncard");
        let (printed, ended) = run(&script);
        let before = lines.split('\n').count() - 1;
        assert_eq!(printed.len(), 1 + before, "{lines}");
        assert_eq!(ended, Some(3 + before), "{lines}");
    }
    for line in [
        "card",
        "plan hex:",
        "begin",
        "proof list hex: hex:",
        "finish",
    ] {
        assert_eq!(run(line), (vec![], Some(1)));
    }
}
