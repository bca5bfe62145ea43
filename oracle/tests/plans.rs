mod common;

use common::*;
use oracle::card::{Card, Verdict};
use oracle::cost::{CostKind, Pair, Simple};
use oracle::plan::{judge_plan, Reached};
use oracle::task::Task;

const MINUTES_AND_CREW: Pair<Simple, Simple> = Pair(Simple::Minutes, Simple::Crew);

fn refused(steps: &[u16]) -> (u8, usize) {
    refusal(judge_plan(&read(&blade()), &MINUTES_AND_CREW, &plan(steps)))
}

#[test]
fn plans_of_the_blade_task() {
    let reached = Reached {
        state: 7,
        steps: 3,
        cost: (70, 2),
    };
    let paper = hex("06 00 00 00 05 00 00 00 01 00 02 00");
    assert_eq!(paper, plan(&[0, 1, 2]));
    assert_eq!(
        judge_plan(&read(&blade()), &MINUTES_AND_CREW, &paper),
        Ok(reached)
    );
    assert_eq!(refused(&[0, 2]), (11, 1));
    assert_eq!(refused(&[]), (13, 0));
    assert_eq!(refused(&[0, 1]), (13, 2));
    assert_eq!(refused(&[0, 2, 7]), (11, 1));
    assert_eq!(refused(&[9; 4_097]), (9, 4_096));
    assert_eq!(refused(&[9; 4_096]), (10, 0));
}

#[test]
fn records_of_plans() {
    let task = read(&blade());
    let refused = |paper: &[u8]| refusal(judge_plan(&task, &Simple::Steps, paper));
    assert_eq!(refused(&[record(6, &[]), vec![0]].concat()), (3, 0));
    assert_eq!(refused(&record(5, &[0; 9_001])), (4, 0));
    assert_eq!(refused(&[plan(&[0]), vec![0]].concat()), (2, 8));
    assert_eq!(refused(&[plan(&[0]), plan(&[0])].concat()), (3, 8));
}

/// Operator 0 takes all minutes there are, operator 1 one more.
fn costly(second_precondition: u8) -> Task {
    let paper = [
        header(1, 0),
        nodes(&[
            (1, 0, 0),
            (6, 0, 0),
            (second_precondition, 0, 0),
            (6, 0, 0),
            (1, 0, 0),
        ]),
        priced(0, 1, u32::MAX, 3),
        priced(2, 3, 1, 2),
        goal(4),
    ];
    read(&paper.concat())
}

#[test]
fn costs_that_cannot_be_joined() {
    let task = costly(1);
    let accepted = judge_plan(&task, &Simple::Minutes, &plan(&[0])).unwrap();
    assert_eq!(accepted.cost, u32::MAX);
    let both = plan(&[0, 1]);
    assert_eq!(refusal(judge_plan(&task, &Simple::Minutes, &both)), (12, 1));
    assert_eq!(judge_plan(&task, &Simple::Crew, &both).unwrap().cost, 3);
    assert_eq!(judge_plan(&task, &Simple::Steps, &both).unwrap().cost, 2);
    let pair = Pair(Simple::Crew, Simple::Minutes);
    assert_eq!(refusal(judge_plan(&task, &pair, &both)), (12, 1));
    let never_applicable = costly(0);
    assert_eq!(
        refusal(judge_plan(&never_applicable, &Simple::Minutes, &both)),
        (11, 1)
    );
}

#[test]
fn pairs_of_pairs() {
    let kind = Pair(MINUTES_AND_CREW, Pair(Simple::Steps, Simple::Steps));
    assert_eq!(kind.zero(), ((0, 0), (0, 0)));
    let reached = judge_plan(&read(&blade()), &kind, &plan(&[0, 1, 2])).unwrap();
    assert_eq!(reached.cost, ((70, 2), (3, 3)));
    assert!(((70, 2), (3, 3)) < ((70, 3), (0, 0)));
}

#[test]
fn a_card_keeps_the_least_cost() {
    let mut card = Card::open(&costly(1), Simple::Minutes);
    assert_eq!(
        (card.cost(), card.impossible(), card.latest()),
        (None, false, None)
    );
    assert!(card.lodge_plan(&plan(&[0])).is_ok());
    assert!(card.lodge_plan(&plan(&[1, 1])).is_ok());
    assert!(card.lodge_plan(&plan(&[1, 1, 1])).is_ok());
    assert_eq!(card.cost(), Some(2));
    assert_eq!(refusal(card.lodge_plan(&plan(&[2]))), (10, 0));
    assert!(matches!(card.latest(), Some(Verdict::Refused(_))));
    assert_eq!(card.cost(), Some(2));
}

#[test]
fn a_walk_changes_its_card_at_the_finish() {
    let mut walk = Card::open(&read(&blade()), MINUTES_AND_CREW).begin();
    assert_eq!(walk.step(0).unwrap().state, 1);
    assert_eq!(refusal(walk.step(2)), (11, 1));
    assert_eq!(refusal(walk.step(3)), (10, 1));
    assert_eq!(walk.card().latest(), None);
    let (card, answer) = walk.finish();
    assert_eq!(refusal(answer), (13, 1));

    let mut walk = card.begin();
    for number in [0, 1, 2] {
        assert!(walk.step(number).is_ok());
    }
    assert_eq!(walk.card().cost(), None);
    let (card, answer) = walk.finish();
    assert_eq!(answer.unwrap().cost, (70, 2));
    let latest = card.latest();
    let mut walk = card.begin();
    assert!(walk.step(0).is_ok());
    let card = walk.give_up();
    assert_eq!((card.cost(), card.latest()), (Some((70, 2)), latest));
}

#[test]
fn a_walk_takes_4096_steps() {
    let mut walk = Card::open(&costly(1), Simple::Steps).begin();
    for _ in 0..4_096 {
        assert!(walk.step(1).is_ok());
    }
    assert_eq!(refusal(walk.step(9)), (9, 4_096));
    let (card, answer) = walk.finish();
    assert_eq!(answer.unwrap().steps, 4_096);
    assert_eq!(card.cost(), Some(4_096));
    assert_eq!(
        judge_plan(card.task(), &Simple::Steps, &plan(&[1; 4_096])),
        answer
    );
}

#[test]
fn the_blank_task_has_a_false_goal() {
    let mut card = Card::open(&Task::blank(), Simple::Crew);
    assert_eq!(refusal(card.lodge_plan(&plan(&[]))), (13, 0));
    assert_eq!(refusal(card.lodge_plan(&plan(&[0]))), (10, 0));
}
