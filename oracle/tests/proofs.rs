mod common;

use common::*;
use oracle::card::{Card, Verdict};
use oracle::cost::Simple;
use oracle::logic::Cube;
use oracle::proof::{judge_proof, plain_body, plain_tree};
use oracle::set::Set;
use oracle::task::Task;

fn refused(states: &[u64], body: &[u8]) -> (u8, usize) {
    let task = read(&variant());
    refusal(judge_proof(&task, &list_set(states, 3), &proof(body)))
}

#[test]
fn the_variant_is_impossible() {
    let task = read(&variant());
    let sets = [
        list_set(&[0, 1], 3),
        Set::read_diagram(&diagram(DIAGRAM), 3).unwrap(),
        Set::read_formula(&formula(FORMULA), 3).unwrap(),
    ];
    for set in sets {
        assert_eq!(judge_proof(&task, &set, &proof(BODY)), Ok(()));
        let twice = Set::complement(Set::complement(set));
        assert_eq!(judge_proof(&task, &twice, &proof(BODY)), Ok(()));
    }
    assert_eq!(
        proof(BODY),
        hex("0C 00 00 00 09 00 02 FF FF 02 FF FF 02 FF FF 01 FF FF")
    );
}

#[test]
fn the_plain_proof() {
    let tree = hex("00 01 02 FF FF FF 01 02 FF FF FF");
    assert_eq!(plain_tree(3, &[0, 1]), tree);
    let task = read(&variant());
    let body = plain_body(&task, &[0, 1]);
    assert_eq!(body, tree.repeat(4));
    assert_eq!(proof(&body)[..6], hex("2C 00 00 00 09 00"));
    assert_eq!(
        judge_proof(&task, &list_set(&[0, 1], 3), &proof(&body)),
        Ok(())
    );
}

#[test]
fn refused_proofs() {
    assert_eq!(refused(&[0], BODY), (18, 4));
    assert_eq!(refused(&[1], BODY), (16, 0));
    assert_eq!(refused(&[], BODY), (16, 0));
    assert_eq!(refused(&[1], &[7]), (16, 0));
    assert_eq!(refused(&[], &[]), (16, 0));
    assert_eq!(refused(&[0, 1], &[]), (17, 0));
    assert_eq!(refused(&[0, 1], &[2, 255]), (17, 2));
    assert_eq!(refused(&[0, 1], &[255]), (18, 0));
    assert_eq!(refused(&[0, 1], &[255, 3]), (18, 0));
    assert_eq!(refused(&[0, 1], &[2, 2, 255]), (17, 1));
    assert_eq!(refused(&[0, 1], &[2, 255, 255, 3]), (17, 3));
    assert_eq!(refused(&[0, 1], &[BODY, &[0]].concat()), (19, 12));
}

#[test]
fn a_set_of_another_width_does_not_hold_the_start() {
    let task = read(&variant());
    let answer = judge_proof(&task, &list_set(&[0, 1], 4), &proof(BODY));
    assert_eq!(refusal(answer), (16, 0));
    let answer = judge_proof(&task, &Set::complement(Set::empty(2)), &proof(BODY));
    assert_eq!(refusal(answer), (16, 0));
}

#[test]
fn the_blank_task_is_impossible() {
    let mut card = Card::open(&Task::blank(), Simple::Steps);
    let set = list_set(&[0], 0);
    assert_eq!(card.lodge_proof(&set, &proof(&[255])), Ok(()));
    assert!(card.impossible());
    assert_eq!(card.latest(), Some(Verdict::Impossible));
    assert_eq!(refusal(card.lodge_proof(&set, &proof(&[0]))), (17, 0));
    assert!(card.impossible());
}

/// A task of one variable, one operator with this effect, and goal true.
fn one_effect(effect: &[(u8, u16, u16)]) -> Task {
    let mut list = effect.to_vec();
    let root = list.len() as u16 - 1;
    list.extend([(1, 0, 0), (1, 0, 0)]);
    let paper = [
        header(1, 0),
        nodes(&list),
        operator(root + 1, root),
        goal(root + 2),
    ];
    read(&paper.concat())
}

#[test]
fn successors_of_one_variable() {
    let toggle = one_effect(&[
        (2, 0, 0),
        (8, 0, 0),
        (10, 0, 1),
        (2, 0, 0),
        (3, 3, 0),
        (7, 0, 0),
        (10, 4, 5),
        (9, 2, 6),
    ]);
    let operator = &toggle.operators()[0];
    assert_eq!(toggle.result(operator, 1), 0);
    assert_eq!(toggle.result(operator, 0), 1);
    assert_eq!(toggle.successor(operator, &Cube::whole(1)), Cube::whole(1));
    assert_eq!(
        toggle.successor(operator, &Cube::of_state(1, 0)),
        Cube::of_state(1, 1)
    );

    let set_and_clear = one_effect(&[(7, 0, 0), (8, 0, 0), (9, 0, 1)]);
    let operator = &set_and_clear.operators()[0];
    assert_eq!(set_and_clear.result(operator, 0), 1);
    assert_eq!(set_and_clear.result(operator, 1), 1);
    assert_eq!(
        set_and_clear.successor(operator, &Cube::whole(1)),
        Cube::of_state(1, 1)
    );
}
