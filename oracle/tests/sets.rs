mod common;

use common::*;
use oracle::logic::{Cube, Value};
use oracle::set::Set;

fn states_of(set: &Set, n: u32) -> Vec<u64> {
    let total = |&state: &u64| match set.ask(&Cube::of_state(n, state)) {
        Value::Open => panic!("a total cube is never open"),
        answer => answer == Value::True,
    };
    (0..1 << n).filter(total).collect()
}

fn cubes(n: u32) -> impl Iterator<Item = Cube> {
    (0..1u64 << n).flat_map(move |known| (0..1u64 << n).map(move |v| Cube::new(n, known, v)))
}

/// Inside and outside are answered only where they are right.
fn assert_sound(set: &Set, n: u32) {
    let states = states_of(set, n);
    for cube in cubes(n) {
        let held = (0..1 << n).filter(|&s| cube.holds(s));
        match set.ask(&cube) {
            Value::True => assert!(held.clone().all(|s| states.contains(&s))),
            Value::False => assert!(!held.clone().any(|s| states.contains(&s))),
            Value::Open => {}
        }
    }
}

#[test]
fn worked_bytes() {
    assert_eq!(
        list(&[0, 1]),
        hex("10 00 00 00 06 00 00 00 00 00 00 00 00 00 01 00 00 00 00 00 00 00")
    );
    assert_eq!(list(&[]), hex("00 00 00 00 06 00"));
    assert_eq!(
        diagram(DIAGRAM),
        hex("0A 00 00 00 07 00 02 01 00 00 00 01 02 00 00 00")
    );
    assert_eq!(
        formula(FORMULA),
        hex("19 00 00 00 08 00 02 01 00 00 00 03 00 00 00 00 02 02 00 00 00 03 02 00 00 00 04 01 00 03 00")
    );
}

#[test]
fn three_ways_to_write_one_set() {
    let sets = [
        list_set(&[0, 1], 3),
        Set::read_diagram(&diagram(DIAGRAM), 3).unwrap(),
        Set::read_formula(&formula(FORMULA), 3).unwrap(),
    ];
    for set in &sets {
        assert_eq!(states_of(set, 3), [0, 1]);
        assert_sound(set, 3);
        assert_eq!(set.ask(&Cube::whole(3)), Value::Open);
        assert_eq!(set.ask(&Cube::new(3, 0b110, 0)), Value::True);
        assert_eq!(set.ask(&Cube::new(3, 0b100, 0b100)), Value::False);
    }
}

#[test]
fn each_kind_has_its_own_open_answers() {
    let formula = Set::read_formula(&formula(&[(2, 0, 0), (2, 0, 0), (3, 1, 0), (5, 0, 2)]), 1);
    assert_eq!(formula.unwrap().ask(&Cube::whole(1)), Value::Open);
    assert_eq!(list_set(&[0, 1], 1).ask(&Cube::whole(1)), Value::True);
    let equal_children = Set::read_diagram(&diagram(&[(0, 1, 1)]), 1).unwrap();
    assert_eq!(equal_children.ask(&Cube::whole(1)), Value::True);
    let no_states = Set::read_diagram(&diagram(&[(0, 1, 0), (0, 0, 0)]), 1).unwrap();
    assert_eq!(no_states.ask(&Cube::whole(1)), Value::False);
}

#[test]
fn a_list_in_64_variables() {
    let set = list_set(&[0, u64::MAX], 64);
    assert_eq!(set.ask(&Cube::whole(64)), Value::Open);
    assert_eq!(set.ask(&Cube::of_state(64, u64::MAX)), Value::True);
    assert_eq!(set.ask(&Cube::new(64, 3, 1)), Value::False);
    assert_eq!(Set::empty(64).ask(&Cube::whole(64)), Value::False);
}

#[test]
fn other_widths_are_outside() {
    let narrow = list_set(&[0, 1], 1);
    let wide = list_set(&[0, 1], 3);
    let (zero1, zero3) = (Cube::of_state(1, 0), Cube::of_state(3, 0));
    assert_eq!(narrow.ask(&zero3), Value::False);
    assert_eq!(Set::complement(narrow.clone()).ask(&zero3), Value::False);
    let meeting = Set::meeting(wide.clone(), narrow.clone());
    assert_eq!((meeting.width(), meeting.ask(&zero3)), (3, Value::False));
    let joining = Set::joining(wide.clone(), narrow.clone());
    for cube in cubes(3) {
        assert_eq!(joining.ask(&cube), wide.ask(&cube));
    }
    assert_eq!(joining.ask(&zero1), Value::False);
    let minus = Set::meeting(wide, Set::complement(Set::empty(1)));
    assert_eq!(minus.ask(&zero3), Value::False);
}

#[test]
fn layers_answer_part_by_part() {
    let a = list_set(&[0, 1, 2, 3], 3);
    let b = list_set(&[2, 3, 6, 7], 3);
    let meeting = Set::meeting(a.clone(), b.clone());
    let joining = Set::joining(a.clone(), b.clone());
    let complement = Set::complement(a.clone());
    assert_eq!(states_of(&meeting, 3), [2, 3]);
    assert_eq!(states_of(&joining, 3), [0, 1, 2, 3, 6, 7]);
    assert_eq!(states_of(&complement, 3), [4, 5, 6, 7]);
    for set in [&meeting, &joining, &complement] {
        assert_sound(set, 3);
    }
    for cube in cubes(3) {
        let (x, y) = (a.ask(&cube), b.ask(&cube));
        assert_eq!(meeting.ask(&cube), x.and(y));
        assert_eq!(joining.ask(&cube), x.or(y));
        assert_eq!(complement.ask(&cube), !x);
    }
}

#[test]
fn refused_lists() {
    let refused = |states: &[u64]| refusal(Set::read_list(&list(states), 3));
    assert_eq!(refused(&[0; 1_025]), (14, 1_024));
    assert_eq!(refused(&[0, 0]), (15, 1));
    assert_eq!(refused(&[8]), (15, 0));
    let full: Vec<u64> = (0..1_024).collect();
    assert!(Set::read_list(&list(&full), 10).is_ok());
    assert_eq!(refusal(Set::read_list(&list(&full), 9)), (15, 512));
    assert!(Set::read_list(&list(&[0]), 0).is_ok());
    assert_eq!(refusal(Set::read_list(&list(&[1]), 0)), (15, 0));
}

#[test]
fn refused_diagrams_and_formulas() {
    let diagrams = |entries: &[(u8, u16, u16)]| refusal(Set::read_diagram(&diagram(entries), 3));
    assert_eq!(diagrams(&[]), (15, 0));
    assert_eq!(diagrams(&[(2, 1, 0), (1, 2, 3)]), (15, 1));
    assert_eq!(diagrams(&[(3, 1, 0)]), (15, 0));
    assert_eq!(diagrams(&[(1, 1, 0), (1, 2, 0)]), (15, 1));
    assert_eq!(diagrams(&[(9, 1, 0); 1_025]), (14, 1_024));
    let formulas = |nodes: &[(u8, u16, u16)]| refusal(Set::read_formula(&formula(nodes), 3));
    assert_eq!(formulas(&[]), (15, 0));
    assert_eq!(formulas(&[(2, 0, 0), (4, 0, 0)]), (15, 1));
    assert_eq!(formulas(&[(1, 0, 0), (6, 0, 0)]), (15, 1));
    assert_eq!(formulas(&[(9, 1, 0); 1_025]), (14, 1_024));
    assert_eq!(refusal(Set::read_list(&diagram(DIAGRAM), 3)), (3, 0));
    assert_eq!(refusal(Set::read_diagram(&diagram(DIAGRAM), 0)), (15, 0));
    assert!(Set::read_formula(&formula(&[(1, 0, 0)]), 0).is_ok());
}
