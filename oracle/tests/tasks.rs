mod common;

use common::*;
use oracle::refusal::Layer;
use oracle::task::Task;

fn refused(paper: &[u8]) -> (u8, usize) {
    refusal(Task::read(paper))
}

fn joined(parts: &[Vec<u8>]) -> Vec<u8> {
    parts.concat()
}

fn hd() -> Vec<u8> {
    blade()[..15].to_vec()
}

#[test]
fn blade_is_read() {
    assert_eq!(blade().len(), 209);
    let task = read(&blade());
    assert_eq!((task.n(), task.start()), (3, 0));
    assert_eq!((task.nodes().len(), task.operators().len()), (12, 3));
    let costs: Vec<(u32, u32)> = task
        .operators()
        .iter()
        .map(|o| (o.minutes, o.crew))
        .collect();
    assert_eq!(costs, [(40, 2), (25, 1), (5, 1)]);
    assert_ne!(read(&variant()), task);
}

#[test]
fn too_long_comes_first() {
    assert_eq!(refused(&vec![0; 65_537]), (1, 0));
    assert_eq!(refused(&vec![0; 65_536]), (3, 0));
}

#[test]
fn cut_short() {
    let blade = blade();
    assert_eq!(refused(&[]), (2, 0));
    assert_eq!(refused(&blade[..15]), (2, 15));
    assert_eq!(refused(&blade[..201]), (2, 201));
    assert_eq!(refused(&blade[..204]), (2, 201));
    let mut no_variables = blade.clone();
    no_variables[6] = 0;
    assert_eq!(refused(&no_variables[..208]), (2, 201));
    assert_eq!(refused(&no_variables), (5, 0));
    assert_eq!(refused(&joined(&[blade, hex("00 00 00")])), (2, 209));
    assert_eq!(
        refused(&joined(&[hd(), hex("0A 00 00 00 09 00 00")])),
        (2, 15)
    );
    assert_eq!(refused(&hex("FF FF FF FF 01 00")), (2, 0));
}

#[test]
fn wrong_kinds_and_lengths() {
    assert_eq!(refused(&joined(&[blade(), vec![0; 6]])), (3, 209));
    assert_eq!(refused(&joined(&[hd(), record(9, &[0])])), (3, 15));
    let node_after_operator = joined(&[hd(), operator(0, 0), node(0, 0, 0)]);
    assert_eq!(refused(&node_after_operator), (3, 25));
    let short_node = joined(&[hd(), record(2, &[0; 4]), vec![0]]);
    assert_eq!(refused(&short_node), (4, 15));
    let odd_operator = joined(&[hd(), record(3, &[0; 8])]);
    assert_eq!(refused(&odd_operator), (4, 15));
}

#[test]
fn contents() {
    let cases: &[(Vec<u8>, (u8, usize))] = &[
        (joined(&[header(3, 8), node(99, 0, 0), goal(0)]), (5, 0)),
        (joined(&[header(65, 0), node(1, 0, 0), goal(0)]), (5, 0)),
        (joined(&[header(3, 0), node(4, 0, 0), goal(0)]), (7, 15)),
        (
            joined(&[header(3, 0), nodes(&[(1, 0, 0), (4, 0, 0)]), goal(1)]),
            (8, 26),
        ),
        (
            joined(&[
                header(3, 0),
                nodes(&[(1, 0, 0), (3, 0, 0), (4, 0, 9)]),
                goal(1),
            ]),
            (7, 37),
        ),
        (
            joined(&[
                header(3, 0),
                nodes(&[(1, 0, 0), (6, 0, 0)]),
                operator(0, 1),
                operator(0, 5),
                goal(0),
            ]),
            (7, 47),
        ),
        (
            joined(&[
                header(3, 0),
                nodes(&[(1, 0, 0), (6, 0, 0)]),
                operator(0, 1),
                operator(0, 1),
                goal(0),
            ]),
            (8, 47),
        ),
        (
            joined(&[
                header(3, 0),
                nodes(&[(1, 0, 0), (6, 0, 0)]),
                operator(0, 1),
                goal(0),
            ]),
            (8, 47),
        ),
        (joined(&[header(3, 0), node(1, 0, 0), goal(1)]), (7, 26)),
    ];
    for (paper, expected) in cases {
        assert_eq!(refused(paper), *expected);
    }
}

#[test]
fn limits() {
    let true_nodes = nodes(&[(1, 0, 0); 1_024]);
    let most = joined(&[header(64, u64::MAX), true_nodes.clone(), goal(1_023)]);
    assert_eq!(read(&most).nodes().len(), 1_024);
    let above = joined(&[header(3, 0), true_nodes, node(99, 0, 0), goal(0)]);
    assert_eq!(refused(&above), (6, 11_279));

    let pairs: Vec<u8> = nodes(&[(1, 0, 0), (6, 0, 0)]).repeat(130);
    let operators = |count: u16| {
        (0..count)
            .flat_map(|i| operator(2 * i, 2 * i + 1))
            .collect()
    };
    let most = joined(&[header(1, 1), pairs.clone(), operators(128), goal(256)]);
    let task = read(&most);
    assert_eq!(task.operators().len(), 128);
    assert_eq!(
        (task.operators()[5].minutes, task.operators()[5].crew),
        (1, 1)
    );
    let offset = 15 + 260 * 11 + 128 * 10;
    let above = joined(&[header(1, 1), pairs, operators(129), goal(258)]);
    assert_eq!(refused(&above), (6, offset));
}

#[test]
fn layers_of_refusals() {
    let layer = |paper: &[u8]| Task::read(paper).unwrap_err().layer();
    assert_eq!(layer(&[]), Layer::Record);
    assert_eq!(layer(&joined(&[header(0, 0), goal(0)])), Layer::Task);
}
