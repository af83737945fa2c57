//! Lines of calls, and when a run is to answer as alone.

use super::*;
use crate::generate::circuits::diagonal;
use crate::generate::edges::{linear_run, ring_run, with_windows};
use crate::generate::turns;
use crate::line::Line;

#[test]
fn calls_are_read_as_they_are_written() {
    for (call, remark) in turns::calls() {
        let text = call.line("A", &Answer::default(), remark);
        let mut line = Line::read(&text).unwrap();
        let read = Call::read(line.kind, &mut line.input).unwrap();
        assert_eq!(line.input.finish(), Ok(()));
        assert_eq!((read.kind(), read.written()), (call.kind(), call.written()));
        if let Call::HandIn(run) = read {
            assert_eq!(run.circuit.arguments().matrix, []);
        }
    }
}

#[test]
fn malformed_turns() {
    let read = |set: &str, fresh: &str, rest: &str| {
        let text = format!("turn id=A set={set} fresh={fresh} mat=- {rest} ->");
        let mut line = Line::read(&text).unwrap();
        Call::read(line.kind, &mut line.input).map(|_| ())
    };
    let lengths = "rowslen=3 expslen=1 finallen=1";
    assert_eq!(read("15", "1", lengths), Ok(()));
    assert!(read("16", "1", lengths).is_err());
    assert!(read("0", "2", lengths).is_err());
    assert!(read("0", "0", "rowslen=3 expslen=1").is_err());
}

#[test]
fn answers_are_read_as_they_are_written() {
    let mut reference = Reference::default();
    for (call, remark) in turns::calls() {
        let (answer, _) = reference.answers(&call);
        let text = call.line("A", &answer, remark);
        let read = Line::read(&text).unwrap().answer.answer(call.answer());
        assert_eq!(read.as_ref().map(|read| read.difference(&answer)), Ok(None));
        assert_eq!(read.map(|read| read.written()), Ok(answer.written()));
    }
}

/// Two windows of a run, and what is lent with each; a turn of a neighbour lies between them. Answers
/// whether the run is to answer as alone.
fn is_alone(run: &Run, lent: [&Lending; 2], neighbour: &Lending) -> bool {
    let mut reference = Reference::default();
    let two = Box::new(with_windows(run.clone(), 2));
    for handed_in in [two.clone(), two] {
        reference.answers(&Call::HandIn(handed_in));
    }
    let turns = [lent[0], neighbour, lent[1]].map(|lending| {
        let (answer, alone) = reference.answers(&Call::Turn(Box::new(lending.clone())));
        (answer.is("stage", OVER), alone)
    });
    let [(false, None), (false, None), (true, alone)] = turns else {
        panic!("two windows are three turns");
    };
    alone.is_some()
}

#[test]
fn a_run_answers_as_alone_with_the_same_slices() {
    let linear = with_windows(linear_run(diagonal(&[-0.25, -0.5]), 2, 0.125), 2);
    let own = Lending::of(&linear, 3);
    let again = Lending {
        fresh: false,
        ..own.clone()
    };
    let of_neighbour = Lending {
        set: 4,
        ..own.clone()
    };
    assert!(is_alone(&linear, [&own, &again], &of_neighbour));
    assert!(!is_alone(&linear, [&own, &own], &of_neighbour));
    assert!(!is_alone(&linear, [&own, &of_neighbour], &of_neighbour));
    assert!(!is_alone(&linear, [&own, &again], &again));
    let other_matrix = Lending {
        matrix: vec![0.0; 4],
        ..again.clone()
    };
    assert!(!is_alone(&linear, [&own, &other_matrix], &of_neighbour));
    let ring = with_windows(ring_run(4, 8.0, 2), 2);
    let longer = |lending: &Lending| Lending {
        lengths: ring.lengths(),
        ..lending.clone()
    };
    let [own, other, of_neighbour] = [&own, &other_matrix, &of_neighbour].map(longer);
    assert!(is_alone(&ring, [&own, &other], &of_neighbour));
}

/// A run with failing tests has the refusal of the run alone, but 28 and what its turns test.
#[test]
fn a_refused_hand_in_answers_as_alone() {
    let mut run = linear_run(diagonal(&[-0.25, -0.5]), 2, 0.125);
    run.circuit = run.circuit.with_matrix(&[]);
    run.exponents = 0;
    let mut reference = Reference::default();
    for name in 0..NOBODY {
        let (answer, alone) = reference.answers(&Call::HandIn(Box::new(run.clone())));
        assert_eq!((answer.number(), answer.count("name")), (0, name));
        assert!(alone.is_none());
    }
    run.settings.windows = 0;
    let call = Call::HandIn(Box::new(run));
    let (answer, alone) = reference.answers(&call);
    assert_eq!((answer.number(), answer.count("name")), (28, NOBODY));
    assert!(alone.is_none());
    let (answer, alone) = Reference::default().answers(&call);
    let alone = call.part_of(super::super::Case::model(&alone.unwrap()));
    assert_eq!((answer.number(), alone.difference(&answer)), (4, None));
}
