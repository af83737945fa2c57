//! What is noticed of memory that must not be written.

use super::*;
use crate::cases::dispatcher::IDLE;
use crate::generate::edges::ring_run;
use crate::values::Value;

/// Counted through all arrays: the begin of each.
const COUNTS: usize = STORE_FLOATS + DISPATCHER_SETTINGS;
const QUEUE: usize = COUNTS + STORE_COUNTS;

#[test]
fn every_entry_can_be_set() {
    let mut memory = Memory::default();
    let before = memory.content().unwrap();
    for at in 0..Memory::ENTRIES {
        memory.set(at, at as u64);
    }
    let after = memory.content().unwrap();
    let changed = before.concat().len();
    assert_eq!(changed, Memory::ENTRIES);
    let [floats, counts, settings, queue] = after;
    let expected: Vec<u64> = (0..Memory::ENTRIES as u64).collect();
    assert_eq!([floats, settings, counts, queue].concat(), expected);
}

/// Whether a call that answers so may change the entry `at`.
fn may(call: &Call, answer: &Answer, at: usize) -> bool {
    let mut memory = Memory::default();
    let before = memory.content().unwrap();
    memory.set(at, 0);
    changed_as_it_may(call, answer, &before, &memory.content().unwrap()).is_ok()
}

#[test]
fn arrays_change_as_they_may() {
    let run = ring_run(4, 8.0, 1);
    let turn = Call::Turn(Box::new(Lending::of(&run, 0)));
    let hand_in = Call::HandIn(Box::new(run));
    let arrays = [0, STORE_FLOATS, COUNTS, QUEUE];
    let of = |call: &Call, answer: &Answer| arrays.map(|at| may(call, answer, at));
    let staged = |stage: &str| Answer::default().with("stage", Value::Text(stage.to_string()));
    assert_eq!(of(&hand_in, &Answer::done()), [true; 4]);
    assert_eq!(of(&hand_in, &Answer::refusal(Refusal::of(28))), [false; 4]);
    assert_eq!(of(&Call::Next, &answer_of_next(3)), [false; 4]);
    for stage in [UNDER_WAY, OVER] {
        assert_eq!(of(&turn, &staged(stage)), [true, false, true, true]);
    }
    for stage in [IDLE, "unfit"] {
        assert_eq!(of(&turn, &staged(stage)), [false; 4]);
    }
}

#[test]
fn emptying_clears_the_queue_alone() {
    let (mut memory, answer) = (Memory::default(), Answer::default());
    let before = memory.content().unwrap();
    let changed = |memory: &Memory| {
        let after = memory.content().unwrap();
        changed_as_it_may(&Call::Empty, &answer, &before, &after)
    };
    assert!(changed(&memory).is_err());
    for at in QUEUE..Memory::ENTRIES {
        memory.set(at, 0);
    }
    assert_eq!(changed(&memory), Ok(()));
    memory.set(0, 0);
    assert_eq!(
        changed(&memory),
        Err("dispatcher changed run_floats".into())
    );
}

/// What a turn left that wrote neither counts nor times.
fn unwritten() -> Outcome {
    let mut slices = ring_run(4, 8.0, 1).lengths().lent();
    slices.to(|_| 0).unwrap()
}

#[test]
fn counts_and_times_are_written_once_a_run_is_over() {
    let stage = |event, outcome| turned(event, outcome).map(|turned| turned.stage);
    assert_eq!(stage([0, 8, 0, 0], unwritten()), Ok(IDLE));
    assert_eq!(stage([2, 0, 1, 0], unwritten()), Ok(UNDER_WAY));
    let written: [fn(&mut Outcome); 4] = [
        |outcome| outcome.refusal.place = 0,
        |outcome| outcome.finished = 0,
        |outcome| outcome.faint[15] = 0,
        |outcome| outcome.measured_time = 0.0,
    ];
    for write in written {
        let mut outcome = unwritten();
        write(&mut outcome);
        assert!(stage([2, 0, 1, 0], outcome.clone()).is_err());
        assert_eq!(stage([3, 0, 1, 0], outcome), Ok(OVER));
    }
}

#[test]
fn events_that_there_are_not() {
    assert!(turned([4, 0, 1, 0], unwritten()).is_err());
    assert!(turned([u64::MAX, 0, 1, 0], unwritten()).is_err());
    assert!(turned([3, 0, 1, 2], unwritten()).is_err());
    let unfit = turned([1, 0, 1, 2], unwritten()).map(|turned| turned.outcome.refusal);
    assert_eq!(unfit, Ok(Refusal::at(0, 2)));
}
