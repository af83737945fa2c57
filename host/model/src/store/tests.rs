//! Lists of calls whose answers are known.

use super::*;
use input::MAX_COUNT;

const UNTOUCHED: f64 = 77.0;

/// Outputs with room for four windows.
#[derive(Debug, PartialEq)]
struct Room {
    rows: [f64; 12],
    exponents: [f64; 1],
    final_state: [f64; 1],
}

fn untouched() -> Room {
    Room {
        rows: [UNTOUCHED; 12],
        exponents: [UNTOUCHED],
        final_state: [UNTOUCHED],
    }
}

impl Room {
    fn lent(&mut self) -> Outputs<'_> {
        Outputs {
            rows: &mut self.rows,
            exponents: &mut self.exponents,
            final_state: &mut self.final_state,
        }
    }
}

/// A run of dimension 1 by steps of size 6, with one step a window.
fn run(entry: f64, windows: u64) -> Kept {
    Kept {
        system: System::Linear {
            dimension: 1,
            matrix: vec![entry],
        },
        time: 0.0,
        state: vec![1.0],
        settings: Settings::new(1, 6.0, 1, windows),
    }
}

/// Keeps `windows` windows of growth by 115.
fn keep(store: &mut Store, number: u8, windows: u64) -> Option<Refusal> {
    let answer = store.keep(number, run(1.0, windows).input(), &mut untouched().lent());
    answer.refusal
}

/// Goes on with `brought`; answers what it is refused by, and its outputs.
fn go_on(store: &Store, number: u8, brought: &Kept) -> (Option<Refusal>, Room) {
    let mut room = untouched();
    let answer = store.go_on(number, brought.input(), &mut room.lent());
    (answer.expect("the same input").refusal, room)
}

#[test]
fn the_later_rows_of_one_run() {
    let mut store = Store::default();
    assert_eq!(keep(&mut store, 7, 1), None);
    let mut whole = untouched();
    let one = run(1.0, 3);
    let answer = estimate(&one.system, 0.0, &[1.0], &one.settings, &mut whole.lent());
    let mut room = untouched();
    let later = store
        .go_on(7, run(1.0, 2).input(), &mut room.lent())
        .unwrap();
    assert_eq!((later.finished, later.steps), (3, 3));
    assert_eq!((later.final_time, later.measured_time), (18.0, 18.0));
    assert_eq!(answer.measured_time, 18.0);
    assert_eq!(room.rows[..6], whole.rows[3..9]);
    assert_eq!(room.rows[6..], [UNTOUCHED; 6]);
    assert_eq!(room.exponents, whole.exponents);
    assert_eq!(room.final_state, [115.0 * 115.0 * 115.0]);
    assert_eq!(store.windows(7), Some(1));
}

#[test]
fn no_such_number() {
    let mut store = Store::default();
    assert_eq!(keep(&mut store, 1, 1), None);
    // 26 comes before the tests: there are no windows.
    let refused = (Some(Refusal::of(26)), untouched());
    assert_eq!(go_on(&store, 2, &run(1.0, 0)), refused);
    assert_eq!(store.forget(2), Err(Refusal::of(26)));
    assert_eq!(store.forget(1), Ok(()));
    assert_eq!(store.forget(1), Err(Refusal::of(26)));
    assert_eq!(go_on(&store, 1, &run(1.0, 1)), refused);
}

#[test]
fn eight_others() {
    let mut store = Store::default();
    for number in 0..8 {
        assert_eq!(keep(&mut store, 10 * number, 1), None);
    }
    // 27 comes before the tests: there are no windows.
    assert_eq!(keep(&mut store, 1, 0), Some(Refusal::of(27)));
    assert_eq!(keep(&mut store, 70, 2), None);
    assert_eq!(keep(&mut store, 70, 0), Some(Refusal::of(4)));
    assert_eq!(store.windows(70), Some(2));
    assert_eq!(store.forget(0), Ok(()));
    assert_eq!(keep(&mut store, 1, 1), None);
    assert_eq!(keep(&mut store, 0, 1), Some(Refusal::of(27)));
}

#[test]
fn windows_that_are_brought() {
    let mut store = Store::default();
    assert_eq!(keep(&mut store, 0, 3), None);
    let asked = |windows| go_on(&store, 0, &run(1.0, windows));
    assert_eq!(asked(0), (Some(Refusal::of(4)), untouched()));
    for windows in [MAX_COUNT - 2, u64::MAX - 3, u64::MAX] {
        assert_eq!(asked(windows), (Some(Refusal::at(5, 1)), untouched()));
    }
    for windows in [5, MAX_COUNT - 3] {
        assert_eq!(asked(windows), (Some(Refusal::at(13, 0)), untouched()));
    }
    assert_eq!(asked(4).0, None);
}

#[test]
fn a_refusal_in_a_later_window() {
    // A step multiplies by 5.4e121, so that the state passes the largest float in the third.
    let mut store = Store::default();
    let growth = |windows| run(1e30, windows);
    let kept = store.keep(5, growth(1).input(), &mut untouched().lent());
    assert_eq!((kept.refusal, kept.finished), (None, 1));
    let mut room = untouched();
    let answer = store.go_on(5, growth(4).input(), &mut room.lent()).unwrap();
    assert_eq!(answer.refusal, Some(Refusal::of(16)));
    assert_eq!((answer.finished, answer.steps), (2, 2));
    assert_eq!(room.rows[0], 12.0);
    assert_eq!(room.rows[3..], [UNTOUCHED; 9]);
    assert_eq!(
        (room.exponents, room.final_state),
        ([UNTOUCHED], [UNTOUCHED])
    );
}

#[test]
fn another_input_is_free_once_it_is_tested() {
    let mut store = Store::default();
    assert_eq!(keep(&mut store, 0, 1), None);
    let mut others = [run(1.0, 1), run(1.0, 1), run(1.0, 1), run(-0.5, 1)];
    others[0].time = -0.0;
    others[1].state[0] = 2.0;
    others[2].settings.seed += 1;
    for other in &others {
        let answer = store.go_on(0, other.input(), &mut untouched().lent());
        assert!(answer.is_none(), "{other:?}");
    }
    others[0].time = f64::NAN;
    assert_eq!(go_on(&store, 0, &others[0]).0, Some(Refusal::of(6)));
}
