//! Keeping a state and going on from it, beside runs that make as many steps.

use crate::problem::lorenz;
use crate::race::{same_bits, Race, Target};
use crate::runs::{Counts, Run};
use lyapunov_sys::{StoreMemory, STORE_STATES};

/// The most states that are kept beside another.
const OTHERS: u8 = STORE_STATES as u8 - 1;

pub fn races() -> Result<Vec<Race>, String> {
    let mut races = vec![going_on()?];
    for others in [0, OTHERS] {
        for replaced in [false, true] {
            races.push(keeping(others, replaced)?);
        }
    }
    Ok(races)
}

fn run(counts: Counts) -> Run {
    let mut problem = lorenz();
    problem.step_size = 0.01;
    Run::of(problem, counts)
}

fn going_on() -> Result<Race, String> {
    const NUMBER: u8 = 0;
    let counts = |windows| Counts { steps: 10, windows };
    let (before, later) = (counts(100), counts(10_000));
    let both = counts(before.windows + later.windows);
    let name = format!("going on, Lorenz K=3, {}", later.pace());
    let mut store = StoreMemory::empty();
    keep(&mut store, NUMBER, &mut run(before));
    let (mut gone_on, mut whole) = (run(later), run(both));
    go_on(&store, NUMBER, &mut gone_on);
    whole.make();
    let rows = &whole.rows[whole.rows.len() - gone_on.rows.len()..];
    same_bits(&name, &gone_on.rows, rows)?;
    gone_on.same_ends(&name, &whole)?;
    let mut plain = run(later);
    Ok(Race {
        name,
        target: Some(Target::Ratio(1.03)),
        calls: (later.steps * later.windows) as usize,
        library: Box::new(move || go_on(&store, NUMBER, &mut gone_on)),
        other: Some(Box::new(move || plain.make())),
    })
}

/// A run as short as can be, so that what keeping adds shows. Where the number is a new one each
/// time, the time of forgetting it is added.
fn keeping(others: u8, replaced: bool) -> Result<Race, String> {
    const CALLS: usize = 10_000;
    let counts = Counts {
        steps: 1,
        windows: 1,
    };
    let how = if replaced { "used" } else { "new" };
    let pace = counts.pace();
    let name = format!("keeping under a {how} number, {others} others, Lorenz K=3, {pace}");
    let (mut kept, mut plain) = (run(counts), run(counts));
    let mut store = StoreMemory::empty();
    for number in 0..=others {
        keep(&mut store, number, &mut kept);
    }
    plain.make();
    kept.same(&name, &plain)?;
    let one = move || {
        if !replaced {
            forget(&mut store, others);
        }
        keep(&mut store, others, &mut kept);
    };
    Ok(Race {
        name,
        target: Some(Target::More(300.0)),
        calls: CALLS,
        library: repeated(CALLS, one),
        other: Some(repeated(CALLS, move || plain.make())),
    })
}

fn repeated(calls: usize, mut call: impl FnMut() + 'static) -> Box<dyn FnMut()> {
    Box::new(move || (0..calls).for_each(|_| call()))
}

fn keep(store: &mut StoreMemory, number: u8, run: &mut Run) {
    run.call(|system, state, settings, outputs| {
        lyapunov_sys::keep(store.lent(), number, system, 0.0, state, settings, outputs)
    });
}

fn go_on(store: &StoreMemory, number: u8, run: &mut Run) {
    run.call(|system, state, settings, outputs| {
        lyapunov_sys::go_on(store.seen(), number, system, 0.0, state, settings, outputs)
    });
}

fn forget(store: &mut StoreMemory, number: u8) {
    let refusal = lyapunov_sys::forget(&store.floats, &mut store.counts, number);
    assert_eq!(refusal, 0);
}
