//! What happens in a list of calls of a dispatcher: the labels that a comparison counts.

use super::super::lists::Label;
use crate::cases::dispatcher::{Call, Lending, NOBODY, UNDER_WAY, UNFIT};
use crate::cases::Run;
use crate::circuit::KINDS;
use crate::values::Answer;
use std::collections::{BTreeMap, BTreeSet};

/// What happened in a list so far.
#[derive(Default)]
pub struct Events {
    /// The unfinished runs, by name.
    runs: BTreeMap<u64, Past>,
    /// Names of runs that are over.
    freed: BTreeSet<u64>,
    taken: u64,
    /// A ninth unfinished run was handed in.
    was_full: bool,
}

/// What happened to an unfinished run so far.
struct Past {
    run: Run,
    /// A turn of it was unfit.
    unfit: bool,
}

impl Events {
    /// Takes notice of a call; answers the labels that it is counted under. A run that is over and was
    /// lent the same at each turn has one that answers the same `alone`.
    pub fn of(&mut self, call: &Call, answer: &Answer, alone: Option<&Run>) -> Vec<Label> {
        let labels = match call {
            Call::Empty => vec![EMPTIED.to_string()],
            Call::HandIn(run) => self.hand_in(run, answer),
            Call::Next if answer.count("name") == NOBODY => vec![NOBODY_NEXT.to_string()],
            Call::Next => vec![NEXT.to_string()],
            Call::Turn(lending) => self.turn(lending, answer, alone.is_some()),
        };
        if matches!(call, Call::Empty) {
            *self = Self::default();
        }
        let number = answer.number();
        labels.into_iter().map(|label| (number, label)).collect()
    }

    fn hand_in(&mut self, run: &Run, answer: &Answer) -> Vec<String> {
        let (number, name) = (answer.number(), answer.count("name"));
        self.was_full |= number == 28;
        match number {
            0 => {}
            5 => return vec![at_place(ON_HAND_IN, answer)],
            28 if fails(run) => return vec![FAILING.to_string()],
            _ => return vec![ON_HAND_IN.to_string()],
        }
        self.taken += 1;
        let special = [
            (self.freed.remove(&name), NAMED_AGAIN),
            (self.taken > NOBODY, MORE_THAN_EIGHT),
            (self.was_full, AFTER_A_NINTH),
        ];
        self.runs.insert(
            name,
            Past {
                run: run.clone(),
                unfit: false,
            },
        );
        let mut labels = vec![format!("{TAKEN}{name}")];
        labels.extend(met(&special));
        labels
    }

    fn turn(&mut self, lending: &Lending, answer: &Answer, is_alone: bool) -> Vec<String> {
        let name = answer.count("name");
        let others = self.runs.keys().any(|other| *other != name);
        let Some(past) = self.runs.get_mut(&name) else {
            return vec![NOBODYS.to_string()];
        };
        if answer.is("stage", UNFIT) {
            past.unfit = true;
            return past.unfit_turn(lending, answer);
        }
        if answer.is("stage", UNDER_WAY) {
            let is_measured = answer.count("begun") > past.run.settings.transient_windows;
            return vec![if is_measured { MEASURED } else { WARM_UP }.to_string()];
        }
        let mut labels = past.over(answer, is_alone);
        labels.extend(others.then(|| BESIDE_OTHERS.to_string()));
        self.runs.remove(&name);
        self.freed.insert(name);
        labels
    }
}

impl Past {
    fn unfit_turn(&self, lending: &Lending, answer: &Answer) -> Vec<String> {
        let lent = self.run.clone().with_lengths(&lending.lengths);
        let begun = answer.count("begun") > 0;
        let mut labels = vec![match answer.number() {
            13 => at_place(ON_A_TURN, answer),
            _ if lent.has_short_output() => OUTPUTS_TOO.to_string(),
            _ => ON_A_TURN.to_string(),
        }];
        labels.extend(begun.then(|| IN_BETWEEN.to_string()));
        labels
    }

    /// The labels of the turn that ends it.
    fn over(&self, answer: &Answer, is_alone: bool) -> Vec<String> {
        let settings = &self.run.settings;
        let begun = answer.count("begun");
        let place = match answer.number() {
            0 => self.run.circuit.label(),
            _ if begun <= settings.transient_windows => IN_WARM_UP,
            _ if answer.count("finished") == 0 => IN_FIRST,
            _ => AFTER_ROW,
        };
        let special = [
            (self.unfit, AFTER_UNFIT),
            (answer.is_faint(), FAINT),
            (is_alone, AS_ALONE),
            (!is_alone, OTHER_SLICES),
        ];
        let mut labels = vec![format!("{IS_OVER}{place}")];
        labels.extend(met(&special));
        labels
    }
}

/// The labels that hold.
fn met<'a>(labels: &'a [(bool, &'static str)]) -> impl Iterator<Item = String> + 'a {
    let holding = labels.iter().filter(|(holds, _)| *holds);
    holding.map(|(_, label)| label.to_string())
}

const EMPTIED: &str = ", emptied";
const NEXT: &str = ", somebody is next";
const NOBODY_NEXT: &str = ", nobody is next";

const TAKEN: &str = ", taken and named ";
const NAMED_AGAIN: &str = ", named as one that is over";
const MORE_THAN_EIGHT: &str = ", more than eight taken in a list";
const AFTER_A_NINTH: &str = ", taken after a ninth was not";
const ON_HAND_IN: &str = " on hand-in";
const FAILING: &str = " on hand-in, another test fails too";

const NOBODYS: &str = ", a turn with nobody next";
const WARM_UP: &str = ", a warm-up turn";
const MEASURED: &str = ", a measured turn";
const ON_A_TURN: &str = " on a turn";
const OUTPUTS_TOO: &str = " on a turn, an output is short too";
const IN_BETWEEN: &str = " on a turn, after windows of the run";

const IS_OVER: &str = ", over";
const IN_WARM_UP: &str = " in a warm-up window";
const IN_FIRST: &str = " in the first measured window";
const AFTER_ROW: &str = " after a row";
const BESIDE_OTHERS: &str = ", over beside unfinished others";
const AFTER_UNFIT: &str = ", over after an unfit turn";
const FAINT: &str = ", over with a faint direction";
const AS_ALONE: &str = ", over as alone";
const OTHER_SLICES: &str = ", over with slices that changed between turns";

fn at_place(label: &str, answer: &Answer) -> String {
    format!("{label}, place {}", answer.count("place"))
}

/// Whether another test would refuse the hand-in.
fn fails(run: &Run) -> bool {
    let mut empty = model::Dispatcher::default();
    empty.hand_in(run.input()).is_err()
}

/// The labels that lists must meet.
pub fn expected() -> Vec<Label> {
    let mut expected: Vec<Label> = vec![];
    let mut add = |number: u64, labels: &[&str]| {
        let labels = labels.iter().map(|label| (number, label.to_string()));
        expected.extend(labels);
    };
    add(0, &[EMPTIED, NEXT, NOBODY_NEXT]);
    add(0, &[NAMED_AGAIN, MORE_THAN_EIGHT, AFTER_A_NINTH]);
    for name in 0..NOBODY {
        add(0, &[&format!("{TAKEN}{name}")]);
    }
    for number in [1, 2, 3, 4, 29, 6, 7, 8, 25, 10, 11, 12, 14, 15] {
        add(number, &[ON_HAND_IN]);
    }
    add(28, &[ON_HAND_IN, FAILING]);
    add(0, &[NOBODYS, WARM_UP, MEASURED]);
    add(9, &[ON_A_TURN, OUTPUTS_TOO, IN_BETWEEN]);
    add(13, &[IN_BETWEEN]);
    for (number, label, places) in [(5, ON_HAND_IN, 0..4), (13, ON_A_TURN, 0..3)] {
        for place in places {
            add(number, &[&format!("{label}, place {place}")]);
        }
    }
    let ends = [BESIDE_OTHERS, AFTER_UNFIT, AS_ALONE, OTHER_SLICES];
    add(0, &ends);
    add(0, &[FAINT]);
    for kind in &KINDS {
        add(0, &[&format!("{IS_OVER}{}", kind.label)]);
    }
    for number in [14, 16, 17, 18] {
        add(number, &ends);
        for place in [IN_WARM_UP, IN_FIRST, AFTER_ROW] {
            add(number, &[&format!("{IS_OVER}{place}")]);
        }
    }
    expected
}

#[cfg(test)]
mod tests {
    use super::*;
    use crate::cases::dispatcher::Reference;
    use crate::generate::turns;

    /// The fixed list has every label but those of windows and slices in every combination: a refused
    /// run of it is lent the same at each turn.
    #[test]
    fn the_fixed_list_meets_the_rest() {
        let (mut events, mut reference) = (Events::default(), Reference::default());
        let mut met = BTreeSet::new();
        let calls = turns::calls().into_iter();
        for (call, _) in calls.chain(turns::calls_with_warm_up_steps()) {
            let (answer, alone) = reference.answers(&call);
            met.extend(events.of(&call, &answer, alone.as_ref()));
        }
        let missing = expected().into_iter().filter(|label| !met.contains(label));
        let missing: BTreeSet<Label> = missing.collect();
        let mut left_out = BTreeSet::new();
        for number in [14, 16, 17, 18] {
            let labels = [AFTER_UNFIT, OTHER_SLICES].map(str::to_string);
            left_out.extend(labels.map(|label| (number, label)));
            left_out.insert((number, format!("{IS_OVER}{IN_FIRST}")));
            left_out.insert((number, format!("{IS_OVER}{IN_WARM_UP}")));
        }
        left_out.remove(&(14, format!("{IS_OVER}{IN_WARM_UP}")));
        assert_eq!(missing, left_out);
    }
}
