//! What happens in a list of calls of a store: the labels that a comparison counts.

use super::lists::Label;
use crate::cases::{Call, Run};
use crate::circuit::KINDS;
use crate::values::Answer;
use input::MAX_COUNT;
use lyapunov_sys::STORE_STATES;
use std::collections::{BTreeMap, BTreeSet};

/// What happened to a kept state so far.
struct Past {
    run: Run,
    replaced: bool,
    /// A keep in its place was refused.
    spared: bool,
    gone_on: bool,
}

/// What happened in a list so far.
#[derive(Default)]
pub struct Events {
    kept: BTreeMap<u8, Past>,
    forgotten: BTreeSet<u8>,
    /// One of eight was forgotten.
    made_room: bool,
}

impl Events {
    /// Takes notice of a call; answers the labels that it is counted under. Without an answer it is
    /// free.
    pub fn of(&mut self, call: &Call, answer: Option<&Answer>) -> Vec<Label> {
        let number = answer.map_or(0, Answer::number);
        let labels = match (call, answer) {
            (Call::Empty, _) => vec![EMPTIED.to_string()],
            (Call::Keep(to, run), Some(answer)) => self.keep(*to, run, answer),
            (Call::GoOn(from, run), Some(answer)) => self.go_on(*from, run, answer),
            (Call::Keep(..) | Call::GoOn(..), None) => vec![FOREIGN.to_string()],
            (Call::Forget(_), _) if number == 0 => vec![FORGOTTEN.to_string()],
            (Call::Forget(which), _) => vec![format!("{ON_FORGETTING}{}", self.unknown(*which))],
        };
        self.note(call, number);
        labels.into_iter().map(|label| (number, label)).collect()
    }

    fn keep(&self, to: u8, run: &Run, answer: &Answer) -> Vec<String> {
        let is_used = self.kept.contains_key(&to);
        let label = match (answer.number(), is_used, self.kept.len()) {
            (0, true, STORE_STATES) => AGAIN_AMONG_EIGHT,
            (0, true, _) => KEPT_AGAIN,
            (0, false, 7) if self.made_room => IN_FORGOTTEN_PLACE,
            (0, false, _) => KEPT,
            (27, ..) if fails(run) => FAILING_ON_KEEPING,
            (_, true, _) => ON_KEEPING_USED,
            (_, false, _) => ON_KEEPING,
        };
        let mut labels = vec![label.to_string()];
        if answer.number() != 0 && answer.count("finished") > 0 {
            labels.push(AFTER_KEPT_ROW.to_string());
        }
        labels
    }

    fn go_on(&self, from: u8, run: &Run, answer: &Answer) -> Vec<String> {
        let Some(past) = self.kept.get(&from) else {
            let mut labels = vec![format!("{ON_GOING_ON}{}", self.unknown(from))];
            labels.extend(fails(run).then(|| FAILING_ON_GOING_ON.to_string()));
            return labels;
        };
        let place = answer.count("place");
        let label = match answer.number() {
            0 => return past.gone_on(run, answer),
            5 if place == 1 && run.settings.windows <= MAX_COUNT => ONLY_ALL_OVER.to_string(),
            5 | 13 => at_place(place),
            14 | 16 | 17 | 18 if answer.count("finished") == past.windows() => IN_FIRST.to_string(),
            14 | 16 | 17 | 18 => AFTER_ROW.to_string(),
            _ => ON_GOING_ON.to_string(),
        };
        vec![label]
    }

    /// How a number comes to be unknown.
    fn unknown(&self, number: u8) -> &'static str {
        UNKNOWN[usize::from(self.forgotten.contains(&number))]
    }

    fn note(&mut self, call: &Call, number: u64) {
        match (call, number) {
            (Call::Empty, _) => *self = Self::default(),
            (Call::Keep(to, run), 0) => {
                let replaced = self.kept.contains_key(to);
                self.forgotten.remove(to);
                self.kept.insert(*to, Past::of(run, replaced));
            }
            (Call::Keep(at, _), _) => {
                self.kept.entry(*at).and_modify(|past| past.spared = true);
            }
            (Call::GoOn(from, _), _) => {
                let past = self.kept.entry(*from);
                past.and_modify(|past| past.gone_on = true);
            }
            (Call::Forget(which), 0) => {
                self.made_room |= self.kept.len() == STORE_STATES;
                self.forgotten.insert(*which);
                self.kept.remove(which);
            }
            (Call::Forget(_), _) => {}
        }
    }
}

impl Past {
    fn of(run: &Run, replaced: bool) -> Self {
        Self {
            run: run.clone(),
            replaced,
            spared: false,
            gone_on: false,
        }
    }

    fn windows(&self) -> u64 {
        self.run.settings.windows
    }

    /// The labels of a going on from here that is not refused.
    fn gone_on(&self, run: &Run, answer: &Answer) -> Vec<String> {
        let entries = |run: &Run| run.circuit.arguments().matrix.len();
        let special = [
            (self.gone_on, AGAIN),
            (self.replaced, AFTER_REPLACEMENT),
            (self.spared, AFTER_REFUSED),
            (answer.is_faint(), FAINT),
            (entries(&self.run) != entries(run), OTHER_MATRIX),
        ];
        let special = special.into_iter().filter(|(holds, _)| *holds);
        let labels = special.map(|(_, label)| label).chain([run.circuit.label()]);
        labels.map(|label| format!("{GONE_ON}{label}")).collect()
    }
}

const EMPTIED: &str = ", emptied";
const KEPT: &str = ", kept";
const KEPT_AGAIN: &str = ", kept again";
const AGAIN_AMONG_EIGHT: &str = ", kept again among eight";
const IN_FORGOTTEN_PLACE: &str = ", kept in a forgotten place";
const ON_KEEPING: &str = " on keeping";
const ON_KEEPING_USED: &str = " on keeping, a used number";
const AFTER_KEPT_ROW: &str = " on keeping, after a row";
const FAILING_ON_KEEPING: &str = " on keeping, another test fails too";

const GONE_ON: &str = ", gone on";
const AGAIN: &str = " again";
const AFTER_REPLACEMENT: &str = " after a replacement";
const AFTER_REFUSED: &str = " after a refused keep";
const FAINT: &str = " with a faint direction";
const OTHER_MATRIX: &str = " with another matrix that is not read";
const FOREIGN: &str = ", gone on with what was not kept";
const ON_GOING_ON: &str = " on going on";
const ONLY_ALL_OVER: &str = " on going on, only all windows together over";
const IN_FIRST: &str = " in the first later window";
const AFTER_ROW: &str = " after a later row";
const FAILING_ON_GOING_ON: &str = " on going on, another test fails too";

const FORGOTTEN: &str = ", forgotten";
const ON_FORGETTING: &str = " on forgetting";
const UNKNOWN: [&str; 2] = [", a number never kept", ", a forgotten number"];

fn at_place(place: u64) -> String {
    format!("{ON_GOING_ON}, place {place}")
}

/// Whether a test of the input fails.
fn fails(run: &Run) -> bool {
    model::validate(&run.circuit.system, run.time, &run.state, &run.settings).is_err()
}

/// The labels that lists must meet.
pub fn expected() -> Vec<Label> {
    let mut expected = expected_of_going_on();
    let mut add = |number: u64, labels: &[&str]| {
        let labels = labels.iter().map(|label| (number, label.to_string()));
        expected.extend(labels);
    };
    add(0, &[EMPTIED, FORGOTTEN, KEPT, KEPT_AGAIN]);
    add(0, &[AGAIN_AMONG_EIGHT, IN_FORGOTTEN_PLACE]);
    for number in (1..=18).chain([25, 29]) {
        add(number, &[ON_KEEPING, ON_KEEPING_USED]);
    }
    for number in [14, 16, 17, 18] {
        add(number, &[AFTER_KEPT_ROW]);
    }
    add(27, &[ON_KEEPING, FAILING_ON_KEEPING]);
    for unknown in UNKNOWN {
        add(26, &[&format!("{ON_FORGETTING}{unknown}")]);
    }
    expected
}

/// What is brought is tested whether or not it was kept.
fn expected_of_going_on() -> Vec<Label> {
    let special = [AGAIN, AFTER_REPLACEMENT, AFTER_REFUSED, FAINT, OTHER_MATRIX];
    let kinds = KINDS.iter().map(|kind| kind.label);
    let gone_on = special.into_iter().chain(kinds);
    let mut expected: Vec<Label> = gone_on
        .map(|more| (0, format!("{GONE_ON}{more}")))
        .collect();
    for number in [1, 2, 3, 4, 29, 6, 7, 8, 25, 9, 10, 11, 12] {
        expected.push((number, ON_GOING_ON.to_string()));
    }
    for (number, places) in [(5, 0..4), (13, 0..3)] {
        expected.extend(places.map(|place| (number, at_place(place))));
    }
    for number in [14, 16, 17, 18] {
        expected.extend([IN_FIRST, AFTER_ROW].map(|label| (number, label.to_string())));
    }
    expected.extend(UNKNOWN.map(|unknown| (26, format!("{ON_GOING_ON}{unknown}"))));
    for (number, label) in [(0, FOREIGN), (5, ONLY_ALL_OVER), (26, FAILING_ON_GOING_ON)] {
        expected.push((number, label.to_string()));
    }
    expected
}

#[cfg(test)]
mod tests {
    use super::*;
    use crate::cases::{Case, Reference};
    use crate::generate::{kept, warm_up};

    /// The fixed list has every label, but each refused keep either over a used number or not, and
    /// nothing that was not kept is brought.
    #[test]
    fn the_fixed_list_meets_the_rest() {
        let plain = |(number, label): Label| (number, label.replace(", a used number", ""));
        let (mut events, mut reference) = (Events::default(), Reference::default());
        let mut met = BTreeSet::new();
        for (call, _) in kept::calls().into_iter().chain(warm_up::kept()) {
            let answers = reference.answers(&call, None);
            let model = answers.as_ref().map(|(model, _)| model);
            met.extend(events.of(&call, model).into_iter().map(plain));
        }
        let missing = expected()
            .into_iter()
            .map(plain)
            .filter(|label| !met.contains(label));
        let mut foreign = vec![(0, FOREIGN.to_string())];
        foreign.extend([1, 2, 3, 6, 7, 8, 9, 10, 11, 12, 25].map(|n| (n, ON_GOING_ON.to_string())));
        foreign.extend([0, 2].map(|place| (5, at_place(place))));
        let missing: BTreeSet<Label> = missing.collect();
        assert_eq!(missing, foreign.into_iter().collect());
    }

    #[test]
    fn labels_follow_the_calls() {
        let mut events = Events::default();
        let [run, ..] = kept::refused_in_a_later_window();
        let (keep, forget) = (Call::Keep(3, Box::new(run.clone())), Call::Forget(3));
        let go_on = Call::GoOn(3, Box::new(run.clone()));
        let done = run.model();
        let refused = |number| run.answer_untouched(input::Refusal::of(number));
        let mut label = |call: &Call, answer: Answer| {
            let labels = events.of(call, Some(&answer));
            labels[0].1.clone()
        };
        assert_eq!(
            label(&go_on, refused(26)),
            " on going on, a number never kept"
        );
        assert_eq!(label(&keep, done.clone()), ", kept");
        assert_eq!(label(&keep, refused(9)), " on keeping, a used number");
        assert_eq!(
            label(&go_on, done.clone()),
            ", gone on after a refused keep"
        );
        assert_eq!(label(&keep, done.clone()), ", kept again");
        assert_eq!(label(&go_on, done.clone()), ", gone on after a replacement");
        assert_eq!(label(&go_on, done), ", gone on again");
        assert_eq!(label(&forget, Answer::done()), ", forgotten");
        assert_eq!(
            label(&forget, refused(26)),
            " on forgetting, a forgotten number"
        );
        assert_eq!(
            label(&go_on, refused(26)),
            " on going on, a forgotten number"
        );
    }
}
