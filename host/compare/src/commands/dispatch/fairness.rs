//! How turns are shared, by the answers of a list.

use crate::cases::dispatcher::{Call, IDLE, OVER, UNFIT};
use crate::values::Answer;
use std::collections::BTreeMap;

/// Among so many spent turns in a row each run that is unfinished throughout them has one.
const IN_A_ROW: u64 = 8;

/// The unfinished runs, by name.
#[derive(Default)]
pub struct Turns {
    runs: BTreeMap<u64, Waiting>,
}

#[derive(Default)]
struct Waiting {
    /// The turns that it spent.
    spent: u64,
    /// The turns of others since its last one, or since it was handed in.
    waited: u64,
}

impl Turns {
    /// Takes notice of a call; answers what is against the claims that turns are fair, and as many as
    /// windows were begun.
    pub fn unfair(&mut self, call: &Call, answer: &Answer) -> Option<String> {
        match call {
            Call::Empty => self.runs.clear(),
            Call::HandIn(_) if answer.number() == 0 => {
                let earlier = self.runs.insert(answer.count("name"), Waiting::default());
                return earlier.map(|_| "two unfinished runs with one name".to_string());
            }
            Call::Turn(_) if !answer.is("stage", IDLE) => return self.turn(answer),
            _ => {}
        }
        None
    }

    fn turn(&mut self, answer: &Answer) -> Option<String> {
        let (name, begun) = (answer.count("name"), answer.count("begun"));
        let is_spent = !answer.is("stage", UNFIT);
        let Some(run) = self.runs.get_mut(&name) else {
            return Some(format!("a turn of {name}, which is no unfinished run"));
        };
        run.spent += u64::from(is_spent);
        if run.spent != begun {
            let spent = run.spent;
            return Some(format!("{begun} windows begun in {spent} turns of {name}"));
        }
        if is_spent {
            return self.waited(name, answer);
        }
        None
    }

    /// All runs but the one that had its turn have waited for one more.
    fn waited(&mut self, name: u64, answer: &Answer) -> Option<String> {
        for (other, run) in &mut self.runs {
            run.waited = if *other == name { 0 } else { run.waited + 1 };
        }
        if answer.is("stage", OVER) {
            self.runs.remove(&name);
        }
        let mut runs = self.runs.iter();
        let (unlucky, _) = runs.find(|(_, run)| run.waited >= IN_A_ROW)?;
        Some(format!("{unlucky} has none of {IN_A_ROW} turns in a row"))
    }
}

#[cfg(test)]
mod tests {
    use super::*;
    use crate::cases::dispatcher::{Lending, NOBODY, UNDER_WAY};
    use crate::generate::edges::ring_run;
    use crate::values::Value;

    /// A dispatcher with runs of these names.
    fn with(names: &[u64]) -> Turns {
        let mut turns = Turns::default();
        for name in names {
            assert_eq!(hand_in(&mut turns, *name), None);
        }
        turns
    }

    fn hand_in(turns: &mut Turns, name: u64) -> Option<String> {
        let call = Call::HandIn(Box::new(ring_run(4, 8.0, 1)));
        turns.unfair(&call, &Answer::done().with("name", Value::Count(name)))
    }

    fn turn(turns: &mut Turns, stage: &str, name: u64, begun: u64) -> Option<String> {
        let call = Call::Turn(Box::new(Lending::of(&ring_run(4, 8.0, 1), 0)));
        let answer = Answer::default()
            .with("stage", Value::Text(stage.to_string()))
            .with("name", Value::Count(name))
            .with("begun", Value::Count(begun));
        turns.unfair(&call, &answer)
    }

    #[test]
    fn eight_turns_without_one_are_unfair() {
        let mut turns = with(&[0, 1]);
        for begun in 1..=7 {
            assert_eq!(turn(&mut turns, UNDER_WAY, 0, begun), None);
        }
        let unfair = turn(&mut turns, UNDER_WAY, 0, 8);
        assert_eq!(unfair.as_deref(), Some("1 has none of 8 turns in a row"));
    }

    /// Unfit turns are not spent, and one that was handed in later has not waited as long.
    #[test]
    fn only_spent_turns_count() {
        let mut turns = with(&[0, 1]);
        for begun in 1..=7 {
            assert_eq!(turn(&mut turns, UNDER_WAY, 0, begun), None);
            assert_eq!(turn(&mut turns, UNFIT, 1, 0), None);
            assert_eq!(turn(&mut turns, IDLE, NOBODY, 0), None);
        }
        assert_eq!(turn(&mut turns, UNDER_WAY, 1, 1), None);
        assert_eq!(hand_in(&mut turns, 2), None);
        for begun in 8..=14 {
            assert_eq!(turn(&mut turns, UNDER_WAY, 0, begun), None);
        }
        assert!(turn(&mut turns, OVER, 0, 15).is_some());
    }

    #[test]
    fn turns_are_windows() {
        let mut turns = with(&[0]);
        assert_eq!(turn(&mut turns, UNDER_WAY, 0, 1), None);
        let unfair = turn(&mut turns, UNFIT, 0, 2);
        assert_eq!(unfair.as_deref(), Some("2 windows begun in 1 turns of 0"));
        assert!(turn(&mut turns, UNDER_WAY, 0, 3).is_some());
    }

    #[test]
    fn names_are_those_of_unfinished_runs() {
        let mut turns = with(&[0]);
        assert!(hand_in(&mut turns, 0).is_some());
        assert!(turn(&mut turns, UNDER_WAY, 1, 1).is_some());
        assert_eq!(turn(&mut turns, OVER, 0, 1), None);
        assert!(turn(&mut turns, UNDER_WAY, 0, 2).is_some());
    }
}
