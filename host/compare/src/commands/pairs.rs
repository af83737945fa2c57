//! Demand 3 by running: a run for k exponents and one for K, all else equal, in one go, kept and gone
//! on, or by turns in a dispatcher.

use super::{Differences, Inputs};
use crate::cases::dispatcher::{self, Lending, Turned, UNDER_WAY};
use crate::cases::{Call, Case, Memory, Outcome, Run};
use crate::circuit::{Systems, RING};
use crate::generate;
use crate::random::Random;
use crate::tally::{Sizes, Tally};
use crate::values::{same, same_list};
use input::Refusal;
use std::collections::BTreeMap;

/// How the two runs of a pair compare.
const EQUAL: &str = ", equal";
const NOT_EQUAL: &str = " at a direction k or above, not equal";

pub fn pairs(inputs: Inputs) -> bool {
    of_runs("pairs", inputs, |pair, _| pair.each(Run::outcome))
}

/// Pairs of runs that each have turns in a dispatcher, with other runs before and behind them.
pub fn dispatched_pairs(inputs: Inputs) -> bool {
    of_runs("dispatched pairs", inputs, |pair, random| {
        pair.each(|run| beside_others(run, random))
    })
}

/// Pairs whose two runs are made by `outcomes`.
fn of_runs(
    name: &str,
    inputs: Inputs,
    outcomes: impl Fn(&Pair, &mut Random) -> Result<[Outcome; 2], String>,
) -> bool {
    let mut random = inputs.random();
    let mut met = Met::default();
    let mut index = 0;
    while met.pairs < inputs.count {
        let run = generate::runs::run(index, &mut random);
        index += 1;
        let Some(pair) = Pair::of(run, &mut random) else {
            continue;
        };
        let outcomes = outcomes(&pair, &mut random);
        met.judge(&pair, outcomes, "");
    }
    met.report(name, &inputs, &expected(inputs.systems))
}

/// Pairs of runs that are both kept, and then go on for the same number of windows. Each counts as
/// one run, its kept rows before the later ones.
pub fn later_pairs(inputs: Inputs) -> bool {
    let mut random = inputs.random();
    let mut met = Met::default();
    let mut index = 0;
    // A library that keeps little must not make this endless.
    while met.pairs < inputs.count && index < 1000 + 32 * inputs.count {
        let (run, later) = generate::stores::run_and_later(index, &mut random);
        index += 1;
        let Some(pair) = Pair::of(run, &mut random) else {
            continue;
        };
        let number = random.bits() as u8;
        let outcomes = match pair.each(|run| kept_and_gone_on(number, run, later)) {
            Ok([Some(long), Some(short)]) => Ok([long, short]),
            // A refused keep is no pair.
            Ok(_) => continue,
            Err(memory) => Err(memory),
        };
        met.judge(&pair, outcomes, &format!(", {later} later windows"));
    }
    let mut expected = expected(Systems::All);
    expected.retain(|(number, _)| [0, 4, 5, 14, 16, 17, 18].contains(number));
    met.report("later pairs", &inputs, &expected) && met.pairs == inputs.count
}

/// Keeps a run in a store of its own and goes on for `later` windows; nothing where the keep is
/// refused.
fn kept_and_gone_on(number: u8, run: &Run, later: u64) -> Result<Option<Outcome>, String> {
    let mut store = Memory::default();
    store.answer(&Call::Empty)?;
    let kept = store.kept(number, run)?;
    if kept.refusal != Refusal::NONE {
        return Ok(None);
    }
    let mut brought = run.clone();
    brought.settings.windows = later;
    brought.rows = rows_that_fit(&brought);
    let mut outcome = store.gone_on(number, &brought)?;
    outcome.rows.splice(..0, kept.rows);
    Ok(Some(outcome))
}

/// The run in a dispatcher where others have their turns too.
fn beside_others(run: &Run, random: &mut Random) -> Result<Outcome, String> {
    let mut side_by_side = SideBySide::default();
    side_by_side.memory.answer(&dispatcher::Call::Empty)?;
    side_by_side.add_others(random)?;
    let (refusal, name) = side_by_side.hand_in(run)?;
    side_by_side.add_others(random)?;
    if refusal != Refusal::NONE {
        return Ok(Outcome::untouched(refusal, run.lengths().filled()));
    }
    // No run here has nearly as many windows.
    for _ in 0..10_000 {
        let turned = side_by_side.turn()?;
        if turned.name == name && turned.stage != UNDER_WAY {
            return Ok(turned.outcome);
        }
    }
    Err("a run that is never over".to_string())
}

/// A dispatcher, and what its runs are lent, by their names.
#[derive(Default)]
struct SideBySide {
    memory: dispatcher::Memory,
    lent: BTreeMap<u64, Lending>,
}

impl SideBySide {
    fn add_others(&mut self, random: &mut Random) -> Result<(), String> {
        for _ in 0..random.below(4) {
            let other = generate::stores::short_run(random);
            self.hand_in(&generate::dispatchers::with_what_fits(&other, random))?;
        }
        Ok(())
    }

    fn hand_in(&mut self, run: &Run) -> Result<(Refusal, u64), String> {
        let (refusal, name) = self.memory.handed_in(run)?;
        if refusal == Refusal::NONE {
            self.lent.insert(name, Lending::of(run, name as usize));
        }
        Ok((refusal, name))
    }

    fn turn(&mut self) -> Result<Turned, String> {
        let name = self.memory.next();
        let lending = self.lent.get_mut(&name);
        let lending = lending.ok_or_else(|| format!("{name} is next, which is no run"))?;
        let turned = self.memory.turned(lending)?;
        lending.fresh = false;
        Ok(turned)
    }
}

/// What the pairs met. Both runs of a pair have a size.
#[derive(Default)]
struct Met {
    tally: Tally,
    sizes: Sizes,
    pairs: u64,
    against: Differences,
}

impl Met {
    /// Counts a pair. `more` is said of it where it is against the claim.
    fn judge(&mut self, pair: &Pair, outcomes: Result<[Outcome; 2], String>, more: &str) {
        self.pairs += 1;
        let judged = outcomes.and_then(|[long, short]| self.side(pair, &long, &short));
        if let Err(broken) = judged {
            let (k, longer) = (pair.shorter.settings.top_k, pair.longer.written());
            self.against
                .add(|| format!("pairs: {broken}, k={k}{more} against {longer}"));
        }
    }

    /// Prints what was met; answers whether it is all that is `expected`, and nothing is against
    /// the claim.
    fn report(&self, name: &str, inputs: &Inputs, expected: &[(u64, String)]) -> bool {
        let (pairs, against) = (self.pairs, self.against.count);
        println!("By the refusal of the run for K:");
        self.tally.print();
        println!("{name}: {pairs} pairs, {against} against the claim");
        let expected: Vec<_> = expected.iter().map(|(n, label)| (*n, &label[..])).collect();
        let sized = inputs.covered_by(&self.sizes);
        self.tally.covers(pairs, &expected) && sized && against == 0
    }
}

/// The refusals of the run for K, with the label, that must be met. Systems of one kind are drawn
/// so that only their motion refuses them, and of these only rings so that a late direction often
/// is the first that is refused.
fn expected(systems: Systems) -> Vec<(u64, String)> {
    let tests: &[u64] = match systems.kind() {
        Some(_) => &[14, 15, 16, 17],
        None => &[2, 3, 4, 29, 5, 6, 25, 9, 10, 11, 14, 15, 16, 17, 18],
    };
    let mut expected: Vec<_> = tests.iter().map(|n| (*n, EQUAL.to_string())).collect();
    if matches!(systems, Systems::All | Systems::Of(RING)) {
        expected.extend([14, 17].map(|n| (n, NOT_EQUAL.to_string())));
    }
    let kinds = systems.kinds().iter();
    expected.extend(kinds.map(|kind| (0, format!("{EQUAL}{}", kind.label))));
    expected
}

/// The run for K, with 1 <= K <= d, and the one for a smaller k, or now and then for the same, each
/// with outputs that are long enough. Other tests may fail.
struct Pair {
    longer: Run,
    shorter: Run,
}

impl Pair {
    fn of(run: Run, random: &mut Random) -> Option<Self> {
        let d = run.circuit.dimension();
        if d == 0 || d > 16 {
            return None;
        }
        let top_k = run.settings.top_k.clamp(1, d);
        let shorter = match top_k {
            1 if !random.one_in(8) => return None,
            1 => 1,
            _ if random.one_in(16) => top_k,
            _ => 1 + random.size_below(top_k - 1),
        };
        let with = |top_k: usize| {
            let mut run = run.clone();
            run.settings.top_k = top_k;
            run.rows = rows_that_fit(&run);
            run.exponents = top_k;
            run.final_state = d;
            run
        };
        Some(Self {
            longer: with(top_k),
            shorter: with(shorter),
        })
    }

    /// What `outcome` answers for each of the two.
    fn each<T>(
        &self,
        mut outcome: impl FnMut(&Run) -> Result<T, String>,
    ) -> Result<[T; 2], String> {
        Ok([outcome(&self.longer)?, outcome(&self.shorter)?])
    }
}

/// Where a count is over, no output is looked at.
fn rows_that_fit(run: &Run) -> usize {
    run.settings.row_width() * run.settings.windows.min(64) as usize
}

impl Met {
    /// Counts the side of a pair, or says what is broken.
    fn side(&mut self, pair: &Pair, long: &Outcome, short: &Outcome) -> Result<(), String> {
        let Pair { longer, shorter } = pair;
        let number = long.refusal.number;
        if number == 13 || short.refusal.number == 13 {
            return Err("refused by 13".to_string());
        }
        let k = shorter.settings.top_k;
        let equal = leading_equals(long, longer.settings.top_k, short, k);
        let above = refused_at_or_above(long, k, longer.circuit.dimension());
        match (equal, above) {
            (true, false) if number == 0 => {
                let system = longer.circuit.label();
                self.tally.count(number, &format!("{EQUAL}{system}"));
                let sizes = [longer, shorter].map(Run::size);
                for size in sizes.into_iter().flatten() {
                    self.sizes.count(size);
                }
            }
            (true, false) => self.tally.count(number, EQUAL),
            (false, true) => self.tally.count(number, NOT_EQUAL),
            (true, true) => return Err("equal, though refused at k or above".to_string()),
            (false, false) => return Err("not equal".to_string()),
        }
        Ok(())
    }
}

fn refused_at_or_above(outcome: &Outcome, k: usize, d: usize) -> bool {
    let place = outcome.refusal.place as usize;
    let direction = match outcome.refusal.number {
        14 => place,
        17 => place / d,
        _ => return false,
    };
    direction >= k
}

/// Whether the run for K, struck to its leading k directions, equals the run for k.
fn leading_equals(long: &Outcome, top_k: usize, short: &Outcome, k: usize) -> bool {
    let refused = (long.refusal, long.finished, long.steps);
    if refused != (short.refusal, short.finished, short.steps) {
        return false;
    }
    if long.faint[..k] != short.faint[..k] || !rows_equal(long, top_k, short, k) {
        return false;
    }
    long.refusal != Refusal::NONE
        || (same_list(&long.exponents[..k], &short.exponents)
            && same_list(&long.final_state, &short.final_state)
            && same(long.final_time, short.final_time)
            && same(long.measured_time, short.measured_time))
}

/// End times, locals and runnings below k of the finished windows.
fn rows_equal(long: &Outcome, top_k: usize, short: &Outcome, k: usize) -> bool {
    let long_rows = long.rows.chunks(1 + 2 * top_k);
    let short_rows = short.rows.chunks(1 + 2 * k);
    let mut rows = long_rows.zip(short_rows).take(long.finished as usize);
    rows.all(|(long, short)| {
        same(long[0], short[0])
            && same_list(&long[1..1 + k], &short[1..1 + k])
            && same_list(&long[1 + top_k..1 + top_k + k], &short[1 + k..])
    })
}

#[cfg(test)]
mod tests {
    use super::*;

    fn outcome(number: u64, place: u64, rows: &[f64]) -> Outcome {
        Outcome {
            refusal: Refusal { number, place },
            finished: 1,
            steps: 3,
            faint: vec![0; 16],
            final_time: 0.0,
            measured_time: 0.0,
            rows: rows.to_vec(),
            exponents: rows[1..1 + rows.len() / 2].to_vec(),
            final_state: vec![1.0],
        }
    }

    #[test]
    fn what_is_left_is_compared() {
        let long = outcome(0, 0, &[9.0, 1.0, 2.0, 3.0, 4.0]);
        assert!(leading_equals(
            &long,
            2,
            &outcome(0, 0, &[9.0, 1.0, 3.0]),
            1
        ));
        for rows in [[9.5, 1.0, 3.0], [9.0, 2.0, 3.0], [9.0, 1.0, 4.0]] {
            assert!(
                !leading_equals(&long, 2, &outcome(0, 0, &rows), 1),
                "{rows:?}"
            );
        }
        let mut short = outcome(0, 0, &[9.0, 1.0, 3.0]);
        short.final_state = vec![2.0];
        assert!(!leading_equals(&long, 2, &short, 1));
    }

    #[test]
    fn refusals_at_a_direction() {
        let row = [0.0, 0.0, 0.0];
        assert!(refused_at_or_above(&outcome(14, 2, &row), 2, 3));
        assert!(!refused_at_or_above(&outcome(14, 1, &row), 2, 3));
        assert!(refused_at_or_above(&outcome(17, 6, &row), 2, 3));
        assert!(!refused_at_or_above(&outcome(17, 5, &row), 2, 3));
        assert!(!refused_at_or_above(&outcome(16, 6, &row), 2, 3));
    }
}
