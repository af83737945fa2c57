//! Replays a list of cases.

use super::{Differences, PRINTED};
use crate::cases::{
    dispatcher, Build, Call, Called, Case, Draw, Listed, Log, Memory, Orth, Program, Rates, Root,
    Run, Step, Validate,
};
use crate::line::Line;
use crate::values::Answer;
use std::collections::BTreeMap;
use std::path::Path;

/// What became of the cases of one kind.
#[derive(Default)]
struct Count {
    compared: u64,
    not_covered: u64,
    differ: u64,
}

/// What became of one case.
enum Replayed {
    Same,
    Differs(String),
    /// Its program is not given.
    NotCovered,
}

/// Replays every case of `text`; `program` is the path of the program `spectrum`.
pub fn replay(text: &str, program: Option<&Path>) -> Result<bool, String> {
    let mut counts: BTreeMap<String, Count> = BTreeMap::new();
    let mut kept = Kept::default();
    let mut differences = Differences::default();
    for (number, text) in text.lines().enumerate() {
        if text.is_empty() || text.starts_with('#') {
            continue;
        }
        let in_line = |error: String| format!("line {}: {error}", number + 1);
        let line = Line::read(text).map_err(in_line)?;
        let (kind, id) = (line.kind.to_string(), line.id.to_string());
        let replayed = replay_line(line, program, &mut kept).map_err(in_line)?;
        let count = counts.entry(kind).or_default();
        match replayed {
            Replayed::Same => count.compared += 1,
            Replayed::NotCovered => count.not_covered += 1,
            Replayed::Differs(difference) => {
                count.compared += 1;
                count.differ += 1;
                differences.add(|| format!("{id}: {difference}"));
            }
        }
    }
    if differences.count > PRINTED {
        println!("{} more differ", differences.count - PRINTED);
    }
    Ok(print_counts(&counts))
}

fn print_counts(counts: &BTreeMap<String, Count>) -> bool {
    let (mut compared, mut differ) = (0, 0);
    for (kind, count) in counts {
        if count.compared > 0 {
            println!("{kind}: {} cases, {} differ", count.compared, count.differ);
        }
        if count.not_covered > 0 {
            println!("{kind}: {} cases need --program PATH", count.not_covered);
        }
        compared += count.compared;
        differ += count.differ;
    }
    println!("{compared} cases, {differ} differ");
    compared > 0 && differ == 0
}

/// What the lines before have left. The first call of each must empty it.
#[derive(Default)]
struct Kept {
    store: Option<Memory>,
    dispatcher: Option<dispatcher::Memory>,
}

fn replay_line(line: Line, program: Option<&Path>, kept: &mut Kept) -> Result<Replayed, String> {
    match line.kind {
        Root::KIND => replay_case::<Root>(line),
        Log::KIND => replay_case::<Log>(line),
        Draw::KIND => replay_case::<Draw>(line),
        Step::KIND => replay_case::<Step>(line),
        Orth::KIND => replay_case::<Orth>(line),
        Run::KIND => replay_case::<Run>(line),
        Rates::KIND => replay_case::<Rates>(line),
        Build::KIND => replay_case::<Build>(line),
        Validate::KIND => replay_case::<Validate>(line),
        Program::KIND => replay_program(line, program),
        kind if Call::KINDS.contains(&kind) => replay_call::<Call>(line, &mut kept.store),
        kind if dispatcher::Call::KINDS.contains(&kind) => {
            replay_call::<dispatcher::Call>(line, &mut kept.dispatcher)
        }
        kind => Err(format!("unknown kind {kind}")),
    }
}

fn replay_call<C: Listed>(
    mut line: Line,
    memory: &mut Option<C::Memory>,
) -> Result<Replayed, String> {
    let call = C::read(line.kind, &mut line.input)?;
    line.input.finish()?;
    let expected = line.answer.answer(call.answer())?;
    let empties = C::KINDS[0];
    if line.kind == empties {
        memory.get_or_insert_default();
    }
    let memory = memory
        .as_mut()
        .ok_or_else(|| format!("no {empties} stands before it"))?;
    call.test(memory)?;
    Ok(answered(&expected, call.library(memory)))
}

fn replay_case<C: Called>(line: Line) -> Result<Replayed, String> {
    let (case, expected) = read::<C>(line)?;
    Ok(answered(&expected, case.library()))
}

/// What became of a case that the library answers.
fn answered(expected: &Answer, library: Result<Answer, String>) -> Replayed {
    match library {
        Ok(answer) => replayed(expected, &answer),
        Err(memory) => Replayed::Differs(memory),
    }
}

fn replay_program(line: Line, program: Option<&Path>) -> Result<Replayed, String> {
    let (case, expected) = read::<Program>(line)?;
    Ok(match program {
        Some(path) => replayed(&expected, &case.printed(path)?),
        None => Replayed::NotCovered,
    })
}

/// A case and its answer.
fn read<C: Case>(mut line: Line) -> Result<(C, Answer), String> {
    let case = C::read(&mut line.input)?;
    line.input.finish()?;
    Ok((case, line.answer.answer(C::ANSWER)?))
}

fn replayed(expected: &Answer, actual: &Answer) -> Replayed {
    let difference = expected.difference(actual);
    difference.map_or(Replayed::Same, Replayed::Differs)
}
