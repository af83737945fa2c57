//! Comparisons of dispatchers, as a gate runs them, and lists that hold calls of one.

mod common;

use common::{agreed, compare, fixed_list, replayed};

#[test]
fn lists_meet_what_can_happen() {
    let text = agreed(&["dispatch", "--count", "1000"]);
    for met in [
        "not refused, a turn with nobody next: ",
        "not refused, more than eight taken in a list: ",
        "not refused, named as one that is over: ",
        "not refused, over as alone: ",
        "not refused, over with slices that changed between turns: ",
        "not refused, taken after a ninth was not: ",
        "not refused, taken and named 7: ",
        "refused by 5 on hand-in, place 2: ",
        "refused by 9 on a turn, an output is short too: ",
        "refused by 13 on a turn, place 2: ",
        "refused by 14, over beside unfinished others: ",
        "refused by 18, over after a row: ",
        "refused by 25 on hand-in: ",
        "refused by 28 on hand-in, another test fails too: ",
    ] {
        assert!(text.contains(met), "{met} in {text}");
    }
    assert!(text.contains(" 0 lists differ"), "{text}");
}

#[test]
fn the_same_seed_makes_the_same_lists() {
    let lists = |seed| agreed(&["dispatch", "--count", "100", "--seed", seed]);
    assert_eq!(lists("2"), lists("2"));
    assert_ne!(lists("2"), lists("3"));
}

#[test]
fn dispatched_pairs_show_both_sides() {
    let text = agreed(&["dispatched-pairs", "--count", "20000"]);
    for number in [14, 17] {
        for side in [", equal: ", " at a direction k or above, not equal: "] {
            let met = format!("refused by {number}{side}");
            assert!(text.contains(&met), "{met} in {text}");
        }
    }
}

/// The calls of a dispatcher in the fixed list.
fn calls() -> Vec<String> {
    fixed_list(&["dispatcher ", "hand-in ", "next ", "turn "])
}

#[test]
fn the_fixed_list_is_replayed_in_its_order() {
    let calls = calls();
    assert!(calls.len() > 80, "{}", calls.len());
    assert_eq!(replayed("whole-dispatch", &calls), Some(0));
    let without = |words: &[&str]| {
        let has = |line: &String| words.iter().all(|word| line.contains(word));
        let mut calls = calls.clone();
        calls.remove(calls.iter().position(has).expect("such a line"));
        calls
    };
    let hand_in = without(&["hand-in ", "-> num=0 "]);
    assert_eq!(replayed("without-a-hand-in", &hand_in), Some(1));
    let turn = without(&["turn ", " fresh=0 ", " stage=under-way "]);
    assert_eq!(replayed("without-a-turn", &turn), Some(1));
    // It is not spent, and leaves everything as it was.
    let unfit = without(&["turn ", " num=9 "]);
    assert_eq!(replayed("without-an-unfit-turn", &unfit), Some(0));
}

#[test]
fn answers_that_are_not_met() {
    let calls = calls();
    for (name, from, to) in [
        ("name", "-> num=0 place=0 name=3", "-> num=0 place=0 name=4"),
        ("begun", "name=0 begun=2", "name=0 begun=3"),
        ("stage", "stage=under-way", "stage=over"),
        ("place", "num=13 place=1", "num=13 place=2"),
        ("finished", "finished=- ", "finished=0 "),
        ("entry", "rows=.,", "rows=0000000000000000,"),
        ("next", "-> name=8", "-> name=0"),
    ] {
        let changed = |line: &String| line.replacen(from, to, 1);
        let at = calls.iter().position(|line| line.contains(from));
        let mut wrong = calls.clone();
        let at = at.unwrap_or_else(|| panic!("no {from}"));
        wrong[at] = changed(&wrong[at]);
        assert_eq!(
            replayed(&format!("wrong-{name}"), &wrong),
            Some(1),
            "{name}"
        );
    }
}

#[test]
fn malformed_calls() {
    let calls = calls();
    assert_eq!(replayed("no-dispatcher", &calls[1..]), Some(2));
    let lengths = "mat=- rowslen=0 expslen=0 finallen=0";
    for (name, wrong) in [
        ("not-made", format!("turn id=A set=0 fresh=0 {lengths} ->")),
        ("no-set", format!("turn id=A fresh=1 {lengths} ->")),
        ("set-16", format!("turn id=A set=16 fresh=1 {lengths} ->")),
        ("answer", "next id=A -> num=0".to_string()),
        ("no-answer", "next id=A ->".to_string()),
        ("field", "dispatcher id=A number=1 ->".to_string()),
    ] {
        let lines = ["dispatcher id=D ->".to_string(), wrong];
        assert_eq!(
            replayed(&format!("{name}-dispatch"), &lines),
            Some(2),
            "{name}"
        );
    }
}

#[test]
fn bad_usage() {
    for words in [
        &["dispatch"][..],
        &["dispatch", "--count", "1", "--system", "lorenz"],
        &["dispatched-pairs", "--count", "1", "--system", "lorenz96"],
    ] {
        assert_eq!(compare(words).status.code(), Some(2), "{words:?}");
    }
}
