//! Comparisons of stores, as a gate runs them, and lists that hold calls of one.

mod common;

use common::{agreed, compare, fixed_list, replayed};

#[test]
fn lists_meet_what_can_happen() {
    let text = agreed(&["stores", "--count", "1000"]);
    for met in [
        "not refused, kept in a forgotten place: ",
        "not refused, kept again among eight: ",
        "not refused, gone on after a refused keep: ",
        "not refused, gone on with what was not kept: ",
        "refused by 5 on going on, only all windows together over: ",
        "refused by 13 on going on, place 0: ",
        "refused by 14 on keeping, a used number: ",
        "refused by 17 after a later row: ",
        "refused by 18 in the first later window: ",
        "refused by 26 on going on, another test fails too: ",
        "refused by 26 on forgetting, a forgotten number: ",
        "refused by 27 on keeping, another test fails too: ",
    ] {
        assert!(text.contains(met), "{met} in {text}");
    }
    assert!(text.contains(" 0 lists differ"), "{text}");
}

#[test]
fn the_same_seed_makes_the_same_lists() {
    let lists = |seed| agreed(&["stores", "--count", "100", "--seed", seed]);
    assert_eq!(lists("2"), lists("2"));
    assert_ne!(lists("2"), lists("3"));
}

#[test]
fn later_pairs_show_both_sides() {
    let text = agreed(&["later-pairs", "--count", "20000"]);
    for number in [14, 17] {
        for side in [", equal: ", " at a direction k or above, not equal: "] {
            let met = format!("refused by {number}{side}");
            assert!(text.contains(&met), "{met} in {text}");
        }
    }
}

/// The calls of a store in the fixed list.
fn calls() -> Vec<String> {
    fixed_list(&["empty ", "keep ", "go-on ", "forget "])
}

#[test]
fn the_fixed_list_is_replayed_in_its_order() {
    let calls = calls();
    assert!(calls.len() > 80, "{}", calls.len());
    assert_eq!(replayed("whole", &calls), Some(0));
    let begins = |line: &String, kind: &str| line.starts_with(kind);
    let first_keep = calls.iter().position(|line| begins(line, "keep ")).unwrap();
    let mut without = calls.clone();
    without.remove(first_keep);
    assert_eq!(replayed("without-a-keep", &without), Some(1));
    let mut twice = calls.clone();
    let forgetting = calls
        .iter()
        .position(|line| line.contains("-> num=0 place=0 #") && begins(line, "forget "))
        .unwrap();
    twice.insert(forgetting, calls[forgetting].clone());
    assert_eq!(replayed("forgotten-twice", &twice), Some(1));
}

#[test]
fn malformed_calls() {
    let calls = calls();
    assert_eq!(replayed("not-emptied", &calls[1..]), Some(2));
    for (name, wrong) in [
        ("number", "forget id=A number=256 -> num=26 place=0"),
        ("no-number", "forget id=A -> num=26 place=0"),
        ("answer", "empty id=A -> num=0"),
        ("no-answer", "forget id=A number=1 ->"),
        ("field", "empty id=A number=1 ->"),
    ] {
        let lines = ["empty id=E ->", wrong].map(str::to_string);
        assert_eq!(replayed(name, &lines), Some(2), "{wrong}");
    }
}

#[test]
fn bad_usage() {
    for words in [
        &["stores"][..],
        &["stores", "--count", "1", "--system", "lorenz"],
        &["later-pairs", "--count", "1", "--system", "lorenz96"],
    ] {
        assert_eq!(compare(words).status.code(), Some(2), "{words:?}");
    }
}
