//! Arrays in the code. Contracts are no code: a list there takes no memory.

use crate::tokens::{Kind, Token};

/// The types of single numbers: a slice of them, or of a type parameter, that is lent is the one use of
/// brackets, beside attributes and indices, that is no array.
const NUMBERS: [&str; 13] = [
    "u8", "u16", "u32", "u64", "usize", "i8", "i16", "i32", "i64", "isize", "f32", "f64", "bool",
];

/// Words after which a bracket is no index.
const KEYWORDS: [&str; 9] = [
    "mut", "return", "break", "in", "if", "else", "match", "while", "as",
];

/// The lines of the code that have an array, and of which sort.
pub fn arrays(tokens: &[Token]) -> Vec<(usize, &'static str)> {
    let code: Vec<&Token> = without_contracts(tokens);
    let mut found = Vec::new();
    for (at, token) in code.iter().enumerate() {
        if matches!(token.kind, Kind::Text(_)) {
            found.push((token.line, "a quoted text, which is a constant array"));
        }
        if token.is_sign('[') && !is_attribute_or_index(&code[..at]) && !is_slice(&code[..], at) {
            found.push((token.line, "an array"));
        }
    }
    found
}

fn is_attribute_or_index(before: &[&Token]) -> bool {
    let Some(last) = before.last() else {
        return false;
    };
    match &last.kind {
        Kind::Word(word) => !KEYWORDS.contains(&word.as_str()),
        // An attribute of a whole file begins with `#!`.
        Kind::Sign('!') => before
            .iter()
            .rev()
            .nth(1)
            .is_some_and(|sign| sign.is_sign('#')),
        Kind::Sign(sign) => ['#', ')', ']'].contains(sign),
        _ => false,
    }
}

/// Whether the bracket at `at` begins `[T]` behind `&` or `&mut`, for numbers T or a type parameter T of
/// the function that it stands in.
fn is_slice(code: &[&Token], at: usize) -> bool {
    let lent = match &code[..at] {
        [.., and, word] if word.word() == Some("mut") => and.is_sign('&'),
        [.., and] => and.is_sign('&'),
        [] => false,
    };
    let is_type = |of: &str| NUMBERS.contains(&of) || type_parameters(&code[..at]).contains(&of);
    let of_a_type = match &code[at + 1..] {
        [of, end, ..] => of.word().is_some_and(is_type) && end.is_sign(']'),
        _ => false,
    };
    lent && of_a_type
}

/// The type parameters of the last function before: a name behind `<` or a comma is one, a lifetime or
/// a const parameter has another word or sign before its name.
fn type_parameters<'a>(before: &[&'a Token]) -> Vec<&'a str> {
    let Some(function) = before.iter().rposition(|token| token.word() == Some("fn")) else {
        return Vec::new();
    };
    let generics = &before[before.len().min(function + 2)..];
    if !generics.first().is_some_and(|token| token.is_sign('<')) {
        return Vec::new();
    }
    let end = generics.iter().position(|token| token.is_sign('>'));
    let names = generics[..end.unwrap_or(generics.len())].windows(2);
    names
        .filter(|pair| pair[0].is_sign('<') || pair[0].is_sign(','))
        .filter_map(|pair| pair[1].word())
        .filter(|name| *name != "const")
        .collect()
}

/// The tokens without `ghost use` lines and without the clauses of contracts.
fn without_contracts(tokens: &[Token]) -> Vec<&Token> {
    let mut code = Vec::new();
    let mut at = 0;
    while at < tokens.len() {
        match contract(&tokens[at..]) {
            0 => {
                code.push(&tokens[at]);
                at += 1;
            }
            length => at += length,
        }
    }
    code
}

/// How many tokens the contract's clause has that these begin with; 0 where they begin with none.
fn contract(tokens: &[Token]) -> usize {
    let word = |at: usize| tokens.get(at).and_then(Token::word);
    let opens = |at: usize| tokens.get(at).is_some_and(|token| token.is_sign('{'));
    match word(0) {
        Some("ghost") if word(1) == Some("use") => ended(tokens, |_, token| token.is_sign(';')),
        Some("ghost" | "requires" | "ensures") if opens(1) || (word(1).is_some() && opens(2)) => {
            ended(tokens, |depth, token| depth == 0 && token.is_sign('}'))
        }
        _ => 0,
    }
}

/// How many tokens there are up to the first that ends them, given the braces open behind it.
fn ended(tokens: &[Token], ends: impl Fn(usize, &Token) -> bool) -> usize {
    let mut depth: usize = 0;
    for (at, token) in tokens.iter().enumerate() {
        match token.kind {
            Kind::Sign('{') => depth += 1,
            Kind::Sign('}') => depth = depth.saturating_sub(1),
            _ => (),
        }
        if ends(depth, token) {
            return at + 1;
        }
    }
    tokens.len()
}

#[cfg(test)]
mod tests {
    use super::*;
    use crate::tokens::tokens;

    fn lines(text: &str) -> Vec<usize> {
        arrays(&tokens(text))
            .iter()
            .map(|(line, _)| *line)
            .collect()
    }

    #[test]
    fn what_is_no_array() {
        let text = "
            #![tactic(auto)]
            ghost use mathlib.Core.List.{[], _∷_};
            #[no_mangle]
            pub fn first<'a>(xs: &[f64], ys: &mut [u64], i: usize) -> f64
                requires { ⌜ xs ≡ [] × record { a = [] } ⌝ }
                ensures read { λ r. ⌜ r ≡ [] ⌝ }
            { (xs)[i] + ys[xs[i]][0] }
            pub fn copy<'a, const N: usize, T: Copy>(out: &mut [T], from: &'a [T]) {}
            pub fn count(xs: &[usize]) {}";
        assert_eq!(lines(text), [0; 0]);
    }

    #[test]
    fn arrays_of_every_sort() {
        for array in [
            "const T: [f64; 2] = t();",
            "const T: u64 = [1, 2][0];",
            "let t = [l1, l2];",
            "let t = [0.5; 9];",
            "f(&[l1])",
            "f(&mut [l1])",
            "f(&[0.5])",
            "return [x];",
            "if ![x][0] {}",
            "fn f(x: [f64; 3]) {}",
            "fn f(x: &[f64; 3]) {}",
            "fn f<T: Copy>(x: &[T; 3]) {}",
            "fn f<T: Copy>(x: [T; 3]) {}",
            "fn f<T: Copy>() { g(&[L1]) }",
            "fn f<const L1: u64>() { g(&[L1]) }",
            "fn f() { g(&[T]) }",
            "b\"table\"",
        ] {
            assert_eq!(lines(&format!("\n{array}"))[..1], [2], "{array}");
        }
    }
}
