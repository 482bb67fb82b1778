//! Edits that do not find their words as often as they should are told, and none is made then.

#[path = "../edits.rs"]
mod edits;

use edits::{Edit, GIVEN, LENT, TOLERANT, edited};

const EDITS: [Edit; 3] = [
    ("close.rs", "< EPS", "< tolerance", 2),
    ("close.rs", "fn close()", "fn close(tolerance: f64)", 1),
    ("far.rs", "EPS", "FAR", 9),
];

fn told(text: &str) -> Result<String, String> {
    edited("close.rs", text.into(), &EDITS)
}

#[test]
fn words_that_are_found_as_often_as_expected_are_replaced() {
    let text = told("fn close() { x < EPS && y < EPS }");
    let wanted = "fn close(tolerance: f64) { x < tolerance && y < tolerance }";
    assert_eq!(text.as_deref(), Ok(wanted));
}

#[test]
fn words_that_are_found_too_seldom_are_told() {
    let sentence = "close.rs cannot be edited: expected 2 of `< EPS`, found 1";
    assert_eq!(told("fn close() { x < EPS }"), Err(sentence.into()));
    let sentence = "close.rs cannot be edited: expected 1 of `fn close()`, found 0";
    assert_eq!(told("x < EPS && y < EPS"), Err(sentence.into()));
}

#[test]
fn words_that_are_found_too_often_are_told() {
    let sentence = "close.rs cannot be edited: expected 2 of `< EPS`, found 3";
    let text = "fn close() { x < EPS && y < EPS && z < EPS }";
    assert_eq!(told(text), Err(sentence.into()));
}

/// No edit is of a file of which no copy is made.
#[test]
fn each_edit_is_of_a_file_that_is_copied() {
    let mut of_one = LENT.iter().chain(&GIVEN);
    assert!(of_one.all(|(file, ..)| *file == "parametric.rs"));
    let copied = ["parametric.rs", "vector.rs"];
    assert!(TOLERANT.iter().all(|(file, ..)| copied.contains(file)));
}
