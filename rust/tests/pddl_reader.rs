//! The reader of PDDL text itself, on texts written by hand from the published grammar.

mod faults;

use crate::common::pddl_reader::{read, Error};

/// A text with every form.
const WHOLE: &str = "
(define (domain campaign)
  (:requirements :strips :fluents)
  (:predicates (p0) (p1))
  (:functions (v0) (v1))
  (:action a0
    :parameters ()
    :precondition (and (p0) (>= (+ (* 1 (v0)) (* -2 (v1))) 3))
    :effect (and (p1) (not (p0)) (increase (v0) (+ (* 2 (v1)) -4))))
  (:action a1
    :parameters ()
    :precondition (and)
    :effect (and (assign (v1) 7))))
(define (problem first)
  (:domain campaign)
  (:init (p0) (= (v0) 5) (= (v1) -5))
  (:goal (and (p1) (= (* 3 (v0)) 12))))
";

const WHOLE_MEANING: &str = "state p0=1 p1=0 v0=5 v1=-5 \
    | a0 [p0; 1*v0 + -2*v1 >= 3] => [add p1; delete p0; v0 += 2*v1 + -4] \
    | a1 [] => [v1 := 7] \
    | goal [p1; 3*v0 = 12]";

/// A text without functions, and without flags.
const PROPOSITIONS: &str = "
(define (domain d)
  (:predicates (p0))
  (:action a0 :parameters () :precondition (and (p0)) :effect (and (not (p0)))))
(define (problem q) (:domain d) (:init (p0)) (:goal (and (p0))))
";

const PROPOSITIONS_MEANING: &str = "state p0=1 | a0 [p0] => [delete p0] | goal [p0]";

const NOTHING: &str = "
(define (domain d))
(define (problem d) (:domain d) (:init) (:goal (and)))
";

fn meaning(text: &str) -> Result<String, Error> {
    read(text.as_bytes()).map(|meaning| meaning.to_string())
}

/// A text with its first `old` part replaced.
///
/// # Panics
/// If it has no such part.
fn changed(text: &str, old: &str, new: &str) -> String {
    assert!(text.contains(old), "{old}");
    text.replacen(old, new, 1)
}

#[test]
fn whole_texts() {
    assert_eq!(meaning(WHOLE).as_deref(), Ok(WHOLE_MEANING));
    assert_eq!(meaning(PROPOSITIONS).as_deref(), Ok(PROPOSITIONS_MEANING));
    assert_eq!(meaning(NOTHING).as_deref(), Ok("state - | goal []"));
}

#[test]
fn conditions() {
    for (text, meaning_of_it) in [
        ("(p1)", "p1"),
        ("(p0) (p1) (p0)", "p0; p1; p0"),
        ("(>= 0 -4)", "0 >= -4"),
        ("(> (* -1 (v1)) 0)", "-1*v1 > 0"),
        ("(<= (* 1000 (v0)) -1000000)", "1000*v0 <= -1000000"),
        ("(< 0 0) (p1)", "0 < 0; p1"),
        (
            "(= (+ (* 0 (v0)) (* 2 (v1))) 9) (p0)",
            "0*v0 + 2*v1 = 9; p0",
        ),
        ("(>= (+ (* 1 (v0)) 0) 3)", "1*v0 >= 3"),
    ] {
        let text = changed(WHOLE, "(p1) (= (* 3 (v0)) 12)", text);
        let goal = changed(WHOLE_MEANING, "p1; 3*v0 = 12", meaning_of_it);
        assert_eq!(meaning(&text), Ok(goal), "{text}");
    }
}

#[test]
fn effects() {
    for (text, meaning_of_it) in [
        ("", ""),
        ("(not (p1)) (p0)", "delete p1; add p0"),
        ("(assign (v0) 0)", "v0 := 0"),
        ("(decrease (v1) -1000000)", "v1 -= -1000000"),
        ("(increase (v1) (* -3 (v1)))", "v1 += -3*v1 + 0"),
        ("(increase (v1) (+ (* -3 (v1)) 0))", "v1 += -3*v1 + 0"),
        (
            "(p1) (decrease (v0) (+ (* 1 (v0)) 5)) (not (p0))",
            "add p1; v0 -= 1*v0 + 5; delete p0",
        ),
    ] {
        let text = changed(WHOLE, "(assign (v1) 7)", text);
        let effect = changed(WHOLE_MEANING, "v1 := 7", meaning_of_it);
        assert_eq!(meaning(&text), Ok(effect), "{text}");
    }
}

#[test]
fn sums_in_any_nest() {
    let [a, b, c] = ["(* 1 (v0))", "(* -2 (v1))", "(* 3 (v0))"];
    for sum in [
        format!("(+ {a} (+ {b} (+ {c} 4)))"),
        format!("(+ (+ (+ {a} {b}) {c}) 4)"),
        format!("(+ (+ {a} {b}) (+ {c} 4))"),
        format!("(+ {a} (+ (+ {b} {c}) 4))"),
    ] {
        let text = changed(WHOLE, "(assign (v1) 7)", &format!("(assign (v1) {sum})"));
        let value = "v1 := 1*v0 + -2*v1 + 3*v0 + 4";
        let effect = changed(WHOLE_MEANING, "v1 := 7", value);
        assert_eq!(meaning(&text), Ok(effect), "{text}");
    }
}

#[test]
fn orders_are_kept_and_the_state_has_none() {
    let text = changed(WHOLE, "(p1) (= (* 3 (v0)) 12)", "(= (* 3 (v0)) 12) (p1)");
    let goal = changed(WHOLE_MEANING, "p1; 3*v0 = 12", "3*v0 = 12; p1");
    assert_eq!(meaning(&text), Ok(goal));
    let state = "(= (v1) -5) (p0) (= (v0) 5)";
    let text = changed(WHOLE, "(p0) (= (v0) 5) (= (v1) -5)", state);
    assert_eq!(meaning(&text).as_deref(), Ok(WHOLE_MEANING));
}

#[test]
fn sections_that_may_be_left_out() {
    let text = changed(WHOLE, ":strips ", "");
    assert_eq!(meaning(&text).as_deref(), Ok(WHOLE_MEANING));
    let text = changed(NOTHING, "d))", "d) (:requirements :fluents) (:functions))");
    assert_eq!(meaning(&text).as_deref(), Ok("state - | goal []"));
    let flags = "d) (:requirements :typing :strips)";
    let text = changed(PROPOSITIONS, "d)", flags);
    assert_eq!(meaning(&text).as_deref(), Ok(PROPOSITIONS_MEANING));
}

/// The tokens of a text.
fn tokens(text: &str) -> Vec<String> {
    let spaced = text.replace('(', " ( ").replace(')', " ) ");
    spaced.split_whitespace().map(String::from).collect()
}

#[test]
fn white_space_means_nothing() {
    let tight = WHOLE.split_whitespace().collect::<Vec<_>>().join(" ");
    let tight = tight.replace(" (", "(").replace(") ", ")");
    for text in [
        tight,
        tokens(WHOLE).join(" "),
        tokens(WHOLE).join("\r\n\t "),
        format!("\n \t\r{WHOLE}\n\n"),
    ] {
        assert_eq!(meaning(&text).as_deref(), Ok(WHOLE_MEANING), "{text}");
    }
}

/// Every token counts, but for a flag that nothing needs.
#[test]
fn a_token_left_out_or_doubled_is_an_error() {
    let whole = tokens(WHOLE);
    for i in 0..whole.len() {
        let mut doubled = whole.clone();
        doubled.insert(i, whole[i].clone());
        assert!(meaning(&doubled.join(" ")).is_err(), "{} {i}", whole[i]);
        let mut cut = whole.clone();
        let token = cut.remove(i);
        assert_eq!(
            meaning(&cut.join(" ")).is_ok(),
            token == ":strips",
            "{token} {i}"
        );
    }
}

#[test]
fn a_cut_text_is_an_error() {
    let text = WHOLE.trim_end();
    for length in 0..text.len() {
        assert!(meaning(&text[..length]).is_err(), "{}", &text[..length]);
    }
}

/// A changed byte is an error, but for a letter of the problem's name.
#[test]
fn no_byte_is_passed_over() {
    for i in 0..WHOLE.len() {
        for byte in [0, b'(', b')', b'x', b'A', b';', b'?', 0x0B, 0x7F, 0xC3] {
            let mut text = WHOLE.as_bytes().to_vec();
            let old = std::mem::replace(&mut text[i], byte);
            let Ok(read) = read(&text) else { continue };
            let title = byte == b'x' && old.is_ascii_lowercase();
            let same = old == byte || title;
            assert!(same && read.to_string() == WHOLE_MEANING, "{byte} at {i}");
        }
    }
}
