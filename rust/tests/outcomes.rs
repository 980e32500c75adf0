//! Every recorded outcome, run on the reference implementation.

use campaign::call::CallKind;
use campaign::engine::REFERENCE;
use campaign::harness::{check_lines, run_lines, some_line_differs};
use campaign::impostors::{check_found, HONEST};

#[test]
fn read() {
    check_lines(&REFERENCE, CallKind::Read);
}

#[test]
fn block() {
    check_lines(&REFERENCE, CallKind::Block);
}

#[test]
fn normalise() {
    check_lines(&REFERENCE, CallKind::Normalise);
}

#[test]
fn step() {
    check_lines(&REFERENCE, CallKind::Step);
}

#[test]
fn decide() {
    check_lines(&REFERENCE, CallKind::Decide);
}

#[test]
fn plan() {
    check_lines(&REFERENCE, CallKind::Plan);
}

#[test]
fn campaign() {
    check_lines(&REFERENCE, CallKind::Campaign);
}

#[test]
fn pddl() {
    check_lines(&REFERENCE, CallKind::Pddl);
}

#[test]
fn blocking() {
    check_lines(&REFERENCE, CallKind::Blocking);
}

#[test]
fn rewrite() {
    check_lines(&REFERENCE, CallKind::Rewrite);
}

#[test]
fn place() {
    check_lines(&REFERENCE, CallKind::Place);
}

#[test]
fn check() {
    check_lines(&REFERENCE, CallKind::Check);
}

#[test]
fn listing() {
    check_lines(&REFERENCE, CallKind::Listing);
}

#[test]
fn calls_with_the_rigs_limits() {
    for kind in CallKind::RIG {
        check_lines(&REFERENCE, *kind);
    }
}

/// The listing made of `campaign` prints the same.
#[test]
fn listing_of_other_calls() {
    check_lines(&HONEST, CallKind::Listing);
}

#[test]
fn impostors_are_found() {
    check_found(&CallKind::ALL, |kind, engine| {
        some_line_differs(engine, kind)
    });
}

#[test]
fn a_difference_names_file_line_and_both_outcomes() {
    let lines = "540000004745 -> ok 54 0 0 0\n540000004745 -> ok 54 0 0 1\n";
    let difference = run_lines(&REFERENCE, CallKind::Read, "read.txt", lines).unwrap_err();
    let text = difference.to_string();
    for part in ["read.txt line 2", "ok 54 0 0 0", "ok 54 0 0 1"] {
        assert!(text.contains(part), "{text}");
    }
}
