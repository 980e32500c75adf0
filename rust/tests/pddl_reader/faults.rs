//! Texts with one fault each. `@` marks the place of the error and is no part of the text.

use super::{changed, NOTHING, PROPOSITIONS, WHOLE};
use crate::common::pddl_reader::{read, Error};

/// A part of a text, what stands there instead, and the reason of the error.
type Fault = (&'static str, &'static str, &'static str);

fn check(text: &str, faults: &[Fault]) {
    for (old, new, reason) in faults {
        let marked = changed(text, old, new);
        let offset = marked.find('@').expect("a mark");
        let faulty = marked.replacen('@', "", 1);
        let error = Error {
            offset,
            reason: reason.to_string(),
        };
        assert_eq!(read(faulty.as_bytes()), Err(error), "{marked}");
    }
}

const NO_FLAG: &str = "no flag of PDDL 2.1";
const NO_FLUENTS: &str = "the flag :fluents is not set";
const NO_PROPOSITION: &str = "no declared proposition";
const NO_FUNCTION: &str = "no declared function";
const NO_NUMBER: &str = "a whole number is due";
const NO_OPERATOR: &str = "+ or * is due";
const NOT_LAST: &str = "the constant is not last";
const CONSTANT: &str = "a condition's sum has a constant";
const AGAIN: &str = "named again";

#[test]
fn flags() {
    let flags = ":strips :fluents";
    check(
        WHOLE,
        &[
            (flags, ":strips @:numeric-fluents", NO_FLAG),
            (flags, ":strips @fluents", NO_FLAG),
            (flags, ":fluents @:Strips", NO_FLAG),
            (flags, ":fluents @:action-costs", NO_FLAG),
            (flags, ":fluents :strips @:fluents", AGAIN),
            (flags, "@", "a flag is due"),
            (flags, ":strips) @(:requirements :fluents", ") is due"),
            (
                "(:requirements :strips :fluents)\n  (:predicates (p0) (p1))",
                "(:predicates (p0) (p1)) @(:requirements :strips :fluents)",
                ") is due",
            ),
        ],
    );
}

#[test]
fn fluents_without_their_flag() {
    check(
        WHOLE,
        &[(
            " :fluents)\n  (:predicates (p0) (p1))\n  (:functions",
            ") (@:functions",
            NO_FLUENTS,
        )],
    );
    check(
        PROPOSITIONS,
        &[
            ("(and (p0)) :effect", "(and (@< 0 1)) :effect", NO_FLUENTS),
            ("(not (p0))", "(@assign (v0) 0)", NO_FLUENTS),
            ("(:init (p0))", "(:init (@= (v0) 0))", NO_FLUENTS),
            ("(:goal (and (p0)))", "(:goal (and (@= 0 0)))", NO_FLUENTS),
            (
                "d)",
                "d) (:requirements :adl)\n(:predicates (p0)) (@:functions)",
                NO_FLUENTS,
            ),
        ],
    );
}

#[test]
fn declarations() {
    let (predicates, functions) = ("(:predicates (p0) (p1))", "(:functions (v0) (v1))");
    check(
        WHOLE,
        &[
            (predicates, "(:predicates @)", "a proposition is due"),
            (predicates, "(:predicates (p0) (@p0))", "p1 is due"),
            (predicates, "(:predicates (p0) (@p2))", "p1 is due"),
            (predicates, "(:predicates (p0) (@p01))", "p1 is due"),
            (predicates, "(:predicates (@P0) (p1))", "p0 is due"),
            (predicates, "(:predicates (@p1) (p0))", "p0 is due"),
            (predicates, "(:predicates @p0 p1)", "( is due"),
            (predicates, "(:predicates (p0 @?x) (p1))", ") is due"),
            (
                predicates,
                "(:predicates (p0)) @(:predicates (p1))",
                ") is due",
            ),
            (
                predicates,
                "@(:types t) (:predicates (p0) (p1))",
                ") is due",
            ),
            (functions, "(:functions (v0) (@v0))", "v1 is due"),
            (functions, "(:functions (v0) (@p1))", "v1 is due"),
            (functions, "(:functions (v0) @- number)", "( is due"),
            (
                functions,
                "(:functions (v0) (v1)) @(:predicates (p2))",
                ") is due",
            ),
            (functions, "@(:metric (v0))", ") is due"),
        ],
    );
}

#[test]
fn actions() {
    let second = ":action a1\n    :parameters ()\n    :precondition (and)\n    ";
    check(
        WHOLE,
        &[
            ("a1", "@a0", "a1 is due"),
            ("a1", "@a2", "a1 is due"),
            ("a1", "@a01", "a1 is due"),
            ("(:action a1", "@(:durative-action a1", ") is due"),
            (
                second,
                ":action a1 @:precondition (and)",
                ":parameters is due",
            ),
            (second, ":action a1 :parameters (@?x)", ") is due"),
            (second, ":action a1 :parameters @:precondition", "( is due"),
            (
                second,
                ":action a1 :parameters () @",
                ":precondition is due",
            ),
            (
                second,
                ":action a1 :parameters () :precondition (@)",
                "and is due",
            ),
            (":effect (and (assign (v1) 7))", "@", ":effect is due"),
            ("(and (assign (v1) 7))", "(@assign (v1) 7)", "and is due"),
            ("(and (assign (v1) 7))", "(@)", "and is due"),
            ("(and (assign (v1) 7))", "(and) @:effect (and)", ") is due"),
        ],
    );
}

#[test]
fn conditions() {
    let goal = "(p1) (= (* 3 (v0)) 12)";
    check(
        WHOLE,
        &[
            (goal, "(@and (p1))", NO_PROPOSITION),
            (goal, "(@or (p1))", NO_PROPOSITION),
            (goal, "(@not (p1))", NO_PROPOSITION),
            (goal, "(@p2)", NO_PROPOSITION),
            (goal, "(@p01)", NO_PROPOSITION),
            (goal, "(@P1)", NO_PROPOSITION),
            (goal, "(@v0)", NO_PROPOSITION),
            (goal, "(@)", NO_PROPOSITION),
            (goal, "@p1", "( is due"),
            (goal, "(p1 @p0)", ") is due"),
            (goal, "(@!= (* 3 (v0)) 12)", NO_PROPOSITION),
            (goal, "(@=> (* 3 (v0)) 12)", NO_PROPOSITION),
            (goal, "(= (* 3 (v0)) 12 @13)", ") is due"),
            (goal, "(= (* 3 (v0))@)", NO_NUMBER),
            (goal, "(= 0 @(* 3 (v0)))", NO_NUMBER),
            (goal, "(@= 12 (* 3 (v0)))", CONSTANT),
            (goal, "(= (* 3 (v0)) @(v1))", NO_NUMBER),
            (goal, "(= (* 3 (v0)) @(- 12))", NO_NUMBER),
            (goal, "(@= 1 12)", CONSTANT),
            (goal, "(@= (+ (* 3 (v0)) 1) 12)", CONSTANT),
        ],
    );
}

#[test]
fn effects() {
    let effect = "(assign (v1) 7)";
    check(
        WHOLE,
        &[
            (effect, "(@and (p1))", NO_PROPOSITION),
            (effect, "(@when (p0) (p1))", NO_PROPOSITION),
            (effect, "(@forall () (p1))", NO_PROPOSITION),
            (effect, "(@p2)", NO_PROPOSITION),
            (effect, "(not (@p2))", NO_PROPOSITION),
            (effect, "(not @p1)", "( is due"),
            (effect, "(not (@not (p1)))", NO_PROPOSITION),
            (effect, "(not (p1) @(p0))", ") is due"),
            (effect, "(@= (v1) 7)", NO_PROPOSITION),
            (effect, "(@scale-up (v1) 7)", NO_PROPOSITION),
            (effect, "(@scale-down (v1) 7)", NO_PROPOSITION),
            (effect, "(assign @v1 7)", "( is due"),
            (effect, "(assign (@v2) 7)", NO_FUNCTION),
            (effect, "(assign (@p1) 7)", NO_FUNCTION),
            (effect, "(assign (v1 @v0) 7)", ") is due"),
            (effect, "(assign (v1)@)", NO_NUMBER),
            (effect, "(assign (v1) 7 @8)", ") is due"),
        ],
    );
}

#[test]
fn sums() {
    let seven = "7)";
    check(
        WHOLE,
        &[
            (seven, "(@v0))", NO_OPERATOR),
            (seven, "@v0)", NO_NUMBER),
            (seven, "(@- 7))", NO_OPERATOR),
            (seven, "(@- (* 1 (v0)) 7))", NO_OPERATOR),
            (seven, "(@/ (* 1 (v0)) 7))", NO_OPERATOR),
            (seven, "(+ (* 1 (v0))@))", NO_NUMBER),
            (seven, "(+ (* 1 (v0)) (* 2 (v1)) @7))", ") is due"),
            (seven, "(* 2 (v0) @(v1)))", ") is due"),
            (seven, "(* @(v0) 2))", NO_NUMBER),
            (seven, "(* @(v0) (v1)))", NO_NUMBER),
            (seven, "(* 2 @3))", "( is due"),
            (seven, "(* 2 @v0))", "( is due"),
            (seven, "(* 2 (@v2)))", NO_FUNCTION),
            (seven, "(* 2 (@* 3 (v0))))", NO_FUNCTION),
            (seven, "(* 2 (@+ (* 1 (v0)) 1)))", NO_FUNCTION),
            (seven, "(+ 7 @(* 1 (v0))))", NOT_LAST),
            (seven, "(+ (+ (* 1 (v0)) 7) @(* 2 (v1))))", NOT_LAST),
            (seven, "(+ 7 @8))", NOT_LAST),
            (seven, "@7.0)", NO_NUMBER),
            (seven, "@+7)", NO_NUMBER),
            (seven, "@07)", NO_NUMBER),
            (seven, "@-0)", NO_NUMBER),
            (seven, "@1e3)", NO_NUMBER),
            (seven, "@9223372036854775808)", NO_NUMBER),
            (seven, "@#t)", NO_NUMBER),
        ],
    );
}

#[test]
fn states() {
    let state = "(p0) (= (v0) 5) (= (v1) -5)";
    check(
        WHOLE,
        &[
            (state, "(= (v0) 5)@", "a function has no value"),
            (state, "(= (v0) 5) (= (v1) @(- 5))", NO_NUMBER),
            (state, "(= (v0) 5) (= (v1) @- 5)", NO_NUMBER),
            (state, "(= (v0) 5) (= (v1) @(+ 2 3))", NO_NUMBER),
            (state, "(= (v0) 5) (= (v1) @5.0)", NO_NUMBER),
            (state, "(= (v0) 5) (@= (v0) 5) (= (v1) -5)", AGAIN),
            (state, "(= (v0) 5) (= (@v2) 5)", NO_FUNCTION),
            (state, "(= (v0) 5) (= @v1 -5)", "( is due"),
            (state, "(= (v0) 5) (= @-5 (v1))", "( is due"),
            (state, "(= (v0) 5 @6)", ") is due"),
            (state, "(@>= (v0) 5)", NO_PROPOSITION),
            (state, "(@not (p1))", NO_PROPOSITION),
            (state, "(@p2)", NO_PROPOSITION),
            (state, "(p0) (@p0)", AGAIN),
            (state, "(@and (p0))", NO_PROPOSITION),
            (state, "@p0", "( is due"),
        ],
    );
}

#[test]
fn titles_and_sections_of_a_problem() {
    let goal = "(:goal (and (p1) (= (* 3 (v0)) 12)))";
    check(
        WHOLE,
        &[
            ("(:domain campaign)", "(:domain @other)", "another domain"),
            (
                "(:domain campaign)",
                "(:domain @campaigns)",
                "another domain",
            ),
            ("(:domain campaign)", "(@domain campaign)", ":domain is due"),
            (
                "(:domain campaign)",
                "(@:requirements :fluents)",
                ":domain is due",
            ),
            ("(:domain campaign)\n  (:init", "(@:init", ":domain is due"),
            ("(problem first)", "(@domain first)", "problem is due"),
            ("(problem first)", "(problem@)", "a name is due"),
            ("(problem first)", "(problem @1st)", "a name is due"),
            ("(problem first)", "(problem @First)", "a name is due"),
            ("(problem first)", "(problem @a.b)", "a name is due"),
            ("(domain campaign)", "(@problem campaign)", "domain is due"),
            ("(domain campaign)", "(domain campaign @two)", ") is due"),
            ("(define", "(@DEFINE", "define is due"),
            ("(:init", "(@:objects o) (:init", ":init is due"),
            ("(:init", "(@:goal (and)) (:init", ":init is due"),
            (goal, "@", "( is due"),
            (goal, "(:goal @)", "( is due"),
            (goal, "(:goal (@p1))", "and is due"),
            (goal, "(:goal (and)) @(:goal (and))", ") is due"),
            (goal, "(:goal (and)) @(:metric minimize (v0))", ") is due"),
        ],
    );
}

#[test]
fn ends_and_characters() {
    let end = "(:goal (and)))\n";
    check(
        NOTHING,
        &[
            (end, "(:goal (and)))\n@)", "the end is due"),
            (end, "(:goal (and)))\n@x", "the end is due"),
            (
                end,
                "(:goal (and)))\n@(define (domain e))",
                "the end is due",
            ),
            (end, "(:goal (and)))\n@; end", "the end is due"),
            (end, "(:goal (and)))\n@\0", "no ASCII character"),
            (end, "(:goal (and)))\n@\u{e9}", "no ASCII character"),
            (end, "(:goal (and))\n@", ") is due"),
            (end, "(:goal (and@", "( is due"),
            (
                "(define (domain d))\n",
                "(define (domain d)) @; d\n",
                "( is due",
            ),
            ("(define (domain d))\n", "(@", "define is due"),
            (
                "(define (domain d))",
                "(define (domain d@\u{b}))",
                "no ASCII character",
            ),
        ],
    );
    check("", &[("", "@", "( is due")]);
}
