//! A written table and a state as PDDL 2.1 text: a domain, then a problem.

use super::state::State;
use super::table::{Block, Change, Comparison, Condition, Effect, Item, Table, Term};

/// The text, in a memory that begins with so many bytes of room.
pub fn text(table: &Table, state: &State, room: usize) -> Vec<u8> {
    let mut text = Text(Vec::with_capacity(room));
    text.domain(table);
    text.problem(table, state);
    text.0
}

/// What is written so far.
struct Text(Vec<u8>);

impl Text {
    fn domain(&mut self, table: &Table) {
        self.put("(define (domain campaign)\n  (:requirements :strips :fluents)");
        if table.propositions > 0 {
            self.put("\n  (:predicates");
            (0..table.propositions).for_each(|p| self.name("\n    (p", p));
            self.put(")");
        }
        if table.variables > 0 {
            self.put("\n  (:functions");
            (0..table.variables).for_each(|v| self.name("\n    (v", v));
            self.put(")");
        }
        for (number, block) in table.moves.iter().enumerate() {
            self.action(number, block);
        }
        self.put(")\n");
    }

    fn action(&mut self, number: usize, block: &Block) {
        self.put("\n  (:action a");
        self.digits(number as u32);
        self.put("\n    :parameters ()\n    :precondition (and");
        self.conditions("\n      ", block);
        self.put(")\n    :effect (and");
        self.effects("\n      ", block);
        self.put("))");
    }

    fn problem(&mut self, table: &Table, state: &State) {
        self.put("(define (problem start)\n  (:domain campaign)\n  (:init");
        for (p, _) in state.propositions.iter().enumerate().filter(|(_, p)| **p) {
            self.name("\n    (p", p);
        }
        for (v, value) in state.values.iter().enumerate() {
            self.name("\n    (= (v", v);
            self.put(" ");
            self.number(*value);
            self.put(")");
        }
        self.put(")\n  (:goal (and");
        self.conditions("\n    ", &table.goal);
        self.put(")))\n");
    }

    /// The conditions of a block in their order, each behind `margin`.
    fn conditions(&mut self, margin: &str, block: &Block) {
        for item in &block.items {
            match item {
                Item::Require(p) => {
                    self.put(margin);
                    self.name("(p", *p);
                }
                Item::Condition(condition) => {
                    self.put(margin);
                    self.condition(condition);
                }
                Item::Add(_) | Item::Delete(_) | Item::Effect(_) => {}
            }
        }
    }

    /// The effects of a block in their order, each behind `margin`.
    fn effects(&mut self, margin: &str, block: &Block) {
        for item in &block.items {
            match item {
                Item::Add(p) => {
                    self.put(margin);
                    self.name("(p", *p);
                }
                Item::Delete(p) => {
                    self.put(margin);
                    self.name("(not (p", *p);
                    self.put(")");
                }
                Item::Effect(effect) => {
                    self.put(margin);
                    self.effect(effect);
                }
                Item::Require(_) | Item::Condition(_) => {}
            }
        }
    }

    fn condition(&mut self, condition: &Condition) {
        self.put(match condition.comparison {
            Comparison::AtLeast => "(>= ",
            Comparison::Above => "(> ",
            Comparison::AtMost => "(<= ",
            Comparison::Below => "(< ",
            Comparison::Equal => "(= ",
        });
        self.sum(&condition.terms, 0);
        self.put(" ");
        self.number(condition.constant);
        self.put(")");
    }

    fn effect(&mut self, effect: &Effect) {
        let opening = match effect.change {
            Change::Assign => "(assign (v",
            Change::Increase => "(increase (v",
            Change::Decrease => "(decrease (v",
        };
        self.name(opening, effect.variable);
        self.put(" ");
        self.sum(&effect.terms, effect.constant);
        self.put(")");
    }

    /// Each term has the rest of the sum inside, the last one the constant.
    fn sum(&mut self, terms: &[Term], constant: i128) {
        for term in terms {
            self.put("(+ (* ");
            self.number(term.weight);
            self.name(" (v", term.variable);
            self.put(") ");
        }
        self.number(constant);
        self.0.resize(self.0.len() + terms.len(), b')');
    }

    /// A name up to its number, the number, and a closing bracket.
    fn name(&mut self, opening: &str, number: usize) {
        self.put(opening);
        self.digits(number as u32);
        self.put(")");
    }

    fn number(&mut self, number: i128) {
        let number = i32::try_from(number).expect("a number has four bytes");
        if number < 0 {
            self.put("-");
        }
        self.digits(number.unsigned_abs());
    }

    /// In decimal digits, with no zero in front.
    fn digits(&mut self, number: u32) {
        if number < 10 {
            return self.0.push(b'0' + number as u8);
        }
        let mut digits = [0; 10];
        let mut start = digits.len();
        let mut rest = number;
        while rest > 0 {
            start -= 1;
            digits[start] = b'0' + (rest % 10) as u8;
            rest /= 10;
        }
        self.0.extend_from_slice(&digits[start..]);
    }

    fn put(&mut self, text: &str) {
        self.0.extend_from_slice(text.as_bytes());
    }
}
