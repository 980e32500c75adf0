//! A strict reader of PDDL 2.1 text, for what a written table and a state can say.
//!
//! The grammar is that of Fox and Long (2003), appendix A, cut down to this subset:
//!
//! ```text
//! text      ::= domain problem
//! domain    ::= (define (domain NAME) [require] [predicates] [functions] action*)
//! require   ::= (:requirements FLAG+)
//! predicates::= (:predicates (p0) (p1) ..)     at least one
//! functions ::= (:functions (v0) (v1) ..)
//! action    ::= (:action a0 :parameters () :precondition goal :effect (and effect*))
//! goal      ::= (and condition*)
//! condition ::= (p) | (COMPARISON sum NUMBER)
//! effect    ::= (p) | (not (p)) | (CHANGE (v) sum)
//! sum       ::= NUMBER | (* NUMBER (v)) | (+ sum sum)
//! problem   ::= (define (problem NAME) (:domain NAME) (:init initial*) (:goal goal))
//! initial   ::= (p) | (= (v) NUMBER)
//! ```
//!
//! A number of a sum is its constant and comes last; the sum of a condition has none but 0.
//! Functions, comparisons, changes and initial values need the flag `:fluents`.

mod blocks;
mod meaning;
mod tokens;

pub use meaning::Meaning;
pub use tokens::Error;

use meaning::Action;
use tokens::{Token, Tokens};

/// The flags of PDDL 2.1.
const FLAGS: [&str; 14] = [
    ":strips",
    ":typing",
    ":negative-preconditions",
    ":disjunctive-preconditions",
    ":equality",
    ":existential-preconditions",
    ":universal-preconditions",
    ":quantified-preconditions",
    ":conditional-effects",
    ":fluents",
    ":adl",
    ":durative-actions",
    ":duration-inequalities",
    ":continuous-effects",
];

/// Reads a domain and then its problem.
pub fn read(text: &[u8]) -> Result<Meaning, Error> {
    let mut reader = Reader {
        tokens: Tokens::new(text),
        fluents: false,
        propositions: 0,
        variables: 0,
    };
    let (domain, actions) = reader.domain()?;
    let meaning = reader.problem(domain, actions)?;
    reader.tokens.expect("")?;
    Ok(meaning)
}

/// The rest of a text, and what was declared before it.
struct Reader<'t> {
    tokens: Tokens<'t>,
    /// Whether the flag `:fluents` is set.
    fluents: bool,
    propositions: usize,
    variables: usize,
}

impl<'t> Reader<'t> {
    /// The domain's name and its actions.
    fn domain(&mut self) -> Result<(&'t str, Vec<Action>), Error> {
        self.tokens.expect("(")?;
        self.tokens.expect("define")?;
        let name = self.title("domain")?;
        if self.tokens.opens(":requirements")? {
            self.requirements()?;
        }
        if self.tokens.opens(":predicates")? {
            self.propositions = self.declarations('p')?;
            if self.propositions == 0 {
                return Err(self.tokens.error("a proposition is due"));
            }
        }
        if self.tokens.opens(":functions")? {
            self.needs_fluents(self.tokens.last())?;
            self.variables = self.declarations('v')?;
        }
        let mut actions = Vec::new();
        while self.tokens.opens(":action")? {
            actions.push(self.action(actions.len())?);
        }
        self.tokens.expect(")")?;
        Ok((name.word, actions))
    }

    /// `(domain NAME)` or `(problem NAME)` or `(:domain NAME)`.
    fn title(&mut self, kind: &str) -> Result<Token<'t>, Error> {
        self.tokens.expect("(")?;
        self.tokens.expect(kind)?;
        let name = self.tokens.next()?;
        if !name.is_name() {
            return Err(name.error("a name is due"));
        }
        self.tokens.expect(")")?;
        Ok(name)
    }

    fn requirements(&mut self) -> Result<(), Error> {
        let mut flags = Vec::new();
        while !self.tokens.closes()? {
            let flag = self.tokens.next()?;
            if !FLAGS.contains(&flag.word) {
                return Err(flag.error("no flag of PDDL 2.1"));
            }
            if flags.contains(&flag.word) {
                return Err(flag.error("named again"));
            }
            flags.push(flag.word);
        }
        if flags.is_empty() {
            return Err(self.tokens.error("a flag is due"));
        }
        self.fluents = flags.contains(&":fluents");
        Ok(())
    }

    /// Names in brackets up to the end of their section: the prefix and 0, 1 and so on.
    fn declarations(&mut self, prefix: char) -> Result<usize, Error> {
        let mut count = 0;
        while !self.tokens.closes()? {
            self.tokens.expect("(")?;
            self.tokens.expect(&format!("{prefix}{count}"))?;
            self.tokens.expect(")")?;
            count += 1;
        }
        Ok(count)
    }

    fn action(&mut self, number: usize) -> Result<Action, Error> {
        self.tokens.expect(&format!("a{number}"))?;
        for word in [":parameters", "(", ")", ":precondition"] {
            self.tokens.expect(word)?;
        }
        let conditions = self.goal()?;
        self.tokens.expect(":effect")?;
        let effects = self.conjunction(Self::effect)?;
        self.tokens.expect(")")?;
        Ok(Action {
            conditions,
            effects,
        })
    }

    /// The problem of that domain, whose actions are known.
    fn problem(&mut self, domain: &str, actions: Vec<Action>) -> Result<Meaning, Error> {
        self.tokens.expect("(")?;
        self.tokens.expect("define")?;
        self.title("problem")?;
        let name = self.title(":domain")?;
        if name.word != domain {
            return Err(name.error("another domain"));
        }
        self.tokens.expect("(")?;
        self.tokens.expect(":init")?;
        let (propositions, values) = self.state()?;
        self.tokens.expect("(")?;
        self.tokens.expect(":goal")?;
        let goal = self.goal()?;
        self.tokens.expect(")")?;
        self.tokens.expect(")")?;
        Ok(Meaning {
            propositions,
            values,
            actions,
            goal,
        })
    }

    /// The elements of `:init` up to its end.
    fn state(&mut self) -> Result<(Vec<bool>, Vec<i64>), Error> {
        let mut propositions = vec![false; self.propositions];
        let mut values = vec![None; self.variables];
        while !self.tokens.closes()? {
            self.tokens.expect("(")?;
            let head = self.tokens.next()?;
            let again = match head.word {
                "=" => {
                    self.needs_fluents(head)?;
                    let variable = self.fluent()?;
                    values[variable].replace(self.number()?).is_some()
                }
                _ => std::mem::replace(&mut propositions[self.proposition(head)?], true),
            };
            if again {
                return Err(head.error("named again"));
            }
            self.tokens.expect(")")?;
        }
        let values: Option<Vec<i64>> = values.into_iter().collect();
        match values {
            Some(values) => Ok((propositions, values)),
            None => Err(self.tokens.error("a function has no value")),
        }
    }

    /// Functions and numbers are allowed under a flag only.
    fn needs_fluents(&self, token: Token) -> Result<(), Error> {
        match self.fluents {
            true => Ok(()),
            false => Err(token.error("the flag :fluents is not set")),
        }
    }
}
