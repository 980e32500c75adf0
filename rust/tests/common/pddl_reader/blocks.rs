//! Conditions and effects, and the sums in them.

use super::meaning::{Condition, Effect, Sum};
use super::tokens::{Error, Token};
use super::Reader;

const COMPARISONS: [&str; 5] = [">=", ">", "<=", "<", "="];

/// The changes of a variable, and how a meaning shows them.
const CHANGES: [(&str, &str); 3] = [("assign", ":="), ("increase", "+="), ("decrease", "-=")];

impl Reader<'_> {
    pub(super) fn goal(&mut self) -> Result<Vec<Condition>, Error> {
        self.conjunction(Self::condition)
    }

    /// `(and element*)`.
    pub(super) fn conjunction<E>(
        &mut self,
        element: fn(&mut Self) -> Result<E, Error>,
    ) -> Result<Vec<E>, Error> {
        self.tokens.expect("(")?;
        self.tokens.expect("and")?;
        let mut elements = Vec::new();
        while !self.tokens.closes()? {
            elements.push(element(self)?);
        }
        Ok(elements)
    }

    fn condition(&mut self) -> Result<Condition, Error> {
        self.tokens.expect("(")?;
        let head = self.tokens.next()?;
        let comparison = COMPARISONS.into_iter().find(|sign| *sign == head.word);
        let condition = match comparison {
            None => Condition::Proposition(self.proposition(head)?),
            Some(comparison) => {
                self.needs_fluents(head)?;
                Condition::Comparison {
                    terms: self.terms(head)?,
                    comparison,
                    constant: self.number()?,
                }
            }
        };
        self.tokens.expect(")")?;
        Ok(condition)
    }

    pub(super) fn effect(&mut self) -> Result<Effect, Error> {
        self.tokens.expect("(")?;
        let head = self.tokens.next()?;
        let change = CHANGES.into_iter().find(|(word, _)| *word == head.word);
        let effect = match (change, head.word) {
            (Some((_, change)), _) => {
                self.needs_fluents(head)?;
                Effect::Change {
                    variable: self.fluent()?,
                    change,
                    value: self.sum()?,
                }
            }
            (None, "not") => {
                self.tokens.expect("(")?;
                let name = self.tokens.next()?;
                let proposition = self.proposition(name)?;
                self.tokens.expect(")")?;
                Effect::Delete(proposition)
            }
            (None, _) => Effect::Add(self.proposition(head)?),
        };
        self.tokens.expect(")")?;
        Ok(effect)
    }

    /// A declared proposition.
    pub(super) fn proposition(&self, name: Token) -> Result<usize, Error> {
        let index = name.index('p').filter(|p| *p < self.propositions);
        index.ok_or_else(|| name.error("no declared proposition"))
    }

    /// A declared function in brackets.
    pub(super) fn fluent(&mut self) -> Result<usize, Error> {
        self.tokens.expect("(")?;
        let name = self.tokens.next()?;
        let index = name.index('v').filter(|v| *v < self.variables);
        let index = index.ok_or_else(|| name.error("no declared function"))?;
        self.tokens.expect(")")?;
        Ok(index)
    }

    pub(super) fn number(&mut self) -> Result<i64, Error> {
        self.tokens.next()?.number()
    }

    /// The sum of a condition.
    fn terms(&mut self, head: Token) -> Result<Vec<(i64, usize)>, Error> {
        let sum = self.sum()?;
        match sum.constant {
            0 => Ok(sum.terms),
            _ => Err(head.error("a condition's sum has a constant")),
        }
    }

    fn sum(&mut self) -> Result<Sum, Error> {
        let (mut terms, mut constant) = (Vec::new(), None);
        self.addend(&mut terms, &mut constant)?;
        Ok(Sum {
            terms,
            constant: constant.unwrap_or(0),
        })
    }

    /// A sum behind those terms.
    fn addend(
        &mut self,
        terms: &mut Vec<(i64, usize)>,
        constant: &mut Option<i64>,
    ) -> Result<(), Error> {
        let first = self.tokens.next()?;
        if constant.is_some() {
            return Err(first.error("the constant is not last"));
        }
        if first.word != "(" {
            *constant = Some(first.number()?);
            return Ok(());
        }
        let operator = self.tokens.next()?;
        match operator.word {
            "+" => {
                self.addend(terms, constant)?;
                self.addend(terms, constant)?;
            }
            "*" => terms.push((self.number()?, self.fluent()?)),
            _ => return Err(operator.error("+ or * is due")),
        }
        self.tokens.expect(")")
    }
}
