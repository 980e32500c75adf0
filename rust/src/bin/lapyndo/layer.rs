//! One layer in the layer memory that a call left.

use crate::evaluate::{Standing, Value};

pub struct Layer<'m> {
    pub number: usize,
    memory: &'m [i64],
    values: &'m [i64],
}

impl<'m> Layer<'m> {
    /// Of a normal table with the counts P, N and A; the memory has this layer.
    pub fn of([p, n, a]: [usize; 3], memory: &'m [i64], number: usize) -> Layer<'m> {
        let values = &memory[p + a + n * number..][..n];
        Layer {
            number,
            memory,
            values,
        }
    }

    /// Asks how things stand in this layer.
    pub fn standing<T>(&self, ask: impl FnOnce(&Standing) -> T) -> T {
        ask(&Standing {
            proposition: &|p| (0..=self.number as i64).contains(&self.memory[p]),
            variable: &|v| self.variable(v),
        })
    }

    pub fn variable(&self, v: usize) -> Value {
        let value = self.values[v];
        (value != i64::MAX).then(|| value.into())
    }
}
