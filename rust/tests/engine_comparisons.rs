//! The proved engine's five comparisons, over its C functions: what each becomes in the normal form,
//! what it means, and that there is no sixth. What is expected is written here, and not taken from
//! the reference.

mod bytes;
mod meaning;
mod numbers;
mod pages;

use campaign::generate::Rng;
use campaign::reference::table::four_bytes;

/// The numbers of ≥, >, ≤, < and =.
const NUMBERS: [u8; 5] = [0, 1, 2, 3, 4];

/// The most variables of a written table, and the most terms of a sum.
const VARIABLES: usize = 16;
const TERMS: usize = 8;

/// Constants at the edges of their range and around 0.
const EDGES: [i128; 7] = [-1_000_000, -999_999, -1, 0, 1, 999_999, 1_000_000];

/// Variables and weights.
type Sum = Vec<(usize, i128)>;

/// A condition as it stands in a written table.
#[derive(Clone, Debug)]
struct Condition {
    sum: Sum,
    number: u8,
    constant: i128,
}

impl Condition {
    fn bytes(&self) -> Vec<u8> {
        let terms = self.sum.iter().flat_map(|(v, w)| term(*v, *w));
        terms.chain(closing(self.number, self.constant)).collect()
    }
}

fn term(variable: usize, weight: i128) -> [u8; 4] {
    let [_, _, high, low] = four_bytes(weight);
    [0x57, variable as u8, high, low]
}

fn closing(number: u8, constant: i128) -> [u8; 6] {
    let [a, b, c, d] = four_bytes(constant);
    [0x43, number, a, b, c, d]
}

fn any_constant(rng: &mut Rng) -> i128 {
    match rng.below(3) {
        0 => *rng.pick(&EDGES),
        1 => rng.between(-20, 20),
        _ => rng.between(-1_000_000, 1_000_000),
    }
}

/// A weight of a written table: ±1, ±1000, 0, or any.
fn any_weight(rng: &mut Rng) -> i128 {
    match rng.below(7) {
        choice @ 0..=4 => [1, -1, 1_000, -1_000, 0][choice],
        5 => rng.between(-9, 9),
        _ => rng.between(-1_000, 1_000),
    }
}

/// So many terms over all variables, with weights of all sizes.
fn any_sum(rng: &mut Rng, terms: usize) -> Sum {
    let variables = rng.subset(terms, VARIABLES).into_iter();
    variables.map(|v| (v, any_weight(rng))).collect()
}
