//! Terms of weight 0, as a grid has them whose cells are not all used.

use super::rng::Rng;
use super::task::Task;
use super::tuned::dense_of;
use crate::hex::bytes;
use crate::reference::table::{
    Block, Change, Effect, Item, Kind, Table, Term, TERM_LIMIT, WEIGHT_LIMIT,
};

/// The terms of weight 0 that the sums of a table get, from random numbers of their own: without
/// them a table is what its seed gave before there were any.
pub(super) struct Unused {
    rng: Rng,
    share: Share,
}

#[derive(Clone, Copy)]
enum Share {
    None,
    Few,
    /// As many as a sum can have.
    All,
}

impl Unused {
    pub fn new(rng: &Rng, kind: Kind) -> Unused {
        let mut rng = Rng::new(rng.clone().next_u64());
        let share = match kind {
            Kind::Written => *rng.pick(&[Share::None, Share::None, Share::Few, Share::All]),
            Kind::Normal => Share::None,
        };
        Unused { rng, share }
    }

    /// Adds terms of weight 0 on variables that a sum does not have, whatever an effect may read.
    pub fn fill(&mut self, variables: usize, terms: &mut Vec<Term>) {
        let most = match self.share {
            Share::None => return,
            Share::Few => self.rng.below(3),
            Share::All => TERM_LIMIT,
        };
        let absent = |v: &usize| terms.iter().all(|term| term.variable != *v);
        let absent: Vec<usize> = (0..variables).filter(absent).collect();
        let count = most.min(TERM_LIMIT - terms.len());
        let chosen = self.rng.subset(count, absent.len()).into_iter();
        terms.extend(chosen.map(|i| Term {
            variable: absent[i],
            weight: 0,
        }));
        terms.sort_by_key(|term| term.variable);
    }
}

/// M1 as a grid: every sum has a cell for each variable.
pub fn m1_grid() -> Task {
    let table = bytes(
        "54 01 02 03; 41 57 00 0000 57 01 0000 46 01 00 00000005; \
         41 57 00 0001 57 01 0000 43 00 00000003 57 00 0000 57 01 0000 46 01 01 00000002 \
         57 00 0000 57 01 0000 46 02 00 00000003; \
         41 57 00 0001 57 01 0000 43 00 0000000A 2B 00; \
         47 50 00 57 00 0000 57 01 0001 43 00 00000007; 45",
    );
    Task {
        table,
        state: vec![0; 9],
    }
}

/// A written table of exactly `length` bytes, as `dense` makes it, with eight cells a sum, of which
/// about one is used.
pub fn grid(rng: &mut Rng, length: usize) -> Task {
    dense_of(rng, Kind::Written, length, |rng| {
        match rng.below(2 * TERM_LIMIT) {
            0 => rng.between(1, WEIGHT_LIMIT),
            1 => -rng.between(1, WEIGHT_LIMIT),
            _ => 0,
        }
    })
}

/// A written table with one sum of seven to ten terms, about half of them of weight 0. Every third
/// does not rise throughout.
pub fn long_sum(rng: &mut Rng) -> Task {
    let variables = 10 + rng.below(7);
    let count = 7 + rng.below(4);
    let mut chosen = rng.subset(count, variables);
    if rng.chance(1, 3) {
        let at = rng.below(count - 1);
        chosen.swap(at, at + 1);
    }
    let weights: Vec<i128> = chosen.iter().map(|_| *rng.pick(&[0, 0, 1, -1])).collect();
    let terms = chosen.into_iter().zip(weights);
    let terms = terms.map(|(variable, weight)| Term { variable, weight });
    let item = Item::Effect(Effect {
        terms: terms.collect(),
        change: *rng.pick(&Change::ALL),
        variable: rng.below(variables),
        constant: rng.between(-9, 9),
    });
    let table = Table {
        kind: Kind::Written,
        propositions: 0,
        variables,
        moves: vec![Block { items: vec![item] }],
        goal: Block::default(),
    };
    Task {
        state: vec![0; table.state_length()],
        table: table.encode(),
    }
}
