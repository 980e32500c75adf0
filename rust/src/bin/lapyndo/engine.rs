//! Whose calls are asked: the full engine's, or those of the rig's board.

use campaign::engine::Calls;
use campaign::proved::{PROVED, PROVED_RIG};
use campaign::room;

pub struct Engine {
    pub calls: Calls,
    pub is_rig: bool,
}

pub static FULL: Engine = Engine {
    calls: PROVED,
    is_rig: false,
};

pub static RIG: Engine = Engine {
    calls: PROVED_RIG,
    is_rig: true,
};

/// How many moves the rig takes.
pub const RIG_MOVES: usize = 16;
/// How many variables the rig takes; a normal table has two signed ones for each.
pub const RIG_VARIABLES: usize = 8;
/// How many numbers of layer memory the rig has.
pub const RIG_NUMBERS: usize = 2048;

impl Engine {
    /// How many numbers of layer memory to lend for a normal table with the counts P, N and A. The
    /// full engine gets room for every layer.
    pub fn numbers(&self, counts: [usize; 3]) -> usize {
        match self.is_rig {
            false => room::layer_numbers(counts),
            true => RIG_NUMBERS,
        }
    }

    /// Of the rig: how much of its layer memory the layers up to this one take.
    pub fn used(&self, counts: [usize; 3], layer: u64) -> String {
        let used = numbers_to(counts, layer as usize);
        self.said(|| format!("{used} of the rig's {RIG_NUMBERS} numbers used"))
    }

    /// Of the rig: which layers of a table its layer memory holds.
    pub fn holds(&self, counts: [usize; 3]) -> String {
        self.said(|| {
            let layers = match last_held(counts) {
                None => "every layer".into(),
                Some(layer) => format!("layer 0 to layer {layer}"),
            };
            format!("the rig's {RIG_NUMBERS} numbers hold {layers} of this table")
        })
    }

    /// A line on the rig's memory; nothing of the full engine.
    fn said(&self, text: impl FnOnce() -> String) -> String {
        match self.is_rig {
            false => String::new(),
            true => format!("memory    {}\n", text()),
        }
    }
}

/// The numbers that the entries and the layers up to this one take, of a normal table with the
/// counts P, N and A.
pub fn numbers_to([p, n, a]: [usize; 3], layer: usize) -> usize {
    p + a + n * (layer + 1)
}

/// The last layer that the rig's memory holds; none if no layer behind it ever comes up, by the bound
/// that is proved.
fn last_held(counts: [usize; 3]) -> Option<usize> {
    let [p, n, a] = counts;
    let held = (RIG_NUMBERS - p - a).checked_div(n)? - 1;
    (held < room::layer_bound(counts)).then_some(held)
}

#[cfg(test)]
mod tests {
    use super::*;

    /// Every table within the rig's limits: the layer named is the last that fits, and it is named
    /// exactly where more can come up.
    #[test]
    fn the_layer_that_is_named_is_the_last_that_fits() {
        let mut named = 0;
        for p in 0..=120 {
            for n in (0..=2 * RIG_VARIABLES).step_by(2) {
                for a in 0..=RIG_MOVES {
                    let (counts, most) = ([p, n, a], room::layer_bound([p, n, a]));
                    match last_held(counts) {
                        None => assert!(numbers_to(counts, most) <= RIG_NUMBERS),
                        Some(layer) => {
                            assert!(numbers_to(counts, layer) <= RIG_NUMBERS);
                            assert!(numbers_to(counts, layer + 1) > RIG_NUMBERS);
                            assert!((118..most).contains(&layer));
                            assert!(n > 8, "{counts:?}");
                            named += 1;
                        }
                    }
                }
            }
        }
        assert!(named > 0);
    }
}
