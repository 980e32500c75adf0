//! Goals with one comparison throughout, for the five cases of normalise.

use crate::bench::Bench;
use campaign::generate::Task;

const CONDITIONS: usize = 1_000;

/// A goal of conditions on 2 v0 − 3 v1, all with one operator.
fn goal_of(number: u8) -> Task {
    let terms = [0x57, 0, 0, 2, 0x57, 1, 0xFF, 0xFD];
    let condition = [&terms[..], &[0x43, number, 0, 0, 0, 5]].concat();
    let head = [0x54, 0, 2, 0, 0x47];
    Task {
        table: [&head[..], &condition.repeat(CONDITIONS), &[0x45]].concat(),
        state: vec![0; 8],
    }
}

/// Normalise's time a condition, by operator.
pub fn table() {
    println!("\nnormalise: operator   engine ns a condition  reference ns a condition  ratio");
    for (number, operator) in (0..).zip([">=", ">", "<=", "<", "="]) {
        let times = Bench::new("", goal_of(number)).normalise();
        let [engine, reference] =
            [times.engine, times.reference].map(|seconds| seconds * 1e9 / CONDITIONS as f64);
        let ratio = engine / reference;
        println!("{operator:>19} {engine:23.2} {reference:25.2} {ratio:6.2}");
    }
}
