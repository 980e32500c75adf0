//! Tables without a plan, for the goal part that blocks.

use crate::bench::Bench;
use crate::timing::micros;
use crate::{deepest, mid_size};
use campaign::generate::{dense, long_goal, m1, waves, Rng, Task};
use campaign::reference::parse_table;
use campaign::reference::table::{Comparison, Condition, Item, Kind};

/// The task with one more part behind its goal, a sum of no terms that is to be at least 1.
fn without_plan(task: &Task) -> Task {
    let mut table = parse_table(&task.table).expect("an accepted table");
    table.goal.items.push(Item::Condition(Condition {
        terms: Vec::new(),
        comparison: Comparison::AtLeast,
        constant: 1,
    }));
    Task {
        table: table.encode(),
        state: task.state.clone(),
    }
}

/// Normal tables from small to the largest, with the most layers, and with the longest goal.
pub fn campaigns() -> Vec<Bench> {
    let mut rng = Rng::new(7);
    let tasks = [
        ("M1, no plan", m1().normal()),
        ("30 moves, no plan", mid_size().normal()),
        (
            "64,000 bytes, no plan",
            dense(&mut rng, Kind::Normal, 63_994),
        ),
        ("2,016 layers, no plan", deepest(&mut rng)),
    ];
    let tasks = tasks.map(|(name, task)| Bench::new(name, without_plan(&task)));
    let mut benches = Vec::from(tasks);
    let goal = long_goal(&mut rng, 64_000);
    benches.push(Bench::new("goal of 64,000 bytes", goal));
    benches
}

/// The time a byte on goals of several lengths, which two layers are built for.
pub fn parts_table() {
    println!("\nblocking: goal bytes   engine ns a byte  decide's  reference ns a byte");
    let mut rng = Rng::new(8);
    for length in [1_000, 8_000, 32_000, 64_000] {
        let mut bench = Bench::new("", long_goal(&mut rng, length));
        let (decide, times) = (bench.decide(), bench.blocking());
        let [engine, decide, reference] = [times.engine, decide.engine, times.reference]
            .map(|seconds| seconds * 1e9 / length as f64);
        println!("{length:20} {engine:18.2} {decide:9.2} {reference:20.2}");
    }
}

/// The time against the number of layers, where there is no plan.
pub fn layers_table() {
    println!("\nblocking: layers  table bytes   engine µs  decide's µs  µs a layer  reference µs");
    for gates in [1, 2, 4, 8, 16, 32, 63] {
        let waves = waves(&mut Rng::new(9), Kind::Normal, 32, gates);
        let mut bench = Bench::new("", without_plan(&waves));
        let layers = bench.reported_layers();
        let bytes = bench.task.table.len();
        let (decide, times) = (bench.decide(), bench.blocking());
        println!(
            "{layers:16} {bytes:12} {:>11} {:>12} {:>11} {:>13}",
            micros(times.engine),
            micros(decide.engine),
            micros(times.engine / layers as f64),
            micros(times.reference)
        );
    }
}
