//! The calls with the rig's limits, beside the reference's and beside the engine's own without them.

use crate::bench::Bench;
use crate::engines::{PROVED, PROVED_RIG};
use crate::timing::{micros, Times};
use crate::{deep_enough, without_weight_0};
use campaign::engine::REFERENCE_RIG;
use campaign::generate::{deep, full_length, m1, Rng, Task};
use campaign::reference::table::Kind;
use campaign::reference::RIG;

/// Written tables within the limits: small, as large as a head may say, and the longest.
fn campaigns() -> Vec<(&'static str, Task)> {
    let mut rng = Rng::new(12);
    let counts = [120, RIG.variables, RIG.moves];
    let full = without_weight_0(&deep_enough(&mut rng, counts));
    let longest = full_length(&mut rng, Kind::Written, 32_000);
    vec![("M1", m1()), ("16 moves", full), ("32,000 bytes", longest)]
}

/// A normal table that needs no more numbers than the rig uses, with more than a hundred layers.
fn deepest() -> Task {
    let mut rng = Rng::new(13);
    let fits = |task: &Task| {
        let mut layers = vec![0; RIG.numbers];
        RIG.decide(&task.table, &task.state, &mut layers).is_ok()
    };
    let mut tasks = (0..).map(|_| deep(&mut rng, Kind::Normal));
    tasks.find(fits).expect("such a task comes up")
}

pub fn table() {
    println!(
        "\nrig: call   table                    bytes  layers   engine µs  reference µs  ratio  to full"
    );
    let written = campaigns();
    for (name, task) in &written {
        row("read", name, task, Bench::read);
        row("normalise", name, task, Bench::normalise);
        row("step", name, task, Bench::step);
        row("campaign", name, task, Bench::campaign);
    }
    let normal = |(name, task): &(&str, Task)| (format!("{name}, normal"), task.normal());
    let normal = written.iter().map(normal);
    for (name, task) in normal.chain([("deepest".into(), deepest())]) {
        row("read", &name, &task, Bench::read);
        row("decide", &name, &task, Bench::decide);
        row("plan", &name, &task, Bench::plan);
    }
}

fn row(call: &str, name: &str, task: &Task, time: fn(&mut Bench) -> Times) {
    let bench = |other| Bench::new(name, task.clone()).of([PROVED_RIG, other]);
    let times = time(&mut bench(REFERENCE_RIG));
    let beside_full = time(&mut bench(PROVED));
    let layers = match call {
        "decide" | "plan" => bench(PROVED).reported_layers().to_string(),
        _ => "-".into(),
    };
    println!(
        "{call:11} {name:23} {:6} {layers:>7} {:>11} {:>13} {:>6.2} {:>8.2}",
        task.table.len(),
        micros(times.engine),
        micros(times.reference),
        times.engine / times.reference,
        beside_full.engine / beside_full.reference
    );
}
