//! Times of the proved engine beside those of the reference, in one run.
//!
//! Each figure is the median of repeated samples; the two engines take turns. Memories are
//! lent again as the call before left them.

mod bench;
mod blocking;
mod closure;
mod comparisons;
mod engines;
mod helpful;
mod rewrite;
mod rig;
mod schedule;
mod timing;

use bench::Bench;
use campaign::commands::without_zero_terms;
use campaign::generate::{dense, grid, m1, task_of, text_length, waves, Rng, Task};
use campaign::reference::semantics::saturate;
use campaign::reference::table::Kind;
use timing::{micros, Times};

fn main() {
    calls_table(campaigns());
    bytes_table();
    comparisons::table();
    text_table();
    layers_table();
    blocking::parts_table();
    blocking::layers_table();
    rewrite::bytes_table();
    closure::table();
    schedule::table();
    schedule::growth_table();
    rig::table();
}

/// The first generated task with 30 moves, 8 variables and a plan of some depth; no weight is 0.
fn mid_size() -> Task {
    without_weight_0(&deep_enough(&mut Rng::new(30), [12, 8, 30]))
}

/// The first generated task with these counts and a plan of some depth.
fn deep_enough(rng: &mut Rng, counts: [usize; 3]) -> Task {
    let deep = |task: &Task| Bench::new("", task.clone()).normal().reported_layers() >= 5;
    let mut tasks = (0..).map(|_| task_of(rng, Kind::Written, counts));
    tasks.find(deep).expect("such a task comes up")
}

fn without_weight_0(task: &Task) -> Task {
    Task {
        table: without_zero_terms(&task.table),
        state: task.state.clone(),
    }
}

/// Written tables, from small to the largest.
fn campaigns() -> Vec<Bench> {
    let mut rng = Rng::new(1);
    let longest = dense(&mut rng, Kind::Written, 32_000);
    vec![
        Bench::new("M1", m1()),
        Bench::new("30 moves", mid_size()),
        Bench::new("32,000 bytes", longest),
    ]
}

/// Normal tables beyond the normal forms of the written ones.
fn normal_campaigns() -> Vec<Bench> {
    let mut rng = Rng::new(2);
    let longest = dense(&mut rng, Kind::Normal, 64_000);
    vec![
        Bench::new("64,000 bytes", longest),
        Bench::new("2,016 layers", deepest(&mut rng)),
    ]
}

/// The table with the most layers, and with a plan.
fn deepest(rng: &mut Rng) -> Task {
    let solved = |task: &Task| {
        let saturation = saturate(&task.table, &task.state);
        saturation.is_ok_and(|bound| bound.goal)
    };
    (0..)
        .map(|_| waves(rng, Kind::Normal, 32, 63))
        .find(solved)
        .expect("half of them have a plan")
}

fn calls_table(mut written: Vec<Bench>) {
    println!(
        "call            table                    bytes  layers   engine µs  reference µs  ratio"
    );
    for bench in &mut written {
        row("read", bench, Bench::read);
        row("normalise", bench, Bench::normalise);
        row("normalise exact", bench, Bench::normalise_exact);
        row("step", bench, Bench::step);
        row("campaign", bench, Bench::campaign);
        row("pddl", bench, Bench::pddl);
        row("pddl exact", bench, Bench::pddl_exact);
    }
    grid_rows();
    let normal = written.iter().map(Bench::normal);
    for mut bench in normal.chain(normal_campaigns()) {
        row("read", &mut bench, Bench::read);
        row("decide", &mut bench, Bench::decide);
        row("plan", &mut bench, Bench::plan);
        row("blocking", &mut bench, Bench::blocking);
    }
    for mut bench in helpful::campaigns() {
        row("decide", &mut bench, Bench::decide);
        row("plan", &mut bench, Bench::plan);
    }
    for mut bench in blocking::campaigns() {
        row("decide", &mut bench, Bench::decide);
        row("blocking", &mut bench, Bench::blocking);
    }
    for mut bench in rewrite::campaigns() {
        row("rewrite", &mut bench, Bench::rewrite);
        row("rewrite exact", &mut bench, Bench::rewrite_exact);
    }
}

/// A written table most of whose weights are 0.
fn grid_rows() {
    let grid = grid(&mut Rng::new(6), 32_000);
    let mut bench = Bench::new("grid, 32,000 bytes", grid);
    row("read", &mut bench, Bench::read);
    row("normalise", &mut bench, Bench::normalise);
    row("normalise exact", &mut bench, Bench::normalise_exact);
    row("step", &mut bench, Bench::step);
    row("pddl", &mut bench, Bench::pddl);
    row("pddl exact", &mut bench, Bench::pddl_exact);
}

fn row(call: &str, bench: &mut Bench, time: fn(&mut Bench) -> Times) {
    let times = time(bench);
    let layers = match call {
        "decide" | "plan" | "blocking" => bench.reported_layers().to_string(),
        _ => "-".into(),
    };
    println!(
        "{call:15} {:23} {:6} {layers:>7} {:>11} {:>13} {:>6.2}",
        bench.name,
        bench.task.table.len(),
        micros(times.engine),
        micros(times.reference),
        times.engine / times.reference
    );
}

/// Read's time a byte on tables of several lengths.
fn bytes_table() {
    println!("\nread: bytes   engine ns a byte  reference ns a byte");
    let mut rng = Rng::new(3);
    for length in [1_000, 8_000, 32_000, 64_000] {
        let kind = if length > 32_000 {
            Kind::Normal
        } else {
            Kind::Written
        };
        let times = Bench::new("", dense(&mut rng, kind, length)).read();
        let [engine, reference] =
            [times.engine, times.reference].map(|seconds| seconds * 1e9 / length as f64);
        println!("      {length:5} {engine:18.2} {reference:20.2}");
    }
}

/// Pddl's time a byte of text, on tables of several lengths.
fn text_table() {
    println!("\npddl: table bytes  text bytes   engine ns a byte  reference ns a byte");
    let mut rng = Rng::new(5);
    for length in [1_000, 8_000, 32_000] {
        let task = dense(&mut rng, Kind::Written, length);
        let text = text_length(&task);
        let times = Bench::new("", task).pddl();
        let [engine, reference] =
            [times.engine, times.reference].map(|seconds| seconds * 1e9 / text as f64);
        println!("{length:17} {text:11} {engine:18.2} {reference:20.2}");
    }
}

/// Decide's time against the number of layers.
fn layers_table() {
    println!(
        "\ndecide: layers  table bytes   engine µs  µs a layer  ns a layer and byte  reference µs"
    );
    for gates in [1, 2, 4, 8, 16, 32, 63] {
        let mut rng = Rng::new(4);
        let mut bench = Bench::new("", waves(&mut rng, Kind::Normal, 32, gates));
        let layers = bench.reported_layers();
        let bytes = bench.task.table.len();
        let times = bench.decide();
        let layer = times.engine / layers as f64;
        println!(
            "{layers:14} {bytes:12} {:>11} {:>11} {:20.2} {:>13}",
            micros(times.engine),
            micros(layer),
            layer * 1e9 / bytes as f64,
            micros(times.reference)
        );
    }
}
