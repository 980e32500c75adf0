//! Tasks for the planning calls, all with normal tables unless they say otherwise.

use campaign::generate::{
    at_value_limit, command_string, dense, full_length, helpful, large_values, spoil, state_for,
    steep, task, task_of, waves, Rng, Task,
};
use campaign::reference::parse_table;
use campaign::reference::table::Kind;

/// Tasks of all sizes, half of them from written ones.
pub fn normal_tasks(seed: u64, count: usize) -> impl Iterator<Item = Task> {
    let mut rng = Rng::new(seed);
    (0..count).map(move |i| match i % 2 {
        0 => task(&mut rng, Kind::Written).normal(),
        _ => task(&mut rng, Kind::Normal),
    })
}

/// The same with more moves that help with what is wanted at layer 1, or nearly do.
pub fn helpful_tasks(seed: u64, count: usize) -> impl Iterator<Item = Task> {
    let mut rng = Rng::new(seed);
    (0..count).map(move |i| match i % 2 {
        0 => {
            let task = task(&mut rng, Kind::Written);
            helpful(&mut rng, &task).normal()
        }
        _ => {
            let task = task(&mut rng, Kind::Normal);
            helpful(&mut rng, &task)
        }
    })
}

/// Values at 10^12 and past it, large targets, and counts at their limits and at 0.
pub fn edge_tasks(rng: &mut Rng) -> Vec<Task> {
    let mut tasks = Vec::new();
    for _ in 0..150 {
        tasks.push(at_value_limit(rng).normal());
        tasks.push(large_values(rng));
        tasks.push(steep(rng));
    }
    for chosen in 0..8 {
        for _ in 0..6 {
            let counts = [0, 1, 2].map(|i| [120, 32, 64][i] * (chosen >> i & 1));
            tasks.push(task_of(rng, Kind::Normal, counts));
            let counts = [0, 1, 2].map(|i| [3, 4, 5][i] * (chosen >> i & 1));
            tasks.push(task_of(rng, Kind::Normal, counts));
        }
    }
    tasks
}

/// Chains of `:=` with many layers, up to 2,016.
pub fn wave_tasks(rng: &mut Rng) -> Vec<Task> {
    let mut tasks = Vec::new();
    for (variables, gates) in [(32, 63), (32, 63), (32, 20), (16, 40), (8, 50), (2, 63)] {
        tasks.push(waves(rng, Kind::Normal, variables, gates));
        tasks.push(waves(rng, Kind::Normal, variables, gates));
    }
    for (variables, gates) in [(16, 63), (16, 30), (5, 60)] {
        tasks.push(waves(rng, Kind::Written, variables, gates).normal());
    }
    tasks
}

/// Tasks whose table is likely to be refused.
pub fn spoilt_tasks(rng: &mut Rng, count: usize) -> Vec<Task> {
    let made = (0..count).map(|i| {
        let table = match i % 2 {
            0 => command_string(rng),
            _ => spoilt_table(rng),
        };
        let state = parse_table(&table).map(|table| state_for(rng, &table));
        Task {
            state: state.unwrap_or_default(),
            table,
        }
    });
    made.collect()
}

fn spoilt_table(rng: &mut Rng) -> Vec<u8> {
    let whole = task(rng, Kind::Normal).table;
    let mut table = parse_table(&whole).expect("a generated table is accepted");
    spoil(rng, &mut table);
    table.encode()
}

/// Tables of both kinds at the limits of length and past them.
pub fn long_tasks(rng: &mut Rng) -> Vec<Task> {
    let mut tasks = Vec::new();
    for length in [32_001, 63_999, 64_000, 64_001] {
        for kind in [Kind::Written, Kind::Normal] {
            tasks.push(full_length(rng, kind, length));
            tasks.push(dense(rng, kind, length));
        }
    }
    tasks
}
