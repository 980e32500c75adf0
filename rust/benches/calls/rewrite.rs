//! Stored tables, for the rewriter.

use crate::bench::Bench;
use crate::mid_size;
use campaign::generate::{dense, long_stored, m1, Rng, Task};
use campaign::reference::table::{Block, Item, Kind, MOVE_LIMIT};
use campaign::reference::{parse_stored_table, parse_table};

/// The task with so many moves that do nothing behind each of its own, as far as there is room: by
/// turns one without commands and one that needs a proposition.
fn unfinished(task: &Task, each: usize) -> Task {
    let mut table = parse_table(&task.table).expect("an accepted table");
    let needs = Block {
        items: vec![Item::Require(0)],
    };
    let mut idle = [Block::default(), needs].into_iter().cycle();
    let moves = table.moves.into_iter();
    let rows = moves.flat_map(|block| {
        let behind: Vec<Block> = idle.by_ref().take(each).collect();
        [block].into_iter().chain(behind)
    });
    table.moves = rows.take(MOVE_LIMIT).collect();
    Task {
        table: table.encode(),
        state: task.state.clone(),
    }
}

/// Tables of both kinds, with moves that do nothing and without.
pub fn campaigns() -> Vec<Bench> {
    let mut rng = Rng::new(10);
    let tasks = [
        ("M1", m1()),
        ("M1", unfinished(&m1(), 2)),
        ("30 moves", mid_size()),
        ("30 moves", unfinished(&mid_size(), 1)),
        ("32,000 bytes", dense(&mut rng, Kind::Written, 32_000)),
        ("32,000 bytes", long_stored(&mut rng, Kind::Written, 32_000)),
        ("64,000 bytes", dense(&mut rng, Kind::Normal, 64_000)),
        ("64,000 bytes", long_stored(&mut rng, Kind::Normal, 64_000)),
        ("64 moves", all_idle()),
    ];
    let benches = tasks.map(|(name, task)| Bench::new(&with_idle_count(name, &task.table), task));
    benches.into()
}

/// The name, with the number of moves that do nothing if there are any.
fn with_idle_count(name: &str, table: &[u8]) -> String {
    let table = parse_stored_table(table).expect("a stored table");
    match table.moves.iter().filter(|block| block.is_idle()).count() {
        0 => name.into(),
        idle => format!("{name}, {idle} idle"),
    }
}

/// As many moves as a table may have, all without commands.
fn all_idle() -> Task {
    let head = [0x54, 0, 0, MOVE_LIMIT as u8];
    Task {
        table: [&head[..], &[0x41; MOVE_LIMIT], &[0x47, 0x45]].concat(),
        state: Vec::new(),
    }
}

/// The time a byte on stored tables of several lengths.
pub fn bytes_table() {
    println!(
        "\nrewrite: table bytes  result bytes   engine ns a byte  read's  reference ns a byte"
    );
    let mut rng = Rng::new(11);
    for length in [1_000, 8_000, 32_000, 64_000] {
        let kind = match length > Kind::Written.length_limit() {
            true => Kind::Normal,
            false => Kind::Written,
        };
        let mut bench = Bench::new("", long_stored(&mut rng, kind, length));
        let result = bench.rewritten_length();
        let (read, times) = (bench.rewritten().read(), bench.rewrite());
        let [engine, reference] =
            [times.engine, times.reference].map(|seconds| seconds * 1e9 / length as f64);
        let read = read.engine * 1e9 / result as f64;
        println!("{length:20} {result:13} {engine:18.2} {read:7.2} {reference:20.2}");
    }
}
