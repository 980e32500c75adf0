//! The proved engine's read and block reader, over their C functions.

use campaign::answer::Refusal;
use campaign::call::{Call, CallKind};
use campaign::engine::{Calls, Engine, REFERENCE, REFERENCE_RIG};
use campaign::generate::{
    command_string, deletions, dense, full_length, grid, insertions, long_sum, m1, m1_grid,
    random_bytes, single_byte_changes, spoil, task, task_of, truncations, Rng, Task,
};
use campaign::guarded::Guarded;
use campaign::harness::{check_lines, normalised};
use campaign::proved::{self, raw};
use campaign::reference::parse_table;
use campaign::reference::table::Kind;
use campaign::tally::Tally;

const ENGINE: &dyn Engine = &Calls {
    read: proved::read,
    block: proved::block,
    ..Calls::NONE
};

const KINDS: [Kind; 2] = [Kind::Written, Kind::Normal];

#[test]
fn recorded_reads() {
    check_lines(ENGINE, CallKind::Read);
}

#[test]
fn recorded_blocks() {
    check_lines(ENGINE, CallKind::Block);
}

fn read_call(table: Vec<u8>) -> Call {
    Call {
        table,
        ..CallKind::Read.call()
    }
}

fn block_call(table: &[u8], block: u64) -> Call {
    Call {
        table: table.to_vec(),
        index: block,
        ..CallKind::Block.call()
    }
}

/// Reads a table and one of its blocks, or one that it does not have.
fn check_read_and_block(tally: &mut Tally, rng: &mut Rng, table: Vec<u8>) {
    let moves = table.get(3).copied().unwrap_or(0);
    let block = match rng.below(12) {
        0 => *rng.pick(&[65, 255, 256, 1 << 32, u64::MAX]),
        _ => rng.below(usize::from(moves) + 2) as u64,
    };
    tally.check(&block_call(&table, block));
    tally.check(&read_call(table));
}

/// Every block of a table, and the numbers past the last.
fn check_all_blocks(tally: &mut Tally, table: &[u8]) {
    let moves = u64::from(table[3]);
    let past = [moves + 1, moves + 257, (1 << 32) + moves, u64::MAX];
    for block in (0..=moves).chain(past) {
        tally.check(&block_call(table, block));
    }
}

#[test]
fn valid_tables_of_all_sizes() {
    let mut rng = Rng::new(101);
    let mut tally = Tally::new(ENGINE, 102);
    for _ in 0..2_500 {
        for kind in KINDS {
            let table = task(&mut rng, kind).table;
            check_all_blocks(&mut tally, &table);
            tally.check(&read_call(table));
        }
    }
    for kind in KINDS {
        let limits = [120, kind.variable_limit(), 64];
        for chosen in 0..8 {
            let counts = [0, 1, 2].map(|i| limits[i] * (chosen >> i & 1));
            let table = task_of(&mut rng, kind, counts).table;
            check_all_blocks(&mut tally, &table);
            tally.check(&read_call(table));
        }
    }
    tally.expect(40_000, &[0, 10]);
    tally.expect_zero_terms(15_000);
}

/// M1, its normal form, M1 as a grid, and short tables with all sorts of entries.
fn short_tables(rng: &mut Rng) -> Vec<Vec<u8>> {
    let written = m1().table;
    let normal = normalised(&REFERENCE, &written).expect("M1 has a normal form");
    let mut tables = vec![written, normal, m1_grid().table];
    for kind in KINDS {
        let short = |table: &Vec<u8>| (50..90).contains(&table.len());
        let sizes = [3, 4, 3];
        let found = (0..).map(|_| task_of(rng, kind, sizes).table).find(short);
        tables.extend(found);
    }
    tables
}

#[test]
fn damaged_tables() {
    let mut rng = Rng::new(103);
    let mut tally = Tally::new(ENGINE, 104);
    for table in short_tables(&mut rng) {
        let damaged = single_byte_changes(&table)
            .chain(truncations(&table))
            .chain(insertions(&table))
            .chain(deletions(&table));
        for damaged in damaged {
            check_read_and_block(&mut tally, &mut rng, damaged);
        }
    }
    tally.expect(300_000, &[0, 2, 3, 4, 5, 6, 10, 16]);
    tally.expect_zero_terms(80_000);
}

#[test]
fn random_commands_and_bytes() {
    let mut rng = Rng::new(105);
    let mut tally = Tally::new(ENGINE, 106);
    for _ in 0..60_000 {
        let table = command_string(&mut rng);
        check_read_and_block(&mut tally, &mut rng, table);
    }
    for _ in 0..20_000 {
        let mut table = random_bytes(&mut rng, 80);
        if let Some(first) = table.first_mut().filter(|_| rng.chance(1, 2)) {
            *first = *rng.pick(&[0x54, 0x4E]);
        }
        check_read_and_block(&mut tally, &mut rng, table);
    }
    tally.expect(160_000, &[0, 2, 3, 4, 5, 6, 7, 10, 16]);
    tally.expect_idle_moves(4_000);
    tally.expect_zero_terms(8_000);
}

#[test]
fn spoilt_entries_and_circles() {
    let mut rng = Rng::new(107);
    let mut tally = Tally::new(ENGINE, 108);
    for _ in 0..4_000 {
        for kind in KINDS {
            let whole = task(&mut rng, kind).table;
            let mut table = parse_table(&whole).expect("a generated table is accepted");
            spoil(&mut rng, &mut table);
            check_read_and_block(&mut tally, &mut rng, table.encode());
        }
        let Task { table, .. } = long_sum(&mut rng);
        check_read_and_block(&mut tally, &mut rng, table);
    }
    tally.expect(24_000, &[0, 4, 5, 7]);
    tally.expect_zero_terms(10_000);
}

/// Tables at the two limits of length and past them, whatever their first byte is.
#[test]
fn lengths_at_the_limits() {
    let mut rng = Rng::new(109);
    let mut tally = Tally::new(ENGINE, 110);
    for length in [31_999, 32_000, 32_001, 63_999, 64_000, 64_001] {
        for kind in KINDS {
            for made in [full_length, dense] {
                let Task { table, .. } = made(&mut rng, kind, length);
                for first in [table[0], 0x54, 0x4E, 0x41, 0] {
                    let mut table = table.clone();
                    table[0] = first;
                    check_read_and_block(&mut tally, &mut rng, table);
                }
                check_damaged_somewhere(&mut tally, &mut rng, &table);
            }
        }
        let Task { table, .. } = grid(&mut rng, length);
        check_damaged_somewhere(&mut tally, &mut rng, &table);
        check_read_and_block(&mut tally, &mut rng, table);
    }
    tally.expect(300, &[0, 1, 3]);
    tally.expect_zero_terms(60);
}

/// A few damages of a long table, so that refusals have places of all sizes.
fn check_damaged_somewhere(tally: &mut Tally, rng: &mut Rng, table: &[u8]) {
    for _ in 0..10 {
        let mut damaged = table.to_vec();
        let at = rng.below(table.len());
        match rng.below(3) {
            0 => damaged.truncate(at),
            1 => damaged[at] = rng.byte(),
            _ => damaged.insert(at, rng.byte()),
        }
        check_read_and_block(tally, rng, damaged);
    }
}

/// The C function of a block reader, and the reference's reader.
type Copying = (fn(&[u8], u64, &mut [u8]) -> Result<u32, Refusal>, Calls);

/// As much of a block as fits is copied; all other bytes of the output are kept.
fn check_copy((copy, reference): Copying, table: &[u8], block: u64, before: &[u8]) {
    let mut out = Guarded::holding(before);
    let lent = Guarded::holding(table);
    let answer = copy(lent.lent(), block, out.lend());
    lent.check_unchanged("table", table).unwrap();
    out.check("copy").unwrap();
    let expected = reference.block(table, block);
    let room = before.len();
    let task = block_call(table, block);
    assert_eq!(
        answer,
        expected.map(|part| part.len() as u32),
        "{task} into {room}"
    );
    let part = expected.unwrap_or(&[]);
    let copied = room.min(part.len());
    assert_eq!(out.lent()[..copied], part[..copied], "{task} into {room}");
    assert_eq!(out.lent()[copied..], before[copied..], "{task} into {room}");
}

/// The same with the limits of document 01 and with the rig's.
fn check_copies(rng: &mut Rng, table: &[u8], block: u64, room: usize) {
    let before: Vec<u8> = (0..room).map(|_| rng.byte()).collect();
    check_copy((raw::block, REFERENCE), table, block, &before);
    check_copy((raw::rig::block, REFERENCE_RIG), table, block, &before);
}

#[test]
fn copies_of_blocks_fill_what_there_is() {
    let mut rng = Rng::new(111);
    for _ in 0..150 {
        for kind in KINDS {
            let table = task(&mut rng, kind).table;
            for block in 0..=u64::from(table[3]) + 1 {
                let length = REFERENCE.block(&table, block).map_or(3, <[u8]>::len);
                for room in (length.saturating_sub(3)..length + 4).chain([0, 1]) {
                    check_copies(&mut rng, &table, block, room);
                }
            }
            check_copies(&mut rng, &table[..table.len() - 1], 0, 20);
        }
    }
}
