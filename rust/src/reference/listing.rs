//! What the listing program prints.

use super::{normalise, plan};
use crate::answer::{Answer, Refusal};

/// Bytes for the normal form: the longest a normal table may be.
pub const NORMAL_ROOM: usize = 64_000;
/// Numbers of layer memory.
pub const MEMORY_ROOM: usize = 8_192;
/// Bytes for the plan.
pub const PLAN_ROOM: usize = 64_000;

/// The lines printed for the contents of task.bin and state.bin.
pub fn listing(task: &[u8], state: &[u8]) -> String {
    lines(task, state).unwrap_or_else(|refusal| format!("{refusal}\n"))
}

fn lines(task: &[u8], state: &[u8]) -> Result<String, Refusal> {
    let mut normal = vec![0; NORMAL_ROOM];
    let length = normalise(task, &mut normal)?;
    let mut memory = vec![0; MEMORY_ROOM];
    let mut out = vec![0; PLAN_ROOM];
    let plan = plan(&normal[..length], state, &mut memory, &mut out)?;
    Ok(match plan.answer {
        Answer::NoPlan => format!("no plan layers {}\n", plan.layers),
        Answer::Layer(_) => {
            let head = format!("plan {} layers {}\n", plan.records, plan.layers);
            let records = out.chunks_exact(10).take(plan.records as usize);
            records.fold(head, |text, record| text + &record_line(record))
        }
    })
}

/// A record's move and count.
pub fn record_line(record: &[u8]) -> String {
    let count = u64::from_be_bytes(record[2..10].try_into().expect("a count has eight bytes"));
    format!("{} {}\n", record[1], count)
}
