//! The exported C functions over slices. Each answers a number: bits 32 to 63 are the
//! refusal's number, 0 if accepted; bits 0 to 31 the place, or the result.

#![allow(unsafe_code)]

use crate::answer::{Reason, Refusal};
use crate::engine::Lent;

/// The result in an answer's number, or the refusal.
///
/// # Panics
/// If the refusal's number is unknown.
pub fn answered(number: u64) -> Result<u32, Refusal> {
    let [reason, low] = [number >> 32, number & 0xFFFF_FFFF];
    if reason == 0 {
        return Ok(low as u32);
    }
    let known = u8::try_from(reason).ok().and_then(Reason::from_number);
    let reason = known.unwrap_or_else(|| panic!("refusal {reason} is unknown"));
    Err(Refusal { reason, place: low })
}

/// The three numbers that `campaign` writes: decide's whole answer always, plan's two further
/// numbers in an answer only.
pub struct Numbers<'n> {
    pub decision: &'n mut u64,
    pub records: &'n mut u64,
    pub first_moves: &'n mut u64,
}

// Every pointer below comes from a reference and is passed with the length of its slice.
// The functions keep no pointer, and references to mutable memory do not overlap others.

/// The calls that the engine exports twice, with the limits of document 01 and with the rig's: the
/// C functions of these names, over slices.
macro_rules! calls {
    ($read:ident, $block:ident, $normalise:ident, $step:ident, $decide:ident, $plan:ident, $campaign:ident) => {
        extern "C" {
            fn $read(table: *const u8, table_len: usize) -> u64;

            fn $block(
                table: *const u8,
                table_len: usize,
                block: u64,
                out: *mut u8,
                out_len: usize,
            ) -> u64;

            fn $normalise(table: *const u8, table_len: usize, out: *mut u8, out_len: usize) -> u64;

            fn $step(
                table: *const u8,
                table_len: usize,
                state: *const u8,
                state_len: usize,
                mv: u64,
                out: *mut u8,
                out_len: usize,
            ) -> u64;

            fn $decide(
                table: *const u8,
                table_len: usize,
                state: *const u8,
                state_len: usize,
                layers: *mut i64,
                layers_len: usize,
            ) -> u64;

            fn $plan(
                table: *const u8,
                table_len: usize,
                state: *const u8,
                state_len: usize,
                layers: *mut i64,
                layers_len: usize,
                out: *mut u8,
                out_len: usize,
                records: *mut u64,
                first_moves: *mut u64,
            ) -> u64;

            fn $campaign(
                table: *const u8,
                table_len: usize,
                state: *const u8,
                state_len: usize,
                normal: *mut u8,
                normal_len: usize,
                layers: *mut i64,
                layers_len: usize,
                out: *mut u8,
                out_len: usize,
                decision: *mut u64,
                records: *mut u64,
                first_moves: *mut u64,
            ) -> u64;
        }

        pub fn read(table: &[u8]) -> Result<u32, Refusal> {
            answered(unsafe { $read(table.as_ptr(), table.len()) })
        }

        /// Copies as much of the block's part as fits.
        pub fn block(table: &[u8], block: u64, out: &mut [u8]) -> Result<u32, Refusal> {
            answered(unsafe {
                $block(
                    table.as_ptr(),
                    table.len(),
                    block,
                    out.as_mut_ptr(),
                    out.len(),
                )
            })
        }

        pub fn normalise(table: &[u8], out: &mut [u8]) -> Result<u32, Refusal> {
            answered(unsafe {
                $normalise(table.as_ptr(), table.len(), out.as_mut_ptr(), out.len())
            })
        }

        pub fn step(table: &[u8], state: &[u8], mv: u64, out: &mut [u8]) -> Result<u32, Refusal> {
            answered(unsafe {
                $step(
                    table.as_ptr(),
                    table.len(),
                    state.as_ptr(),
                    state.len(),
                    mv,
                    out.as_mut_ptr(),
                    out.len(),
                )
            })
        }

        pub fn decide(table: &[u8], state: &[u8], layers: &mut [i64]) -> Result<u32, Refusal> {
            answered(unsafe {
                $decide(
                    table.as_ptr(),
                    table.len(),
                    state.as_ptr(),
                    state.len(),
                    layers.as_mut_ptr(),
                    layers.len(),
                )
            })
        }

        /// Writes the number of records and the set of helpful moves in an answer only.
        pub fn plan(
            table: &[u8],
            state: &[u8],
            layers: &mut [i64],
            out: &mut [u8],
            records: &mut u64,
            first_moves: &mut u64,
        ) -> Result<u32, Refusal> {
            answered(unsafe {
                $plan(
                    table.as_ptr(),
                    table.len(),
                    state.as_ptr(),
                    state.len(),
                    layers.as_mut_ptr(),
                    layers.len(),
                    out.as_mut_ptr(),
                    out.len(),
                    records,
                    first_moves,
                )
            })
        }

        /// Answers what plan does.
        pub fn campaign(
            table: &[u8],
            state: &[u8],
            lent: Lent,
            numbers: Numbers,
        ) -> Result<u32, Refusal> {
            answered(unsafe {
                $campaign(
                    table.as_ptr(),
                    table.len(),
                    state.as_ptr(),
                    state.len(),
                    lent.normal.as_mut_ptr(),
                    lent.normal.len(),
                    lent.layers.as_mut_ptr(),
                    lent.layers.len(),
                    lent.out.as_mut_ptr(),
                    lent.out.len(),
                    numbers.decision,
                    numbers.records,
                    numbers.first_moves,
                )
            })
        }
    };
}

calls!(
    lapyndo_read,
    lapyndo_block,
    lapyndo_normalise,
    lapyndo_step,
    lapyndo_decide,
    lapyndo_plan,
    lapyndo_campaign
);

/// With the rig's limits.
pub mod rig {
    use super::{answered, Lent, Numbers, Refusal};

    calls!(
        lapyndo_rig_read,
        lapyndo_rig_block,
        lapyndo_rig_normalise,
        lapyndo_rig_step,
        lapyndo_rig_decide,
        lapyndo_rig_plan,
        lapyndo_rig_campaign
    );
}

extern "C" {
    fn lapyndo_pddl(
        table: *const u8,
        table_len: usize,
        state: *const u8,
        state_len: usize,
        out: *mut u8,
        out_len: usize,
    ) -> u64;

    fn lapyndo_blocking(
        table: *const u8,
        table_len: usize,
        state: *const u8,
        state_len: usize,
        layers: *mut i64,
        layers_len: usize,
    ) -> u64;

    fn lapyndo_rewrite(table: *const u8, table_len: usize, out: *mut u8, out_len: usize) -> u64;

    fn lapyndo_place(
        windows: *const u8,
        windows_len: usize,
        durations: *const u8,
        durations_len: usize,
        out: *mut u8,
        out_len: usize,
        length: *mut u64,
        place: *mut u64,
    ) -> u64;

    fn lapyndo_check(
        table: *const u8,
        table_len: usize,
        state: *const u8,
        state_len: usize,
        list: *const u8,
        list_len: usize,
        out: *mut u8,
        out_len: usize,
        index: *mut u64,
    ) -> u64;
}

pub fn pddl(table: &[u8], state: &[u8], out: &mut [u8]) -> Result<u32, Refusal> {
    answered(unsafe {
        lapyndo_pddl(
            table.as_ptr(),
            table.len(),
            state.as_ptr(),
            state.len(),
            out.as_mut_ptr(),
            out.len(),
        )
    })
}

/// The offset of the part that blocks; 0 where nothing does.
pub fn blocking(table: &[u8], state: &[u8], layers: &mut [i64]) -> Result<u32, Refusal> {
    answered(unsafe {
        lapyndo_blocking(
            table.as_ptr(),
            table.len(),
            state.as_ptr(),
            state.len(),
            layers.as_mut_ptr(),
            layers.len(),
        )
    })
}

pub fn rewrite(table: &[u8], out: &mut [u8]) -> Result<u32, Refusal> {
    answered(unsafe { lapyndo_rewrite(table.as_ptr(), table.len(), out.as_mut_ptr(), out.len()) })
}

/// The end minute; 0 in a refusal. Writes the length of the starts in an answer only, and the place
/// of a refusal in a refusal only.
pub fn place(
    windows: &[u8],
    durations: &[u8],
    out: &mut [u8],
    length: &mut u64,
    place: &mut u64,
) -> Result<u32, Refusal> {
    answered(unsafe {
        lapyndo_place(
            windows.as_ptr(),
            windows.len(),
            durations.as_ptr(),
            durations.len(),
            out.as_mut_ptr(),
            out.len(),
            length,
            place,
        )
    })
}

/// The length of the end state, or bit 31 and below it 0 ("goal not met") or the number of a fault.
/// Writes the index with a fault only.
pub fn check(
    table: &[u8],
    state: &[u8],
    list: &[u8],
    out: &mut [u8],
    index: &mut u64,
) -> Result<u32, Refusal> {
    answered(unsafe {
        lapyndo_check(
            table.as_ptr(),
            table.len(),
            state.as_ptr(),
            state.len(),
            list.as_ptr(),
            list.len(),
            out.as_mut_ptr(),
            out.len(),
            index,
        )
    })
}

#[cfg(test)]
mod tests {
    use super::*;

    #[test]
    fn numbers_are_taken_apart() {
        assert_eq!(answered(0x5401_0203), Ok(0x5401_0203));
        assert_eq!(answered((9 << 32) + 5), Err(Reason::StateRange.at(5)));
    }

    #[test]
    #[should_panic(expected = "refusal 20 is unknown")]
    fn an_unknown_refusal_is_found() {
        let _ = answered(20 << 32);
    }
}
