//! Check's answer from its two numbers.

use super::{number, raw, UNWRITTEN};
use crate::answer::{Checked, Fault, Refusal};
use crate::guarded::Guarded;

/// Marks an answer of `check` that is no yes.
const NO_YES: u32 = 1 << 31;

/// # Panics
/// As `checked`.
pub fn check(table: &[u8], state: &[u8], list: &[u8], out: &mut [u8]) -> Result<Checked, Refusal> {
    checked(|index| raw::check(table, state, list, out, index))
}

/// Check's answer from a call that is lent the index, which it writes with a fault only.
///
/// # Panics
/// If another answer writes the index, a canary beside it changed, or the result has a number that
/// is no fault's.
fn checked(call: impl FnOnce(&mut u64) -> Result<u32, Refusal>) -> Result<Checked, Refusal> {
    let mut index = Guarded::holding(&UNWRITTEN[..1]);
    let answer = call(&mut index.lend()[0]);
    let index = number(&index);
    if let Ok(low) = answer {
        if low > NO_YES {
            let known = u8::try_from(low - NO_YES).ok().and_then(Fault::from_number);
            let fault = known.unwrap_or_else(|| panic!("fault {} is unknown", low - NO_YES));
            return Ok(Checked::Fails { index, fault });
        }
    }
    assert_eq!(index, UNWRITTEN[0], "an index was written without a fault");
    answer.map(|low| match low {
        NO_YES => Checked::GoalNotMet,
        _ => Checked::Yes {
            length: low as usize,
        },
    })
}

#[cfg(test)]
mod tests {
    use super::super::tests::REFUSED;
    use super::*;
    use crate::answer::Reason;

    #[test]
    fn answers_are_taken_from_a_check() {
        assert_eq!(checked(|_| Ok(9)), Ok(Checked::Yes { length: 9 }));
        assert_eq!(checked(|_| Ok(0)), Ok(Checked::Yes { length: 0 }));
        assert_eq!(checked(|_| Ok(NO_YES)), Ok(Checked::GoalNotMet));
        assert_eq!(checked(|_| REFUSED), Err(Reason::OutputShort.at(0)));
        for fault in Fault::ALL {
            let answer = checked(|index| {
                *index = 1 << 40;
                Ok(NO_YES + u32::from(fault.number()))
            });
            let index = 1 << 40;
            assert_eq!(answer, Ok(Checked::Fails { index, fault }));
        }
    }

    #[test]
    #[should_panic(expected = "an index was written without a fault")]
    fn an_index_written_by_a_yes_is_found() {
        let _ = checked(|index| {
            *index = 0;
            Ok(9)
        });
    }

    #[test]
    #[should_panic(expected = "an index was written without a fault")]
    fn an_index_written_by_a_refusal_is_found() {
        let _ = checked(|index| {
            *index = 0;
            REFUSED
        });
    }

    #[test]
    #[should_panic(expected = "fault 13 is unknown")]
    fn an_unknown_fault_is_found() {
        let _ = checked(|_| Ok(NO_YES + 13));
    }
}
