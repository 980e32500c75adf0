//! An engine whose inputs, layers and outputs each end at a page that may not be touched,
//! so that a read or a write behind the lent part ends the process at once.

#![allow(unsafe_code)]

use crate::answer::{Blocking, Campaign, Checked, Decision, Head, Placed, Plan, Refusal};
use crate::engine::{Calls, Engine, Lent};
use crate::guarded::{Canary, MARGIN};
use std::ffi::{c_int, c_long, c_void};
use std::ops::{Deref, DerefMut};
use std::{mem, ptr, slice};

/// Linux on x86-64: the size of a page, and the flags of the calls below.
const PAGE: usize = 4096;
const PROT_NONE: c_int = 0;
const PROT_READ: c_int = 1;
const PROT_WRITE: c_int = 2;
const MAP_PRIVATE: c_int = 2;
const MAP_ANONYMOUS: c_int = 0x20;

extern "C" {
    fn mmap(
        place: *mut c_void,
        bytes: usize,
        protection: c_int,
        flags: c_int,
        file: c_int,
        offset: c_long,
    ) -> *mut c_void;
    fn mprotect(place: *mut c_void, bytes: usize, protection: c_int) -> c_int;
    fn munmap(place: *mut c_void, bytes: usize) -> c_int;
}

/// Elements to lend, with canaries before them and a page that may not be touched behind.
pub struct Fence<T> {
    /// Whole pages that end with the canaries and the elements; then the page behind.
    pages: *mut c_void,
    /// Of the pages, without the one behind.
    bytes: usize,
    length: usize,
    first: *mut T,
}

impl<T: Canary> Fence<T> {
    /// A copy to write.
    ///
    /// # Panics
    /// If there is no memory.
    pub fn holding(contents: &[T]) -> Fence<T> {
        let length = contents.len();
        let bytes = ((MARGIN + length) * mem::size_of::<T>()).next_multiple_of(PAGE);
        // SAFETY: a new mapping. The elements end where the page behind them begins, so they
        // are aligned, and pages of 0 bytes are elements: a canary is a plain number.
        let mut fence = unsafe {
            let flags = MAP_PRIVATE | MAP_ANONYMOUS;
            let all = bytes + PAGE;
            let pages = mmap(ptr::null_mut(), all, PROT_READ | PROT_WRITE, flags, -1, 0);
            assert_ne!(pages as isize, -1, "memory is mapped");
            let behind = pages.add(bytes);
            assert_eq!(mprotect(behind, PAGE, PROT_NONE), 0, "a page is fenced");
            Fence {
                pages,
                bytes,
                length,
                first: behind.cast::<T>().sub(length),
            }
        };
        fence.copy_from_slice(contents);
        for (i, element) in fence.margin_mut().iter_mut().enumerate() {
            *element = T::canary(i);
        }
        fence
    }

    /// A copy to read: a write ends the process.
    ///
    /// # Panics
    /// If there is no memory.
    pub fn reading(contents: &[T]) -> Fence<T> {
        let fence = Self::holding(contents);
        // SAFETY: the pages are this fence's own, and nothing writes them from here on.
        let closed = unsafe { mprotect(fence.pages, fence.bytes, PROT_READ) };
        assert_eq!(closed, 0, "pages are closed");
        fence
    }

    /// Copies the elements back to where they came from.
    ///
    /// # Panics
    /// If a canary changed.
    pub fn give_back(&self, contents: &mut [T]) {
        let broken = (0..MARGIN).find(|i| self.margin()[*i] != T::canary(*i));
        let before = broken.map(|i| MARGIN - i);
        assert_eq!(before, None, "a canary before the lent part changed");
        contents.copy_from_slice(self);
    }

    fn margin(&self) -> &[T] {
        // SAFETY: the pages have room for the canaries before the first element.
        unsafe { slice::from_raw_parts(self.first.sub(MARGIN), MARGIN) }
    }

    fn margin_mut(&mut self) -> &mut [T] {
        // SAFETY: as above; the borrow of the fence is unique.
        unsafe { slice::from_raw_parts_mut(self.first.sub(MARGIN), MARGIN) }
    }
}

impl<T> Deref for Fence<T> {
    type Target = [T];

    fn deref(&self) -> &[T] {
        // SAFETY: so many elements stand between the canaries and the page behind.
        unsafe { slice::from_raw_parts(self.first, self.length) }
    }
}

impl<T> DerefMut for Fence<T> {
    fn deref_mut(&mut self) -> &mut [T] {
        // SAFETY: as above; the borrow of the fence is unique.
        unsafe { slice::from_raw_parts_mut(self.first, self.length) }
    }
}

impl<T> Drop for Fence<T> {
    fn drop(&mut self) {
        // SAFETY: the mapping is this fence's own, and no borrow of it is left.
        unsafe { munmap(self.pages, self.bytes + PAGE) };
    }
}

/// Makes a call that writes to a copy behind a fence, and takes over what it wrote.
fn writing<T: Canary, A>(memory: &mut [T], call: impl FnOnce(&mut [T]) -> A) -> A {
    let mut lent = Fence::holding(memory);
    let answer = call(&mut lent);
    lent.give_back(memory);
    answer
}

/// Lends an engine copies behind fences: inputs to read only, outputs to write.
pub struct Fenced(pub Calls);

impl Engine for Fenced {
    fn read(&self, table: &[u8]) -> Result<Head, Refusal> {
        self.0.read(&Fence::reading(table))
    }

    fn block<'t>(&self, table: &'t [u8], b: u64) -> Result<&'t [u8], Refusal> {
        let lent = Fence::reading(table);
        let part = self.0.block(&lent, b)?;
        let start = part.as_ptr() as usize - lent.as_ptr() as usize;
        Ok(&table[start..start + part.len()])
    }

    fn normalise(&self, table: &[u8], out: &mut [u8]) -> Result<usize, Refusal> {
        let table = Fence::reading(table);
        writing(out, |out| self.0.normalise(&table, out))
    }

    fn step(&self, table: &[u8], state: &[u8], mv: u64, out: &mut [u8]) -> Result<usize, Refusal> {
        let [table, state] = [table, state].map(Fence::reading);
        writing(out, |out| self.0.step(&table, &state, mv, out))
    }

    fn decide(&self, table: &[u8], state: &[u8], layers: &mut [i64]) -> Result<Decision, Refusal> {
        let [table, state] = [table, state].map(Fence::reading);
        writing(layers, |layers| self.0.decide(&table, &state, layers))
    }

    fn plan(
        &self,
        table: &[u8],
        state: &[u8],
        layers: &mut [i64],
        out: &mut [u8],
    ) -> Result<Plan, Refusal> {
        let [table, state] = [table, state].map(Fence::reading);
        writing(layers, |layers| {
            writing(out, |out| self.0.plan(&table, &state, layers, out))
        })
    }

    fn campaign(&self, table: &[u8], state: &[u8], lent: Lent) -> Campaign {
        let [table, state] = [table, state].map(Fence::reading);
        writing(lent.normal, |normal| {
            writing(lent.layers, |layers| {
                writing(lent.out, |out| {
                    let lent = Lent {
                        normal,
                        layers,
                        out,
                    };
                    self.0.campaign(&table, &state, lent)
                })
            })
        })
    }

    fn pddl(&self, table: &[u8], state: &[u8], out: &mut [u8]) -> Result<usize, Refusal> {
        let [table, state] = [table, state].map(Fence::reading);
        writing(out, |out| self.0.pddl(&table, &state, out))
    }

    fn blocking(
        &self,
        table: &[u8],
        state: &[u8],
        layers: &mut [i64],
    ) -> Result<Blocking, Refusal> {
        let [table, state] = [table, state].map(Fence::reading);
        writing(layers, |layers| self.0.blocking(&table, &state, layers))
    }

    fn rewrite(&self, table: &[u8], out: &mut [u8]) -> Result<usize, Refusal> {
        let table = Fence::reading(table);
        writing(out, |out| self.0.rewrite(&table, out))
    }

    fn place(&self, windows: &[u8], durations: &[u8], out: &mut [u8]) -> Result<Placed, Refusal> {
        let [windows, durations] = [windows, durations].map(Fence::reading);
        writing(out, |out| self.0.place(&windows, &durations, out))
    }

    fn check(
        &self,
        table: &[u8],
        state: &[u8],
        list: &[u8],
        out: &mut [u8],
    ) -> Result<Checked, Refusal> {
        let [table, state, list] = [table, state, list].map(Fence::reading);
        writing(out, |out| self.0.check(&table, &state, &list, out))
    }

    fn rig(&self) -> Box<dyn Engine> {
        Box::new(Fenced(self.0.on_rig()))
    }
}

#[cfg(test)]
mod tests {
    use super::*;
    use std::env;
    use std::os::unix::process::ExitStatusExt;
    use std::process::Command;

    #[test]
    fn copies_are_lent_and_given_back() {
        for length in [0, 1, 448, 449, 512, 5_000] {
            let mut numbers: Vec<i64> = (0..length).collect();
            let mut lent = Fence::holding(&numbers);
            assert_eq!(*lent, *numbers);
            lent.reverse();
            lent.give_back(&mut numbers);
            assert!(numbers.iter().rev().copied().eq(0..length));
        }
    }

    #[test]
    #[should_panic(expected = "Some(3)")]
    fn a_changed_canary_is_found() {
        let mut lent = Fence::holding(b"state");
        lent.margin_mut()[MARGIN - 3] ^= 1;
        lent.give_back(&mut [0; 5]);
    }

    #[test]
    fn all_memories_of_a_closure_day_end_at_fences() {
        let engine = Fenced(Calls {
            place: |windows, durations, out| {
                for lent in [windows, durations, out] {
                    assert_eq!(lent.as_ptr_range().end as usize % PAGE, 0);
                }
                assert_eq!((windows, durations), (&[1; 8][..], &[2; 4][..]));
                out.reverse();
                Ok(Placed { end: 0, length: 5 })
            },
            ..Calls::NONE
        });
        let mut out = [1, 2, 3, 4, 5];
        assert!(engine.place(&[1; 8], &[2; 4], &mut out).is_ok());
        assert_eq!(out, [5, 4, 3, 2, 1]);
    }

    #[test]
    fn all_memories_of_a_check_end_at_fences() {
        let engine = Fenced(Calls {
            check: |table, state, list, out| {
                for lent in [table, state, list, out] {
                    assert_eq!(lent.as_ptr_range().end as usize % PAGE, 0);
                }
                assert_eq!(table, [1; 6]);
                assert_eq!((state, list), (&[2; 5][..], &[3; 7][..]));
                out.reverse();
                Ok(Checked::Yes { length: 5 })
            },
            ..Calls::NONE
        });
        let mut out = [1, 2, 3, 4, 5];
        let answer = engine.check(&[1; 6], &[2; 5], &[3; 7], &mut out);
        assert_eq!(answer, Ok(Checked::Yes { length: 5 }));
        assert_eq!(out, [5, 4, 3, 2, 1]);
    }

    /// Says to this program, run again, that it is to make the stray access.
    const STRAY: &str = "CAMPAIGN_STRAY_ACCESS";

    /// Whether an access ends the process: the named test is run again in one of its own.
    fn ends_the_process(test: &str, access: impl Fn()) -> bool {
        if env::var_os(STRAY).is_some() {
            access();
            return true;
        }
        let program = env::current_exe().expect("the program has a name");
        let name = format!("fenced::tests::{test}");
        let run = Command::new(program)
            .args(["--exact", &name])
            .env(STRAY, "")
            .output();
        run.expect("the program runs again").status.signal() == Some(11)
    }

    #[test]
    fn a_read_behind_a_table_ends_the_process() {
        let engine = Fenced(Calls {
            read: |table| {
                // SAFETY: none; the read is to be found.
                let behind = unsafe { table.as_ptr().add(table.len()).read_volatile() };
                panic!("{behind} was read");
            },
            ..Calls::NONE
        });
        let access = || assert!(engine.read(b"table").is_ok());
        assert!(ends_the_process(
            "a_read_behind_a_table_ends_the_process",
            access
        ));
    }

    #[test]
    fn a_write_to_a_table_ends_the_process() {
        let engine = Fenced(Calls {
            read: |table| {
                // SAFETY: none; the write is to be found.
                unsafe { table.as_ptr().cast_mut().write_volatile(0) };
                panic!("a table was written");
            },
            ..Calls::NONE
        });
        let access = || assert!(engine.read(b"table").is_ok());
        assert!(ends_the_process(
            "a_write_to_a_table_ends_the_process",
            access
        ));
    }
}
