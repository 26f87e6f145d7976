//! The journal in Rust, written for speed: one bit for each word of the longest memory says
//! which addresses have a pair. The bits are allocated once for a thread and are all 0
//! between calls: a call clears those of its own pairs, so that a long memory costs nothing
//! where it is not stored to.

use reference::refusal::MOST_WORDS;
use std::cell::RefCell;

thread_local! {
    static NOTED: RefCell<Vec<u64>> = RefCell::new(vec![0; MOST_WORDS / 64]);
}

/// Lends the bits, all 0, to a call that leaves them so.
#[inline(always)]
pub(super) fn with_bits<T>(call: impl FnOnce(&mut [u64]) -> T) -> T {
    NOTED.with_borrow_mut(|bits| call(bits))
}

pub(super) struct Journal<'a> {
    places: &'a mut [u32],
    /// Places that are filled.
    filled: usize,
    noted: &'a mut [u64],
}

impl<'a> Journal<'a> {
    #[inline(always)]
    pub(super) fn new(places: &'a mut [u32], noted: &'a mut [u64]) -> Self {
        Journal {
            places,
            filled: 0,
            noted,
        }
    }

    /// Of a run that has none.
    #[inline(always)]
    pub(super) fn none() -> Self {
        Journal::new(&mut [], &mut [])
    }

    #[inline(always)]
    pub(super) fn pairs(&self) -> u64 {
        self.filled as u64 / 2
    }

    /// Whether the address has a pair or there is one left for it.
    #[inline(always)]
    pub(super) fn note(&mut self, address: usize, former: u32) -> bool {
        let bit = 1 << (address % 64);
        let bits = &mut self.noted[address / 64];
        if *bits & bit != 0 {
            return true;
        }
        let Some(pair) = self.places.get_mut(self.filled..self.filled + 2) else {
            return false;
        };
        pair[0] = address as u32;
        pair[1] = former;
        self.filled += 2;
        *bits |= bit;
        true
    }

    /// Puts the former words back; no address has two pairs.
    #[inline(always)]
    pub(super) fn take_back(&self, memory: &mut [u32]) {
        for pair in self.places[..self.filled].chunks_exact(2) {
            memory[pair[0] as usize] = pair[1];
        }
    }

    /// Clears the bits of its pairs, which stay in their places but count no longer.
    #[inline(always)]
    pub(super) fn start_again(&mut self) {
        for pair in self.places[..self.filled].chunks_exact(2) {
            self.noted[pair[0] as usize / 64] = 0;
        }
        self.filled = 0;
    }
}
