//! The journal (CR 11): one pair for each distinct address, in order of first stores.

use std::collections::HashSet;

/// There is no pair left for one address more.
#[derive(Clone, Copy, Debug, PartialEq, Eq)]
pub(crate) struct Full;

pub(crate) struct Journal<'a> {
    places: &'a mut [u32],
    /// The addresses that have a pair.
    noted: HashSet<u32>,
}

impl Journal<'_> {
    /// Without pairs; the places keep what they hold until a pair is put there.
    pub(crate) fn new(places: &mut [u32]) -> Journal<'_> {
        Journal {
            places,
            noted: HashSet::new(),
        }
    }

    pub(crate) fn pairs(&self) -> u32 {
        self.noted.len() as u32
    }

    /// Its places are free again.
    pub(crate) fn start_again(&mut self) {
        self.noted.clear();
    }

    /// Keeps the word from before the first store to an address. An odd last place is no
    /// pair.
    pub(crate) fn note(&mut self, address: u32, former: u32) -> Result<(), Full> {
        if self.noted.contains(&address) {
            return Ok(());
        }
        let pairs = self.noted.len();
        let pair = self.places.chunks_exact_mut(2).nth(pairs).ok_or(Full)?;
        pair.copy_from_slice(&[address, former]);
        self.noted.insert(address);
        Ok(())
    }
}
