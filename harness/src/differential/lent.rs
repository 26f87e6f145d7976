//! Slices to lend, with guard places around them.

const GUARDS: usize = 4;

/// A slice between guard places, so that a write next to it is seen.
pub struct Lent<T> {
    places: Vec<T>,
}

impl<T: Copy + PartialEq + From<u8>> Lent<T> {
    pub fn new(content: &[T]) -> Lent<T> {
        let guards = [guard(); GUARDS];
        Lent {
            places: [&guards, content, &guards].concat(),
        }
    }

    pub fn slice(&mut self) -> &mut [T] {
        let end = self.places.len() - GUARDS;
        &mut self.places[GUARDS..end]
    }

    /// Whether the guard places are as they were.
    pub fn guarded(&self) -> bool {
        let end = self.places.len() - GUARDS;
        let guards = self.places[..GUARDS].iter().chain(&self.places[end..]);
        guards.into_iter().all(|&place| place == guard())
    }

    /// Whether the guard places are as they were and the slice, lent to be read, is `lent`.
    pub fn stayed(&self, lent: &[T]) -> bool {
        // The compiler takes it that nobody writes to what is lent to be read.
        std::hint::black_box(&self.places);
        self.guarded() && self.content() == lent
    }

    pub fn content(&self) -> Vec<T> {
        self.places[GUARDS..self.places.len() - GUARDS].to_vec()
    }
}

/// Also what is lent for a call to fill, so that untouched places are seen.
pub fn guard<T: From<u8>>() -> T {
    T::from(0xA5)
}
