//! Buffers as the tests lend them: with random content, and with places behind the lent ones that no call may write.

use std::fmt::Debug;

use crate::rng::Rng;

/// Places behind those that are lent.
const BEYOND: usize = 4;

/// A number of places about what is needed: too few, exactly enough, or more.
pub fn places(needed: usize, rng: &mut Rng) -> usize {
    match rng.between(0, 4) {
        0 => rng.between(0, needed - 1),
        1 => needed - 1,
        2 => needed,
        _ => needed + rng.between(1, 9),
    }
}

pub struct Lent<T> {
    places: usize,
    before: Vec<T>,
    now: Vec<T>,
}

impl<T: Copy + PartialEq + Debug> Lent<T> {
    /// A buffer of so many places, each with content of its own.
    pub fn new(places: usize, mut content: impl FnMut() -> T) -> Lent<T> {
        let lent: Vec<T> = (0..places).map(|_| content()).collect();
        Lent::holding(&lent, content)
    }

    /// A buffer that holds this, with other content behind.
    pub fn holding(lent: &[T], mut beyond: impl FnMut() -> T) -> Lent<T> {
        let mut before = lent.to_vec();
        before.extend((0..BEYOND).map(|_| beyond()));
        let now = before.clone();
        Lent {
            places: lent.len(),
            before,
            now,
        }
    }

    /// The places that a call is lent.
    pub fn part(&mut self) -> &mut [T] {
        &mut self.now[..self.places]
    }

    /// Fails unless these values stand in the first places and every other place has kept its content.
    pub fn expect(&self, written: &[T], told: impl Fn() -> String) {
        let mut expected = self.before.clone();
        expected[..written.len()].copy_from_slice(written);
        assert_eq!(self.now, expected, "{}", told());
    }
}
