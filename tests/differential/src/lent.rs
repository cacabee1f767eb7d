//! Memory that is lent to a call, with guard numbers on both sides that the call must not touch.
//!
//! With the variable `GUARDS` set to 0 there are none, and lent memory ends where the heap's piece
//! ends: then Valgrind sees what guards can't, a call that reads too far.

use std::sync::OnceLock;

/// Gives the count of guard numbers on each side.
fn guards() -> usize {
    static GUARDS: OnceLock<usize> = OnceLock::new();
    *GUARDS
        .get_or_init(|| std::env::var("GUARDS").map_or(16, |count| count.parse().expect("a count")))
}

/// What a guard holds: no call writes just this by chance in all places.
pub trait Guard: Copy + PartialEq {
    /// Gives the guard number of a place.
    fn guard(place: usize) -> Self;
}

impl Guard for u32 {
    fn guard(place: usize) -> u32 {
        0x5eed_0000 | place as u32
    }
}

impl Guard for u8 {
    fn guard(place: usize) -> u8 {
        0xa0 | place as u8
    }
}

/// Numbers between two rows of guards.
pub struct Lent<T> {
    all: Vec<T>,
}

impl<T: Guard> Lent<T> {
    /// Copies numbers to a place between guards.
    pub fn new(numbers: &[T]) -> Lent<T> {
        let mut all: Vec<T> = Vec::with_capacity(numbers.len() + 2 * guards());
        all.extend((0..guards()).map(T::guard));
        all.extend(numbers);
        all.extend((guards()..2 * guards()).map(T::guard));
        Lent { all }
    }

    /// Gives the address of the first number between the guards.
    pub fn address(&mut self) -> *mut T {
        self.all[guards()..].as_mut_ptr()
    }

    /// Gives the numbers between the guards; stops the test where a guard has changed.
    pub fn back(&self) -> &[T] {
        let (front, rest) = self.all.split_at(guards());
        let (numbers, end) = rest.split_at(rest.len() - guards());
        let kept = |(place, &guard): (usize, &T)| guard == T::guard(place);
        let whole = front.iter().chain(end).enumerate().all(kept);
        assert!(whole, "a call wrote outside of what it was lent");
        numbers
    }

    /// Stops the test where a number has changed that a call may only read.
    pub fn unchanged(&self, numbers: &[T]) {
        assert!(self.back() == numbers, "a call wrote in what it may only read");
    }
}
