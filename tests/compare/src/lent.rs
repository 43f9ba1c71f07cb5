//! Lent buffers: garbage in them and guard words round them, twice the same.

use lists::chance::Chance;

/// The guard words before and behind a lent part.
const GUARD: usize = 8;

/// Garbage comes again after so many words, a prime, so that it fits no part of a buffer.
const GARBAGE: usize = 251;

/// Anything a buffer holds.
pub trait Word: Copy + PartialEq {
    fn from_bits(bits: u64) -> Self;
}

impl Word for u8 {
    fn from_bits(bits: u64) -> u8 {
        bits as u8
    }
}

impl Word for i32 {
    fn from_bits(bits: u64) -> i32 {
        bits as i32
    }
}

impl Word for u32 {
    fn from_bits(bits: u64) -> u32 {
        bits as u32
    }
}

/// The same memory twice: one for the product, one for the second program.
pub struct Lent<T> {
    product: Vec<T>,
    second: Vec<T>,
}

impl<T: Word> Lent<T> {
    /// A buffer of some length, all of it garbage.
    pub fn garbage(length: usize, chance: &mut Chance) -> Lent<T> {
        let length = length + 2 * GUARD;
        let words = (0..length.min(GARBAGE)).map(|_| T::from_bits(chance.word()));
        let garbage: Vec<T> = words.collect();
        let product: Vec<T> = garbage.iter().copied().cycle().take(length).collect();
        let second = product.clone();
        Lent { product, second }
    }

    /// A copy of an input, between guards.
    pub fn copy(input: &[T], chance: &mut Chance) -> Lent<T> {
        let mut lent = Lent::garbage(input.len(), chance);
        lent.product().copy_from_slice(input);
        lent.second().copy_from_slice(input);
        lent
    }

    /// The part lent to the product.
    pub fn product(&mut self) -> &mut [T] {
        let end = self.product.len() - GUARD;
        &mut self.product[GUARD..end]
    }

    /// The part lent to the second program.
    pub fn second(&mut self) -> &mut [T] {
        let end = self.second.len() - GUARD;
        &mut self.second[GUARD..end]
    }

    /// Where the two memories differ, counted from the start of the lent part.
    pub fn difference(&self) -> Option<isize> {
        let mut pairs = self.product.iter().zip(&self.second);
        let found = pairs.position(|(product, second)| product != second);
        found.map(|i| i as isize - GUARD as isize)
    }
}
