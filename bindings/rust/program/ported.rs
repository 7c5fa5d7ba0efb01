//! Stand-ins for crates that Rattle's toolchain ports, with the calls that the program makes.

pub mod hex {
    use crate::rattle_std::alloc::Global;
    use crate::rattle_std::prelude::*;

    #[derive(Debug)]
    pub enum FromHexError {
        Invalid,
        OutOfMemory,
    }

    fn value(digit: u8) -> Result<u8, FromHexError> {
        (digit as char).to_digit(16).map(|value| value as u8).ok_or(FromHexError::Invalid)
    }

    pub fn decode_to_slice<T: AsRef<[u8]>>(word: T, bytes: &mut [u8]) -> Result<(), FromHexError> {
        let word = word.as_ref();
        if word.len() != 2 * bytes.len() {
            return Err(FromHexError::Invalid);
        }
        for (pair, byte) in word.chunks_exact(2).zip(bytes) {
            *byte = value(pair[0])? << 4 | value(pair[1])?;
        }
        Ok(())
    }

    pub fn decode(alloc: Global, word: &str) -> Result<Vec<u8>, FromHexError> {
        let mut bytes = Vec::new(alloc);
        bytes.resize(word.len() / 2, 0);
        decode_to_slice(word, &mut bytes)?;
        Ok(bytes)
    }

    pub trait FromHex: Sized {
        fn from_hex<T: AsRef<[u8]>>(word: T) -> Result<Self, FromHexError>;
    }

    impl<const LEN: usize> FromHex for [u8; LEN] {
        fn from_hex<T: AsRef<[u8]>>(word: T) -> Result<Self, FromHexError> {
            let mut bytes = [0; LEN];
            decode_to_slice(word, &mut bytes)?;
            Ok(bytes)
        }
    }

    pub fn encode_to_slice(bytes: &[u8], digits: &mut [u8]) -> Result<(), FromHexError> {
        const DIGITS: &[u8; 16] = b"0123456789abcdef";
        for (byte, pair) in bytes.iter().zip(digits.chunks_exact_mut(2)) {
            pair.copy_from_slice(&[DIGITS[*byte as usize >> 4], DIGITS[*byte as usize & 15]]);
        }
        Ok(())
    }
}

pub mod circular_buffer {
    use crate::rattle_std::alloc::{AllocError, Global};
    use std::collections::VecDeque;

    pub struct HeapCircularBuffer<T>(VecDeque<T>, usize);

    impl<T: Copy> HeapCircularBuffer<T> {
        pub fn with_capacity(_alloc: Global, capacity: usize) -> Result<Self, AllocError> {
            Ok(HeapCircularBuffer(VecDeque::with_capacity(capacity), capacity))
        }

        pub fn len(&self) -> usize {
            self.0.len()
        }

        pub fn is_empty(&self) -> bool {
            self.0.is_empty()
        }

        pub fn capacity(&self) -> usize {
            self.1
        }

        pub fn fill_from_slice(&mut self, items: &[T]) {
            self.0.extend(items);
        }

        pub fn as_slices(&self) -> (&[T], &[T]) {
            self.0.as_slices()
        }

        pub fn clear(&mut self) {
            self.0.clear();
        }

        pub fn truncate_front(&mut self, len: usize) {
            self.0.drain(..self.0.len() - len);
        }
    }
}

pub mod strsim {
    use crate::rattle_std::alloc::{AllocError, Global};

    /// How similar two texts are, from 0 to 1.
    pub fn jaro(_alloc: Global, a: &str, b: &str) -> Result<f64, AllocError> {
        let a: std::vec::Vec<char> = a.chars().collect();
        let b: std::vec::Vec<char> = b.chars().collect();
        if a.is_empty() || b.is_empty() {
            return Ok(if a == b { 1.0 } else { 0.0 });
        }
        let range = (a.len().max(b.len()) / 2).saturating_sub(1);
        let (mut kept, mut taken) = (std::vec::Vec::new(), std::vec![false; b.len()]);
        for (at, item) in a.iter().enumerate() {
            let places = at.saturating_sub(range)..b.len().min(at + range + 1);
            let mut free = places.into_iter().filter(|place| !taken[*place]);
            if let Some(place) = free.find(|place| b[*place] == *item) {
                taken[place] = true;
                kept.push(*item);
            }
        }
        if kept.is_empty() {
            return Ok(0.0);
        }
        let others = b.iter().zip(&taken).filter(|(_, taken)| **taken).map(|(item, _)| item);
        let swaps = kept.iter().zip(others).filter(|(item, other)| item != other).count() / 2;
        let found = kept.len() as f64;
        let parts = found / a.len() as f64 + found / b.len() as f64;
        Ok((parts + (found - swaps as f64) / found) / 3.0)
    }
}
