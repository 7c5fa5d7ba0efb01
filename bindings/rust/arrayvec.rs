//! A stand-in for the crate `arrayvec` with the calls that the crate `dgt` makes. docs/build, tests
//! and `bindings/c/build` use it, since they build without a network.
#![no_std]
#![forbid(unsafe_code)]

use core::fmt::{self, Debug, Formatter};
use core::ops::{Deref, DerefMut};

#[derive(Clone)]
pub struct ArrayVec<T, const ROOM: usize> {
    room: [T; ROOM],
    len: usize,
}

#[derive(Debug)]
pub struct CapacityError;

impl<T: Copy + Default, const ROOM: usize> ArrayVec<T, ROOM> {
    pub fn new() -> Self {
        ArrayVec { room: [T::default(); ROOM], len: 0 }
    }

    pub fn is_full(&self) -> bool {
        self.len == ROOM
    }

    pub fn push(&mut self, item: T) {
        self.room[self.len] = item;
        self.len += 1;
    }

    pub fn clear(&mut self) {
        self.len = 0;
    }

    pub fn remaining_capacity(&self) -> usize {
        ROOM - self.len
    }

    pub fn truncate(&mut self, len: usize) {
        self.len = self.len.min(len);
    }

    pub fn insert(&mut self, at: usize, item: T) {
        self.push(item);
        self[at..].rotate_right(1);
    }

    pub fn remove(&mut self, at: usize) -> T {
        let item = self[at];
        self.room.copy_within(at + 1..self.len, at);
        self.len -= 1;
        item
    }

    pub fn pop_at(&mut self, at: usize) -> Option<T> {
        (at < self.len).then(|| self.remove(at))
    }

    pub fn try_extend_from_slice(&mut self, items: &[T]) -> Result<(), CapacityError> {
        if items.len() > ROOM - self.len {
            return Err(CapacityError);
        }
        items.iter().for_each(|item| self.push(*item));
        Ok(())
    }

    pub fn as_slice(&self) -> &[T] {
        self
    }
}

impl<T, const ROOM: usize> Deref for ArrayVec<T, ROOM> {
    type Target = [T];

    fn deref(&self) -> &[T] {
        &self.room[..self.len]
    }
}

impl<T, const ROOM: usize> DerefMut for ArrayVec<T, ROOM> {
    fn deref_mut(&mut self) -> &mut [T] {
        &mut self.room[..self.len]
    }
}

impl<T: Debug, const ROOM: usize> Debug for ArrayVec<T, ROOM> {
    fn fmt(&self, f: &mut Formatter<'_>) -> fmt::Result {
        (**self).fmt(f)
    }
}

#[derive(Clone, Debug)]
pub struct ArrayString<const ROOM: usize>(ArrayVec<u8, ROOM>);

impl<const ROOM: usize> ArrayString<ROOM> {
    pub fn new() -> Self {
        ArrayString(ArrayVec::new())
    }

    pub fn push(&mut self, character: char) {
        self.push_str(character.encode_utf8(&mut [0; 4]));
    }

    pub fn push_str(&mut self, text: &str) {
        text.bytes().for_each(|byte| self.0.push(byte));
    }

    pub fn as_str(&self) -> &str {
        self
    }
}

impl<const ROOM: usize> Deref for ArrayString<ROOM> {
    type Target = str;

    fn deref(&self) -> &str {
        core::str::from_utf8(&self.0).unwrap()
    }
}
