//! Stand-in for the crate fixedvec: vector.rs names it under cfg(test), which the window sets. Compiled, never run.
#![no_std]
use core::ops::{Index, IndexMut};

#[derive(Debug)]
pub struct NoSpace;

pub struct FixedVec<'a, T: Copy> {
    memory: &'a mut [T],
    len: usize,
}

impl<T: Copy> FixedVec<'_, T> {
    pub fn push(&mut self, value: T) -> Result<(), NoSpace> {
        self.push_all(&[value])
    }

    pub fn push_all(&mut self, values: &[T]) -> Result<(), NoSpace> {
        if values.len() > self.memory.len() - self.len {
            return Err(NoSpace);
        }
        self.memory[self.len..self.len + values.len()].copy_from_slice(values);
        self.len += values.len();
        Ok(())
    }

    pub fn len(&self) -> usize {
        self.len
    }

    pub fn is_empty(&self) -> bool {
        self.len == 0
    }

    pub fn clear(&mut self) {
        self.len = 0;
    }

    pub fn resize(&mut self, new_len: usize, value: T) {
        if new_len > self.len {
            self.memory[self.len..new_len].fill(value);
        }
        self.len = new_len;
    }

    pub fn as_slice(&self) -> &[T] {
        &self.memory[..self.len]
    }

    pub fn as_mut_slice(&mut self) -> &mut [T] {
        &mut self.memory[..self.len]
    }
}

impl<T: Copy> Index<usize> for FixedVec<'_, T> {
    type Output = T;
    fn index(&self, i: usize) -> &T {
        &self.as_slice()[i]
    }
}

impl<T: Copy> IndexMut<usize> for FixedVec<'_, T> {
    fn index_mut(&mut self, i: usize) -> &mut T {
        &mut self.as_mut_slice()[i]
    }
}
