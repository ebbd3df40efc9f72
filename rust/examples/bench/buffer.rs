//! Buffers that all begin 16 bytes after a border of 4,096, as large ones from malloc do, so that speeds don't hang on what was allocated before.
use std::mem::size_of;
use std::ops::{Deref, DerefMut};

const PAGE: usize = 4096;

pub struct Buffer<T> {
    all: Vec<T>,
    first: usize,
    len: usize,
}

impl<T: Copy + Default> Buffer<T> {
    pub fn new(len: usize) -> Buffer<T> {
        let all = vec![T::default(); len + (PAGE + 16) / size_of::<T>()];
        let past = all.as_ptr() as usize % PAGE;
        let first = (PAGE + 16 - past) / size_of::<T>();
        Buffer { all, first, len }
    }
}

impl<T> Deref for Buffer<T> {
    type Target = [T];

    fn deref(&self) -> &[T] {
        &self.all[self.first..self.first + self.len]
    }
}

impl<T> DerefMut for Buffer<T> {
    fn deref_mut(&mut self) -> &mut [T] {
        &mut self.all[self.first..self.first + self.len]
    }
}

impl<T: Copy + Default> Clone for Buffer<T> {
    fn clone(&self) -> Buffer<T> {
        let mut copy = Buffer::new(self.len);
        copy.copy_from_slice(self);
        copy
    }
}
