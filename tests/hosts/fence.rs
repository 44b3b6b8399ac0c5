//! Areas with a page on either side that may be neither read nor written: a step outside what was lent ends the program.

use std::marker::PhantomData;
use std::ops::{Deref, DerefMut};

extern "C" {
    fn mmap(at: *mut u8, length: usize, protection: i32, flags: i32, file: i32, offset: i64) -> *mut u8;
    fn mprotect(at: *mut u8, length: usize, protection: i32) -> i32;
    fn munmap(at: *mut u8, length: usize) -> i32;
}

const PAGE: usize = 4096;

/// A copy of a slice that ends at the page behind it, or begins at the page before it.
pub struct Fenced<T: Copy> {
    base: *mut u8,
    whole: usize,
    start: *mut T,
    length: usize,
    kind: PhantomData<T>,
}

impl<T: Copy> Fenced<T> {
    pub fn of(from: &[T], at_end: bool) -> Fenced<T> {
        let bytes = std::mem::size_of_val(from);
        let room = (bytes + PAGE - 1) / PAGE * PAGE;
        let whole = room + 2 * PAGE;
        unsafe {
            let base = mmap(std::ptr::null_mut(), whole, 3, 0x22, -1, 0);
            assert!(base as isize != -1, "no memory");
            assert_eq!(mprotect(base, PAGE, 0), 0);
            assert_eq!(mprotect(base.add(PAGE + room), PAGE, 0), 0);
            let start = base.add(if at_end { PAGE + room - bytes } else { PAGE }) as *mut T;
            std::ptr::copy_nonoverlapping(from.as_ptr(), start, from.len());
            Fenced { base, whole, start, length: from.len(), kind: PhantomData }
        }
    }
}

impl<T: Copy> Deref for Fenced<T> {
    type Target = [T];
    fn deref(&self) -> &[T] {
        unsafe { std::slice::from_raw_parts(self.start, self.length) }
    }
}

impl<T: Copy> DerefMut for Fenced<T> {
    fn deref_mut(&mut self) -> &mut [T] {
        unsafe { std::slice::from_raw_parts_mut(self.start, self.length) }
    }
}

impl<T: Copy> Drop for Fenced<T> {
    fn drop(&mut self) {
        unsafe {
            munmap(self.base, self.whole);
        }
    }
}
