//! Stand-in for the crate `zigbee_types`: what files 000 and 004 use of it, and what the oracle needs to make a table.

use std::mem::MaybeUninit;
use std::ops::Deref;
use std::{ptr, slice};

/// An IEEE address is its number.
#[derive(Debug, Clone, Copy, Default, PartialEq, Eq)]
pub struct IeeeAddress(pub u64);

/// A list of at most N, held in place: `push` appends, or hands the value back where there are N already; `remove` closes the gap
/// and keeps the order. The first `len` entries are written, and no other. (What is in the list when it goes is not dropped.)
pub struct StorageVec<T, const N: usize> {
    entries: [MaybeUninit<T>; N],
    len: usize,
}

impl<T, const N: usize> StorageVec<T, N> {
    pub fn empty() -> Self {
        Self {
            entries: [const { MaybeUninit::uninit() }; N],
            len: 0,
        }
    }

    pub fn push(&mut self, value: T) -> Result<(), T> {
        if self.len == N {
            return Err(value);
        }
        self.entries[self.len].write(value);
        self.len += 1;
        Ok(())
    }

    pub fn remove(&mut self, index: usize) -> T {
        assert!(index < self.len, "no entry {index} of {}", self.len);
        let behind = self.len - index - 1;
        // SAFETY: `index` is below `len`, so the entry there is written, and so are the `behind` entries after it.
        unsafe {
            let gap = self.entries.as_mut_ptr().add(index);
            let value = ptr::read(gap).assume_init();
            ptr::copy(gap.add(1), gap, behind);
            self.len -= 1;
            value
        }
    }
}

impl<T, const N: usize> Deref for StorageVec<T, N> {
    type Target = [T];

    fn deref(&self) -> &[T] {
        // SAFETY: the first `len` entries are written.
        unsafe { slice::from_raw_parts(self.entries.as_ptr().cast(), self.len) }
    }
}
