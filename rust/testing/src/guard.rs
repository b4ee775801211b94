//! Words in memory between pages that cannot be read or written (Linux).

use std::cell::RefCell;
use std::ffi::c_void;
use std::ops::{Deref, DerefMut};
use std::{ptr, slice};

extern "C" {
    fn mmap(
        address: *mut c_void,
        bytes: usize,
        protection: i32,
        flags: i32,
        file: i32,
        offset: i64,
    ) -> *mut c_void;
    fn mprotect(address: *mut c_void, bytes: usize, protection: i32) -> i32;
    fn munmap(address: *mut c_void, bytes: usize) -> i32;
}

/// Memory that cannot be read or written.
const NONE: i32 = 0;
/// Memory that can be read.
const READ: i32 = 1;
/// Memory that can be read and written.
const READ_AND_WRITE: i32 = 3;
/// Private memory of no file, taken only where it is touched.
const PRIVATE_ANONYMOUS_AND_LAZY: i32 = 0x4022;
/// The bytes of one guard, a multiple of every page size.
const GUARD: usize = 1 << 16;

/// Which guard the words touch.
#[derive(Clone, Copy, Debug, PartialEq, Eq)]
pub enum Place {
    /// The last word ends where the guard begins.
    EndsAtGuard,
    /// The first word begins where the guard ends.
    StartsAtGuard,
}

/// Both places.
pub const PLACES: [Place; 2] = [Place::EndsAtGuard, Place::StartsAtGuard];

/// Memory for the words that a call is lent.
pub trait Memory: DerefMut<Target = [u32]> {
    /// The same memory, lent for reading alone.
    type Frozen: Deref<Target = [u32]>;

    /// The same words, for reading alone from here on.
    fn freeze(self) -> Self::Frozen;
}

/// Ordinary memory.
impl Memory for Vec<u32> {
    type Frozen = Vec<u32>;

    fn freeze(self) -> Vec<u32> {
        self
    }
}

/// Memory between two guards.
struct Area {
    base: *mut u8,
    inner: usize,
}

thread_local! {
    /// Areas of the smallest size, which are used again.
    static SPARE: RefCell<Vec<Area>> = const { RefCell::new(Vec::new()) };
}

/// Words that touch a guard.
pub struct Guarded {
    area: Option<Area>,
    first: *mut u32,
    words: usize,
}

/// Words that touch a guard and cannot be written.
pub struct Frozen(Guarded);

impl Area {
    /// Memory of so many bytes between two guards.
    fn new(inner: usize) -> Area {
        let (whole, flags) = (inner + 2 * GUARD, PRIVATE_ANONYMOUS_AND_LAZY);
        // SAFETY: fresh memory, of which nothing is known here.
        let base = unsafe { mmap(ptr::null_mut(), whole, NONE, flags, -1, 0) };
        assert_ne!(base as isize, -1, "mmap failed");
        let area = Area {
            base: base.cast(),
            inner,
        };
        area.protect(READ_AND_WRITE);
        area
    }

    /// Makes the memory between the guards readable or writable.
    fn protect(&self, protection: i32) {
        // SAFETY: the inner part of the memory that `new` took; nobody borrows it where writing is taken away.
        let done = unsafe { mprotect(self.base.add(GUARD).cast(), self.inner, protection) };
        assert_eq!(done, 0, "mprotect failed");
    }
}

impl Drop for Area {
    fn drop(&mut self) {
        // SAFETY: the whole memory that `new` took, which nothing borrows any more.
        unsafe { munmap(self.base.cast(), self.inner + 2 * GUARD) };
    }
}

impl Guarded {
    /// A copy of the words at the place.
    pub fn new(place: Place, words: &[u32]) -> Guarded {
        let mut copy = Guarded::take(place, words.len());
        copy.copy_from_slice(words);
        copy
    }

    /// So many words at the place, each 0; they take memory only where they are touched.
    pub fn zero(place: Place, words: usize) -> Guarded {
        let mut zero = Guarded::take(place, words);
        if zero.area().inner == GUARD {
            zero.fill(0);
        }
        zero
    }

    /// So many words at the place, with any words of before in an area of the smallest size.
    fn take(place: Place, words: usize) -> Guarded {
        let bytes = words * size_of::<u32>();
        let inner = bytes.div_ceil(GUARD).max(1) * GUARD;
        let spare = SPARE.with_borrow_mut(|spare| spare.pop_if(|area| area.inner == inner));
        let area = spare.unwrap_or_else(|| Area::new(inner));
        let start = match place {
            Place::EndsAtGuard => GUARD + inner - bytes,
            Place::StartsAtGuard => GUARD,
        };
        // SAFETY: the words lie between the guards of the area.
        let first = unsafe { area.base.add(start).cast::<u32>() };
        Guarded {
            area: Some(area),
            first,
            words,
        }
    }

    /// The area, which is there until the words are dropped.
    fn area(&self) -> &Area {
        self.area.as_ref().expect("an area")
    }
}

/// Memory at a guard, which cannot be written when it is frozen.
impl Memory for Guarded {
    type Frozen = Frozen;

    fn freeze(self) -> Frozen {
        self.area().protect(READ);
        Frozen(self)
    }
}

impl Deref for Guarded {
    type Target = [u32];

    fn deref(&self) -> &[u32] {
        // SAFETY: these words lie in the area, and they are borrowed with `self`.
        unsafe { slice::from_raw_parts(self.first, self.words) }
    }
}

impl DerefMut for Guarded {
    fn deref_mut(&mut self) -> &mut [u32] {
        // SAFETY: these words lie in the area, and they are borrowed with `self` alone.
        unsafe { slice::from_raw_parts_mut(self.first, self.words) }
    }
}

impl Deref for Frozen {
    type Target = [u32];

    fn deref(&self) -> &[u32] {
        &self.0
    }
}

impl Drop for Frozen {
    fn drop(&mut self) {
        self.0.area().protect(READ_AND_WRITE);
    }
}

impl Drop for Guarded {
    fn drop(&mut self) {
        let small = self.area.take().filter(|area| area.inner == GUARD);
        SPARE.with_borrow_mut(|spare| spare.extend(small));
    }
}
