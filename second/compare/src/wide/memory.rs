//! Memory that is lent to the library: mapped once, with a page before and a page
//! after it that nothing can read or write. What is lent lies against one of the two,
//! so that one more is a fault; on its other side stand guards, which no call may
//! change.

#![allow(unsafe_code)]

use std::ffi::{c_int, c_void};
use std::ptr;

use crate::random::Random;

#[cfg(not(target_os = "linux"))]
compile_error!("the pages around lent memory are made by calls of Linux");

extern "C" {
    fn mmap(
        at: *mut c_void,
        len: usize,
        access: c_int,
        flags: c_int,
        file: c_int,
        from: i64,
    ) -> *mut c_void;
    fn mprotect(at: *mut c_void, len: usize, access: c_int) -> c_int;
    fn munmap(at: *mut c_void, len: usize) -> c_int;
    fn getpagesize() -> c_int;
}

/// `PROT_NONE`, and `PROT_READ` with `PROT_WRITE`.
const NONE: c_int = 0;
const READ_WRITE: c_int = 3;

/// `MAP_PRIVATE` with `MAP_ANONYMOUS`.
const OWN: c_int = 0x22;

/// Which of the two pages lent memory lies against.
#[derive(Clone, Copy, Debug, PartialEq, Eq)]
pub enum Side {
    Before,
    After,
}

/// How the side of what is lent is chosen.
#[derive(Clone, Debug)]
pub enum Sides {
    /// For each buffer of each call by itself.
    Drawn(Random),
    /// The same for all.
    All(Side),
}

impl Sides {
    /// The sides of the next call, one bit for each buffer.
    pub const fn next(&mut self) -> Bits {
        match self {
            Self::Drawn(random) => Bits(random.bits()),
            Self::All(Side::Before) => Bits(0),
            Self::All(Side::After) => Bits(u64::MAX),
        }
    }
}

/// The sides of a call's buffers.
#[derive(Clone, Copy, Debug)]
pub struct Bits(u64);

impl Bits {
    /// That of one buffer of at most 64.
    pub const fn of(self, buffer: usize) -> Side {
        match self.0 >> buffer & 1 {
            0 => Side::Before,
            _ => Side::After,
        }
    }
}

/// What can be lent: any bits are one.
pub trait Unit: Copy + Eq {}

impl Unit for u8 {}
impl Unit for u64 {}

/// How many bytes of guards stand beside what is lent.
const GUARD: usize = 64;

/// How many units of guards stand beside what is lent.
pub const fn guards<T: Unit>() -> usize {
    GUARD / size_of::<T>()
}

/// Whether two are the same. A short one is compared unit by unit: `==` calls `memcmp`,
/// which on some machines takes hundreds of cycles for one at the edge of a closed page.
pub fn same<T: Unit>(one: &[T], two: &[T]) -> bool {
    if one.len() < guards::<T>() && one.len() == two.len() {
        one.iter().zip(two).all(|(one, two)| one == two)
    } else {
        one == two
    }
}

/// Memory between two pages that nothing can read or write.
pub struct Paged<T> {
    /// Where the page before begins.
    mapped: *mut u8,
    page: usize,
    /// The first unit and how many there are.
    first: *mut T,
    units: usize,
}

impl<T: Unit> Paged<T> {
    /// Room for so many, and the guards.
    pub fn new(room: usize) -> Self {
        let page = usize::try_from(unsafe { getpagesize() }).expect("the size of a page");
        let bytes = (room * size_of::<T>() + GUARD).next_multiple_of(page);
        let mapped = unsafe { mmap(ptr::null_mut(), bytes + 2 * page, READ_WRITE, OWN, -1, 0) };
        assert!(mapped as isize != -1, "no memory to lend");
        let mapped: *mut u8 = mapped.cast();
        for closed in [0, page + bytes] {
            // Within what was mapped, and nobody has it yet.
            let status = unsafe { mprotect(mapped.add(closed).cast(), page, NONE) };
            assert!(status == 0, "no page can be closed");
        }
        Self {
            mapped,
            page,
            first: unsafe { mapped.add(page).cast() },
            units: bytes / size_of::<T>(),
        }
    }

    /// How many can be lent.
    pub const fn room(&self) -> usize {
        self.units - guards::<T>()
    }

    /// What is lent and its guards.
    pub fn parts(&self, len: usize, side: Side) -> (&[T], &[T]) {
        let (lent, guard) = self.places(len, side);
        // Both lie in what was mapped, and nobody writes to it meanwhile.
        unsafe {
            (
                std::slice::from_raw_parts(lent, len),
                std::slice::from_raw_parts(guard, guards::<T>()),
            )
        }
    }

    /// The same, to be changed.
    pub fn parts_mut(&mut self, len: usize, side: Side) -> (&mut [T], &mut [T]) {
        let (lent, guard) = self.places(len, side);
        // The two don't overlap.
        unsafe {
            (
                std::slice::from_raw_parts_mut(lent, len),
                std::slice::from_raw_parts_mut(guard, guards::<T>()),
            )
        }
    }

    /// Where what is lent begins, and where its guards do.
    fn places(&self, len: usize, side: Side) -> (*mut T, *mut T) {
        assert!(len <= self.room(), "no room to lend so much");
        let all = len + guards::<T>();
        unsafe {
            match side {
                Side::Before => (self.first, self.first.add(len)),
                Side::After => {
                    let guard = self.first.add(self.units - all);
                    (guard.add(guards::<T>()), guard)
                }
            }
        }
    }
}

impl<T> Drop for Paged<T> {
    fn drop(&mut self) {
        let len = self.units * size_of::<T>() + 2 * self.page;
        // Where it can't be given back, it stays mapped.
        unsafe { munmap(self.mapped.cast(), len) };
    }
}

#[cfg(test)]
mod tests {
    use super::{guards, Paged, Side, Sides, GUARD};
    use crate::random::Random;

    #[test]
    fn what_is_lent_lies_against_a_page() {
        let mut memory = Paged::<u8>::new(5_000);
        assert!(memory.room() >= 5_000);
        let first = memory.mapped as usize + memory.page;
        for len in [0, 1, 100, 5_000] {
            let (lent, guard) = memory.parts_mut(len, Side::Before);
            lent.fill(7);
            guard.fill(9);
            let (lent, guard) = memory.parts(len, Side::Before);
            assert_eq!((lent.len(), guard.len()), (len, GUARD));
            assert_eq!(lent.as_ptr() as usize, first);
            assert_eq!(guard.as_ptr() as usize, first + len);
            let (lent, guard) = memory.parts(len, Side::After);
            assert_eq!(lent.as_ptr() as usize + len, first + memory.units);
            assert_eq!(guard.as_ptr() as usize + GUARD, lent.as_ptr() as usize);
        }
    }

    #[test]
    fn numbers_stay_aligned() {
        let memory = Paged::<u64>::new(68);
        for len in 0..=68 {
            for side in [Side::Before, Side::After] {
                let (lent, guard) = memory.parts(len, side);
                assert_eq!(lent.as_ptr() as usize % 8, 0);
                assert_eq!(guard.len(), guards::<u64>());
            }
        }
    }

    #[test]
    fn sides_are_drawn_for_each_buffer() {
        let mut sides = Sides::Drawn(Random::new(1));
        let drawn: Vec<_> = (0..20).map(|_| sides.next()).collect();
        for buffer in 0..11 {
            for side in [Side::Before, Side::After] {
                assert!(drawn.iter().any(|bits| bits.of(buffer) == side));
            }
        }
        for side in [Side::Before, Side::After] {
            let bits = Sides::All(side).next();
            assert!((0..11).all(|buffer| bits.of(buffer) == side));
        }
    }
}
