//! Converts the pointers of a caller in C to references for the layer. This is the only place where that happens.
//!
//! The callers must follow the rules at the top of `cedar.h`:
//!
//! - A pointer and a length belong to one initialized array, which is readable, or writable if the call writes to it.
//! - Memory that a call writes overlaps no other argument.
//! - A handle is zeroed before its first use.
//! - Two handles of one call are different.
//!
//! The layer does not use a reference after the call has returned.
#![allow(unsafe_code)]

use super::policies::Policies;
use super::store::Store;

// A handle has the layout of the header: a pointer and a flag. `Option<Box<..>>` is a pointer, and `None` is null.
const _: () = assert!(size_of::<Store>() == 16 && align_of::<Store>() == 8);
const _: () = assert!(size_of::<Policies>() == 16 && align_of::<Policies>() == 8);

/// Returns a mutable reference to the value at an address.
///
/// # Safety
///
/// `at` must point to a value of this type, which nothing else reads or writes before the call returns.
pub(super) unsafe fn one<'a, T>(at: *mut T) -> &'a mut T {
    // SAFETY: the caller ensures it.
    unsafe { &mut *at }
}

/// Returns a reference to the value at an address.
///
/// # Safety
///
/// `at` must point to a value of this type, which nothing writes before the call returns.
pub(super) unsafe fn read<'a, T>(at: *const T) -> &'a T {
    // SAFETY: the caller ensures it.
    unsafe { &*at }
}

/// Returns a slice of `len` values at an address. If the length is 0, the address can have any value.
///
/// # Safety
///
/// `at` must point to an array of `len` values of this type, which nothing writes before the call returns.
pub(super) unsafe fn all<'a, T>(at: *const T, len: usize) -> &'a [T] {
    if len == 0 {
        return &[];
    }
    // SAFETY: the caller ensures it. An array in C is shorter than 2^63 bytes.
    unsafe { std::slice::from_raw_parts(at, len) }
}

/// Returns a mutable slice of `len` values at an address. If the length is 0, the address can have any value.
///
/// # Safety
///
/// `at` must point to an array of `len` values of this type, which nothing else reads or writes before the call returns.
pub(super) unsafe fn all_mut<'a, T>(at: *mut T, len: usize) -> &'a mut [T] {
    if len == 0 {
        return &mut [];
    }
    // SAFETY: the caller ensures it. An array in C is shorter than 2^63 bytes.
    unsafe { std::slice::from_raw_parts_mut(at, len) }
}
