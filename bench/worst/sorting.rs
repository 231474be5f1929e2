//! C's own way to find deps among deps: `qsort`, then `bsearch` for each.
use super::clock::Clock;
use std::ffi::{c_int, c_void};

type Dep = [u8; 37];
type Compare = extern "C" fn(*const c_void, *const c_void) -> c_int;

extern "C" {
    fn qsort(base: *mut c_void, count: usize, size: usize, compare: Compare);
    fn bsearch(key: *const c_void, base: *const c_void, count: usize, size: usize, compare: Compare) -> *mut c_void;
    fn memcmp(a: *const c_void, b: *const c_void, count: usize) -> c_int;
}

extern "C" fn compare(a: *const c_void, b: *const c_void) -> c_int {
    // SAFETY: `qsort` and `bsearch` pass pointers to items, which have 37 bytes.
    unsafe { memcmp(a, b, size_of::<Dep>()) }
}

/// Sorts the deps, and tells whether each of the wanted ones is among them.
fn has_all(deps: &mut [Dep], wanted: &[Dep]) -> bool {
    let (count, size) = (deps.len(), size_of::<Dep>());
    // SAFETY: the pointer and the count are those of the slice, and the key is an item.
    unsafe { qsort(deps.as_mut_ptr().cast(), count, size, compare) };
    wanted.iter().all(|dep| !unsafe { bsearch(dep.as_ptr().cast(), deps.as_ptr().cast(), count, size, compare) }.is_null())
}

/// The time for that: the deps are copied before the clock starts.
pub fn clock(ours: Vec<Dep>, peer: Vec<Dep>, found: bool) -> Clock {
    Clock::fresh(move || peer.clone(), move |deps| assert_eq!(has_all(deps, &ours), found))
}
