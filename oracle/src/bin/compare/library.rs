//! The library through its C interface (bindings/c/basinpantry.h), with slices for pointers and lengths. bindings/rust/tests/header.rs compares the declarations
//! with the header.
#![allow(clippy::too_many_arguments)]
use crate::faults;

/// Declares each function as C has it, a slice as a pointer and a length and the values as a pointer, and beside it the same with slices.
macro_rules! interface {
    ($(fn $name:ident = $symbol:ident($($arg:ident: $kind:tt),*) -> $out:ty;)*) => {
        /// Each function with its arguments and their kinds.
        pub const FUNCTIONS: &[(&str, &[(&str, &str)])] = &[$((stringify!($symbol), &[$((stringify!($arg), stringify!($kind))),*])),*];
        $(pub fn $name($($arg: interface!(@slice $kind)),*) -> $out {
            interface!(@declare $symbol [] [$($arg: $kind,)*] $out);
            // SAFETY: the function reads and writes only what it is lent, and nothing that is written to is lent twice.
            let told = interface!(@call $symbol [] [$($arg: $kind,)*]);
            $(interface!(@fault $symbol $arg $kind);)*
            faults::answer(stringify!($symbol), told)
        })*
    };
    (@fault $s:ident $a:ident buffer) => { faults::buffer(stringify!($s), stringify!($a), $a) };
    (@fault $s:ident $a:ident words) => { faults::words(stringify!($s), stringify!($a), $a) };
    (@fault $s:ident $a:ident values) => { faults::words(stringify!($s), stringify!($a), $a) };
    (@fault $s:ident $a:ident $k:ident) => {};
    (@slice bytes) => { &[u8] };
    (@slice buffer) => { &mut [u8] };
    (@slice words) => { &mut [u64] };
    (@slice values) => { &mut [u64; 4] };
    (@slice $t:ident) => { $t };
    (@declare $s:ident [$($done:tt)*] [$a:ident: bytes, $($rest:tt)*] $out:ty) => {
        interface!(@declare $s [$($done)* _: *const u8, _: usize,] [$($rest)*] $out)
    };
    (@declare $s:ident [$($done:tt)*] [$a:ident: buffer, $($rest:tt)*] $out:ty) => {
        interface!(@declare $s [$($done)* _: *mut u8, _: usize,] [$($rest)*] $out)
    };
    (@declare $s:ident [$($done:tt)*] [$a:ident: words, $($rest:tt)*] $out:ty) => {
        interface!(@declare $s [$($done)* _: *mut u64, _: usize,] [$($rest)*] $out)
    };
    (@declare $s:ident [$($done:tt)*] [$a:ident: values, $($rest:tt)*] $out:ty) => {
        interface!(@declare $s [$($done)* _: *mut u64,] [$($rest)*] $out)
    };
    (@declare $s:ident [$($done:tt)*] [$a:ident: $t:ident, $($rest:tt)*] $out:ty) => {
        interface!(@declare $s [$($done)* _: $t,] [$($rest)*] $out)
    };
    (@declare $s:ident [$($done:tt)*] [] $out:ty) => {
        extern "C" { fn $s($($done)*) -> $out; }
    };
    (@call $s:ident [$($done:tt)*] [$a:ident: bytes, $($rest:tt)*]) => {
        interface!(@call $s [$($done)* $a.as_ptr(), $a.len(),] [$($rest)*])
    };
    (@call $s:ident [$($done:tt)*] [$a:ident: buffer, $($rest:tt)*]) => {
        interface!(@call $s [$($done)* $a.as_mut_ptr(), $a.len(),] [$($rest)*])
    };
    (@call $s:ident [$($done:tt)*] [$a:ident: words, $($rest:tt)*]) => {
        interface!(@call $s [$($done)* $a.as_mut_ptr(), $a.len(),] [$($rest)*])
    };
    (@call $s:ident [$($done:tt)*] [$a:ident: values, $($rest:tt)*]) => {
        interface!(@call $s [$($done)* $a.as_mut_ptr(),] [$($rest)*])
    };
    (@call $s:ident [$($done:tt)*] [$a:ident: $t:ident, $($rest:tt)*]) => {
        interface!(@call $s [$($done)* $a,] [$($rest)*])
    };
    (@call $s:ident [$($done:tt)*] []) => { unsafe { $s($($done)*) } };
}

interface! {
    fn is_transaction = basinpantry_is_transaction(s: bytes) -> bool;
    fn is_script = basinpantry_is_script(s: bytes) -> bool;
    fn is_records = basinpantry_is_records(s: bytes) -> bool;
    fn is_out_points = basinpantry_is_out_points(s: bytes) -> bool;
    fn version = basinpantry_version(tx: bytes, values: values) -> u32;
    fn item_count = basinpantry_item_count(tx: bytes, list: u32, values: values) -> u32;
    fn items = basinpantry_items(tx: bytes, list: u32, places: words, values: values) -> u32;
    fn item = basinpantry_item(tx: bytes, list: u32, i: usize, out: buffer, values: values) -> u32;
    fn write_transaction = basinpantry_write_transaction(version: u32, cell_deps: bytes, header_deps: bytes, inputs: bytes, outputs: bytes,
        outputs_data: bytes, witnesses: bytes, out: buffer, values: values) -> u32;
    fn rewrite = basinpantry_rewrite(tx: bytes, out: buffer, values: values) -> u32;

    fn update_for_peer = basinpantry_update_for_peer(ours: bytes, peer: bytes, lock: bytes, udt: bytes, source: bytes, rate: u64, records: bytes,
        values: values) -> u32;
    fn replay = basinpantry_replay(start: bytes, lock: bytes, udt: bytes, updates: bytes, answers: words, values: values) -> u32;
    fn check_case = basinpantry_check_case(file: bytes, line: buffer, values: values) -> u32;

    fn build_funding_cell = basinpantry_build_funding_cell(ours: bytes, udt: bytes, local_low: u64, local_high: u64, local_reserved: u64,
        remote_low: u64, remote_high: u64, remote_reserved: u64, values: values) -> u32;
    fn build_udt_inputs_outputs = basinpantry_build_udt_inputs_outputs(cells: bytes, udt: bytes, source: bytes, wanted_low: u64, wanted_high: u64,
        out: buffer, values: values) -> u32;
    fn build_base = basinpantry_build_base(ours: bytes, lock: bytes, udt: bytes, source: bytes, cells: bytes, udt_deps: bytes, lock_dep: bytes,
        extra_deps: bytes, local_low: u64, local_high: u64, local_reserved: u64, remote_low: u64, remote_high: u64, remote_reserved: u64,
        out: buffer, values: values) -> u32;

    fn hold_funding = basinpantry_hold_funding(held: buffer, holder: u64, cells: bytes) -> u32;
    fn hold_for_watchtower = basinpantry_hold_for_watchtower(held: buffer, cells: bytes, time: u64) -> u32;
    fn release_for_watchtower = basinpantry_release_for_watchtower(held: buffer, cells: bytes) -> u32;
    fn lock_held = basinpantry_lock_held(held: buffer, time: u64, out: buffer) -> u32;
    fn unavailable = basinpantry_unavailable(held: bytes, picked: bytes, spent: bytes, time: u64, out: buffer) -> u32;
    fn take = basinpantry_take(held: buffer, picked: bytes, spent: bytes, watchtower: bool, holder: u64, time: u64, taken: buffer,
        refused: buffer) -> u32;

    fn exclusions_add = basinpantry_exclusions_add(map: buffer, hash: bytes, tx: bytes) -> u32;
    fn exclusions_commit = basinpantry_exclusions_commit(map: buffer, hash: bytes, block: u64) -> u32;
    fn exclusions_remove = basinpantry_exclusions_remove(map: buffer, hash: bytes) -> u32;
    fn exclusions_migrate_funding_tx = basinpantry_exclusions_migrate_funding_tx(map: buffer, old_hash: bytes, new_hash: bytes, tx: bytes) -> u32;
    fn exclusions_truncate = basinpantry_exclusions_truncate(map: buffer, tip: u64) -> u32;
    fn exclusions_apply = basinpantry_exclusions_apply(map: bytes, out: buffer) -> u32;
}

/// What stands in lent words and buffers before a call.
pub const WORD: u64 = 0x5555_5555_5555_5555;
pub const BYTE: u8 = 0xa5;

/// Lends the four words of an answer to a call.
pub fn with_values(call: impl FnOnce(&mut [u64; 4]) -> u32) -> (u32, [u64; 4]) {
    let mut values = [WORD; 4];
    let number = call(&mut values);
    (number, values)
}

/// The four words after a call that tells these: the others are as they were.
pub fn values(told: &[u64]) -> [u64; 4] {
    let mut values = [WORD; 4];
    values[..told.len()].copy_from_slice(told);
    values
}
