// What the benchmarks call: the functions of the C interface (bindings/c/basinpantry.h), with slices for pointers and lengths. bindings/rust/tests/header.rs
// compares the declarations with the header.
#![allow(dead_code, clippy::too_many_arguments)]

// Declares each function as C has it and defines the same with slices: `bytes` are lent to be read, `buffer` and `words` to be written, `values` are the four
// words of an answer; any other kind is a type.
macro_rules! interface {
    ($(fn $name:ident = $symbol:ident($($arg:ident: $kind:tt),*) -> $out:ty;)*) => {
        $(pub fn $name($($arg: interface!(@slice $kind)),*) -> $out {
            interface!(@declare $symbol [] [$($arg: $kind,)*] $out);
            // SAFETY: the function reads and writes only what it is lent, and nothing that is written to is lent twice.
            interface!(@call $symbol [] [$($arg: $kind,)*])
        })*
    };
    (@slice bytes) => { &[u8] };
    (@slice buffer) => { &mut [u8] };
    (@slice words) => { &mut [u64] };
    (@slice values) => { &mut [u64; 4] };
    (@slice $t:ident) => { $t };
    (@declare $s:ident [$($d:tt)*] [$a:ident: bytes, $($r:tt)*] $out:ty) => { interface!(@declare $s [$($d)* _: *const u8, _: usize,] [$($r)*] $out) };
    (@declare $s:ident [$($d:tt)*] [$a:ident: buffer, $($r:tt)*] $out:ty) => { interface!(@declare $s [$($d)* _: *mut u8, _: usize,] [$($r)*] $out) };
    (@declare $s:ident [$($d:tt)*] [$a:ident: words, $($r:tt)*] $out:ty) => { interface!(@declare $s [$($d)* _: *mut u64, _: usize,] [$($r)*] $out) };
    (@declare $s:ident [$($d:tt)*] [$a:ident: values, $($r:tt)*] $out:ty) => { interface!(@declare $s [$($d)* _: *mut u64,] [$($r)*] $out) };
    (@declare $s:ident [$($d:tt)*] [$a:ident: $t:ident, $($r:tt)*] $out:ty) => { interface!(@declare $s [$($d)* _: $t,] [$($r)*] $out) };
    (@declare $s:ident [$($d:tt)*] [] $out:ty) => { extern "C" { fn $s($($d)*) -> $out; } };
    (@call $s:ident [$($d:tt)*] [$a:ident: bytes, $($r:tt)*]) => { interface!(@call $s [$($d)* $a.as_ptr(), $a.len(),] [$($r)*]) };
    (@call $s:ident [$($d:tt)*] [$a:ident: buffer, $($r:tt)*]) => { interface!(@call $s [$($d)* $a.as_mut_ptr(), $a.len(),] [$($r)*]) };
    (@call $s:ident [$($d:tt)*] [$a:ident: words, $($r:tt)*]) => { interface!(@call $s [$($d)* $a.as_mut_ptr(), $a.len(),] [$($r)*]) };
    (@call $s:ident [$($d:tt)*] [$a:ident: values, $($r:tt)*]) => { interface!(@call $s [$($d)* $a.as_mut_ptr(),] [$($r)*]) };
    (@call $s:ident [$($d:tt)*] [$a:ident: $t:ident, $($r:tt)*]) => { interface!(@call $s [$($d)* $a,] [$($r)*]) };
    (@call $s:ident [$($d:tt)*] []) => { unsafe { $s($($d)*) } };
}

interface! {
    fn is_transaction = basinpantry_is_transaction(s: bytes) -> bool;
    fn is_script = basinpantry_is_script(s: bytes) -> bool;
    fn is_records = basinpantry_is_records(s: bytes) -> bool;
    fn is_out_points = basinpantry_is_out_points(s: bytes) -> bool;
    fn version = basinpantry_version(tx: bytes, values: values) -> u32;
    fn item_count = basinpantry_item_count(tx: bytes, list: u32, values: values) -> u32;
    fn items = basinpantry_items(tx: bytes, list: u32, places: words, values: values) -> u32;
    fn item = basinpantry_item(tx: bytes, list: u32, i: usize, out: buffer, values: values) -> u32;
    fn write_transaction = basinpantry_write_transaction(version: u32, cell_deps: bytes, header_deps: bytes, inputs: bytes, outputs: bytes,
        outputs_data: bytes, witnesses: bytes, out: buffer, values: values) -> u32;
    fn rewrite = basinpantry_rewrite(tx: bytes, out: buffer, values: values) -> u32;

    fn update_for_peer = basinpantry_update_for_peer(ours: bytes, peer: bytes, lock: bytes, udt: bytes, source: bytes, rate: u64, records: bytes,
        values: values) -> u32;
    fn replay = basinpantry_replay(start: bytes, lock: bytes, udt: bytes, updates: bytes, answers: words, values: values) -> u32;
    fn check_case = basinpantry_check_case(file: bytes, line: buffer, values: values) -> u32;

    fn build_funding_cell = basinpantry_build_funding_cell(ours: bytes, udt: bytes, local_low: u64, local_high: u64, local_reserved: u64,
        remote_low: u64, remote_high: u64, remote_reserved: u64, values: values) -> u32;
    fn build_udt_inputs_outputs = basinpantry_build_udt_inputs_outputs(cells: bytes, udt: bytes, source: bytes, wanted_low: u64, wanted_high: u64,
        out: buffer, values: values) -> u32;
    fn build_base_of = basinpantry_build_base(ours: bytes, lock: bytes, udt: bytes, source: bytes, cells: bytes, udt_deps: bytes, lock_dep: bytes,
        extra_deps: bytes, local_low: u64, local_high: u64, local_reserved: u64, remote_low: u64, remote_high: u64, remote_reserved: u64,
        out: buffer, values: values) -> u32;

    fn hold_funding = basinpantry_hold_funding(held: buffer, holder: u64, cells: bytes) -> u32;
    fn hold_for_watchtower = basinpantry_hold_for_watchtower(held: buffer, cells: bytes, time: u64) -> u32;
    fn release_for_watchtower = basinpantry_release_for_watchtower(held: buffer, cells: bytes) -> u32;
    fn lock_held = basinpantry_lock_held(held: buffer, time: u64, out: buffer) -> u32;
    fn unavailable = basinpantry_unavailable(held: bytes, picked: bytes, spent: bytes, time: u64, out: buffer) -> u32;
    fn take = basinpantry_take(held: buffer, picked: bytes, spent: bytes, watchtower: bool, holder: u64, time: u64, taken: buffer,
        refused: buffer) -> u32;

    fn exclusions_add = basinpantry_exclusions_add(map: buffer, hash: bytes, tx: bytes) -> u32;
    fn exclusions_commit = basinpantry_exclusions_commit(map: buffer, hash: bytes, block: u64) -> u32;
    fn exclusions_remove = basinpantry_exclusions_remove(map: buffer, hash: bytes) -> u32;
    fn exclusions_migrate_funding_tx = basinpantry_exclusions_migrate_funding_tx(map: buffer, old_hash: bytes, new_hash: bytes, tx: bytes) -> u32;
    fn exclusions_truncate = basinpantry_exclusions_truncate(map: buffer, tip: u64) -> u32;
    fn exclusions_apply = basinpantry_exclusions_apply(map: bytes, out: buffer) -> u32;
}

pub const HELD_BYTES: usize = 12_292;
pub const EXCLUSIONS_BYTES: usize = 21_508;

// What a base transaction is built from, in bytes; unfunded figures of the remote side are 0.
#[derive(Clone, Copy)]
pub struct Base<'a> {
    pub ours: &'a [u8],
    pub lock: &'a [u8],
    pub udt: &'a [u8],
    pub source: &'a [u8],
    pub cells: &'a [u8],
    pub udt_deps: &'a [u8],
    pub lock_dep: &'a [u8],
    pub extra_deps: &'a [u8],
    pub local: u64,
    pub reserved: u64,
}

pub fn build_base(base: &Base, out: &mut [u8]) -> u32 {
    let Base { ours, lock, udt, source, cells, udt_deps, lock_dep, extra_deps, local, reserved } = *base;
    build_base_of(ours, lock, udt, source, cells, udt_deps, lock_dep, extra_deps, local, 0, reserved, 0, 0, 0, out, &mut [0; 4])
}
