//! The functions of the archive (bindings/c/basinpantry.h), each under a safe function of the same name. All `unsafe` of this crate is here.
//!
//! The proofs begin at slices; pointers and lengths are the host's word. Every call keeps it for the same five reasons:
//! - pointer and length are of one Rust slice, so the bytes are there, initialised and lent while the call runs (where the length is 0 the pointer is not
//!   used); the pointer without a length, to the words of the answer, is of an array of as many;
//! - what a call writes to is a `&mut` slice or array, which overlaps nothing else that is lent to the call, and any bytes or words written are valid;
//! - the functions keep no pointer, have no state of their own, call nothing back and don't unwind; it is proved of them that on any content they
//!   return, and read and write nothing outside the lent slices;
//! - the stack is enough: half a megabyte is asked for, and a thread of the standard library has two unless another size is asked for. Of the calls that were
//!   measured the largest used up to 212 KB (`check_case`) and 195 KB (`take`); tests/stack.rs makes them all with half a megabyte, and sees that these two need
//!   the most. With too little a call ends the process: the archive touches a frame of many pages page by page, so that it meets the guard page below the
//!   stack, which tests/stack.rs sees of each call that has such a frame;
//! - the types are those of the header (tests/header.rs compares them): `size_t` is `usize`, `bool` is `bool`, and a call answers 0 or 1 for one.
//!
//! No length has to be any particular one for that: a table of another length is refused (3), and so is a buffer that is too short (13).
use crate::refusal::Refusal;

mod c {
    // SAFETY: the archive has these functions with these types: tests/header.rs compares both with the header, and the header with the library.
    unsafe extern "C" {
        pub fn basinpantry_is_transaction(s: *const u8, s_len: usize) -> bool;
        pub fn basinpantry_is_script(s: *const u8, s_len: usize) -> bool;
        pub fn basinpantry_is_records(s: *const u8, s_len: usize) -> bool;
        pub fn basinpantry_is_out_points(s: *const u8, s_len: usize) -> bool;
        pub fn basinpantry_update_for_peer(
            ours: *const u8,
            ours_len: usize,
            peer: *const u8,
            peer_len: usize,
            lock: *const u8,
            lock_len: usize,
            udt: *const u8,
            udt_len: usize,
            source: *const u8,
            source_len: usize,
            rate: u64,
            records: *const u8,
            records_len: usize,
            values: *mut u64,
        ) -> u32;
        pub fn basinpantry_build_funding_cell(
            ours: *const u8,
            ours_len: usize,
            udt: *const u8,
            udt_len: usize,
            local_low: u64,
            local_high: u64,
            local_reserved: u64,
            remote_low: u64,
            remote_high: u64,
            remote_reserved: u64,
            values: *mut u64,
        ) -> u32;
        pub fn basinpantry_build_udt_inputs_outputs(
            cells: *const u8,
            cells_len: usize,
            udt: *const u8,
            udt_len: usize,
            source: *const u8,
            source_len: usize,
            wanted_low: u64,
            wanted_high: u64,
            out: *mut u8,
            out_len: usize,
            values: *mut u64,
        ) -> u32;
        pub fn basinpantry_build_base(
            ours: *const u8,
            ours_len: usize,
            lock: *const u8,
            lock_len: usize,
            udt: *const u8,
            udt_len: usize,
            source: *const u8,
            source_len: usize,
            cells: *const u8,
            cells_len: usize,
            udt_deps: *const u8,
            udt_deps_len: usize,
            lock_dep: *const u8,
            lock_dep_len: usize,
            extra_deps: *const u8,
            extra_deps_len: usize,
            local_low: u64,
            local_high: u64,
            local_reserved: u64,
            remote_low: u64,
            remote_high: u64,
            remote_reserved: u64,
            out: *mut u8,
            out_len: usize,
            values: *mut u64,
        ) -> u32;
        pub fn basinpantry_version(tx: *const u8, tx_len: usize, values: *mut u64) -> u32;
        pub fn basinpantry_item_count(tx: *const u8, tx_len: usize, list: u32, values: *mut u64) -> u32;
        pub fn basinpantry_items(tx: *const u8, tx_len: usize, list: u32, places: *mut u64, places_len: usize, values: *mut u64) -> u32;
        pub fn basinpantry_item(tx: *const u8, tx_len: usize, list: u32, i: usize, out: *mut u8, out_len: usize, values: *mut u64) -> u32;
        pub fn basinpantry_write_transaction(
            version: u32,
            cell_deps: *const u8,
            cell_deps_len: usize,
            header_deps: *const u8,
            header_deps_len: usize,
            inputs: *const u8,
            inputs_len: usize,
            outputs: *const u8,
            outputs_len: usize,
            outputs_data: *const u8,
            outputs_data_len: usize,
            witnesses: *const u8,
            witnesses_len: usize,
            out: *mut u8,
            out_len: usize,
            values: *mut u64,
        ) -> u32;
        pub fn basinpantry_rewrite(tx: *const u8, tx_len: usize, out: *mut u8, out_len: usize, values: *mut u64) -> u32;
        pub fn basinpantry_replay(
            start: *const u8,
            start_len: usize,
            lock: *const u8,
            lock_len: usize,
            udt: *const u8,
            udt_len: usize,
            updates: *const u8,
            updates_len: usize,
            answers: *mut u64,
            answers_len: usize,
            values: *mut u64,
        ) -> u32;
        pub fn basinpantry_check_case(file: *const u8, file_len: usize, line: *mut u8, line_len: usize, values: *mut u64) -> u32;
        pub fn basinpantry_hold_funding(held: *mut u8, held_len: usize, holder: u64, cells: *const u8, cells_len: usize) -> u32;
        pub fn basinpantry_hold_for_watchtower(held: *mut u8, held_len: usize, cells: *const u8, cells_len: usize, time: u64) -> u32;
        pub fn basinpantry_release_for_watchtower(held: *mut u8, held_len: usize, cells: *const u8, cells_len: usize) -> u32;
        pub fn basinpantry_lock_held(held: *mut u8, held_len: usize, time: u64, out: *mut u8, out_len: usize) -> u32;
        pub fn basinpantry_unavailable(
            held: *const u8,
            held_len: usize,
            picked: *const u8,
            picked_len: usize,
            spent: *const u8,
            spent_len: usize,
            time: u64,
            out: *mut u8,
            out_len: usize,
        ) -> u32;
        pub fn basinpantry_take(
            held: *mut u8,
            held_len: usize,
            picked: *const u8,
            picked_len: usize,
            spent: *const u8,
            spent_len: usize,
            watchtower: bool,
            holder: u64,
            time: u64,
            taken: *mut u8,
            taken_len: usize,
            refused: *mut u8,
            refused_len: usize,
        ) -> u32;
        pub fn basinpantry_exclusions_add(
            map: *mut u8,
            map_len: usize,
            hash: *const u8,
            hash_len: usize,
            tx: *const u8,
            tx_len: usize,
        ) -> u32;
        pub fn basinpantry_exclusions_commit(map: *mut u8, map_len: usize, hash: *const u8, hash_len: usize, block: u64) -> u32;
        pub fn basinpantry_exclusions_remove(map: *mut u8, map_len: usize, hash: *const u8, hash_len: usize) -> u32;
        pub fn basinpantry_exclusions_migrate_funding_tx(
            map: *mut u8,
            map_len: usize,
            old_hash: *const u8,
            old_hash_len: usize,
            new_hash: *const u8,
            new_hash_len: usize,
            tx: *const u8,
            tx_len: usize,
        ) -> u32;
        pub fn basinpantry_exclusions_truncate(map: *mut u8, map_len: usize, tip: u64) -> u32;
        pub fn basinpantry_exclusions_apply(map: *const u8, map_len: usize, out: *mut u8, out_len: usize) -> u32;
    }
}

/// Calls a function of the archive, with a variable that is a slice of bytes, or one that is a buffer to write to, as its pointer and its length, and one that is
/// the four words of the answer as its pointer. Every argument
/// is evaluated outside of the `unsafe` block, which has the call alone. Each slice stays borrowed until the call has returned, so that one that is written to
/// can't be lent twice: `call!(f(buffer x, bytes x))` doesn't compile.
macro_rules! call {
    ($name:ident ( $($arguments:tt)* )) => {
        call!(@spread $name () () $($arguments)*,)
    };
    (@spread $name:ident ($($done:ident,)*) ($($lent:ident,)*) bytes $slice:ident, $($rest:tt)*) => {{
        let lent: &[_] = &$slice[..];
        let (start, length) = (lent.as_ptr(), lent.len());
        call!(@spread $name ($($done,)* start, length,) ($($lent,)* lent,) $($rest)*)
    }};
    (@spread $name:ident ($($done:ident,)*) ($($lent:ident,)*) buffer $slice:ident, $($rest:tt)*) => {{
        let lent: &mut [_] = &mut $slice[..];
        let length = lent.len();
        let start = lent.as_mut_ptr();
        call!(@spread $name ($($done,)* start, length,) ($($lent,)* lent,) $($rest)*)
    }};
    (@spread $name:ident ($($done:ident,)*) ($($lent:ident,)*) four $words:ident, $($rest:tt)*) => {{
        let lent: &mut [u64; VALUES] = &mut $words;
        let start = lent.as_mut_ptr();
        call!(@spread $name ($($done,)* start,) ($($lent,)* lent,) $($rest)*)
    }};
    (@spread $name:ident ($($done:ident,)*) ($($lent:ident,)*) number $number:expr, $($rest:tt)*) => {{
        let number = $number;
        call!(@spread $name ($($done,)* number,) ($($lent,)*) $($rest)*)
    }};
    (@spread $name:ident ($($done:ident,)*) ($($lent:ident,)*)) => {{
        // SAFETY: as the head of this module says: pointers with lengths of lent slices, and only what is lent by `&mut` is written to.
        let told = unsafe { c::$name($($done),*) };
        // the borrows end here
        let _ = ($($lent,)*);
        told
    }};
}

/// How many words are lent to a call that has more to tell than a number.
const VALUES: usize = 4;

// lengths and counts cross as 64 bits
const _: () = assert!(usize::BITS == 64);

/// A count or length that the library tells.
pub(crate) fn size(n: u64) -> usize {
    usize::try_from(n).expect("usize has 64 bits, which is asserted where this is compiled")
}

/// The values of an answer of 0, or the refusal of its number.
///
/// # Panics
/// On a number that is no refusal's: the archive is then of another version than this crate, which no lent bytes can bring about.
pub(crate) fn answer(number: u32, values: [u64; VALUES]) -> Result<[u64; VALUES], Refusal> {
    if number == 0 {
        return Ok(values);
    }
    match Refusal::from_number(number, values) {
        Some(why) => Err(why),
        None => panic!("the linked libcapi.a answers {number}, which this version of the crate doesn't know"),
    }
}

/// What a call gives that is never refused, since its contract leaves no refusal for what the types of this crate lend.
///
/// # Panics
/// On a refusal, as `answer` does on a number that there is not.
pub(crate) fn unrefused<T>(answer: Result<T, Refusal>) -> T {
    match answer {
        Ok(answer) => answer,
        Err(why) => {
            panic!("the linked libcapi.a answers {} to a call that this version of the crate knows to be never refused", why.number())
        }
    }
}

/// The same as `answer` for a call without values.
fn done(number: u32) -> Result<(), Refusal> {
    answer(number, [0; VALUES]).map(|_| ())
}

pub(crate) fn is_transaction(s: &[u8]) -> bool {
    call!(basinpantry_is_transaction(bytes s))
}

pub(crate) fn is_script(s: &[u8]) -> bool {
    call!(basinpantry_is_script(bytes s))
}

pub(crate) fn is_records(s: &[u8]) -> bool {
    call!(basinpantry_is_records(bytes s))
}

pub(crate) fn is_out_points(s: &[u8]) -> bool {
    call!(basinpantry_is_out_points(bytes s))
}

pub(crate) fn update_for_peer(
    ours: &[u8],
    peer: &[u8],
    lock: &[u8],
    udt: &[u8],
    source: &[u8],
    rate: u64,
    records: &[u8],
) -> Result<[u64; VALUES], Refusal> {
    let mut values = [0; VALUES];
    let number = call!(basinpantry_update_for_peer(
        bytes ours, bytes peer, bytes lock, bytes udt, bytes source, number rate, bytes records, four values
    ));
    answer(number, values)
}

/// `figures` are local low, high, reserved, then remote low, high, reserved.
pub(crate) fn build_funding_cell(ours: &[u8], udt: &[u8], figures: [u64; 6]) -> Result<[u64; VALUES], Refusal> {
    let mut values = [0; VALUES];
    let number = call!(basinpantry_build_funding_cell(
        bytes ours, bytes udt, number figures[0], number figures[1], number figures[2], number figures[3], number figures[4],
        number figures[5], four values
    ));
    answer(number, values)
}

pub(crate) fn build_udt_inputs_outputs(
    cells: &[u8],
    udt: &[u8],
    source: &[u8],
    wanted: [u64; 2],
    out: &mut [u8],
) -> Result<[u64; VALUES], Refusal> {
    let mut values = [0; VALUES];
    let number = call!(basinpantry_build_udt_inputs_outputs(
        bytes cells, bytes udt, bytes source, number wanted[0], number wanted[1], buffer out, four values
    ));
    answer(number, values)
}

/// `lent` are ours, lock, udt, source, cells, the token's deps, the lock's dep and extra deps; `figures` as for `build_funding_cell`.
pub(crate) fn build_base(lent: [&[u8]; 8], figures: [u64; 6], out: &mut [u8]) -> Result<[u64; VALUES], Refusal> {
    let [ours, lock, udt, source, cells, udt_deps, lock_dep, extra_deps] = lent;
    let mut values = [0; VALUES];
    let number = call!(basinpantry_build_base(
        bytes ours, bytes lock, bytes udt, bytes source, bytes cells, bytes udt_deps, bytes lock_dep, bytes extra_deps,
        number figures[0], number figures[1], number figures[2], number figures[3], number figures[4], number figures[5],
        buffer out, four values
    ));
    answer(number, values)
}

pub(crate) fn version(tx: &[u8]) -> Result<[u64; VALUES], Refusal> {
    let mut values = [0; VALUES];
    let number = call!(basinpantry_version(bytes tx, four values));
    answer(number, values)
}

pub(crate) fn item_count(tx: &[u8], list: u32) -> Result<[u64; VALUES], Refusal> {
    let mut values = [0; VALUES];
    let number = call!(basinpantry_item_count(bytes tx, number list, four values));
    answer(number, values)
}

/// How many items a list has, of which the places, two words for each, are written to the start of `places`.
pub(crate) fn items(tx: &[u8], list: u32, places: &mut [u64]) -> Result<[u64; VALUES], Refusal> {
    let mut values = [0; VALUES];
    let number = call!(basinpantry_items(bytes tx, number list, buffer places, four values));
    answer(number, values)
}

/// How many bytes item i has, which are written to the start of `out`.
pub(crate) fn item(tx: &[u8], list: u32, i: usize, out: &mut [u8]) -> Result<[u64; VALUES], Refusal> {
    let mut values = [0; VALUES];
    let number = call!(basinpantry_item(bytes tx, number list, number i, buffer out, four values));
    answer(number, values)
}

/// `lists` are the cell deps, header deps, inputs, outputs, outputs data and witnesses.
pub(crate) fn write_transaction(version: u32, lists: [&[u8]; 6], out: &mut [u8]) -> Result<[u64; VALUES], Refusal> {
    let [cell_deps, header_deps, inputs, outputs, outputs_data, witnesses] = lists;
    let mut values = [0; VALUES];
    let number = call!(basinpantry_write_transaction(
        number version, bytes cell_deps, bytes header_deps, bytes inputs, bytes outputs, bytes outputs_data, bytes witnesses,
        buffer out, four values
    ));
    answer(number, values)
}

pub(crate) fn rewrite(tx: &[u8], out: &mut [u8]) -> Result<[u64; VALUES], Refusal> {
    let mut values = [0; VALUES];
    let number = call!(basinpantry_rewrite(bytes tx, buffer out, four values));
    answer(number, values)
}

pub(crate) fn replay(start: &[u8], lock: &[u8], udt: &[u8], updates: &[u8], answers: &mut [u64]) -> Result<[u64; VALUES], Refusal> {
    let mut values = [0; VALUES];
    let number = call!(basinpantry_replay(bytes start, bytes lock, bytes udt, bytes updates, buffer answers, four values));
    answer(number, values)
}

/// How many bytes the verdict line has, which is written to the start of `line`.
pub(crate) fn check_case(file: &[u8], line: &mut [u8]) -> Result<[u64; VALUES], Refusal> {
    let mut values = [0; VALUES];
    let number = call!(basinpantry_check_case(bytes file, buffer line, four values));
    answer(number, values)
}

pub(crate) fn hold_funding(held: &mut [u8], holder: u64, cells: &[u8]) -> Result<(), Refusal> {
    done(call!(basinpantry_hold_funding(buffer held, number holder, bytes cells)))
}

pub(crate) fn hold_for_watchtower(held: &mut [u8], cells: &[u8], time: u64) -> Result<(), Refusal> {
    done(call!(basinpantry_hold_for_watchtower(buffer held, bytes cells, number time)))
}

pub(crate) fn release_for_watchtower(held: &mut [u8], cells: &[u8]) -> Result<(), Refusal> {
    done(call!(basinpantry_release_for_watchtower(buffer held, bytes cells)))
}

pub(crate) fn lock_held(held: &mut [u8], time: u64, out: &mut [u8]) -> Result<(), Refusal> {
    done(call!(basinpantry_lock_held(buffer held, number time, buffer out)))
}

pub(crate) fn unavailable(held: &[u8], picked: &[u8], spent: &[u8], time: u64, out: &mut [u8]) -> Result<(), Refusal> {
    done(call!(basinpantry_unavailable(bytes held, bytes picked, bytes spent, number time, buffer out)))
}

/// For the watchtower where `holder` is none.
pub(crate) fn take(
    held: &mut [u8],
    picked: &[u8],
    spent: &[u8],
    holder: Option<u64>,
    time: u64,
    taken: &mut [u8],
    refused: &mut [u8],
) -> Result<(), Refusal> {
    let watchtower = holder.is_none();
    let holder = holder.unwrap_or(0);
    done(call!(basinpantry_take(
        buffer held, bytes picked, bytes spent, number watchtower, number holder, number time, buffer taken, buffer refused
    )))
}

pub(crate) fn exclusions_add(map: &mut [u8], hash: &[u8], tx: &[u8]) -> Result<(), Refusal> {
    done(call!(basinpantry_exclusions_add(buffer map, bytes hash, bytes tx)))
}

pub(crate) fn exclusions_commit(map: &mut [u8], hash: &[u8], block: u64) -> Result<(), Refusal> {
    done(call!(basinpantry_exclusions_commit(buffer map, bytes hash, number block)))
}

pub(crate) fn exclusions_remove(map: &mut [u8], hash: &[u8]) -> Result<(), Refusal> {
    done(call!(basinpantry_exclusions_remove(buffer map, bytes hash)))
}

pub(crate) fn exclusions_migrate_funding_tx(map: &mut [u8], old_hash: &[u8], new_hash: &[u8], tx: &[u8]) -> Result<(), Refusal> {
    done(call!(basinpantry_exclusions_migrate_funding_tx(buffer map, bytes old_hash, bytes new_hash, bytes tx)))
}

pub(crate) fn exclusions_truncate(map: &mut [u8], tip: u64) -> Result<(), Refusal> {
    done(call!(basinpantry_exclusions_truncate(buffer map, number tip)))
}

pub(crate) fn exclusions_apply(map: &[u8], out: &mut [u8]) -> Result<(), Refusal> {
    done(call!(basinpantry_exclusions_apply(bytes map, buffer out)))
}
