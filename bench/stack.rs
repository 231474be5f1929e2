// How much stack a call uses: a stretch below the caller is painted, and what of it the call has written to is counted.
//
// This reads a frame that has ended, of which the language promises nothing; it is a measurement and no part of the library. It relies on this: the memory of
// the stack stays mapped, nothing but the call and the frames on the way to it runs on the thread between the painting and the look, and the compiler neither
// leaves out the painting (`black_box`) nor the reads (volatile). What a call reserves below its lowest write, or writes as 0xa5 there, is not counted, so the
// figure is at least what was written to, and not all that was reserved. That half a megabyte is enough is tested in bindings/rust/tests/stack.rs in another way.
use std::hint::black_box;

const PAINTED: usize = 1 << 20;

// Paints the stack below and answers where the paint begins.
#[inline(never)]
fn paint() -> usize {
    let stretch = [0xa5u8; PAINTED];
    black_box(&stretch).as_ptr() as usize
}

// How many bytes below its caller the call writes to.
#[inline(never)]
pub fn stack_use(call: impl FnOnce()) -> usize {
    let low = paint();
    call();
    let here = black_box(&low) as *const usize as usize;
    let mut at = low;
    // SAFETY: the stretch is memory of this thread's stack, mapped and readable, though no frame has it any more: see above.
    while at < here && unsafe { std::ptr::read_volatile(at as *const u8) } == 0xa5 {
        at += 1;
    }
    here - at
}
