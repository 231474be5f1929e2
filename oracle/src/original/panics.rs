//! Why the original panics: for two causes that docs/DIFFERENCES.md lists, where the rules have a number. A panic for any other is no answer, and goes on.
use std::cell::{Cell, RefCell};
use std::panic::{catch_unwind, AssertUnwindSafe, PanicHookInfo};
use std::sync::Once;

#[derive(Clone, Copy, Debug, PartialEq)]
pub enum Cause {
    /// 5: `funding_output_delta` asks for our output 0 with its data, which `output_with_data` does not survive where there is no data entry.
    OutputWithoutData,
    /// 12: `build_udt_inputs_outputs` takes 16 bytes of a token cell's data, which has fewer.
    ShortTokenData,
}

/// The line of the original at which it panics, what the message begins with, and the cause.
const LISTED: [(&str, &str, Cause); 2] = [
    ("let local_amount = match local_tx.output_with_data(0) {", "should be ok", Cause::OutputWithoutData),
    (
        "amount_bytes.copy_from_slice(&cell.output_data.as_ref()[0..16]);",
        "range end index 16 out of range for slice of length",
        Cause::ShortTokenData,
    ),
];

thread_local! {
    static WATCHED: Cell<bool> = const { Cell::new(false) };
    /// The last panic of a watched call: its message and place.
    static SEEN: RefCell<(String, String, usize)> = const { RefCell::new((String::new(), String::new(), 0)) };
}

fn note(p: &PanicHookInfo) {
    let text = p.payload().downcast_ref::<&str>().map(|text| text.to_string());
    let text = text.or_else(|| p.payload().downcast_ref::<String>().cloned()).unwrap_or_default();
    let (file, line) = p.location().map_or((String::new(), 0), |l| (l.file().to_string(), l.line() as usize));
    SEEN.set((text, file, line));
}

/// Runs a call of the original: what it returned, or for which listed cause it panicked.
pub fn caught<T>(call: impl FnOnce() -> T) -> Result<T, Cause> {
    static HOOK: Once = Once::new();
    HOOK.call_once(|| {
        let usual = std::panic::take_hook();
        std::panic::set_hook(Box::new(move |p| if WATCHED.get() { note(p) } else { usual(p) }));
    });
    WATCHED.set(true);
    let result = catch_unwind(AssertUnwindSafe(call));
    WATCHED.set(false);
    result.map_err(|_| {
        let (text, file, line) = SEEN.take();
        // the original's files stand in one file, made by build.rs
        let at = if file.ends_with("reference.rs") { crate::REFERENCE.lines().nth(line - 1).unwrap_or_default().trim() } else { "" };
        let listed = LISTED.iter().find(|(place, begins, _)| at == *place && text.starts_with(begins));
        listed.unwrap_or_else(|| panic!("the original panics for a cause that no table has: {text}, at {file}:{line}: {at}")).2
    })
}
