//! Faults that are put into what the library answers and leaves, one at a time, to see that each is noticed: nothing of it goes unlooked at.
use crate::library::FUNCTIONS;
use std::cell::RefCell;

#[derive(Clone, Copy, Debug, PartialEq)]
enum Place {
    Answer,
    /// A word of a lent array.
    Word(&'static str, usize),
    /// A byte of a lent buffer: the first, the last, one in between.
    First(&'static str),
    Last(&'static str),
    Between(&'static str),
}
use Place::*;

#[derive(Clone, Copy, Debug)]
pub struct Fault {
    function: &'static str,
    place: Place,
}

thread_local! {
    /// The fault that is in, and how many calls of its function there were.
    static IN: RefCell<Option<(Fault, usize)>> = const { RefCell::new(None) };
}

/// All faults of a function.
pub fn of(function: &str) -> Vec<Fault> {
    let (function, args) = FUNCTIONS.iter().find(|f| f.0 == function).expect("a function of the interface");
    let mut places = vec![Answer];
    for (name, kind) in args.iter() {
        match *kind {
            "words" | "values" => places.extend((0..4).map(|i| Word(name, i))),
            "buffer" => places.extend([First(name), Last(name), Between(name)]),
            _ => {}
        }
    }
    places.into_iter().map(|place| Fault { function, place }).collect()
}

/// With a fault in, or with none.
pub fn put_in(fault: Option<Fault>) {
    IN.set(fault.map(|f| (f, 0)));
}

/// The place to change, at every third call of the function.
fn due(function: &str) -> Option<(Place, usize)> {
    IN.with_borrow(|f| f.filter(|(f, calls)| f.function == function && calls % 3 == 2).map(|(f, calls)| (f.place, calls)))
}

pub trait Changed {
    fn changed(self) -> Self;
}
impl Changed for u32 {
    fn changed(self) -> u32 {
        self ^ 1
    }
}
impl Changed for bool {
    fn changed(self) -> bool {
        !self
    }
}

/// The answer of a call, which is then over.
pub fn answer<T: Changed>(function: &str, told: T) -> T {
    let told = if let Some((Answer, _)) = due(function) { told.changed() } else { told };
    IN.with_borrow_mut(|f| f.iter_mut().filter(|(f, _)| f.function == function).for_each(|(_, calls)| *calls += 1));
    told
}
pub fn words(function: &str, name: &str, words: &mut [u64]) {
    match due(function) {
        Some((Word(n, i), _)) if n == name && i < words.len() => words[i] ^= 1,
        _ => {}
    }
}
pub fn buffer(function: &str, name: &str, bytes: &mut [u8]) {
    let Some((place, calls)) = due(function).filter(|_| !bytes.is_empty()) else { return };
    let at = match place {
        First(n) if n == name => 0,
        Last(n) if n == name => bytes.len() - 1,
        Between(n) if n == name => calls * 37 % bytes.len(),
        _ => return,
    };
    bytes[at] ^= 1;
}
