//! Clocks that take turns, and what they measure: an input at several sizes beside an honest one.
use std::time::Instant;

/// How long a clock runs at a turn, and in all turns together, in seconds; two turns it always has.
const TURN: f64 = 0.3e-3;
const ALL_TURNS: f64 = 12e-3;
const LEAST_TURNS: u32 = 2;

/// The least seconds of a call so far.
pub struct Clock {
    call: Box<dyn FnMut() -> f64>,
    pub best: f64,
    spent: f64,
    turns: u32,
}

impl Clock {
    /// By a closure that makes a call and tells its seconds.
    fn new(call: impl FnMut() -> f64 + 'static) -> Clock {
        Clock { call: Box::new(call), best: f64::MAX, spent: 0.0, turns: 0 }
    }
    /// Of calls that change nothing: as many of them at once as take some 20 microseconds.
    pub fn steady(mut call: impl FnMut() + 'static) -> Clock {
        let mut calls = 1;
        Clock::new(move || {
            let seconds = timed(|| (0..calls).for_each(|_| call())) / calls as f64;
            calls = ((20e-6 / seconds) as usize).clamp(1, 2_000);
            seconds
        })
    }
    /// Of calls on something that they change, made anew before each.
    pub fn fresh<S>(make: impl Fn() -> S + 'static, mut call: impl FnMut(&mut S) + 'static) -> Clock {
        Clock::new(move || {
            let mut lent = make();
            timed(|| call(&mut lent))
        })
    }
    /// All its turns are before it, also where it had some: the best time stays.
    fn start(&mut self) {
        (self.spent, self.turns) = (0.0, 0);
    }
    pub fn turn(&mut self) {
        if self.turns >= LEAST_TURNS && self.spent > ALL_TURNS {
            return;
        }
        let mut turn = 0.0;
        while turn < TURN {
            turn += timed(|| self.best = self.best.min((self.call)()));
        }
        self.spent += turn;
        self.turns += 1;
    }
}

/// Seconds of the clock on the wall; of long work those of this thread, from which others can't take.
fn timed(work: impl FnOnce()) -> f64 {
    let (alone, start) = (thread_seconds(), Instant::now());
    work();
    let elapsed = start.elapsed().as_secs_f64();
    if elapsed < 100e-6 {
        return elapsed;
    }
    elapsed.min(thread_seconds() - alone)
}

/// The seconds that this thread has run.
fn thread_seconds() -> f64 {
    const CLOCK_THREAD_CPUTIME_ID: i32 = 3;
    extern "C" {
        fn clock_gettime(clock: i32, time: *mut [i64; 2]) -> i32;
    }
    let mut time = [0; 2];
    // SAFETY: a `timespec` of a 64-bit machine is two words, seconds and nanoseconds.
    assert_eq!(unsafe { clock_gettime(CLOCK_THREAD_CPUTIME_ID, &mut time) }, 0);
    time[0] as f64 + time[1] as f64 * 1e-9
}

/// One size of an input: how many items, how many bytes are lent, and the clocks.
pub struct Size {
    pub count: usize,
    pub bytes: usize,
    pub honest: Clock,
    pub worst: Clock,
    pub original: Option<Clock>,
    pub deps: Option<Deps>,
}

/// What else an update with many cell deps is measured beside.
pub struct Deps {
    /// C's `qsort` and `bsearch` over the same deps, and nothing else.
    pub sorted: Clock,
    /// The original from transactions that are parsed already.
    pub parsed: Clock,
}

impl Size {
    pub fn new(count: usize, bytes: usize, honest: Clock, worst: Clock) -> Size {
        Size { count, bytes, honest, worst, original: None, deps: None }
    }
    pub fn beside(self, original: Clock) -> Size {
        Size { original: Some(original), ..self }
    }
    fn clocks(&mut self) -> impl Iterator<Item = &mut Clock> {
        let deps = self.deps.iter_mut().flat_map(|deps| [&mut deps.sorted, &mut deps.parsed]);
        [&mut self.honest, &mut self.worst].into_iter().chain(&mut self.original).chain(deps)
    }
    /// How many times another's time the worst takes.
    pub fn to(&self, other: &Clock) -> f64 {
        self.worst.best / other.best
    }
    pub fn to_honest(&self) -> f64 {
        self.to(&self.honest)
    }
    pub fn to_original(&self) -> Option<f64> {
        self.original.as_ref().map(|original| self.to(original))
    }
}

/// An input of an entry, at its sizes from the smallest on.
pub struct Row {
    pub entry: &'static str,
    pub input: String,
    pub sizes: Vec<Size>,
}

impl Row {
    pub fn new<const N: usize>(entry: &'static str, input: impl Into<String>, counts: [usize; N], size: impl FnMut(usize) -> Size) -> Row {
        Row { entry, input: input.into(), sizes: counts.map(size).into() }
    }
    pub fn largest(&self) -> &Size {
        self.sizes.last().expect("a size")
    }
    /// The factor of a figure for a doubling of the count, from each size to the next.
    pub fn growth(&self, figure: impl Fn(&Size) -> f64) -> Vec<f64> {
        let doubling = |a: &Size, b: &Size| (figure(b) / figure(a)).powf(1.0 / (b.count as f64 / a.count as f64).log2());
        self.sizes.windows(2).map(|pair| doubling(&pair[0], &pair[1])).collect()
    }
}

/// Every clock has a turn in each round, until all have had theirs.
pub fn take_turns<'a>(rows: impl Iterator<Item = &'a mut Row>, rounds: usize) {
    let mut clocks: Vec<&mut Clock> = rows.flat_map(|row| &mut row.sizes).flat_map(Size::clocks).collect();
    clocks.iter_mut().for_each(|clock| clock.start());
    for _ in 0..rounds {
        clocks.iter_mut().for_each(|clock| clock.turn());
    }
}
