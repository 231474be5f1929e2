// Times `build_base` over many cell deps, and measures its stack: see bench/base.
mod library;
mod stack;

use library::Base;
use stack::stack_use;
use std::hint::black_box;
use std::time::Instant;

// The most deps that are looked for: so many fit 133,116 bytes.
const MOST: u32 = 3_597;

fn script() -> Vec<u8> {
    let mut s = Vec::new();
    for n in [53u32, 16, 48, 49] {
        s.extend(n.to_le_bytes());
    }
    s.extend([0; 33]);
    s.extend([0; 4]);
    s
}

// A base from no present transaction, untyped, with these extra deps.
fn build(script: &[u8], deps: &[u8], out: &mut [u8]) -> u32 {
    let none: &[u8] = &[];
    let base = Base {
        ours: none,
        lock: script,
        udt: none,
        source: script,
        cells: &4u32.to_le_bytes(),
        udt_deps: none,
        lock_dep: none,
        extra_deps: deps,
        local: 5,
        reserved: 7,
    };
    library::build_base(&base, out)
}

// `distinct` deps in an order, then repeats of them up to `count`.
fn deps(order: &str, distinct: u32, count: u32) -> Vec<u8> {
    let mut s = count.to_le_bytes().to_vec();
    for i in 0..count {
        let n = match order {
            "rising" => i % distinct,
            "falling" => distinct - 1 - i % distinct,
            _ => (u64::from(i) * 2_654_435_761 % u64::from(distinct)) as u32,
        };
        s.extend([7u8; 32]);
        s.extend(n.to_be_bytes());
        s.push(0);
    }
    s
}

fn main() {
    let script = script();
    let mut out = vec![0u8; 133_116];
    println!("order          deps  distinct  answer       ms");
    for (distinct, count) in [(MOST - 10, MOST - 10), (MOST - 10, 2 * MOST), (MOST - 10, 100_000), (MOST + 1, MOST + 1)] {
        for order in ["rising", "falling", "mixed"] {
            let list = deps(order, distinct, count);
            let mut best = f64::MAX;
            let mut answer = 0;
            for _ in 0..5 {
                let start = Instant::now();
                answer = black_box(build(&script, &list, &mut out));
                best = best.min(start.elapsed().as_secs_f64());
            }
            println!("{order:<8} {count:>10} {distinct:>9} {answer:>7} {:>8.2}", best * 1e3);
        }
    }
    let list = deps("mixed", MOST - 10, MOST - 10);
    println!("stack: {} bytes", stack_use(|| assert_eq!(build(&script, &list, &mut out), 0)));
}
