//! Nanoseconds of one lookup by walking and by halving, both out of the archives' modules, on the same ascending numbers: each
//! number that is there in turn, in an order that jumps, and numbers that are not. `bench/run lookup` builds and runs it.
use std::time::Instant;

#[path = "../black_box.rs"]
mod black_box;
use black_box::black_box;

const WORDS: usize = 338;
const NUMBERS: u64 = 146;
// the least of so many batches: the cores have other work
const BATCHES: u64 = 15;
const TURNS: u64 = 2_000;

extern "C" {
    fn lookup_by_walk(words: &[u64; WORDS], a: u64, n: u64, x: u64) -> u64;
    fn lookup_by_halving(words: &[u64; WORDS], a: u64, n: u64, x: u64) -> u64;
}

type Lookup = unsafe extern "C" fn(&[u64; WORDS], u64, u64, u64) -> u64;

/// The number that is looked up in turn i: places follow each other by a step that is prime to 6, 20 and 32.
fn asked(i: u64, n: u64, there: bool) -> u64 {
    10 * (i * 7 % n + 1) + u64::from(!there)
}

fn timed(f: Lookup, words: &[u64; WORDS], n: u64, there: bool) -> f64 {
    let batch = |_| {
        let start = Instant::now();
        for i in 0..TURNS {
            black_box(unsafe { f(black_box(words), NUMBERS, n, asked(i, n, there)) });
        }
        start.elapsed().as_nanos() as f64 / TURNS as f64
    };
    (0..BATCHES).map(batch).fold(f64::MAX, f64::min)
}

fn main() {
    for n in [6, 20, 32] {
        let mut words = [u64::MAX; WORDS];
        for j in 0..n {
            words[(NUMBERS + j) as usize] = 10 * (j + 1);
        }
        for there in [true, false] {
            for i in 0..n {
                let x = asked(i, n, there);
                let (p, q) = unsafe { (lookup_by_walk(&words, NUMBERS, n, x), lookup_by_halving(&words, NUMBERS, n, x)) };
                assert_eq!(p, q, "{} numbers, {}", n, x);
            }
            let walk = timed(lookup_by_walk, &words, n, there);
            let halving = timed(lookup_by_halving, &words, n, there);
            println!("{} {} {} {}", n, if there { "there" } else { "not" }, walk, halving);
        }
    }
}
