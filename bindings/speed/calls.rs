//! `calls FILM`: what bench/bindings measures, in Rust.

use maqelsun::Movie;
use std::time::Instant;
use std::{env, fs, hint};

const TURNS: usize = 9;
const SAMPLES: u32 = 1_000_000;

fn median(mut work: impl FnMut()) -> f64 {
    let mut taken: Vec<f64> = (0..TURNS)
        .map(|_| {
            let begun = Instant::now();
            work();
            begun.elapsed().as_secs_f64()
        })
        .collect();
    taken.sort_by(f64::total_cmp);
    taken[TURNS / 2]
}

/// Numbers of samples at random.
fn numbers(count: usize) -> impl Iterator<Item = u32> {
    let mut state = 88_172_645_463_325_252u64;
    let next = move || {
        state ^= state << 13;
        state ^= state >> 7;
        state ^= state << 17;
        (state >> 32) as u32 % SAMPLES + 1
    };
    std::iter::repeat_with(next).take(count)
}

fn main() {
    let file = fs::read(env::args().nth(1).expect("a film")).expect("it is read");
    let opened = median(|| drop(hint::black_box(Movie::open(&file).unwrap())));
    let indexed = median(|| {
        let movie = Movie::open(&file).unwrap();
        hint::black_box(movie.read_sample(1, SAMPLES).unwrap());
    });
    let movie = Movie::open(&file).unwrap();
    let found = median(|| {
        let offsets = numbers(SAMPLES as usize).map(|number| movie.read_sample(1, number).unwrap().unwrap().offset);
        hint::black_box(offsets.fold(0, u64::wrapping_add));
    });
    let all = median(|| {
        let sizes = movie.samples(1).unwrap().map(|sample| sample.unwrap().bytes.len());
        hint::black_box(sizes.sum::<usize>());
    });
    let read = median(|| {
        for number in numbers(1000) {
            let bytes = movie.read_sample(1, number).unwrap().unwrap().bytes;
            hint::black_box(bytes.iter().map(|byte| u64::from(*byte)).sum::<u64>());
        }
    });
    println!(
        "{:<12} {:9.2} {:9.2} {:9.1} {:9.2} {:9.3}",
        "Rust",
        opened * 1e3,
        indexed * 1e3,
        found * 1e9 / f64::from(SAMPLES),
        all * 1e3,
        read * 1e3
    );
}
