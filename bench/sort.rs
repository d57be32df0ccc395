//! Sorts random numbers, or pairs of them, by the standard library's stable sort, to be timed beside the program.
//! Usage: sort numbers|pairs COUNT ROUNDS
use std::hint::black_box;

fn sorted<T: Copy + Ord>(random: &[T], rounds: usize) {
    for _ in 0..rounds {
        let mut all = random.to_vec();
        all.sort();
        black_box(&all);
    }
}

fn main() {
    let words: Vec<String> = std::env::args().collect();
    let (count, rounds) = (words[2].parse().unwrap(), words[3].parse().unwrap());
    let mut state = 1u64;
    let mut draw = || {
        state = state.wrapping_mul(6_364_136_223_846_793_005).wrapping_add(1_442_695_040_888_963_407);
        state >> 11
    };
    let random: Vec<u64> = (0..count).map(|_| draw()).collect();
    match words[1].as_str() {
        "pairs" => sorted(&random.iter().map(|&number| (number, draw())).collect::<Vec<_>>(), rounds),
        _ => sorted(&random, rounds),
    }
}
