// The time of a plain scan: one block of 256 words against every start of 250000 words, with the differing bits of
// each start counted by xor and count of ones.
//
//     rustc -O -o /tmp/plain_loop tools/scan_time/plain_loop.rs && /tmp/plain_loop
//     rustc -O -C target-cpu=native -o /tmp/plain_loop tools/scan_time/plain_loop.rs && /tmp/plain_loop
//
// Without target-cpu the compiler uses no instruction that counts ones. It prints the best of some runs, in
// milliseconds of processor time (on Linux): for the loop over all 256 words of each start, and for one that leaves a
// start once it has more than 2867 differing bits.
use std::hint::black_box;

const BLOCK_SIZE: usize = 256;
const WORDS: usize = 250_000;
const MOST_ERRORS: u32 = 2867;
const RUNS: usize = 25;

#[repr(C)]
struct Time {
    seconds: i64,
    nanoseconds: i64,
}

extern "C" {
    fn clock_gettime(clock: i32, time: *mut Time) -> i32;
}

const PROCESSOR_TIME: i32 = 2;

// The processor time that this process has used, in seconds.
fn time_used() -> f64 {
    let mut time = Time { seconds: 0, nanoseconds: 0 };
    unsafe { clock_gettime(PROCESSOR_TIME, &mut time) };
    time.seconds as f64 + time.nanoseconds as f64 / 1e9
}

// Words from a simple generator, of which no start is near the block.
fn some_words(seed: u64, count: usize) -> Vec<u32> {
    let mut state = seed;
    (0..count)
        .map(|_| {
            state = state.wrapping_mul(6364136223846793005).wrapping_add(1442695040888963407);
            (state >> 32) as u32
        })
        .collect()
}

fn errors(window: &[u32], block: &[u32]) -> u32 {
    window.iter().zip(block).map(|(a, b)| (a ^ b).count_ones()).sum()
}

fn all_words(song: &[u32], block: &[u32]) -> u32 {
    song.windows(BLOCK_SIZE).filter(|window| errors(window, block) <= MOST_ERRORS).count() as u32
}

fn up_to_the_limit(song: &[u32], block: &[u32]) -> u32 {
    song.windows(BLOCK_SIZE)
        .filter(|window| {
            let mut errors = 0;
            window.iter().zip(block).all(|(a, b)| {
                errors += (a ^ b).count_ones();
                errors <= MOST_ERRORS
            })
        })
        .count() as u32
}

fn best_of(scan: fn(&[u32], &[u32]) -> u32, song: &[u32], block: &[u32]) -> (f64, u32) {
    let mut best = f64::MAX;
    let mut found = 0;
    for _ in 0..RUNS {
        let start = time_used();
        found = black_box(scan(black_box(song), black_box(block)));
        best = best.min(time_used() - start);
    }
    (best * 1000.0, found)
}

fn main() {
    let song = some_words(1, WORDS);
    let block = some_words(2, BLOCK_SIZE);
    for (name, scan) in [
        ("all words", all_words as fn(&[u32], &[u32]) -> u32),
        ("up to the limit", up_to_the_limit),
    ] {
        let (time, found) = best_of(scan, &song, &block);
        println!("{name}: {time:.2} ms, {found} starts found");
    }
}
