//! Reads one book again and again for some time: how long one reading takes.

use std::hint::black_box;
use std::time::{Duration, Instant};
use std::{env, fs};

const LONG_ENOUGH: Duration = Duration::from_millis(300);

/// Prints the events that are accepted in the book of the first word, and the nanoseconds of one reading.
pub fn measure(read: fn(&[u8]) -> u64) {
    let file = env::args().nth(1).expect("a book");
    let book = fs::read(file).expect("a book that can be read");
    let first = Instant::now();
    let events = read(&book);
    let at_once = if 16 * first.elapsed() < LONG_ENOUGH {
        16
    } else {
        1
    };
    let mut readings: u32 = 0;
    let start = Instant::now();
    while start.elapsed() < LONG_ENOUGH {
        for _ in 0..at_once {
            black_box(read(black_box(&book)));
        }
        readings += at_once;
    }
    println!(
        "{events} {}",
        start.elapsed().as_nanos() / u128::from(readings)
    );
}
