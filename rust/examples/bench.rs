//! Times the library's test of four bytes of a policy's table as one word beside a
//! test of each byte.
//!
//! `cargo run --release --features native --example bench`
//!
//! A figure is taken over many rounds. A round times a batch of calls of both tests,
//! in turn, so that a change of the machine's pace meets both. A ratio below 1 means
//! that the library is faster.

use hemdroas::names::{MOST_STATES, NO_ARROW};
use hemdroas::native;
use std::hint::black_box;
use std::time::{Duration, Instant};

const ROUNDS: usize = 500;
const BATCH: Duration = Duration::from_micros(300);
/// The words of a table of sixteen states.
const WORDS: usize = 64;

type Table = [u32; WORDS];

fn time(calls: u32, call: &mut dyn FnMut() -> usize) -> f64 {
    let start = Instant::now();
    for _ in 0..calls {
        black_box(call());
    }
    start.elapsed().as_nanos() as f64 / f64::from(calls)
}

fn minimum_and_median(times: &mut [f64]) -> (f64, f64) {
    times.sort_by(f64::total_cmp);
    (times[0], times[times.len() / 2])
}

/// Times both, and prints a row of the table.
fn figure(name: &str, by_word: &mut dyn FnMut() -> usize, by_byte: &mut dyn FnMut() -> usize) {
    let mut calls = 1;
    while time(calls, by_word).max(time(calls, by_byte)) * f64::from(calls)
        < BATCH.as_nanos() as f64
    {
        calls *= 2;
    }
    let (mut word_times, mut byte_times) = (Vec::new(), Vec::new());
    for round in 0..ROUNDS {
        if round % 2 == 0 {
            word_times.push(time(calls, by_word));
            byte_times.push(time(calls, by_byte));
        } else {
            byte_times.push(time(calls, by_byte));
            word_times.push(time(calls, by_word));
        }
    }
    let (word_least, word_middle) = minimum_and_median(&mut word_times);
    let (byte_least, byte_middle) = minimum_and_median(&mut byte_times);
    let each = |time: f64| time / WORDS as f64;
    println!(
        "| {name} | {:.2} | {:.2} | {:.2} | {:.2} | {:.2} | {:.2} |",
        each(word_least),
        each(byte_least),
        word_least / byte_least,
        each(word_middle),
        each(byte_middle),
        word_middle / byte_middle,
    );
}

/// A word of a table tested byte by byte; a call of its own, as the library's
/// test of a word is.
#[inline(never)]
extern "C" fn byte_by_byte(states: u32, word: u32) -> bool {
    let known = |&to: &u8| u32::from(to) < states || u32::from(to) == NO_ARROW;
    (1..=MOST_STATES).contains(&states) && word.to_le_bytes().iter().all(known)
}

/// How many words of the next table are right. Each call takes the next of the
/// tables; with many, as each installation has its own, none is learnt by heart.
fn tester<'a>(
    tables: &'a [Table],
    test: impl Fn(u32, u32) -> bool + 'a,
) -> impl FnMut() -> usize + 'a {
    let mut turn = 0;
    move || {
        turn = (turn + 1) % tables.len();
        let states = black_box(MOST_STATES);
        let right = |&&word: &&u32| test(states, word);
        tables[turn].iter().filter(right).count()
    }
}

fn table_test(name: &str, tables: &[Table]) {
    let mut by_word = tester(tables, native::word_right);
    let mut by_byte = tester(tables, |states, word| byte_by_byte(states, word));
    assert_eq!((by_word(), by_byte()), (WORDS, WORDS));
    figure(name, &mut by_word, &mut by_byte);
}

/// Tables of sixteen states; half of the entries is no arrow.
fn right_tables() -> Vec<Table> {
    let mut state = 11_u64;
    let mut byte = || {
        state = state
            .wrapping_mul(6_364_136_223_846_793_005)
            .wrapping_add(1);
        match state >> 60 {
            0..8 => NO_ARROW as u8,
            _ => (state >> 56) as u8 % MOST_STATES as u8,
        }
    };
    let mut word = || u32::from_le_bytes([byte(), byte(), byte(), byte()]);
    (0..100).map(|_| [(); WORDS].map(|()| word())).collect()
}

fn main() {
    println!(
        "Nanoseconds a word, over {ROUNDS} rounds of at least {} microseconds each.\n",
        BATCH.as_micros()
    );
    println!("| figure | by word, min | by byte, min | ratio, min | by word, median | by byte, median | ratio, median |");
    println!("|---|---|---|---|---|---|---|");
    let tables = right_tables();
    table_test("100 tables in turn", &tables);
    table_test("one table over and over", &tables[..1]);
}
