//! The time of the proved functions against plain Rust, on the same input in the same run.

mod agree;
mod plain;
mod proved;

use std::hint::black_box;
use std::process::ExitCode;
use std::time::Instant;

const ROUNDS: u32 = 20_000;
const SAMPLES: u32 = 100;

/// The time of one call in nanoseconds, over `ROUNDS` calls.
fn sample(mut call: impl FnMut()) -> f64 {
    let start = Instant::now();
    for _ in 0..ROUNDS {
        call();
    }
    start.elapsed().as_secs_f64() * 1e9 / f64::from(ROUNDS)
}

/// The least of several samples of both, taken in turn, so that what disturbs the machine disturbs both.
fn compare(what: &str, against: &str, mut proved: impl FnMut(), mut plain: impl FnMut()) {
    let mut best_proved = f64::INFINITY;
    let mut best_plain = f64::INFINITY;
    for _ in 0..SAMPLES {
        best_proved = best_proved.min(sample(&mut proved));
        best_plain = best_plain.min(sample(&mut plain));
    }
    let ratio = best_proved / best_plain;
    println!("{what:<28} {against:<30} {best_proved:>8.2} ns {best_plain:>8.2} ns {ratio:>7.2}");
}

fn time_fletcher(len: usize) {
    let bytes = agree::Noise::new(len as u64).bytes(len);
    let what = format!("Fletcher, {len} bytes");
    let proved = || {
        black_box(proved::fletcher(black_box(&bytes)));
    };
    compare(&what, "reduced at every word", proved, || {
        black_box(plain::fletcher(black_box(&bytes)));
    });
    compare(&what, "reductions delayed", proved, || {
        black_box(plain::fletcher_delayed(black_box(&bytes)));
    });
}

fn time_pages(what: &str, a: &[u8; 256], b: &[u8; 256]) {
    let proved = || {
        black_box(proved::pages_equal(black_box(a), black_box(b)));
    };
    compare(what, "loop by index", proved, || {
        black_box(plain::pages_equal(black_box(a), black_box(b)));
    });
    compare(what, "operator ==", proved, || {
        black_box(plain::pages_equal_operator(black_box(a), black_box(b)));
    });
}

fn main() -> ExitCode {
    match (agree::on_runs(), agree::on_pages()) {
        (Ok(runs), Ok(pages)) => println!("the same answers on {runs} runs of bytes and {pages} pairs of pages\n"),
        (runs, pages) => {
            for difference in [runs.err(), pages.err()].into_iter().flatten() {
                eprintln!("DIFFERENT: {difference}");
            }
            return ExitCode::FAILURE;
        }
    }
    println!("{ROUNDS} rounds, the best of {SAMPLES} samples");
    println!("{:<28} {:<30} {:>11} {:>11} {:>7}", "what", "plain Rust", "proved", "plain", "ratio");
    time_fletcher(256);
    time_fletcher(508);
    let page = agree::Noise::new(3).page();
    let mut first = page;
    first[0] ^= 1;
    let mut last = page;
    last[255] ^= 1;
    time_pages("pages, equal", &page, &page.clone());
    time_pages("pages, first byte differs", &page, &first);
    time_pages("pages, last byte differs", &page, &last);
    ExitCode::SUCCESS
}
