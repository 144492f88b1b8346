//! Times the proved board against the board in plain Rust, in interleaved rounds.
//!
//! `compare [ROUNDS [MILLISECONDS [WORD]]]`: so many rounds, each of so many milliseconds at least for
//! each board, of the cases whose names have the word. A case whose rounds disagree is measured again.

use std::env;
use std::hint::black_box;
use std::time::Duration;

use compare::cases::{self, Case, Desk};
use compare::clock::thread_time;
use compare::plain::Plain;
use compare::player::Player;
use compare::proved::Proved;

const ROUNDS: usize = 11;
const MILLISECONDS: u64 = 50;
/// How often a case is measured at most, until the middle half of its ratios is so close together.
const TRIES: usize = 3;
const AGREED: f64 = 0.05;

/// How long `count` plays take.
fn time<P: Player>(case: &Case, desk: &mut Desk, count: u32) -> Duration {
    let start = thread_time();
    black_box(case.play::<P>(black_box(desk), count));
    thread_time() - start
}

/// How many plays take `least` on the quicker board.
fn calibrate(case: &Case, desk: &mut Desk, least: Duration) -> u32 {
    let mut count = 16;
    loop {
        let quicker = time::<Proved>(case, desk, count).min(time::<Plain>(case, desk, count));
        if quicker >= least {
            return count;
        }
        let missing = least.as_secs_f64() / quicker.as_secs_f64().max(1e-6);
        count = (f64::from(count) * (1.1 * missing).min(10.0)).ceil() as u32;
    }
}

fn quantile(sorted: &[f64], part: f64) -> f64 {
    let at = part * (sorted.len() - 1) as f64;
    let (low, high) = (sorted[at.floor() as usize], sorted[at.ceil() as usize]);
    low + (high - low) * at.fract()
}

fn sorted(mut numbers: Vec<f64>) -> Vec<f64> {
    numbers.sort_by(f64::total_cmp);
    numbers
}

/// The times of a case's rounds in nanoseconds per byte, and their ratios, each sorted.
struct Times {
    proved: Vec<f64>,
    plain: Vec<f64>,
    ratios: Vec<f64>,
}

impl Times {
    fn of(case: &Case, rounds: usize, least: Duration) -> Times {
        let mut desk = Desk::new(case);
        let count = calibrate(case, &mut desk, least);
        let per_byte = 1e9 / (f64::from(count) * case.length as f64);
        let (mut proved, mut plain) = (Vec::new(), Vec::new());
        for _ in 0..rounds {
            proved.push(time::<Proved>(case, &mut desk, count).as_secs_f64() * per_byte);
            plain.push(time::<Plain>(case, &mut desk, count).as_secs_f64() * per_byte);
        }
        let ratios = proved.iter().zip(&plain).map(|(a, b)| a / b).collect();
        Times { proved: sorted(proved), plain: sorted(plain), ratios: sorted(ratios) }
    }

    /// How far apart the middle half of the ratios is.
    fn spread(&self) -> f64 {
        quantile(&self.ratios, 0.75) - quantile(&self.ratios, 0.25)
    }
}

/// Measures a case, and again where its rounds disagree. Prints the times that agree best.
fn measure(case: &Case, rounds: usize, least: Duration) {
    cases::assert_same::<Proved, Plain>(case);
    let mut best = Times::of(case, rounds, least);
    for _ in 1..TRIES {
        if best.spread() <= AGREED {
            break;
        }
        let again = Times::of(case, rounds, least);
        if again.spread() < best.spread() {
            best = again;
        }
    }
    let Times { proved, plain, ratios } = &best;
    let (proved_median, plain_median) = (quantile(proved, 0.5), quantile(plain, 0.5));
    println!(
        "| {} | {proved_median:.2} | {plain_median:.2} | {:.2} | {:.2} to {:.2} | {:.2} to {:.2} | {:.2} |",
        case.name(),
        proved_median / plain_median,
        quantile(ratios, 0.25),
        quantile(ratios, 0.75),
        ratios[0],
        ratios[rounds - 1],
        proved[0] / plain[0],
    );
}

fn main() {
    let mut arguments = env::args().skip(1);
    let rounds = arguments.next().map_or(ROUNDS, |text| text.parse().expect("a number of rounds"));
    let least = arguments
        .next()
        .map_or(MILLISECONDS, |text| text.parse().expect("a number of milliseconds"));
    let word = arguments.next().unwrap_or_default();
    println!(
        "Nanoseconds of processor time per byte: the medians of {rounds} rounds of at least {least} ms each."
    );
    println!(
        "The spreads are those of the rounds' own ratios; the last column is of the least times."
    );
    let entries =
        if cfg!(feature = "two-entries") { "two table entries" } else { "one table entry" };
    println!("The CRC of the board in plain Rust takes {entries} for each byte.\n");
    println!("| Case | Proved | Plain Rust | Ratio | Middle half | All | Least |");
    println!("|---|---|---|---|---|---|---|");
    for case in cases::all().iter().filter(|case| case.name().contains(&word)) {
        measure(case, rounds, Duration::from_millis(least));
    }
}
