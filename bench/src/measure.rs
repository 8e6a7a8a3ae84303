//! Timing: both sides in turns, at many places of the stack, and a line of the report for each.

use std::hint::black_box;
use std::time::Instant;

/// How many places of the stack are tried: a call's time depends on where its locals lie in a cache line and in a page, which
/// changes from run to run.
const PLACES: usize = 64;
/// How often each side is timed at one place; the best round counts.
const ROUNDS: usize = 100;

/// A piece of work that is done `count` times.
pub type Work<'a> = &'a mut dyn FnMut(u32);

/// Nanoseconds for one time of the work, by the median of the places.
pub struct Measured {
    library: f64,
    model: f64,
    /// The ratio at the place where the library does worst.
    worst: f64,
}

/// Nanoseconds for one time of the work.
fn timed(count: u32, work: Work) -> f64 {
    let start = Instant::now();
    work(count);
    start.elapsed().as_nanos() as f64 / count as f64
}

/// The best round of each side, with the stack `depth` frames further down. The sides take turns, so that what slows the
/// machine slows both.
#[inline(never)]
fn race(depth: usize, count: u32, library: Work, model: Work) -> (f64, f64) {
    let frame = black_box([0u8; 200]);
    let best = match depth {
        0 => (0..ROUNDS).fold((f64::INFINITY, f64::INFINITY), |best, _| {
            (
                best.0.min(timed(count, library)),
                best.1.min(timed(count, model)),
            )
        }),
        _ => race(depth - 1, count, library, model),
    };
    black_box(&frame);
    best
}

fn median(mut times: Vec<f64>) -> f64 {
    times.sort_by(f64::total_cmp);
    times[times.len() / 2]
}

pub fn measure(count: u32, library: Work, model: Work) -> Measured {
    let places: Vec<(f64, f64)> = (0..PLACES)
        .map(|depth| race(depth, count, library, model))
        .collect();
    Measured {
        library: median(places.iter().map(|place| place.0).collect()),
        model: median(places.iter().map(|place| place.1).collect()),
        worst: places
            .iter()
            .map(|place| place.0 / place.1)
            .fold(0.0, f64::max),
    }
}

/// A line of the report: both sides' figures, and the ratio of the library's time to the model's.
pub fn report(name: &str, measured: Measured, figure: fn(f64) -> String) {
    println!(
        "{name}: library {}, model {}, ratio {:.2} (at worst {:.2})",
        figure(measured.library),
        figure(measured.model),
        measured.library / measured.model,
        measured.worst
    );
}

pub fn microseconds(time: f64) -> String {
    format!("{:.2} us", time / 1000.0)
}

pub fn clocks_to_a_second(time: f64) -> String {
    format!("{:.0} clocks/s", 1e9 / time)
}
