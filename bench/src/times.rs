//! Times of whole days, and their ratios.

use crate::call::{Answer, Call, Contender};
use crate::days::{PER_DAY, Random, day};

const ROUNDS: usize = 61;
const DAYS: usize = 16;

// The days that are measured: how many transactions go side by side, and on how many cells.
pub const KINDS: [(&str, u32, u32); 2] =
    [("one after another, 1,024 cells", 1, 1024), ("eight side by side, 64 cells", 8, 64)];

/// So many days of a kind.
pub fn days(side_by_side: u32, keys: u32, many: usize) -> Vec<Call> {
    let mut random = Random::new(7);
    (0..many).flat_map(|_| day(&mut random, side_by_side, keys)).collect()
}

#[repr(C)]
struct Timespec {
    seconds: i64,
    nanoseconds: i64,
}

unsafe extern "C" {
    fn clock_gettime(clock: i32, time: *mut Timespec) -> i32;
}

// The nanoseconds that this thread has run, so that what else the machine does counts for little.
fn now() -> f64 {
    const THREAD_CPUTIME: i32 = 3;
    let mut time = Timespec { seconds: 0, nanoseconds: 0 };
    // SAFETY: the clock is one of Linux's, and writes one such struct.
    unsafe { clock_gettime(THREAD_CPUTIME, &mut time) };
    time.seconds as f64 * 1e9 + time.nanoseconds as f64
}

// The nanoseconds of a call, by contender and round. The contenders take turns, and another one begins each round.
fn measured(contenders: &mut [&mut Box<dyn Contender>], calls: &[Call]) -> Vec<Vec<f64>> {
    let mut answers = vec![Answer::default(); calls.len()];
    let mut times = vec![Vec::new(); contenders.len()];
    for round in 0..=ROUNDS {
        for turn in 0..contenders.len() {
            let place = (round + turn) % contenders.len();
            contenders[place].clear();
            let start = now();
            contenders[place].days(calls, PER_DAY, &mut answers);
            times[place].push((now() - start) / calls.len() as f64);
        }
    }
    // The first round warms up.
    times.iter().map(|times| times[1..].to_vec()).collect()
}

// The median, and the figures below and above which a tenth lies.
fn spread(mut figures: Vec<f64>) -> (f64, f64, f64) {
    figures.sort_by(f64::total_cmp);
    let at = |tenths: usize| figures[(figures.len() - 1) * tenths / 10];
    (at(5), at(1), at(9))
}

/// Prints a table of the times, and of the register's speed beside that of each other contender, round by round.
pub fn print(contenders: &mut [Box<dyn Contender>]) {
    println!("| day | contender | ns a call | the register's speed beside it |\n|---|---|---|---|");
    for (kind, side_by_side, keys) in KINDS {
        let fit = contenders.iter_mut().filter(|it| side_by_side == 1 || it.keeps_the_rules());
        let mut fit: Vec<_> = fit.collect();
        let times = measured(&mut fit, &days(side_by_side, keys, DAYS));
        for (contender, times_of_it) in fit.iter().zip(&times) {
            let ratios = times_of_it.iter().zip(&times[0]).map(|(other, own)| other / own).collect();
            let (ratio, low, high) = spread(ratios);
            let time = spread(times_of_it.clone()).0;
            println!("| {kind} | {} | {time:.0} | {ratio:.2} ({low:.2} to {high:.2}) |", contender.name());
        }
    }
}
