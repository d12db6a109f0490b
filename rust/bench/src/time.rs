//! Timing both sides of a piece of work in one run.

use crate::month;
use crate::sides::{enterers, settlers, Side};
use crate::watch;
use crate::watchers::watchers;
use std::hint::black_box;
use std::rc::Rc;
use std::time::Instant;

const SEEDS: [u32; 8] = [1, 2, 3, 4, 5, 6, 7, 8];
/// Everything is done twice, to see how far one side is from itself.
const RUNS: usize = 2;
pub const REPEATS: usize = 1_000;
/// A file takes longer to enter than its month to settle, and a month longer to
/// watch.
const ENTERING_SHARE: usize = 5;
const WATCHING_SHARE: usize = 5;

/// Microseconds of one side's calls in one run, for each month.
type Run = Vec<Vec<f64>>;

/// The same in all runs.
#[derive(Clone, Default)]
struct Taken([Run; RUNS]);

pub fn time(repeats: usize) -> Result<(), String> {
    if cfg!(debug_assertions) {
        return Err("times say something only of a build with -C opt-level=3".to_string());
    }
    println!(
        "{} months to order, {RUNS} runs, both sides in turn; microseconds of one call,",
        SEEDS.len()
    );
    println!("the mean of the months' best and median times");
    println!("\nsettling a book, {repeats} calls for each month, run and side");
    let mut sides = settlers();
    let settling = take_turns(&mut sides, repeats)?;
    print(&sides, &settling);
    time_watching(repeats.div_ceil(WATCHING_SHARE), &settling)?;
    let fewer = repeats.div_ceil(ENTERING_SHARE);
    println!("\nreading and entering a file, {fewer} calls for each month, run and side");
    let mut sides = enterers();
    let taken = take_turns(&mut sides, fewer)?;
    let half = sides.len() / 2;
    print(&sides[..half], &taken[..half]);
    println!("\nthe same with a revision for every reading, in turn with the above");
    print(&sides[half..], &taken[half..]);
    for (side, (plain, revised)) in sides.iter().zip(taken.iter().zip(&taken[half..])) {
        println!(
            "{}: revisions take {:.3} of the best time of plain readings, {:.3} of the median",
            side.name(),
            revised.best() / plain.best(),
            revised.median() / plain.median()
        );
    }
    Ok(())
}

/// All active minutes of a month, step by step; and what one step takes beside
/// settling the month again.
fn time_watching(repeats: usize, settling: &[Taken]) -> Result<(), String> {
    println!("\nwatching a month, {repeats} times all its steps for each month, run and side");
    let mut sides = watchers();
    let taken = take_turns(&mut sides, repeats)?;
    print(&sides, &taken);
    let minutes = SEEDS.map(|seed| watch::Month::of(&month::of_seed(seed).book).minutes());
    let steps = minutes.iter().sum::<usize>() as f64 / SEEDS.len() as f64;
    for (side, (watching, settling)) in sides.iter().zip(taken.iter().zip(settling)) {
        println!(
            "{}: {steps:.0} steps; one takes {:.1} ns at best, {:.1} in the median; settling the month again takes {:.0} and {:.0} times that",
            side.name(),
            1e3 * watching.best() / steps,
            1e3 * watching.median() / steps,
            settling.best() / (watching.best() / steps),
            settling.median() / (watching.median() / steps)
        );
    }
    Ok(())
}

/// The times of each side, for each month in each run.
fn take_turns(sides: &mut [Box<dyn Side>], repeats: usize) -> Result<Vec<Taken>, String> {
    let mut taken = vec![Taken::default(); sides.len()];
    for run in 0..RUNS {
        for seed in SEEDS {
            for (taken, times) in taken.iter_mut().zip(time_month(sides, seed, repeats)?) {
                taken.0[run].push(times);
            }
        }
    }
    Ok(taken)
}

/// One month's times for each side. The sides take turns, so that a busy
/// machine slows all of them alike; what they answer must be the same.
fn time_month(
    sides: &mut [Box<dyn Side>],
    seed: u32,
    repeats: usize,
) -> Result<Vec<Vec<f64>>, String> {
    let month = Rc::new(month::of_seed(seed));
    for side in &mut *sides {
        side.load(&month)?;
    }
    let mut taken = vec![Vec::with_capacity(repeats); sides.len()];
    for _ in 0..repeats {
        for (side, taken) in sides.iter_mut().zip(&mut taken) {
            let start = Instant::now();
            let number = black_box(side.run());
            taken.push(start.elapsed().as_secs_f64() * 1e6);
            if number != 0 {
                return Err(format!("seed {seed}: {} refuses: {number}", side.name()));
            }
        }
    }
    let outcomes = sides
        .iter()
        .map(|side| side.outcome())
        .collect::<Result<Vec<String>, String>>()?;
    if outcomes.iter().any(|other| *other != outcomes[0]) {
        return Err(format!("seed {seed}: the sides do not agree"));
    }
    Ok(taken)
}

impl Taken {
    fn best(&self) -> f64 {
        mean(&self.0, |times| times[0])
    }

    fn median(&self) -> f64 {
        mean(&self.0, median)
    }

    /// The second run's median over the first one's: without noise 1.
    fn drift(&self) -> f64 {
        mean(&self.0[1..], median) / mean(&self.0[..1], median)
    }
}

/// The mean over the months of what `of_sorted` makes of a month's times in
/// all these runs, the shortest first.
fn mean(runs: &[Run], of_sorted: fn(&[f64]) -> f64) -> f64 {
    let months = (0..SEEDS.len()).map(|month| {
        let mut times: Vec<f64> = runs.iter().flat_map(|run| run[month].clone()).collect();
        times.sort_unstable_by(f64::total_cmp);
        of_sorted(&times)
    });
    months.sum::<f64>() / SEEDS.len() as f64
}

fn median(sorted: &[f64]) -> f64 {
    sorted[sorted.len() / 2]
}

/// The times, what they are of the first side's, and the machine's noise.
fn print(sides: &[Box<dyn Side>], taken: &[Taken]) {
    println!(
        "{:<9}{:>10}{:>10}{:>9}{:>9}{:>15}{:>15}",
        "side", "best", "median", "x best", "x median", "median / best", "run 2 / run 1"
    );
    for (side, times) in sides.iter().zip(taken) {
        let (best, median) = (times.best(), times.median());
        println!(
            "{:<9}{best:>10.2}{median:>10.2}{:>9.3}{:>9.3}{:>15.3}{:>15.3}",
            side.name(),
            best / taken[0].best(),
            median / taken[0].median(),
            median / best,
            times.drift()
        );
    }
    for side in sides {
        println!("{} tests {}", side.name(), side.tests());
    }
}
