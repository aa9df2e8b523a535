//! Rounds: the library and what it is measured against take turns, so that both meet the same state of the machine.

use std::hint::black_box;
use std::time::Duration;

use crate::clock;
use crate::plan::Plan;

/// How often the text is repeated for a growth.
pub const TIMES: [usize; 4] = [1, 2, 4, 8];

/// Makes so many calls, and says what processor time they took.
pub type Side<'work> = Box<dyn FnMut(usize) -> Result<Duration, String> + 'work>;

/// Calls in this process, the result of each used.
pub fn side<'work, T>(mut call: impl FnMut() -> T + 'work) -> Side<'work> {
    Box::new(move |calls| {
        let start = clock::own();
        for _ in 0..calls {
            black_box(call());
        }
        Ok(clock::own() - start)
    })
}

/// The median of the rounds, and the two rounds that are farthest from it.
#[derive(Debug, Clone, Copy)]
pub struct Spread {
    pub least: f64,
    pub median: f64,
    pub greatest: f64,
}

impl Spread {
    /// Of at least one value.
    fn of(values: impl Iterator<Item = f64>) -> Self {
        let mut values: Vec<f64> = values.collect();
        values.sort_by(f64::total_cmp);
        Self { least: values[0], median: values[values.len() / 2], greatest: values[values.len() - 1] }
    }
}

/// Seconds of a call, and the library's time over the baseline's in the same round.
#[derive(Debug, Clone, Copy)]
pub struct Measured {
    pub library: f64,
    pub baseline: f64,
    pub ratio: Spread,
}

/// Measures the library beside each of the baselines, all with the same number of calls.
pub fn side_by_side(plan: &Plan, library: &mut Side<'_>, baselines: &mut [Side<'_>]) -> Result<Vec<Measured>, String> {
    let mut calls = 1;
    // These runs also find memory and caches cold, and are not counted. A library that is far slower is not run for ever.
    while baselines[0](calls)? < plan.sample && library(calls)? < 8 * plan.sample {
        calls *= 2;
    }
    let mut rounds = vec![Vec::new(); baselines.len()];
    for _ in 0..plan.rounds {
        let library = library(calls)?;
        for (baseline, rounds) in baselines.iter_mut().zip(&mut rounds) {
            rounds.push((library, baseline(calls)?));
        }
    }
    Ok(rounds.iter().map(|rounds| measured(rounds, calls)).collect())
}

fn measured(rounds: &[(Duration, Duration)], calls: usize) -> Measured {
    let of_a_call = |time: Duration| time.as_secs_f64() / calls as f64;
    Measured {
        library: Spread::of(rounds.iter().map(|round| of_a_call(round.0))).median,
        baseline: Spread::of(rounds.iter().map(|round| of_a_call(round.1))).median,
        ratio: Spread::of(rounds.iter().map(|round| round.0.as_secs_f64() / round.1.as_secs_f64())),
    }
}

/// One side of a growth: its work, in bytes or steps, and its calls.
pub struct Grown<'work> {
    pub work: f64,
    pub side: Side<'work>,
}

/// The time for a unit of the work over that of the first side, which has the least. The sides take turns.
pub fn growth(plan: &Plan, mut sides: Vec<Grown<'_>>) -> Result<Vec<Spread>, String> {
    let calls = calls_of_each(plan, &mut sides)?;
    let mut rounds = Vec::new();
    for _ in 0..plan.rounds {
        let mut round = Vec::new();
        for (Grown { work, side }, &calls) in sides.iter_mut().zip(&calls) {
            round.push(side(calls)?.as_secs_f64() / (*work * calls as f64));
        }
        rounds.push(round);
    }
    Ok((0..sides.len()).map(|index| Spread::of(rounds.iter().map(|round| round[index] / round[0]))).collect())
}

/// As many calls for each side as let all do about as much work in a round as the last one.
fn calls_of_each(plan: &Plan, sides: &mut [Grown<'_>]) -> Result<Vec<usize>, String> {
    let Some(last) = sides.last_mut() else { return Err("a growth of nothing".to_owned()) };
    let most = last.work * calls_for(plan.sample, &mut last.side)? as f64;
    Ok(sides.iter().map(|side| ((most / side.work) as usize).max(1)).collect())
}

/// Powers of 2, up to the first that takes the sample's time.
fn calls_for(sample: Duration, side: &mut Side<'_>) -> Result<usize, String> {
    let mut calls = 1;
    while side(calls)? < sample {
        calls *= 2;
    }
    Ok(calls)
}

#[cfg(test)]
mod tests {
    use super::*;

    /// Calls that take so many nanoseconds each; every time it is run, the next number.
    fn slow(nanoseconds: &'static [u64]) -> Side<'static> {
        let mut turns = nanoseconds.iter().cycle();
        Box::new(move |calls| Ok(Duration::from_nanos(turns.next().unwrap() * calls as u64)))
    }

    #[test]
    fn spread_has_the_middle_and_both_ends() {
        let Spread { least, median, greatest } = Spread::of([3.0, 1.0, 100.0, 2.0, 2.5].into_iter());
        assert_eq!((least, median, greatest), (1.0, 2.5, 100.0));
    }

    #[test]
    fn ratio_is_the_librarys_time_over_each_baselines() {
        let measured = side_by_side(&Plan::QUICK, &mut slow(&[300]), &mut [slow(&[100]), slow(&[600])]).unwrap();
        let ratios: Vec<f64> = measured.iter().map(|measured| (measured.ratio.median * 1000.0).round() / 1000.0).collect();
        assert_eq!(ratios, [3.0, 0.5]);
        assert!((measured[0].library - 300e-9).abs() < 1e-12 && (measured[0].baseline - 100e-9).abs() < 1e-12);
    }

    #[test]
    fn one_slow_round_shows_in_the_spread_only() {
        // There are three rounds, so one of them is the slow one, whichever number the first has.
        let measured = side_by_side(&Plan::QUICK, &mut slow(&[100, 100, 900]), &mut [slow(&[100])]).unwrap();
        let Spread { least, median, greatest } = measured[0].ratio;
        assert_eq!([least, median, greatest].map(f64::round), [1.0, 1.0, 9.0]);
    }

    #[test]
    fn growth_tells_proportion_from_a_square() {
        let sides = |times: [&'static [u64]; 4]| {
            TIMES.iter().zip(times).map(|(&work, times)| Grown { work: work as f64, side: slow(times) }).collect()
        };
        let medians = |spreads: Vec<Spread>| spreads.iter().map(|spread| spread.median.round()).collect::<Vec<_>>();
        let proportional = growth(&Plan::QUICK, sides([&[1000], &[2000], &[4000], &[8000]])).unwrap();
        assert_eq!(medians(proportional), [1.0, 1.0, 1.0, 1.0]);
        let square = growth(&Plan::QUICK, sides([&[1000], &[4000], &[16_000], &[64_000]])).unwrap();
        assert_eq!(medians(square), [1.0, 2.0, 4.0, 8.0]);
    }

    #[test]
    fn a_side_that_fails_ends_the_measuring() {
        let mut failing: Side<'_> = Box::new(|_| Err("no".to_owned()));
        assert!(side_by_side(&Plan::QUICK, &mut failing, &mut [slow(&[100])]).is_err());
    }
}
