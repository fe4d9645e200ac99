//! The time of a press, from runs of whole programs, and that of a call, from batches of it.

use std::path::Path;
use std::time::Duration;

use crate::cases::Case;
use crate::measure::{checked, input_file, Each, Programs, NAMES};

/// A time is taken this often, each time as the shortest of some runs: other work on the machine
/// only ever makes a run longer.
pub const REPETITIONS: usize = 9;
const MIN_RUNS: usize = 3;
const MAX_RUNS: usize = 100;
/// About how long one program's runs of one case may take together.
const TOGETHER: Duration = Duration::from_millis(900);

/// A median and its standard error.
#[derive(Clone, Copy, Debug, PartialEq)]
pub struct Estimate {
    pub value: f64,
    pub error: f64,
}

/// The seconds of the press alone in each program, runs less runs that load the same tables and refuse
/// the press, where they stand out from what other work on the machine adds. The programs run by turns.
pub fn times(case: &Case, programs: &Programs) -> Result<Each<Option<Estimate>>, String> {
    let full = input_file("full", &case.input(case.budget))?;
    let refused = input_file("refused", &case.refused())?;
    let seconds = |program: &Path, presses: bool| match presses {
        true => checked(program, &full, &case.line),
        false => checked(program, &refused, "Refused 9"),
    };
    let mut slowest = f64::MIN_POSITIVE;
    for program in programs {
        slowest = slowest.max(seconds(program, true)?);
    }
    let runs = TOGETHER.as_secs_f64() / slowest / REPETITIONS as f64;
    let runs = (runs as usize).clamp(MIN_RUNS, MAX_RUNS);
    let mut presses: Each<Vec<f64>> = Default::default();
    for _ in 0..REPETITIONS {
        let mut shortest = [[f64::INFINITY; 2]; NAMES.len()];
        for _ in 0..runs {
            for (program, [run, start]) in programs.iter().zip(&mut shortest) {
                *run = run.min(seconds(program, true)?);
                *start = start.min(seconds(program, false)?);
            }
        }
        for (presses, [run, start]) in presses.iter_mut().zip(shortest) {
            presses.push(run - start);
        }
    }
    Ok(presses.map(|mut presses| resolved(&mut presses)))
}

/// The median, if it is above three of its standard errors.
pub fn resolved(values: &mut [f64]) -> Option<Estimate> {
    // For normally distributed values: the standard deviation from the median absolute deviation,
    // and the standard error of a median from the standard deviation.
    const DEVIATION: f64 = 1.4826;
    const MEDIAN_ERROR: f64 = 1.2533;
    let value = median(values);
    let mut distances: Vec<f64> = values.iter().map(|other| (other - value).abs()).collect();
    let deviation = DEVIATION * median(&mut distances);
    let error = MEDIAN_ERROR * deviation / (values.len() as f64).sqrt();
    (value > 3.0 * error).then_some(Estimate { value, error })
}

/// The median of values that are not empty.
fn median(values: &mut [f64]) -> f64 {
    values.sort_by(f64::total_cmp);
    let middle = values.len() / 2;
    if values.len() % 2 == 1 {
        values[middle]
    } else {
        (values[middle - 1] + values[middle]) / 2.0
    }
}

#[cfg(test)]
mod tests {
    use super::*;

    #[test]
    fn medians() {
        assert_eq!(median(&mut [3.0, 1.0, 2.0]), 2.0);
        assert_eq!(median(&mut [4.0, 1.0, 3.0, 2.0]), 2.5);
    }

    #[test]
    fn a_median_near_0_is_not_resolved() {
        let sure = Estimate {
            value: 5.0,
            error: 0.0,
        };
        assert_eq!(resolved(&mut [5.0, 5.0, 6.0]), Some(sure));
        assert_eq!(resolved(&mut [1.0, -1.0, 3.0, -3.0, 0.5]), None);
        assert_eq!(resolved(&mut [-1.0, -1.0]), None);
    }

    #[test]
    fn the_standard_error_of_a_median() {
        // The distances from 4 are 1, 0, 0, 2: their median is 0.5, and the root of four values 2.
        let error = 1.4826 * 0.5 * 1.2533 / 2.0;
        let sure = resolved(&mut [3.0, 4.0, 4.0, 6.0]).expect("it stands out");
        assert_eq!(sure.value, 4.0);
        assert!((sure.error - error).abs() < 1e-12);
        // Two of its errors are not enough: the distances are 1 and 1, the error 1.31 and the value 3.
        assert_eq!(resolved(&mut [2.0, 4.0]), None);
    }
}
