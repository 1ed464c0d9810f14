//! Limits and areas that a run just fits in, or just does not.

use crate::case::{Areas, Case};
use crate::rng::Rng;

/// Most tokens and open calls that are tried.
const MOST: u32 = 24;
const STEPS: u64 = 20_000;

/// Sets one limit of the case to the least with which its run is not stopped by it, or to one
/// less.
pub fn tighten(rng: &mut Rng, case: &mut Case) {
    let less = u32::from(rng.once_in(2));
    match rng.below(3) {
        0 => tighten_tokens(rng, case),
        1 => {
            let with = |depth_limit: u32| Case { depth_limit, ..case.clone() };
            if let Some(least) = (1..=MOST).find(|depth| number(&with(*depth)) != 12) {
                *case = with((least - less).max(1));
            }
        }
        _ => {
            let with = |call_limit: u32| Case { call_limit, ..case.clone() };
            if let Some(least) = (1..=2 * MOST).find(|calls| number(&with(*calls)) != 11) {
                *case = with((least - less).max(1));
            }
        }
    }
}

/// The same for the tokens area alone, which need not be a multiple of five.
pub fn tighten_tokens(rng: &mut Rng, case: &mut Case) {
    let less = u32::from(rng.once_in(2));
    let spare = rng.below(5);
    let with = |tokens: u32| Case { tokens: 5 * tokens as usize + spare, ..case.clone() };
    if let Some(least) = (0..=MOST).find(|tokens| number(&with(*tokens)) != 14) {
        *case = with(least.saturating_sub(less));
    }
}

/// The run's number; of one that is given up, any that is no stop and no limit.
fn number(case: &Case) -> u32 {
    let mut areas = Areas::default();
    areas.prepare(case);
    let Areas { tokens, report } = &mut areas;
    let outcome = oracle::run_within(STEPS, case.input(), tokens, report, case.scratch);
    outcome.map_or(0, |outcome| outcome.number)
}
