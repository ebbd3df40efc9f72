//! Times of several sides, run in turn.
use std::time::{Duration, Instant};

/// Those whose times are compared, each a run on the same state.
pub type Side<S> = fn(&mut S);

#[repr(C)]
struct Timespec {
    seconds: i64,
    nanoseconds: i64,
}

extern "C" {
    fn clock_gettime(clock: i32, time: *mut Timespec) -> i32;
}

/// Seconds that a processor gave to this thread: Linux' clock 3.
fn processor_seconds() -> f64 {
    let mut time = Timespec { seconds: 0, nanoseconds: 0 };
    // the pointer is valid for the call, which keeps none
    let failed = unsafe { clock_gettime(3, &mut time) };
    assert_eq!(failed, 0);
    time.seconds as f64 + time.nanoseconds as f64 * 1e-9
}

/// Seconds of so many runs. Where other work took the processor away meanwhile, that time isn't counted.
pub fn time<S>(side: Side<S>, state: &mut S, runs: u32) -> f64 {
    let given = processor_seconds();
    let start = Instant::now();
    for _ in 0..runs {
        side(state);
    }
    let passed = start.elapsed().as_secs_f64();
    passed.min(processor_seconds() - given)
}

pub fn median(mut times: Vec<f64>) -> f64 {
    times.sort_by(f64::total_cmp);
    let half = times.len() / 2;
    match times.len() % 2 {
        0 => (times[half - 1] + times[half]) / 2.0,
        _ => times[half],
    }
}

/// The order of the sides in a round: each begins with another one, in one direction and then in the other.
pub fn order(round: usize, sides: usize) -> impl Iterator<Item = usize> {
    (0..sides).map(move |i| {
        let place = (round / 2 + i) % sides;
        if round % 2 == 0 {
            place
        } else {
            sides - 1 - place
        }
    })
}

/// Each side's seconds for one run, the median of its rounds. `before` comes before each run, and its time isn't counted; without it, short runs
/// are timed several together. Rounds go on until the sides have had their time, and there are at least `least`.
pub fn rounds<S>(state: &mut S, each: Duration, least: usize, before: Option<Side<S>>, sides: &[Side<S>]) -> Vec<f64> {
    let mut sample = |side: Side<S>, runs: u32| {
        if let Some(before) = before {
            before(state);
        }
        time(side, state, runs)
    };
    let mut runs = vec![1; sides.len()];
    for (runs, &side) in runs.iter_mut().zip(sides) {
        sample(side, 1);
        let one = sample(side, 1);
        if before.is_none() && one < 200e-6 {
            *runs = (200e-6 / one.max(1e-9)) as u32 + 1;
        }
    }
    let mut times = vec![Vec::new(); sides.len()];
    let start = Instant::now();
    let mut round = 0;
    while round < least || start.elapsed() < each * sides.len() as u32 {
        for side in order(round, sides.len()) {
            times[side].push(sample(sides[side], runs[side]) / f64::from(runs[side]));
        }
        round += 1;
    }
    times.into_iter().map(median).collect()
}

/// The same where the caches have nothing of what a run is handed: each run has a block of its own, and all other blocks were touched since that
/// one was prepared. Only the first `most` blocks are run on; each of them by every side once, in as many passes.
pub fn cold<S>(blocks: &mut [S], most: usize, prepare: impl Fn(&mut S, usize), sides: &[Side<S>]) -> Vec<f64> {
    let mut times = vec![Vec::new(); sides.len()];
    for pass in 0..sides.len() {
        for (i, block) in blocks.iter_mut().enumerate() {
            prepare(block, i);
        }
        for (i, block) in blocks.iter_mut().enumerate().take(most) {
            let side = (i + pass) % sides.len();
            times[side].push(time(sides[side], block, 1));
        }
    }
    times.into_iter().map(median).collect()
}
