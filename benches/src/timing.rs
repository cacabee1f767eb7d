//! Times contenders side by side: each gives one sample a round, in turn, and the median of its
//! samples counts. A round of its own comes first, to warm up.
//!
//! What is one thread's work is timed by the processor time that it takes, so that other work on
//! the machine disturbs it little; what a person waits for is timed by the clock on the wall.

use std::time::Instant;

/// The numbers by which Linux knows a thread's processor clock, and the processes waited for.
const THREAD_CLOCK: i32 = 3;
const CHILDREN: i32 = -1;

extern "C" {
    /// Writes seconds and nanoseconds.
    fn clock_gettime(clock: i32, time: *mut [i64; 2]) -> i32;
    /// Writes seconds and microseconds of user time, those of system time, and 14 numbers more.
    fn getrusage(who: i32, usage: *mut [i64; 18]) -> i32;
}

/// What a sample of code in this process should take at least, in nanoseconds.
const SAMPLE: f64 = 2e7;

/// Something that is timed: its name, and what gives a sample in nanoseconds a unit of work.
pub struct Contender<'a> {
    /// What the tables call it.
    pub name: &'static str,
    /// Gives one sample.
    pub sample: Box<dyn FnMut() -> f64 + 'a>,
}

impl<'a> Contender<'a> {
    /// Makes a contender of code in this process that does so many units of work a call. It is
    /// called as often as a sample needs.
    pub fn of_code(name: &'static str, units: f64, mut code: impl FnMut() + 'a) -> Contender<'a> {
        let mut calls = 1u64;
        let sample = move || loop {
            let start = thread_time();
            (0..calls).for_each(|_| code());
            let taken = thread_time() - start;
            if taken >= SAMPLE {
                return taken / (calls as f64 * units);
            }
            calls = (calls as f64 * (1.5 * SAMPLE / taken.max(1.0)).clamp(1.2, 100.0)) as u64 + 1;
        };
        Contender { name, sample: Box::new(sample) }
    }
}

/// Gives the nanoseconds of processor time that this thread has taken so far.
fn thread_time() -> f64 {
    let mut time = [0; 2];
    // SAFETY: the call writes a `timespec`, two numbers of 64 bits.
    assert_eq!(unsafe { clock_gettime(THREAD_CLOCK, &mut time) }, 0, "there is such a clock");
    time[0] as f64 * 1e9 + time[1] as f64
}

/// Gives the nanoseconds of processor time that all processes started and ended so far have taken.
pub fn children_time() -> f64 {
    let mut usage = [0; 18];
    // SAFETY: the call writes an `rusage`, 18 numbers of 64 bits.
    assert_eq!(unsafe { getrusage(CHILDREN, &mut usage) }, 0, "usage can be asked for");
    (usage[0] + usage[2]) as f64 * 1e9 + (usage[1] + usage[3]) as f64 * 1e3
}

/// Gives the nanoseconds that pass on the wall while code runs once.
pub fn once(code: impl FnOnce()) -> f64 {
    let start = Instant::now();
    code();
    start.elapsed().as_nanos() as f64
}

/// Gives the middle one of some numbers, or the mean of the two in the middle.
pub fn median(mut samples: Vec<f64>) -> f64 {
    samples.sort_by(f64::total_cmp);
    let (low, high) = (samples[(samples.len() - 1) / 2], samples[samples.len() / 2]);
    (low + high) / 2.0
}

/// Times contenders in so many rounds; gives the median of each.
pub fn medians(what: &str, rounds: usize, contenders: &mut [Contender]) -> Vec<f64> {
    let mut samples = vec![vec![]; contenders.len()];
    for round in 0..=rounds {
        for (contender, taken) in contenders.iter_mut().zip(&mut samples) {
            let sample = (contender.sample)();
            if round > 0 {
                taken.push(sample);
            }
        }
        eprintln!("{what}: round {round} of {rounds}");
    }
    samples.into_iter().map(median).collect()
}
