//! Timing, by the processor time of this process, so that other programs count little.

use std::ffi::c_int;
use std::time::Duration;

/// C's `struct timespec` on 64-bit Linux.
#[repr(C)]
struct Timespec {
    seconds: i64,
    nanoseconds: i64,
}

extern "C" {
    fn clock_gettime(clock: c_int, time: *mut Timespec) -> c_int;
}

/// The processor time that this process has taken.
fn processor_time() -> Duration {
    const PROCESS: c_int = 2;
    let mut time = Timespec { seconds: 0, nanoseconds: 0 };
    // SAFETY: the call writes one `struct timespec`.
    let status = unsafe { clock_gettime(PROCESS, &mut time) };
    assert_eq!(status, 0, "Linux has a clock of each process");
    Duration::new(time.seconds as u64, time.nanoseconds as u32)
}

/// How long a run lasts at least.
const RUN: Duration = Duration::from_millis(20);
/// How many runs each subject gets.
const RUNS: usize = 7;

/// Something to time.
pub type Subject<'a> = Box<dyn FnMut() + 'a>;

/// A subject out of a call whose answer is kept from being optimised away.
pub fn subject<'a, T>(mut call: impl FnMut() -> T + 'a) -> Subject<'a> {
    Box::new(move || {
        std::hint::black_box(call());
    })
}

/// The seconds that one call of each subject takes: the least of several runs in turn.
pub fn seconds(mut subjects: Vec<Subject>) -> Vec<f64> {
    let calls: Vec<u32> = subjects.iter_mut().map(|subject| calls_in_a_run(subject)).collect();
    let mut least = vec![f64::INFINITY; subjects.len()];
    for _ in 0..RUNS {
        for ((subject, calls), least) in subjects.iter_mut().zip(&calls).zip(&mut least) {
            let time = time_of(subject, *calls).as_secs_f64() / f64::from(*calls);
            *least = least.min(time);
        }
    }
    least
}

fn calls_in_a_run(subject: &mut Subject) -> u32 {
    let mut calls = 1;
    while time_of(subject, calls) < RUN {
        calls *= 2;
    }
    calls
}

/// The time of so many calls.
pub fn time_of(subject: &mut Subject, calls: u32) -> Duration {
    let start = processor_time();
    for _ in 0..calls {
        subject();
    }
    processor_time() - start
}

/// A time in a unit that suits it.
pub fn time(seconds: f64) -> String {
    match seconds {
        s if s < 1e-6 => format!("{:.0} ns", s * 1e9),
        s if s < 1e-3 => format!("{:.2} us", s * 1e6),
        s if s < 1.0 => format!("{:.2} ms", s * 1e3),
        s => format!("{s:.2} s"),
    }
}
