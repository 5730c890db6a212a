//! Times: processor time of this thread, and the least of several passes, so
//! that other work on the machine counts as little as it can.

use std::time::{Duration, Instant};

const LEAST_PASSES: usize = 7;
const MOST_PASSES: usize = 300;
const ENOUGH: Duration = Duration::from_millis(1500);

/// The least time of each, passed in turn.
pub fn least_of<const N: usize>(mut passes: [&mut dyn FnMut(); N]) -> [Duration; N] {
    let began = Instant::now();
    let mut least = [Duration::MAX; N];
    for turn in 0..MOST_PASSES {
        if turn >= LEAST_PASSES && began.elapsed() > ENOUGH * N as u32 {
            break;
        }
        for (pass, least) in passes.iter_mut().zip(&mut least) {
            *least = time(pass).min(*least);
        }
    }
    least
}

fn time(pass: &mut impl FnMut()) -> Duration {
    let began = processor_time();
    pass();
    processor_time() - began
}

#[repr(C)]
struct Timespec {
    seconds: i64,
    nanoseconds: i64,
}

const CLOCK_THREAD_CPUTIME_ID: i32 = 3;

extern "C" {
    fn clock_gettime(clock: i32, time: *mut Timespec) -> i32;
}

/// Linux on x86-64, as the engine's archive is.
fn processor_time() -> Duration {
    let mut time = Timespec { seconds: 0, nanoseconds: 0 };
    // SAFETY: the pointer is to a whole timespec that lives through the call.
    let failed = unsafe { clock_gettime(CLOCK_THREAD_CPUTIME_ID, &mut time) };
    assert_eq!(failed, 0, "the clock of a thread is always there");
    Duration::new(time.seconds as u64, time.nanoseconds as u32)
}

#[cfg(test)]
mod tests {
    use super::*;

    #[test]
    fn each_pass_is_timed_and_the_least_is_given() {
        let (mut few, mut many) = (0u64, 0u64);
        let work = |sum: &mut u64, count: u64| {
            for i in 0..count {
                *sum = std::hint::black_box(*sum ^ i);
            }
        };
        let [short, long] =
            least_of([&mut || work(&mut few, 1_000), &mut || work(&mut many, 1_000_000)]);
        assert!(Duration::ZERO < short && short < long);
    }
}
