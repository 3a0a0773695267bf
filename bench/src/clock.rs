//! Processor time, and candidates timed in turn.

/// A row that has taken so many seconds is done with fewer rounds, but for [`LEAST_ROUNDS`]: a byte at a time takes long.
const ROW_SECONDS: f64 = 1.0;
const LEAST_ROUNDS: usize = 3;

#[repr(C)]
struct Time {
    seconds: i64,
    nanoseconds: i64,
}

extern "C" {
    fn clock_gettime(clock: i32, time: *mut Time) -> i32;
}

/// This process's processor time, in seconds: what other processes do in the meantime is not counted.
fn processor_time() -> f64 {
    const PROCESS: i32 = 2;
    let mut time = Time { seconds: 0, nanoseconds: 0 };
    // SAFETY: the struct is the C library's on 64-bit Linux, and is lent for the call.
    unsafe { clock_gettime(PROCESS, &mut time) };
    time.seconds as f64 + time.nanoseconds as f64 / 1e9
}

fn timed(work: &mut dyn FnMut()) -> f64 {
    let start = processor_time();
    work();
    processor_time() - start
}

/// The best time of each candidate, in seconds. They take turns, so that a machine that slows down slows all of them. The first
/// turn is not timed: in it the first candidate would find the caches as nobody after it does.
pub fn race<const COUNT: usize>(rounds: usize, mut candidates: [&mut dyn FnMut(); COUNT]) -> [f64; COUNT] {
    candidates.iter_mut().for_each(|candidate| candidate());
    let mut best = [f64::INFINITY; COUNT];
    let start = processor_time();
    for round in 0..rounds {
        if round >= LEAST_ROUNDS && processor_time() - start > ROW_SECONDS {
            break;
        }
        for (best, candidate) in best.iter_mut().zip(&mut candidates) {
            *best = best.min(timed(candidate));
        }
    }
    best
}

/// The best time of work that is compared with itself alone, at another size: nobody else empties its caches.
pub fn alone(rounds: usize, mut work: impl FnMut()) -> f64 {
    let [best] = race(rounds, [&mut work]);
    best
}

/// Runs a candidate's work and keeps the compiler from leaving it out; an image that it answers is dropped here, and so
/// its release is timed too.
pub fn done<Answer>(answer: Answer) {
    drop(std::hint::black_box(answer));
}

#[cfg(test)]
mod tests {
    use super::race;

    /// Every candidate runs once a round and once before, and its time is a number.
    #[test]
    fn candidates_take_turns() {
        let turns = std::cell::RefCell::new(String::new());
        let times = race(2, [&mut || turns.borrow_mut().push('a'), &mut || turns.borrow_mut().push('b')]);
        assert_eq!(turns.into_inner(), "ababab");
        assert!(times.iter().all(|time| time.is_finite()));
    }
}
