//! How a time is taken: short rounds in turn, since a machine is not equally fast all the time, and their medians.

const ROUNDS: usize = 151;
const ROUND_SECONDS: f64 = 0.002;

/// What is called again and again. Calls that differ come again after a cycle, and a round has whole cycles.
pub struct Call<'a> {
    cycle: usize,
    call: Box<dyn FnMut() -> u64 + 'a>,
}

impl<'a> Call<'a> {
    pub fn new(cycle: usize, call: impl FnMut() -> u64 + 'a) -> Call<'a> {
        Call { cycle, call: Box::new(call) }
    }

    /// Nanoseconds a call, over so many. The answers are looked at, so that no call is left out.
    fn nanoseconds(&mut self, count: usize) -> f64 {
        let start = seconds();
        for _ in 0..count {
            opaque((self.call)());
        }
        1e9 * (seconds() - start) / count as f64
    }

    /// As many calls as a round has time for, found by ever more calls until their time can be told.
    fn calls_of_a_round(&mut self) -> usize {
        let mut count = 1;
        loop {
            let whole_seconds = 1e-9 * self.nanoseconds(count) * count as f64;
            if whole_seconds > ROUND_SECONDS / 8.0 {
                return ((count as f64 * ROUND_SECONDS / whole_seconds) as usize).next_multiple_of(self.cycle);
            }
            count *= 2;
        }
    }
}

/// The same value, of which the compiler knows nothing.
pub fn opaque<T: Copy>(x: T) -> T {
    unsafe { std::ptr::read_volatile(&x) }
}

/// The seconds that the processor has spent on this thread: those of other processes do not count.
fn seconds() -> f64 {
    #[repr(C)]
    struct Time {
        seconds: i64,
        nanoseconds: i64,
    }
    extern "C" {
        fn clock_gettime(clock: i32, time: *mut Time) -> i32;
    }
    const OF_THIS_THREAD: i32 = 3; // Linux: CLOCK_THREAD_CPUTIME_ID
    let mut time = Time { seconds: 0, nanoseconds: 0 };
    assert_eq!(unsafe { clock_gettime(OF_THIS_THREAD, &mut time) }, 0);
    time.seconds as f64 + 1e-9 * time.nanoseconds as f64
}

pub fn median(mut times: Vec<f64>) -> f64 {
    times.sort_by(f64::total_cmp);
    times[times.len() / 2]
}

/// The medians of rounds in turn, nanoseconds a call.
pub fn medians(mut calls: Vec<Call>) -> Vec<f64> {
    let counts: Vec<usize> = calls.iter_mut().map(Call::calls_of_a_round).collect();
    let mut times = vec![vec![]; calls.len()];
    for _ in 0..ROUNDS {
        for (n, call) in calls.iter_mut().enumerate() {
            times[n].push(call.nanoseconds(counts[n]));
        }
    }
    times.into_iter().map(median).collect()
}

/// The same, of as many as are named.
pub fn medians_of<const N: usize>(calls: [Call; N]) -> [f64; N] {
    medians(calls.into()).try_into().unwrap()
}

/// Copies of so many bytes each, one after another.
pub fn copying<'a>(lengths: &[usize]) -> Call<'a> {
    let mut pairs: Vec<(Vec<u8>, Vec<u8>)> = lengths.iter().map(|&length| (vec![1; length], vec![0; length])).collect();
    Call::new(1, move || {
        for (from, to) in &mut pairs {
            let (from, to, length) = (opaque(from.as_ptr()), opaque(to.as_mut_ptr()), opaque(from.len()));
            unsafe { std::ptr::copy_nonoverlapping(from, to, length) };
        }
        0
    })
}
