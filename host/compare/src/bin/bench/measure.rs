//! Time of a call, both ways in turn in one process.
use std::hint::black_box;

#[repr(C)]
struct TimeSpec {
    seconds: i64,
    nanoseconds: i64,
}

extern "C" {
    fn clock_gettime(clock: i32, time: *mut TimeSpec) -> i32;
}

const THREAD_CPU_TIME: i32 = 3;

/// Nanoseconds that this thread has had of a processor: other programs' turns are not counted.
fn now() -> f64 {
    let mut time = TimeSpec {
        seconds: 0,
        nanoseconds: 0,
    };
    let got = unsafe { clock_gettime(THREAD_CPU_TIME, &mut time) };
    assert_eq!(got, 0);
    time.seconds as f64 * 1e9 + time.nanoseconds as f64
}

/// A case: what is made ready before each sample, and the calls, both ways. Each way gives a sum of its answers, which must be the same.
pub struct Case<'a> {
    pub call: &'static str,
    pub input: String,
    /// Calls that one run makes.
    pub calls: usize,
    pub limit: f64,
    pub prepare: Box<dyn FnMut() + 'a>,
    pub library: Box<dyn FnMut() -> u64 + 'a>,
    pub plain: Box<dyn FnMut() -> u64 + 'a>,
}

/// Nanoseconds per call, the best of the samples: what else the machine does can only add to them.
pub struct Times {
    pub library: f64,
    pub plain: f64,
}

const SAMPLE_NS: f64 = 500_000.0;
const SAMPLES: usize = 300;

/// A case of long calls has fewer samples: so many nanoseconds in all, but 40 samples at least.
const CASE_NS: f64 = 500_000_000.0;

fn samples(first: f64) -> usize {
    ((CASE_NS / first) as usize).clamp(40, SAMPLES)
}

fn sample(prepare: &mut dyn FnMut(), runs: usize, run: &mut dyn FnMut() -> u64) -> (f64, u64) {
    prepare();
    let start = now();
    let mut sum = 0;
    for _ in 0..runs {
        sum = black_box(run());
    }
    (now() - start, sum)
}

impl Case<'_> {
    /// A case that needs nothing made ready is run often enough for a sample of some length.
    pub fn times(&mut self, once: bool) -> Times {
        let (first, _) = sample(&mut self.prepare, 1, &mut self.library);
        let runs = if once {
            1
        } else {
            ((SAMPLE_NS / first) as usize).max(1)
        };
        let mut best = [f64::MAX; 2];
        for _ in 0..samples(first) {
            let (library, a) = sample(&mut self.prepare, runs, &mut self.library);
            let (plain, b) = sample(&mut self.prepare, runs, &mut self.plain);
            assert_eq!(a, b, "{}, {}: the answers differ", self.call, self.input);
            best = [best[0].min(library), best[1].min(plain)];
        }
        let calls = (runs * self.calls) as f64;
        Times {
            library: best[0] / calls,
            plain: best[1] / calls,
        }
    }
}

/// Nanoseconds of one pass over the bytes: their sum.
pub fn one_pass(lent: &[&[u8]]) -> f64 {
    let mut pass = || {
        let sum: u64 = lent
            .iter()
            .flat_map(|b| b.iter())
            .map(|&b| u64::from(b))
            .sum();
        sum
    };
    let (first, _) = sample(&mut || (), 1, &mut pass);
    let runs = ((SAMPLE_NS / first) as usize).max(1);
    let best = (0..samples(first))
        .map(|_| sample(&mut || (), runs, &mut pass).0)
        .fold(f64::MAX, f64::min);
    best / runs as f64
}
