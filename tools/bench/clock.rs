//! Processor time of calls.

#[repr(C)]
struct Time {
    seconds: i64,
    nanoseconds: i64,
}

const CLOCK_PROCESS_CPUTIME_ID: i32 = 2;

// Linux's, with 64-bit numbers.
unsafe extern "C" {
    fn clock_gettime(clock: i32, time: *mut Time) -> i32;
}

/// The seconds of the processor that this process has used.
fn used() -> f64 {
    let mut time = Time { seconds: 0, nanoseconds: 0 };
    let failed = unsafe { clock_gettime(CLOCK_PROCESS_CPUTIME_ID, &mut time) };
    assert_eq!(failed, 0, "there is no clock of the processor's time");
    time.seconds as f64 + time.nanoseconds as f64 / 1e9
}

/// A sample is as many calls as take this long; so are measured again and again until this much is used.
const SAMPLE: f64 = 0.002;
const ENOUGH: f64 = 2.0;
const LEAST_SAMPLES: usize = 7;
const MOST_SAMPLES: usize = 151;

/// The seconds of one call, from many calls.
pub struct Times {
    pub least: f64,
    pub median: f64,
}

struct Sampled<'a> {
    call: &'a mut dyn FnMut(),
    calls: u32,
    seconds: Vec<f64>,
}

impl<'a> Sampled<'a> {
    /// Takes as many calls for a sample as are needed; the first ones also warm up.
    fn new(call: &'a mut dyn FnMut()) -> Self {
        let mut sampled = Sampled { call, calls: 1, seconds: vec![] };
        while sampled.sample() * f64::from(sampled.calls) < SAMPLE {
            sampled.calls *= 2;
        }
        sampled
    }

    /// The seconds of one call.
    fn sample(&mut self) -> f64 {
        let before = used();
        for _ in 0..self.calls {
            (self.call)();
        }
        (used() - before) / f64::from(self.calls)
    }

    fn times(mut self) -> Times {
        self.seconds.sort_by(f64::total_cmp);
        Times { least: self.seconds[0], median: self.seconds[self.seconds.len() / 2] }
    }
}

/// The times of some calls, whose samples take turns so that a slow moment of the machine meets all of them.
pub fn turns(calls: Vec<&mut dyn FnMut()>) -> Vec<Times> {
    let mut sampled: Vec<Sampled> = calls.into_iter().map(Sampled::new).collect();
    let start = used();
    for samples in 1..=MOST_SAMPLES {
        for one in &mut sampled {
            let seconds = one.sample();
            one.seconds.push(seconds);
        }
        if samples >= LEAST_SAMPLES && used() - start > ENOUGH {
            break;
        }
    }
    sampled.into_iter().map(Sampled::times).collect()
}
