//! Times of the library and of the plain programs, round by round in turn.

/// Processor time of this thread in nanoseconds: what other work on the machine takes away does not count.
fn processor_time() -> f64 {
    #[repr(C)]
    struct Timespec {
        seconds: i64,
        nanoseconds: i64,
    }
    extern "C" {
        fn clock_gettime(clock: i32, time: *mut Timespec) -> i32;
    }
    const THREAD_CPUTIME: i32 = 3;
    let mut time = Timespec { seconds: 0, nanoseconds: 0 };
    assert_eq!(unsafe { clock_gettime(THREAD_CPUTIME, &mut time) }, 0, "the clock is there");
    time.seconds as f64 * 1e9 + time.nanoseconds as f64
}

/// Times of the library and of the plain program, in nanoseconds a unit, round by round.
#[derive(Default)]
pub struct Times {
    library: Vec<f64>,
    plain: Vec<f64>,
}

fn median(mut values: Vec<f64>) -> f64 {
    values.sort_by(f64::total_cmp);
    values[values.len() / 2]
}

fn best(values: &[f64]) -> f64 {
    values.iter().copied().fold(f64::INFINITY, f64::min)
}

impl Times {
    /// The median of the rounds' ratios.
    fn ratio(&self) -> f64 {
        median(self.library.iter().zip(&self.plain).map(|(a, b)| a / b).collect())
    }

    /// One round: each once, the first of them by turns.
    pub fn round(&mut self, units: f64, library: &mut dyn FnMut(), plain: &mut dyn FnMut()) {
        let time = |work: &mut dyn FnMut()| {
            let start = processor_time();
            work();
            (processor_time() - start) / units
        };
        if self.plain.len() % 2 == 0 {
            self.library.push(time(library));
            self.plain.push(time(plain));
        } else {
            self.plain.push(time(plain));
            self.library.push(time(library));
        }
    }
}

/// Prints the best times and the ratio, with its goal where there is one.
pub fn line(name: &str, unit: &str, times: &Times, goal: Option<f64>) {
    let (library, plain) = (best(&times.library), best(&times.plain));
    let goal = goal.map_or(String::new(), |goal| format!("  goal {goal:.2}"));
    println!("{name:42} library {library:8.2} ns/{unit:5} plain {plain:8.2} ns/{unit:5} ratio {:5.2}{goal}", times.ratio());
}

/// How much dearer a unit is where there are more of them, in the library and in the plain program:
/// medians of the rounds.
pub fn grown(small: &Times, large: &Times) -> (f64, f64) {
    let ratio = |a: &[f64], b: &[f64]| median(b.iter().zip(a).map(|(large, small)| large / small).collect());
    (ratio(&small.library, &large.library), ratio(&small.plain, &large.plain))
}
