//! The time of the library against that of the plain explorer, on the fifty programs.

use crate::fifty::Timed;
use crate::judge::{by_plain, differences};
use crate::library::{self, Call, Numbers};
use cases::format::Case;
use std::hint::black_box;
use std::time::{Duration, Instant};
use terms::NUMBERS;

/// The best time of each over all rounds: whatever else the machine does only ever adds.
#[derive(Clone, Copy)]
pub struct Times {
    pub plain: Duration,
    pub proved: Duration,
}

impl Times {
    /// No time yet.
    pub const NONE: Times = Times { plain: Duration::MAX, proved: Duration::MAX };

    /// The library's time over plain's.
    pub fn ratio(self) -> f64 {
        self.proved.as_secs_f64() / self.plain.as_secs_f64()
    }
}

/// Says what differs between the two answers to a program; speed without that means nothing.
pub fn disagreements(timed: &Timed) -> Result<Vec<String>, String> {
    let case = Case {
        name: timed.name.to_string(),
        settings: timed.settings,
        path: timed.path(),
        trace: timed.trace(),
        list: None,
        table: timed.program.table(),
        condition: Vec::new(),
    };
    Ok(differences(&by_plain(&case)?, &Call::of(&case, 0).make()))
}

/// One round of one program, plain first or the library. Both clear the buffers themselves, within
/// the time.
pub fn measure(timed: &Timed, plain_first: bool, times: &mut Times) {
    let table = timed.program.table();
    let mut path = vec![0; timed.path()];
    let mut trace = vec![0; timed.trace()];
    let mut report = [0; NUMBERS];
    let numbers = Numbers::from(&timed.settings);
    let by_plain = |path: &mut [u8], trace: &mut [u8]| {
        black_box(plain::explore(black_box(&table), &[], &timed.settings, path, trace));
    };
    let mut by_library = |path: &mut [u8], trace: &mut [u8]| {
        black_box(library::explore(black_box(&table), numbers, path, trace, &mut report));
    };
    for turn in [plain_first, !plain_first] {
        if turn {
            let took = clock(timed.runs, || by_plain(&mut path, &mut trace));
            times.plain = times.plain.min(took);
        } else {
            let took = clock(timed.runs, || by_library(&mut path, &mut trace));
            times.proved = times.proved.min(took);
        }
    }
}

fn clock(runs: u32, mut work: impl FnMut()) -> Duration {
    let start = Instant::now();
    for _ in 0..runs {
        work();
    }
    start.elapsed()
}
