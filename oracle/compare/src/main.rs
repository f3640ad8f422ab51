//! Holds the proved explorer, linked as a static library, against the explorers in Rust. See
//! `USAGE`.

mod bytes;
mod fifty;
mod guarded;
mod judge;
mod library;
mod speed;
mod texts;
#[cfg(feature = "vectors")]
mod vectors;

use cases::command::{self, number, wrong, Outcome, Stop};
use library::Call;
use speed::Times;
use std::collections::BTreeMap;
use std::fmt::Display;
use std::io::{self, Write};
use std::process::ExitCode;
use std::time::Duration;
use texts::{Counts, Wrong};

const USAGE: &str = "\
usage: compare cases SEED COUNT   compare library and oracle over COUNT generated cases
       compare bytes SEED COUNT   call the library COUNT times with bytes and numbers at random
       compare texts SEED COUNT   read and write COUNT texts and tables by the library and in Rust
       compare limits             compare library and oracle over the hand-built cases
       compare speed [ROUNDS]     time library and plain explorer on the fifty programs
       compare fifty              print the fifty programs
       compare vectors            time crate vv's comparisons alone
exit status: 0 well, 1 differences, 2 unusable arguments, 3 a fault of an explorer in Rust
";

/// How many differing cases are shown.
const SHOWN: u64 = 5;
/// Rounds of a speed measurement, at least and if nothing is said.
const ROUNDS: u64 = 5;

fn main() -> ExitCode {
    command::status("compare", |arguments, out| run(arguments, out))
}

fn run(arguments: &[String], out: &mut impl Write) -> Outcome {
    let words: Vec<&str> = arguments.iter().map(String::as_str).collect();
    match words[..] {
        ["help" | "--help" | "-h"] => {
            out.write_all(USAGE.as_bytes())?;
            Ok(true)
        }
        ["cases", seed, count] => compare_cases(number(seed)?, number(count)?, out),
        ["bytes", seed, count] => compare_bytes(number(seed)?, number(count)?, out),
        ["texts", seed, count] => compare_texts(number(seed)?, number(count)?, out),
        ["limits"] => compare_limits(out),
        ["speed"] => compare_speed(ROUNDS, out),
        ["speed", rounds] => match number(rounds)? {
            0..ROUNDS => Err(Stop::Input(format!("at least {ROUNDS} rounds"))),
            rounds => compare_speed(rounds, out),
        },
        ["fifty"] => print_fifty(out),
        #[cfg(feature = "vectors")]
        ["vectors"] => compare_vectors(out),
        [] => Err(Stop::Input("no command; try 'compare help'".to_string())),
        [command, ..] => Err(Stop::Input(wrong("compare", USAGE, command))),
    }
}

/// What has been compared so far.
#[derive(Default)]
struct Tally {
    agreed: u64,
    differing: u64,
    /// How often each answer came up, so that one sees what was compared.
    answers: BTreeMap<u64, u64>,
}

impl Tally {
    /// Takes one comparison and shows the first few that differ.
    fn take(
        &mut self,
        case: &dyn Display,
        answer: u64,
        differences: &[String],
        out: &mut impl Write,
    ) -> io::Result<()> {
        *self.answers.entry(answer).or_default() += 1;
        if differences.is_empty() {
            self.agreed += 1;
            return Ok(());
        }
        self.differing += 1;
        if self.differing <= SHOWN {
            writeln!(out, "{case}")?;
            for difference in differences {
                writeln!(out, "  {difference}")?;
            }
        }
        Ok(())
    }

    /// Prints the count; true where nothing differed.
    fn end(&self, what: &str, out: &mut impl Write) -> Outcome {
        let answers = self.answers.iter().map(|(answer, count)| format!(" {answer}:{count}"));
        writeln!(out, "answers{}", answers.collect::<String>())?;
        writeln!(out, "{} {what} agree, {} differ", self.agreed, self.differing)?;
        Ok(self.differing == 0)
    }
}

/// A different alignment for one case and the next.
fn shift(index: u64) -> usize {
    (index % 16) as usize
}

fn compare_cases(seed: u64, count: u64, out: &mut impl Write) -> Outcome {
    let mut tally = Tally::default();
    for index in 0..count {
        let case = cases::case(seed, index);
        let expected = judge::by_oracle(&case).map_err(Stop::Explorer)?;
        let left = Call::of(&case, shift(index)).make();
        let differences = judge::differences(&expected, &left);
        tally.take(&case, expected.numbers[0], &differences, out)?;
    }
    tally.end("cases", out)
}

fn compare_bytes(seed: u64, count: u64, out: &mut impl Write) -> Outcome {
    let mut tally = Tally::default();
    for index in 0..count {
        let drawn = bytes::draw(seed, index);
        let (answer, wrongs) = bytes::wrongs(&drawn, shift(index)).map_err(Stop::Explorer)?;
        tally.take(&drawn, answer, &wrongs, out)?;
    }
    tally.end("calls", out)
}

/// Stops at the first difference.
fn compare_texts(seed: u64, count: u64, out: &mut impl Write) -> Outcome {
    let mut counts = Counts::default();
    for index in 0..count {
        match texts::round(seed, index, shift(index), &mut counts) {
            Ok(()) => {}
            Err(Wrong::Fault(what)) => return Err(Stop::Explorer(what)),
            Err(Wrong::Differs(what)) => {
                write!(out, "t{seed}.{index}: {what}{counts}")?;
                writeln!(out, "{index} texts and tables agree, the next differs")?;
                return Ok(false);
            }
        }
    }
    write!(out, "{counts}")?;
    writeln!(out, "{count} texts and tables agree, 0 differ")?;
    Ok(true)
}

/// The hand-built cases have the limits among them: no rows and all, five threads of all their rows, the
/// greatest B, L and N used up, conditions of 1,023 to 1,025 bytes and of eight and nine groups in each
/// other.
fn compare_limits(out: &mut impl Write) -> Outcome {
    let mut tally = Tally::default();
    for (index, hand) in (0..).zip(cases::hand::all()) {
        let expected = judge::by_oracle(&hand.case).map_err(Stop::Explorer)?;
        let left = Call::of(&hand.case, shift(index)).make();
        let mut differences = judge::differences(&expected, &left);
        // A list of a wrong length is what such a case is about, and the entry takes none.
        let about_list = hand.case.list.is_some_and(|length| length != 5);
        if !about_list && left.returned != hand.answer {
            differences.push(format!("{} is built for answer {}", hand.shows, hand.answer));
        }
        tally.take(&hand.case, expected.numbers[0], &differences, out)?;
    }
    tally.end("hand-built cases", out)
}

fn compare_speed(rounds: u64, out: &mut impl Write) -> Outcome {
    let fifty = fifty::all();
    let mut tally = Tally::default();
    for timed in &fifty {
        let differences = speed::disagreements(timed).map_err(Stop::Explorer)?;
        tally.take(&timed.name, 0, &differences, out)?;
    }
    if tally.differing > 0 {
        writeln!(out, "{} programs are answered differently: nothing timed", tally.differing)?;
        return Ok(false);
    }
    let mut times = vec![Times::NONE; fifty.len()];
    for round in 0..rounds {
        for (at, timed) in fifty.iter().enumerate() {
            speed::measure(timed, (round + at as u64).is_multiple_of(2), &mut times[at]);
        }
    }
    writeln!(out, "{:<18} {:>10} {:>10} {:>7}", "program", "plain ms", "library ms", "ratio")?;
    let mut total = Times { plain: Duration::ZERO, proved: Duration::ZERO };
    for (timed, times) in fifty.iter().zip(times) {
        print_times(timed.name, times, out)?;
        total.plain += times.plain;
        total.proved += times.proved;
    }
    print_times("total", total, out)?;
    Ok(true)
}

fn print_times(name: &str, times: Times, out: &mut impl Write) -> io::Result<()> {
    let [plain, proved] = [times.plain, times.proved].map(|time| time.as_secs_f64() * 1e3);
    writeln!(out, "{name:<18} {plain:>10.2} {proved:>10.2} {:>7.2}", times.ratio())
}

fn print_fifty(out: &mut impl Write) -> Outcome {
    writeln!(out, "| name | threads | cells | rows | B | L | N | runs | what it stresses |")?;
    writeln!(out, "|---|---|---|---|---|---|---|---|---|")?;
    for timed in fifty::all() {
        writeln!(out, "{timed}")?;
    }
    Ok(true)
}

/// Nanoseconds a call, by form and by what decides.
#[cfg(feature = "vectors")]
fn compare_vectors(out: &mut impl Write) -> Outcome {
    let times = match vectors::times() {
        Ok(times) => times,
        Err(wrong) => {
            writeln!(out, "{wrong}: nothing timed")?;
            return Ok(false);
        }
    };
    let header = vectors::CASES.map(|case| format!(" {case:>10}"));
    writeln!(out, "{:<20}{}", "ns a call", header.concat())?;
    for (name, times) in times {
        let times = times.map(|time| format!(" {time:>10.2}"));
        writeln!(out, "{name:<20}{}", times.concat())?;
    }
    Ok(true)
}
