//! A panic of the two files becomes document 01's number, here and nowhere else.
//!
//! A panic is an answer only if the call under way, the file, the line and the text are those of a
//! known place; races carry a typed payload, and their kind must be one that the call can meet. Any
//! other panic goes on unwinding: it is a failed run, never an answer.
//!
//! The place of a panic is told to the panic hook alone. So one hook is set, once, in front of the
//! one that was there; it stays silent for panics that become answers, and passes on all others.

use crate::rt::location::Race;

use std::cell::Cell;
use std::panic::{self, AssertUnwindSafe, PanicHookInfo};
use std::sync::OnceLock;

/// A call into the two files that may end in an answer.
#[derive(Debug, Clone, Copy, PartialEq, Eq)]
pub(crate) enum Call {
    Load,
    Store,
    Rmw,
    UnsyncLoad,
    Exclusive,
    Schedule,
    Spurious,
    Critical,
    ExploreState,
}

/// The answer that a call met.
#[derive(Debug, Clone, Copy, PartialEq, Eq)]
pub(crate) struct Met {
    pub(crate) answer: u64,
    /// Race kind, or 0.
    pub(crate) kind: u64,
    /// Other thread of the race, or 255.
    pub(crate) other: u64,
}

impl Met {
    pub(crate) fn new(answer: u64) -> Met {
        Met {
            answer,
            kind: 0,
            other: 255,
        }
    }
}

/// A place in one of the two files whose panic is an answer, when met in this call.
struct Known {
    call: Call,
    file: &'static str,
    /// The line's text, and which of the lines with that text.
    line: (&'static str, usize),
    /// How the panic's text begins.
    says: &'static str,
    answer: u64,
}

const fn known(
    call: Call,
    file: &'static str,
    line: (&'static str, usize),
    says: &'static str,
    answer: u64,
) -> Known {
    Known {
        call,
        file,
        line,
        says,
        answer,
    }
}

const ATOMIC: &str = "atomic.rs";
const PATH: &str = "path.rs";
const EQUAL: &str = "assertion `left != right` failed";
const FULL: &str = "Model exceeded maximum number of branches.";
const OVERFLOW: &str = "attempt to add with overflow";
const NOT_CRITICAL: &str = "not in critical state";
const NOT_EXPLORING: &str = "not in exploring state";
const NOT_EQUAL_LINE: &str = "assert_ne!(mo_i, mo_j);";
const PATH_LEN_LINE: &str = "assert_path_len!(self.branches);";
const SUM_LINE: &str = "return self.preemptions + 1;";
const EXPLORE_LINE: &str = r#"assert!(!self.exploring, "not in critical state");"#;
const CRITICAL_LINE: &str = r#"assert!(self.exploring, "not in exploring state");"#;

const KNOWN: [Known; 9] = [
    known(Call::Load, ATOMIC, (NOT_EQUAL_LINE, 0), EQUAL, 13),
    known(Call::Rmw, ATOMIC, (NOT_EQUAL_LINE, 1), EQUAL, 13),
    known(Call::Load, PATH, (PATH_LEN_LINE, 0), FULL, 11),
    known(Call::Rmw, PATH, (PATH_LEN_LINE, 0), FULL, 11),
    known(Call::Spurious, PATH, (PATH_LEN_LINE, 1), FULL, 11),
    known(Call::Schedule, PATH, (PATH_LEN_LINE, 2), FULL, 11),
    known(Call::Schedule, PATH, (SUM_LINE, 0), OVERFLOW, 17),
    known(
        Call::ExploreState,
        PATH,
        (EXPLORE_LINE, 0),
        NOT_CRITICAL,
        16,
    ),
    known(Call::Critical, PATH, (CRITICAL_LINE, 0), NOT_EXPLORING, 16),
];

thread_local! {
    static CALL: Cell<Option<Call>> = const { Cell::new(None) };
    static MET: Cell<Option<Met>> = const { Cell::new(None) };
}

/// Makes a call; a panic of it that document 01 gives a number is answered with that number.
pub(crate) fn met<R>(call: Call, f: impl FnOnce() -> R) -> Result<R, Met> {
    // A cell or path left in the middle of a change is no harm: the first fault stops everything.
    CALL.set(Some(call));
    let result = panic::catch_unwind(AssertUnwindSafe(f));
    CALL.set(None);
    result.map_err(|payload| match MET.take() {
        Some(met) => met,
        None => panic::resume_unwind(payload),
    })
}

/// Sets the hook, the first time it is called. A program that sets a hook of its own later takes
/// this one away, and then every fault is a crash.
pub(crate) fn install() {
    static LINES: OnceLock<[u32; KNOWN.len()]> = OnceLock::new();
    LINES.get_or_init(|| {
        let lines = KNOWN.map(|known| line(&known));
        let before = panic::take_hook();
        panic::set_hook(Box::new(move |info| {
            let met = CALL.get().and_then(|call| classify(call, info, &lines));
            MET.set(met);
            if met.is_none() {
                before(info);
            }
        }));
        lines
    });
}

/// The number of a known line, counted from 1.
fn line(known: &Known) -> u32 {
    let source = match known.file {
        ATOMIC => include_str!("atomic.rs"),
        _ => include_str!("path.rs"),
    };
    let (text, which) = known.line;
    let numbered = source.lines().zip(1..);
    let mut hits = numbered.filter(|(line, _)| line.trim() == text);
    hits.nth(which).expect("a known line is gone").1
}

fn classify(call: Call, info: &PanicHookInfo<'_>, lines: &[u32]) -> Option<Met> {
    if let Some(race) = info.payload().downcast_ref::<Race>() {
        return raced(call, race);
    }
    let place = info.location()?;
    let says = text(info)?;
    // All files of this package are named alike, but for their last part.
    let folder = file!().strip_suffix("guard.rs")?;
    let file = place.file().strip_prefix(folder)?;
    let hit = KNOWN.iter().zip(lines).find(|(known, line)| {
        known.call == call
            && known.file == file
            && **line == place.line()
            && says.starts_with(known.says)
    });
    hit.map(|(known, _)| Met::new(known.answer))
}

fn raced(call: Call, race: &Race) -> Option<Met> {
    let kinds = match call {
        Call::Load => 1..=1,
        Call::UnsyncLoad => 2..=3,
        Call::Store => 4..=5,
        Call::Exclusive => 6..=9,
        Call::Rmw if race.kind == 1 => 1..=1,
        Call::Rmw => 4..=5,
        _ => return None,
    };
    kinds.contains(&race.kind).then_some(Met {
        answer: 14,
        kind: race.kind,
        other: race.other,
    })
}

fn text<'a>(info: &'a PanicHookInfo<'_>) -> Option<&'a str> {
    let payload = info.payload();
    let string = payload.downcast_ref::<String>().map(String::as_str);
    string.or_else(|| payload.downcast_ref::<&str>().copied())
}

#[cfg(test)]
mod tests {
    use super::*;
    use crate::rt::Path;
    use std::hint::black_box;

    /// How often a text is a line of its own in a file.
    fn times(source: &str, text: &str) -> usize {
        source.lines().filter(|line| line.trim() == text).count()
    }

    /// Another such line would have to be looked at before it is an answer.
    #[test]
    fn known_lines_are_all_there_are() {
        assert_eq!(times(include_str!("atomic.rs"), NOT_EQUAL_LINE), 2);
        let path = include_str!("path.rs");
        assert_eq!(times(path, PATH_LEN_LINE), 3);
        for text in [SUM_LINE, EXPLORE_LINE, CRITICAL_LINE] {
            assert_eq!(times(path, text), 1);
        }
    }

    /// The panic of this call goes through the guard.
    fn crashes(call: Call, f: impl FnOnce()) {
        install();
        let result = panic::catch_unwind(AssertUnwindSafe(|| met(call, f)));
        assert!(result.is_err(), "{call:?} answered {result:?}");
        // The next call is none the worse for it.
        assert_eq!(met(Call::Schedule, || 5), Ok(5));
    }

    #[test]
    fn other_panics_are_crashes() {
        crashes(Call::Schedule, || panic!("deadlock"));
        crashes(Call::Schedule, || panic!("{FULL}"));
        crashes(Call::Load, || assert_ne!(black_box(1), 1));
        crashes(Call::Schedule, || {
            black_box(black_box(255u8) + 1);
        });
        crashes(Call::Load, || panic::panic_any(5u64));
    }

    /// A known place is an answer in its own call only.
    #[test]
    fn a_known_place_in_another_call_is_a_crash() {
        let critical = || Path::new(1, None, false).critical();
        install();
        assert_eq!(met(Call::Critical, critical), Err(Met::new(16)));
        crashes(Call::ExploreState, critical);
        crashes(Call::Schedule, critical);
        let explore = || Path::new(1, None, true).explore_state();
        assert_eq!(met(Call::ExploreState, explore), Err(Met::new(16)));
        crashes(Call::Critical, explore);
        // Outside any call.
        assert!(panic::catch_unwind(critical).is_err());
        assert_eq!(MET.take(), None);
    }

    #[test]
    fn races_belong_to_their_calls() {
        install();
        let race = |kind| move || panic::panic_any(Race { kind, other: 3 });
        let allowed: [(Call, &[u64]); 9] = [
            (Call::Load, &[1]),
            (Call::UnsyncLoad, &[2, 3]),
            (Call::Store, &[4, 5]),
            (Call::Rmw, &[1, 4, 5]),
            (Call::Exclusive, &[6, 7, 8, 9]),
            (Call::Schedule, &[]),
            (Call::Spurious, &[]),
            (Call::Critical, &[]),
            (Call::ExploreState, &[]),
        ];
        for (call, kinds) in allowed {
            for kind in 0..=10 {
                let answer = Met {
                    answer: 14,
                    kind,
                    other: 3,
                };
                if kinds.contains(&kind) {
                    assert_eq!(met(call, race(kind)), Err::<(), Met>(answer));
                } else {
                    crashes(call, race(kind));
                }
            }
        }
    }
}
