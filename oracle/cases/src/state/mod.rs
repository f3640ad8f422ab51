//! Statements for the checker: that the definition gives what the oracle answered. They are written
//! as a small repository of their own: the definition, `told` (what a run gives as numbers), and
//! crates of statements, one file a case, since the checker names one refused line a file.

pub mod ask;
pub mod definition;

use crate::format::{Answer, Case, Left, ListLeft};
use crate::pick::Answered;
use definition::{Definition, Source};
use std::fmt::Write;
use std::path::Path;
use std::{fs, io};
use terms::NUMBERS;

/// How many cases a crate of statements has.
pub const PART: usize = 25;

const TOLD: &str = include_str!("told.txt");

/// One file of the repository: where it stands there, and what is in it.
#[derive(Debug, PartialEq, Eq)]
pub struct File {
    pub path: String,
    pub text: String,
}

/// A crate of statements: its name, and each statement's file with its text.
pub struct Part {
    name: String,
    files: Vec<(String, String)>,
}

/// The statements of all cases. The file of a case has its place in the list, counted from 1.
pub fn statements(cases: &[Answered], definition: &Definition) -> Vec<Part> {
    let heading = Heading::new(definition);
    let text = |(case, answer): &Answered| {
        let [given, stated] = sides(case, answer);
        heading.statement(&case.name, &given, &stated)
    };
    let files = cases.iter().enumerate().map(|(i, case)| (format!("Case{}", i + 1), text(case)));
    let files: Vec<(String, String)> = files.collect();
    let parts = files.chunks(PART).enumerate();
    parts.map(|(i, part)| Part { name: format!("part{}", i + 1), files: part.to_vec() }).collect()
}

/// Every file of the repository that has these crates of statements.
pub fn repository(parts: &[Part], definition: &Definition) -> Vec<File> {
    let mut crates = "rules:\ntold: rules\n".to_string();
    let mut files = Vec::new();
    let mut add = |path: String, text: &str| files.push(File { path, text: text.to_string() });
    for source in &definition.files {
        add(format!("crates/rules/specs/{}.antt", source.name), &source.text);
    }
    add("crates/told/specs/Told.antt".to_string(), TOLD);
    add("crates/told/specs/Lib.antt".to_string(), "pub mod Told\n");
    for part in parts {
        crates += &format!("{}: rules told\n", part.name);
        let root: String = part.files.iter().map(|(file, _)| format!("mod {file}\n")).collect();
        add(format!("crates/{}/proofs/Lib.antt", part.name), &root);
        for (file, text) in &part.files {
            add(format!("crates/{}/proofs/{file}.antt", part.name), text);
        }
    }
    for name in crates.lines().filter_map(|line| line.split(':').next()) {
        add(format!("crates/{name}/src/lib.rt"), "// no code\n");
    }
    add("crates.txt".to_string(), &crates);
    files
}

/// Writes the files into a folder.
pub fn write(files: &[File], folder: &Path) -> io::Result<()> {
    for file in files {
        let path = folder.join(&file.path);
        fs::create_dir_all(path.parent().unwrap_or(folder))?;
        fs::write(path, &file.text)?;
    }
    Ok(())
}

/// What stands in every file of statements: names in scope, and names that are to unfold.
pub struct Heading {
    uses: String,
    unfolding: String,
}

impl Heading {
    pub fn new(definition: &Definition) -> Heading {
        let told = Source::new("Told", TOLD.to_string()).expect("marks that are understood");
        let rules = definition.files.iter().map(|source| ("rules", source));
        let mut heading = Heading { uses: USES.to_string(), unfolding: "unfolding".to_string() };
        for (of, source) in
            rules.chain([("told", &told)]).filter(|(_, source)| !source.shut.is_empty())
        {
            let name = &source.name;
            heading.uses += &format!("use Rattle.{of}.specs.{name} as {name}\n");
            for shut in &source.shut {
                heading.unfolding += &format!(" {name}.{shut}");
            }
        }
        heading
    }

    /// A file with the one statement that two terms are equal, for the checker to compute.
    pub fn statement(&self, remark: &str, left: &str, right: &str) -> String {
        let Heading { uses, unfolding } = self;
        format!("-- {remark}\n{uses}\ncase : {left} ≡ {right}\n{unfolding}\ncase = refl\n")
    }
}

const USES: &str = "\
use mathlib.Core.Path.{◌≡◌, refl}
use Rattle.std.specs.Prelude.{ℕ, List, [], ◌∷◌, ◌++◌, true, false, replicate}
use Rattle.rules.specs.Path.{unbounded, at_most}
use Rattle.rules.specs.Explored.{explored, explored_into}
use Rattle.told.specs.Told.{told, told_into, summaries, pattern, records, place, value, bit}
";

/// What the definition gives, as a term, and what the oracle answered.
pub fn sides(case: &Case, answer: &Answer) -> [String; 2] {
    [given(case), stated(case, answer)]
}

fn given(case: &Case) -> String {
    let s = &case.settings;
    let bound = s.bound.map_or_else(|| "unbounded".to_string(), |bound| format!("at_most {bound}"));
    let settings = format!(
        "record {{ branches = {}; operations = {}; executions = {}; bound = {bound}; exploring = {} }}",
        s.branches, s.operations, s.executions, s.exploring
    );
    let bytes = |bytes: &[u8]| list(bytes.iter().map(|&byte| byte.into()), "[]");
    let program = format!("({}) ({})", bytes(&case.table), bytes(&case.condition));
    let run = format!("{program} ({settings}) (pattern {}) (pattern {})", case.path, case.trace);
    match case.list {
        None => format!("told (explored {run})"),
        Some(places) => format!("told_into (explored_into {run} (records {places}))"),
    }
}

fn stated(case: &Case, answer: &Answer) -> String {
    let report = list(answer.numbers.iter().copied(), "[]");
    let (path, trace) = (left(&answer.path, case.path), left(&answer.trace, case.trace));
    let list = match answer.list {
        ListLeft::Absent => String::new(),
        ListLeft::Unchanged => format!("summaries (records {}) ∷ ", case.list.unwrap_or(0)),
        ListLeft::Summaries => {
            let five = list(answer.numbers[NUMBERS - 20..].iter().copied(), "[]");
            format!("({five}) ∷ ")
        }
    };
    format!("(({report}) ∷ ({path}) ∷ ({trace}) ∷ {list}[])")
}

fn left(left: &Left, length: usize) -> String {
    match left {
        Left::Unchanged => format!("pattern {length}"),
        Left::Bytes(bytes) => {
            let zeros = format!("replicate {} 0", length.saturating_sub(bytes.len()));
            list(bytes.iter().map(|&byte| byte.into()), &zeros)
        }
    }
}

fn list(numbers: impl Iterator<Item = u64>, end: &str) -> String {
    let mut text = String::new();
    for number in numbers {
        let _ = write!(text, "{number} ∷ ");
    }
    text + end
}

#[cfg(test)]
mod tests {
    use super::*;
    use crate::run::by_oracle;

    fn definition() -> Definition {
        let source = |name: &str, text: &str| Source::new(name, text.to_string()).expect("marks");
        let files = vec![
            source("Explored", "unfoldable pub explored : ℕ\nexplored = 0\n"),
            source("Path", "unfoldable pub f : ℕ\nunfoldable pub g : ℕ\n"),
            source("State", "abbrev pub h : ℕ\n"),
        ];
        Definition { files }
    }

    /// P1 with its answer: one thread, one load, no list.
    fn first() -> Answered {
        let case = crate::hand::all().swap_remove(0).case;
        let answer = by_oracle(&case).expect("an answer");
        (case, answer)
    }

    #[test]
    fn a_run_is_stated_in_full() {
        let (case, answer) = first();
        let [given, stated] = sides(&case, &answer);
        let table = list(case.table.iter().map(|&byte| byte.into()), "[]");
        let settings = "record { branches = 3; operations = 1; executions = 10; \
                        bound = unbounded; exploring = true }";
        assert_eq!(
            given,
            format!("told (explored ({table}) ([]) ({settings}) (pattern 48) (pattern 16))")
        );
        assert!(stated.starts_with("((0 ∷ 1 ∷ 0 ∷ 0 ∷ 1 ∷ 255 ∷ 255 ∷ 0 ∷ 255 ∷ 4 ∷ "), "{stated}");
        assert!(stated.ends_with(" 0) ∷ [])"), "{stated}");
        assert_eq!(stated.matches("replicate").count(), 2, "{stated}");
    }

    #[test]
    fn bytes_left_are_followed_by_zeros_to_the_length() {
        assert_eq!(left(&Left::Bytes(vec![1, 0, 7]), 16), "1 ∷ 0 ∷ 7 ∷ replicate 13 0");
        assert_eq!(left(&Left::Bytes(Vec::new()), 16), "replicate 16 0");
        assert_eq!(left(&Left::Unchanged, 16), "pattern 16");
    }

    #[test]
    fn a_list_is_stated_before_and_after() {
        let (case, answer) = first();
        let case = Case { list: Some(5), ..case };
        let after = |list| stated(&case, &Answer { list, ..answer.clone() });
        assert!(given(&case).starts_with("told_into (explored_into ("));
        assert!(given(&case).ends_with(" (pattern 48) (pattern 16) (records 5))"));
        assert!(after(ListLeft::Unchanged).ends_with(") ∷ summaries (records 5) ∷ [])"));
        let five = list(answer.numbers[9..].iter().copied(), "[]");
        assert!(after(ListLeft::Summaries).ends_with(&format!(") ∷ ({five}) ∷ [])")));
    }

    #[test]
    fn a_condition_is_stated_behind_the_table() {
        let (mut case, _) = first();
        case.condition = vec![1, 0, 0, 7];
        assert!(given(&case).contains(" ∷ []) (1 ∷ 0 ∷ 0 ∷ 7 ∷ []) (record { branches"));
    }

    #[test]
    fn a_bound_is_stated() {
        let (mut case, _) = first();
        case.settings.bound = Some(3);
        case.settings.exploring = false;
        assert!(given(&case).contains("; bound = at_most 3; exploring = false }"));
    }

    #[test]
    fn a_statement_unfolds_what_the_definition_marks() {
        let text = Heading::new(&definition()).statement("g1.2", "a", "b");
        let lines: Vec<&str> = text.lines().collect();
        assert_eq!(lines[0], "-- g1.2");
        assert!(lines.contains(&"use Rattle.rules.specs.Path as Path"));
        assert!(lines.contains(&"use Rattle.told.specs.Told as Told"));
        assert!(!text.contains("as State"));
        let [.., signature, unfolding, proof] = lines[..] else { panic!("{text}") };
        assert_eq!([signature, proof], ["case : a ≡ b", "case = refl"]);
        assert!(unfolding.starts_with("unfolding Explored.explored Path.f Path.g Told.summaries"));
    }

    #[test]
    fn every_case_has_a_file_that_its_crate_names() {
        let cases = vec![first(); 2 * PART + 1];
        let files = repository(&statements(&cases, &definition()), &definition());
        let text = |path: &str| {
            let file = files.iter().find(|file| file.path == path);
            &file.unwrap_or_else(|| panic!("no {path}")).text
        };
        let crates =
            "rules:\ntold: rules\npart1: rules told\npart2: rules told\npart3: rules told\n";
        assert_eq!(text("crates.txt"), crates);
        assert_eq!(text("crates/part3/proofs/Lib.antt"), "mod Case51\n");
        for case in 1..=cases.len() {
            let part = (case - 1) / PART + 1;
            let root = text(&format!("crates/part{part}/proofs/Lib.antt"));
            assert!(root.lines().any(|line| line == format!("mod Case{case}")), "{root}");
            assert!(text(&format!("crates/part{part}/proofs/Case{case}.antt")).contains("refl"));
        }
        for name in ["rules", "told", "part1", "part2", "part3"] {
            assert_eq!(text(&format!("crates/{name}/src/lib.rt")), "// no code\n");
        }
        assert_eq!(text("crates/rules/specs/State.antt"), "abbrev pub h : ℕ\n");
    }
}
