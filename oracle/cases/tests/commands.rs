//! The binary: what it prints, and how it refuses what it cannot use.

use std::env;
use std::fs;
use std::io::Write;
use std::path::PathBuf;
use std::process::{self, Command, Output, Stdio};

fn run(arguments: &[&str], input: &str) -> Output {
    let mut child = Command::new(env!("CARGO_BIN_EXE_cases"))
        .args(arguments)
        .stdin(Stdio::piped())
        .stdout(Stdio::piped())
        .stderr(Stdio::piped())
        .spawn()
        .expect("the binary starts");
    let mut stdin = child.stdin.take().expect("its standard input");
    // A command that refuses its arguments may be gone before it has read anything.
    let _ = stdin.write_all(input.as_bytes());
    drop(stdin);
    child.wait_with_output().expect("the binary ends")
}

fn text(bytes: &[u8]) -> String {
    String::from_utf8_lossy(bytes).into_owned()
}

/// Runs a command that has to be refused in one line with this in it.
fn refused(arguments: &[&str], input: &str, wanted: &str) {
    let output = run(arguments, input);
    let said = text(&output.stderr);
    assert_eq!(output.status.code(), Some(2), "{arguments:?}: {said}");
    assert_eq!(said.lines().count(), 1, "{arguments:?}: {said}");
    assert!(said.contains(wanted), "{arguments:?}: {said}");
}

/// The definition.
const SPECS: &str = "../../crates/rules/specs";

/// A file of its own for each test.
fn file(name: &str, content: &str) -> PathBuf {
    let path = PathBuf::from(env!("CARGO_TARGET_TMPDIR")).join(name);
    fs::write(&path, content).expect("a file is written");
    path
}

/// A folder outside the repository, where its crates would be taken for the repository's. It goes when the test is over.
struct Folder(PathBuf);

impl Folder {
    fn new(name: &str) -> Folder {
        Folder(env::temp_dir().join(format!("chjirvollu-{}-{name}", process::id())))
    }

    fn name(&self) -> &str {
        self.0.to_str().expect("a name in UTF-8")
    }
}

impl Drop for Folder {
    fn drop(&mut self) {
        // Where nothing was written there is nothing to remove.
        let _ = fs::remove_dir_all(&self.0);
    }
}

#[test]
fn bad_arguments_are_refused() {
    let refusals: [(&[&str], &str); 24] = [
        (&[], "no command"),
        (&["frobnicate"], "unknown command 'frobnicate'"),
        (&["make"], "usage: cases make SEED COUNT"),
        (&["make", "1"], "usage: cases make SEED COUNT"),
        (&["make", "1", "2", "3"], "usage: cases make SEED COUNT"),
        (&["make", "one", "2"], "'one' is not a number"),
        (&["make", "1", "+2"], "'+2' is not a number"),
        (&["make", "1", "18446744073709551616"], "is not a number"),
        (&["make", "-1", "2"], "unknown option '-1'"),
        (&["make", "--fast"], "unknown option '--fast'"),
        (&["--fast"], "unknown option '--fast'"),
        (&["answer", "a", "b"], "usage: cases answer [FILE]"),
        (&["answer", "no such file"], "no such file: No such file"),
        (&["check"], "usage: cases check FILE"),
        (&["check", "no such file"], "no such file: No such file"),
        (&["tally", "1"], "usage: cases tally SEED COUNT"),
        (&["list", "all"], "usage: cases list"),
        (&["pick", "1"], "usage: cases pick SEED COUNT"),
        (&["state", "a"], "usage: cases state FILE SPECS FOLDER"),
        (&["state", "a", "no such folder", "b"], "no such folder: No such file"),
        (&["state", "no such file", SPECS, "b"], "no such file: No such file"),
        (&["state", "a", "src", "b"], "src: no Explored.antt is here"),
        (&["ask", "no such file", "P1", SPECS, "b"], "no such file: No such file"),
        (&["told"], "usage: cases told FILE NAME REFUSED.."),
    ];
    for (arguments, wanted) in refusals {
        refused(arguments, "", wanted);
    }
}

#[test]
fn help_is_no_failure() {
    let output = run(&["help"], "");
    assert!(output.status.success());
    let commands = ["make", "answer", "check", "tally", "compare", "list"];
    for command in commands.into_iter().chain(["pick", "hand", "state", "ask", "told"]) {
        assert!(text(&output.stdout).contains(&format!("cases {command}")));
    }
}

#[test]
fn damaged_input_is_refused_with_its_line() {
    let cases = text(&run(&["make", "3", "4"], "").stdout);
    let damaged = cases.replacen("g3.2 ", "g3.2 x", 1);
    refused(&["answer"], &damaged, "standard input: line 3: field 2 (B) is not");
    let path = file("damaged", &damaged);
    let path = path.to_str().expect("a name in UTF-8");
    refused(&["answer", path], "", "damaged: line 3: field 2 (B) is not");
    refused(&["check", path], "", "damaged: line 1: 10 fields where");
    refused(&["answer", env!("CARGO_TARGET_TMPDIR")], "", "directory");
}

#[test]
fn answers_can_be_made_and_checked() {
    let cases = text(&run(&["make", "3", "50"], "").stdout);
    assert_eq!(cases.lines().count(), 50);
    let answered = text(&run(&["answer"], &cases).stdout);
    assert_eq!(text(&run(&["answer"], &answered).stdout), answered);
    let path = file("answered", &format!("# a comment\n\n{answered}"));
    let output = run(&["check", path.to_str().expect("a name in UTF-8")], "");
    assert!(output.status.success());
    assert_eq!(text(&output.stdout), "50 cases agree, 0 differ\n");
}

#[test]
fn a_changed_answer_is_found() {
    let cases = text(&run(&["make", "3", "5"], "").stdout);
    let answered = text(&run(&["answer"], &cases).stdout);
    let first = answered.lines().next().expect("a line");
    let mut fields: Vec<&str> = first.split(' ').collect();
    fields[11] = "77";
    let changed = answered.replacen(first, &fields.join(" "), 1);
    let path = file("changed", &changed);
    let output = run(&["check", path.to_str().expect("a name in UTF-8")], "");
    assert_eq!(output.status.code(), Some(1));
    let said = text(&output.stdout);
    assert!(said.starts_with("g3.0: executions begun: file 77, oracle "), "{said}");
    assert!(said.ends_with("4 cases agree, 1 differ\n"), "{said}");
}

#[test]
fn comparing_and_counting_say_how_many() {
    let output = run(&["compare", "3", "200"], "");
    assert!(output.status.success());
    assert_eq!(text(&output.stdout), "200 cases agree, 0 differ\n");
    let output = run(&["tally", "3", "200"], "");
    assert!(output.status.success());
    assert!(text(&output.stdout).starts_with("cases 200\n"));
}

#[test]
fn cases_are_picked_and_stated() {
    let picked = run(&["pick", "3", "30"], "");
    assert!(picked.status.success());
    let picked = text(&picked.stdout);
    assert!(picked.contains("\n# cases 30\n# executions "), "{picked}");
    let path = file("picked", &picked);
    let path = path.to_str().expect("a name in UTF-8");
    assert_eq!(text(&run(&["check", path], "").stdout), "30 cases agree, 0 differ\n");
    let stated = Folder::new("stated");
    let folder = stated.name();
    let output = run(&["state", path, SPECS, folder], "");
    assert_eq!(text(&output.stdout), "30 cases stated\n", "{}", text(&output.stderr));
    let last = fs::read_to_string(format!("{folder}/crates/part2/proofs/Case30.antt"));
    assert!(last.expect("the last case").ends_with("\ncase = refl\n"));
}

#[test]
fn a_case_is_asked_about_by_name() {
    let answered = text(&run(&["answer"], &text(&run(&["make", "3", "5"], "").stdout)).stdout);
    let path = file("asked", &answered);
    let path = path.to_str().expect("a name in UTF-8");
    let asked = Folder::new("asked");
    let folder = asked.name();
    refused(&["ask", path, "g3.5", SPECS, folder], "", "no case is called 'g3.5'");
    assert!(run(&["ask", path, "g3.4", SPECS, folder], "").status.success());
    let crates = fs::read_to_string(format!("{folder}/crates.txt")).expect("its crates");
    assert_eq!(crates, "rules:\ntold: rules\nask: rules told\n");
    let root = fs::read_to_string(format!("{folder}/crates/ask/proofs/Lib.antt"));
    let root = root.expect("its root");
    let questions: Vec<&str> = root.lines().filter_map(|line| line.strip_prefix("mod ")).collect();
    // All refused: no bit is set.
    let output = run(&[&["told", path, "g3.4"], &questions[..]].concat(), "");
    let said = text(&output.stdout);
    assert!(said.starts_with("g3.4: answer: oracle "), "{said}");
    assert!(said.ends_with(", definition 0\n"), "{said}");
}

#[test]
fn the_telling_cases_have_the_oracles_answers() {
    let output = run(&["check", "../definition/telling"], "");
    assert_eq!(text(&output.stdout), "55 cases agree, 0 differ\n");
}
