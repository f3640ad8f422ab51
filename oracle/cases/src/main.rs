//! Commands over cases. See `USAGE`.

use cases::command::{self, number, wrong, Outcome, Stop};
use cases::format::{answered, read_answered, read_case};
use cases::lines::{Lines, Refused};
use cases::pick::{self, Answered};
use cases::run::by_oracle;
use cases::state::ask::{questions, told};
use cases::state::definition::Definition;
use cases::state::{self, Part};
use cases::{compare, list, tally};
use std::fs::File;
use std::io::{self, BufRead, BufReader, Write};
use std::path::Path;
use std::process::ExitCode;

const USAGE: &str = "\
usage: cases make SEED COUNT      print COUNT generated cases
       cases answer [FILE]        print the cases of FILE, or of standard input, with answers
       cases check FILE           run the answered cases of FILE again and compare
       cases tally SEED COUNT     count what COUNT generated cases bring up
       cases compare SEED COUNT   compare oracle and plain implementation over COUNT cases
       cases list                 print the fixed list of answers
       cases pick SEED COUNT      print COUNT small generated cases with answers, and their tally
       cases hand                 print the small hand-built cases likewise
       cases state FILE SPECS FOLDER      write the repository that states the answers of FILE
       cases ask FILE NAME SPECS FOLDER   write the one that asks what is given for a case
       cases told FILE NAME REFUSED..     say what differs, by the questions that were refused
exit status: 0 well, 1 answers that are not as they should be, 2 unusable input, 3 a fault of an
explorer (which is never an answer)
";

/// How many differences are shown.
const SHOWN: usize = 5;

fn main() -> ExitCode {
    command::status("cases", |arguments, out| run(arguments, out))
}

fn run(arguments: &[String], out: &mut impl Write) -> Outcome {
    let words: Vec<&str> = arguments.iter().map(String::as_str).collect();
    if let ["help" | "--help" | "-h"] = words[..] {
        out.write_all(USAGE.as_bytes())?;
        return Ok(true);
    }
    if let Some(word) = words.iter().find(|word| word.starts_with('-')) {
        return Err(Stop::Input(format!("unknown option '{word}'")));
    }
    match words[..] {
        ["make", seed, count] => make(number(seed)?, number(count)?, out),
        ["answer"] => answer("standard input", io::stdin().lock(), out),
        ["answer", file] => answer(file, open(file)?, out),
        ["check", file] => check(file, out),
        ["tally", seed, count] => tally_over(number(seed)?, number(count)?, out),
        ["compare", seed, count] => compare_over(number(seed)?, number(count)?, out),
        ["list"] => match list::write(out)? {
            Ok(()) => Ok(true),
            Err(fault) => Err(Stop::Explorer(fault)),
        },
        ["pick", seed, count] => pick_from(number(seed)?, number(count)?, out),
        ["hand"] => print_picked(&pick::hand().map_err(Stop::Explorer)?, out),
        ["state", file, specs, folder] => state_all(file, specs, folder, out),
        ["ask", file, name, specs, folder] => ask(&named(file, name)?, specs, folder),
        ["told", file, name, ref refused @ ..] => {
            writeln!(out, "{}", told(&named(file, name)?, refused))?;
            Ok(true)
        }
        [] => Err(Stop::Input("no command; try 'cases help'".to_string())),
        [command, ..] => Err(Stop::Input(wrong("cases", USAGE, command))),
    }
}

fn open(file: &str) -> Result<BufReader<File>, Stop> {
    match File::open(file) {
        Ok(opened) => Ok(BufReader::new(opened)),
        Err(error) => Err(Refused::file(file, error).into()),
    }
}

fn make(seed: u64, count: u64, out: &mut impl Write) -> Outcome {
    for index in 0..count {
        writeln!(out, "{}", cases::case(seed, index))?;
    }
    Ok(true)
}

fn answer(file: &str, reader: impl BufRead, out: &mut impl Write) -> Outcome {
    for case in Lines::new(file, reader, read_case) {
        let case = case?;
        let answer = by_oracle(&case).map_err(Stop::Explorer)?;
        writeln!(out, "{}", answered(&case, &answer))?;
    }
    Ok(true)
}

fn check(file: &str, out: &mut impl Write) -> Outcome {
    let (mut agreed, mut differing) = (0, 0);
    for line in Lines::new(file, open(file)?, read_answered) {
        let (case, given) = line?;
        let now = by_oracle(&case).map_err(Stop::Explorer)?;
        let differences = compare::differences(["file", "oracle"], [&given, &now]);
        if differences.is_empty() {
            agreed += 1;
            continue;
        }
        differing += 1;
        for difference in differences {
            writeln!(out, "{}: {difference}", case.name)?;
        }
    }
    writeln!(out, "{agreed} cases agree, {differing} differ")?;
    Ok(differing == 0)
}

fn tally_over(seed: u64, count: u64, out: &mut impl Write) -> Outcome {
    let tally = tally::tally(seed, count).map_err(Stop::Explorer)?;
    write!(out, "{tally}")?;
    let missing = tally.missing();
    for answer in &missing {
        writeln!(out, "too seldom: answer {answer}")?;
    }
    Ok(missing.is_empty())
}

fn compare_over(seed: u64, count: u64, out: &mut impl Write) -> Outcome {
    let outcome = compare::compare(seed, count).map_err(Stop::Explorer)?;
    for (_, case, differences) in outcome.differing.iter().take(SHOWN) {
        writeln!(out, "{case}")?;
        for difference in differences {
            writeln!(out, "  {difference}")?;
        }
    }
    let differing = outcome.differing.len();
    writeln!(out, "{} cases agree, {differing} differ", outcome.agreed)?;
    Ok(differing == 0)
}

fn pick_from(seed: u64, count: u64, out: &mut impl Write) -> Outcome {
    let picked = pick::pick(seed, count).map_err(Stop::Explorer)?;
    print_picked(&picked, out)?;
    Ok(picked.len() as u64 == count)
}

/// Answered cases, and what they bring up as comments.
fn print_picked(picked: &[Answered], out: &mut impl Write) -> Outcome {
    for (case, answer) in picked {
        writeln!(out, "{}", answered(case, answer))?;
    }
    for line in pick::tally(picked).to_string().lines() {
        writeln!(out, "# {line}")?;
    }
    Ok(true)
}

fn state_all(file: &str, specs: &str, folder: &str, out: &mut impl Write) -> Outcome {
    let definition = Definition::read(specs)?;
    let cases: Result<Vec<Answered>, Refused> = answered_in(file)?.collect();
    let cases = cases?;
    write_repository(&state::statements(&cases, &definition), &definition, folder)?;
    writeln!(out, "{} cases stated", cases.len())?;
    Ok(true)
}

fn ask(case: &Answered, specs: &str, folder: &str) -> Outcome {
    let definition = Definition::read(specs)?;
    write_repository(&[questions(case, &definition)], &definition, folder)
}

fn answered_in(file: &str) -> Result<impl Iterator<Item = Result<Answered, Refused>>, Stop> {
    Ok(Lines::new(file, open(file)?, read_answered))
}

/// The case of this name.
fn named(file: &str, name: &str) -> Result<Answered, Stop> {
    for line in answered_in(file)? {
        let line = line?;
        if line.0.name == name {
            return Ok(line);
        }
    }
    Err(Refused::file(file, format!("no case is called '{name}'")).into())
}

fn write_repository(parts: &[Part], definition: &Definition, folder: &str) -> Outcome {
    match state::write(&state::repository(parts, definition), Path::new(folder)) {
        Ok(()) => Ok(true),
        Err(error) => Err(Refused::file(folder, error).into()),
    }
}
