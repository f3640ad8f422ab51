//! The definition's files, and the names that a statement has to unfold so that it computes.

use crate::lines::Refused;
use std::fs;
use std::path::Path;

/// The files of a crate's `specs`.
#[derive(Debug)]
pub struct Definition {
    pub files: Vec<Source>,
}

/// One antt file.
#[derive(Debug)]
pub struct Source {
    /// The file's name without its end.
    pub name: String,
    pub text: String,
    /// The definitions that stay shut unless a statement names them.
    pub shut: Vec<String>,
}

impl Definition {
    /// Reads every antt file of a folder. Nothing is known of them beforehand, so that a definition
    /// that is added, renamed or moved is met as it stands.
    pub fn read(folder: &str) -> Result<Definition, Refused> {
        let refuse = |error| Refused::file(folder, error);
        let mut files = Vec::new();
        for entry in fs::read_dir(folder).map_err(refuse)? {
            let path = entry.map_err(refuse)?.path();
            let (name, end) = (part(path.file_stem()), part(path.extension()));
            if end != "antt" {
                continue;
            }
            let shown = path.display().to_string();
            let text = fs::read_to_string(&path).map_err(|error| Refused::file(&shown, error))?;
            files.push(Source::new(&name, text).map_err(|what| Refused::file(&shown, what))?);
        }
        files.sort_by(|a, b| a.name.cmp(&b.name));
        match Path::new(folder).join("Explored.antt").is_file() {
            true => Ok(Definition { files }),
            false => Err(Refused::file(folder, "no Explored.antt is here: not the definition")),
        }
    }
}

fn part(name: Option<&std::ffi::OsStr>) -> String {
    name.map_or_else(String::new, |name| name.to_string_lossy().into_owned())
}

impl Source {
    pub fn new(name: &str, text: String) -> Result<Source, String> {
        let marked = text.lines().filter(|line| line.trim_start().starts_with("unfoldable "));
        let shut: Result<_, String> = marked.map(marked_name).collect();
        Ok(Source { name: name.to_string(), shut: shut?, text })
    }
}

/// The name of a line `unfoldable pub NAME : TYPE`. Any other mark is refused rather than passed
/// over: a name that is missing would leave statements that do not compute.
fn marked_name(line: &str) -> Result<String, String> {
    let words: Vec<&str> = line.split_whitespace().collect();
    match words[..] {
        ["unfoldable", "abbrev", "pub", name, ":", ..] | ["unfoldable", "pub", name, ":", ..] => {
            Ok(name.to_string())
        }
        _ => Err(format!("a mark that is not understood: '{}'", line.trim())),
    }
}

#[cfg(test)]
mod tests {
    use super::*;

    #[test]
    fn names_are_read_where_they_are_marked() {
        let text = "\
            -- unfoldable pub remark : ℕ\n\
            unfoldable pub f : ℕ → ℕ\n\
            unfolding g\n\
            f n = n\n\
            abbrev pub h : ℕ\n\
            module _ (M : Machine) where\n  unfoldable pub tick' : ℕ\n";
        let source = Source::new("Some", text.to_string()).expect("a source");
        assert_eq!(source.shut, ["f", "tick'"]);
    }

    #[test]
    fn a_mark_that_is_not_understood_is_refused() {
        for line in ["unfoldable mutual", "unfoldable pub use Low.{f}", "  unfoldable f : ℕ"] {
            let told = Source::new("Some", format!("-- a file\n{line}\n")).expect_err(line);
            assert_eq!(told, format!("a mark that is not understood: '{}'", line.trim()));
        }
    }

    #[test]
    fn the_definition_is_read_whole() {
        let folder = concat!(env!("CARGO_MANIFEST_DIR"), "/../../crates/rules/specs");
        let definition = Definition::read(folder).expect("the definition");
        let shut = |name: &str| {
            let source = definition.files.iter().find(|source| source.name == name);
            source.expect(name).shut.clone()
        };
        assert!(shut("Explored").contains(&"explored_into".to_string()));
        assert!(shut("Explorer").contains(&"tick".to_string()));
        assert!(shut("Lib").is_empty());
    }

    #[test]
    fn another_folder_is_refused() {
        let told = Definition::read(concat!(env!("CARGO_MANIFEST_DIR"), "/src"));
        assert!(told.expect_err("no definition").to_string().contains("no Explored.antt"));
        assert!(Definition::read("no such folder").is_err());
    }
}
